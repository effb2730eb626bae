/* Reads a day sheet on standard input, plans the day and prints the board: one line for each landing, by landing period, then by
 * due period, then in sheet order. */
#include "../../include/hold_desk.h"
#include <stdio.h>

static int refused(uint64_t number, uint64_t first, uint64_t second)
{
    fprintf(stderr, "refusal,first,second\n%llu,%llu,%llu\n", (unsigned long long)number, (unsigned long long)first, (unsigned long long)second);
    return 1;
}

int main(void)
{
    /* One byte more than any sheet has: a longer one is cut there, and refused for its length. */
    static uint8_t sheet[HOLD_DESK_MOST_SHEET_BYTES + 1];
    static uint32_t capacities[HOLD_DESK_MOST_PERIODS], flights[HOLD_DESK_FLIGHT_ROW], prices[HOLD_DESK_MOST_PRICES];
    static uint32_t holds[HOLD_DESK_MOST_FLIGHTS], board[HOLD_DESK_MOST_FLIGHTS];
    size_t length = fread(sheet, 1, sizeof sheet, stdin);
    if (ferror(stdin)) {
        fprintf(stderr, "cannot read the sheet\n");
        return 2;
    }
    hold_desk_reading day = hold_desk_read_sheet(sheet, length, capacities, HOLD_DESK_MOST_PERIODS, flights, HOLD_DESK_FLIGHT_ROW);
    if (day.number != HOLD_DESK_ACCEPTED) return refused(day.number, day.first, day.second);
    size_t periods = (size_t)day.first, count = (size_t)day.second, entries = count * HOLD_DESK_FLIGHT_WIDTH;
    /* Under a curfew the closing period has a price too. */
    uint32_t closing = (uint32_t)day.closing;
    size_t priced = closing == HOLD_DESK_NO_CURFEW ? periods : periods + 1;
    hold_desk_answer plan = hold_desk_full_plan(capacities, periods, flights, entries, closing, holds, count, prices, priced);
    if (plan.number != HOLD_DESK_ACCEPTED) return refused(plan.number, plan.first, plan.second);
    hold_desk_answer made = hold_desk_board(capacities, periods, flights, entries, closing, holds, count, board, count);
    if (made.number != HOLD_DESK_ACCEPTED) return refused(made.number, made.first, made.second);
    printf("lands,flight,hold\n");
    for (size_t i = 0; i < count; i++) {
        const uint32_t *flight = flights + board[i] * HOLD_DESK_FLIGHT_WIDTH;
        uint32_t hold = holds[board[i]];
        printf("%lu,%lu,%lu\n", (unsigned long)(flight[HOLD_DESK_DUE] + hold), (unsigned long)flight[HOLD_DESK_FLIGHT_NUMBER], (unsigned long)hold);
    }
    printf("total\n%llu\n", (unsigned long long)plan.first);
    return 0;
}
