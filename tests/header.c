/* Every export called through include/hold_desk.h, with answers and rows compared. One source for C11 and for C++17. */
#include "../include/hold_desk.h"
#include <stdio.h>
#include <stdlib.h>
#include <string.h>

enum { MARK = 77 }; /* what rows and buffers hold before a call */

static void fail(const char *what)
{
    fprintf(stderr, "tests/header.c: %s\n", what);
    exit(1);
}

static void expect(const char *what, bool holds)
{
    if (!holds) fail(what);
}

static void expect_answer(const char *what, hold_desk_answer got, uint64_t number, uint64_t first, uint64_t second)
{
    if (got.number == number && got.first == first && got.second == second) return;
    fprintf(stderr, "tests/header.c: %s: %llu,%llu,%llu for %llu,%llu,%llu\n", what, (unsigned long long)got.number, (unsigned long long)got.first, (unsigned long long)got.second, (unsigned long long)number, (unsigned long long)first, (unsigned long long)second);
    exit(1);
}

static void expect_reading(const char *what, hold_desk_reading got, uint64_t number, uint64_t first, uint64_t second, uint64_t closing)
{
    hold_desk_answer answer = { got.number, got.first, got.second };
    expect_answer(what, answer, number, first, second);
    if (got.closing == closing) return;
    fprintf(stderr, "tests/header.c: %s: closing %llu, not %llu\n", what, (unsigned long long)got.closing, (unsigned long long)closing);
    exit(1);
}

static void expect_card(const char *what, hold_desk_card got, uint64_t number, uint64_t first, uint64_t low, uint64_t high, uint64_t size)
{
    if (got.number == number && got.first == first && got.second == 0 && got.low == low && got.high == high && got.size == size) return;
    fprintf(stderr, "tests/header.c: %s: %llu,%llu,%llu with %llx,%llx,%llu\n", what, (unsigned long long)got.number, (unsigned long long)got.first, (unsigned long long)got.second, (unsigned long long)got.low, (unsigned long long)got.high, (unsigned long long)got.size);
    exit(1);
}

static void expect_row(const char *what, const uint32_t *got, const uint32_t *want, size_t length)
{
    for (size_t i = 0; i < length; i++)
        if (got[i] != want[i]) {
            fprintf(stderr, "tests/header.c: %s: entry %lu is %lu, not %lu\n", what, (unsigned long)i, (unsigned long)got[i], (unsigned long)want[i]);
            exit(1);
        }
}

static void mark(uint32_t *row, size_t length)
{
    for (size_t i = 0; i < length; i++) row[i] = MARK;
}

static void expect_marked(const char *what, const uint32_t *row, size_t from, size_t to)
{
    for (size_t i = from; i < to; i++) expect(what, row[i] == MARK);
}

/* Case B of document 01: its sheet, its rows, its plan. */
static const char SHEET[] =
    "period,capacity\n1,1\n2,1\n"
    "flight,due,rate,after,jump,limit,late\n11,1,10,0,0,-,0\n12,1,4,0,0,-,0\n13,2,6,0,0,1,0\n";
static const char PLAN[] = "flight,due,lands,hold,cost\n11,1,1,0,0\n12,1,3,2,8\n13,2,2,0,0\ntotal\n8\n";
static const uint32_t CAPACITIES[] = { 1, 1 };
static const uint32_t FLIGHTS[] = {
    11, 1, 10, 0, 0, HOLD_DESK_NO_LIMIT, 0,
    12, 1, 4, 0, 0, HOLD_DESK_NO_LIMIT, 0,
    13, 2, 6, 0, 0, 1, 0
};
static const uint32_t HOLDS[] = { 0, 2, 0 };
enum { P = 2, N = 3, ENTRIES = N * HOLD_DESK_FLIGHT_WIDTH, OPEN = HOLD_DESK_NO_CURFEW };

static const uint8_t *bytes(const char *text)
{
    return (const uint8_t *)text;
}

static void reading(void)
{
    static uint32_t c[HOLD_DESK_MOST_PERIODS + 1], f[HOLD_DESK_FLIGHT_ROW + 1];
    static uint8_t longest[HOLD_DESK_MOST_SHEET_BYTES + 1];
    const size_t cn = HOLD_DESK_MOST_PERIODS, fn = HOLD_DESK_FLIGHT_ROW;
    const char *bad_line = "period,capacity\n1,01\n", *bad_range = "period,capacity\n1,256\n", *no_period = "period,capacity\nflight,due,rate,after,jump,limit,late\n";
    const char *used = "period,capacity\n1,1\nflight,due,rate,after,jump,limit,late\n5,1,1,0,0,-,0\n5,1,1,0,0,-,0\n";
    const char *old_form = "period,capacity\n1,1\nflight,due,rate,after,jump,limit\n5,1,1,0,0,-\n";
    const char *late_256 = "period,capacity\n1,1\nflight,due,rate,after,jump,limit,late\n5,1,1,0,0,-,256\n";
    memset(longest, '1', sizeof longest);
    mark(c, cn + 1);
    mark(f, fn + 1);
    expect_reading("read_sheet of a longer capacity row", hold_desk_read_sheet(bytes(SHEET), strlen(SHEET), c, cn + 1, f, fn), HOLD_DESK_BAD_LENGTH, cn, 0, 0);
    expect_reading("read_sheet of a shorter flight row", hold_desk_read_sheet(bytes(SHEET), strlen(SHEET), c, cn, f, fn - 1), HOLD_DESK_BAD_LENGTH, fn, 0, 0);
    expect_reading("read_sheet of 8,193 bytes", hold_desk_read_sheet(longest, sizeof longest, c, cn, f, fn), HOLD_DESK_SHEET_TOO_LONG, HOLD_DESK_MOST_SHEET_BYTES, 0, 0);
    expect_reading("read_sheet of 8,192 bytes", hold_desk_read_sheet(longest, sizeof longest - 1, c, cn, f, fn), HOLD_DESK_BAD_LINE, 0, 0, 0);
    expect_reading("read_sheet of nothing", hold_desk_read_sheet(NULL, 0, c, cn, f, fn), HOLD_DESK_BAD_LINE, 0, 0, 0);
    expect_reading("read_sheet of a leading zero", hold_desk_read_sheet(bytes(bad_line), strlen(bad_line), c, cn, f, fn), HOLD_DESK_BAD_LINE, 16, 0, 0);
    expect_reading("read_sheet of capacity 256", hold_desk_read_sheet(bytes(bad_range), strlen(bad_range), c, cn, f, fn), HOLD_DESK_OUT_OF_RANGE, 16, 0, 0);
    expect_reading("read_sheet of a number used above", hold_desk_read_sheet(bytes(used), strlen(used), c, cn, f, fn), HOLD_DESK_NUMBER_USED, 72, 0, 0);
    expect_reading("read_sheet without the column late", hold_desk_read_sheet(bytes(old_form), strlen(old_form), c, cn, f, fn), HOLD_DESK_BAD_LINE, 20, 0, 0);
    expect_reading("read_sheet of late 256", hold_desk_read_sheet(bytes(late_256), strlen(late_256), c, cn, f, fn), HOLD_DESK_OUT_OF_RANGE, 58, 0, 0);
    expect_reading("read_sheet without a period", hold_desk_read_sheet(bytes(no_period), strlen(no_period), c, cn, f, fn), HOLD_DESK_BAD_COUNT, 16, 0, 0);
    expect_marked("read_sheet's refusals change the capacity row", c, 0, cn + 1);
    expect_marked("read_sheet's refusals change the flight row", f, 0, fn + 1);
    expect_reading("read_sheet", hold_desk_read_sheet(bytes(SHEET), strlen(SHEET), c, cn, f, fn), HOLD_DESK_ACCEPTED, P, N, OPEN);
    expect_row("read_sheet's capacities", c, CAPACITIES, P);
    expect_row("read_sheet's flights", f, FLIGHTS, ENTRIES);
    expect_marked("read_sheet changes capacities past the day", c, P, cn + 1);
    expect_marked("read_sheet changes flights past the day", f, ENTRIES, fn + 1);
    expect("the fields' names", f[HOLD_DESK_FLIGHT_WIDTH + HOLD_DESK_FLIGHT_NUMBER] == 12 && f[HOLD_DESK_FLIGHT_WIDTH + HOLD_DESK_DUE] == 1 && f[HOLD_DESK_FLIGHT_WIDTH + HOLD_DESK_RATE] == 4 && f[HOLD_DESK_FLIGHT_WIDTH + HOLD_DESK_AFTER] == 0 && f[HOLD_DESK_FLIGHT_WIDTH + HOLD_DESK_JUMP] == 0 && f[HOLD_DESK_FLIGHT_WIDTH + HOLD_DESK_LIMIT] == HOLD_DESK_NO_LIMIT && f[HOLD_DESK_FLIGHT_WIDTH + HOLD_DESK_LATE] == 0);
}

/* Case B with a closing line, just kept and too tight: what each call makes of the closing number, and of one that is out of range. */
static const char CURFEW_SHEET[] =
    "period,capacity\n1,1\n2,1\nclosing,1\n"
    "flight,due,rate,after,jump,limit,late\n11,1,10,0,0,-,0\n12,1,4,0,0,-,0\n13,2,6,0,0,1,0\n";

static void closing_lines(void)
{
    static uint32_t c[HOLD_DESK_MOST_PERIODS], f[HOLD_DESK_FLIGHT_ROW];
    const size_t cn = HOLD_DESK_MOST_PERIODS, fn = HOLD_DESK_FLIGHT_ROW;
    const char *at_once = "period,capacity\nclosing,1", *bad_line = "period,capacity\n1,1\nclosing,01\n", *bad_range = "period,capacity\n1,1\nclosing,256\n";
    const char *twice = "period,capacity\n1,1\nclosing,1\nclosing,1\n", *ends = "period,capacity\n1,1\nclosing,1\n", *ordinary = "period,capacity\n1,1\nclosing\n";
    mark(c, cn);
    mark(f, fn);
    expect_reading("read_sheet of a closing line straight behind the names", hold_desk_read_sheet(bytes(at_once), strlen(at_once), c, cn, f, fn), HOLD_DESK_BAD_COUNT, 16, 0, 0);
    expect_reading("read_sheet of a closing line that is no number", hold_desk_read_sheet(bytes(bad_line), strlen(bad_line), c, cn, f, fn), HOLD_DESK_BAD_LINE, 20, 0, 0);
    expect_reading("read_sheet of closing,256", hold_desk_read_sheet(bytes(bad_range), strlen(bad_range), c, cn, f, fn), HOLD_DESK_OUT_OF_RANGE, 20, 0, 0);
    expect_reading("read_sheet of two closing lines", hold_desk_read_sheet(bytes(twice), strlen(twice), c, cn, f, fn), HOLD_DESK_BAD_LINE, 30, 0, 0);
    expect_reading("read_sheet that ends after its closing line", hold_desk_read_sheet(bytes(ends), strlen(ends), c, cn, f, fn), HOLD_DESK_BAD_LINE, 30, 0, 0);
    expect_reading("read_sheet of closing alone", hold_desk_read_sheet(bytes(ordinary), strlen(ordinary), c, cn, f, fn), HOLD_DESK_BAD_LINE, 20, 0, 0);
    expect_marked("a closing line's refusal changes the capacity row", c, 0, cn);
    expect_marked("a closing line's refusal changes the flight row", f, 0, fn);
    expect_reading("read_sheet of a curfew", hold_desk_read_sheet(bytes(CURFEW_SHEET), strlen(CURFEW_SHEET), c, cn, f, fn), HOLD_DESK_ACCEPTED, P, N, 1);
    expect_row("read_sheet's capacities of a curfew", c, CAPACITIES, P);
    expect_row("read_sheet's flights of a curfew", f, FLIGHTS, ENTRIES);
    expect_marked("read_sheet of a curfew changes capacities past the day", c, P, cn);
}

/* The text stands in the buffer from place 3 on, and nothing else is changed; or nothing is changed. */
static void expect_text(const char *what, const uint8_t *buffer, size_t size, const char *text)
{
    size_t length = strlen(text);
    for (size_t i = 0; i < size; i++) {
        bool inside = length > 0 && i >= 3 && i < 3 + length;
        expect(what, buffer[i] == (inside ? (uint8_t)text[i - 3] : (uint8_t)MARK));
    }
}

static void writing(void)
{
    uint8_t text[HOLD_DESK_MOST_PLAN_BYTES + 1];
    const size_t sheet = strlen(SHEET), plan = strlen(PLAN);
    const uint32_t early[] = { 0, 0, 0 };
    memset(text, MARK, sizeof text);
    expect_answer("write_sheet of a bad day", hold_desk_write_sheet(CAPACITIES, 0, FLIGHTS, ENTRIES, OPEN, text, sizeof text, 0), HOLD_DESK_BAD_DAY, 0, 0);
    expect_answer("write_sheet with one byte too few", hold_desk_write_sheet(CAPACITIES, P, FLIGHTS, ENTRIES, OPEN, text, sheet + 2, 3), HOLD_DESK_BAD_LENGTH, sheet, 0);
    expect_answer("write_sheet beyond the buffer", hold_desk_write_sheet(CAPACITIES, P, FLIGHTS, ENTRIES, OPEN, text, sizeof text, SIZE_MAX), HOLD_DESK_BAD_LENGTH, sheet, 0);
    expect_answer("plan_text of a bad day", hold_desk_plan_text(CAPACITIES, P, FLIGHTS, ENTRIES - 1, OPEN, HOLDS, N, text, sizeof text, 0), HOLD_DESK_BAD_DAY, 0, 0);
    expect_answer("plan_text of a shorter row", hold_desk_plan_text(CAPACITIES, P, FLIGHTS, ENTRIES, OPEN, HOLDS, N - 1, text, sizeof text, 0), HOLD_DESK_BAD_LENGTH, N, 0);
    expect_answer("plan_text of a row that is not legal", hold_desk_plan_text(CAPACITIES, P, FLIGHTS, ENTRIES, OPEN, early, N, text, 0, 0), HOLD_DESK_NOT_LEGAL, 1, 0);
    expect_answer("plan_text with one byte too few", hold_desk_plan_text(CAPACITIES, P, FLIGHTS, ENTRIES, OPEN, HOLDS, N, text, plan + 2, 3), HOLD_DESK_BAD_LENGTH, plan, 0);
    expect_text("the texts' refusals change the buffer", text, sizeof text, "");
    expect_answer("write_sheet", hold_desk_write_sheet(CAPACITIES, P, FLIGHTS, ENTRIES, OPEN, text, sheet + 3, 3), HOLD_DESK_ACCEPTED, sheet, 0);
    expect_text("write_sheet's text", text, sizeof text, SHEET);
    memset(text, MARK, sizeof text);
    expect_answer("plan_text", hold_desk_plan_text(CAPACITIES, P, FLIGHTS, ENTRIES, OPEN, HOLDS, N, text, plan + 3, 3), HOLD_DESK_ACCEPTED, plan, 0);
    expect_text("plan_text's text", text, sizeof text, PLAN);
}

/* The calls under a curfew: flight 12 lands in the closing period, or nobody may. */
static void curfew(void)
{
    const uint32_t right[] = { 8, 4, 0 }, raised[] = { 9, 5, 1 }, alone[] = { 8, 4, 1 };
    uint32_t holds[N], prices[P + 1], board[N], plain[ENTRIES];
    uint8_t text[HOLD_DESK_MOST_PLAN_BYTES];
    const size_t sheet = strlen(CURFEW_SHEET), plan = strlen(PLAN);
    memcpy(plain, FLIGHTS, sizeof plain);
    plain[2 * HOLD_DESK_FLIGHT_WIDTH + HOLD_DESK_LIMIT] = HOLD_DESK_NO_LIMIT;
    mark(holds, N);
    mark(prices, P + 1);
    mark(board, N);
    memset(text, MARK, sizeof text);
    expect_answer("full_plan without a closing price", hold_desk_full_plan(CAPACITIES, P, FLIGHTS, ENTRIES, 0, holds, N, prices, P), HOLD_DESK_BAD_LENGTH, P + 1, 0);
    expect_answer("full_plan of a curfew that is too tight", hold_desk_full_plan(CAPACITIES, P, FLIGHTS, ENTRIES, 0, holds, N, prices, P + 1), HOLD_DESK_NO_PLAN, 1, P + 1);
    expect_answer("quick_plan of a curfew that is too tight", hold_desk_quick_plan(CAPACITIES, P, plain, ENTRIES, 0, holds, N), HOLD_DESK_NO_PLAN, 1, P + 1);
    expect_answer("growth_plan of a curfew that is too tight", hold_desk_growth_plan(CAPACITIES, P, plain, ENTRIES, 0, 5, holds, N), HOLD_DESK_NO_PLAN, 1, P + 1);
    expect_answer("board of a curfew that is passed", hold_desk_board(CAPACITIES, P, FLIGHTS, ENTRIES, 0, HOLDS, N, board, N), HOLD_DESK_NOT_LEGAL, 1, 0);
    expect_answer("plan_text of a curfew that is passed", hold_desk_plan_text(CAPACITIES, P, FLIGHTS, ENTRIES, 0, HOLDS, N, text, sizeof text, 3), HOLD_DESK_NOT_LEGAL, 1, 0);
    expect_answer("read_plan of a curfew that is too tight", hold_desk_read_plan(CAPACITIES, P, FLIGHTS, ENTRIES, 0, bytes(PLAN), plan, holds, N), HOLD_DESK_BAD_PLAN_TEXT, 0, 0);
    expect("choice of a curfew that is passed", hold_desk_choice(CAPACITIES, P, FLIGHTS, ENTRIES, 0, HOLDS, N, HOLDS, N) == 0);
    expect("price_check of a curfew that is passed", !hold_desk_price_check(CAPACITIES, P, FLIGHTS, ENTRIES, 0, HOLDS, N, right, P + 1));
    expect_marked("a curfew's refusals change the hold row", holds, 0, N);
    expect_marked("a curfew's refusals change the price row", prices, 0, P + 1);
    expect_marked("a curfew's refusals change the board row", board, 0, N);
    expect_text("a curfew's refusals change the buffer", text, sizeof text, "");
    expect_card("period_card under a curfew", hold_desk_period_card(CAPACITIES, P, plain, ENTRIES, 0, 2), HOLD_DESK_ACCEPTED, 0, 6, 0, 2);
    expect_answer("full_plan of a curfew", hold_desk_full_plan(CAPACITIES, P, FLIGHTS, ENTRIES, 1, holds, N, prices, P + 1), HOLD_DESK_ACCEPTED, 8, 0);
    expect_row("full_plan's holds of a curfew", holds, HOLDS, N);
    expect_row("full_plan's prices of a curfew", prices, right, P + 1);
    expect("price_check of a closing price 0", hold_desk_price_check(CAPACITIES, P, FLIGHTS, ENTRIES, 1, HOLDS, N, right, P + 1));
    expect("price_check of all prices raised", hold_desk_price_check(CAPACITIES, P, FLIGHTS, ENTRIES, 1, HOLDS, N, raised, P + 1));
    expect("price_check of the closing price raised alone", !hold_desk_price_check(CAPACITIES, P, FLIGHTS, ENTRIES, 1, HOLDS, N, alone, P + 1));
    expect("price_check of a closing period with room", !hold_desk_price_check(CAPACITIES, P, FLIGHTS, ENTRIES, 2, HOLDS, N, raised, P + 1));
    expect("price_check without a closing price", !hold_desk_price_check(CAPACITIES, P, FLIGHTS, ENTRIES, 1, HOLDS, N, right, P));
    expect_answer("quick_plan of a curfew", hold_desk_quick_plan(CAPACITIES, P, plain, ENTRIES, 1, holds, N), HOLD_DESK_ACCEPTED, 8, 0);
    expect_answer("growth_plan of a curfew", hold_desk_growth_plan(CAPACITIES, P, plain, ENTRIES, 1, 0, holds, N), HOLD_DESK_ACCEPTED, 8000000, 0);
    expect_answer("board of a curfew", hold_desk_board(CAPACITIES, P, FLIGHTS, ENTRIES, 1, HOLDS, N, board, N), HOLD_DESK_ACCEPTED, 0, 0);
    expect_answer("read_plan of a curfew", hold_desk_read_plan(CAPACITIES, P, FLIGHTS, ENTRIES, 1, bytes(PLAN), plan, holds, N), HOLD_DESK_ACCEPTED, 8, 0);
    expect_answer("plan_text of a curfew", hold_desk_plan_text(CAPACITIES, P, FLIGHTS, ENTRIES, 255, HOLDS, N, text, plan + 3, 3), HOLD_DESK_ACCEPTED, plan, 0);
    memset(text, MARK, sizeof text);
    expect_answer("write_sheet of a curfew with one byte too few", hold_desk_write_sheet(CAPACITIES, P, FLIGHTS, ENTRIES, 1, text, sheet + 2, 3), HOLD_DESK_BAD_LENGTH, sheet, 0);
    expect_answer("write_sheet of a curfew", hold_desk_write_sheet(CAPACITIES, P, FLIGHTS, ENTRIES, 1, text, sheet + 3, 3), HOLD_DESK_ACCEPTED, sheet, 0);
    expect_text("write_sheet's text of a curfew", text, sizeof text, CURFEW_SHEET);
}

/* A closing number above 256 makes a bad day, with rows that fit and with others. */
static void closing_refused(void)
{
    const uint32_t numbers[] = { 257, 512, UINT32_MAX }, right[] = { 8, 4, 0 }, odds[] = { 1000 }, forecast[] = { 1, 1 };
    uint32_t holds[N], prices[P + 1], board[N];
    uint8_t text[1];
    mark(holds, N);
    for (size_t k = 0; k < 3; k++) {
        uint32_t closing = numbers[k];
        expect_answer("write_sheet of closing 257", hold_desk_write_sheet(CAPACITIES, P, FLIGHTS, ENTRIES, closing, text, 0, 0), HOLD_DESK_BAD_DAY, 0, 0);
        expect_answer("quick_plan of closing 257", hold_desk_quick_plan(CAPACITIES, P, FLIGHTS, ENTRIES, closing, holds, 0), HOLD_DESK_BAD_DAY, 0, 0);
        expect_answer("growth_plan of closing 257", hold_desk_growth_plan(CAPACITIES, P, FLIGHTS, ENTRIES, closing, 41, holds, 0), HOLD_DESK_BAD_DAY, 0, 0);
        expect_card("period_card of closing 257", hold_desk_period_card(CAPACITIES, P, FLIGHTS, ENTRIES, closing, 0), HOLD_DESK_BAD_DAY, 0, 0, 0, 0);
        expect_answer("full_plan of closing 257", hold_desk_full_plan(CAPACITIES, P, FLIGHTS, ENTRIES, closing, holds, N, prices, 0), HOLD_DESK_BAD_DAY, 0, 0);
        expect("price_check of closing 257", !hold_desk_price_check(CAPACITIES, P, FLIGHTS, ENTRIES, closing, HOLDS, N, right, P));
        expect("price_check of closing 257 and a closing price", !hold_desk_price_check(CAPACITIES, P, FLIGHTS, ENTRIES, closing, HOLDS, N, right, P + 1));
        expect("choice of closing 257", hold_desk_choice(CAPACITIES, P, FLIGHTS, ENTRIES, closing, HOLDS, N, HOLDS, N) == 0);
        expect_answer("board of closing 257", hold_desk_board(CAPACITIES, P, FLIGHTS, ENTRIES, closing, HOLDS, N, board, 0), HOLD_DESK_BAD_DAY, 0, 0);
        expect_answer("plan_text of closing 257", hold_desk_plan_text(CAPACITIES, P, FLIGHTS, ENTRIES, closing, HOLDS, N, text, 0, 0), HOLD_DESK_BAD_DAY, 0, 0);
        expect_answer("read_plan of closing 257", hold_desk_read_plan(CAPACITIES, P, FLIGHTS, ENTRIES, closing, NULL, 0, holds, 0), HOLD_DESK_BAD_DAY, 0, 0);
        expect_answer("forecast_plan of closing 257", hold_desk_forecast_plan(CAPACITIES, P, FLIGHTS, ENTRIES, closing, 1, 0, odds, 1, forecast, 2, holds, N), HOLD_DESK_BAD_DAY, 0, 0);
    }
    expect_answer("forecast_plan of a curfew of 0", hold_desk_forecast_plan(CAPACITIES, P, FLIGHTS, ENTRIES, 0, 1, 1, odds, 1, forecast, 2, holds, 0), HOLD_DESK_BAD_TERMS, 0, 0);
    expect_answer("forecast_plan of a curfew of 255", hold_desk_forecast_plan(CAPACITIES, P, FLIGHTS, ENTRIES, 255, 1, 1, odds, 1, forecast, 2, holds, N), HOLD_DESK_BAD_TERMS, 0, 0);
    expect_marked("a closing number's refusals change the hold row", holds, 0, N);
}

/* As many flights as a day can have, which differ in number alone. */
static void all_like(uint32_t *flights, const uint32_t *first)
{
    for (uint32_t i = 0; i < HOLD_DESK_MOST_FLIGHTS; i++) {
        memcpy(flights + i * HOLD_DESK_FLIGHT_WIDTH, first, HOLD_DESK_FLIGHT_WIDTH * sizeof *flights);
        flights[i * HOLD_DESK_FLIGHT_WIDTH + HOLD_DESK_FLIGHT_NUMBER] += i;
    }
}

static void quick(void)
{
    uint32_t holds[N], plain[ENTRIES];
    const uint32_t want[] = { 0, 2, 0 };
    memcpy(plain, FLIGHTS, sizeof plain);
    plain[2 * HOLD_DESK_FLIGHT_WIDTH + HOLD_DESK_LIMIT] = HOLD_DESK_NO_LIMIT;
    mark(holds, N);
    expect_answer("quick_plan of a bad day", hold_desk_quick_plan(CAPACITIES, P, FLIGHTS, ENTRIES - 2, OPEN, holds, N), HOLD_DESK_BAD_DAY, 0, 0);
    expect_answer("quick_plan of a shorter row", hold_desk_quick_plan(CAPACITIES, P, FLIGHTS, ENTRIES, OPEN, holds, N - 1), HOLD_DESK_BAD_LENGTH, N, 0);
    expect_answer("quick_plan of a limit", hold_desk_quick_plan(CAPACITIES, P, FLIGHTS, ENTRIES, OPEN, holds, N), HOLD_DESK_JUMP_OR_LIMIT, 2, 0);
    expect_marked("quick_plan's refusals change the hold row", holds, 0, N);
    expect_answer("quick_plan", hold_desk_quick_plan(CAPACITIES, P, plain, ENTRIES, OPEN, holds, N), HOLD_DESK_ACCEPTED, 8, 0);
    expect_row("quick_plan's holds", holds, want, N);
    expect_card("period_card of a bad day", hold_desk_period_card(CAPACITIES, 0, plain, ENTRIES, OPEN, 1), HOLD_DESK_BAD_DAY, 0, 0, 0, 0);
    expect_card("period_card of a limit", hold_desk_period_card(CAPACITIES, P, FLIGHTS, ENTRIES, OPEN, 0), HOLD_DESK_JUMP_OR_LIMIT, 2, 0, 0, 0);
    expect_card("period_card of period 0", hold_desk_period_card(CAPACITIES, P, plain, ENTRIES, OPEN, 0), HOLD_DESK_BAD_PERIOD, P, 0, 0, 0);
    expect_card("period_card of period P+1", hold_desk_period_card(CAPACITIES, P, plain, ENTRIES, OPEN, P + 1), HOLD_DESK_BAD_PERIOD, P, 0, 0, 0);
    expect_card("period_card of period 1", hold_desk_period_card(CAPACITIES, P, plain, ENTRIES, OPEN, 1), HOLD_DESK_ACCEPTED, 0, 3, 0, 2);
    expect_card("period_card of period 2", hold_desk_period_card(CAPACITIES, P, plain, ENTRIES, OPEN, 2), HOLD_DESK_ACCEPTED, 0, 6, 0, 2);
}

/* Period 1 is closed, and period 2 takes one flight: the first, which is due there, or one of the others, which are due in period
 * 1. Another period of hold costs the first 12 then, and with a growth of a tenths each of the others 10 + a: less than 12 with 0
 * and 1, as much with 2, when the flight held longest goes first, and more with 5. Of the others the upper one goes first. */
static const uint32_t ONE_IN_2[] = { 0, 1 };
static const uint32_t WAITING[] = {
    1, 2, 12, 0, 0, HOLD_DESK_NO_LIMIT, 255, 2, 1, 10, 96, 0, HOLD_DESK_NO_LIMIT, 0, 3, 1, 10, 0, 0, HOLD_DESK_NO_LIMIT, 3
};

static void growth(void)
{
    const uint32_t growths[] = { 0, 1, 2, 5 }, due_lands[] = { 0, 2, 2 }, held_lands[] = { 1, 1, 2 };
    const uint64_t totals[] = { 40000000, 42000000, 44000000, 47000000 };
    uint32_t holds[N + 1];
    for (size_t k = 0; k < 4; k++) {
        mark(holds, N + 1);
        expect_answer("growth_plan", hold_desk_growth_plan(ONE_IN_2, 2, WAITING, ENTRIES, OPEN, growths[k], holds, N), HOLD_DESK_ACCEPTED, totals[k], 0);
        expect_row("growth_plan's holds", holds, growths[k] < 2 ? due_lands : held_lands, N);
        expect_marked("growth_plan changes the entry after the row", holds, N, N + 1);
    }
    expect_answer("quick_plan of the same day", hold_desk_quick_plan(ONE_IN_2, 2, WAITING, ENTRIES, OPEN, holds, N), HOLD_DESK_ACCEPTED, 40, 0);
    expect_row("quick_plan's holds of the same day", holds, due_lands, N);
    expect_answer("growth_plan of no flights", hold_desk_growth_plan(ONE_IN_2, 2, NULL, 0, OPEN, HOLD_DESK_MOST_GROWTH, NULL, 0), HOLD_DESK_ACCEPTED, 0, 0);
}

/* Each refusal, with all that come after it. */
static void growth_refused(void)
{
    const uint32_t more_periods[HOLD_DESK_MOST_GROWTH_PERIODS + 1] = { 1, 1 };
    const size_t p = HOLD_DESK_MOST_GROWTH_PERIODS + 1;
    uint32_t holds[N + 1];
    mark(holds, N + 1);
    expect_answer("growth_plan of a bad day", hold_desk_growth_plan(more_periods, p, FLIGHTS, ENTRIES - 1, OPEN, 41, holds, N), HOLD_DESK_BAD_DAY, 0, 0);
    expect_answer("growth_plan of a shorter row", hold_desk_growth_plan(more_periods, p, FLIGHTS, ENTRIES, OPEN, 41, holds, N - 1), HOLD_DESK_BAD_LENGTH, N, 0);
    expect_answer("growth_plan of a longer row", hold_desk_growth_plan(more_periods, p, FLIGHTS, ENTRIES, OPEN, 41, holds, N + 1), HOLD_DESK_BAD_LENGTH, N, 0);
    expect_answer("growth_plan of a limit", hold_desk_growth_plan(more_periods, p, FLIGHTS, ENTRIES, OPEN, 41, holds, N), HOLD_DESK_JUMP_OR_LIMIT, 2, 0);
    expect_answer("growth_plan of growth 41", hold_desk_growth_plan(ONE_IN_2, 2, WAITING, ENTRIES, OPEN, HOLD_DESK_MOST_GROWTH + 1, holds, N), HOLD_DESK_BAD_GROWTH, 0, 0);
    expect_answer("growth_plan of the largest growth", hold_desk_growth_plan(ONE_IN_2, 2, WAITING, ENTRIES, OPEN, UINT32_MAX, holds, N), HOLD_DESK_BAD_GROWTH, 0, 0);
    expect_answer("growth_plan of 7 periods", hold_desk_growth_plan(more_periods, p, WAITING, ENTRIES, OPEN, 0, holds, N), HOLD_DESK_BAD_GROWTH, 0, 0);
    expect_marked("growth_plan's refusals change the hold row", holds, 0, N + 1);
}

/* The largest total with a growth: all are due in period 1, and nobody lands before the closing period. */
static void dearest_growth(void)
{
    static uint32_t c[HOLD_DESK_MOST_GROWTH_PERIODS], f[HOLD_DESK_FLIGHT_ROW], holds[HOLD_DESK_MOST_FLIGHTS];
    const uint32_t first[] = { 1, 1, 10000, 0, 0, HOLD_DESK_NO_LIMIT, 0 };
    all_like(f, first);
    expect_answer("growth_plan of the largest total", hold_desk_growth_plan(c, HOLD_DESK_MOST_GROWTH_PERIODS, f, HOLD_DESK_FLIGHT_ROW, OPEN, HOLD_DESK_MOST_GROWTH, holds, HOLD_DESK_MOST_FLIGHTS), HOLD_DESK_ACCEPTED, HOLD_DESK_MOST_GROWTH_TOTAL, 0);
    for (size_t i = 0; i < HOLD_DESK_MOST_FLIGHTS; i++) expect("growth_plan's longest holds", holds[i] == HOLD_DESK_MOST_GROWTH_PERIODS);
}

static void full(void)
{
    uint32_t holds[N], prices[P];
    const uint32_t one[] = { 1 }, stuck[] = { 1, 1, 1, 0, 0, 0, 0, 2, 1, 1, 0, 0, 0, 0 }, low[] = { 7, 4 }, right[] = { 8, 4 }, high[] = { 9, 4 };
    mark(holds, N);
    mark(prices, P);
    expect_answer("full_plan of a bad day", hold_desk_full_plan(CAPACITIES, P, FLIGHTS, ENTRIES - 1, OPEN, holds, N, prices, P), HOLD_DESK_BAD_DAY, 0, 0);
    expect_answer("full_plan of a shorter hold row", hold_desk_full_plan(CAPACITIES, P, FLIGHTS, ENTRIES, OPEN, holds, N - 1, prices, P - 1), HOLD_DESK_BAD_LENGTH, N, 0);
    expect_answer("full_plan of a shorter price row", hold_desk_full_plan(CAPACITIES, P, FLIGHTS, ENTRIES, OPEN, holds, N, prices, P - 1), HOLD_DESK_BAD_LENGTH, P, 0);
    expect_answer("full_plan of case D", hold_desk_full_plan(one, 1, stuck, 2 * HOLD_DESK_FLIGHT_WIDTH, OPEN, holds, 2, prices, 1), HOLD_DESK_NO_PLAN, 1, 1);
    expect_marked("full_plan's refusals change the hold row", holds, 0, N);
    expect_marked("full_plan's refusals change the price row", prices, 0, P);
    expect_answer("full_plan", hold_desk_full_plan(CAPACITIES, P, FLIGHTS, ENTRIES, OPEN, holds, N, prices, P), HOLD_DESK_ACCEPTED, 8, 0);
    expect_row("full_plan's holds, of which there is one", holds, HOLDS, N);
    expect_row("full_plan's prices, the smallest", prices, right, P);
    expect("price_check of 8, 4", hold_desk_price_check(CAPACITIES, P, FLIGHTS, ENTRIES, OPEN, HOLDS, N, right, P));
    expect("price_check of 9, 4", hold_desk_price_check(CAPACITIES, P, FLIGHTS, ENTRIES, OPEN, HOLDS, N, high, P));
    expect("price_check of 7, 4", !hold_desk_price_check(CAPACITIES, P, FLIGHTS, ENTRIES, OPEN, HOLDS, N, low, P));
    expect("price_check of a shorter row", !hold_desk_price_check(CAPACITIES, P, FLIGHTS, ENTRIES, OPEN, HOLDS, N, right, P - 1));
    expect("price_check of a bad day", !hold_desk_price_check(CAPACITIES, P, FLIGHTS, ENTRIES - 1, OPEN, HOLDS, N, right, P));
}

/* What one more landing in a period saves is its price: case B with a capacity greater by one. */
static void savings(void)
{
    uint32_t holds[N], prices[P];
    const uint32_t totals[] = { 0, 4 };
    for (size_t k = 0; k < P; k++) {
        uint32_t more[P] = { CAPACITIES[0], CAPACITIES[1] };
        more[k]++;
        expect_answer("full_plan with one more landing", hold_desk_full_plan(more, P, FLIGHTS, ENTRIES, OPEN, holds, N, prices, P), HOLD_DESK_ACCEPTED, totals[k], 0);
    }
}

/* One place, and two flights that differ in number and late alone: the one that is later lands first. A flight that is late by
 * more than its after costs its jump with hold 0. */
static void delays(void)
{
    const uint32_t one[] = { 1 }, second_later[] = { 1, 0 }, first_later[] = { 0, 1 };
    uint32_t flights[] = { 1, 1, 1, 1, 5, HOLD_DESK_NO_LIMIT, 0, 2, 1, 1, 1, 5, HOLD_DESK_NO_LIMIT, 1 }, holds[2], prices[1];
    expect_answer("full_plan of lates 0 and 1", hold_desk_full_plan(one, 1, flights, 2 * HOLD_DESK_FLIGHT_WIDTH, OPEN, holds, 2, prices, 1), HOLD_DESK_ACCEPTED, 1, 0);
    expect_row("full_plan's holds of lates 0 and 1", holds, second_later, 2);
    flights[HOLD_DESK_LATE] = 1;
    flights[HOLD_DESK_FLIGHT_WIDTH + HOLD_DESK_LATE] = 0;
    expect_answer("full_plan of lates 1 and 0", hold_desk_full_plan(one, 1, flights, 2 * HOLD_DESK_FLIGHT_WIDTH, OPEN, holds, 2, prices, 1), HOLD_DESK_ACCEPTED, 1, 0);
    expect_row("full_plan's holds of lates 1 and 0", holds, first_later, 2);
    flights[HOLD_DESK_LATE] = 2;
    expect_answer("full_plan of late 2", hold_desk_full_plan(one, 1, flights, HOLD_DESK_FLIGHT_WIDTH, OPEN, holds, 1, prices, 1), HOLD_DESK_ACCEPTED, 5, 0);
    expect("the hold of late 2", holds[0] == 0);
    flights[HOLD_DESK_LATE] = 256;
    expect_answer("full_plan of late 256", hold_desk_full_plan(one, 1, flights, HOLD_DESK_FLIGHT_WIDTH, OPEN, holds, 1, prices, 1), HOLD_DESK_BAD_DAY, 0, 0);
}

/* Four flights that land in the closing period, due in 2, 1, 2 and 1: by due period, then by table place. */
static void board_order(void)
{
    const uint32_t closed[] = { 0, 0 }, holds[] = { 1, 2, 1, 2 }, want[] = { 1, 3, 0, 2 };
    const uint32_t flights[] = {
        4, 2, 1, 0, 0, HOLD_DESK_NO_LIMIT, 0, 3, 1, 1, 0, 0, HOLD_DESK_NO_LIMIT, 0,
        2, 2, 1, 0, 0, HOLD_DESK_NO_LIMIT, 0, 1, 1, 1, 0, 0, HOLD_DESK_NO_LIMIT, 0,
    };
    uint32_t board[4];
    expect_answer("board of a closed day", hold_desk_board(closed, 2, flights, 4 * HOLD_DESK_FLIGHT_WIDTH, OPEN, holds, 4, board, 4), HOLD_DESK_ACCEPTED, 0, 0);
    expect_row("board's order", board, want, 4);
}

static void rows(void)
{
    uint32_t board[N];
    const uint32_t dearer[] = { 1, 0, 1 }, early[] = { 0, 0, 0 }, want[] = { 0, 2, 1 };
    expect("choice of the first", hold_desk_choice(CAPACITIES, P, FLIGHTS, ENTRIES, OPEN, HOLDS, N, dearer, N) == 1);
    expect("choice of the second", hold_desk_choice(CAPACITIES, P, FLIGHTS, ENTRIES, OPEN, dearer, N, HOLDS, N) == 2);
    expect("choice of equal rows", hold_desk_choice(CAPACITIES, P, FLIGHTS, ENTRIES, OPEN, HOLDS, N, HOLDS, N) == 1);
    expect("choice of the only legal row", hold_desk_choice(CAPACITIES, P, FLIGHTS, ENTRIES, OPEN, early, N, HOLDS, N) == 2);
    expect("choice of neither", hold_desk_choice(CAPACITIES, P, FLIGHTS, ENTRIES, OPEN, early, N, HOLDS, N - 1) == 0);
    expect("choice of a bad day", hold_desk_choice(CAPACITIES, 0, FLIGHTS, ENTRIES, OPEN, HOLDS, N, HOLDS, N) == 0);
    mark(board, N);
    expect_answer("board of a bad day", hold_desk_board(CAPACITIES, P, FLIGHTS, ENTRIES - 1, OPEN, HOLDS, N, board, N), HOLD_DESK_BAD_DAY, 0, 0);
    expect_answer("board of a shorter hold row", hold_desk_board(CAPACITIES, P, FLIGHTS, ENTRIES, OPEN, HOLDS, N - 1, board, N), HOLD_DESK_BAD_LENGTH, N, 0);
    expect_answer("board of a shorter board row", hold_desk_board(CAPACITIES, P, FLIGHTS, ENTRIES, OPEN, HOLDS, N, board, N - 1), HOLD_DESK_BAD_LENGTH, N, 0);
    expect_answer("board of a row that is not legal", hold_desk_board(CAPACITIES, P, FLIGHTS, ENTRIES, OPEN, early, N, board, N), HOLD_DESK_NOT_LEGAL, 1, 0);
    expect_marked("board's refusals change the row", board, 0, N);
    expect_answer("board", hold_desk_board(CAPACITIES, P, FLIGHTS, ENTRIES, OPEN, HOLDS, N, board, N), HOLD_DESK_ACCEPTED, 0, 0);
    expect_row("board's places", board, want, N);
    board_order();
}

/* Any legal plan's text is read back, not a cheapest one's alone; and each kind of refusal, with its offset. */
static void reading_back(void)
{
    const char *dearer = "flight,due,lands,hold,cost\n11,1,2,1,10\n12,1,1,0,0\n13,2,3,1,6\ntotal\n16\n", *names = "flight,due,lands,hold,cost\n";
    const char *twice_in_1 = "flight,due,lands,hold,cost\n11,1,1,0,0\n12,1,1,0,0\n13,2,2,0,0\ntotal\n0\n", *over = "flight,due,lands,hold,cost\n11,1,1,0,0\n12,1,2,1,4\n13,2,4,2,12\ntotal\n16\n";
    const char *early = "flight,due,lands,hold,cost\n1,1,1,0,0\n2,1,2,1,1\ntotal\n1\n", *none = "flight,due,lands,hold,cost\ntotal\n0\n";
    const uint32_t one[] = { 1 }, other[] = { 1, 0, 1 };
    uint32_t free_and_stuck[] = { 1, 1, 1, 0, 0, HOLD_DESK_NO_LIMIT, 0, 2, 1, 1, 0, 0, 0, 0 }, holds[N + 1];
    const size_t plan = strlen(PLAN);
    uint8_t text[sizeof PLAN];
    static uint8_t many[HOLD_DESK_MOST_SHEET_BYTES + 1];
    memcpy(text, PLAN, sizeof PLAN);
    memcpy(many, PLAN, plan);
    mark(holds, N + 1);
    expect_answer("read_plan of a bad day", hold_desk_read_plan(CAPACITIES, P, FLIGHTS, ENTRIES - 1, OPEN, NULL, 0, holds, N - 1), HOLD_DESK_BAD_DAY, 0, 0);
    expect_answer("read_plan of a shorter hold row", hold_desk_read_plan(CAPACITIES, P, FLIGHTS, ENTRIES, OPEN, NULL, 0, holds, N - 1), HOLD_DESK_BAD_LENGTH, N, 0);
    expect_answer("read_plan of a longer hold row", hold_desk_read_plan(CAPACITIES, P, FLIGHTS, ENTRIES, OPEN, text, plan, holds, N + 1), HOLD_DESK_BAD_LENGTH, N, 0);
    expect_answer("read_plan of nothing", hold_desk_read_plan(CAPACITIES, P, FLIGHTS, ENTRIES, OPEN, NULL, 0, holds, N), HOLD_DESK_BAD_PLAN_TEXT, 0, 0);
    expect_answer("read_plan of the sheet", hold_desk_read_plan(CAPACITIES, P, FLIGHTS, ENTRIES, OPEN, bytes(SHEET), strlen(SHEET), holds, N), HOLD_DESK_BAD_PLAN_TEXT, 0, 0);
    expect_answer("read_plan of the names line", hold_desk_read_plan(CAPACITIES, P, FLIGHTS, ENTRIES, OPEN, bytes(names), strlen(names), holds, N), HOLD_DESK_BAD_PLAN_TEXT, 27, 0);
    expect_answer("read_plan without the last end byte", hold_desk_read_plan(CAPACITIES, P, FLIGHTS, ENTRIES, OPEN, text, plan - 1, holds, N), HOLD_DESK_BAD_PLAN_TEXT, plan - 2, 0);
    expect_answer("read_plan with byte 0 behind it", hold_desk_read_plan(CAPACITIES, P, FLIGHTS, ENTRIES, OPEN, text, plan + 1, holds, N), HOLD_DESK_BAD_PLAN_TEXT, plan, 0);
    expect_answer("read_plan of 8,193 bytes", hold_desk_read_plan(CAPACITIES, P, FLIGHTS, ENTRIES, OPEN, many, sizeof many, holds, N), HOLD_DESK_BAD_PLAN_TEXT, plan, 0);
    text[plan - 2] = '9';
    expect_answer("read_plan of another total", hold_desk_read_plan(CAPACITIES, P, FLIGHTS, ENTRIES, OPEN, text, plan, holds, N), HOLD_DESK_BAD_PLAN_TEXT, plan - 2, 0);
    expect_answer("read_plan of a full period", hold_desk_read_plan(CAPACITIES, P, FLIGHTS, ENTRIES, OPEN, bytes(twice_in_1), strlen(twice_in_1), holds, N), HOLD_DESK_BAD_PLAN_TEXT, 38, 0);
    expect_answer("read_plan of a hold over its limit", hold_desk_read_plan(CAPACITIES, P, FLIGHTS, ENTRIES, OPEN, bytes(over), strlen(over), holds, N), HOLD_DESK_BAD_PLAN_TEXT, 49, 0);
    expect_answer("read_plan of a line that leaves the next flight no period", hold_desk_read_plan(one, 1, free_and_stuck, 2 * HOLD_DESK_FLIGHT_WIDTH, OPEN, bytes(early), strlen(early), holds, 2), HOLD_DESK_BAD_PLAN_TEXT, 27, 0);
    free_and_stuck[HOLD_DESK_LIMIT] = 0;
    expect_answer("read_plan of case D", hold_desk_read_plan(one, 1, free_and_stuck, 2 * HOLD_DESK_FLIGHT_WIDTH, OPEN, bytes(early), strlen(early), holds, 2), HOLD_DESK_BAD_PLAN_TEXT, 0, 0);
    expect_marked("read_plan's refusals change the hold row", holds, 0, N + 1);
    expect_answer("read_plan", hold_desk_read_plan(CAPACITIES, P, FLIGHTS, ENTRIES, OPEN, bytes(PLAN), plan, holds, N), HOLD_DESK_ACCEPTED, 8, 0);
    expect_row("read_plan's holds", holds, HOLDS, N);
    expect_answer("read_plan of a dearer plan", hold_desk_read_plan(CAPACITIES, P, FLIGHTS, ENTRIES, OPEN, bytes(dearer), strlen(dearer), holds, N), HOLD_DESK_ACCEPTED, 16, 0);
    expect_row("read_plan's holds of a dearer plan", holds, other, N);
    expect_marked("read_plan changes the entry after the row", holds, N, N + 1);
    expect_answer("read_plan of no flights", hold_desk_read_plan(CAPACITIES, P, NULL, 0, OPEN, bytes(none), strlen(none), NULL, 0), HOLD_DESK_ACCEPTED, 0, 0);
}

/* The report's example (section 3.2), its flights from its 4 down to its 1; the day's own capacities, all 0, play no part. */
static const uint32_t CLOSED[] = { 0, 0, 0, 0 };
static const uint32_t REPORTED[] = {
    4, 2, 10, 0, 0, HOLD_DESK_NO_LIMIT, 0, 3, 1, 5, 0, 0, HOLD_DESK_NO_LIMIT, 0,
    2, 1, 10, 0, 0, HOLD_DESK_NO_LIMIT, 0, 1, 3, 10, 0, 0, HOLD_DESK_NO_LIMIT, 0
};
static const uint32_t ODDS[] = { 400, 600 }, ONE_OR_TWO[] = { 1, 1, 1, 1, 2, 2, 2, 2 };
enum { REPORTED_ENTRIES = 4 * HOLD_DESK_FLIGHT_WIDTH };

static void forecasts(void)
{
    const uint32_t reversed[] = { 600, 400 }, none_held[] = { 0, 0, 0, 0 }, two_held[] = { 0, 0, 2, 1 };
    uint32_t holds[5];
    mark(holds, 5);
    expect_answer("forecast_plan", hold_desk_forecast_plan(CLOSED, 4, REPORTED, REPORTED_ENTRIES, OPEN, 2, 2, ODDS, 2, ONE_OR_TWO, 8, holds, 4), HOLD_DESK_ACCEPTED, 24000, 0);
    expect_row("forecast_plan's holds", holds, none_held, 4);
    expect_answer("forecast_plan with the odds reversed", hold_desk_forecast_plan(CLOSED, 4, REPORTED, REPORTED_ENTRIES, OPEN, 2, 2, reversed, 2, ONE_OR_TWO, 8, holds, 4), HOLD_DESK_ACCEPTED, 30000, 0);
    expect_row("forecast_plan's holds with the odds reversed", holds, two_held, 4);
    expect_marked("forecast_plan changes the entry after the row", holds, 4, 5);
    expect_answer("forecast_plan of no flights", hold_desk_forecast_plan(CLOSED, 4, NULL, 0, OPEN, 2, 2, ODDS, 2, ONE_OR_TWO, 8, NULL, 0), HOLD_DESK_ACCEPTED, 0, 0);
}

/* Each refusal, with those that come after it where that can be. */
static void forecasts_refused(void)
{
    const uint32_t short_odds[] = { 400, 599 }, wrapping[] = { UINT32_MAX, 1001 }, idle[] = { 1000, 0 };
    uint32_t holds[5], jumping[REPORTED_ENTRIES], high[8];
    memcpy(jumping, REPORTED, sizeof jumping);
    memcpy(high, ONE_OR_TWO, sizeof high);
    jumping[3 * HOLD_DESK_FLIGHT_WIDTH + HOLD_DESK_JUMP] = 1;
    high[7] = 256;
    mark(holds, 5);
    expect_answer("forecast_plan of a bad day", hold_desk_forecast_plan(CLOSED, 4, REPORTED, REPORTED_ENTRIES - 1, OPEN, 0, 2, ODDS, 2, ONE_OR_TWO, 8, holds, 4), HOLD_DESK_BAD_DAY, 0, 0);
    expect_answer("forecast_plan of no forecasts", hold_desk_forecast_plan(CLOSED, 4, REPORTED, REPORTED_ENTRIES, OPEN, 0, 2, NULL, 0, NULL, 0, holds, 4), HOLD_DESK_BAD_TERMS, 0, 0);
    expect_answer("forecast_plan of 9 forecasts", hold_desk_forecast_plan(CLOSED, 4, REPORTED, REPORTED_ENTRIES, OPEN, HOLD_DESK_MOST_FORECASTS + 1, 2, ODDS, 2, ONE_OR_TWO, 8, holds, 4), HOLD_DESK_BAD_TERMS, 0, 0);
    expect_answer("forecast_plan of air factor 0", hold_desk_forecast_plan(CLOSED, 4, REPORTED, REPORTED_ENTRIES, OPEN, 2, 0, ODDS, 2, ONE_OR_TWO, 8, holds, 3), HOLD_DESK_BAD_TERMS, 0, 0);
    expect_answer("forecast_plan of air factor 11", hold_desk_forecast_plan(CLOSED, 4, REPORTED, REPORTED_ENTRIES, OPEN, 2, HOLD_DESK_MOST_AIR_FACTOR + 1, ODDS, 2, ONE_OR_TWO, 8, holds, 4), HOLD_DESK_BAD_TERMS, 0, 0);
    expect_answer("forecast_plan of a jump", hold_desk_forecast_plan(CLOSED, 4, jumping, REPORTED_ENTRIES, OPEN, 2, 2, ODDS, 2, ONE_OR_TWO, 7, holds, 4), HOLD_DESK_BAD_TERMS, 0, 0);
    expect_answer("forecast_plan of a longer hold row", hold_desk_forecast_plan(CLOSED, 4, REPORTED, REPORTED_ENTRIES, OPEN, 2, 2, ODDS, 1, ONE_OR_TWO, 8, holds, 5), HOLD_DESK_BAD_LENGTH, 4, 0);
    expect_answer("forecast_plan of a shorter weight row", hold_desk_forecast_plan(CLOSED, 4, REPORTED, REPORTED_ENTRIES, OPEN, 2, 2, ODDS, 1, ONE_OR_TWO, 4, holds, 4), HOLD_DESK_BAD_LENGTH, 2, 0);
    expect_answer("forecast_plan of a shorter forecast row", hold_desk_forecast_plan(CLOSED, 4, REPORTED, REPORTED_ENTRIES, OPEN, 2, 2, short_odds, 2, ONE_OR_TWO, 7, holds, 4), HOLD_DESK_BAD_LENGTH, 8, 0);
    expect_answer("forecast_plan of weights of 999", hold_desk_forecast_plan(CLOSED, 4, REPORTED, REPORTED_ENTRIES, OPEN, 2, 2, short_odds, 2, ONE_OR_TWO, 8, holds, 4), HOLD_DESK_BAD_FORECASTS, 0, 0);
    expect_answer("forecast_plan of weights of 2^32 + 1,000", hold_desk_forecast_plan(CLOSED, 4, REPORTED, REPORTED_ENTRIES, OPEN, 2, 2, wrapping, 2, ONE_OR_TWO, 8, holds, 4), HOLD_DESK_BAD_FORECASTS, 0, 0);
    expect_answer("forecast_plan of capacity 256", hold_desk_forecast_plan(CLOSED, 4, REPORTED, REPORTED_ENTRIES, OPEN, 2, 2, ODDS, 2, high, 8, holds, 4), HOLD_DESK_BAD_FORECASTS, 0, 0);
    expect_answer("forecast_plan of capacity 256 with weight 0", hold_desk_forecast_plan(CLOSED, 4, REPORTED, REPORTED_ENTRIES, OPEN, 2, 2, idle, 2, high, 8, holds, 4), HOLD_DESK_BAD_FORECASTS, 0, 0);
    expect_marked("forecast_plan's refusals change the hold row", holds, 0, 5);
}

/* The largest expected total: nobody may be held, and nobody lands before the closing period. */
static void dearest_forecasts(void)
{
    static uint32_t c[HOLD_DESK_MOST_PERIODS], f[HOLD_DESK_FLIGHT_ROW], holds[HOLD_DESK_MOST_FLIGHTS];
    static uint32_t weights[HOLD_DESK_MOST_FORECASTS], closed[HOLD_DESK_MOST_FORECASTS * HOLD_DESK_MOST_PERIODS];
    const uint32_t first[] = { 1, 1, 10000, 0, 0, 0, 0 };
    all_like(f, first);
    for (size_t s = 0; s < HOLD_DESK_MOST_FORECASTS; s++) weights[s] = HOLD_DESK_ALL_WEIGHTS / HOLD_DESK_MOST_FORECASTS;
    expect_answer("forecast_plan of the largest total", hold_desk_forecast_plan(c, HOLD_DESK_MOST_PERIODS, f, HOLD_DESK_FLIGHT_ROW, OPEN, HOLD_DESK_MOST_FORECASTS, HOLD_DESK_MOST_AIR_FACTOR, weights, HOLD_DESK_MOST_FORECASTS, closed, HOLD_DESK_MOST_FORECASTS * HOLD_DESK_MOST_PERIODS, holds, HOLD_DESK_MOST_FLIGHTS), HOLD_DESK_ACCEPTED, HOLD_DESK_MOST_EXPECTED, 0);
}

/* Days of full size: the largest total, the longest plan's text and the longest sheet, of 4,825 bytes. */
static void largest(void)
{
    static uint32_t c[HOLD_DESK_MOST_PERIODS], f[HOLD_DESK_FLIGHT_ROW], holds[HOLD_DESK_MOST_FLIGHTS], prices[HOLD_DESK_MOST_PRICES];
    static uint8_t text[HOLD_DESK_MOST_PLAN_BYTES], sheet[4825];
    const uint32_t first[] = { 1000, 1, 10000, 0, 1000000, HOLD_DESK_NO_LIMIT, 255 };
    hold_desk_card card;
    all_like(f, first);
    expect_answer("full_plan of the largest total", hold_desk_full_plan(c, HOLD_DESK_MOST_PERIODS, f, HOLD_DESK_FLIGHT_ROW, OPEN, holds, HOLD_DESK_MOST_FLIGHTS, prices, HOLD_DESK_MOST_PERIODS), HOLD_DESK_ACCEPTED, HOLD_DESK_MOST_TOTAL, 0);
    expect_answer("full_plan of 127 places after the last period", hold_desk_full_plan(c, HOLD_DESK_MOST_PERIODS, f, HOLD_DESK_FLIGHT_ROW, 127, holds, HOLD_DESK_MOST_FLIGHTS, prices, HOLD_DESK_MOST_PRICES), HOLD_DESK_NO_PLAN, 1, HOLD_DESK_MOST_PERIODS + 1);
    expect_answer("full_plan of 128 places after the last period", hold_desk_full_plan(c, HOLD_DESK_MOST_PERIODS, f, HOLD_DESK_FLIGHT_ROW, 128, holds, HOLD_DESK_MOST_FLIGHTS, prices, HOLD_DESK_MOST_PRICES), HOLD_DESK_ACCEPTED, HOLD_DESK_MOST_TOTAL, 0);
    for (uint32_t i = 0; i < HOLD_DESK_MOST_FLIGHTS; i++) f[i * HOLD_DESK_FLIGHT_WIDTH + HOLD_DESK_DUE] = 10, holds[i] = 87;
    expect_answer("plan_text of the longest text", hold_desk_plan_text(c, HOLD_DESK_MOST_PERIODS, f, HOLD_DESK_FLIGHT_ROW, OPEN, holds, HOLD_DESK_MOST_FLIGHTS, text, sizeof text, 0), HOLD_DESK_ACCEPTED, HOLD_DESK_MOST_PLAN_BYTES, 0);
    mark(holds, HOLD_DESK_MOST_FLIGHTS);
    expect_answer("read_plan of the longest text", hold_desk_read_plan(c, HOLD_DESK_MOST_PERIODS, f, HOLD_DESK_FLIGHT_ROW, OPEN, text, sizeof text, holds, HOLD_DESK_MOST_FLIGHTS), HOLD_DESK_ACCEPTED, 128 * (87 * 10000 + 1000000), 0);
    for (size_t i = 0; i < HOLD_DESK_MOST_FLIGHTS; i++) expect("read_plan's holds of the longest text", holds[i] == 87);
    for (uint32_t i = 0; i < HOLD_DESK_MOST_FLIGHTS; i++) f[i * HOLD_DESK_FLIGHT_WIDTH + HOLD_DESK_AFTER] = 96, f[i * HOLD_DESK_FLIGHT_WIDTH + HOLD_DESK_LIMIT] = 96;
    for (uint32_t k = 0; k < HOLD_DESK_MOST_PERIODS; k++) c[k] = 255;
    expect_answer("write_sheet of the longest sheet", hold_desk_write_sheet(c, HOLD_DESK_MOST_PERIODS, f, HOLD_DESK_FLIGHT_ROW, 255, sheet, sizeof sheet, 0), HOLD_DESK_ACCEPTED, sizeof sheet, 0);
    for (uint32_t k = 0; k < HOLD_DESK_MOST_PERIODS; k++) c[k] = 0;
    for (uint32_t i = 0; i < HOLD_DESK_MOST_FLIGHTS; i++) f[i * HOLD_DESK_FLIGHT_WIDTH + HOLD_DESK_JUMP] = 0, f[i * HOLD_DESK_FLIGHT_WIDTH + HOLD_DESK_LIMIT] = HOLD_DESK_NO_LIMIT;
    card = hold_desk_period_card(c, HOLD_DESK_MOST_PERIODS, f, HOLD_DESK_FLIGHT_ROW, OPEN, HOLD_DESK_MOST_PERIODS);
    expect_card("period_card of all flights", card, HOLD_DESK_ACCEPTED, 0, UINT64_MAX, UINT64_MAX, HOLD_DESK_MOST_FLIGHTS);
}

int main(void)
{
    expect("the flight row's length", HOLD_DESK_FLIGHT_ROW == HOLD_DESK_MOST_FLIGHTS * HOLD_DESK_FLIGHT_WIDTH);
    expect("an answer is three 64-bit numbers", sizeof(hold_desk_answer) == 24);
    expect("a reading is four 64-bit numbers", sizeof(hold_desk_reading) == 32);
    expect("a card is six 64-bit numbers", sizeof(hold_desk_card) == 48);
    reading();
    closing_lines();
    writing();
    curfew();
    closing_refused();
    quick();
    growth();
    growth_refused();
    dearest_growth();
    full();
    savings();
    delays();
    rows();
    reading_back();
    forecasts();
    forecasts_refused();
    dearest_forecasts();
    largest();
    return 0;
}
