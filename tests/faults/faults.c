/* The fault that is on, the day check's faults, and what several calls share. */
#include "faults.h"
#include <stdarg.h>
#include <stdio.h>

enum fault the_fault = NO_FAULT;
enum call the_call;
enum rule the_rule = NO_RULE;
enum seen the_seen = NOT_SEEN;
struct entry the_entry;
_Thread_local bool plain;

static const char *const fault_names[] = { "", FAULT_NAMES };
static const char *const rule_names[] = { "", RULE_NAMES };
static const char *const seen_names[] = { "", SEEN_NAMES };
static const char *const call_names[] = { "read_", "write_", "quick_", "growth_", "card_", "full_", "check_", "choice_", "board_", "text_", "forecast_", "read_plan_" };

/* Before main: a name that is not listed stops the program. A name of the plan reader begins as one of the reader does; the last call
 * that fits is its own. */
__attribute__((constructor)) static void choose_fault(void)
{
    const char *name = getenv("HOLD_DESK_FAULT");
    if (name == NULL) return;
    for (size_t k = 1; k < sizeof fault_names / sizeof *fault_names; k++)
        if (strcmp(name, fault_names[k]) == 0) the_fault = (enum fault)k;
    for (int call = READ; call <= READ_PLAN; call++) {
        size_t length = strlen(call_names[call]);
        if (strncmp(name, call_names[call], length) != 0) continue;
        the_call = (enum call)call;
        if (strncmp(name + length, "closing_", 8) == 0)
            for (size_t k = 1; k < sizeof seen_names / sizeof *seen_names; k++)
                if (strcmp(name + length + 8, seen_names[k]) == 0) the_seen = (enum seen)k;
        if (strncmp(name + length, "accepts_", 8) != 0) continue;
        for (size_t k = 1; k < sizeof rule_names / sizeof *rule_names; k++)
            if (strcmp(name + length + 8, rule_names[k]) == 0) the_rule = (enum rule)k;
    }
    the_entry.is_wrong = sscanf(name, "growth_entry_%u_%u", &the_entry.growth, &the_entry.t) == 2;
    if (the_fault == NO_FAULT) {
        fprintf(stderr, "HOLD_DESK_FAULT: no fault has the name '%s'\n", name);
        abort();
    }
}

void must_agree(bool agrees, const char *what)
{
    if (agrees) return;
    fprintf(stderr, "tests/faults: the second version of %s differs from the real one\n", what);
    abort();
}

hold_desk_answer answer(uint64_t number, uint64_t first, uint64_t second)
{
    hold_desk_answer a = { number, first, second };
    return a;
}

bool same(hold_desk_answer a, hold_desk_answer b)
{
    return a.number == b.number && a.first == b.first && a.second == b.second;
}

void *copy_of(const void *row, size_t bytes)
{
    void *copy = malloc(bytes + 1);
    must_agree(copy != NULL, "memory");
    if (bytes > 0) memcpy(copy, row, bytes);
    return copy;
}

void put_back(void *row, const void *copy, size_t bytes)
{
    if (bytes > 0) memcpy(row, copy, bytes);
}

size_t cut(size_t length, size_t by)
{
    return length > by ? length - by : 0;
}

void add(struct text *t, const char *format, ...)
{
    va_list values;
    va_start(values, format);
    int length = vsnprintf((char *)t->bytes + t->length, t->size - t->length, format, values);
    va_end(values);
    must_agree(length >= 0 && (size_t)length < t->size - t->length, "a text's size");
    t->length += (size_t)length;
}

uint64_t cost(const uint32_t *flight, uint64_t hold, enum cost_way way)
{
    uint64_t late = way == COST_NO_LATE ? 0 : way == COST_LATE_7_BITS ? flight[LATE] % 128 : flight[LATE], delay = late + hold;
    bool jumps = delay > flight[AFTER] || (way == COST_JUMP_AT_AFTER && delay == flight[AFTER]);
    if (way == COST_NO_JUMP || (way == COST_NO_JUMP_AT_0 && hold == 0)) jumps = false;
    return flight[RATE] * hold + (jumps ? flight[JUMP] : 0);
}

uint64_t total(struct day d, const uint32_t *holds, enum cost_way way)
{
    uint64_t sum = 0;
    for (size_t i = 0; i < d.n; i++) sum += cost(d.f + i * WIDTH, holds[i], way);
    return sum;
}

size_t walk(struct day d, const uint32_t *holds, int way)
{
    uint32_t landed[P_MOST + 2] = { 0 }, all[P_MOST + 2] = { 0 };
    size_t broken = d.n, n = way & WALK_64 && d.n > 64 ? 64 : d.n;
    for (size_t i = 0; i < n; i++) {
        uint64_t lands = (uint64_t)d.f[i * WIDTH + DUE] + holds[i];
        if (lands <= d.p + 1) all[lands]++;
    }
    for (int pass = way & WALK_LIMITS_FIRST ? 0 : 1; pass < 2 && broken == d.n; pass++)
        for (size_t i = 0; i < n; i++) {
            const uint32_t *v = d.f + i * WIDTH;
            uint64_t lands = (uint64_t)v[DUE] + holds[i];
            if (way & WALK_WRAPS) lands = (uint32_t)lands;
            if (way & WALK_LATE_LANDS) lands += v[LATE];
            if (way & WALK_PAST_END && lands > d.p + 1) lands = d.p + 1;
            bool over_limit = v[LIMIT] != 255 && !(way & WALK_NO_LIMIT) && holds[i] + (uint64_t)(way & WALK_LATE_LIMIT ? v[LATE] : 0) > v[LIMIT];
            if (way & WALK_WRAPS && lands < v[DUE]) over_limit = false;
            bool breaks = lands > d.p + 1 || over_limit;
            if (!breaks && pass == 1 && !(way & WALK_NO_CAPACITY) && !(way & WALK_PERIOD_1 && lands > 1) && !(way & WALK_NO_LAST_PERIOD && lands == d.p)) {
                uint32_t count = ++landed[lands], most = UINT32_MAX;
                if (lands >= 1 && lands <= d.p) most = d.c[lands - 1];
                if (lands == d.p + 1 && has_curfew(d) && !(way & WALK_NO_CURFEW)) most = d.closing;
                if (lands == d.p + 1 && way & WALK_ONE_AT_END && most > 1) most = 1;
                if (way & WALK_COUNT_ALL) count = all[lands];
                breaks = count > most;
            }
            if (!breaks) continue;
            broken = i;
            if (!(way & WALK_LAST)) return broken;
        }
    return broken;
}

bool has_curfew(struct day d)
{
    return d.closing < UNLIMITED;
}

size_t priced(struct day d)
{
    return has_curfew(d) ? d.p + 1 : d.p;
}

bool is_bad(struct day d)
{
    uint8_t text[1];
    return real_hold_desk_write_sheet(DAY_OF(d), text, 0, 0).number == 6;
}

uint32_t lands_in_closing(struct day d, const uint32_t *holds)
{
    uint32_t count = 0;
    for (size_t i = 0; i < d.n; i++) count += (uint64_t)d.f[i * WIDTH + DUE] + holds[i] == d.p + 1;
    return count;
}

/* The closing number as a wrong reader of it sees it. */
static uint32_t seen_closing(uint32_t closing)
{
    if (closing >= UNLIMITED) return closing;
    if (SEEN(ignored, "a closing number is taken for 256")) return UNLIMITED;
    if (SEEN(more, "a closing number below 255 is taken for one more") && closing < 255) return closing + 1;
    if (SEEN(less, "a closing number is taken for one less") && closing > 0) return closing - 1;
    if (SEEN(0_none, "a closing number of 0 is taken for 256") && closing == 0) return UNLIMITED;
    if (SEEN(1_as_0, "a closing number of 1 is taken for 0") && closing == 1) return 0;
    if (SEEN(7_bits, "of a closing number the low 7 bits are taken")) return closing & 127;
    if (SEEN(6_bits, "of a closing number the low 6 bits are taken")) return closing & 63;
    if (SEEN(signed, "a closing number above 127 is taken for 0") && closing > 127) return 0;
    return closing;
}

/* A number from 1 to 9,999 that no flight has. */
static uint32_t unused(const uint32_t *flights, size_t entries)
{
    for (uint32_t number = 9999;; number--) {
        bool used = false;
        for (size_t i = 0; i + WIDTH <= entries; i += WIDTH) used = used || flights[i] == number;
        if (!used) return number;
    }
}

void change_flights(DAY_ROWS)
{
    uint8_t text[1];
    bool good = real_hold_desk_write_sheet(THE_DAY, text, 0, 0).number != 6;
    if (good && flights_len > 0) ((uint32_t *)flights)[NUMBER] = unused(flights, flights_len);
}

struct day day_of(DAY_ROWS)
{
    static _Thread_local uint32_t c[P_MOST + 1], f[(N_MOST + 2) * WIDTH];
    static const uint32_t least[WIDTH] = { 1, 1, 1, 0, 0, 0, 0 };
    struct day d = { capacities, capacities_len, flights, flights_len, flights_len / WIDTH, seen_closing(closing), 0, 0, false };
    if (RULE(closing_257, "a closing number of 257") && closing == 257) d.closing = UNLIMITED;
    if (RULE(closing_258, "a closing number of 258") && closing == 258) d.closing = UNLIMITED;
    if (RULE(closing_above, "any closing number above 256") && closing > UNLIMITED) d.closing = UNLIMITED;
    if (RULE(closing_low_byte, "a closing number above 256, of which the low byte is taken") && closing > UNLIMITED) d.closing = closing & 255;
    if (RULE(closing_low_half, "a closing number above 65,535, of which the low 16 bits are taken") && closing > 65535 && (closing & 65535) <= UNLIMITED) d.closing = closing & 65535;
    if (RULE(closing_2_to_31, "a closing number from 2^31 on") && closing > INT32_MAX) d.closing = UNLIMITED;
    if (the_rule == NO_RULE || capacities_len > P_MOST + 1 || flights_len > (N_MOST + 2) * WIDTH) return d;
    put_back(c, capacities, capacities_len * sizeof *c);
    put_back(f, flights, flights_len * sizeof *f);
    d.c = c;
    d.f = f;
    if (RULE(periods_97, "97 periods") && d.p == P_MOST + 1) d.p = P_MOST, d.periods_cut = 1;
    if (RULE(no_period, "no period, and no flight") && d.p == 0 && d.entries == 0) c[0] = 0, d.p = 1, d.no_period = true;
    if (RULE(flights_129, "129 flights") && d.entries == (N_MOST + 1) * WIDTH) d.entries = N_MOST * WIDTH, d.flights_cut = 1;
    if (RULE(one_entry_more, "one entry more than whole flights") && d.entries % WIDTH == 1) d.entries -= 1;
    if (RULE(one_entry_less, "one entry less than whole flights") && d.entries % WIDTH == WIDTH - 1) d.entries -= WIDTH - 1;
    for (size_t k = 0; k < d.p; k++) {
        if (RULE(capacity_256, "a capacity of 256") && c[k] == 256) c[k] = 255;
        if (RULE(capacity_low_byte, "a capacity above 256, of which the low byte is taken") && c[k] > 256) c[k] &= 255;
        if (RULE(last_capacity, "a capacity of period 96 that is out of range") && k == P_MOST - 1 && c[k] > 255) c[k] = 255;
        if (RULE(later_capacity, "a capacity after period 1 that is out of range") && k > 0 && c[k] > 255) c[k] = 255;
    }
    d.n = d.entries / WIDTH;
    for (size_t i = 0; i < d.n; i++) {
        uint32_t *v = f + i * WIDTH, was = v[NUMBER];
        bool above = false, next = false;
        for (size_t k = 0; k < i; k++) above = above || f[k * WIDTH] == was;
        if (i > 0) next = flights[(i - 1) * WIDTH] == was;
        if (RULE(number_0, "flight number 0") && was == 0) v[NUMBER] = unused(f, d.entries);
        if (RULE(number_10000, "flight number 10,000") && was == 10000) v[NUMBER] = unused(f, d.entries);
        if (RULE(due_0, "due 0") && v[DUE] == 0) v[DUE] = 1;
        if (RULE(due_past_last, "due P+1") && v[DUE] == d.p + 1) v[DUE] = (uint32_t)d.p;
        if (RULE(rate_0, "rate 0") && v[RATE] == 0) v[RATE] = 1;
        if (RULE(rate_10001, "rate 10,001") && v[RATE] == 10001) v[RATE] = 10000;
        if (RULE(after_97, "after 97") && v[AFTER] == 97) v[AFTER] = 96;
        if (RULE(jump_1000001, "jump 1,000,001") && v[JUMP] == 1000001) v[JUMP] = 1000000;
        if (RULE(limit_97, "limit 97") && v[LIMIT] == 97) v[LIMIT] = 96;
        if (RULE(limit_254, "limit 254") && v[LIMIT] == 254) v[LIMIT] = 255;
        if (RULE(limit_256, "limit 256") && v[LIMIT] == 256) v[LIMIT] = 255;
        if (RULE(late_256, "late 256") && v[LATE] == 256) v[LATE] = 255;
        if (RULE(late_low_byte, "a late above 256, of which the low byte is taken") && v[LATE] > 256) v[LATE] &= 255;
        if (RULE(repeat_apart, "a number repeated further down than the next line") && above && !next) v[NUMBER] = unused(f, d.entries);
        if (RULE(repeat_from_64, "a number repeated from table place 64 on") && above && i >= 64) v[NUMBER] = unused(f, d.entries);
        for (int k = 0; k < WIDTH; k++) {
            if (RULE(from_2_to_31, "a flight's value from 2^31 on") && v[k] > INT32_MAX) v[k] = k == NUMBER ? unused(f, d.entries) : least[k];
            if (RULE(last_flight, "a value of the 128th flight that is out of range") && i == N_MOST - 1) {
                static const uint32_t most[WIDTH] = { 9999, P_MOST, 10000, 96, 1000000, 255, 255 };
                if (v[k] < least[k] || v[k] > most[k] || (k == DUE && v[k] > d.p) || (k == LIMIT && v[k] > 96 && v[k] < 255)) v[k] = k == NUMBER ? unused(f, d.entries) : least[k];
            }
        }
    }
    return d;
}
