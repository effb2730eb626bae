/* A library with the exports of include/hold_desk.h around the real one (its exports are renamed to real_hold_desk_...),
 * with one fault at a time: the one that the environment variable HOLD_DESK_FAULT names.
 *
 * A fault is named and described where it is: IS(name, "what it does") says whether it is the one that is on; its name
 * begins with its call. A second place for the same fault says ALSO(name). RULE(name, "what is wrong with the day") is a
 * day check that lets something pass, in one call at a time: write_accepts_name, quick_accepts_name and so on. SEEN(name, "how")
 * is a closing number that is taken for another, in one call at a time: write_closing_name and so on.
 * tests/faults/build collects the names from the sources, so that the list and the sources cannot disagree.
 *
 * Where a fault lies deep in a call, the call is written down here a second time, in a plain way, with the fault in it. That
 * version is first run without the fault and compared with the real one; if they differ, the program stops with a message. */
#ifndef FAULTS_H
#define FAULTS_H

#include "../../include/hold_desk.h"
#include "../../target/faults/names.h" /* made by tests/faults/build: enum fault, enum rule, enum seen */
#include <stdlib.h>
#include <string.h>

enum call { READ, WRITE, QUICK, GROWTH, CARD, FULL, CHECK, CHOICE, BOARD, TEXT, FORECAST, READ_PLAN };
enum { P_MOST = 96, N_MOST = 128, WIDTH = 7, ROW_MOST = N_MOST * WIDTH, UNLIMITED = 256 };
enum { NUMBER, DUE, RATE, AFTER, JUMP, LIMIT, LATE };

struct entry { bool is_wrong; unsigned growth, t; };

extern enum fault the_fault;         /* the one that is on */
extern enum call the_call;           /* its call */
extern enum rule the_rule;           /* its rule, if it is one of the day check */
extern enum seen the_seen;           /* how it sees the closing number, if it is one of that */
extern struct entry the_entry;       /* its entry, if it is one of the table of factors */
extern _Thread_local bool plain;     /* no fault for now: for the comparison with the real call */

#define ALSO(name) (!plain && the_fault == F_##name)
#define IS(name, says) ALSO(name)
#define RULE(name, says) (the_rule == R_##name)
#define SEEN(name, says) (the_seen == S_##name)
#define OURS(call) (the_fault != NO_FAULT && the_call == (call))

#define DAY_ROWS const uint32_t *capacities, size_t capacities_len, const uint32_t *flights, size_t flights_len, uint32_t closing
#define THE_DAY capacities, capacities_len, flights, flights_len, closing
#define DAY_OF(d) (d).c, (d).p, (d).f, (d).entries, (d).closing

/* The rows of a day, with what the rule that is on lets pass put right, and how many entries a hold row and a price row that
 * fit the day have too many for that. */
struct day {
    const uint32_t *c;
    size_t p;
    const uint32_t *f;
    size_t entries, n;
    uint32_t closing;
    size_t flights_cut, periods_cut;
    bool no_period;
};

struct day day_of(DAY_ROWS);
bool has_curfew(struct day d);
size_t priced(struct day d);                                   /* entries of a price row */
bool is_bad(struct day d);
uint32_t lands_in_closing(struct day d, const uint32_t *holds);
void change_flights(DAY_ROWS);                                 /* the lent row itself: another number for the first flight */
size_t cut(size_t length, size_t by);

hold_desk_answer answer(uint64_t number, uint64_t first, uint64_t second);
bool same(hold_desk_answer a, hold_desk_answer b);
void *copy_of(const void *row, size_t bytes);                  /* to be freed */
void put_back(void *row, const void *copy, size_t bytes);
void must_agree(bool agrees, const char *what);                /* stops the program if it does not */

enum cost_way {
    COST_RIGHT,
    COST_JUMP_AT_AFTER,       /* the jump is charged at late + hold = after */
    COST_NO_JUMP,             /* jumps left out */
    COST_NO_LATE,             /* late left out */
    COST_NO_JUMP_AT_0,        /* the jump is never charged at hold 0 */
    COST_LATE_7_BITS          /* of late the low 7 bits */
};
uint64_t cost(const uint32_t *flight, uint64_t hold, enum cost_way way);
uint64_t total(struct day d, const uint32_t *holds, enum cost_way way);

/* The first flight that breaks a hold row, or the number of flights. */
enum walk_way {
    WALK_RIGHT = 0,
    WALK_NO_LIMIT = 1,        /* limits left out */
    WALK_NO_CAPACITY = 2,     /* capacities left out */
    WALK_WRAPS = 4,           /* due + hold in 32 bits */
    WALK_PERIOD_1 = 8,        /* the capacity of period 1 alone counts */
    WALK_ONE_AT_END = 16,     /* the closing period takes one flight */
    WALK_LAST = 32,           /* the last flight that breaks it */
    WALK_LIMITS_FIRST = 64,   /* holds that are too long first, then capacities */
    WALK_PAST_END = 128,      /* a landing after the closing period is one in it */
    WALK_COUNT_ALL = 256,     /* the first flight of a period that is over capacity in the end */
    WALK_64 = 512,            /* no more than 64 flights */
    WALK_NO_LAST_PERIOD = 1024, /* the capacity of period P is left out */
    WALK_LATE_LIMIT = 2048,   /* late counts against the limit */
    WALK_LATE_LANDS = 4096,   /* late counts into the landing period */
    WALK_NO_CURFEW = 8192     /* the closing number is left out */
};
size_t walk(struct day d, const uint32_t *holds, int way);

/* The growing plan is the quick plan with a growth; no growth is NULL. What the two share (plans.c), and what a growth changes
 * (growth.c). */
void plan_quickly(struct day d, const uint32_t *growth, uint32_t *holds, bool sets[P_MOST][N_MOST]);
hold_desk_answer not_quick(struct day d, bool bad, uint32_t *holds, size_t holds_len);
hold_desk_answer passes_curfew(struct day d, const uint32_t *plan, uint32_t *holds, size_t holds_len);
hold_desk_answer short_stretch(struct day d);                  /* refusal 9, or one with number 0 */
uint64_t add_up(struct day d, const uint32_t *plan, const uint64_t *costs);
void store(struct day d, uint32_t *plan, uint32_t *holds, size_t holds_len);
typedef hold_desk_answer planner(struct day d, bool bad, const uint32_t *growth, uint32_t *holds, size_t holds_len);
hold_desk_answer planned_with_fault(DAY_ROWS, const uint32_t *growth, uint32_t *holds, size_t holds_len, planner *ours);
uint64_t next_cost(struct day d, uint32_t growth, uint32_t period, size_t i, uint32_t rate);
bool tie_turned(uint32_t growth, uint32_t period, const uint32_t *x, const uint32_t *y);   /* whether the later due goes first */
uint32_t growing_room(struct day d, uint32_t period, uint32_t room);
bool kept_waiting(struct day d, uint32_t period, size_t i);                                /* whether a flight may not land */

/* Puts a text into a buffer from a place on. */
struct text {
    uint8_t *bytes;
    size_t length, size;
};
void add(struct text *t, const char *format, ...);

hold_desk_reading real_hold_desk_read_sheet(const uint8_t *, size_t, uint32_t *, size_t, uint32_t *, size_t);
hold_desk_answer real_hold_desk_write_sheet(DAY_ROWS, uint8_t *, size_t, size_t);
hold_desk_answer real_hold_desk_quick_plan(DAY_ROWS, uint32_t *, size_t);
hold_desk_answer real_hold_desk_growth_plan(DAY_ROWS, uint32_t, uint32_t *, size_t);
hold_desk_card real_hold_desk_period_card(DAY_ROWS, uint32_t);
hold_desk_answer real_hold_desk_full_plan(DAY_ROWS, uint32_t *, size_t, uint32_t *, size_t);
bool real_hold_desk_price_check(DAY_ROWS, const uint32_t *, size_t, const uint32_t *, size_t);
uint32_t real_hold_desk_choice(DAY_ROWS, const uint32_t *, size_t, const uint32_t *, size_t);
hold_desk_answer real_hold_desk_board(DAY_ROWS, const uint32_t *, size_t, uint32_t *, size_t);
hold_desk_answer real_hold_desk_plan_text(DAY_ROWS, const uint32_t *, size_t, uint8_t *, size_t, size_t);
hold_desk_answer real_hold_desk_read_plan(DAY_ROWS, const uint8_t *, size_t, uint32_t *, size_t);
hold_desk_answer real_hold_desk_forecast_plan(DAY_ROWS, uint32_t, uint32_t, const uint32_t *, size_t, const uint32_t *, size_t, uint32_t *, size_t);

#endif
