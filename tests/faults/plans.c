/* Faults of the quick plan, the period card and the full plan; of the growing plan those that it shares with the quick plan. */
#include "faults.h"

/* ---- the quick plan: these faults come in the two calls that fill a row with it, the quick and the growing plan (BOTH), or in the
 * card too (EACH) */

#define BOTH(name, says) ((the_call == QUICK && IS(quick_##name, says)) || (the_call == GROWTH && ALSO(growth_##name)))
#define EACH(name, says) (BOTH(name, says) || (the_call == CARD && ALSO(card_##name)))

/* The first flight with a jump or a limit, or the number of flights. */
static size_t jump_or_limit(struct day d)
{
    size_t found = d.n;
    for (size_t i = 0; i < d.n; i++) {
        const uint32_t *v = d.f + i * WIDTH;
        bool jump = v[JUMP] > 0, limit = v[LIMIT] != 255;
        if (EACH(8_limits_alone, "a jump is not refused")) jump = false;
        if (EACH(8_jumps_alone, "a limit is not refused")) limit = false;
        if (EACH(8_limit_96, "limit 96 is taken as none") && v[LIMIT] == 96) limit = false;
        if (EACH(8_limit_0, "limit 0 is taken as none") && v[LIMIT] == 0) limit = false;
        if (EACH(8_free_limit, "a limit that reaches past P is taken as none") && v[DUE] + v[LIMIT] > d.p) limit = false;
        if (EACH(8_free_jump, "a jump that no hold can cost is taken as none") && v[DUE] + v[AFTER] > d.p + v[LATE]) jump = false;
        if (EACH(8_late, "a late above 0 is refused like a jump") && v[LATE] > 0) jump = true;
        if (EACH(8_jump_1, "a jump of 1 is taken as none") && v[JUMP] == 1) jump = false;
        if (EACH(8_from_64, "flights from table place 64 on are not looked at for 8") && i >= 64) continue;
        if (EACH(8_not_128th, "the 128th flight is not looked at for 8") && i == N_MOST - 1) continue;
        if (!jump && !limit) continue;
        found = i;
        if (!EACH(8_last, "refusal 8 gives the last such flight")) return found;
    }
    return found;
}

/* What puts one flight before another in a period: the rate, or with a growth the next cost. */
static uint64_t next_of(struct day d, const uint32_t *growth, uint32_t period, size_t i)
{
    uint32_t rate = d.f[i * WIDTH + RATE];
    if (EACH(rate_low_bits, "rates are compared by their low 13 bits")) rate &= 8191;
    if (EACH(rate_coarse, "rates are compared without their low 4 bits")) rate >>= 4;
    return growth == NULL ? rate : next_cost(d, *growth, period, i, rate);
}

static bool goes_before(struct day d, const uint32_t *growth, uint32_t period, size_t a, size_t b)
{
    const uint32_t *x = d.f + a * WIDTH, *y = d.f + b * WIDTH;
    uint64_t next_x = next_of(d, growth, period, a), next_y = next_of(d, growth, period, b);
    if (next_x != next_y) {
        if (EACH(lower_rate, "the lower rate, or next cost, goes first")) return next_x < next_y;
        if (EACH(lower_rate_from_64, "the lower rate, or next cost, goes first between flights from table place 64 on") && a >= 64 && b >= 64) return next_x < next_y;
        return next_x > next_y;
    }
    if (EACH(tie_by_late, "ties go to the flight that is later") && x[LATE] != y[LATE]) return x[LATE] > y[LATE];
    bool later_due = EACH(tie_later_due, "ties go to the later due") || (growth != NULL && tie_turned(*growth, period, x, y));
    if (x[DUE] != y[DUE] && !EACH(tie_by_place, "ties go by table place alone")) return later_due ? x[DUE] > y[DUE] : x[DUE] < y[DUE];
    if (EACH(tie_higher_place, "ties go to the higher table place")) return a > b;
    if (EACH(tie_from_64, "ties go to the higher table place from place 64 on") && a >= 64 && b >= 64) return a > b;
    if (IS(growth_tie_number, "of flights held as long the lower number goes first")) return x[NUMBER] < y[NUMBER];
    if (IS(growth_tie_128th, "the 128th flight goes before those that tie with it and were held as long") && a == N_MOST - 1) return true;
    return a < b;
}

/* The holds, with a growth or with none, and who is eligible in each period. */
void plan_quickly(struct day d, const uint32_t *growth, uint32_t *holds, bool sets[P_MOST][N_MOST])
{
    bool waiting[N_MOST] = { false };
    memset(sets, 0, sizeof(bool[P_MOST][N_MOST]));
    for (size_t i = 0; i < d.n; i++) holds[i] = (uint32_t)d.p + 1 - d.f[i * WIDTH + DUE];
    for (uint32_t j = 1; j <= d.p; j++) {
        for (size_t i = 0; i < d.n; i++) {
            if (d.f[i * WIDTH + DUE] == j) waiting[i] = true;
            sets[j - 1][i] = waiting[i];
        }
        uint32_t room = d.c[j - 1];
        if (EACH(capacity_signed, "a capacity above 127 is taken as 0") && room > 127) room = 0;
        if (EACH(capacity_64, "no more than 64 flights land in a period") && room > 64) room = 64;
        if (EACH(first_period_alone, "the capacity of period 1 alone is heeded") && j > 1) room = N_MOST;
        if (IS(quick_period_96, "the capacity of period 96 is one less") && j == P_MOST && room > 0) room--;
        if (EACH(closed_takes_one, "a capacity of 0 takes one flight") && room == 0) room = 1;
        if (growth != NULL) room = growing_room(d, j, room);
        for (; room > 0; room--) {
            size_t best = d.n;
            for (size_t i = 0; i < d.n; i++)
                if (waiting[i] && !(growth != NULL && kept_waiting(d, j, i)) && (best == d.n || goes_before(d, growth, j, i, best))) best = i;
            if (best == d.n) break;
            waiting[best] = false;
            holds[best] = j - d.f[best * WIDTH + DUE];
            if (IS(card_landed_gone, "those that land in the period are not in its set")) sets[j - 1][best] = false;
            if (IS(card_landed_stays, "the last one that lands stays eligible in the next period") && j < d.p && (room == 1)) sets[j][best] = true, waiting[best] = true;
        }
        if (IS(card_due_alone, "those left over from the period before are not in the set")) for (size_t i = 0; i < d.n; i++) sets[j - 1][i] = d.f[i * WIDTH + DUE] == j;
        if (IS(card_left_over_alone, "those due in the period are not in its set")) for (size_t i = 0; i < d.n; i++) if (d.f[i * WIDTH + DUE] == j) sets[j - 1][i] = false;
    }
}

/* ---- the curfew */

/* The last period that a flight's limit and the closing period leave. */
static size_t last_of(struct day d, size_t i)
{
    const uint32_t *v = d.f + i * WIDTH;
    return v[LIMIT] == 255 || v[DUE] + v[LIMIT] > d.p + 1 ? d.p + 1 : v[DUE] + v[LIMIT];
}

/* How many may land in the periods a to b. */
static size_t rooms(struct day d, size_t a, size_t b)
{
    size_t room = 0;
    for (size_t k = a; k <= b; k++) room += k <= d.p ? d.c[k - 1] : d.closing;
    return room;
}

static size_t must_land(struct day d, size_t a, size_t b)
{
    size_t must = 0;
    for (size_t i = 0; i < d.n; i++) must += d.f[i * WIDTH + DUE] >= a && last_of(d, i) <= b;
    return must;
}

hold_desk_answer short_stretch(struct day d)
{
    for (size_t b = 1; b <= priced(d); b++)
        for (size_t a = b; a >= 1; a--)
            if (must_land(d, a, b) > rooms(d, a, b)) return answer(9, a, b);
    return answer(0, 0, 0);
}

/* How many flights a plan leaves for the closing period, as a wrong planner counts them. */
static uint32_t left_of(struct day d, const uint32_t *plan)
{
    uint32_t left = lands_in_closing(d, plan);
    if (BOTH(9_left_64, "no more than 64 flights are counted as left") && left > 64) return 64;
    if (BOTH(9_left_not_128th, "the 128th flight is not counted as left") && d.n == N_MOST && d.f[127 * WIDTH + DUE] + plan[127] == d.p + 1) return left - 1;
    if (BOTH(9_left_not_last, "the last flight is not counted as left") && d.n > 0 && d.f[(d.n - 1) * WIDTH + DUE] + plan[d.n - 1] == d.p + 1) return left - 1;
    if (BOTH(9_left_due_in_p, "flights due in period P are not counted as left")) { for (size_t i = 0; i < d.n; i++) left -= d.f[i * WIDTH + DUE] == d.p && plan[i] == 1; return left; }
    if (BOTH(9_left_held, "all flights that are held are counted as left")) { left = 0; for (size_t i = 0; i < d.n; i++) left += plan[i] > 0; return left; }
    return left;
}

/* Refusal 9 of a quick plan, or one with number 0: more flights are left than the closing number. */
hold_desk_answer passes_curfew(struct day d, const uint32_t *plan, uint32_t *holds, size_t holds_len)
{
    uint32_t left = left_of(d, plan);
    bool passed = has_curfew(d) && left > d.closing;
    if (BOTH(9_equal, "refusal 9 is given where as many are left as the closing number") && left == d.closing) passed = true;
    if (BOTH(9_equal_0, "refusal 9 is given for every day with the closing number 0") && d.closing == 0) passed = true;
    if (BOTH(9_equal_some, "refusal 9 is given where as many are left as the closing number, and some are") && left == d.closing && left > 0) passed = true;
    if (BOTH(9_never, "refusal 9 is never given")) passed = false;
    if (BOTH(9_coarse, "one more may be left than the closing number") && left == d.closing + 1) passed = false;
    if (BOTH(9_not_0, "the closing number 0 is not heeded") && d.closing == 0) passed = false;
    if (BOTH(9_only_0, "the closing number 0 alone is heeded") && d.closing > 0) passed = false;
    if (BOTH(9_places, "refusal 9 is given only where there are more flights than places") && d.n <= rooms(d, 1, d.p) + d.closing) passed = false;
    if (BOTH(9_unlimited, "a day without a curfew gets 9 if all flights are left") && !has_curfew(d) && d.n > 0 && left == d.n) passed = true;
    if (!passed) return answer(0, 0, 0);
    hold_desk_answer r = short_stretch(d);
    if (r.number == 0) r = answer(9, 1, d.p + 1);
    size_t a = r.first, smallest = a;
    for (size_t k = a; k >= 1; k--) if (must_land(d, k, d.p + 1) > rooms(d, k, d.p + 1)) smallest = k;
    if (BOTH(9_from_1, "refusal 9 gives the stretch from period 1")) r.first = 1;
    if (BOTH(9_smallest, "of the short stretches refusal 9 gives the one with the smallest first period")) r.first = smallest;
    if (BOTH(9_from_end, "refusal 9 gives the closing period alone")) r.first = d.p + 1;
    if (BOTH(9_from_p, "refusal 9 gives the stretch from period P")) r.first = d.p;
    if (BOTH(9_to_p, "refusal 9 gives P for the last period")) r.second = d.p;
    if (BOTH(9_exchanged, "refusal 9 gives the last period first")) r = answer(9, r.second, r.first);
    if (BOTH(9_left, "refusal 9 gives how many are left")) r = answer(9, left, 0);
    if (BOTH(9_closing, "refusal 9 gives the closing number second")) r.second = d.closing;
    if (BOTH(9_no_second, "refusal 9 gives 0 second")) r.second = 0;
    if (BOTH(9_as_10, "refusal 9 is given as 10")) r.number = 10;
    if (BOTH(9_as_8, "refusal 9 is given as 8, with the first flight that is left")) { r = answer(8, 0, 0); while (d.f[r.first * WIDTH + DUE] + plan[r.first] <= d.p) r.first++; }
    if (BOTH(9_touches, "refusal 9 changes the hold row's first entry") && holds_len > 0) holds[0] ^= 1;
    if (BOTH(9_touches_last, "refusal 9 changes the hold row's last entry") && holds_len > 0) holds[holds_len - 1] ^= 1;
    if (BOTH(9_fills, "refusal 9 comes after the hold row is filled")) put_back(holds, plan, holds_len * sizeof *holds);
    if (BOTH(9_fills_landed, "refusal 9 comes after the holds of those that are not left are stored")) for (size_t i = 0; i < d.n; i++) if (d.f[i * WIDTH + DUE] + plan[i] <= d.p) holds[i] = plan[i];
    if (BOTH(9_clears, "refusal 9 clears the hold row")) memset(holds, 0, holds_len * sizeof *holds);
    if (BOTH(9_before_row, "refusal 9 changes the entry before the hold row")) holds[-1] ^= 1;
    return r;
}

/* Refusals 6, 7 and 8, or one with number 0. */
hold_desk_answer not_quick(struct day d, bool bad, uint32_t *holds, size_t holds_len)
{
    if (bad && !(BOTH(7_before_6, "a bad day with an empty hold row is refused with 7") && holds_len == 0 && d.n > 0)) {
        if (BOTH(6_touches, "refusal 6 changes the hold row") && holds_len > 0) holds[0] ^= 1;
        return answer(6, 0, 0);
    }
    if (bad) return answer(7, d.n, 0);
    size_t place = jump_or_limit(d);
    if (BOTH(9_before_7, "refusal 9 before 7") && has_curfew(d) && short_stretch(d).number == 9) return short_stretch(d);
    if (BOTH(9_before_8, "refusal 9 before 8") && has_curfew(d) && holds_len == d.n && short_stretch(d).number == 9) return short_stretch(d);
    bool fits = holds_len == d.n;
    if (BOTH(long_row, "a hold row with one entry more is taken") && holds_len == d.n + 1) fits = true;
    if (BOTH(longer_row, "a hold row with two or more entries more is taken") && holds_len > d.n + 1) fits = true;
    if (BOTH(short_row, "a hold row with one entry less is taken") && holds_len + 1 == d.n) fits = true;
    if (BOTH(8_before_7, "refusal 8 before 7") && place < d.n) fits = true;
    if (!fits) {
        if (BOTH(7_touches, "refusal 7 changes the hold row's last entry") && holds_len > 0) holds[holds_len - 1] ^= 1;
        if (BOTH(7_given, "refusal 7 gives the length that it got")) return answer(7, holds_len, 0);
        if (BOTH(7_periods, "refusal 7 gives P")) return answer(7, d.p, 0);
        return answer(7, d.n, BOTH(7_second, "refusal 7 gives P second") ? d.p : 0);
    }
    if (place < d.n) {
        if (BOTH(8_touches, "refusal 8 changes the hold row's first entry") && holds_len > 0) holds[0] ^= 1;
        if (BOTH(8_touches_last, "refusal 8 changes the hold row's last entry") && holds_len > 0) holds[holds_len - 1] ^= 1;
        if (BOTH(8_fills, "refusal 8 comes after the flights above have holds of 0")) for (size_t i = 0; i < place; i++) holds[i] = 0;
        if (BOTH(8_next, "refusal 8 gives the next place")) place++;
        if (BOTH(8_number, "refusal 8 gives the flight's number")) return answer(8, d.f[place * WIDTH], 0);
        return answer(8, place, BOTH(8_second, "refusal 8 gives 1 second") ? 1 : 0);
    }
    return answer(0, 0, 0);
}

/* The total of what the flights' holds cost. */
uint64_t add_up(struct day d, const uint32_t *plan, const uint64_t *costs)
{
    uint64_t sum = 0;
    for (size_t i = 0; i < d.n; i++) {
        if (BOTH(total_last, "the total is without the last flight") && i == d.n - 1) continue;
        if (BOTH(total_closing, "the total is without those that land in the closing period") && d.f[i * WIDTH + DUE] + plan[i] == d.p + 1) continue;
        sum += costs[i];
    }
    return sum;
}

/* The plan into the hold row. */
void store(struct day d, uint32_t *plan, uint32_t *holds, size_t holds_len)
{
    if (BOTH(128th_hold, "the 128th flight's hold is 0") && d.n == N_MOST) plan[127] = 0;
    for (size_t i = 0; i < d.n && i < holds_len; i++) {
        if (BOTH(zero_left, "a hold of 0 is not stored") && plan[i] == 0) continue;
        holds[i] = plan[i];
    }
}

static hold_desk_answer quick(struct day d, bool bad, const uint32_t *growth, uint32_t *holds, size_t holds_len)
{
    bool sets[P_MOST][N_MOST];
    uint32_t plan[N_MOST];
    uint64_t costs[N_MOST];
    hold_desk_answer r = not_quick(d, bad, holds, holds_len);
    if (r.number > 0) return r;
    plan_quickly(d, growth, plan, sets);
    r = passes_curfew(d, plan, holds, holds_len);
    if (r.number > 0) return r;
    for (size_t i = 0; i < d.n; i++) {
        costs[i] = cost(d.f + i * WIDTH, plan[i], COST_NO_JUMP);
        if (IS(quick_total_late, "late costs its rate too")) costs[i] += d.f[i * WIDTH + RATE] * d.f[i * WIDTH + LATE];
    }
    uint64_t sum = add_up(d, plan, costs);
    if (IS(quick_total_more, "the total is one more above 10,000,000") && sum > 10000000) sum++;
    if (IS(quick_total_low_bits, "of the total the low 24 bits are given")) sum &= 0xffffff;
    if (IS(quick_last_hold, "the last flight's hold is one more in a day of 96 periods") && d.p == P_MOST && d.n > 0) plan[d.n - 1]++;
    if (IS(quick_hold_96, "a hold of 96 is given as 95")) for (size_t i = 0; i < d.n; i++) if (plan[i] == 96) plan[i] = 95;
    store(d, plan, holds, holds_len);
    return answer(0, sum, IS(quick_second, "N is answered second") ? d.n : 0);
}

static hold_desk_answer real_plan(struct day d, const uint32_t *growth, uint32_t *holds, size_t holds_len)
{
    if (growth == NULL) return real_hold_desk_quick_plan(DAY_OF(d), holds, holds_len);
    return real_hold_desk_growth_plan(DAY_OF(d), *growth, holds, holds_len);
}

/* A call with its fault, once the version here has come to the same as the real one without it. */
hold_desk_answer planned_with_fault(DAY_ROWS, const uint32_t *growth, uint32_t *holds, size_t holds_len, planner *ours)
{
    if (BOTH(changes_flights, "the flight row's first number is changed")) change_flights(THE_DAY);
    struct day d = day_of(THE_DAY);
    holds_len = cut(holds_len, d.flights_cut);
    size_t bytes = holds_len * sizeof *holds;
    uint32_t *before = copy_of(holds, bytes), *again = copy_of(holds, bytes);
    hold_desk_answer right = real_plan(d, growth, holds, holds_len);
    plain = true;
    bool agrees = same(right, ours(d, right.number == 6, growth, again, holds_len)) && (bytes == 0 || memcmp(again, holds, bytes) == 0);
    plain = false;
    must_agree(agrees, growth == NULL ? "the quick plan" : "the growing plan");
    put_back(holds, before, bytes);
    free(before), free(again);
    if (BOTH(past_row, "the entry after the hold row is changed in a day of more than ten flights") && right.number == 0 && d.n > 10) holds[holds_len] ^= 1;
    if (BOTH(before_row, "refusal 8 changes the entry before the hold row") && right.number == 8) holds[-1] ^= 1;
    return ours(d, right.number == 6, growth, holds, holds_len);
}

hold_desk_answer hold_desk_quick_plan(DAY_ROWS, uint32_t *holds, size_t holds_len)
{
    if (!OURS(QUICK)) return real_hold_desk_quick_plan(THE_DAY, holds, holds_len);
    return planned_with_fault(THE_DAY, NULL, holds, holds_len, quick);
}

static hold_desk_card card(struct day d, bool bad, uint32_t period)
{
    hold_desk_card k = { 0, 0, 0, 0, 0, 0 };
    bool sets[P_MOST][N_MOST];
    uint32_t plan[N_MOST];
    if (bad) {
        k.number = 6;
        if (IS(card_11_before_6, "period 0 is refused before a bad day") && period == 0) k.number = 11, k.first = d.p;
        if (IS(card_6_first, "refusal 6 gives P")) k.first = d.p;
        if (IS(card_6_size, "refusal 6 gives the number of flights for the size")) k.size = d.n;
        return k;
    }
    size_t place = jump_or_limit(d);
    if (IS(card_period_low_byte, "of the period the low byte is taken")) period &= 255;
    if (IS(card_period_low_half, "of the period the low 16 bits are taken")) period &= 65535;
    if (IS(card_past_last, "period P+1 is answered as P") && period == d.p + 1) period--;
    if (IS(card_period_0, "period 0 is answered as 1") && period == 0) period = 1;
    if (IS(card_far_period, "a period from 2^31 on is answered as 1") && period > INT32_MAX) period = 1;
    bool outside = period == 0 || period > d.p;
    if (IS(card_last_refused, "period P is refused") && period == d.p) outside = true;
    if (IS(card_96_refused, "period 96 is refused") && period == P_MOST) outside = true;
    if (IS(card_11_before_8, "refusal 11 before 8") && outside) place = d.n;
    if (place < d.n) {
        k.number = 8, k.first = place;
        if (IS(card_8_next, "refusal 8 gives the next place")) k.first++;
        if (IS(card_8_second, "refusal 8 gives the period second")) k.second = period;
        if (IS(card_8_size, "refusal 8 gives the number of flights for the size")) k.size = d.n;
        if (IS(card_8_low, "refusal 8 marks the flight in the low word") && place < 64) k.low = UINT64_C(1) << place;
        return k;
    }
    plan_quickly(d, NULL, plan, sets);
    bool passed = has_curfew(d) && lands_in_closing(d, plan) > d.closing;
    if (IS(card_9, "a day of which more are left than the closing number gets 9") && passed) { k.number = 9, k.first = short_stretch(d).first, k.second = d.p + 1; return k; }
    if (IS(card_9_not_11, "a day of which more are left than the closing number gets 9, but a period that is out of range 11") && passed && !outside) { k.number = 9, k.first = short_stretch(d).first, k.second = d.p + 1; return k; }
    if (IS(card_curfew_refused, "a day with a curfew gets 6") && has_curfew(d)) { k.number = 6; return k; }
    if (IS(card_curfew_last, "under a curfew those left after period P are not in its set") && has_curfew(d) && period == d.p) for (size_t i = 0; i < d.n; i++) if (d.f[i * WIDTH + DUE] + plan[i] > d.p) sets[d.p - 1][i] = false;
    if (IS(card_curfew_passed, "the set of period P has no more than may land from it on") && passed && period == d.p) for (size_t i = 0, count = 0; i < d.n; i++) if (sets[d.p - 1][i] && ++count > d.c[d.p - 1] + d.closing) sets[d.p - 1][i] = false;
    if (outside) {
        k.number = 11, k.first = d.p;
        if (IS(card_11_zero, "refusal 11 gives 0 for P")) k.first = 0;
        if (IS(card_11_period, "refusal 11 gives the period asked for")) k.first = period;
        if (IS(card_11_second, "refusal 11 gives the period second")) k.second = period;
        if (IS(card_11_words, "refusal 11 gives the words of period P")) for (size_t i = 0; i < d.n && i < 64; i++) k.low |= (uint64_t)sets[d.p - 1][i] << i;
        if (IS(card_11_high, "refusal 11 gives all ones in the high word")) k.high = UINT64_MAX;
        if (IS(card_11_size, "refusal 11 gives the number of flights for the size")) k.size = d.n;
        return k;
    }
    for (size_t i = 0; i < d.n; i++)
        if (sets[period - 1][i]) {
            if (i < 64) k.low |= UINT64_C(1) << i;
            else k.high |= UINT64_C(1) << (i - 64);
            k.size++;
        }
    if (IS(card_high_zero, "the high word is 0")) k.high = 0;
    if (IS(card_words_exchanged, "the words are exchanged")) { uint64_t w = k.low; k.low = k.high; k.high = w; }
    if (IS(card_bit_63, "the flight at place 63 is not marked")) k.low &= ~(UINT64_C(1) << 63);
    if (IS(card_bit_31, "the flight at place 31 marks those from 32 to 63 too") && k.low >> 31 & 1) k.low |= UINT64_C(0xffffffff) << 32;
    if (IS(card_bit_64, "the flight at place 64 is marked at place 63") && k.high & 1) k.high &= ~UINT64_C(1), k.low |= UINT64_C(1) << 63;
    if (IS(card_bit_127, "the flight at place 127 is not marked")) k.high &= ~(UINT64_C(1) << 63);
    if (IS(card_size_low, "the size is that of the low word")) { k.size = 0; for (uint64_t w = k.low; w > 0; w &= w - 1) k.size++; }
    if (IS(card_size_7_bits, "a size of 128 is given as 0")) k.size &= 127;
    if (IS(card_size_6_bits, "of the size the low 6 bits are given")) k.size &= 63;
    if (IS(card_first, "the period is answered first")) k.first = period;
    if (IS(card_second, "the size is answered second")) k.second = k.size;
    return k;
}

hold_desk_card hold_desk_period_card(DAY_ROWS, uint32_t period)
{
    if (!OURS(CARD)) return real_hold_desk_period_card(THE_DAY, period);
    if (IS(card_changes_flights, "the flight row's first number is changed in a day of more than ten flights") && flights_len > 60) change_flights(THE_DAY);
    struct day d = day_of(THE_DAY);
    hold_desk_card real = real_hold_desk_period_card(DAY_OF(d), period);
    plain = true;
    hold_desk_card again = card(d, real.number == 6, period);
    plain = false;
    must_agree(memcmp(&real, &again, sizeof real) == 0, "the period card");
    return card(d, real.number == 6, period);
}

/* ---- the full plan */

/* Whether periods a to b are short; with a fault, what that fault takes for short. */
static bool is_short(struct day d, size_t a, size_t b, bool at_equal, bool by_due, bool reaching_end)
{
    size_t must = 0, room = rooms(d, a, b);
    for (size_t i = 0; i < d.n; i++) {
        const uint32_t *v = d.f + i * WIDTH;
        size_t latest = v[LIMIT] == 255 ? (by_due ? d.p : d.p + 1) : v[DUE] + v[LIMIT];
        if (latest > d.p + 1) latest = d.p + 1;
        if (reaching_end && latest == d.p + 1 && v[LIMIT] != 255) latest = d.p;
        if (v[DUE] >= a && latest <= b) must++;
    }
    return must > room || (at_equal && must == room && must > 0);
}

/* The day with values that a wrong planner would see. */
static struct day seen_wrongly(struct day d)
{
    static _Thread_local uint32_t c[P_MOST], f[N_MOST * WIDTH];
    put_back(c, d.c, d.p * sizeof *c);
    put_back(f, d.f, d.entries * sizeof *f);
    for (size_t k = 0; k < d.p; k++) {
        if (IS(full_capacity_signed, "a capacity above 127 is taken as 0") && c[k] > 127) c[k] = 0;
        if (IS(full_capacity_64, "no more than 64 flights land in a period") && c[k] > 64) c[k] = 64;
        if (IS(full_period_96, "the capacity of period 96 is one more") && k == P_MOST - 1) c[k] = c[k] < 255 ? c[k] + 1 : 255;
        if (IS(full_closed_takes_one, "a capacity of 0 takes one flight") && c[k] == 0) c[k] = 1;
    }
    for (size_t i = 0; i < d.n; i++) {
        uint32_t *v = f + i * WIDTH;
        if (IS(full_rates_alone, "jumps are left out")) v[JUMP] = 0;
        if (IS(full_jump_at_after, "the jump is charged at late + hold = after") && v[AFTER] > 0) v[AFTER]--;
        if (IS(full_late_left_out, "late is left out")) v[LATE] = 0;
        if (IS(full_late_less, "late is one less") && v[LATE] > 0) v[LATE]--;
        if (IS(full_late_7_bits, "of late the low 7 bits are taken")) v[LATE] &= 127;
        if (IS(full_late_128th, "the 128th flight's late is left out") && i == N_MOST - 1) v[LATE] = 0;
        if (IS(full_late_lands, "late counts into the landing period")) v[DUE] = v[DUE] + v[LATE] < d.p ? v[DUE] + v[LATE] : (uint32_t)d.p;
        if (IS(full_late_limit, "late counts against the limit") && v[LIMIT] != 255) v[LIMIT] = v[LIMIT] > v[LATE] ? v[LIMIT] - v[LATE] : 0;
        if (IS(full_jump_after_2, "the jump is charged from late + hold = after + 2 on") && v[AFTER] < 96) v[AFTER]++;
        if (IS(full_jump_low_bits, "of a jump the low 19 bits are taken")) v[JUMP] &= 0x7ffff;
        if (IS(full_rate_low_bits, "of a rate the low 13 bits are taken") && v[RATE] > 8192) v[RATE] &= 8191;
        if (IS(full_limit_0, "limit 0 is taken as none") && v[LIMIT] == 0) v[LIMIT] = 255;
        if (IS(full_limit_more, "limits are one more") && v[LIMIT] < 96) v[LIMIT]++;
        if (IS(full_limits_from_64, "limits are left out from table place 64 on") && i >= 64) v[LIMIT] = 255;
        if (IS(full_limits_128th, "the 128th flight's limit is left out") && i == N_MOST - 1) v[LIMIT] = 255;
        if (IS(full_limit_95, "limit 95 is taken as 94") && v[LIMIT] == 95) v[LIMIT] = 94;
    }
    d.c = c;
    d.f = f;
    return d;
}

static bool yes(struct day d, const uint32_t *holds, const uint32_t *prices)
{
    return real_hold_desk_price_check(DAY_OF(d), holds, d.n, prices, priced(d));
}

/* A price that is changed, if the price check then says no. */
static void spoil(struct day d, const uint32_t *holds, uint32_t *prices, size_t k, uint32_t price)
{
    uint32_t was = prices[k];
    prices[k] = price;
    if (yes(d, holds, prices)) prices[k] = was;
}

/* A price that is raised, if the price check then still says yes: accepted, and not the smallest. */
static bool raise_price(struct day d, const uint32_t *holds, uint32_t *prices, size_t k, uint32_t by)
{
    prices[k] += by;
    if (yes(d, holds, prices)) return true;
    prices[k] -= by;
    return false;
}

/* What a flight saves at most that moves to period k, when nobody takes the place that it leaves. */
static uint32_t one_move(struct day d, const uint32_t *holds, uint32_t k)
{
    uint64_t most = 0;
    for (size_t i = 0; i < d.n; i++) {
        const uint32_t *v = d.f + i * WIDTH;
        if (k < v[DUE] || (v[LIMIT] != 255 && k > v[DUE] + v[LIMIT])) continue;
        uint64_t here = cost(v, holds[i], COST_RIGHT), there = cost(v, k - v[DUE], COST_RIGHT);
        if (here > there + most) most = here - there;
    }
    return (uint32_t)most;
}

/* A plan that costs more: two flights land in each other's period. */
static void exchange(struct day d, uint32_t *holds)
{
    uint64_t least = total(d, holds, COST_RIGHT);
    for (size_t i = 0; i < d.n; i++)
        for (size_t k = 0; k < i; k++) {
            uint32_t due_i = d.f[i * WIDTH + DUE], due_k = d.f[k * WIDTH + DUE], was_i = holds[i], was_k = holds[k];
            if (due_i + was_i < due_k || due_k + was_k < due_i) continue;
            holds[i] = due_k + was_k - due_i;
            holds[k] = due_i + was_i - due_k;
            if (walk(d, holds, WALK_RIGHT) == d.n && total(d, holds, COST_RIGHT) > least) return;
            holds[i] = was_i;
            holds[k] = was_k;
        }
}

/* A plan that costs more: one flight lands a period later. */
static void delay(struct day d, uint32_t *holds)
{
    for (size_t i = d.n; i-- > 0;) {
        holds[i]++;
        if (walk(d, holds, WALK_RIGHT) == d.n) return;
        holds[i]--;
    }
}

/* Whether a flight without a limit is due in period P. */
static bool last_due(struct day d)
{
    bool found = false;
    for (size_t i = 0; i < d.n; i++) found = found || (d.f[i * WIDTH + DUE] == d.p && d.f[i * WIDTH + LIMIT] == 255);
    return found;
}

static hold_desk_answer accepted(struct day d, hold_desk_answer real, uint32_t *holds, uint32_t *prices, const uint32_t *holds_before, const uint32_t *prices_before)
{
    uint32_t landed[P_MOST + 2] = { 0 };
    for (size_t i = 0; i < d.n; i++) landed[d.f[i * WIDTH + DUE] + holds[i]]++;
    for (size_t b = 1; b <= priced(d); b++)
        for (size_t a = b; a >= 1; a--) {
            bool wrong = IS(full_9_closing_equal, "a stretch that ends with the closing period counts as short where it is just full") && b > d.p && is_short(d, a, b, true, false, false);
            wrong = wrong || (IS(full_9_closing_0, "there is no plan where nobody may land in the closing period, and a flight without a limit is due in P") && b > d.p && d.closing == 0 && last_due(d));
            wrong = wrong || (b <= d.p && IS(full_9_equal, "a stretch that is just full counts as short") && is_short(d, a, b, true, false, false));
            wrong = wrong || (IS(full_9_by_due, "flights without a limit count as having to land by P") && is_short(d, a, b, false, true, false));
            wrong = wrong || (IS(full_9_reaching_end, "flights whose limit reaches P+1 count as having to land by P") && is_short(d, a, b, false, false, true));
            wrong = wrong || (IS(full_9_closed, "there is no plan where the first flight is due in a closed period") && a == b && b <= d.p && d.c[a - 1] == 0 && d.n > 0 && d.f[DUE] == a);
            if (!wrong) continue;
            put_back(holds, holds_before, d.n * sizeof *holds);
            put_back(prices, prices_before, priced(d) * sizeof *prices);
            return answer(9, a, b);
        }
    if (IS(full_dearer, "two flights land in each other's period")) exchange(d, holds);
    if (IS(full_dearer_100, "two flights land in each other's period in a day of more than 100 flights") && d.n > 100) exchange(d, holds);
    if (IS(full_dearer_96, "two flights land in each other's period in a day of 96 periods") && d.p == P_MOST) exchange(d, holds);
    if (IS(full_later, "a flight lands a period later than it might")) delay(d, holds);
    if (IS(full_later_128, "a flight lands a period later than it might in a day of 128 flights") && d.n == N_MOST) delay(d, holds);
    if (IS(full_later_told, "a flight lands a period later than the total says")) delay(d, holds);
    else real.first = total(d, holds, COST_RIGHT);
    if (IS(full_all_to_end, "all flights land in the closing period where that is legal")) {
        uint32_t latest[N_MOST];
        for (size_t i = 0; i < d.n; i++) latest[i] = (uint32_t)d.p + 1 - d.f[i * WIDTH + DUE];
        if (walk(d, latest, WALK_RIGHT) == d.n) put_back(holds, latest, d.n * sizeof *holds);
        real.first = total(d, holds, COST_RIGHT);
    }
    if (IS(full_total_more, "the total is one more above 1,000,000") && real.first > 1000000) real.first++;
    if (IS(full_total_low_bits, "of the total the low 24 bits are given")) real.first &= 0xffffff;
    if (IS(full_total_no_jump, "the total is without jumps")) real.first = total(d, holds, COST_NO_JUMP);
    if (IS(full_total_no_late, "the total is without late")) real.first = total(d, holds, COST_NO_LATE);
    if (IS(full_total_no_jump_at_0, "the total is without the jumps of flights that are not held")) real.first = total(d, holds, COST_NO_JUMP_AT_0);
    if (IS(full_second, "N is answered second")) real.second = d.n;
    for (size_t k = 0; k < d.p; k++) {
        bool room = landed[k + 1] < d.c[k];
        if (IS(full_price_room, "a period with room has price 1") && room) prices[k] = 1;
        if (IS(full_price_room_last, "the last period has price 1 if it has room") && room && k == d.p - 1) prices[k] = 1;
        if (IS(full_price_room_96, "period 96 has price 1 if it has room") && room && k == P_MOST - 1) prices[k] = 1;
        if (IS(full_price_left, "a price of 0 is not stored") && prices[k] == 0) prices[k] = prices_before[k];
        if (IS(full_price_96_left, "the price of period 96 is not stored") && k == P_MOST - 1) prices[k] = prices_before[k];
        if (IS(full_price_more, "a price is one more than the check allows") && !room) { uint32_t was = prices[k]; spoil(d, holds, prices, k, was + 1); if (prices[k] != was) break; }
        if (IS(full_price_less, "a price is one less than the check allows") && prices[k] > 0) { uint32_t was = prices[k]; spoil(d, holds, prices, k, was - 1); if (prices[k] != was) break; }
        if (IS(full_price_less_from_49, "a price after period 48 is one less than the check allows") && prices[k] > 0 && k >= 48) { uint32_t was = prices[k]; spoil(d, holds, prices, k, was - 1); if (prices[k] != was) break; }
        if (IS(full_closed_price_0, "a closed period has price 0") && d.c[k] == 0) prices[k] = 0;
        if (IS(full_closed_price_most, "a closed period has a price above the bound") && d.c[k] == 0) prices[k] = 250880001;
        if (IS(full_closed_price_2_to_32, "the last period has the greatest 32-bit price if it is closed") && d.c[k] == 0 && k == d.p - 1) prices[k] = UINT32_MAX;
    }
    for (size_t k = 0; k < d.p; k++) {
        bool full = d.c[k] > 0 && landed[k + 1] == d.c[k];
        if (IS(full_price_higher, "the first full period whose price may be one more has one more") && full && raise_price(d, holds, prices, k, 1)) break;
        if (IS(full_price_higher_from_49, "a full period after period 48 has one more where the check allows it") && full && k >= 48) raise_price(d, holds, prices, k, 1);
        if (IS(full_price_higher_1000, "every full period whose price may be 1,000 more has 1,000 more") && full) raise_price(d, holds, prices, k, 1000);
        if (IS(full_price_higher_100, "a full period has one more where the check allows it in a day of more than 100 flights") && full && d.n > 100) raise_price(d, holds, prices, k, 1);
        if (IS(full_closed_price_more, "a closed period's price is one more") && d.c[k] == 0) prices[k]++;
        if (IS(full_closed_price_more_96, "the price of period 96 is one more if it is closed") && d.c[k] == 0 && k == P_MOST - 1) prices[k]++;
        if (IS(full_closed_price_1, "a closed period has a price of 1 at least") && d.c[k] == 0 && prices[k] == 0) prices[k] = 1;
        if (IS(full_price_255, "a period of capacity 255 has price 1") && d.c[k] == 255) prices[k] = 1;
        if (IS(full_price_low_bits, "of a price the low 20 bits are given")) prices[k] &= 0xfffff;
        if (IS(full_price_one_move, "a price is what one flight saves by moving to its period") && (full || d.c[k] == 0)) prices[k] = one_move(d, holds, (uint32_t)k + 1);
        if (IS(full_price_next, "a period has the price of the next")) prices[k] = k + 1 < d.p ? prices[k + 1] : 0;
    }
    if (has_curfew(d)) {
        uint32_t *last = prices + d.p;
        bool full = landed[d.p + 1] == d.closing;
        if (IS(full_closing_price_1, "the closing period has price 1 if it has room") && !full) *last = 1;
        if (IS(full_closing_price_full, "the closing period has price 1 if it is full") && full) *last = 1;
        if (IS(full_closing_price_may, "the closing period has price 1 where the check allows it")) raise_price(d, holds, prices, d.p, 1);
        if (IS(full_closing_price_as_p, "the closing period has the price of period P")) *last = prices[d.p - 1];
        if (IS(full_closing_price_left, "the closing price is not stored")) *last = prices_before[d.p];
        if (IS(full_closing_price_first, "the closing price stands first") && d.p > 0) { uint32_t was = *last; memmove(prices + 1, prices, d.p * sizeof *prices); prices[0] = was; }
        if (IS(full_closing_prices_raised, "all prices are one more where that is accepted")) { for (size_t k = 0; k <= d.p; k++) prices[k]++; if (!yes(d, holds, prices)) for (size_t k = 0; k <= d.p; k++) prices[k]--; }
        if (IS(full_closing_prices_end, "the prices after the last period with room are one more")) { size_t k = d.p + 1; while (k > 0 && landed[k] == (k <= d.p ? d.c[k - 1] : d.closing)) prices[--k]++; }
        if (IS(full_closing_97, "the closing price of a day of 96 periods is not stored") && d.p == P_MOST) *last = prices_before[d.p];
    }
    if (IS(full_prices_0, "all prices are 0")) memset(prices, 0, d.p * sizeof *prices);
    for (size_t i = 0; i < d.n; i++) {
        if (IS(full_hold_left, "a hold of 0 is not stored") && holds[i] == 0) holds[i] = holds_before[i];
        if (IS(full_128th_left, "the 128th hold is not stored") && i == N_MOST - 1) holds[i] = holds_before[i];
        if (IS(full_lands, "landing periods are stored for holds")) holds[i] += d.f[i * WIDTH + DUE];
    }
    return real;
}

static hold_desk_answer no_plan(struct day d, hold_desk_answer real, uint32_t *holds, uint32_t *prices)
{
    size_t b = real.second;
    if (IS(full_9_first_1, "the stretch's first period is 1")) real.first = 1;
    if (IS(full_9_one_period, "the stretch's first period is its last")) real.first = b;
    if (IS(full_9_smallest_first, "of the stretches with the smallest last period the smallest first one")) for (size_t a = b; a >= 1; a--) if (is_short(d, a, b, false, false, false)) real.first = a;
    if (IS(full_9_larger_last, "the stretch with the largest last period")) for (b = real.second + 1; b <= priced(d); b++) for (size_t a = 1; a <= b; a++) if (is_short(d, a, b, false, false, false)) real.first = a, real.second = b;
    if (IS(full_9_exchanged, "the stretch's first and last period are exchanged")) real.second = real.first, real.first = b;
    if (IS(full_9_length, "the stretch's length is given for its last period")) real.second = b - real.first + 1;
    if (IS(full_9_reaches_on, "the stretch reaches on over closed periods")) while (real.second < d.p && d.c[real.second] == 0) real.second++;
    if (IS(full_9_starts_before, "the stretch starts at the closed periods before it")) while (real.first > 1 && d.c[real.first - 2] == 0) real.first--;
    bool by_curfew = b == d.p + 1, closing_too = has_curfew(d) && !by_curfew;
    if (IS(full_9_closing_first, "a short stretch that ends with the closing period is looked for first") && closing_too) { for (size_t a = d.p + 1; a >= 1; a--) if (is_short(d, a, d.p + 1, false, false, false)) { real.first = a, real.second = d.p + 1; break; } }
    if (IS(full_9_closing_from_1, "a short stretch that ends with the closing period is given from 1 on") && by_curfew) real.first = 1;
    if (IS(full_9_closing_as_p, "a short stretch that ends with the closing period is given as one that ends with P") && by_curfew) real.second = d.p;
    if (IS(full_9_closing_smallest, "of the short stretches that end with the closing period the one with the smallest first period") && by_curfew) for (size_t a = b; a >= 1; a--) if (is_short(d, a, b, false, false, false)) real.first = a;
    if (IS(full_9_closing_alone, "for a short stretch that ends with the closing period that period alone is given") && by_curfew) real.first = b;
    if (IS(full_9_closing_touches, "refusal 9 changes the closing price") && has_curfew(d)) prices[d.p] ^= 1;
    if (IS(full_9_closing_clears, "refusal 9 sets the closing price to 0") && has_curfew(d)) prices[d.p] = 0;
    if (IS(full_9_second_zero, "the stretch's last period is not given")) real.second = 0;
    if (IS(full_9_as_0, "no plan is answered as a total of 0")) return answer(0, 0, 0);
    if (IS(full_9_128, "no plan is answered as a total of 0 for 128 flights") && d.n == N_MOST) return answer(0, 0, 0);
    if (IS(full_9_touches_holds, "refusal 9 changes the hold row's first entry") && d.n > 0) holds[0] ^= 1;
    if (IS(full_9_touches_last, "refusal 9 changes the hold row's last entry") && d.n > 0) holds[d.n - 1] ^= 1;
    if (IS(full_9_touches_prices, "refusal 9 changes the price row's first entry")) prices[0] ^= 1;
    if (IS(full_9_clears_prices, "refusal 9 clears the price row")) memset(prices, 0, priced(d) * sizeof *prices);
    return real;
}

/* Which short stretches that end with the closing period a wrong search does not see; with them the plan passes the curfew. */
static bool overlooked(struct day d, hold_desk_answer real)
{
    if (real.number != 9 || real.second != d.p + 1) return false;
    size_t unlimited = 0, past = 0, room = rooms(d, real.first, d.p + 1), must = must_land(d, real.first, d.p + 1);
    for (size_t i = 0; i < d.n; i++) {
        const uint32_t *v = d.f + i * WIDTH;
        unlimited += v[DUE] >= real.first && v[LIMIT] == 255;
        past += v[DUE] >= real.first && v[LIMIT] != 255 && v[DUE] + v[LIMIT] > d.p + 1;
    }
    if (IS(full_9_not_closing, "stretches that end with the closing period are not looked at")) return true;
    if (IS(full_9_not_closing_96, "stretches that end with the closing period are not looked at in a day of 96 periods") && d.p == P_MOST) return true;
    if (IS(full_9_not_unlimited, "flights without a limit do not count in stretches that end with the closing period")) return must - unlimited <= room;
    if (IS(full_9_not_past, "flights whose limit reaches past the closing period do not count in stretches that end with it")) return must - past <= room;
    if (IS(full_9_not_0, "the closing number 0 is not looked at")) return d.closing == 0;
    if (IS(full_9_closing_coarse, "a stretch that ends with the closing period and is short by one is not looked at")) return must == room + 1;
    if (IS(full_9_closing_not_1, "stretches from period 1 to the closing period are not looked at")) return real.first == 1;
    if (IS(full_9_closing_1_alone, "of stretches that end with the closing period the one from 1 alone is looked at")) return must_land(d, 1, d.p + 1) <= rooms(d, 1, d.p + 1);
    return false;
}

/* The plan of a day as if it had no curfew, with a closing price of 0. */
static hold_desk_answer plan_past_curfew(struct day d, uint32_t *holds, uint32_t *prices)
{
    prices[d.p] = 0;
    d.closing = UNLIMITED;
    return real_hold_desk_full_plan(DAY_OF(d), holds, d.n, prices, d.p);
}

hold_desk_answer hold_desk_full_plan(DAY_ROWS, uint32_t *holds, size_t holds_len, uint32_t *prices, size_t prices_len)
{
    if (!OURS(FULL)) return real_hold_desk_full_plan(THE_DAY, holds, holds_len, prices, prices_len);
    if (IS(full_changes_flights, "the flight row's first number is changed")) change_flights(THE_DAY);
    uint32_t none[1];
    struct day d = day_of(THE_DAY);
    holds_len = cut(holds_len, d.flights_cut);
    prices_len = cut(prices_len, d.periods_cut);
    if (d.no_period && prices_len == 0) prices = none, prices_len = 1;
    if (IS(full_long_holds, "a hold row with one entry more is taken") && holds_len == d.n + 1) holds_len--;
    if (IS(full_longer_holds, "a hold row with two or more entries more is taken") && holds_len > d.n + 1) holds_len = d.n;
    if (IS(full_long_prices, "a price row with one entry more is taken") && prices_len == priced(d) + 1) prices_len--;
    if (IS(full_long_prices_curfew, "under a curfew a price row with one entry more is taken") && has_curfew(d) && prices_len == priced(d) + 1) prices_len--;
    if (IS(full_longer_prices, "a price row with two or more entries more is taken") && prices_len > priced(d) + 1) prices_len = priced(d);
    if (IS(full_closing_255, "a closing number of 255 is taken for 256") && d.closing == 255) d.closing = UNLIMITED;
    if (IS(full_closing_none, "a closing number of 256 is taken for 255") && d.closing == UNLIMITED) d.closing = 255;
    if (IS(full_no_closing_price, "under a curfew a price row without a closing price is taken") && has_curfew(d) && prices_len == d.p && holds_len == d.n && short_stretch(d).number == 0) d.closing = UNLIMITED;
    if (IS(full_never_closing_price, "a closing price is never asked for") && has_curfew(d) && short_stretch(d).number == 0) d.closing = UNLIMITED;
    uint32_t *holds_before = copy_of(holds, holds_len * sizeof *holds), *prices_before = copy_of(prices, prices_len * sizeof *prices);
    hold_desk_answer real = real_hold_desk_full_plan(DAY_OF(d), holds, holds_len, prices, prices_len);
    if (real.number == 6) {
        if (IS(full_7_before_6, "a bad day with an empty price row is refused with 7") && prices_len == 0) real = answer(7, d.p, 0);
        if (IS(full_7_before_6_closing, "a closing number that is out of range is refused with 7 where the price row has no entry") && d.closing > UNLIMITED && prices_len == 0) real = answer(7, d.p, 0);
        if (IS(full_6_touches_holds, "refusal 6 changes the hold row") && holds_len > 0) holds[0] ^= 1;
        if (IS(full_6_touches_prices, "refusal 6 changes the price row") && prices_len > 0) prices[prices_len - 1] ^= 1;
    }
    if (real.number == 7) {
        bool for_holds = holds_len != d.n;
        if (IS(full_7_prices_first, "the price row's length before the hold row's") && prices_len != priced(d)) real.first = priced(d);
        if (IS(full_7_no_closing, "the price row's length needed is given as P under a curfew") && !for_holds) real.first = d.p;
        if (IS(full_7_always_closing, "the price row's length needed is given as P+1 without a curfew") && !for_holds) real.first = d.p + 1;
        if (IS(full_7_n_for_prices, "the price row's length needed is given as N") && !for_holds) real.first = d.n;
        if (IS(full_7_p_for_holds, "the hold row's length needed is given as P") && for_holds) real.first = d.p;
        if (IS(full_7_given, "refusal 7 gives the length that it got")) real.first = for_holds ? holds_len : prices_len;
        if (IS(full_7_second, "refusal 7 gives P second")) real.second = d.p;
        if (IS(full_7_touches_prices, "refusal 7 for the hold row changes the price row") && for_holds && prices_len > 0) prices[0] ^= 1;
        if (IS(full_7_touches_holds, "refusal 7 for the price row changes the hold row") && !for_holds && holds_len > 0) holds[holds_len - 1] ^= 1;
        if (IS(full_9_before_7, "refusal 9 before 7"))
            for (size_t b = 1; b <= priced(d) && real.number == 7; b++)
                for (size_t a = b; a >= 1 && real.number == 7; a--)
                    if (is_short(d, a, b, false, false, false)) real = answer(9, a, b);
    }
    if ((real.number == 0 || real.number == 9) && the_rule == NO_RULE) {
        struct day wrong = seen_wrongly(d);
        if (memcmp(wrong.c, d.c, d.p * sizeof *d.c) != 0 || (d.n > 0 && memcmp(wrong.f, d.f, d.entries * sizeof *d.f) != 0)) {
            put_back(holds, holds_before, holds_len * sizeof *holds);
            put_back(prices, prices_before, prices_len * sizeof *prices);
            real = real_hold_desk_full_plan(DAY_OF(wrong), holds, holds_len, prices, prices_len);
        } else if (overlooked(d, real)) {
            real = plan_past_curfew(d, holds, prices);
        } else if (real.number == 0) {
            real = accepted(d, real, holds, prices, holds_before, prices_before);
        } else {
            real = no_plan(d, real, holds, prices);
        }
    }
    if (IS(full_past_holds, "the entry after the hold row is changed") && real.number == 0) holds[holds_len] ^= 1;
    if (IS(full_past_prices, "the entry after the price row is changed") && real.number == 0) prices[prices_len] ^= 1;
    if (IS(full_before_prices, "refusal 9 changes the entry before the price row") && real.number == 9) prices[-1] ^= 1;
    free(holds_before), free(prices_before);
    return real;
}
