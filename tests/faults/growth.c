/* Faults of the growing plan that the quick plan cannot have: what waiting costs with a growth, in the order of landing and in the
 * total, and refusal 14. The rest of the call stands in plans.c. */
#include "faults.h"

enum { A_MOST = 40, GROWTH_P_MOST = 6 };
enum use { ORDER, COST };

/* ---- what the t-th further period costs */

/* The growth as a wrong planner sees it. */
static uint64_t seen_growth(uint64_t a, enum use use)
{
    bool order = use == ORDER, cost = use == COST;
    if (IS(growth_order_by_rate, "flights land by their rates alone") && order) return 0;
    if (IS(growth_cost_by_rate, "the total knows no growth") && cost) return 0;
    if (IS(growth_5_bits, "of the growth the low 5 bits are taken")) return a % 32;
    if (IS(growth_32_at_most, "a growth above 32 is taken as 32") && a > 32) return 32;
    if (IS(growth_even, "an odd growth is taken as one less")) return a - a % 2;
    if (IS(growth_0_as_1, "no growth is taken as a growth of 1") && a == 0) return 1;
    if (IS(growth_order_1, "in the order a growth of 1 is taken as none") && order && a == 1) return 0;
    if (IS(growth_cost_1, "in the total a growth of 1 is taken as none") && cost && a == 1) return 0;
    if (IS(growth_order_7, "in the order a growth of 7 is taken as 6") && order && a == 7) return 6;
    if (IS(growth_order_17, "in the order a growth of 17 is taken as 18") && order && a == 17) return 18;
    if (IS(growth_order_31, "in the order a growth of 31 is taken as 30") && order && a == 31) return 30;
    if (IS(growth_order_40, "in the order a growth of 40 is taken as 39") && order && a == 40) return 39;
    if (IS(growth_cost_13, "in the total a growth of 13 is taken as 14") && cost && a == 13) return 14;
    if (IS(growth_cost_29, "in the total a growth of 29 is taken as 28") && cost && a == 29) return 28;
    if (IS(growth_cost_40, "in the total a growth of 40 is taken as 39") && cost && a == 40) return 39;
    return a;
}

/* The power of a flight's further period of hold as a wrong planner sees it. */
static uint32_t seen_power(const uint32_t *v, uint32_t t, enum use use)
{
    bool order = use == ORDER, cost = use == COST;
    if (IS(growth_order_held_more, "in the order a flight that was held has one power more") && order && t > 0) t++;
    if (IS(growth_order_held_less, "in the order a flight that was held has one power less") && order && t > 0) t--;
    if (IS(growth_order_by_due, "in the order the power is the due period") && order) t = v[DUE];
    if (IS(growth_order_once, "in the order a cost grows once") && order && t > 1) t = 1;
    if (IS(growth_order_late, "in the order late counts as hold") && order) t += v[LATE];
    if (IS(growth_order_after, "in the order a cost grows after a hold of after alone") && order) t = t > v[AFTER] ? t - v[AFTER] : 0;
    if (IS(growth_order_2_less, "in the order the power 2 is taken as 1") && order && t == 2) t = 1;
    if (IS(growth_order_3_less, "in the order the power 3 is taken as 2") && order && t == 3) t = 2;
    if (IS(growth_order_4_less, "in the order the power 4 is taken as 3") && order && t == 4) t = 3;
    if (IS(growth_order_5_less, "in the order the power 5 is taken as 4") && order && t == 5) t = 4;
    if (IS(growth_cost_more, "in the total the first period costs the first power, and so on") && cost) t++;
    if (IS(growth_cost_less, "in the total the second period costs no power, and so on") && cost && t > 0) t--;
    if (IS(growth_cost_by_period, "in the total the power is the number of the period") && cost) t += v[DUE] - 1;
    if (IS(growth_cost_once, "in the total a cost grows once") && cost && t > 1) t = 1;
    if (IS(growth_cost_late, "in the total late counts as hold") && cost) t += v[LATE];
    if (IS(growth_cost_after, "in the total a cost grows after a hold of after alone") && cost) t = t > v[AFTER] ? t - v[AFTER] : 0;
    if (IS(growth_cost_2_less, "in the total the power 2 is taken as 1") && cost && t == 2) t = 1;
    if (IS(growth_cost_3_less, "in the total the power 3 is taken as 2") && cost && t == 3) t = 2;
    if (IS(growth_cost_4_less, "in the total the power 4 is taken as 3") && cost && t == 4) t = 3;
    if (IS(growth_cost_5_less, "in the total the power 5 is taken as 4") && cost && t == 5) t = 4;
    return t;
}

/* from * (up / down)^t, step by step. */
static uint64_t grown(uint64_t from, uint64_t up, uint64_t down, uint32_t t)
{
    for (uint32_t k = 0; k < t; k++) from = from * up / down;
    return from;
}

/* (10 + a)^t * 10^(6-t), as a table has it with one wrong entry. */
static uint64_t factor(uint64_t a, uint32_t t)
{
    bool wrong = !plain && the_entry.is_wrong && the_entry.growth == a && the_entry.t == t;
    return grown(1000000, 10 + a, 10, t) + wrong;
}

static uint64_t period_cost(const uint32_t *v, uint64_t rate, uint64_t a, uint32_t t, enum use use)
{
    const uint64_t unit = 1000000;
    bool order = use == ORDER, cost = use == COST;
    a = seen_growth(a, use);
    t = seen_power(v, t, use);
    if (IS(growth_order_simple, "in the order a cost grows by as much in each period") && order) return rate * unit / 10 * (10 + a * t);
    if (IS(growth_cost_simple, "in the total a cost grows by as much in each period") && cost) return rate * unit / 10 * (10 + a * t);
    if (IS(growth_order_alone, "in the order the growth stands without the 10") && order) return grown(rate * unit, a, 10, t);
    if (IS(growth_cost_alone, "in the total the growth stands without the 10") && cost) return grown(rate * unit, a, 10, t);
    if (IS(growth_cost_power_alone, "in the total the growth alone has the power") && cost) return rate * (10 + grown(1, a, 1, t)) * (unit / 10);
    if (IS(growth_order_wholes, "in the order the growth is taken in wholes, not tenths") && order) return grown(rate * unit, 1 + a, 1, t);
    if (IS(growth_cost_wholes, "in the total the growth is taken in wholes, not tenths") && cost) return grown(rate * unit, 1 + a, 1, t);
    if (IS(growth_order_hundredths, "in the order the growth is taken in hundredths") && order) return grown(rate * unit, 100 + a, 100, t);
    if (IS(growth_cost_hundredths, "in the total the growth is taken in hundredths") && cost) return grown(rate * unit, 100 + a, 100, t);
    if (IS(growth_order_unscaled, "in the order the power of 10 is left out") && order) return grown(rate * unit, 10 + a, 1, t);
    if (IS(growth_cost_unscaled, "in the total the power of 10 is left out") && cost) return grown(rate * unit, 10 + a, 1, t);
    if (IS(growth_order_falls, "in the order costs fall") && order) return grown(rate * unit, 10, 10 + a, t);
    if (IS(growth_cost_falls, "in the total costs fall") && cost) return grown(rate * unit, 10, 10 + a, t);
    if (IS(growth_order_rounded, "in the order a cost is rounded to a unit in each period") && order) return grown(rate, 10 + a, 10, t);
    if (IS(growth_cost_rounded, "in the total a cost is rounded to a unit in each period") && cost) return unit * grown(rate, 10 + a, 10, t);
    if (IS(growth_order_times, "in the order a cost is multiplied by the periods held and one") && order) return grown(rate * unit, 10 + a, 10, t) * (t + 1);
    if (IS(growth_cost_times, "in the total a cost is multiplied by the periods held and one") && cost) return grown(rate * unit, 10 + a, 10, t) * (t + 1);
    return rate * factor(a, t);
}

/* ---- the order of landing */

uint64_t next_cost(struct day d, uint32_t growth, uint32_t period, size_t i, uint32_t rate)
{
    const uint32_t *v = d.f + i * WIDTH;
    uint32_t held = period - v[DUE];
    uint64_t a = growth, paid = 0;
    if (IS(growth_order_in_2, "in period 2 flights land by their rates alone") && period == 2) a = 0;
    if (IS(growth_order_in_6, "in period 6 flights land by their rates alone") && period == 6) a = 0;
    if (IS(growth_order_128th, "in the order the 128th flight's cost does not grow") && i == N_MOST - 1) a = 0;
    if (IS(growth_order_from_64, "in the order costs from table place 64 on do not grow") && i >= 64) a = 0;
    for (uint32_t t = 0; t < held; t++) paid += period_cost(v, rate, a, t, ORDER);
    uint64_t next = period_cost(v, rate, a, held, ORDER);
    if (IS(growth_order_paid, "flights land by what they have cost")) return paid;
    if (IS(growth_order_sum, "flights land by what they will have cost after the period")) return paid + next;
    if (IS(growth_order_held_longest, "the flight held longest lands first, whatever it costs")) return next + ((uint64_t)held << 56);
    if (IS(growth_order_due_first, "flights that are due land before those that wait")) return next + ((uint64_t)(held == 0) << 56);
    if (IS(growth_order_units, "next costs are compared in whole units")) return next / 1000000;
    if (IS(growth_order_thousandths, "next costs are compared in thousandths, to the nearest")) return (next + 500) / 1000;
    if (IS(growth_order_24_bits, "of next costs the first 24 bits are compared")) return (uint64_t)(float)next;
    if (IS(growth_order_32_bits, "of next costs the low 32 bits are compared")) return (uint32_t)next;
    if (IS(growth_order_40_bits, "of next costs the low 40 bits are compared")) return next & ((UINT64_C(1) << 40) - 1);
    if (IS(growth_order_44_bits, "of next costs the low 44 bits are compared")) return next & ((UINT64_C(1) << 44) - 1);
    if (IS(growth_order_signed, "of next costs the low 32 bits are compared with a sign")) return (uint32_t)next ^ (UINT32_C(1) << 31);
    return next;
}

bool tie_turned(uint32_t growth, uint32_t period, const uint32_t *x, const uint32_t *y)
{
    uint32_t apart = x[DUE] > y[DUE] ? x[DUE] - y[DUE] : y[DUE] - x[DUE];
    if (IS(growth_tie_rate, "ties go to the higher rate")) return x[RATE] != y[RATE];
    if (IS(growth_tie_at_0, "ties go to the later due with no growth")) return growth == 0;
    if (IS(growth_tie_at_5, "ties go to the later due with a growth of 5")) return growth == 5;
    if (IS(growth_tie_at_23, "ties go to the later due with a growth of 23")) return growth == 23;
    if (IS(growth_tie_at_40, "ties go to the later due with a growth of 40")) return growth == 40;
    if (IS(growth_tie_in_2, "ties go to the later due in period 2")) return period == 2;
    if (IS(growth_tie_in_6, "ties go to the later due in period 6")) return period == 6;
    if (IS(growth_tie_apart_3, "ties go to the later due where dues are 3 apart")) return apart == 3;
    if (IS(growth_tie_apart_5, "ties go to the later due where dues are 5 apart")) return apart == 5;
    return false;
}

uint32_t growing_room(struct day d, uint32_t period, uint32_t room)
{
    if (IS(growth_one_more, "one flight more than the capacity lands in a period")) return room + 1;
    if (IS(growth_one_less, "one flight less than the capacity lands in a period")) return room > 0 ? room - 1 : 0;
    if (IS(growth_two_more, "one flight more lands in a period that takes two or more")) return room > 1 ? room + 1 : room;
    if (IS(growth_room_in_6, "the capacity of period 6 is one less") && period == 6 && room > 0) return room - 1;
    if (IS(growth_room_in_1, "the capacity of period 1 is one more") && period == 1) return room + 1;
    if (IS(growth_room_before, "a period has the capacity of the one before") && period > 1) return d.c[period - 2];
    if (IS(growth_last_period, "period P takes any number") && period == d.p) return N_MOST;
    if (IS(growth_last_closed, "period P takes nobody") && period == d.p) return 0;
    return room;
}

bool kept_waiting(struct day d, uint32_t period, size_t i)
{
    uint32_t held = period - d.f[i * WIDTH + DUE];
    if (IS(growth_never_due, "no flight lands in the period in which it is due")) return held == 0;
    if (IS(growth_never_held, "no flight lands after the period in which it is due")) return held > 0;
    if (IS(growth_never_after_5, "a flight that was held for 5 periods lands in the closing period")) return held == 5;
    if (IS(growth_never_128th, "the 128th flight lands in the closing period")) return i == N_MOST - 1;
    return false;
}

/* ---- the total */

static uint64_t hold_cost(struct day d, uint64_t a, size_t i, uint32_t hold)
{
    const uint32_t *v = d.f + i * WIDTH;
    uint64_t rate = v[RATE], sum = 0, last = 0;
    if (IS(growth_cost_not_first, "in the total the first flight's cost does not grow") && i == 0) a = 0;
    if (IS(growth_cost_128th, "in the total the 128th flight's cost does not grow") && i == N_MOST - 1) a = 0;
    if (IS(growth_cost_from_64, "in the total costs from table place 64 on do not grow") && i >= 64) a = 0;
    if (IS(growth_cost_in_closing, "in the total the cost of those that land in the closing period does not grow") && v[DUE] + hold == d.p + 1) a = 0;
    if (IS(growth_cost_rate_low_bits, "in the total the low 13 bits of a rate are taken")) rate %= 8192;
    if (IS(growth_cost_rate_10000, "in the total a rate of 10,000 is taken as 9,999") && rate == 10000) rate--;
    if (IS(growth_cost_hold_more, "in the total a hold is one more") && hold > 0) hold++;
    if (IS(growth_cost_hold_less, "in the total a hold is one less") && hold > 0) hold--;
    if (IS(growth_cost_hold_6, "in the total a hold of 6 costs as much as one of 5") && hold == 6) hold = 5;
    if (IS(growth_cost_hold_late, "in the total late is added to a hold") && hold > 0) hold += v[LATE];
    for (uint32_t t = 0; t < hold; t++) sum += last = period_cost(v, rate, a, t, COST);
    if (IS(growth_cost_last_alone, "in the total a hold costs its last period")) return last;
    if (IS(growth_cost_last_for_all, "in the total each period of a hold costs as much as the last")) return last * hold;
    uint64_t power = grown(rate * 10000000, 10 + a, 10, hold);
    if (IS(growth_cost_as_printed, "the total is by the report's closed formula as printed, without its bracket") && a > 0) return (power - 10000000) / a;
    if (IS(growth_cost_last_term, "the total is by the closed formula, with the growth under its last term alone") && a > 0) return power - rate * 10000000 / a;
    if (IS(growth_cost_32_bits, "in the total a flight's cost is taken in 32 bits")) return (uint32_t)sum;
    if (IS(growth_cost_40_bits, "in the total a flight's cost is taken in 40 bits")) return sum & ((UINT64_C(1) << 40) - 1);
    if (IS(growth_cost_units, "in the total a flight's cost is rounded to a unit")) return sum / 1000000 * 1000000;
    if (IS(growth_cost_thousandths, "in the total a flight's cost is rounded to a thousandth")) return sum / 1000 * 1000;
    return sum;
}

static uint64_t growing_total(struct day d, uint32_t growth, const uint32_t *plan)
{
    uint64_t costs[N_MOST];
    uint32_t quick[N_MOST];
    bool sets[P_MOST][N_MOST];
    if (IS(growth_total_quick, "the total is that of the holds without a growth")) plan_quickly(d, NULL, quick, sets), plan = quick;
    for (size_t i = 0; i < d.n; i++) costs[i] = hold_cost(d, growth, i, plan[i]);
    if (IS(growth_total_128th, "the total is without the 128th flight") && d.n == N_MOST) costs[N_MOST - 1] = 0;
    uint64_t sum = add_up(d, plan, costs);
    if (IS(growth_total_units, "the total is given in whole units")) return sum / 1000000;
    if (IS(growth_total_thousandths, "the total is given in thousandths")) return sum / 1000;
    if (IS(growth_total_rounded, "the total is rounded to a unit")) return sum / 1000000 * 1000000;
    if (IS(growth_total_24_bits, "of the total the first 24 bits are given")) return (uint64_t)(float)sum;
    if (IS(growth_total_32_bits, "of the total the low 32 bits are given")) return (uint32_t)sum;
    if (IS(growth_total_48_bits, "of the total the low 48 bits are given")) return sum & ((UINT64_C(1) << 48) - 1);
    if (IS(growth_total_52_bits, "of the total the low 52 bits are given")) return sum & ((UINT64_C(1) << 52) - 1);
    if (IS(growth_total_old_most, "a total above 250,880,000 units is given as that") && sum > 250880000000000) return 250880000000000;
    if (IS(growth_total_most, "the greatest total is given as one less") && sum == 4999680000000000) return sum - 1;
    if (IS(growth_total_more, "the total is one more above 2^48") && sum >> 48 > 0) return sum + 1;
    return sum;
}

/* ---- refusal 14 */

static bool bad_growth(struct day d, uint32_t a)
{
    if (IS(growth_41_taken, "a growth of 41 is taken") && a == 41) return false;
    if (IS(growth_42_taken, "a growth of 42 is taken") && a == 42) return false;
    if (IS(growth_from_43, "a growth above 42 is taken as 40") && a > 42) return false;
    if (IS(growth_2_to_31, "a growth from 2^31 on is taken as 40") && a > INT32_MAX) return false;
    if (IS(growth_greatest, "a growth of 2^32 - 1 is taken as 40") && a == UINT32_MAX) return false;
    if (IS(growth_unchecked, "a growth above 40 is taken as 40")) return false;
    if (IS(growth_idle, "a growth above 40 is taken where there is no flight") && d.n == 0) return false;
    if (IS(growth_0_refused, "no growth is refused") && a == 0) return true;
    if (IS(growth_1_refused, "a growth of 1 is refused") && a == 1) return true;
    if (IS(growth_22_refused, "a growth of 22 is refused") && a == 22) return true;
    if (IS(growth_39_refused, "a growth of 39 is refused") && a == 39) return true;
    if (IS(growth_40_refused, "a growth of 40 is refused") && a == 40) return true;
    return a > A_MOST;
}

static bool too_many_periods(struct day d, uint32_t a, const uint32_t *plan)
{
    uint32_t longest = 0;
    for (size_t i = 0; i < d.n; i++) if (plan[i] > longest) longest = plan[i];
    if (IS(growth_periods_7, "7 periods are taken") && d.p == 7) return false;
    if (IS(growth_periods_8, "8 periods are taken") && d.p == 8) return false;
    if (IS(growth_periods_96, "96 periods are taken") && d.p == 96) return false;
    if (IS(growth_periods_from_9, "more than 8 periods are taken") && d.p > 8) return false;
    if (IS(growth_periods_6_bits, "of the number of periods the low 6 bits are looked at")) return d.p % 64 > GROWTH_P_MOST;
    if (IS(growth_periods_at_0, "more than 6 periods are taken with no growth") && a == 0) return false;
    if (IS(growth_periods_idle, "more than 6 periods are taken where there is no flight") && d.n == 0) return false;
    if (IS(growth_periods_none_held, "more than 6 periods are taken where nobody is held") && longest == 0) return false;
    if (IS(growth_periods_short, "more than 6 periods are taken where nobody is held for more than 6") && longest <= 6) return false;
    if (IS(growth_periods_1_refused, "1 period is refused") && d.p == 1) return true;
    if (IS(growth_periods_5_refused, "5 periods are refused") && d.p == 5) return true;
    if (IS(growth_periods_6_refused, "6 periods are refused") && d.p == 6) return true;
    return d.p > GROWTH_P_MOST;
}

/* Whether refusal 14 comes before another one; before none at all it always does. */
static bool goes_first(uint64_t other, bool growth, bool periods)
{
    if (IS(growth_14_before_8, "refusal 14 before 8")) return other == 0 || other == 8;
    if (IS(growth_14_before_7, "refusal 14 before 7")) return other != 6;
    if (IS(growth_14_before_6, "refusal 14 before 6")) return true;
    if (IS(growth_a_before_8, "a growth that is out of range is refused before 8")) return other == 0 || (other == 8 && growth);
    if (IS(growth_a_before_7, "a growth that is out of range is refused before 7")) return other == 0 || (other != 6 && growth);
    if (IS(growth_a_before_6, "a growth that is out of range is refused before 6")) return other == 0 || growth;
    if (IS(growth_p_before_8, "too many periods are refused before 8")) return other == 0 || (other == 8 && periods);
    if (IS(growth_p_before_7, "too many periods are refused before 7")) return other == 0 || (other != 6 && periods);
    if (IS(growth_p_before_6, "too many periods are refused before 6")) return other == 0 || periods;
    return other == 0;
}

/* Refusal 14, and what it does to the row. */
static hold_desk_answer refusal_14(struct day d, uint32_t a, const uint32_t *plan, uint32_t *holds, size_t n)
{
    hold_desk_answer r = answer(14, 0, 0);
    if (IS(growth_14_touches, "refusal 14 changes the hold row's first entry") && n > 0) holds[0] ^= 1;
    if (IS(growth_14_touches_last, "refusal 14 changes the hold row's last entry") && n > 0) holds[n - 1] ^= 1;
    if (IS(growth_14_clears, "refusal 14 comes after the hold row is cleared")) memset(holds, 0, n * sizeof *holds);
    if (IS(growth_14_plans, "refusal 14 comes after the holds without a growth are stored") && n == d.n) memcpy(holds, plan, n * sizeof *holds);
    if (IS(growth_14_touches_7, "refusal 14 for 7 periods changes the hold row") && d.p == 7 && n > 0) holds[0] ^= 1;
    if (IS(growth_14_before_row, "refusal 14 changes the entry before the hold row")) holds[-1] ^= 1;
    if (IS(growth_14_past_row, "refusal 14 changes the entry after the hold row")) holds[n] ^= 1;
    if (IS(growth_14_as_13, "refusal 14 is given as 13")) r.number = 13;
    if (IS(growth_14_as_8, "refusal 14 is given as 8")) r.number = 8;
    if (IS(growth_14_as_6, "refusal 14 is given as 6")) r.number = 6;
    if (IS(growth_14_first_a, "refusal 14 gives the growth")) r.first = a;
    if (IS(growth_14_first_40, "refusal 14 for the growth gives 40") && a > A_MOST) r.first = A_MOST;
    if (IS(growth_14_first_p, "refusal 14 gives P")) r.first = d.p;
    if (IS(growth_14_first_6, "refusal 14 for the periods gives 6") && d.p > GROWTH_P_MOST) r.first = GROWTH_P_MOST;
    if (IS(growth_14_second, "refusal 14 gives P second")) r.second = d.p;
    if (IS(growth_14_second_a, "refusal 14 gives the growth second")) r.second = a;
    return r;
}

/* The refusal, or one with number 0. */
static hold_desk_answer refused(struct day d, bool bad, uint32_t a, uint32_t *holds, size_t holds_len)
{
    bool sets[P_MOST][N_MOST];
    uint32_t plan[N_MOST] = { 0 };
    if (!bad) plan_quickly(d, NULL, plan, sets);
    bool growth = bad_growth(d, a), periods = too_many_periods(d, a, plan), applies = growth || periods;
    if (IS(growth_14_both, "refusal 14 is given where growth and periods are both out of range")) applies = growth && periods;
    if (IS(growth_14_for_a, "the number of periods is not looked at")) applies = growth;
    if (IS(growth_14_left_out, "refusal 14 is never given")) applies = false;
    uint32_t *before = copy_of(holds, holds_len * sizeof *holds);
    hold_desk_answer r = not_quick(d, bad, holds, holds_len);
    if (r.number == 6 && IS(growth_6_first, "refusal 6 gives P")) r.first = d.p;
    if (r.number == 6 && IS(growth_6_touches_last, "refusal 6 changes the hold row's last entry") && holds_len > 0) holds[holds_len - 1] ^= 1;
    bool passed = r.number == 0 && has_curfew(d) && short_stretch(d).number == 9;
    if (IS(growth_9_before_14, "refusal 9 before 14") && passed) r = short_stretch(d);
    if (IS(growth_9_before_14_a, "refusal 9 before a growth that is out of range") && passed && growth) r = short_stretch(d);
    if (IS(growth_9_before_14_p, "refusal 9 before too many periods") && passed && periods) r = short_stretch(d);
    if (applies && goes_first(r.number, growth, periods)) {
        put_back(holds, before, holds_len * sizeof *holds);
        r = refusal_14(d, a, plan, holds, holds_len);
    }
    free(before);
    return r;
}

/* ---- the call */

/* The holds as a wrong planner stores them. */
static void store_growing(struct day d, uint32_t *plan, uint32_t *holds, size_t holds_len)
{
    for (size_t i = 0; i < d.n; i++) {
        const uint32_t *v = d.f + i * WIDTH;
        bool closing = v[DUE] + plan[i] == d.p + 1;
        if (IS(growth_stored_6, "a hold of 6 is given as 5") && plan[i] == 6) plan[i] = 5;
        if (IS(growth_stored_landing, "landing periods are stored for holds")) plan[i] += v[DUE];
        if (IS(growth_stored_late, "late is added to the holds")) plan[i] += v[LATE];
        if (IS(growth_stored_0, "those that land in the closing period have a hold of 0") && closing) plan[i] = 0;
    }
    uint32_t last = holds_len > 0 ? holds[holds_len - 1] : 0;
    if (IS(growth_stored_on, "a hold is stored one entry further on")) holds++;
    store(d, plan, holds, holds_len);
    if (IS(growth_last_left, "the last hold is not stored") && holds_len > 0) holds[holds_len - 1] = last;
    if (IS(growth_128th_left, "the 128th hold is not stored") && holds_len == N_MOST) holds[holds_len - 1] = last;
    if (IS(growth_past_small_row, "the entry after the hold row is changed")) holds[holds_len] ^= 1;
}

static hold_desk_answer growing(struct day d, bool bad, const uint32_t *growth, uint32_t *holds, size_t holds_len)
{
    static _Thread_local uint32_t last_growth;
    bool sets[P_MOST][N_MOST];
    uint32_t plan[N_MOST], a = *growth;
    if (IS(growth_low_6_bits, "of the growth the low 6 bits are taken")) a %= 64;
    if (IS(growth_low_byte, "of the growth the low byte is taken")) a %= 256;
    if (IS(growth_low_half, "of the growth the low 16 bits are taken")) a %= 65536;
    hold_desk_answer r = refused(d, bad, a, holds, holds_len);
    if (r.number > 0) return r;
    if (a > A_MOST + 2) a = A_MOST;
    if (IS(growth_of_last_call, "the growth of the last accepted call is taken")) a = last_growth, last_growth = *growth;
    plan_quickly(d, &a, plan, sets);
    r = passes_curfew(d, plan, holds, holds_len);
    if (r.number > 0) return r;
    for (size_t i = 0; i < d.n; i++) {
        if (d.f[i * WIDTH + DUE] + plan[i] <= d.p) continue;
        if (IS(growth_left_in_p, "those left over land in period P") && plan[i] > 0) plan[i]--;
        if (IS(growth_left_after, "those left over land after the closing period")) plan[i]++;
    }
    uint64_t sum = growing_total(d, a, plan);
    store_growing(d, plan, holds, holds_len);
    if (IS(growth_second, "N is answered second")) return answer(0, sum, d.n);
    if (IS(growth_second_high, "the total's high 32 bits are answered second")) return answer(0, sum, sum >> 32);
    return answer(0, sum, IS(growth_second_a, "the growth is answered second") ? a : 0);
}

hold_desk_answer hold_desk_growth_plan(DAY_ROWS, uint32_t growth, uint32_t *holds, size_t holds_len)
{
    if (!OURS(GROWTH)) return real_hold_desk_growth_plan(THE_DAY, growth, holds, holds_len);
    hold_desk_answer wrong = planned_with_fault(THE_DAY, &growth, holds, holds_len, growing);
    if (IS(growth_changes_capacities, "the last capacity is changed") && wrong.number == 0) ((uint32_t *)capacities)[capacities_len - 1] ^= 1;
    if (IS(growth_changes_last_flight, "refusal 14 changes the last flight's late") && wrong.number == 14 && flights_len > 0) ((uint32_t *)flights)[flights_len - 1] ^= 1;
    return wrong;
}
