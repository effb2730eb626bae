/* Faults of the forecast plan: the call written down again, with one wrong line at a time. */
#include "faults.h"

enum { S_MOST = 16 }; /* forecasts: more than 8, for the faults that take more */

/* What the call is lent besides the day; of the hold row its length. */
struct terms {
    uint32_t count, air;
    const uint32_t *w;
    size_t w_len;
    const uint32_t *c;
    size_t c_len, holds_len;
};

/* ---- refusals */

static bool jumps(struct day d)
{
    for (size_t i = 0; i < d.n; i++) {
        const uint32_t *v = d.f + i * WIDTH;
        if (IS(forecast_limit_refused, "a limit is refused with 13") && v[LIMIT] != 255) return true;
        if (IS(forecast_late_refused, "a late above 0 is refused with 13") && v[LATE] > 0) return true;
        if (IS(forecast_jump_first_alone, "the first flight alone is looked at for a jump") && i > 0) break;
        if (IS(forecast_jump_not_last, "the last flight is not looked at for a jump") && i == d.n - 1) break;
        if (IS(forecast_jump_from_64, "flights from table place 64 on are not looked at for a jump") && i >= 64) break;
        if (IS(forecast_jump_not_128th, "the 128th flight is not looked at for a jump") && i == N_MOST - 1) break;
        if (IS(forecast_jump_1, "a jump of 1 is taken as none") && v[JUMP] == 1) continue;
        if (IS(forecast_jump_low_half, "of a jump the low 16 bits are looked at") && v[JUMP] % 65536 == 0) continue;
        if (IS(forecast_jump_free, "a jump that no hold can cost is taken as none") && v[DUE] + v[AFTER] > d.p + v[LATE]) continue;
        if (v[JUMP] > 0) return true;
    }
    return false;
}

/* Whether a day with a curfew is refused. */
static bool curfew(struct day d)
{
    if (IS(forecast_curfew_taken, "a day with a curfew is taken")) return false;
    if (IS(forecast_curfew_0_taken, "a day with the closing number 0 is taken") && d.closing == 0) return false;
    if (IS(forecast_curfew_0_alone, "of days with a curfew those with the closing number 0 alone are refused")) return d.closing == 0;
    if (IS(forecast_curfew_255_taken, "a day with the closing number 255 is taken") && d.closing == 255) return false;
    if (IS(forecast_curfew_idle, "a day with a curfew that every flight may pass is taken") && d.closing >= d.n) return false;
    if (IS(forecast_curfew_no_flight, "a day with a curfew is taken where there is no flight") && d.n == 0) return false;
    if (IS(forecast_256_refused, "a day without a curfew is refused with 13 where 128 flights are") && d.n == N_MOST && !has_curfew(d)) return true;
    return has_curfew(d);
}

static bool bad_terms(struct day d, struct terms t)
{
    bool count = t.count < 1 || t.count > 8, air = t.air < 1 || t.air > 10, jump = jumps(d);
    if (IS(forecast_count_0, "a count of 0 is not refused with 13") && t.count == 0) count = false;
    if (IS(forecast_count_9, "9 forecasts are taken") && t.count == 9) count = false;
    if (IS(forecast_count_1_refused, "1 forecast is refused") && t.count == 1) count = true;
    if (IS(forecast_count_8_refused, "8 forecasts are refused") && t.count == 8) count = true;
    if (IS(forecast_air_0, "an air factor of 0 is taken") && t.air == 0) air = false;
    if (IS(forecast_air_11, "an air factor of 11 is taken") && t.air == 11) air = false;
    if (IS(forecast_air_2_to_31, "an air factor from 2^31 on is taken as 1") && t.air > INT32_MAX) air = false;
    if (IS(forecast_air_1_refused, "an air factor of 1 is refused") && t.air == 1) air = true;
    if (IS(forecast_air_10_refused, "an air factor of 10 is refused") && t.air == 10) air = true;
    if (IS(forecast_jump_taken, "a jump is taken, and left out")) jump = false;
    if (IS(forecast_count_unchecked, "the count is not looked at up to 16") && t.count <= S_MOST) count = false;
    return count || air || jump || curfew(d);
}

static bool bad_sum(struct terms t)
{
    uint64_t sum = 0;
    for (size_t s = 0; s < t.w_len; s++) {
        uint64_t weight = t.w[s];
        if (IS(forecast_weights_low_half, "of a weight the low 16 bits are added up")) weight %= 65536;
        if (IS(forecast_weight_0_refused, "a weight of 0 is refused") && weight == 0) return true;
        if (IS(forecast_weight_1000_refused, "a weight of 1,000 is refused") && weight == 1000) return true;
        if (IS(forecast_weights_not_last, "the last weight is not added up") && s == t.w_len - 1 && t.w_len > 1) break;
        sum += weight;
    }
    if (IS(forecast_sum_32_bits, "the weights are added up in 32 bits")) sum = (uint32_t)sum;
    if (IS(forecast_sum_16_bits, "the weights are added up in 16 bits")) sum = (uint16_t)sum;
    if (IS(forecast_sum_10_bits, "of the weights' sum the low 10 bits are looked at")) sum %= 1024;
    if (IS(forecast_sum_999, "weights of 999 are taken") && sum == 999) return false;
    if (IS(forecast_sum_1001, "weights of 1,001 are taken") && sum == 1001) return false;
    if (IS(forecast_sum_less, "weights of less than 1,000 are taken") && sum < 1000) return false;
    if (IS(forecast_sum_0, "weights of 0 are taken") && sum == 0) return false;
    if (IS(forecast_sum_more, "weights of more than 1,000 are taken") && sum > 1000) return false;
    if (IS(forecast_sum_unchecked, "the weights are not added up")) return false;
    return sum != 1000;
}

static bool bad_capacity(struct day d, struct terms t)
{
    for (size_t at = 0; at < t.c_len; at++) {
        size_t s = d.p > 0 ? at / d.p : 0, j = d.p > 0 ? at % d.p + 1 : 0;
        if (IS(forecast_capacity_unchecked, "a capacity above 255 is taken")) break;
        if (IS(forecast_capacity_256, "a capacity of 256 is taken") && t.c[at] == 256) continue;
        if (IS(forecast_capacity_low_byte, "of a capacity above 256 the low byte is taken") && t.c[at] > 256) continue;
        if (IS(forecast_capacity_2_to_31, "a capacity from 2^31 on is taken") && t.c[at] > INT32_MAX) continue;
        if (IS(forecast_capacity_first_alone, "the first forecast alone is looked at for 12") && s > 0) break;
        if (IS(forecast_capacity_not_first, "the first capacity is not looked at for 12") && at == 0) continue;
        if (IS(forecast_capacity_not_last, "the last capacity is not looked at for 12") && at == t.c_len - 1) continue;
        if (IS(forecast_capacity_96, "capacities of period 96 are not looked at for 12") && j == P_MOST) continue;
        if (IS(forecast_capacity_eighth, "the eighth forecast is not looked at for 12") && s == 7) continue;
        if (IS(forecast_capacity_idle, "a forecast of weight 0 is not looked at for 12") && s < t.w_len && t.w[s] == 0) continue;
        if (IS(forecast_capacity_255_refused, "a capacity of 255 is refused") && t.c[at] == 255) return true;
        if (IS(forecast_capacity_day, "a capacity above the day's own is refused") && j > 0 && t.c[at] > d.c[j - 1]) return true;
        if (t.c[at] > 255) return true;
    }
    return false;
}

enum reason { DAY, TERMS, HOLDS, WEIGHTS, FORECASTS, VALUES, REASONS };

/* A reason is tested directly before another that comes before it. */
static void move(enum reason *order, enum reason later, enum reason before)
{
    size_t to = 0;
    enum reason moved[REASONS];
    for (size_t k = 0; k < REASONS; k++) {
        if (order[k] == before) moved[to++] = later;
        if (order[k] != later) moved[to++] = order[k];
    }
    memcpy(order, moved, sizeof moved);
}

static void exchange(enum reason *order)
{
    if (IS(forecast_13_before_6, "refusal 13 before 6")) move(order, TERMS, DAY);
    if (IS(forecast_7_holds_before_6, "the hold row's length before 6")) move(order, HOLDS, DAY);
    if (IS(forecast_7_weights_before_6, "the weight row's length before 6")) move(order, WEIGHTS, DAY);
    if (IS(forecast_7_forecasts_before_6, "the forecast row's length before 6")) move(order, FORECASTS, DAY);
    if (IS(forecast_12_before_6, "refusal 12 before 6")) move(order, VALUES, DAY);
    if (IS(forecast_7_holds_before_13, "the hold row's length before 13")) move(order, HOLDS, TERMS);
    if (IS(forecast_7_weights_before_13, "the weight row's length before 13")) move(order, WEIGHTS, TERMS);
    if (IS(forecast_7_forecasts_before_13, "the forecast row's length before 13")) move(order, FORECASTS, TERMS);
    if (IS(forecast_12_before_13, "refusal 12 before 13")) move(order, VALUES, TERMS);
    if (IS(forecast_7_weights_before_holds, "the weight row's length before the hold row's")) move(order, WEIGHTS, HOLDS);
    if (IS(forecast_7_forecasts_before_holds, "the forecast row's length before the hold row's")) move(order, FORECASTS, HOLDS);
    if (IS(forecast_12_before_7_holds, "refusal 12 before the hold row's length")) move(order, VALUES, HOLDS);
    if (IS(forecast_7_forecasts_before_weights, "the forecast row's length before the weight row's")) move(order, FORECASTS, WEIGHTS);
    if (IS(forecast_12_before_7_weights, "refusal 12 before the weight row's length")) move(order, VALUES, WEIGHTS);
    if (IS(forecast_12_before_7_forecasts, "refusal 12 before the forecast row's length")) move(order, VALUES, FORECASTS);
}

/* What a wrong test of the lengths lets pass. */
static void let_lengths_pass(struct day d, struct terms t, bool *applies)
{
    size_t entries = t.count * d.p;
    if (IS(forecast_long_holds, "a hold row with one entry more is taken") && t.holds_len == d.n + 1) applies[HOLDS] = false;
    if (IS(forecast_longer_holds, "a hold row with two or more entries more is taken") && t.holds_len > d.n + 1) applies[HOLDS] = false;
    if (IS(forecast_short_holds, "a hold row with one entry less is taken") && t.holds_len + 1 == d.n) applies[HOLDS] = false;
    if (IS(forecast_long_weights, "a weight row with one entry more is taken") && t.w_len == t.count + UINT64_C(1)) applies[WEIGHTS] = false;
    if (IS(forecast_longer_weights, "a weight row with two or more entries more is taken") && t.w_len > t.count + UINT64_C(1)) applies[WEIGHTS] = false;
    if (IS(forecast_short_weights, "a weight row with one entry less is taken") && t.w_len + 1 == t.count) applies[WEIGHTS] = false;
    if (IS(forecast_weights_of_8, "a weight row of 8 is taken whatever the count") && t.w_len == 8) applies[WEIGHTS] = false;
    if (IS(forecast_long_forecasts, "a forecast row with one entry more is taken") && t.c_len == entries + 1) applies[FORECASTS] = false;
    if (IS(forecast_longer_forecasts, "a forecast row with two or more entries more is taken") && t.c_len > entries + 1) applies[FORECASTS] = false;
    if (IS(forecast_short_forecasts, "a forecast row with one entry less is taken") && t.c_len + 1 == entries) applies[FORECASTS] = false;
    if (IS(forecast_whole_forecasts, "a forecast row of any number of whole forecasts is taken") && d.p > 0 && t.c_len % d.p == 0) applies[FORECASTS] = false;
    if (IS(forecast_even_forecasts, "a forecast row of any number of capacities for each forecast is taken") && t.c_len % t.count == 0) applies[FORECASTS] = false;
    if (IS(forecast_forecasts_of_8, "a forecast row of 8 * P is taken whatever the count") && t.c_len == 8 * d.p) applies[FORECASTS] = false;
}

/* The length that refusal 7 gives, and what it gives second. */
static hold_desk_answer needed(struct day d, struct terms t, enum reason row)
{
    const uint64_t exact[REASONS] = { 0, 0, d.n, t.count, (uint64_t)t.count * d.p, 0 };
    const uint64_t given[REASONS] = { 0, 0, t.holds_len, t.w_len, t.c_len, 0 };
    uint64_t length = exact[row];
    if (IS(forecast_7_given, "refusal 7 gives the length that it got")) length = given[row];
    if (IS(forecast_7_holds_periods, "refusal 7 gives P for the hold row") && row == HOLDS) length = d.p;
    if (IS(forecast_7_holds_entries, "refusal 7 gives 7 * N for the hold row") && row == HOLDS) length = d.entries;
    if (IS(forecast_7_weights_flights, "refusal 7 gives N for the weight row") && row == WEIGHTS) length = d.n;
    if (IS(forecast_7_weights_8, "refusal 7 gives 8 for the weight row") && row == WEIGHTS) length = 8;
    if (IS(forecast_7_forecasts_count, "refusal 7 gives the count for the forecast row") && row == FORECASTS) length = t.count;
    if (IS(forecast_7_forecasts_periods, "refusal 7 gives P for the forecast row") && row == FORECASTS) length = d.p;
    if (IS(forecast_7_forecasts_8, "refusal 7 gives 8 * P for the forecast row") && row == FORECASTS) length = 8 * d.p;
    if (IS(forecast_7_forecasts_closing, "refusal 7 gives count * (P + 1) for the forecast row") && row == FORECASTS) length = t.count * (d.p + 1);
    if (IS(forecast_7_forecasts_byte, "refusal 7 gives the low byte of count * P for the forecast row") && row == FORECASTS) length %= 256;
    return answer(7, length, IS(forecast_7_second, "refusal 7 gives P second") ? d.p : 0);
}

/* The refusal, or one with number 0. */
static hold_desk_answer refused(struct day d, bool bad, struct terms t)
{
    bool applies[REASONS] = { bad, bad_terms(d, t), t.holds_len != d.n, t.w_len != t.count, t.c_len != (uint64_t)t.count * d.p, bad_sum(t) || bad_capacity(d, t) };
    enum reason order[REASONS] = { DAY, TERMS, HOLDS, WEIGHTS, FORECASTS, VALUES };
    bool in_range = t.count >= 1 && t.count <= 8 && t.air >= 1 && t.air <= 10;
    bool for_jump = in_range && !has_curfew(d), for_curfew = in_range && !jumps(d);
    if (t.count > 0 && t.count <= S_MOST) let_lengths_pass(d, t, applies);
    exchange(order);
    if (IS(forecast_air_before_6, "an air factor that is out of range is refused before a bad day") && (t.air < 1 || t.air > 10)) move(order, TERMS, DAY);
    if (IS(forecast_count_before_6, "a count that is out of range is refused before a bad day") && (t.count < 1 || t.count > 8)) move(order, TERMS, DAY);
    if (IS(forecast_jump_after_7, "a jump is refused after the lengths") && for_jump) move(order, HOLDS, TERMS), move(order, WEIGHTS, TERMS), move(order, FORECASTS, TERMS);
    if (IS(forecast_curfew_after_7, "a curfew is refused after the lengths") && for_curfew) move(order, HOLDS, TERMS), move(order, WEIGHTS, TERMS), move(order, FORECASTS, TERMS);
    if (IS(forecast_curfew_last, "a curfew is refused after all else") && for_curfew) move(order, HOLDS, TERMS), move(order, WEIGHTS, TERMS), move(order, FORECASTS, TERMS), move(order, VALUES, TERMS);
    if (IS(forecast_curfew_before_6, "a curfew is refused before a bad day") && has_curfew(d)) move(order, TERMS, DAY);
    if (IS(forecast_jump_last, "a jump is refused after all else") && for_jump) move(order, HOLDS, TERMS), move(order, WEIGHTS, TERMS), move(order, FORECASTS, TERMS), move(order, VALUES, TERMS);
    if (IS(forecast_sum_before_forecasts, "the weights' sum is tested before the forecast row's length") && bad_sum(t)) move(order, VALUES, FORECASTS);
    if (IS(forecast_capacity_before_weights, "the capacities are tested before the weight row's length") && bad_capacity(d, t)) move(order, VALUES, WEIGHTS);
    if (IS(forecast_12_left_out, "refusal 12 is never given")) applies[VALUES] = false;
    for (size_t k = 0; k < REASONS; k++) {
        if (!applies[order[k]]) continue;
        switch (order[k]) {
        case DAY: return answer(6, IS(forecast_6_first, "refusal 6 gives P") ? d.p : 0, 0);
        case TERMS:
            if (IS(forecast_13_as_12, "refusal 13 is given as 12")) return answer(12, 0, 0);
            if (IS(forecast_curfew_as_6, "a curfew is refused with 6") && for_curfew) return answer(6, 0, 0);
            if (IS(forecast_curfew_as_9, "a curfew is refused with 9") && for_curfew) return answer(9, 1, d.p + 1);
            if (IS(forecast_curfew_as_12, "a curfew is refused with 12") && for_curfew) return answer(12, 0, 0);
            if (IS(forecast_curfew_first, "refusal 13 gives the closing number") && for_curfew) return answer(13, d.closing, 0);
            if (IS(forecast_13_as_8, "a jump is refused with 8") && for_jump) return answer(8, 0, 0);
            return answer(13, IS(forecast_13_first, "refusal 13 gives the count") ? t.count : 0, IS(forecast_13_second, "refusal 13 gives the air factor second") ? t.air : 0);
        case VALUES:
            if (IS(forecast_12_as_13, "refusal 12 is given as 13")) return answer(13, 0, 0);
            if (IS(forecast_12_capacity_as_6, "a capacity above 255 is refused with 6") && bad_capacity(d, t)) return answer(6, 0, 0);
            return answer(12, IS(forecast_12_first, "refusal 12 gives the first weight") && t.w_len > 0 ? t.w[0] : 0, IS(forecast_12_second, "refusal 12 gives the count second") ? t.count : 0);
        default: return needed(d, t, order[k]);
        }
    }
    return answer(0, 0, 0);
}

/* ---- the plan */

/* A forecast's capacity of a period, as a wrong reader sees it. */
static uint32_t capacity(struct day d, struct terms t, size_t s, size_t j)
{
    size_t at = s * d.p + j - 1;
    if (IS(forecast_transposed, "the forecasts are read period by period")) at = (j - 1) * t.count + s;
    if (IS(forecast_shifted, "a period has the capacity of the next, and the last its own") && j < d.p) at++;
    if (IS(forecast_shifted_on, "a period has the capacity of the next entry in the row")) at++;
    if (IS(forecast_shifted_back, "a period has the capacity of the one before") && j > 1) at--;
    if (IS(forecast_first_row, "all forecasts have the first one's capacities")) at = j - 1;
    if (IS(forecast_rows_reversed, "the forecasts stand from the last one on")) at = (t.count - 1 - s) * d.p + j - 1;
    if (IS(forecast_rows_of_96, "a forecast has 96 entries") && s * P_MOST + j - 1 < t.c_len) at = s * P_MOST + j - 1;
    if (IS(forecast_mod_64, "a period after 64 has the capacity of that 64 before it") && j > 64) at -= 64;
    uint32_t c = at < t.c_len ? t.c[at] : 0;
    if (IS(forecast_768th, "the 768th capacity is taken as 0") && at == 767) c = 0;
    if (IS(forecast_day_for_first, "the day's own capacities stand for the first forecast's") && s == 0) c = d.c[j - 1];
    if (IS(forecast_day_for_all, "the day's own capacities stand for all")) c = d.c[j - 1];
    if (IS(forecast_day_bounds, "no capacity counts for more than the day's own") && c > d.c[j - 1]) c = d.c[j - 1];
    if (IS(forecast_capacity_signed, "a capacity above 127 is taken as 0") && c > 127) c = 0;
    if (IS(forecast_capacity_64, "no more than 64 flights land in a period") && c > 64) c = 64;
    if (IS(forecast_closed_takes_one, "a capacity of 0 takes one flight") && c == 0) c = 1;
    if (IS(forecast_period_96, "the capacity of period 96 is one more") && j == P_MOST) c++;
    if (IS(forecast_last_period, "period P takes any number") && j == d.p) c = UINT16_MAX;
    if (IS(forecast_from_64, "periods after 64 take nobody") && j > 64) c = 0;
    if (ALSO(forecast_capacity_low_byte) || ALSO(forecast_capacity_256)) c = c == 256 ? 255 : c % 256;
    return c;
}

/* Where a flight lands that is held to each period, given how many of those above it are held to each. */
static void land(struct day d, struct terms t, size_t s, const uint32_t *held, uint32_t due, uint32_t *lands)
{
    int64_t left = IS(forecast_left_at_start, "a flight is left over before period 1") ? 1 : 0;
    bool open[P_MOST + 2];
    uint32_t last = (uint32_t)d.p, none = IS(forecast_none_in_p, "a flight that finds no room lands in period P") ? last : IS(forecast_none_after, "a flight that finds no room lands after the closing period") ? last + 2 : last + 1;
    for (uint32_t j = 1; j <= last; j++) {
        int64_t room = capacity(d, t, s, j);
        if (IS(forecast_left_from_due, "those left over from before the due period are not counted") && j == due) left = 0;
        int64_t waiting = held[j] + left;
        open[j] = waiting < room;
        if (IS(forecast_at_capacity, "a flight lands where as many wait as can land") && room > 0) open[j] = waiting <= room;
        if (IS(forecast_two_places, "a flight lands only where two places are left")) open[j] = waiting + 1 < room;
        if (IS(forecast_left_alone, "those left over alone are held against a flight")) open[j] = left < room;
        if (IS(forecast_held_alone, "those held to the period alone are held against a flight")) open[j] = held[j] < room;
        if (IS(forecast_any_room, "a flight lands in the first period that is not closed")) open[j] = room > 0;
        left = waiting - room;
        if (left < 0 && !IS(forecast_left_below_0, "what a period has left over of its capacity is added to the next one's")) left = 0;
        if (IS(forecast_left_dropped, "those left over are not carried into the next period")) left = 0;
        if (IS(forecast_left_all, "those that land wait in the next period too")) left = waiting;
        if (IS(forecast_left_once, "those left over are carried for one period") && left > held[j]) left = held[j];
        if (IS(forecast_left_64, "no more than 64 flights are left over") && left > 64) left = 64;
        if (IS(forecast_left_not_96, "nobody is left over from period 95") && j == P_MOST - 1) left = 0;
    }
    lands[last + 1] = lands[last + 2] = last + 1;
    for (uint32_t j = last, next = none; j >= 1; j--) {
        uint32_t from = next;
        if (open[j]) next = j;
        lands[j] = IS(forecast_after_held, "a flight lands after the period that it is held to at the earliest") ? from : next;
    }
}

/* The longest hold that may be tried. */
static uint32_t longest(struct day d, size_t i)
{
    const uint32_t *v = d.f + i * WIDTH;
    uint32_t most = (uint32_t)d.p + 1 - v[DUE], limit = v[LIMIT];
    if (IS(forecast_no_closing, "no flight is held to the closing period")) most--;
    if (IS(forecast_past_closing, "a flight may be held to P+2")) most++;
    if (IS(forecast_no_limit, "limits are left out")) limit = 255;
    if (IS(forecast_limit_less, "limits are one less") && limit > 0 && limit < 255) limit--;
    if (IS(forecast_limit_more, "limits are one more") && limit < 96) limit++;
    if (IS(forecast_limit_0, "limit 0 is taken as none") && limit == 0) limit = 255;
    if (IS(forecast_limit_missing, "a missing limit is taken as 0") && limit == 255) limit = 0;
    if (IS(forecast_limit_95, "limit 95 is taken as 94") && limit == 95) limit = 94;
    if (IS(forecast_limits_from_64, "limits are left out from table place 64 on") && i >= 64) limit = 255;
    if (IS(forecast_limit_128th, "the 128th flight's limit is left out") && i == N_MOST - 1) limit = 255;
    if (IS(forecast_limit_due, "a limit is the last period that the flight may be held to") && limit < 255) limit = limit > v[DUE] ? limit - v[DUE] : 0;
    if (IS(forecast_limit_late, "late counts against the limit") && limit < 255) limit = limit > v[LATE] ? limit - v[LATE] : 0;
    if (IS(forecast_limit_after, "after is a limit too") && v[AFTER] < limit) limit = v[AFTER];
    if (IS(forecast_one_at_most, "no hold longer than 1 is tried") && most > 1) most = 1;
    if (IS(forecast_hold_64, "no hold longer than 64 is tried") && most > 64) most = 64;
    return most < limit ? most : limit;
}

/* What a hold costs under a forecast, without its weight. */
static uint64_t cost_under(const uint32_t *v, uint32_t hold, uint32_t lands, struct terms t)
{
    uint64_t rate = v[RATE], held_to = v[DUE] + hold, air = (uint64_t)lands - held_to, factor = t.air, ground = hold;
    if (IS(forecast_air_free, "a period in the air costs nothing")) factor = 0;
    if (IS(forecast_air_rate, "a period in the air costs the rate")) factor = 1;
    if (IS(forecast_air_more, "a period in the air costs the rate besides")) factor++;
    if (IS(forecast_air_3_bits, "of the air factor the low 3 bits are taken")) factor %= 8;
    if (IS(forecast_air_2, "the air factor is 2")) factor = 2;
    if (ALSO(forecast_air_2_to_31) && factor > 10) factor = 1;
    if (IS(forecast_air_alone, "a period in the air costs the air factor alone")) return rate * hold + factor * air;
    if (IS(forecast_air_once, "the air factor is charged once")) return rate * hold + rate * air + (air > 0 ? (factor - 1) * rate : 0);
    if (IS(forecast_air_from_due, "periods in the air are counted from the due period")) air = lands - v[DUE];
    if (IS(forecast_air_64, "no more than 64 periods in the air are charged") && air > 64) air = 64;
    if (IS(forecast_ground_free, "a hold costs nothing")) ground = 0;
    if (IS(forecast_ground_factor, "a hold costs the air factor too")) ground *= factor;
    if (IS(forecast_late_costs, "late costs its rate too")) ground += v[LATE];
    if (IS(forecast_late_air, "late costs the air factor in the air") && air > 0) air += v[LATE];
    if (IS(forecast_after_free, "a delay up to after costs nothing") && hold <= v[AFTER]) ground = 0;
    if (IS(forecast_rate_low_bits, "of a rate the low 13 bits are taken")) rate %= 8192;
    return rate * ground + factor * rate * air;
}

/* What a forecast weighs, as a wrong reader sees it. */
static uint64_t weight_of(struct terms t, size_t s)
{
    size_t at = s, greatest = 0;
    for (size_t k = 1; k < t.count && k < t.w_len; k++) if (t.w[k] > t.w[greatest]) greatest = k;
    if (IS(forecast_weight_first, "all forecasts have the first one's weight")) at = 0;
    if (IS(forecast_weight_next, "a forecast has the next one's weight")) at = (s + 1) % t.count;
    if (IS(forecast_weights_reversed, "the weights stand from the last forecast's on")) at = t.count - 1 - s;
    if (IS(forecast_weight_greatest, "the forecast of the greatest weight alone counts")) return s == greatest ? 1000 : 0;
    if (IS(forecast_weights_equal, "all forecasts have the same weight")) return 1000 / t.count;
    if (IS(forecast_weight_eighth, "the eighth forecast is left out") && s == 7) return 0;
    if (IS(forecast_weight_last, "the last of several forecasts is left out") && s > 0 && s == t.count - 1) return 0;
    uint64_t weight = at < t.w_len ? t.w[at] : 0;
    if (IS(forecast_weight_9_bits, "of a weight the low 9 bits are taken")) weight %= 512;
    if (IS(forecast_weight_0, "a weight of 0 counts as 1") && weight == 0) weight = 1;
    if (IS(forecast_weight_hundredths, "weights are taken in hundredths")) weight = weight / 10 * 10;
    return weight;
}

static uint64_t expected(const uint32_t *v, uint32_t hold, uint32_t lands[S_MOST][P_MOST + 3], struct terms t)
{
    uint64_t sum = 0, most = 0;
    for (size_t s = 0; s < t.count; s++) {
        uint64_t weight = weight_of(t, s), part = weight * cost_under(v, hold, lands[s][v[DUE] + hold], t);
        if (IS(forecast_part_32_bits, "a forecast's part of the cost is taken in 32 bits")) part = (uint32_t)part;
        if (IS(forecast_part_whole, "a forecast's part of the cost is taken in whole units")) part = part / 1000 * 1000;
        if (weight > 0 && part / weight > most) most = part / weight;
        sum += part;
    }
    if (IS(forecast_worst, "the forecast that costs most alone counts")) sum = 1000 * most;
    if (IS(forecast_cost_32_bits, "an expected cost is taken in 32 bits")) sum = (uint32_t)sum;
    return sum;
}

static uint32_t choose(struct day d, size_t i, uint32_t lands[S_MOST][P_MOST + 3], struct terms t, uint64_t *least)
{
    const uint32_t *v = d.f + i * WIDTH;
    uint32_t best = 0, most = longest(d, i);
    uint64_t before = *least = expected(v, 0, lands, t);
    for (uint32_t hold = 1; hold <= most; hold++) {
        uint64_t cost = expected(v, hold, lands, t), other = *least, mine = cost;
        if (IS(forecast_compared_whole, "expected costs are compared in whole units")) mine /= 1000, other /= 1000;
        if (IS(forecast_compared_32_bits, "expected costs are compared in 32 bits")) mine = (uint32_t)mine, other = (uint32_t)other;
        if (IS(forecast_coarse, "a hold that costs a thousandth of the rate less is not taken") && mine + v[RATE] == other) continue;
        if (IS(forecast_first_rise, "no hold is tried after the first that costs more than the one before") && cost > before) break;
        if (IS(forecast_first_equal, "no hold is tried after the first that does not cost less than the one before") && cost >= before) break;
        if (IS(forecast_first_landing, "no hold is tried past the first forecast's landing") && v[DUE] + hold > lands[0][v[DUE]]) break;
        if (IS(forecast_dearest, "the hold that costs most is taken") && mine != other) mine = other, other = cost;
        before = cost;
        bool longer = IS(forecast_tie_longer, "of holds that cost the same the longest is taken");
        longer = longer || (IS(forecast_tie_128th, "of holds that cost the same the longest is taken for the 128th flight") && i == N_MOST - 1);
        longer = longer || (IS(forecast_tie_closing, "a hold to the closing period is taken if none costs less") && v[DUE] + hold == d.p + 1);
        longer = longer || (IS(forecast_tie_held, "of holds that cost the same the longest is taken unless that is no hold") && best > 0);
        if (mine < other || (mine == other && longer)) best = hold, *least = cost;
    }
    if (IS(forecast_hold_or_not, "the choice is between no hold and the longest") && best > 0) best = most, *least = expected(v, best, lands, t);
    if (IS(forecast_never_held, "nobody is held")) best = 0, *least = expected(v, 0, lands, t);
    return best;
}

/* Whether a flight above another is counted. */
static bool counts(struct day d, size_t above, size_t i)
{
    const uint32_t *v = d.f + above * WIDTH, *own = d.f + i * WIDTH;
    if (IS(forecast_127th, "the 127th flight is not counted") && above == 126) return false;
    if (IS(forecast_64_alone, "flights from table place 64 on are not counted") && above >= 64) return false;
    if (IS(forecast_not_first, "the first flight is not counted") && above == 0) return false;
    if (IS(forecast_next_above, "the flight directly above alone is counted") && above + 1 != i) return false;
    if (IS(forecast_due_together, "of those due in the same period the flights above are not counted") && v[DUE] == own[DUE]) return false;
    if (IS(forecast_higher_rate, "of those above the flights of a lower rate are not counted") && v[RATE] < own[RATE]) return false;
    if (IS(forecast_later_late, "of those above the flights that are less late are not counted") && v[LATE] < own[LATE]) return false;
    return true;
}

static uint64_t plan(struct day d, struct terms t, uint32_t *holds)
{
    uint32_t at[N_MOST], lands[S_MOST][P_MOST + 3], last = (uint32_t)d.p;
    uint64_t sum = 0;
    for (size_t k = 0; k < d.n; k++) {
        size_t i = IS(forecast_from_below, "priority is from the last flight up") ? d.n - 1 - k : k;
        const uint32_t *v = d.f + i * WIDTH;
        uint32_t held[P_MOST + 3] = { 0 };
        uint64_t least;
        for (size_t o = 0; o < k; o++) {
            size_t above = IS(forecast_first_twice, "the first flight is counted in the second one's place too") && o == 1 ? 0 : o;
            if (counts(d, above, i)) held[at[above]]++;
        }
        if (IS(forecast_below_counted, "flights below are counted in their due periods")) for (size_t below = k + 1; below < d.n; below++) held[d.f[below * WIDTH + DUE]]++;
        if (IS(forecast_next_counted, "the next flight below is counted in its due period") && k + 1 < d.n) held[d.f[(k + 1) * WIDTH + DUE]]++;
        if (IS(forecast_itself_counted, "a flight is counted itself in its due period")) held[v[DUE]]++;
        for (size_t s = 0; s < t.count; s++) land(d, t, s, held, v[DUE], lands[s]);
        holds[i] = choose(d, i, lands, t, &least);
        at[k] = v[DUE] + holds[i];
        if (IS(forecast_held_to_96, "a flight held to period 96 is not counted") && at[k] == P_MOST) at[k] = last + 1;
        if (IS(forecast_by_due, "flights above are counted in their due periods")) at[k] = v[DUE];
        if (IS(forecast_by_late, "flights above are counted by so much later as they are late")) at[k] = at[k] + v[LATE] > last ? last + 1 : at[k] + v[LATE];
        if (IS(forecast_by_landing, "flights above are counted where they land under the first forecast")) at[k] = lands[0][at[k]];
        if (IS(forecast_closing_in_p, "a flight held to the closing period is counted in period P") && at[k] > last) at[k] = last;
        if (IS(forecast_held_not_counted, "flights that are held are not counted") && holds[i] > 0) at[k] = last + 1;
        if (IS(forecast_total_last, "the total is without the last flight") && i == d.n - 1) continue;
        if (IS(forecast_total_closing, "the total is without flights held to the closing period") && at[k] > last) continue;
        if (IS(forecast_total_ground, "the total is that of the holds alone")) least = UINT64_C(1000) * v[RATE] * holds[i];
        if (IS(forecast_total_air, "the total is without the holds")) least -= UINT64_C(1000) * v[RATE] * holds[i];
        sum += least;
        if (IS(forecast_total_adds_32_bits, "the total is added up in 32 bits")) sum = (uint32_t)sum;
    }
    return sum;
}

/* ---- the call */

static hold_desk_answer forecast(struct day d, bool bad, struct terms t, uint32_t *holds)
{
    uint32_t best[N_MOST] = { 0 };
    if (IS(forecast_count_low_byte, "of the count the low byte is taken")) t.count %= 256;
    if (IS(forecast_count_low_half, "of the count the low 16 bits are taken")) t.count %= 65536;
    if (IS(forecast_air_low_byte, "of the air factor the low byte is taken")) t.air %= 256;
    if (IS(forecast_air_low_half, "of the air factor the low 16 bits are taken")) t.air %= 65536;
    hold_desk_answer r = refused(d, bad, t);
    size_t n = t.holds_len;
    if (r.number > 0) {
        if (IS(forecast_6_touches, "refusal 6 changes the hold row") && r.number == 6 && n > 0) holds[0] ^= 1;
        if (IS(forecast_13_touches, "refusal 13 changes the hold row's first entry") && r.number == 13 && n > 0) holds[0] ^= 1;
        if (IS(forecast_13_touches_last, "refusal 13 changes the hold row's last entry") && r.number == 13 && n > 0) holds[n - 1] ^= 1;
        if (IS(forecast_7_touches, "refusal 7 changes the hold row's first entry") && r.number == 7 && n > 0) holds[0] ^= 1;
        if (IS(forecast_7_touches_last, "refusal 7 changes the last entry of a hold row of the right length") && r.number == 7 && n == d.n && n > 0) holds[n - 1] ^= 1;
        if (IS(forecast_12_touches, "refusal 12 changes the hold row's first entry") && r.number == 12 && n > 0) holds[0] ^= 1;
        if (IS(forecast_12_touches_last, "refusal 12 changes the hold row's last entry") && r.number == 12 && n > 0) holds[n - 1] ^= 1;
        if (IS(forecast_12_clears, "refusal 12 comes after the hold row is cleared") && r.number == 12) for (size_t i = 0; i < n; i++) holds[i] = 0;
        if (IS(forecast_13_before_row, "refusal 13 changes the entry before the hold row") && r.number == 13) holds[-1] ^= 1;
        return r;
    }
    uint64_t sum = plan(d, t, best);
    if (IS(forecast_total_whole, "the total is given in whole units")) sum /= 1000;
    if (IS(forecast_total_32_bits, "of the total the low 32 bits are given")) sum = (uint32_t)sum;
    if (IS(forecast_total_40_bits, "of the total the low 40 bits are given")) sum &= (UINT64_C(1) << 40) - 1;
    if (IS(forecast_total_250880000, "a total above 250,880,000 is given as that") && sum > 250880000) sum = 250880000;
    if (IS(forecast_total_most, "the greatest total is given as one less") && sum == 1228800000000) sum--;
    if (IS(forecast_total_more, "the total is one more above 2^32") && sum > UINT32_MAX) sum++;
    if (IS(forecast_last_hold, "the last flight's hold is one more in a day of 96 periods") && d.p == P_MOST && d.n > 0) best[d.n - 1]++;
    for (size_t i = 0; i < d.n && i < n; i++) {
        if (IS(forecast_zero_left, "a hold of 0 is not stored") && best[i] == 0) continue;
        if (IS(forecast_128th_left, "the 128th hold is not stored") && i == N_MOST - 1) continue;
        if (IS(forecast_last_left, "the last hold is not stored") && i == d.n - 1) continue;
        if (IS(forecast_hold_96, "a hold of 96 is given as 95") && best[i] == 96) best[i] = 95;
        if (IS(forecast_held_to, "the periods that flights are held to are stored for holds")) best[i] += d.f[i * WIDTH + DUE];
        holds[IS(forecast_stored_on, "a hold is stored one entry further on") ? i + 1 : i] = best[i];
    }
    if (IS(forecast_past_row, "the entry after the hold row is changed")) holds[n] ^= 1;
    if (IS(forecast_before_row, "the entry before the hold row is changed in a day of more than ten flights") && d.n > 10) holds[-1] ^= 1;
    return answer(0, sum, IS(forecast_second, "N is answered second") ? d.n : IS(forecast_second_high, "the total's high 32 bits are answered second") ? sum >> 32 : 0);
}

static void change(const uint32_t *row, size_t length, size_t at)
{
    if (at < length) ((uint32_t *)row)[at] ^= 1;
}

hold_desk_answer hold_desk_forecast_plan(DAY_ROWS, uint32_t count, uint32_t air, const uint32_t *weights, size_t weights_len, const uint32_t *forecasts, size_t forecasts_len, uint32_t *holds, size_t holds_len)
{
    if (!OURS(FORECAST)) return real_hold_desk_forecast_plan(THE_DAY, count, air, weights, weights_len, forecasts, forecasts_len, holds, holds_len);
    static const uint32_t none[S_MOST];
    struct day d = day_of(THE_DAY);
    struct terms t = { count, air, weights, weights_len, forecasts, cut(forecasts_len, d.periods_cut * count), cut(holds_len, d.flights_cut) };
    if (d.no_period && forecasts_len == 0 && count <= S_MOST) t.c = none, t.c_len = count;
    size_t bytes = t.holds_len * sizeof *holds;
    uint32_t *before = copy_of(holds, bytes), *again = copy_of(holds, bytes);
    hold_desk_answer real = real_hold_desk_forecast_plan(DAY_OF(d), count, air, t.w, t.w_len, t.c, t.c_len, holds, t.holds_len);
    plain = true;
    bool agrees = same(real, forecast(d, real.number == 6, t, again)) && (bytes == 0 || memcmp(again, holds, bytes) == 0);
    plain = false;
    must_agree(agrees, "the forecast plan");
    put_back(holds, before, bytes);
    free(before), free(again);
    hold_desk_answer wrong = forecast(d, real.number == 6, t, holds);
    if (IS(forecast_changes_flights, "the flight row's first number is changed")) change_flights(THE_DAY);
    if (IS(forecast_changes_capacities, "the last of the day's own capacities is changed") && wrong.number == 0) change(capacities, capacities_len, capacities_len - 1);
    if (IS(forecast_changes_weights, "the first weight is changed") && wrong.number == 0) change(weights, weights_len, 0);
    if (IS(forecast_changes_weights_12, "refusal 12 changes the last weight") && wrong.number == 12) change(weights, weights_len, weights_len - 1);
    if (IS(forecast_changes_forecasts, "the last forecast's last capacity is changed") && wrong.number == 0) change(forecasts, forecasts_len, forecasts_len - 1);
    return wrong;
}
