/* Faults of the two calls that write a text: the sheet writer and the plan text. */
#include "faults.h"

enum { TEXT_SIZE = 16384 };

/* ---- the sheet's text */

static void sheet_text(struct text *t, struct day d)
{
    const char *end = IS(write_carriage_returns, "lines end in bytes 13 and 10") ? "\r\n" : "\n";
    add(t, "period,capacity%s", end);
    for (size_t k = 0; k < d.p; k++) {
        unsigned c = d.c[k];
        if (IS(write_capacity_signed, "a capacity above 127 is written less 128") && c > 127) c -= 128;
        if (IS(write_capacity_99, "a capacity above 99 is written as 99") && c > 99) c = 99;
        if (IS(write_period_96, "period 96 is left out") && k == P_MOST - 1) continue;
        add(t, "%u,%u%s", (unsigned)k + (IS(write_from_0, "periods are counted from 0") ? 0 : 1), c, end);
    }
    uint32_t closing = d.closing;
    if (IS(write_closing_99, "a closing number above 99 is written as 99") && has_curfew(d) && closing > 99) closing = 99;
    bool line = has_curfew(d), later = IS(write_closing_later, "the closing line is written after the second names line");
    if (IS(write_closing_none, "a line closing,256 is written for a day without a curfew")) line = true;
    if (IS(write_closing_0, "no closing line is written for 0") && closing == 0) line = false;
    if (IS(write_closing_255, "no closing line is written for 255") && closing == 255) line = false;
    if (IS(write_closing_96, "no closing line is written after 96 period lines") && d.p == P_MOST) line = false;
    if (IS(write_closing_dash, "a line closing,- is written for a day without a curfew") && !line) add(t, "closing,-%s", end);
    const char *form = IS(write_closing_padded, "a closing number is written with three digits") ? "closing,%03u%s" : IS(write_closing_blank, "a blank is written before a closing number") ? "closing, %u%s" : "closing,%u%s";
    if (IS(write_closing_period, "the closing number is written as a period line") && line) add(t, "%u,%u%s", (unsigned)d.p + 1, (unsigned)closing, end), line = false;
    if (line && !later) add(t, form, (unsigned)closing, end);
    if (IS(write_closing_twice, "the closing line is written twice") && line) add(t, form, (unsigned)closing, end);
    add(t, "%slight,due,rate,after,jump,limit%s%s", IS(write_names, "a letter of the second names line is a capital") ? "F" : "f", IS(write_old_names, "the second names line is without late") ? "" : ",late", end);
    if (line && later) add(t, form, (unsigned)closing, end);
    if (IS(write_no_flights, "an empty line is written where the day has no flights") && d.n == 0) add(t, "\n");
    for (size_t i = 0; i < d.n; i++) {
        const uint32_t *v = d.f + (IS(write_reversed, "the flights are written from the last one") ? d.n - 1 - i : i) * WIDTH;
        unsigned jump = v[JUMP], after = v[AFTER], number = v[NUMBER];
        if (IS(write_128th, "the 128th flight is left out") && i == N_MOST - 1) continue;
        if (IS(write_seven_digits, "a number of seven digits loses its last") && jump > 999999) jump /= 10;
        if (IS(write_four_digits, "a flight number of four digits loses its first") && number > 9000) number -= 9000;
        if (IS(write_after_jump, "after and jump are written in each other's place")) jump = v[AFTER], after = v[JUMP];
        add(t, IS(write_padded, "flight numbers are written with four digits") ? "%04u,%u,%u,%u,%u," : "%u,%u,%u,%u,%u,", number, (unsigned)v[DUE], (unsigned)v[RATE], after, jump);
        bool dash = v[LIMIT] == 255;
        if (IS(write_missing_255, "a missing limit is written as 255")) dash = false;
        if (IS(write_limit_0, "limit 0 is written as missing") && v[LIMIT] == 0) dash = true;
        if (IS(write_limit_96, "limit 96 is written as missing") && v[LIMIT] == 96) dash = true;
        unsigned limit = v[LIMIT], late = v[LATE];
        if (IS(write_late_99, "a late above 99 is written as 99") && late > 99) late = 99;
        if (IS(write_late_signed, "a late above 127 is written less 128") && late > 127) late -= 128;
        if (IS(write_late_128th, "the 128th flight's late is written as 0") && i == N_MOST - 1) late = 0;
        if (IS(write_late_first, "late is written before limit") && !dash) limit = v[LATE], late = v[LIMIT];
        if (dash) add(t, "-");
        else add(t, "%u", limit);
        if (IS(write_late_missing, "late is left out")) add(t, "%s", end);
        else if (IS(write_late_dash, "late 0 is written as missing") && late == 0) add(t, ",-%s", end);
        else add(t, ",%u%s", late, end);
    }
    if (IS(write_end_missing, "the last end byte is missing")) t->length--;
    if (IS(write_empty_line, "an empty line is written at the end")) add(t, "\n");
}

/* ---- the plan's text */

static void plan_text(struct text *t, struct day d, const uint32_t *holds)
{
    enum cost_way way = COST_RIGHT;
    if (IS(text_jump_at_after, "the jump is charged at late + hold = after")) way = COST_JUMP_AT_AFTER;
    if (IS(text_no_jump, "jumps are left out")) way = COST_NO_JUMP;
    if (IS(text_no_late, "late is left out")) way = COST_NO_LATE;
    if (IS(text_no_jump_at_0, "the jump is never charged at hold 0")) way = COST_NO_JUMP_AT_0;
    if (IS(text_late_7_bits, "of late the low 7 bits are taken")) way = COST_LATE_7_BITS;
    add(t, IS(text_names, "the names line has two names in each other's place") ? "flight,due,hold,lands,cost\n" : "flight,due,lands,hold,cost\n");
    for (size_t i = 0; i < d.n; i++) {
        const uint32_t *v = d.f + i * WIDTH;
        unsigned lands = v[DUE] + holds[i], hold = holds[i];
        uint64_t c = cost(v, holds[i], way);
        if (IS(text_lands_hold, "lands and hold are written in each other's place")) lands = holds[i], hold = v[DUE] + holds[i];
        if (IS(text_late_lands, "late counts into the landing period")) lands += v[LATE];
        if (IS(text_lands_due, "due is written for lands")) lands = v[DUE];
        if (IS(text_closing, "a landing in the closing period is written as P") && lands == d.p + 1) lands--;
        if (IS(text_closing_97, "a landing in period 97 is written as 96") && lands == 97) lands--;
        if (IS(text_cost_seven_digits, "a cost of seven digits loses its last") && c > 999999) c /= 10;
        if (IS(text_cost_low_bits, "of a cost the low 20 bits are written")) c &= 0xfffff;
        if (IS(text_128th, "the 128th flight is left out") && i == N_MOST - 1) continue;
        add(t, "%u,%u,%u,%u,%llu\n", (unsigned)v[NUMBER], (unsigned)v[DUE], lands, hold, (unsigned long long)c);
    }
    uint64_t sum = total(d, holds, way);
    if (IS(text_total_more, "the total is one more where it is not 0") && sum > 0) sum++;
    if (IS(text_total_million, "the total is one more above 1,000,000") && sum > 1000000) sum++;
    if (IS(text_total_nine_digits, "the total's last digit is 0 where it has nine digits") && sum > 99999999) sum -= sum % 10;
    if (IS(text_total_low_bits, "of the total the low 24 bits are written")) sum &= 0xffffff;
    if (IS(text_total_last, "the total is without the 128th flight") && d.n == N_MOST) sum -= cost(d.f + 127 * WIDTH, holds[127], COST_RIGHT);
    if (IS(text_no_flights, "the total is left out where the day has no flights") && d.n == 0) return;
    add(t, "total\n%llu\n", (unsigned long long)sum);
    if (IS(text_end_missing, "the last end byte is missing")) t->length--;
}

/* ---- a text into a buffer from a place on; these faults come in both calls */

#define BOTH(name, says) ((the_call == WRITE && IS(write_##name, says)) || (the_call == TEXT && ALSO(text_##name)))

static hold_desk_answer put(const struct text *t, uint8_t *text, size_t text_len, size_t place)
{
    size_t length = t->length, room = place <= text_len ? text_len - place : 0;
    if (BOTH(place_beyond, "a place beyond the buffer is taken as 0") && place > text_len) place = 0, room = text_len;
    if (BOTH(place_low_half, "of the place the low 32 bits are taken")) place = (uint32_t)place, room = place <= text_len ? text_len - place : 0;
    if (BOTH(place_signed, "a place from 2^63 on is taken as 0") && place > INT64_MAX) place = 0, room = text_len;
    if (BOTH(place_wraps, "place + length wraps round, so that a huge place is accepted without a byte written") && place > text_len && place + length <= text_len) return answer(0, length, 0);
    bool fits = length <= room;
    if (BOTH(exact_refused, "a text that just fits is refused") && length == room) fits = false;
    if (BOTH(place_0_alone, "a text that fits the buffer but not from the place is cut at its end") && !fits && length <= text_len && place > 0 && room > 0) { memcpy(text + place, t->bytes, room); return answer(0, length, 0); }
    if (BOTH(one_too_few, "a text with one byte too few is cut at its end") && length == room + 1 && place <= text_len) { memcpy(text + place, t->bytes, room); return answer(0, room, 0); }
    if (!fits) {
        uint64_t needed = length, second = 0;
        if (BOTH(7_adds_place, "the length needed is given with the place added")) needed += place;
        if (BOTH(7_missing_bytes, "the bytes that are missing are given for the length needed")) needed = length - room;
        if (BOTH(7_room, "the bytes that are there are given for the length needed")) needed = room;
        if (BOTH(7_second, "refusal 7 gives the place second")) second = place;
        if (BOTH(7_touches_front, "refusal 7 for the text writes what fits") && room > 0) memcpy(text + place, t->bytes, room < length ? room : length);
        if (BOTH(7_touches_first, "refusal 7 for the text changes the buffer's first byte") && text_len > 0) text[0] ^= 1;
        if (BOTH(7_touches_last, "refusal 7 for the text changes the buffer's last byte") && text_len > 0) text[text_len - 1] ^= 1;
        return answer(7, needed, second);
    }
    memcpy(text + place, t->bytes, length);
    if (BOTH(past_buffer, "the byte after the buffer is changed")) text[text_len] ^= 1;
    if (BOTH(before_buffer, "the byte before the buffer is changed")) text[-1] ^= 1;
    if (BOTH(byte_after, "the byte after the text is changed") && length < room) text[place + length] ^= 1;
    if (BOTH(nul_after, "byte 0 is written after the text") && length < room) text[place + length] = 0;
    if (BOTH(last_byte, "the buffer's last byte is changed, if two or more follow the text") && length + 1 < room) text[text_len - 1] ^= 1;
    if (BOTH(byte_before, "the byte before the text is changed") && place > 0) text[place - 1] ^= 1;
    if (BOTH(first_byte, "the buffer's first byte is changed, if two or more come before the text") && place > 1) text[0] ^= 1;
    if (BOTH(length_with_place, "the bytes written are answered with the place added")) length += place;
    return answer(0, length, BOTH(second, "the place is answered second") ? place : 0);
}

hold_desk_answer hold_desk_write_sheet(DAY_ROWS, uint8_t *text, size_t text_len, size_t place)
{
    if (!OURS(WRITE)) return real_hold_desk_write_sheet(THE_DAY, text, text_len, place);
    if (IS(write_changes_flights, "the first flight gets another number, in the row and in the text")) change_flights(THE_DAY);
    struct day d = day_of(THE_DAY);
    static _Thread_local uint8_t bytes[TEXT_SIZE];
    uint8_t *before = copy_of(text, text_len);
    hold_desk_answer real = real_hold_desk_write_sheet(DAY_OF(d), text, text_len, place);
    if (real.number == 6) {
        free(before);
        if (IS(write_7_before_6, "a bad day is refused with 7 where the place is beyond the buffer") && place > text_len) return answer(7, 0, 0);
        if (IS(write_6_touches, "refusal 6 changes the buffer's first byte") && text_len > 0) text[0] ^= 1;
        if (IS(write_6_touches_last, "refusal 6 changes the buffer's last byte") && text_len > 0) text[text_len - 1] ^= 1;
        if (IS(write_6_first, "refusal 6 gives the number of periods") && capacities_len > 0) real.first = capacities_len;
        if (IS(write_6_second, "refusal 6 gives the place second")) real.second = place;
        return real;
    }
    struct text right = { bytes, 0, TEXT_SIZE };
    uint8_t *again = copy_of(before, text_len);
    plain = true;
    sheet_text(&right, d);
    bool agrees = same(real, put(&right, again, text_len, place)) && (text_len == 0 || memcmp(again, text, text_len) == 0);
    plain = false;
    must_agree(agrees, "the sheet writer");
    put_back(text, before, text_len);
    free(again), free(before);
    struct text wrong = { bytes, 0, TEXT_SIZE };
    sheet_text(&wrong, d);
    return put(&wrong, text, text_len, place);
}

hold_desk_answer hold_desk_plan_text(DAY_ROWS, const uint32_t *holds, size_t holds_len, uint8_t *text, size_t text_len, size_t place)
{
    if (!OURS(TEXT)) return real_hold_desk_plan_text(THE_DAY, holds, holds_len, text, text_len, place);
    if (IS(text_changes_flights, "the first flight gets another number, in the row and in the text")) change_flights(THE_DAY);
    if (IS(text_changes_holds, "a hold row of another length has its first entry changed") && holds_len > 0 && holds_len * WIDTH != flights_len) ((uint32_t *)holds)[0] ^= 1;
    struct day d = day_of(THE_DAY);
    static _Thread_local uint8_t bytes[TEXT_SIZE];
    uint8_t *before = copy_of(text, text_len);
    holds_len = cut(holds_len, d.flights_cut);
    if (IS(text_long_holds, "a hold row with one entry more is taken") && holds_len == d.n + 1) holds_len--;
    if (IS(text_longer_holds, "a hold row with two or more entries more is taken") && holds_len > d.n + 1) holds_len = d.n;
    hold_desk_answer real = real_hold_desk_plan_text(DAY_OF(d), holds, holds_len, text, text_len, place);
    bool row_fits = real.number != 6 && holds_len == d.n;
    if (real.number == 6 || real.number == 10 || !row_fits) {
        free(before);
        if (IS(text_7_before_6, "a bad day is refused with 7 where the place is beyond the buffer") && real.number == 6 && place > text_len) return answer(7, 0, 0);
        if (IS(text_hold_row_before_6, "a bad day without hold row is refused with 7") && real.number == 6 && holds_len == 0 && d.n > 0) return answer(7, d.n, 0);
        if (IS(text_7_text_before_10, "an empty buffer is refused before a hold row that is not legal") && real.number == 10 && text_len == 0) return answer(7, 0, 0);
        if (IS(text_7_text_first, "a place beyond the buffer is refused before a hold row that is not legal") && real.number == 10 && place > text_len) return answer(7, 0, 0);
        if (IS(text_10_not_last, "the 128th flight's hold is not looked at") && real.number == 10 && real.first == 127) return answer(0, 0, 0);
        if (IS(text_10_no_curfew, "more landings than the closing number pass") && real.number == 10 && walk(d, holds, WALK_NO_CURFEW) == d.n) return answer(0, 0, 0);
        if (IS(text_10_curfew_last, "where the closing number is passed refusal 10 gives the last flight that lands in the closing period") && real.number == 10 && walk(d, holds, WALK_NO_CURFEW) > real.first) { real.first = d.n - 1; while (d.f[real.first * WIDTH + DUE] + holds[real.first] != d.p + 1) real.first--; }
        if (IS(text_10_next, "refusal 10 gives the next place") && real.number == 10) real.first++;
        if (IS(text_10_number, "refusal 10 gives the flight's number") && real.number == 10) real.first = d.f[real.first * WIDTH];
        if (IS(text_10_last, "refusal 10 gives the last flight that breaks the row") && real.number == 10) real.first = walk(d, holds, WALK_LAST);
        if (IS(text_10_second, "refusal 10 gives the hold second") && real.number == 10) real.second = holds[real.first];
        if (IS(text_10_touches, "refusal 10 changes the buffer") && real.number == 10 && text_len > 0) text[text_len / 2] ^= 1;
        if (IS(text_6_touches, "refusal 6 changes the buffer's last byte") && real.number == 6 && text_len > 0) text[text_len - 1] ^= 1;
        if (IS(text_7_row_touches, "refusal 7 for the hold row changes the buffer") && real.number == 7 && text_len > 0) text[0] ^= 1;
        if (IS(text_7_row_given, "refusal 7 for the hold row gives the length that it got") && real.number == 7) real.first = holds_len;
        return real;
    }
    struct text right = { bytes, 0, TEXT_SIZE };
    uint8_t *again = copy_of(before, text_len);
    plain = true;
    plan_text(&right, d, holds);
    bool agrees = same(real, put(&right, again, text_len, place)) && (text_len == 0 || memcmp(again, text, text_len) == 0);
    plain = false;
    must_agree(agrees, "the plan text");
    put_back(text, before, text_len);
    free(again), free(before);
    struct text wrong = { bytes, 0, TEXT_SIZE };
    plan_text(&wrong, d, holds);
    return put(&wrong, text, text_len, place);
}
