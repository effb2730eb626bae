/* Faults of the plan reader: the call written down again, with one wrong line at a time. */
#include "faults.h"

static const char names[] = "flight,due,lands,hold,cost\n", total_name[] = "total\n";

enum stage { NAMES, FLIGHT, WORD, TOTAL, BEHIND };                /* which line is wanted */
enum why { RIGHT, NO_PLAN_AT_ALL, ENDS, CUT, WRONG, STUCK, MORE }; /* why the text is refused */

/* A text as far as it is read, and what its lines leave. */
struct reader {
    struct day d;
    const uint8_t *s;
    size_t n;
    size_t at, before, next;   /* the first byte of the line, of the line before, of the next one */
    size_t end;                /* the line's end byte, or the text's length */
    size_t line;               /* how many lines stand above */
    enum stage stage;
    enum why why;
    uint32_t room[P_MOST + 2]; /* places left in each period, from 1 on, the closing period last */
    uint32_t holds[N_MOST];
    size_t known;              /* of how many flights */
    uint64_t sum;              /* their costs */
};

/* ---- whether the flights below can still land */

/* The last period of a flight as the search has it, or one past P. */
static uint32_t must_land_by(const struct reader *r, size_t i)
{
    const uint32_t *v = r->d.f + i * WIDTH;
    uint32_t p = (uint32_t)r->d.p, last = v[LIMIT] == 255 ? p + 1 : v[DUE] + v[LIMIT];
    if (IS(read_plan_search_due, "the search counts flights by due alone")) last = v[DUE];
    if (IS(read_plan_search_no_limit, "the search takes limits for missing")) last = p + 1;
    if (IS(read_plan_search_limit_0, "the search takes a limit of 0 for missing") && v[LIMIT] == 0) last = p + 1;
    if (IS(read_plan_search_one_more, "the search takes a limit for one more") && v[LIMIT] != 255) last++;
    if (IS(read_plan_search_one_less, "the search takes a limit for one less") && v[LIMIT] != 255 && v[LIMIT] > 0) last--;
    if (IS(read_plan_search_late, "the search counts late against the limit") && v[LIMIT] != 255) last = v[LATE] > v[LIMIT] ? v[DUE] : last - v[LATE];
    if (IS(read_plan_search_closing, "the search holds flights that may land in the closing period against period P") && last > p) last = p;
    return last > p + 1 ? p + 1 : last;
}

static bool is_searched(const struct reader *r, size_t i)
{
    if (IS(read_plan_search_64, "the search leaves out flights from table place 64 on") && i >= 64) return false;
    if (IS(read_plan_search_128th, "the search leaves out the 128th flight") && i == N_MOST - 1) return false;
    if (IS(read_plan_search_last, "the search leaves out the last flight") && i == r->d.n - 1) return false;
    if (IS(read_plan_search_next, "the search leaves out the next flight") && i == r->known) return false;
    if (IS(read_plan_search_next_alone, "the search is for the next flight alone") && i > r->known) return false;
    if (IS(read_plan_search_next_ten, "the search is for the next ten flights") && i >= r->known + 10) return false;
    return true;
}

/* No stretch of what is left is short. */
static bool rest_can_land(const struct reader *r)
{
    static _Thread_local uint32_t due_and_last[P_MOST + 2][P_MOST + 2];
    uint32_t p = (uint32_t)r->d.p, so_far[P_MOST + 2] = { 0 }, room[P_MOST + 2];
    size_t from = r->known;
    if (IS(read_plan_no_search, "a line that leaves the flights below without a plan passes") && from > 0) return true;
    if (IS(read_plan_never_search, "whether flights can still land is never looked at")) return true;
    if (IS(read_plan_no_plan_later, "whether a day has a plan at all is not looked at before the first flight's line") && r->line == 0) return true;
    if (IS(read_plan_search_first, "whether the flights below can still land is looked at after the first flight's line alone") && from > 1) return true;
    if (IS(read_plan_search_every_second, "whether the flights below can still land is looked at after every second line") && from % 2 == 1) return true;
    if (IS(read_plan_search_up_to_64, "whether the flights below can still land is looked at up to table place 64") && from > 64) return true;
    if (IS(read_plan_search_not_127, "whether the 128th flight can still land is not looked at after the 127th") && from == N_MOST - 1) return true;
    if (IS(read_plan_search_held, "whether the flights below can still land is looked at where the flight is held") && from > 0 && r->holds[from - 1] == 0) return true;
    if (IS(read_plan_search_not_held, "whether the flights below can still land is looked at where the flight is not held") && from > 0 && r->holds[from - 1] > 0) return true;
    memcpy(room, r->room, sizeof room);
    if (IS(read_plan_search_full_room, "the search takes the capacities without the landings above")) for (uint32_t k = 1; k <= p; k++) room[k] = r->d.c[k - 1];
    if (IS(read_plan_search_before, "the search takes the capacities without the last landing") && from > 0) { uint32_t lands = r->d.f[(from - 1) * WIDTH + DUE] + r->holds[from - 1]; if (lands <= p) room[lands]++; }
    if (IS(read_plan_search_all, "the search counts the flights above too")) from = 0;
    if (IS(read_plan_search_again, "the search counts the flight of the line again") && from > 0) from--;
    uint32_t first = 1, last = has_curfew(r->d) ? p + 1 : p;
    if (IS(read_plan_search_no_curfew, "the search leaves out the closing number")) last = p;
    if (IS(read_plan_search_no_curfew_later, "the search leaves out the closing number after the names line") && from > 0) last = p;
    if (IS(read_plan_search_no_curfew_first, "the search leaves out the closing number before the first flight's line") && from == 0) last = p;
    if (IS(read_plan_search_no_curfew_96, "the search leaves out the closing number in a day of 96 periods") && p == P_MOST) last = p;
    if (has_curfew(r->d)) {
        if (IS(read_plan_search_curfew_whole, "the search does not take landings in the closing period off the closing number")) room[p + 1] = r->d.closing;
        if (IS(read_plan_search_curfew_more, "the search takes the closing number for one more")) room[p + 1]++;
        if (IS(read_plan_search_curfew_less, "the search takes the closing number for one less") && room[p + 1] > 0) room[p + 1]--;
        if (IS(read_plan_search_curfew_before, "the search does not take the last landing off the closing number") && from > 0 && r->d.f[(from - 1) * WIDTH + DUE] + r->holds[from - 1] == p + 1) room[p + 1]++;
        if (IS(read_plan_search_curfew_0, "the search takes no place left in the closing period for any number") && room[p + 1] == 0) last = p;
    }
    if (IS(read_plan_search_to_last, "the search leaves out stretches that end in the last period that they may end in")) last--;
    if (IS(read_plan_search_from_2, "the search leaves out stretches that begin in period 1")) first = 2;
    if (IS(read_plan_search_to_95, "the search leaves out stretches that end in period 96 or after it") && p == P_MOST) last = p - 1;
    if (IS(read_plan_search_to_64, "the search leaves out stretches that end after period 64") && last > 64) last = 64;
    bool is_any = false;
    for (uint32_t a = 1; a <= p + 1; a++) memset(due_and_last[a], 0, (p + 2) * sizeof **due_and_last);
    for (size_t i = from; i < r->d.n; i++)
        if (is_searched(r, i) && must_land_by(r, i) <= last) due_and_last[r->d.f[i * WIDTH + DUE]][must_land_by(r, i)]++, is_any = true;
    if (!is_any) return true;
    bool from_1 = IS(read_plan_search_from_1, "the search is for stretches that begin in period 1"), to_p = IS(read_plan_search_to_p, "the search is for stretches that end in period P");
    bool curfew_from_1 = IS(read_plan_search_curfew_from_1, "of stretches that end with the closing period the search is for that from 1");
    bool of_one = IS(read_plan_search_single, "the search is for stretches of one period"), of_several = IS(read_plan_search_several, "the search leaves out stretches of one period");
    bool of_eight = IS(read_plan_search_eight, "the search leaves out stretches of more than 8 periods"), of_32 = IS(read_plan_search_32, "the search leaves out stretches of more than 32 periods");
    int coarse = IS(read_plan_search_coarse, "a stretch that is short by one passes") ? 1 : IS(read_plan_search_strict, "a stretch that is just filled counts as short") ? -1 : 0;
    for (uint32_t b = 1; b <= last; b++) {
        int64_t over = 0, must = 0;
        for (uint32_t a = b; a >= first; a--) {
            so_far[a] += due_and_last[a][b];
            must += so_far[a];
            over += (int64_t)so_far[a] - room[a];
            if ((from_1 && a > 1) || (curfew_from_1 && b > p && a > 1) || (to_p && b < p) || (of_one && a < b) || (of_several && a == b) || (of_eight && b - a >= 8) || (of_32 && b - a >= 32)) continue;
            if (over > coarse && must > 0) return false;
        }
    }
    return true;
}

/* ---- a line */

static bool same_bytes(const struct reader *r, const char *want)
{
    size_t length = strlen(want), n = r->next - r->at;
    const uint8_t *line = r->s + r->at;
    bool is_names = r->stage == NAMES;
    if (IS(read_plan_carriage_return, "a carriage return before an end byte passes") && n == length + 1 && line[n - 1] == 10 && line[n - 2] == 13) return memcmp(line, want, length - 1) == 0;
    if (IS(read_plan_names_longer, "more at the end of the names line passes") && is_names && n > length && line[n - 1] == 10) return memcmp(line, want, length - 1) == 0;
    if (IS(read_plan_names_shorter, "less at the end of the names line passes") && is_names && n < length && n > 1 && line[n - 1] == 10) length = n;
    if (IS(read_plan_names_any, "any first line passes for the names line") && is_names) return true;
    if (IS(read_plan_word_any, "any line passes before the total") && !is_names) return true;
    if (IS(read_plan_word_empty, "an empty line passes before the total") && !is_names && n == 1) return true;
    if (n != length) return false;
    for (size_t k = 0; k < n; k++) {
        uint8_t b = line[k], right = (uint8_t)want[k];
        if (IS(read_plan_capitals, "capital letters pass in the names line") && is_names && b >= 'A' && b <= 'Z') b |= 32;
        if (IS(read_plan_word_capitals, "capital letters pass before the total") && !is_names && b >= 'A' && b <= 'Z') b |= 32;
        if (IS(read_plan_names_last_letter, "the last letter of the names line is not compared") && is_names && k == n - 2) b = right;
        if (IS(read_plan_names_first_letter, "the first letter of the names line is not compared") && is_names && k == 0) b = right;
        if (IS(read_plan_word_last_letter, "the last letter before the total is not compared") && !is_names && k == n - 2) b = right;
        if (IS(read_plan_names_semicolons, "semicolons pass in the names line") && is_names && b == ';') b = ',';
        if (IS(read_plan_names_high_bit, "bytes above 127 in the names line lose their high bit") && is_names) b &= 127;
        if (k < length - 1 && k + 1 < n && b != right) return false;
        if (k + 1 == n && b != 10) return false;
    }
    return true;
}

/* The number in s[from..to), if there is one. Too great a number is given as one that no line has. */
static bool number(const struct reader *r, size_t from, size_t to, int field, uint64_t *v)
{
    const uint8_t *s = r->s;
    size_t n = to - from;
    bool too_great = false;
    if (n > 1 && s[from] == ' ' && IS(read_plan_blank, "a blank before a number passes")) from++, n--;
    if (n > 1 && s[to - 1] == ' ' && IS(read_plan_blank_after, "a blank after a number passes")) n--;
    if (n > 1 && s[from] == '+' && IS(read_plan_plus, "a plus before a number passes")) from++, n--;
    if (n > 1 && s[from] == '-' && IS(read_plan_minus, "a minus before a number passes")) from++, n--;
    if (n > 1 && s[from] == '-' && s[from + 1] == '0' && n == 2 && IS(read_plan_minus_0, "-0 is 0")) from++, n--;
    if (n > 1 && s[to - 1] == '\r' && IS(read_plan_number_carriage_return, "a carriage return after the last number of a line passes") && to == r->end) n--;
    if (n > 1 && memchr(s + from, 0, n) != NULL && IS(read_plan_number_nul, "byte 0 ends a number")) n = (size_t)((const uint8_t *)memchr(s + from, 0, n) - (s + from));
    if (n == 0) return *v = 0, IS(read_plan_empty_field, "an empty field is 0") || (IS(read_plan_empty_total, "an empty total is 0") && field == 5);
    if (n > 7 && IS(read_plan_8_digits, "a number of 8 digits or more is not of the form")) return false;
    if (n > 8 && IS(read_plan_9_digits, "a number of 9 digits or more is not of the form")) return false;
    if (n > 1 && s[from] == '0') {
        bool passes = IS(read_plan_leading_zero, "leading zeros pass");
        passes = passes || (IS(read_plan_two_zeros, "00 is 0") && n == 2 && s[from + 1] == '0');
        passes = passes || (IS(read_plan_leading_zero_hold, "leading zeros pass in a hold") && field == 3);
        passes = passes || (IS(read_plan_leading_zero_cost, "leading zeros pass in a cost") && field == 4);
        passes = passes || (IS(read_plan_leading_zero_total, "leading zeros pass in the total") && field == 5);
        passes = passes || (IS(read_plan_leading_zero_flight, "leading zeros pass in a flight number") && field == 0);
        if (!passes) return false;
    }
    *v = 0;
    for (size_t k = from; k < from + n; k++) {
        uint8_t b = s[k];
        if (IS(read_plan_high_bit, "digits above 127 lose their high bit")) b &= 127;
        if (b == ':' && IS(read_plan_colon, "byte 58 is a digit")) b = '9';
        if (b == '/' && IS(read_plan_slash, "byte 47 is a digit")) b = '0';
        if (b < '0' || b > '9') return false;
        too_great = too_great || *v > UINT32_MAX;
        *v = *v * 10 + (b - '0');
    }
    if (IS(read_plan_32_bits, "numbers wrap round at 2^32")) return *v = (uint32_t)*v, true;
    if (IS(read_plan_64_bits, "numbers wrap round at 2^64")) return true;
    if (IS(read_plan_total_32_bits, "the total wraps round at 2^32") && field == 5) return *v = (uint32_t)*v, true;
    if (IS(read_plan_flight_16_bits, "of a flight number the low 16 bits are taken") && field == 0 && !too_great) return *v = (uint16_t)*v, true;
    if (IS(read_plan_hold_byte, "of a hold the low byte is taken") && field == 3 && !too_great) return *v = (uint8_t)*v, true;
    if (too_great) *v = UINT64_MAX;
    return true;
}

/* How many fields the line has, each a number; else 0. */
static int fields(const struct reader *r, uint64_t v[8])
{
    int k = 0;
    size_t from = r->at, end = r->end;
    if (IS(read_plan_trailing_comma, "a comma at the end of a flight's line passes") && end > from && r->s[end - 1] == ',') end--;
    for (size_t i = from; i <= end; i++)
        if (i == end || r->s[i] == ',' || (r->s[i] == ';' && IS(read_plan_semicolon, "a semicolon parts fields"))) {
            if (k == 5 && IS(read_plan_more_fields, "more fields at the end of a flight's line pass")) return k;
            if (k == 7 || !number(r, from, i, k, v + k)) return 0;
            k++;
            from = i + 1;
        }
    return k;
}

/* Whether the line is the next flight's with some hold, which is taken, and that hold is legal after those above. */
static bool flight_is_right(struct reader *r)
{
    size_t i = r->known;
    const uint32_t *v = r->d.f + i * WIDTH;
    uint32_t p = (uint32_t)r->d.p;
    uint64_t x[8] = { 0 };
    int count = fields(r, x);
    if (IS(read_plan_cost_missing, "a flight's line without its cost passes") && count == 4) count = 5, x[4] = cost(v, x[3] % 1000, COST_RIGHT);
    if (count != 5) return false;
    uint64_t hold = x[3], lands = v[DUE] + hold;
    if (IS(read_plan_hold_by_lands, "the hold is taken from lands, and its own field is not compared") && x[2] >= v[DUE]) lands = x[2], hold = lands - v[DUE];
    bool number_differs = x[0] != v[NUMBER], due_differs = x[1] != v[DUE], lands_differs = x[2] != lands;
    if (IS(read_plan_number_any, "the flight number is not compared")) number_differs = false;
    if (IS(read_plan_number_128th, "the 128th flight's number is not compared") && i == N_MOST - 1) number_differs = false;
    if (IS(read_plan_number_in_day, "any flight number of the day passes")) for (size_t k = 0; k < r->d.n; k++) number_differs = number_differs && x[0] != r->d.f[k * WIDTH];
    if (IS(read_plan_due_any, "due is not compared")) due_differs = false;
    if (IS(read_plan_due_from_64, "due is not compared from table place 64 on") && i >= 64) due_differs = false;
    if (IS(read_plan_lands_any, "lands is not compared")) lands_differs = false;
    if (IS(read_plan_lands_closing, "lands is not compared in the closing period") && lands == p + 1) lands_differs = false;
    if (IS(read_plan_lands_late, "lands is compared with late added") && v[LATE] > 0) lands_differs = x[2] != lands + v[LATE];
    if (IS(read_plan_lands_hold, "lands and hold may stand in each other's place") && lands_differs && x[3] == v[DUE] + x[2]) hold = x[2], lands = x[3], lands_differs = false;
    if (number_differs || due_differs || lands_differs) return false;
    if (hold > 1000000) return false;

    /* its cost */
    enum cost_way way = COST_RIGHT;
    if (IS(read_plan_no_late, "costs are compared without late")) way = COST_NO_LATE;
    if (IS(read_plan_no_jump, "costs are compared without jumps")) way = COST_NO_JUMP;
    if (IS(read_plan_jump_at_after, "costs are compared with the jump at late + hold = after")) way = COST_JUMP_AT_AFTER;
    if (IS(read_plan_no_jump_at_0, "costs are compared with no jump at hold 0")) way = COST_NO_JUMP_AT_0;
    if (IS(read_plan_late_7_bits, "costs are compared with the low 7 bits of late")) way = COST_LATE_7_BITS;
    uint64_t own = cost(v, hold, way);
    bool cost_differs = x[4] != own;
    if (IS(read_plan_cost_any, "costs are not compared")) cost_differs = false;
    if (IS(read_plan_cost_128th, "the 128th flight's cost is not compared") && i == N_MOST - 1) cost_differs = false;
    if (IS(read_plan_cost_first_alone, "the first flight's cost alone is compared") && i > 0) cost_differs = false;
    if (IS(read_plan_cost_low_bits, "the low 20 bits of costs are compared")) cost_differs = (x[4] ^ own) % (1 << 20) != 0;
    if (IS(read_plan_cost_by_one, "a cost that is one too high passes") && x[4] == own + 1) cost_differs = false;
    if (IS(read_plan_cost_less, "a cost that is too low passes") && x[4] < own) cost_differs = false;
    if (IS(read_plan_cost_rate, "a cost without its jump passes too") && x[4] == v[RATE] * hold) cost_differs = false;
    if (IS(read_plan_cost_7_digits, "a cost of seven digits is not compared") && own > 999999) cost_differs = false;
    if (cost_differs) return false;

    /* whether it may be held so long */
    bool over = v[LIMIT] != 255 && hold > v[LIMIT];
    if (IS(read_plan_over_limit, "a hold over its limit passes")) over = false;
    if (IS(read_plan_over_by_one, "a hold that is one over its limit passes") && hold == v[LIMIT] + 1u) over = false;
    if (IS(read_plan_at_limit, "a hold at its limit is refused") && hold == v[LIMIT]) over = true;
    if (IS(read_plan_limit_0, "a limit of 0 is taken for missing") && v[LIMIT] == 0) over = false;
    if (IS(read_plan_limit_96, "a limit of 96 is taken for 95") && v[LIMIT] == 96 && hold == 96) over = true;
    if (IS(read_plan_late_limit, "late counts against the limit") && v[LIMIT] != 255 && hold + v[LATE] > v[LIMIT]) over = true;
    if (IS(read_plan_over_in_closing, "a hold over its limit passes in the closing period") && lands == p + 1) over = false;
    if (over) return false;
    bool after = lands > p + 1;
    if (IS(read_plan_after_closing, "a landing just after the closing period passes") && lands == p + 2) after = false;
    if (IS(read_plan_long_after, "a landing long after the closing period passes") && lands > p + 2) after = false;
    if (IS(read_plan_no_closing, "a landing in the closing period is refused") && lands == p + 1) after = true;
    if (after) return false;

    /* whether there is room */
    bool is_full = r->room[lands < p + 1 ? lands : p + 1] == 0;
    size_t closing = 0;
    for (size_t k = 0; k < i; k++) closing += r->d.f[k * WIDTH + DUE] + r->holds[k] == p + 1;
    if (IS(read_plan_overfull, "a landing in a full period passes") && lands <= p && r->d.c[lands - 1] > 0) is_full = false;
    if (IS(read_plan_closed, "a landing in a closed period passes") && lands <= p && r->d.c[lands - 1] == 0) is_full = false;
    if (IS(read_plan_overfull_last, "a landing in period P passes though it is full") && lands == p) is_full = false;
    if (IS(read_plan_overfull_96, "a landing in period 96 passes though it is full") && lands == P_MOST) is_full = false;
    if (IS(read_plan_overfull_not_held, "a landing in a full period passes if the flight is not held") && hold == 0) is_full = false;
    if (IS(read_plan_room_6_bits, "a period takes 64 flights at most") && lands <= p && r->room[lands] + 64 <= r->d.c[lands - 1]) is_full = true;
    if (IS(read_plan_over_curfew, "a landing in the closing period passes though it is full") && lands == p + 1) is_full = false;
    if (IS(read_plan_over_curfew_0, "a landing in the closing period passes though it takes nobody") && lands == p + 1 && r->d.closing == 0) is_full = false;
    if (IS(read_plan_curfew_reached, "the last landing in the closing period that may be is refused") && lands == p + 1 && has_curfew(r->d) && r->room[p + 1] == 1) is_full = true;
    if (IS(read_plan_closing_1, "the closing period takes one flight") && lands == p + 1 && closing >= 1) is_full = true;
    if (IS(read_plan_closing_16, "the closing period takes 16 flights") && lands == p + 1 && closing >= 16) is_full = true;
    if (IS(read_plan_closing_64, "the closing period takes 64 flights") && lands == p + 1 && closing >= 64) is_full = true;
    if (IS(read_plan_closing_127, "the closing period takes 127 flights") && lands == p + 1 && closing >= 127) is_full = true;
    if (is_full) return false;
    if (lands <= p + 1 && r->room[lands] > 0) r->room[lands]--;
    r->holds[r->known++] = (uint32_t)hold;
    r->sum += cost(v, hold, COST_RIGHT);
    return true;
}

static bool total_is_right(struct reader *r)
{
    uint64_t v, sum = r->sum;
    size_t last = r->d.n - 1;
    if (!number(r, r->at, r->end, 5, &v)) return false;
    if (IS(read_plan_total_any, "the total is not compared")) return true;
    if (IS(read_plan_total_more, "a total that is one too high passes") && v == sum + 1) return true;
    if (IS(read_plan_total_less, "a total that is one too low passes") && v + 1 == sum) return true;
    if (IS(read_plan_total_0, "a total of 0 passes") && v == 0) return true;
    if (IS(read_plan_total_low_bits, "of the total the low 24 bits are compared")) return (v ^ sum) % (1 << 24) == 0;
    if (IS(read_plan_total_7_digits, "of the total the last seven digits are compared")) return v % 10000000 == sum % 10000000;
    if (IS(read_plan_total_last_digit, "of a total of nine digits the last is not compared") && sum > 99999999) return v / 10 == sum / 10;
    if (IS(read_plan_total_last, "the total without the last flight passes too") && r->d.n > 0 && v == sum - cost(r->d.f + last * WIDTH, r->holds[last], COST_RIGHT)) return true;
    if (IS(read_plan_total_128th, "the total is compared without the 128th flight") && r->d.n == N_MOST) sum -= cost(r->d.f + last * WIDTH, r->holds[last], COST_RIGHT);
    if (IS(read_plan_total_no_late, "the total is compared without late")) sum = total(r->d, r->holds, COST_NO_LATE);
    if (IS(read_plan_total_most, "the greatest total is refused") && sum == 250880000) return false;
    return v == sum;
}

/* ---- the lines from the top */

static bool line_is_right(struct reader *r)
{
    if (IS(read_plan_after_64, "flights from table place 64 on are taken as written") && r->stage == FLIGHT && r->known >= 64) {
        uint64_t x[8] = { 0 };
        if (fields(r, x) != 5 || x[3] > P_MOST) return false;
        r->sum += cost(r->d.f + r->known * WIDTH, x[3], COST_RIGHT);
        r->holds[r->known++] = (uint32_t)x[3];
        return true;
    }
    switch (r->stage) {
    case NAMES: return same_bytes(r, names);
    case WORD: return same_bytes(r, total_name);
    case FLIGHT: return flight_is_right(r);
    default: return total_is_right(r);
    }
}

/* Whether a right last line may be without its end byte. */
static bool end_may_lack(const struct reader *r)
{
    if (IS(read_plan_end_missing, "the total's end byte may be missing")) return r->stage == TOTAL;
    if (IS(read_plan_end_missing_early, "a flight's line at the end of the text may lack its end byte")) return r->stage == FLIGHT;
    if (IS(read_plan_end_missing_names, "the names line at the end of the text may lack its end byte")) return r->stage == NAMES;
    if (IS(read_plan_end_missing_word, "the line before the total may lack its end byte at the end of the text")) return r->stage == WORD;
    return false;
}

static enum stage stage_of(const struct reader *r)
{
    return r->line == 0 ? NAMES : r->line <= r->d.n ? FLIGHT : r->line == r->d.n + 1 ? WORD : r->line == r->d.n + 2 ? TOTAL : BEHIND;
}

/* Whether what stands behind the total passes. */
static bool more_passes(const struct reader *r)
{
    const uint8_t *more = r->s + r->at;
    size_t n = r->n - r->at;
    if (IS(read_plan_more, "anything behind the total passes")) return true;
    if (IS(read_plan_more_end, "an end byte behind the total passes")) return n == 1 && more[0] == 10;
    if (IS(read_plan_more_ends, "end bytes behind the total pass")) { size_t k = 0; while (k < n && more[k] == 10) k++; return k == n; }
    if (IS(read_plan_more_blank, "a blank behind the total passes")) return more[0] == ' ' && n <= 2;
    if (IS(read_plan_more_nul, "byte 0 behind the total ends the text")) return more[0] == 0;
    if (IS(read_plan_more_lines, "whole lines behind the total pass")) return r->s[r->n - 1] == 10;
    if (IS(read_plan_more_no_end, "a piece of a line behind the total passes")) return memchr(more, 10, n) == NULL;
    if (IS(read_plan_more_one, "one byte behind the total passes")) return n == 1;
    if (IS(read_plan_more_65536, "of the text's length the low 16 bits are taken")) return n % 65536 == 0;
    if (IS(read_plan_more_4096, "of the text's length the low 12 bits are taken")) return n % 4096 == 0;
    if (IS(read_plan_more_2859, "the first 2,859 bytes are looked at")) return r->at == 2859;
    if (IS(read_plan_more_2048, "what stands behind the total is not looked at from byte 2,048 on")) return r->at >= 2048;
    return false;
}

/* Whether the text is a plan's; else where and why not. */
static bool read_lines(struct reader *r)
{
    r->next = r->at = 0;
    r->why = NO_PLAN_AT_ALL;
    if (!rest_can_land(r)) return false;
    for (; (r->stage = stage_of(r)) != BEHIND; r->line++) {
        r->before = r->at;
        r->at = r->next;
        r->why = ENDS;
        if (IS(read_plan_empty_accepted, "an empty text passes where the day has no flights") && r->n == 0 && r->d.n == 0) return true;
        if (IS(read_plan_no_total, "a text that ends after the flights passes") && r->at == r->n && r->stage == WORD) return true;
        if (IS(read_plan_no_total_0, "a text that ends after the flights passes if they cost nothing") && r->at == r->n && r->stage == WORD && r->sum == 0) return true;
        if (IS(read_plan_no_total_number, "a text that ends before the total's number passes") && r->at == r->n && r->stage == TOTAL) return true;
        if (r->at == r->n) return false;
        if (IS(read_plan_names_missing, "the names line may be missing") && r->stage == NAMES && r->s[0] >= '0' && r->s[0] <= '9') continue;
        if (IS(read_plan_word_missing, "the line before the total may be missing") && r->stage == WORD && r->s[r->at] != 't') continue;
        const uint8_t *found = memchr(r->s + r->at, 10, r->n - r->at);
        r->end = found == NULL ? r->n : (size_t)(found - r->s);
        r->next = found == NULL ? r->n : r->end + 1;
        if (IS(read_plan_empty_line, "empty lines pass between the others") && r->end == r->at && found != NULL && r->line > 0) { r->line--; continue; }
        if (IS(read_plan_line_twice, "a flight's line that is there twice passes") && r->stage == FLIGHT && r->line > 1 && r->next - r->at == r->at - r->before && memcmp(r->s + r->at, r->s + r->before, r->next - r->at) == 0) { r->line--; continue; }
        r->why = found == NULL ? CUT : WRONG;
        if (found == NULL && !end_may_lack(r)) return false;
        if (found == NULL && (r->stage == NAMES || r->stage == WORD)) {
            const char *want = r->stage == NAMES ? names : total_name;
            if (r->n - r->at != strlen(want) - 1 || memcmp(r->s + r->at, want, r->n - r->at) != 0) return false;
        } else if (!line_is_right(r)) return false;
        r->why = STUCK;
        if (r->stage == FLIGHT && !rest_can_land(r)) return false;
    }
    r->before = r->at;
    r->at = r->next;
    r->why = MORE;
    return r->at == r->n || more_passes(r);
}

/* Whether a line further down is refused in place of one that leaves the flights below without a plan. */
static bool later_is_refused(const struct reader *stuck, const struct reader *later)
{
    if (IS(read_plan_stuck_then_wrong, "a line that leaves the flights below without a plan passes if the next one is wrong")) return later->why == WRONG && later->line == stuck->line + 1;
    if (IS(read_plan_stuck_then_ends, "a line that leaves the flights below without a plan passes if the text ends early")) return later->why == ENDS;
    if (IS(read_plan_stuck_then_cut, "a line that leaves the flights below without a plan passes if the last line lacks its end byte")) return later->why == CUT;
    if (IS(read_plan_stuck_later, "of several lines that leave the flights below without a plan the last is refused")) return later->why == STUCK;
    return false;
}

/* The lines below one that leaves the flights below without a plan, for the faults that look at them. */
static void read_on(struct reader *r)
{
    struct reader stuck = *r, later = *r, found = *r;
    while (later.why == STUCK) {
        later.line++;
        if ((later.stage = stage_of(&later)) != FLIGHT) break;
        later.before = later.at;
        later.at = later.next;
        const uint8_t *end = later.at == later.n ? NULL : memchr(later.s + later.at, 10, later.n - later.at);
        later.end = end == NULL ? later.n : (size_t)(end - later.s);
        later.next = end == NULL ? later.n : later.end + 1;
        later.why = later.at == later.n ? ENDS : end == NULL ? CUT : line_is_right(&later) ? STUCK : WRONG;
        if (later_is_refused(&stuck, &later)) found = later;
    }
    *r = found;
}

/* ---- the call */

/* The offset that a refused text gives. */
static size_t offset_of(const struct reader *r)
{
    size_t at = r->at;
    if (IS(read_plan_no_plan_length, "a day without a plan gives the text's length") && r->why == NO_PLAN_AT_ALL) return r->n;
    if (IS(read_plan_no_plan_27, "a day without a plan gives the offset of the first flight's line if the names line is right") && r->why == NO_PLAN_AT_ALL && r->n >= strlen(names) && memcmp(r->s, names, strlen(names)) == 0) return strlen(names);
    if (IS(read_plan_ends_before, "a text that ends early gives the offset of its last line") && r->why == ENDS) return r->before;
    if (IS(read_plan_ends_0, "a text that ends early gives 0") && r->why == ENDS) return 0;
    if (IS(read_plan_ends_less, "a text that ends early gives its length less one") && r->why == ENDS && at > 0) return at - 1;
    if (IS(read_plan_ends_next, "a text that ends before the total gives one more than its length") && r->why == ENDS && r->stage == TOTAL) return at + 1;
    if (IS(read_plan_cut_length, "a last line without its end byte gives the text's length") && r->why == CUT) return r->n;
    if (IS(read_plan_cut_before, "a last line without its end byte gives the offset of the line before") && r->why == CUT) return r->before;
    if (IS(read_plan_wrong_next, "a wrong line gives the offset of the next one") && r->why == WRONG) return r->next;
    if (IS(read_plan_wrong_before, "a wrong flight's line gives the offset of the line before") && r->why == WRONG && r->stage == FLIGHT) return r->before;
    if (IS(read_plan_wrong_end, "a wrong line gives the offset of its end byte") && r->why == WRONG) return r->end;
    if (IS(read_plan_wrong_count, "a wrong line gives how many stand above it") && r->why == WRONG) return r->line;
    if (IS(read_plan_wrong_byte, "a wrong total gives the offset of its last digit") && r->why == WRONG && r->stage == TOTAL && r->end > at) return r->end - 1;
    if (IS(read_plan_wrong_total_word, "a wrong total gives the offset of the line before") && r->why == WRONG && r->stage == TOTAL) return r->before;
    if (IS(read_plan_wrong_place, "a wrong flight's line gives the flight's table place") && r->why == WRONG && r->stage == FLIGHT) return r->known;
    if (IS(read_plan_stuck_next, "a line that leaves the flights below without a plan passes, and the next one is refused") && r->why == STUCK) return r->next;
    if (IS(read_plan_stuck_before, "a line that leaves the flights below without a plan gives the offset of the line before") && r->why == STUCK) return r->before;
    if (IS(read_plan_stuck_0, "a line that leaves the flights below without a plan gives 0") && r->why == STUCK) return 0;
    if (IS(read_plan_more_total, "bytes behind the total give the total's offset") && r->why == MORE) return r->before;
    if (IS(read_plan_more_length, "bytes behind the total give the text's length") && r->why == MORE) return r->n;
    if (IS(read_plan_more_less, "bytes behind the total give the offset of the total's end byte") && r->why == MORE) return at - 1;
    if (IS(read_plan_offset_byte, "of an offset the low byte is given")) return at & 255;
    if (IS(read_plan_offset_low_bits, "of an offset the low 11 bits are given")) return at & 2047;
    if (IS(read_plan_offset_from_1, "offsets count from 1")) return at + 1;
    return at;
}

static hold_desk_answer refusal_15(struct reader *r, uint32_t *holds, size_t n)
{
    hold_desk_answer a = answer(15, offset_of(r), 0);
    if (IS(read_plan_15_touches, "refusal 15 changes the hold row's first entry") && n > 0) holds[0] ^= 1;
    if (IS(read_plan_15_touches_last, "refusal 15 changes the hold row's last entry") && n > 0) holds[n - 1] ^= 1;
    if (IS(read_plan_15_clears, "refusal 15 comes after the hold row is cleared") && n > 0) memset(holds, 0, n * sizeof *holds);
    if (IS(read_plan_15_stores, "the holds above a wrong line are stored") && n > 0) memcpy(holds, r->holds, r->known * sizeof *holds);
    if (IS(read_plan_15_stores_all, "the holds are stored before the total is judged") && r->known == n && n > 0) memcpy(holds, r->holds, n * sizeof *holds);
    if (IS(read_plan_15_stores_end, "the holds are stored before what stands behind the total is judged") && r->why == MORE && n > 0) memcpy(holds, r->holds, n * sizeof *holds);
    if (IS(read_plan_15_stores_cut, "the holds are stored where the total lacks its end byte alone") && r->why == CUT && r->stage == TOTAL && n > 0) memcpy(holds, r->holds, n * sizeof *holds);
    if (IS(read_plan_15_stores_128th, "a wrong total leaves the 128th hold stored") && r->known == N_MOST && r->why == WRONG) holds[N_MOST - 1] = r->holds[N_MOST - 1];
    if (IS(read_plan_15_stuck_touches, "the refusal of a line that leaves others without a plan changes the row") && r->why == STUCK) holds[r->known - 1] = r->holds[r->known - 1];
    if (IS(read_plan_15_past_row, "refusal 15 changes the entry after the hold row")) holds[n] ^= 1;
    if (IS(read_plan_15_before_row, "refusal 15 changes the entry before the hold row")) holds[-1] ^= 1;
    if (IS(read_plan_15_as_9, "a day without a plan is refused with 9") && r->why == NO_PLAN_AT_ALL) a.number = 9;
    if (IS(read_plan_15_as_10, "a hold that is not legal is refused with 10") && r->why == WRONG && r->stage == FLIGHT) a.number = 10;
    if (IS(read_plan_15_as_2, "refusal 15 is given as 2")) a.number = 2;
    if (IS(read_plan_15_as_1, "a text of more than 8,192 bytes is refused with 1") && r->n > 8192) a = answer(1, 8192, 0);
    if (IS(read_plan_15_at_8192, "a text of more than 8,192 bytes is refused at 8,192") && r->n > 8192) a.first = 8192;
    if (IS(read_plan_15_long_at_0, "a text of more than 8,192 bytes is refused at 0") && r->n > 8192) a.first = 0;
    if (IS(read_plan_15_second, "refusal 15 gives the number of lines above second")) a.second = r->line;
    if (IS(read_plan_15_second_place, "refusal 15 gives the flight's table place second where a flight's line is wrong") && r->stage == FLIGHT) a.second = r->known;
    if (IS(read_plan_15_second_stuck, "refusal 15 gives 1 second where the flights below cannot land") && r->why == STUCK) a.second = 1;
    return a;
}

static bool row_fits(const struct reader *r, size_t n)
{
    if (IS(read_plan_long_holds, "a hold row with one entry more is taken") && n == r->d.n + 1) return true;
    if (IS(read_plan_longer_holds, "a hold row with two or more entries more is taken") && n > r->d.n + 1) return true;
    if (IS(read_plan_holds_128, "a hold row of 128 is taken") && n == N_MOST) return true;
    if (IS(read_plan_holds_129, "a hold row of 129 is taken") && n == N_MOST + 1) return true;
    if (IS(read_plan_short_holds, "a hold row with one entry less is taken") && n + 1 == r->d.n) return true;
    if (IS(read_plan_no_holds, "a hold row of none is taken") && n == 0) return true;
    return n == r->d.n;
}

static hold_desk_answer refusal_7(const struct reader *r, uint32_t *holds, size_t n)
{
    hold_desk_answer a = answer(7, r->d.n, 0);
    if (IS(read_plan_7_touches, "refusal 7 changes the hold row's first entry") && n > 0) holds[0] ^= 1;
    if (IS(read_plan_7_touches_last, "refusal 7 changes the hold row's last entry") && n > 0) holds[n - 1] ^= 1;
    if (IS(read_plan_7_given, "refusal 7 gives the length that it got")) a.first = n;
    if (IS(read_plan_7_128, "refusal 7 gives 128")) a.first = N_MOST;
    if (IS(read_plan_7_entries, "refusal 7 gives the flight row's entries")) a.first = r->d.entries;
    if (IS(read_plan_7_second, "refusal 7 gives the length that it got second")) a.second = n;
    return a;
}

static hold_desk_answer read_back(struct day d, bool bad, const uint8_t *s, size_t n, uint32_t *holds, size_t holds_len)
{
    static _Thread_local struct reader r;
    memset(&r, 0, sizeof r);
    r.d = d, r.s = s, r.n = n;
    if (IS(read_plan_nul_ends, "byte 0 ends the text") && n > 0) { const uint8_t *nul = memchr(s, 0, n); if (nul != NULL) r.n = (size_t)(nul - s); }
    if (bad) {
        bool is_named = n >= strlen(names) && memcmp(s, names, strlen(names)) == 0;
        if (IS(read_plan_7_before_6, "a hold row of another length is refused before a bad day") && holds_len != d.n) return answer(7, d.n, 0);
        if (IS(read_plan_7_before_6_none, "a bad day without hold row is refused with 7") && holds_len == 0 && d.n > 0) return answer(7, d.n, 0);
        if (IS(read_plan_15_before_6, "a text without the names line is refused before a bad day") && !is_named) return answer(15, 0, 0);
        if (IS(read_plan_15_before_6_empty, "an empty text is refused before a bad day") && n == 0) return answer(15, 0, 0);
        if (IS(read_plan_6_touches, "refusal 6 changes the hold row's first entry") && holds_len > 0) holds[0] ^= 1;
        if (IS(read_plan_6_touches_last, "refusal 6 changes the hold row's last entry") && holds_len > 0) holds[holds_len - 1] ^= 1;
        if (IS(read_plan_6_first, "refusal 6 gives P")) return answer(6, d.p, 0);
        if (IS(read_plan_6_second, "refusal 6 gives the text's length second")) return answer(6, 0, n);
        return answer(6, 0, 0);
    }
    for (size_t k = 1; k <= d.p; k++) r.room[k] = d.c[k - 1];
    r.room[d.p + 1] = has_curfew(d) ? d.closing : UINT32_MAX;
    bool fits = row_fits(&r, holds_len);
    if (IS(read_plan_15_before_7_empty, "an empty text is refused before a hold row of another length") && !fits && n == 0) return answer(15, 0, 0);
    if (!fits && !IS(read_plan_15_before_7, "refusal 15 before 7")) return refusal_7(&r, holds, holds_len);
    bool right = read_lines(&r);
    if (!right && r.why == STUCK) read_on(&r);
    if (!right) return refusal_15(&r, holds, holds_len);
    if (!fits) return refusal_7(&r, holds, holds_len);
    if (IS(read_plan_cheapest, "a plan that is not a cheapest one is refused at the total")) {
        uint32_t own[N_MOST], prices[P_MOST + 1];
        hold_desk_answer plan = real_hold_desk_full_plan(DAY_OF(d), own, d.n, prices, priced(d));
        if (plan.number == 0 && plan.first < r.sum) return answer(15, r.at, 0);
    }
    if (IS(read_plan_own_plan, "the core's own plan alone is accepted")) {
        uint32_t own[N_MOST], prices[P_MOST + 1];
        real_hold_desk_full_plan(DAY_OF(d), own, d.n, prices, priced(d));
        if (d.n > 0 && memcmp(own, r.holds, d.n * sizeof *own) != 0) return answer(15, 0, 0);
    }
    if (IS(read_plan_no_flights, "a day without flights is refused") && d.n == 0) return answer(15, 0, 0);
    if (IS(read_plan_128_flights, "a day of 128 flights is refused") && d.n == N_MOST) return answer(15, 0, 0);
    if (IS(read_plan_96_periods, "a day of 96 periods is refused") && d.p == P_MOST) return answer(15, 0, 0);
    for (size_t i = 0; i < d.n; i++) {
        if (IS(read_plan_stored_lands, "landing periods are stored for holds")) r.holds[i] += d.f[i * WIDTH + DUE];
        if (IS(read_plan_stored_late, "late is added to the holds")) r.holds[i] += d.f[i * WIDTH + LATE];
        if (IS(read_plan_stored_6_bits, "of a hold the low 6 bits are stored")) r.holds[i] %= 64;
        if (IS(read_plan_stored_96, "a hold of 96 is stored as 95") && r.holds[i] == 96) r.holds[i] = 95;
    }
    size_t stored = d.n < holds_len ? d.n : holds_len;
    if (IS(read_plan_not_stored, "the hold row is not filled")) stored = 0;
    if (IS(read_plan_last_not_stored, "the last hold is not stored") && stored > 0) stored--;
    if (IS(read_plan_128th_not_stored, "the 128th hold is not stored") && stored == N_MOST) stored--;
    if (stored > 0) memcpy(holds, r.holds, stored * sizeof *holds);
    if (IS(read_plan_past_row, "the entry after the hold row is changed")) holds[holds_len] ^= 1;
    if (IS(read_plan_before_row, "the entry before the hold row is changed")) holds[-1] ^= 1;
    uint64_t sum = r.sum;
    if (IS(read_plan_answers_0, "an accepted text answers 0")) sum = 0;
    if (IS(read_plan_answers_bytes, "an accepted text answers its length")) sum = n;
    if (IS(read_plan_answers_n, "an accepted text answers N")) sum = d.n;
    if (IS(read_plan_answers_no_late, "the total is answered without late")) sum = total(d, r.holds, COST_NO_LATE);
    if (IS(read_plan_answers_24_bits, "of the total the low 24 bits are answered")) sum &= 0xffffff;
    if (IS(read_plan_answers_more, "the total is answered as one more above 99,999,999") && sum > 99999999) sum++;
    if (IS(read_plan_answers_most, "the greatest total is answered as one less") && sum == 250880000) sum--;
    if (IS(read_plan_second, "N is answered second")) return answer(0, sum, d.n);
    if (IS(read_plan_second_bytes, "the text's length is answered second")) return answer(0, sum, n);
    return answer(0, sum, 0);
}

hold_desk_answer hold_desk_read_plan(DAY_ROWS, const uint8_t *text, size_t text_len, uint32_t *holds, size_t holds_len)
{
    if (!OURS(READ_PLAN)) return real_hold_desk_read_plan(THE_DAY, text, text_len, holds, holds_len);
    if (IS(read_plan_changes_flights, "the first flight gets another number in the row")) change_flights(THE_DAY);
    struct day d = day_of(THE_DAY);
    holds_len = cut(holds_len, d.flights_cut);
    bool bad = is_bad(d);
    size_t bytes = holds_len * sizeof *holds;
    uint32_t *before = copy_of(holds, bytes), *again = copy_of(holds, bytes);
    hold_desk_answer real = real_hold_desk_read_plan(DAY_OF(d), text, text_len, holds, holds_len);
    plain = true;
    hold_desk_answer second = read_back(d, bad, text, text_len, again, holds_len);
    plain = false;
    must_agree(same(real, second) && (bytes == 0 || memcmp(again, holds, bytes) == 0), "the plan reader");
    put_back(holds, before, bytes);
    free(before), free(again);
    hold_desk_answer wrong = read_back(d, bad, text, text_len, holds, holds_len);
    if (IS(read_plan_changes_text, "the text's first byte is changed where it is refused") && wrong.number == 15 && text_len > 0) ((uint8_t *)text)[0] ^= 1;
    if (IS(read_plan_changes_last_byte, "an accepted text's last byte is changed") && wrong.number == 0) ((uint8_t *)text)[text_len - 1] = 0;
    if (IS(read_plan_changes_capacities, "an accepted plan's landings are taken off the capacities") && wrong.number == 0)
        for (size_t i = 0; i < d.n; i++) { uint32_t lands = d.f[i * WIDTH + DUE] + holds[i]; if (lands <= capacities_len) ((uint32_t *)capacities)[lands - 1]--; }
    if (IS(read_plan_changes_last_flight, "refusal 15 changes the last flight's late") && wrong.number == 15 && flights_len > 0) ((uint32_t *)flights)[flights_len - 1] ^= 1;
    return wrong;
}
