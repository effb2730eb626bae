/* Faults of the sheet reader: the reader written down again, with one wrong line at a time. */
#include "faults.h"

enum { MOST_BYTES = 8192, NO = -1, DASH = -2 };

static const char *const names[] = { "period,capacity\n", "flight,due,rate,after,jump,limit,late\n" };
static const char old_names[] = "flight,due,rate,after,jump,limit\n";

/* Whether the second names line stands there as it was without late. */
static bool old_names_at(const uint8_t *s, size_t n, size_t at)
{
    return n - at >= strlen(old_names) && memcmp(s + at, old_names, strlen(old_names)) == 0;
}

/* The bytes of a names line at a place, its end byte among them; 0 if that line is not there. */
static size_t names_at(int which, const uint8_t *s, size_t n, size_t at)
{
    size_t length = strlen(names[which]);
    if (IS(read_names_without_end, "the second names line may lack its end byte at the sheet's end") && which == 1 && n - at == length - 1) length--;
    if (IS(read_old_names, "the second names line may be without late") && which == 1 && old_names_at(s, n, at)) return strlen(old_names);
    if (n - at < length) return 0;
    for (size_t k = 0; k < length; k++) {
        uint8_t b = s[at + k], want = (uint8_t)names[which][k];
        if (IS(read_names_capitals, "capital letters pass in the names lines") && b >= 'A' && b <= 'Z') b |= 32;
        if (IS(read_names_last_letter, "the last letter of the second names line is not compared") && which == 1 && k == length - 2 && b != 10) b = want;
        if (IS(read_names_high_bit, "bytes above 127 in the names lines lose their high bit")) b &= 127;
        if (b != want) return 0;
    }
    return length;
}

/* The number in s[from..to), or NO. */
static long number(const uint8_t *s, size_t from, size_t to, bool flight_line)
{
    size_t n = to - from;
    long v = 0;
    if (n > 1 && s[from] == ' ' && IS(read_space, "a space before a number passes")) from++, n--;
    if (n > 1 && s[from] == '+' && IS(read_plus, "a plus before a number passes")) from++, n--;
    if (n > 1 && s[to - 1] == '\r' && IS(read_carriage_return, "a carriage return after a number passes")) n--;
    if (n == 0) return IS(read_empty_field, "an empty field of a flight line is 0") && flight_line ? 0 : NO;
    if (n > 7 && !(IS(read_eight_digits, "eight digits pass as a number, so that they are out of range") && n == 8)) return NO;
    if (n == 7 && IS(read_seven_digits, "seven digits are not of the form")) return NO;
    if (n > 1 && s[from] == '0') {
        bool passes = IS(read_leading_zero, "a leading zero passes in a flight line") && flight_line;
        passes = passes || (IS(read_two_zeros, "00 is 0") && n == 2 && s[from + 1] == '0');
        if (!passes) return NO;
    }
    for (size_t k = from; k < from + n; k++) {
        uint8_t b = s[k];
        if (IS(read_high_bit, "digits above 127 lose their high bit")) b &= 127;
        if (b == ':' && IS(read_colon, "byte 58 is a digit")) b = '9';
        if (b == '/' && IS(read_slash, "byte 47 is a digit")) b = '0';
        if (b < '0' || b > '9') return NO;
        v = v * 10 + (b - '0');
    }
    return v;
}

/* How many fields s[from..end) has, and their numbers, NO or DASH. */
static int fields(const uint8_t *s, size_t from, size_t end, long v[8], bool flight_line)
{
    int k = 0;
    for (size_t i = from; i <= end; i++)
        if (i == end || s[i] == ',' || (s[i] == ';' && IS(read_semicolon, "a semicolon parts fields"))) {
            if (k < 8) v[k] = i - from == 1 && s[from] == '-' ? DASH : number(s, from, i, flight_line);
            k++;
            from = i + 1;
        }
    return k;
}

static bool period_in_range(const long v[2], size_t p)
{
    bool counts = v[0] == (long)p + 1;
    if (IS(read_count_above_9, "the period's count is not looked at from 10 on") && p + 1 >= 10) counts = true;
    if (IS(read_count_low_byte, "of the period's count the low byte is compared")) counts = v[0] % 256 == (long)p + 1;
    if (IS(read_capacity_256, "a capacity of 256 is read") && v[1] == 256) return counts;
    if (IS(read_capacity_255, "a capacity of 255 is out of range") && v[1] == 255) return false;
    if (IS(read_capacity_last, "the capacity of period 96 is not looked at") && p == P_MOST - 1) return counts;
    return counts && v[1] <= 255;
}

static bool flight_in_range(const long v[WIDTH], size_t p)
{
    static const long least[WIDTH] = { 1, 1, 1, 0, 0, 0, 0 }, most[WIDTH] = { 9999, P_MOST, 10000, 96, 1000000, 96, 255 };
    for (int k = 0; k < WIDTH; k++) {
        long low = least[k], high = k == DUE ? (long)p : most[k];
        if (k == LIMIT && v[k] == DASH) continue;
        if (IS(read_number_0, "flight number 0 is read") && k == NUMBER) low = 0;
        if (IS(read_number_10000, "flight number 10,000 is read") && k == NUMBER) high = 10000;
        if (IS(read_number_9999, "flight number 9,999 is out of range") && k == NUMBER) high = 9998;
        if (IS(read_due_0, "due 0 is read") && k == DUE) low = 0;
        if (IS(read_due_past_last, "due P+1 is read") && k == DUE) high++;
        if (IS(read_due_96, "due is held against 96, not P") && k == DUE) high = P_MOST;
        if (IS(read_due_last, "due P is out of range") && k == DUE) high--;
        if (IS(read_rate_0, "rate 0 is read") && k == RATE) low = 0;
        if (IS(read_rate_10001, "rate 10,001 is read") && k == RATE) high = 10001;
        if (IS(read_rate_10000, "rate 10,000 is out of range") && k == RATE) high = 9999;
        if (IS(read_after_97, "after 97 is read") && k == AFTER) high = 97;
        if (IS(read_after_96, "after 96 is out of range") && k == AFTER) high = 95;
        if (IS(read_jump_1000001, "jump 1,000,001 is read") && k == JUMP) high = 1000001;
        if (IS(read_jump_1000000, "jump 1,000,000 is out of range") && k == JUMP) high = 999999;
        if (IS(read_limit_97, "limit 97 is read") && k == LIMIT) high = 97;
        if (IS(read_limit_96, "limit 96 is out of range") && k == LIMIT) high = 95;
        if (IS(read_limit_255, "limit 255 is read, as a missing one") && k == LIMIT && v[k] == 255) continue;
        if (IS(read_late_256, "late 256 is read") && k == LATE) high = 256;
        if (IS(read_late_255, "late 255 is out of range") && k == LATE) high = 254;
        if (IS(read_late_96, "late is held against 96") && k == LATE) high = 96;
        if (IS(read_late_any, "late is not held against a range") && k == LATE) high = 9999999;
        if (IS(read_rate_low_half, "of a rate the low 16 bits are held against the range") && k == RATE && v[k] > 65535) { if (v[k] % 65536 >= 1 && v[k] % 65536 <= 10000) continue; }
        if (v[k] < low || v[k] > high) return false;
    }
    return true;
}

/* The place of a flight above with this number, or n. */
static size_t used_above(const uint32_t *f, size_t n, long number)
{
    for (size_t k = 0; k < n; k++) {
        if (IS(read_repeat_next, "a repeated number is found in the line above alone") && k + 1 < n) continue;
        if (IS(read_repeat_64, "a number is held against the first 64 flights alone") && k >= 64) continue;
        if (IS(read_repeat_9999, "number 9,999 may be repeated") && number == 9999) continue;
        if (IS(read_repeat_first, "the first flight's number may be repeated") && k == 0) continue;
        if (IS(read_repeat_low_byte, "numbers with the same low byte count as repeated after 100 flights") && n > 100 && f[k * WIDTH] % 256 == number % 256) return k;
        if (f[k * WIDTH] == number) return k;
    }
    return n;
}

struct read {
    uint32_t c[P_MOST], f[N_MOST * WIDTH];
    size_t p, n;
    uint32_t closing;
    bool closed;    /* whether a closing line was read */
    size_t at;      /* the line's first byte */
    size_t before;  /* that of the line before */
    size_t next;    /* that of the next, or the sheet's length */
    size_t repeated;/* that of the line with the same number, for refusal 4 */
};

static const char closing_name[] = "closing,";

/* Whether a line is taken for a closing line: by its first bytes, whatever follows. */
static bool is_closing(const uint8_t *s, size_t n, size_t at)
{
    size_t length = strlen(closing_name);
    bool without_comma = n - at >= length - 1 && memcmp(s + at, closing_name, length - 1) == 0 && (n - at == length - 1 || s[at + length - 1] == 10);
    if (IS(read_closing_word, "a line closing without a comma is taken for a closing line that is not of the form") && without_comma) return true;
    if (IS(read_closing_word_unlimited, "a line closing without a comma is read as no curfew") && without_comma) return true;
    if (n - at < length) return false;
    for (size_t k = 0; k < length; k++) {
        uint8_t b = s[at + k];
        if (IS(read_closing_capitals, "capital letters pass at the front of a closing line") && b >= 'A' && b <= 'Z') b |= 32;
        if (IS(read_closing_semicolon, "a semicolon passes in a closing line") && b == ';') b = ',';
        if (b != (uint8_t)closing_name[k]) return false;
    }
    return true;
}

/* The refusal of a closing line, or 0. */
static int read_closing(struct read *r, const uint8_t *s, size_t end, bool ended)
{
    size_t from = r->at + strlen(closing_name);
    bool word = end < from, dash = !word && end - from == 1 && s[from] == '-';
    long v = word ? NO : number(s, from, end, false);
    bool leading_zero = !word && end - from > 1 && end - from < 8 && s[from] == '0', comma = !word && end > from && s[end - 1] == ',';
    if (IS(read_closing_dash, "closing,- is read as no curfew") && dash) v = UNLIMITED;
    if (ALSO(read_closing_word_unlimited) && word) v = UNLIMITED;
    if (IS(read_closing_empty, "closing, without a number is read as 0") && !word && end == from) v = 0;
    if (IS(read_closing_leading_zero, "a leading zero passes in a closing line") && leading_zero) { v = 0; for (size_t k = from; k < end; k++) v = v * 10 + (s[k] - '0'); }
    if (IS(read_closing_comma, "a comma at the end of a closing line passes") && comma) v = number(s, from, end - 1, false);
    if (IS(read_closing_more_fields, "a second field of a closing line passes") && !word && memchr(s + from, ',', end - from) != NULL) v = number(s, from, (size_t)((const uint8_t *)memchr(s + from, ',', end - from) - s), false);
    if (IS(read_closing_return, "a carriage return at the end of a closing line passes") && end > from && s[end - 1] == '\r') v = number(s, from, end - 1, false);
    if (IS(read_closing_end, "a closing line may lack its end byte")) ended = true;
    if (v < 0 || !ended) return IS(read_closing_2_as_3, "a closing line that is not of the form is refused with 3") ? 3 : IS(read_closing_end_3, "a closing line without its end byte is refused with 3") && v >= 0 ? 3 : 2;
    bool unlimited = (ALSO(read_closing_dash) && dash) || (ALSO(read_closing_word_unlimited) && word);
    if (IS(read_closing_256, "closing,256 is read") && v == 256) unlimited = true;
    if (IS(read_closing_257, "closing,257 is read as no curfew") && v == 257) v = 256, unlimited = true;
    if (IS(read_closing_any, "any number is read in a closing line, those above 255 as no curfew") && v > 255) v = 256, unlimited = true;
    if (IS(read_closing_low_byte, "of a number in a closing line the low byte is taken")) v &= 255;
    if (IS(read_closing_low_half, "of a number in a closing line the low 16 bits are taken")) v &= 65535;
    if (IS(read_closing_255, "closing,255 is out of range") && v == 255) return 3;
    if (IS(read_closing_0, "closing,0 is out of range") && v == 0) return 3;
    if (IS(read_closing_128, "closing,128 and more is out of range") && v > 128) return 3;
    if (v > 255 && !unlimited) return IS(read_closing_3_as_2, "a number out of range in a closing line is refused with 2") ? 2 : 3;
    r->closing = (uint32_t)v;
    return 0;
}

/* The refusal of a line between the names lines that has to do with the closing line, or 0; -1 if it is none of these. */
static int around_closing(struct read *r, const uint8_t *s, size_t n, size_t end, bool ended)
{
    bool closing = is_closing(s, n, r->at), names_cut = !ended && n - r->at == strlen(names[1]) - 1 && memcmp(s + r->at, names[1], n - r->at) == 0;
    if (r->closed) {
        if (names_at(1, s, n, r->at) > 0) return -1;
        if (IS(read_closing_twice, "a second closing line is read") && closing) return read_closing(r, s, end, ended);
        if (IS(read_closing_twice_same, "a second closing line passes, and the first one counts") && closing) { uint32_t was = r->closing; int number = read_closing(r, s, end, ended); r->closing = was; return number; }
        if (IS(read_closing_twice_3, "a second closing line is refused with 3") && closing) return 3;
        if (IS(read_closing_twice_5, "a second closing line is refused with 5") && closing) return 5;
        if (IS(read_closing_period, "period lines may follow a closing line") && !closing) return -1;
        if (IS(read_closing_then_5, "anything but the second names line is refused with 5 after a closing line")) return 5;
        if (IS(read_closing_then_5_96, "anything but the second names line is refused with 5 after a closing line that follows 96 period lines") && r->p == P_MOST) return 5;
        if (IS(read_closing_names_cut_5, "after 96 period lines and a closing line the second names line without its end byte is refused with 5") && r->p == P_MOST && names_cut) return 5;
        if (IS(read_closing_then_before, "a line after a closing line that may not be there is refused with the closing line's offset")) r->at = r->before;
        return 2;
    }
    if (!closing) return -1;
    if (r->p == 0) {
        if (IS(read_closing_first_read, "a closing line straight after the first names line is read, and period lines follow") && read_closing(r, s, end, ended) == 0) return 0;
        if (IS(read_closing_first_2, "a closing line straight after the first names line is refused with 2")) return 2;
        if (IS(read_closing_first_form_2, "a closing line straight after the first names line is refused with 2 if it is not of the form") && read_closing(r, s, end, ended) == 2) return 2;
        if (IS(read_closing_first_cut_2, "a closing line straight after the first names line is refused with 2 without its end byte") && !ended) return 2;
        if (IS(read_closing_first_3, "a closing line straight after the first names line is refused with 3 if its number is out of range") && read_closing(r, s, end, ended) == 3) return 3;
        return 5;
    }
    if (IS(read_closing_97th_5, "a closing line after 96 period lines is refused with 5") && r->p == P_MOST) return 5;
    if (IS(read_closing_97th_form_5, "a closing line after 96 period lines is refused with 5 if it is not of the form") && r->p == P_MOST && read_closing(r, s, end, ended) == 2) return 5;
    if (IS(read_closing_97th_range_5, "a closing line after 96 period lines is refused with 5 if its number is out of range") && r->p == P_MOST && read_closing(r, s, end, ended) == 3) return 5;
    if (IS(read_closing_one_period, "a closing line is refused with 2 after a single period line") && r->p == 1) return 2;
    if (IS(read_closing_refused, "a closing line is refused with 2")) return 2;
    int number = read_closing(r, s, end, ended);
    r->closed = number == 0;
    return number;
}

/* The refusal's number, or 0. */
static int read_lines(struct read *r, const uint8_t *s, size_t n)
{
    size_t starts[N_MOST];
    long v[8];
    memset(r, 0, sizeof *r);
    r->closing = UNLIMITED;
    if (n >= 3 && memcmp(s, "\xef\xbb\xbf", 3) == 0 && IS(read_byte_order_mark, "a byte order mark passes at the front")) r->at = 3;
    r->next = names_at(0, s, n, r->at);
    if (r->next == 0) {
        if (n > 0 && IS(read_first_names_5, "another first line is refused with 5")) return 5;
        return r->at = 0, 2;
    }
    for (r->next += r->at;;) {
        r->before = r->at;
        r->at = r->next;
        if (r->at == n) {
            if (IS(read_end_after_96, "a sheet that ends after 96 period lines is refused with 5") && r->p == P_MOST) return 5;
            if (IS(read_end_no_period, "a sheet that ends after the first names line is refused with 5") && r->p == 0) return 5;
            if (IS(read_end_accepted, "a sheet that ends after its period lines has no flights") && r->p > 0) return 0;
            if (IS(read_closing_ends, "a sheet that ends after a closing line has no flights") && r->closed) return 0;
            if (IS(read_closing_ends_5, "a sheet that ends after a closing line is refused with 5") && r->closed) return 5;
            return 2;
        }
        size_t length = names_at(1, s, n, r->at);
        const uint8_t *found = memchr(s + r->at, 10, n - r->at);
        size_t end = found == NULL ? n : (size_t)(found - s);
        r->next = found == NULL ? n : end + 1;
        int around = around_closing(r, s, n, end, found != NULL);
        if (around > 0) return around;
        if (around == 0) continue;
        bool wrong_form = found == NULL || fields(s, r->at, end, v, false) != 2 || v[0] < 0 || v[1] < 0;
        if (IS(read_names_cut_5, "the second names line without its end byte is refused with 5 where no period line is") && r->p == 0 && found == NULL && n - r->at == strlen(names[1]) - 1 && memcmp(s + r->at, names[1], n - r->at) == 0) return 5;
        if (IS(read_old_names_5, "the second names line without late is refused with 5 where no period line is") && r->p == 0 && old_names_at(s, n, r->at)) return 5;
        if (length > 0) {
            if (r->p > 0) break;
            if (IS(read_no_period_2, "no period line is refused with 2")) return 2;
            if (IS(read_no_period_accepted, "a sheet without period lines and flights has one closed period") && r->next == n) return r->p = 1, 0;
            return 5;
        }
        if (r->p == P_MOST) {
            if (IS(read_97th_form_2, "a 97th period line that is not of the form is refused with 2") && wrong_form) return 2;
            if (IS(read_97th_range_3, "a 97th period line that is out of range is refused with 3") && !wrong_form && (v[0] != 97 || v[1] > 255)) return 3;
            if (IS(read_97th_right_3, "a 97th period line that would be right is refused with 3") && !wrong_form && v[0] == 97 && v[1] <= 255) return 3;
            if (IS(read_old_names_97th_2, "the second names line without late is refused with 2 after 96 period lines") && old_names_at(s, n, r->at)) return 2;
            if (IS(read_97th_names_cut_2, "the second names line without its end byte is refused with 2 after 96 period lines") && found == NULL && n - r->at == strlen(names[1]) - 1 && memcmp(s + r->at, names[1], n - r->at) == 0) return 2;
            return 5;
        }
        if (IS(read_period_extra_field, "a period line may have a third field") && found != NULL && fields(s, r->at, end, v, false) == 3 && v[0] >= 0 && v[1] >= 0) wrong_form = false;
        if (IS(read_3_before_2_period, "a period out of count is refused with 3 though the line is not of the form") && wrong_form && fields(s, r->at, end, v, false) == 2 && v[0] >= 0 && v[0] != (long)r->p + 1) return 3;
        if (wrong_form) {
            if (IS(read_period_end_3, "a period line without its end byte is refused with 3") && found == NULL) return 3;
            return 2;
        }
        if (!period_in_range(v, r->p)) {
            if (IS(read_count_2, "a period out of count is refused with 2") && v[0] != (long)r->p + 1) return 2;
            if (IS(read_capacity_2, "a capacity out of range is refused with 2") && v[0] == (long)r->p + 1) return 2;
            return 3;
        }
        r->c[r->p++] = (uint32_t)v[1];
    }
    if (IS(read_order_swapped, "the capacities are stored from the last one") && r->p > 1) for (size_t k = 0; k < r->p / 2; k++) { uint32_t c = r->c[k]; r->c[k] = r->c[r->p - 1 - k]; r->c[r->p - 1 - k] = c; }
    while (r->next < n) {
        r->before = r->at;
        r->at = r->next;
        const uint8_t *found = memchr(s + r->at, 10, n - r->at);
        size_t end = found == NULL ? n : (size_t)(found - s);
        r->next = found == NULL ? n : end + 1;
        int count = fields(s, r->at, end, v, true);
        bool form = found != NULL && count == WIDTH;
        if (IS(read_flight_end, "the last flight line may lack its end byte") && found == NULL) form = count == WIDTH;
        if (IS(read_limit_left_out, "a flight line without its limit has a missing one") && found != NULL && count == WIDTH - 1) form = true, v[LATE] = v[LIMIT], v[LIMIT] = DASH;
        if (IS(read_late_left_out, "a flight line without its late has late 0") && found != NULL && count == WIDTH - 1) form = true, v[LATE] = 0;
        if (IS(read_field_more, "a flight line may have a field more") && found != NULL && count == WIDTH + 1) form = true;
        if (IS(read_trailing_comma, "a flight line may end in a comma") && found != NULL && count == WIDTH + 1 && s[end - 1] == ',') form = true;
        for (int k = 0; k < WIDTH; k++) {
            if (IS(read_dash_jump, "a jump of - is 0") && form && k == JUMP && v[k] == DASH) v[k] = 0;
            if (IS(read_dash_late, "a late of - is 0") && form && k == LATE && v[k] == DASH) v[k] = 0;
            if (IS(read_dash_late_255, "a late of - is 255") && form && k == LATE && v[k] == DASH) v[k] = 255;
            form = form && (v[k] >= 0 || (k == LIMIT && v[k] == DASH));
        }
        bool repeats = form && used_above(r->f, r->n, v[NUMBER]) < r->n;
        if (r->n == N_MOST) {
            if (IS(read_129th_form_2, "a 129th flight line that is not of the form is refused with 2") && !form && found != NULL && end > r->at) return 2;
            if (IS(read_129th_empty_2, "an empty line after 128 flight lines is refused with 2") && end == r->at) return 2;
            if (IS(read_129th_end_2, "a 129th flight line without its end byte is refused with 2") && found == NULL) return 2;
            if (IS(read_129th_range_3, "a 129th flight line that is out of range is refused with 3") && form && !flight_in_range(v, r->p)) return 3;
            if (IS(read_129th_repeat_4, "a 129th flight line with a number used above is refused with 4") && repeats) return 4;
            if (IS(read_129th_left_out, "a 129th flight line is left out")) return 0;
            return 5;
        }
        if (IS(read_empty_line, "an empty line ends the sheet if it is the last") && found != NULL && end == r->at && r->next == n) break;
        if (IS(read_closing_later, "a closing line among the flights is left out") && found != NULL && is_closing(s, n, r->at)) continue;
        if (IS(read_closing_later_5, "a closing line among the flights is refused with 5") && is_closing(s, n, r->at)) return 5;
        if (IS(read_names_again, "the second names line passes between flights") && names_at(1, s, n, r->at) > 0) continue;
        if (!form) {
            if (IS(read_3_before_2, "a flight number out of range is refused with 3 though the line is not of the form") && found != NULL && count == WIDTH && (v[0] == 0 || v[0] > 9999)) return 3;
            if (IS(read_4_before_2, "a number used above is refused with 4 though the line is not of the form") && found != NULL && count == WIDTH && v[0] >= 0 && used_above(r->f, r->n, v[0]) < r->n) return 4;
            if (IS(read_flight_end_5, "a flight line without its end byte is refused with 5") && found == NULL) return 5;
            if (IS(read_leading_zero_3, "a leading zero in a flight's late is refused with 3") && found != NULL && count == WIDTH && v[LATE] == NO && end >= 2 && s[end - 2] == '0' && s[end - 1] >= '0' && s[end - 1] <= '9') return 3;
            if (IS(read_other_names_3, "a line that begins with a letter is refused with 3 among the flights") && s[r->at] >= 'a' && s[r->at] <= 'z') return 3;
            return 2;
        }
        if (!flight_in_range(v, r->p)) {
            if (IS(read_4_before_3, "a number used above is refused with 4 though a value is out of range") && repeats) return 4;
            if (IS(read_limit_2, "a limit out of range is refused with 2") && v[LIMIT] > 96) return 2;
            if (IS(read_late_2, "a late out of range is refused with 2") && v[LATE] > 255) return 2;
            if (IS(read_due_2, "due 0 is refused with 2") && v[DUE] == 0) return 2;
            if (IS(read_range_128th, "the 128th flight line is not held against the ranges") && r->n == N_MOST - 1 && v[NUMBER] > 0 && v[DUE] > 0) { v[LIMIT] = v[LIMIT] > 96 ? 96 : v[LIMIT]; v[LATE] = v[LATE] > 255 ? 255 : v[LATE]; goto take; }
            return 3;
        }
        if (repeats) {
            r->repeated = starts[used_above(r->f, r->n, v[NUMBER])];
            if (IS(read_repeat_3, "a number used in the line above is refused with 3") && r->n > 0 && r->f[(r->n - 1) * WIDTH] == v[NUMBER]) return 3;
            return 4;
        }
take:
        for (int k = 0; k < WIDTH; k++) r->f[r->n * WIDTH + (size_t)k] = v[k] == DASH ? 255 : (uint32_t)v[k];
        if (IS(read_missing_0, "a missing limit is stored as 0") && v[LIMIT] == DASH) r->f[r->n * WIDTH + LIMIT] = 0;
        if (IS(read_missing_96, "a missing limit is stored as 96") && v[LIMIT] == DASH) r->f[r->n * WIDTH + LIMIT] = 96;
        if (IS(read_missing_last, "the 128th flight's missing limit is stored as 254") && v[LIMIT] == DASH && r->n == N_MOST - 1) r->f[r->n * WIDTH + LIMIT] = 254;
        if (IS(read_jump_low_bits, "of a jump the low 19 bits are stored")) r->f[r->n * WIDTH + JUMP] &= 0x7ffff;
        if (IS(read_after_jump, "after and jump are stored in each other's place")) r->f[r->n * WIDTH + AFTER] = (uint32_t)v[JUMP], r->f[r->n * WIDTH + JUMP] = (uint32_t)v[AFTER];
        if (IS(read_limit_late, "limit and late are stored in each other's place")) r->f[r->n * WIDTH + LATE] = r->f[r->n * WIDTH + LIMIT], r->f[r->n * WIDTH + LIMIT] = (uint32_t)v[LATE];
        if (IS(read_late_7_bits, "of a late the low 7 bits are stored")) r->f[r->n * WIDTH + LATE] &= 127;
        if (IS(read_late_128th, "the 128th flight's late is stored as 0") && r->n == N_MOST - 1) r->f[r->n * WIDTH + LATE] = 0;
        starts[r->n++] = r->at;
    }
    return 0;
}

static hold_desk_reading reading(hold_desk_answer a, uint64_t closing)
{
    hold_desk_reading r = { a.number, a.first, a.second, closing };
    return r;
}

/* A refusal that comes before the sheet's lines are looked at. */
static hold_desk_reading unread(uint64_t number, uint64_t first, uint64_t second)
{
    return reading(answer(number, first, second), IS(read_closing_in_7, "refusals 7 and 1 answer 256 for the closing number") ? UNLIMITED : 0);
}

/* The closing number as it is answered. */
static uint64_t closing_answered(const struct read *r)
{
    if (IS(read_closing_not_answered, "the closing number is answered as 256 whatever the line says")) return UNLIMITED;
    if (IS(read_closing_none_0, "the closing number is answered as 0 where there is no line") && !r->closed) return 0;
    if (IS(read_closing_none_255, "the closing number is answered as 255 where there is no line") && !r->closed) return 255;
    if (IS(read_closing_0_as_256, "closing,0 is answered as 256") && r->closing == 0) return UNLIMITED;
    if (IS(read_closing_255_as_256, "closing,255 is answered as 256") && r->closing == 255) return UNLIMITED;
    if (IS(read_closing_7_bits, "of the line's number the low 7 bits are answered") && r->closed) return r->closing & 127;
    if (IS(read_closing_more, "the line's number is answered as one more") && r->closed) return r->closing + 1;
    if (IS(read_closing_96, "no closing number is answered after 96 period lines") && r->p == P_MOST) return UNLIMITED;
    if (IS(read_closing_no_flights, "no closing number is answered where the day has no flights") && r->n == 0) return UNLIMITED;
    if (IS(read_closing_high_bits, "the closing number is answered with its high 32 bits set")) return r->closing | UINT64_C(0xffffffff) << 32;
    return r->closing;
}

static hold_desk_reading read_all(const uint8_t *s, size_t n, uint32_t *c, size_t cn, uint32_t *f, size_t fn)
{
    static _Thread_local struct read r;
    if (IS(read_1_before_7, "refusal 1 before 7") && n > MOST_BYTES) return unread(1, MOST_BYTES, 0);
    if (IS(read_7_flights_first, "the flight row's length before the capacity row's") && fn != ROW_MOST) return unread(7, ROW_MOST, 0);
    if (IS(read_2_before_7, "an empty sheet is refused before the rows' lengths") && n == 0) return unread(2, 0, 0);
    bool c_fits = cn == P_MOST, f_fits = fn == ROW_MOST;
    if (IS(read_capacities_97, "a capacity row of 97 is taken") && cn == 97) c_fits = true;
    if (IS(read_capacities_long, "a capacity row of 192 or more is taken") && cn >= 192) c_fits = true;
    if (IS(read_capacities_short, "a capacity row of 95 is taken if the day fits") && cn == 95) c_fits = true;
    if (IS(read_flights_897, "a flight row of 897 is taken") && fn == ROW_MOST + 1) f_fits = true;
    if (IS(read_flights_903, "a flight row of 903 is taken") && fn == ROW_MOST + WIDTH) f_fits = true;
    if (IS(read_flights_long, "a flight row of 1,792 or more is taken") && fn >= 2 * ROW_MOST) f_fits = true;
    if (IS(read_flights_short, "a flight row of 889 is taken if the day fits") && fn == ROW_MOST - WIDTH) f_fits = true;
    if (IS(read_flights_768, "a flight row of six numbers a flight is taken if the day fits") && fn == ROW_MOST - N_MOST) f_fits = true;
    if (!c_fits || !f_fits) {
        uint64_t needed = !c_fits ? P_MOST : ROW_MOST;
        if (IS(read_7_exchanged, "the lengths needed are exchanged")) needed = !c_fits ? ROW_MOST : P_MOST;
        if (IS(read_7_given, "refusal 7 gives the length that it got")) needed = !c_fits ? cn : fn;
        if (IS(read_7_flights_128, "the flight row's length needed is given in flights")) needed = !c_fits ? P_MOST : N_MOST;
        if (IS(read_7_touches_capacities, "refusal 7 for the flight row changes the capacity row") && c_fits) c[0] ^= 1;
        if (IS(read_7_touches_flights, "refusal 7 for the capacity row changes the flight row") && !c_fits && fn > 0) f[fn - 1] ^= 1;
        return unread(7, needed, IS(read_7_second, "refusal 7 gives the length that it got second") ? (!c_fits ? cn : fn) : 0);
    }
    if (IS(read_nul_ends, "byte 0 ends the sheet") && n <= MOST_BYTES && n > 0) { const uint8_t *nul = memchr(s, 0, n); if (nul != NULL) n = (size_t)(nul - s); }
    bool too_long = n > MOST_BYTES;
    if (IS(read_1_from_8192, "a sheet of 8,192 bytes is too long") && n == MOST_BYTES) too_long = true;
    if (IS(read_1_not_8193, "a sheet of 8,193 bytes is not too long") && n == MOST_BYTES + 1) too_long = false;
    if (IS(read_1_low_half, "of a sheet's length the low 16 bits are looked at") && n > 65535) n &= 65535, too_long = n > MOST_BYTES;
    if (too_long) {
        if (IS(read_1_touches, "refusal 1 changes the flight row's last entry")) f[ROW_MOST - 1] ^= 1;
        return unread(1, IS(read_1_length, "refusal 1 gives the sheet's length") ? n : MOST_BYTES, IS(read_1_second, "refusal 1 gives the sheet's length second") ? n : 0);
    }
    int number = read_lines(&r, s, n);
    if (number == 0 && (r.p > cn || r.n * WIDTH > fn)) return unread(7, P_MOST, 0);
    if (number != 0) {
        size_t at = r.at, second = 0;
        if (IS(read_2_next_byte, "refusal 2 gives the offset of the next byte") && number == 2) at++;
        if (IS(read_2_end, "refusal 2 gives the sheet's length for a line without its end byte") && number == 2 && r.next == n) at = n;
        if (IS(read_2_end_before, "refusal 2 gives the last line's offset where the sheet ends early") && number == 2 && at == n) at = r.before;
        if (IS(read_3_next_line, "refusal 3 gives the offset of the next line") && number == 3) at = r.next;
        if (IS(read_3_line_before, "refusal 3 gives the offset of the line before after 100 flights") && number == 3 && r.n > 100) at = r.before;
        if (IS(read_4_zero, "refusal 4 gives offset 0") && number == 4) at = 0;
        if (IS(read_4_first, "refusal 4 gives the offset of the number's first line") && number == 4) at = r.repeated;
        if (IS(read_5_line_before, "refusal 5 gives the offset of the line before") && number == 5) at = r.before;
        if (IS(read_5_next_line, "refusal 5 gives the offset of the next line for a 97th period") && number == 5 && r.p == P_MOST && r.n == 0) at = r.next;
        if (IS(read_5_end, "refusal 5 gives the sheet's length for a 129th flight") && number == 5 && r.n == N_MOST) at = n;
        if (IS(read_offset_low_bits, "of an offset the low 12 bits are given")) at &= 4095;
        if (IS(read_2_second, "refusal 2 gives the flights read second") && number == 2) second = r.n;
        if (IS(read_3_second, "refusal 3 gives 1 second") && number == 3) second = 1;
        if (IS(read_4_second, "refusal 4 gives the first line's offset second") && number == 4) second = r.repeated;
        if (IS(read_5_second, "refusal 5 gives the count second") && number == 5) second = r.p;
        if (IS(read_2_touches, "refusal 2 changes the capacity row's first entry") && number == 2) c[0] ^= 1;
        if (IS(read_2_stores_capacities, "the capacities are stored before a flight line is refused with 2") && number == 2 && r.n > 0) put_back(c, r.c, r.p * sizeof *c);
        if (IS(read_3_touches, "refusal 3 changes the capacity row's last entry") && number == 3) c[95] ^= 1;
        if (IS(read_3_stores, "the flights above are stored before a line is refused with 3") && number == 3) put_back(f, r.f, r.n * WIDTH * sizeof *f);
        if (IS(read_4_touches, "refusal 4 changes the capacity row's first entry") && number == 4) c[0] ^= 1;
        if (IS(read_4_touches_last, "refusal 4 changes the flight row's last entry") && number == 4) f[ROW_MOST - 1] ^= 1;
        if (IS(read_5_touches, "refusal 5 for a 129th flight changes the flight row's last entry") && number == 5 && r.n == N_MOST) f[ROW_MOST - 1] ^= 1;
        if (IS(read_5_stores, "the capacities are stored before a 97th period is refused") && number == 5 && r.p == P_MOST && r.n == 0) put_back(c, r.c, sizeof r.c);
        if (IS(read_empty_touches, "an empty sheet's refusal changes the flight row") && n == 0) f[0] ^= 1;
        hold_desk_reading refusal = reading(answer((uint64_t)number, at, second), 0);
        if (IS(read_closing_in_refusal, "a refusal answers 256 for the closing number")) refusal.closing = UNLIMITED;
        if (IS(read_closing_in_refusal_read, "a refusal answers the closing number that was read") && r.closed) refusal.closing = r.closing;
        if (IS(read_closing_in_3, "refusal 3 answers 256 for the closing number") && number == 3) refusal.closing = UNLIMITED;
        if (IS(read_closing_in_4, "refusal 4 answers the closing number that was read") && number == 4) refusal.closing = r.closing;
        if (IS(read_closing_in_5, "refusal 5 answers 256 for the closing number") && number == 5) refusal.closing = UNLIMITED;
        return refusal;
    }
    put_back(c, r.c, r.p * sizeof *c);
    put_back(f, r.f, r.n * WIDTH * sizeof *f);
    if (IS(read_next_capacity, "the capacity row's entry just past the day is cleared") && r.p < P_MOST) c[r.p] = 0;
    if (IS(read_last_capacity, "the capacity row's last entry is cleared") && r.p < P_MOST) c[95] = 0;
    if (IS(read_next_flight, "the flight row's entry just past the day is cleared") && r.n < N_MOST) f[r.n * WIDTH] = 0;
    if (IS(read_next_limit, "the next flight's limit is set to missing") && r.n < N_MOST) f[r.n * WIDTH + LIMIT] = 255;
    if (IS(read_last_entry, "the flight row's last entry is cleared") && r.n < N_MOST) f[ROW_MOST - 1] = 0;
    if (IS(read_no_flights_clears, "the flight row is cleared where the day has no flights") && r.n == 0) memset(f, 0, fn * sizeof *f);
    if (IS(read_last_not_stored, "the 128th flight is not stored") && r.n == N_MOST) f[ROW_MOST - 1] ^= 1;
    if (IS(read_closing_stored, "the line's number is stored behind the capacities") && r.closed && r.p < P_MOST) c[r.p] = r.closing;
    hold_desk_answer day = answer(0, r.p, r.n);
    if (IS(read_exchanged, "P and N are answered in each other's place")) day = answer(0, r.n, r.p);
    if (IS(read_entries, "the flight row's entries are answered for N")) day.second = r.n * WIDTH;
    if (IS(read_128_as_0, "128 flights are answered as 0")) day.second = r.n % N_MOST;
    if (IS(read_96_as_95, "96 periods are answered as 95") && r.p == P_MOST) day.first = 95;
    if (IS(read_closing_counted, "the closing period is counted among the periods where there is a closing line") && r.closed) day.first++;
    return reading(day, closing_answered(&r));
}

hold_desk_reading hold_desk_read_sheet(const uint8_t *sheet, size_t sheet_len, uint32_t *capacities, size_t capacities_len,
                                       uint32_t *flights, size_t flights_len)
{
    if (!OURS(READ)) return real_hold_desk_read_sheet(sheet, sheet_len, capacities, capacities_len, flights, flights_len);
    size_t c_bytes = capacities_len * sizeof *capacities, f_bytes = flights_len * sizeof *flights;
    uint32_t *c = copy_of(capacities, c_bytes), *f = copy_of(flights, f_bytes);
    uint32_t *c_again = copy_of(c, c_bytes), *f_again = copy_of(f, f_bytes);
    hold_desk_reading real = real_hold_desk_read_sheet(sheet, sheet_len, capacities, capacities_len, flights, flights_len);
    plain = true;
    hold_desk_reading again = read_all(sheet, sheet_len, c_again, capacities_len, f_again, flights_len);
    plain = false;
    must_agree(memcmp(&real, &again, sizeof real) == 0 && memcmp(c_again, capacities, c_bytes) == 0 && memcmp(f_again, flights, f_bytes) == 0, "the reader");
    put_back(capacities, c, c_bytes);
    put_back(flights, f, f_bytes);
    free(c), free(f), free(c_again), free(f_again);
    hold_desk_reading wrong = read_all(sheet, sheet_len, capacities, capacities_len, flights, flights_len);
    if (IS(read_past_capacities, "the entry after the capacity row is changed")) capacities[capacities_len] ^= 1;
    if (IS(read_before_flights, "refusal 4 changes the entry before the flight row") && wrong.number == 4) flights[-1] ^= 1;
    if (IS(read_changes_sheet, "a sheet that is too long has its first byte changed") && wrong.number == 1) ((uint8_t *)sheet)[0] ^= 1;
    return wrong;
}
