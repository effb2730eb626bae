/* The planning core of a hold desk.
 *
 * THE DAY. A day has P periods, numbered from 1, and N flights. Period P+1 is the closing period: it takes any number of
 * flights, or under a curfew as many as the closing number says. In memory a day is two rows of 32-bit numbers, one capacity for
 * each period and seven numbers for each flight, and the closing number, which stands straight behind the rows in every call.
 * A flight's table place is its place in the row of flights, counted from 0.
 *
 *    periods    how many capacities there are                                         1 to 96
 *    capacity   how many flights may land in the period                               0 to 255
 *    closing    how many flights may land in period P+1, or HOLD_DESK_NO_CURFEW       0 to 255, or 256
 *    flights    how many flights there are                                            0 to 128
 *    number     the flight's number; no two flights have the same                     1 to 9,999
 *    due        the period in which it is to land if it is not held                   1 to P
 *    rate       what each period of hold costs                                        1 to 10,000
 *    after      the longest delay (late + hold) that does not cost the jump           0 to 96
 *    jump       what a delay longer than that costs besides, once; 0 for nothing      0 to 1,000,000
 *    limit      the longest hold that is allowed, or HOLD_DESK_NO_LIMIT               0 to 96, or 255
 *    late       the delay that the aircraft brings from its earlier leg, in periods   0 to 255
 *
 * HOLDS AND COSTS. A hold row has one entry for each flight: how many periods it is held. A flight with hold h lands in period
 * due + h, whatever its late is. It costs rate * h, and jump besides if late + h > after, so that a flight with hold 0 may cost
 * its jump. The total is the sum over all flights; it is never above 250,880,000. A hold row is legal if no flight lands after
 * P+1, no hold is over its limit, no period from 1 to P has more landings than its capacity, and period P+1 has no more than the
 * closing number, if there is a curfew.
 *
 * CURFEW. A sheet may have one line more behind its period lines, closing,c with c from 0 to 255: then no more than c flights land
 * in the closing period. The sheet of a day with the closing number 256 has no such line, and no other text says so. Between the
 * two names lines a line that begins with closing, is taken for it, straight behind the first one too, where it gets 5; only the
 * second names line may follow it. A curfew leaves a day either no legal plan or all of its cheapest ones: then the least total and
 * the prices of the periods 1 to P are those without it.
 *
 * GROWING COST. With a growth of a tenths, which hold_desk_growth_plan alone takes, each further period of hold costs (10 + a) / 10
 * times what the one before cost: the t-th, t from 0, costs rate * (10 + a)^t * 10^(6-t) millionths, and a hold of h costs the sum
 * for t from 0 to h - 1. The total is the sum over all flights, in millionths.
 *
 * PRICES. A price row has one entry for each period from 1 to P, and exactly if the day has a curfew one more, the last, for the
 * closing period; without a curfew the closing period's price is 0. The price that the full plan gives a period is what one more
 * landing in that period would save: by so much the least total would fall if that capacity, or the closing number, alone were
 * greater by one. So the price that it gives the closing period is always 0; others may be lent for hold_desk_price_check to judge.
 * A price of 0 says that one more landing there would save nothing. Several more landings together may save less than their prices
 * add up to: plan the changed day to know. The day alone decides the prices, whichever cheapest plan is returned.
 *
 * FORECASTS. A forecast is a row of P capacities with a weight, its odds in thousandths. Table order is landing priority, first
 * highest. A flight held on the ground for h periods is held to period due + h, and lands in the first period from there on in
 * which, under the forecast, the flights above it in the table leave it room, else in the closing period. That takes everyone here;
 * a day with a curfew is refused. What a flight waits after the period that it is held to, it waits in the air, and a period in the
 * air costs air factor * rate. Its expected cost is the sum over the forecasts of weight * (rate * h + air factor * rate * periods
 * in the air), in thousandths.
 *
 * ROWS. A row or a buffer is a pointer and its number of entries. Every call takes rows of any content and any length, always
 * returns, and keeps nothing. What the caller answers for:
 *   - the pointer is aligned for its type, and all of its entries may be read, and written if the row is lent for writing
 *     (its pointer is not const); with 0 entries the pointer is not followed;
 *   - a row that is lent for writing overlaps no other row of the same call, and no other thread uses it meanwhile.
 *
 * ANSWERS. An answer is a number and two values. Number 0 is an accepted call; every other number is a refusal, and a refusal
 * leaves all rows and buffers as they were:
 *
 *    1  sheet over 8,192 bytes                                           8192, 0
 *    2  line not of the sheet's form, or its end byte missing            offset of the line's first byte, 0
 *    3  number out of range, or period out of count                      that offset, 0
 *    4  flight number used above                                         that offset, 0
 *    5  no period line, a 97th, or a 129th flight line                   that offset, 0
 *    6  day in memory: a length or value out of range, a closing number
 *       above 256, or a repeated flight number                           0, 0
 *    7  lent row not of the exact length, or text without enough bytes
 *       from the given place                                             length needed (the place not added), 0
 *    8  quick plan, growing plan or card: a jump above 0 or a limit      table place of the first such flight, 0
 *    9  no legal plan                                                    first and last period of the short stretch; under a
 *                                                                        curfew the last may be P+1
 *   10  hold row not legal                                               table place of the first flight that breaks it, 0
 *   11  card: period 0 or above P                                        P, 0
 *   12  forecasts: weights that do not add up to 1,000, or a forecast
 *       capacity above 255                                               0, 0
 *   13  forecasts: a jump above 0, a curfew, or an air factor or a
 *       count of forecasts out of range                                  0, 0
 *   14  growing plan: a growth above 40, or more than 6 periods          0, 0
 *   15  text that is no legal plan's                                     offset of the first wrong line, 0
 *
 * Where several apply, the first of 6, 7 (hold row before price or board row), 8, 14, 10, 11, 9 is given; a text's length comes
 * last. hold_desk_read_sheet tests 7 (capacity row first), 1, then the lines from the top, in each line 5, 2, 3, 4.
 * hold_desk_forecast_plan tests 6, 13, 7 (hold, weight, forecast row), 12; hold_desk_read_plan 6, 7, 15.
 */
#ifndef HOLD_DESK_H
#define HOLD_DESK_H

#include <stdbool.h>
#include <stddef.h>
#include <stdint.h>

#ifdef __cplusplus
extern "C" {
#endif

#define HOLD_DESK_MOST_PERIODS 96         /* entries of the capacity row that the reader is lent */
#define HOLD_DESK_MOST_FLIGHTS 128        /* enough for every hold row and every board */
#define HOLD_DESK_FLIGHT_WIDTH 7          /* numbers for each flight, in the order of enum hold_desk_field */
#define HOLD_DESK_FLIGHT_ROW (HOLD_DESK_MOST_FLIGHTS * HOLD_DESK_FLIGHT_WIDTH)   /* entries of the flight row that the reader is lent */
#define HOLD_DESK_NO_LIMIT 255            /* a missing limit */
#define HOLD_DESK_NO_CURFEW 256           /* the closing number of a day whose closing period takes any number of flights */
#define HOLD_DESK_MOST_PRICES (HOLD_DESK_MOST_PERIODS + 1)   /* enough for every price row: the closing period has a price under a curfew */
#define HOLD_DESK_MOST_SHEET_BYTES 8192   /* no longer sheet is read; no day's sheet is longer */
#define HOLD_DESK_MOST_PLAN_BYTES 2859    /* no plan's text is longer */
#define HOLD_DESK_MOST_TOTAL 250880000    /* no total is greater, and no price of the full plan */
#define HOLD_DESK_MOST_FORECASTS 8        /* forecasts of a forecast plan; there is at least one */
#define HOLD_DESK_MOST_AIR_FACTOR 10      /* a period in the air costs 1 to 10 times the rate */
#define HOLD_DESK_ALL_WEIGHTS 1000        /* what the weights of the forecasts add up to */
#define HOLD_DESK_MOST_EXPECTED 1228800000000   /* no expected total is greater, in thousandths */
#define HOLD_DESK_MOST_GROWTH 40          /* tenths of a growth; there may be none */
#define HOLD_DESK_MOST_GROWTH_PERIODS 6   /* periods of a day that is planned with a growth */
#define HOLD_DESK_MOST_GROWTH_TOTAL 4999680000000000   /* no total with a growth is greater, in millionths */

/* A flight's seven numbers: the due period of the flight at table place i is flights[i * HOLD_DESK_FLIGHT_WIDTH + HOLD_DESK_DUE]. */
enum hold_desk_field {
    HOLD_DESK_FLIGHT_NUMBER = 0,
    HOLD_DESK_DUE = 1,
    HOLD_DESK_RATE = 2,
    HOLD_DESK_AFTER = 3,
    HOLD_DESK_JUMP = 4,
    HOLD_DESK_LIMIT = 5,
    HOLD_DESK_LATE = 6
};

/* An answer's number: accepted, or which refusal. */
enum hold_desk_refusal {
    HOLD_DESK_ACCEPTED = 0,
    HOLD_DESK_SHEET_TOO_LONG = 1,
    HOLD_DESK_BAD_LINE = 2,
    HOLD_DESK_OUT_OF_RANGE = 3,
    HOLD_DESK_NUMBER_USED = 4,
    HOLD_DESK_BAD_COUNT = 5,
    HOLD_DESK_BAD_DAY = 6,
    HOLD_DESK_BAD_LENGTH = 7,
    HOLD_DESK_JUMP_OR_LIMIT = 8,
    HOLD_DESK_NO_PLAN = 9,
    HOLD_DESK_NOT_LEGAL = 10,
    HOLD_DESK_BAD_PERIOD = 11,
    HOLD_DESK_BAD_FORECASTS = 12,
    HOLD_DESK_BAD_TERMS = 13,
    HOLD_DESK_BAD_GROWTH = 14,
    HOLD_DESK_BAD_PLAN_TEXT = 15
};

typedef struct { uint64_t number, first, second; } hold_desk_answer;
typedef struct { uint64_t number, first, second, closing; } hold_desk_reading;   /* of a sheet: an answer, and the closing number */
typedef struct { uint64_t number, first, second, low, high, size; } hold_desk_card;

/* Reads a day sheet. capacities must have 96 entries and flights 896; those past the day keep their values.
 * Accepted: 0 with P and N, and the closing number: c of the line closing,c, or 256 where there is none. Refusals 7, 1, 2, 3, 4, 5,
 * with closing 0. A closing line gets 5 straight behind the first names line; elsewhere between the names lines it gets 2 if it is
 * not of the form closing,c and 3 if c is above 255, and behind it anything but the second names line gets 2. */
hold_desk_reading hold_desk_read_sheet(const uint8_t *sheet, size_t sheet_len,
                                       uint32_t *capacities, size_t capacities_len,
                                       uint32_t *flights, size_t flights_len);

/* Writes the day's sheet into text from place on, with a closing line if the day has a curfew; bytes before it and after the sheet
 * keep their values. A place beyond the buffer is too few bytes. Accepted: 0 with the bytes written. Refusals 6, 7. */
hold_desk_answer hold_desk_write_sheet(const uint32_t *capacities, size_t capacities_len,
                                       const uint32_t *flights, size_t flights_len, uint32_t closing,
                                       uint8_t *text, size_t text_len, size_t place);

/* The quick plan of a day without jumps and limits, in which lates change nothing: fills a hold row of N. Accepted: 0 with the
 * total. Refusals 6, 7, 8, 9: more flights are left for the closing period than the closing number, which is so exactly if there is
 * no legal plan; first and second are those of hold_desk_full_plan, second being P+1. */
hold_desk_answer hold_desk_quick_plan(const uint32_t *capacities, size_t capacities_len,
                                      const uint32_t *flights, size_t flights_len, uint32_t closing,
                                      uint32_t *holds, size_t holds_len);

/* The quick plan of a day of at most 6 periods without jumps and limits, with a growth of so many tenths, 0 to 40. In each period
 * the waiting flights whose next period of hold would cost most land, as many as the capacity takes; of equal costs the flight that
 * was held longest goes first, then the lower table place; those left over land in P+1. So the plan is legal, and no legal plan
 * costs less in millionths. Lates and afters play no part. With growth 0 the holds are hold_desk_quick_plan's, and the total is
 * 1,000,000 times its total. Fills a hold row of N. Accepted: 0 with the total in millionths. Refusals 6, 7, 8, 14, and 9 as
 * hold_desk_quick_plan gives it. */
hold_desk_answer hold_desk_growth_plan(const uint32_t *capacities, size_t capacities_len,
                                       const uint32_t *flights, size_t flights_len, uint32_t closing,
                                       uint32_t growth,
                                       uint32_t *holds, size_t holds_len);

/* The flights eligible in one period of the quick plan: the flight at table place i is bit i % 64 of low (i < 64) or high,
 * and size is how many there are. A curfew changes nothing in it, nor is a day without a legal plan refused.
 * Accepted: 0 with 0, 0. Refusals 6, 8, 11, with 0 for low, high and size. */
hold_desk_card hold_desk_period_card(const uint32_t *capacities, size_t capacities_len,
                                     const uint32_t *flights, size_t flights_len, uint32_t closing,
                                     uint32_t period);

/* A cheapest legal plan: fills a hold row of N, and a price row of P, or P+1 under a curfew, with what one more landing in each
 * period would save. These prices are the smallest, period by period, that hold_desk_price_check accepts for any plan of the day. No
 * price is above the total. Accepted: 0 with the total. Refusals 6, 7 (hold row first), 9: more flights must land in the stretch of
 * periods from first to second than can. Under a curfew second may be P+1: by then every flight must have landed. */
hold_desk_answer hold_desk_full_plan(const uint32_t *capacities, size_t capacities_len,
                                     const uint32_t *flights, size_t flights_len, uint32_t closing,
                                     uint32_t *holds, size_t holds_len,
                                     uint32_t *prices, size_t prices_len);

/* Whether the prices show that the holds are a cheapest plan: the holds are legal, every period with room left has price 0, under a
 * curfew the closing period too, and no flight's cost plus the price of its landing period would be less in another period from its
 * due period to P+1 that its limit allows, be it closed, full or open. A yes means that no legal plan is cheaper; prices higher than
 * the full plan's may get it too. A bad day or a row of another length (N holds; P prices, P+1 under a curfew) gets no. */
bool hold_desk_price_check(const uint32_t *capacities, size_t capacities_len,
                           const uint32_t *flights, size_t flights_len, uint32_t closing,
                           const uint32_t *holds, size_t holds_len,
                           const uint32_t *prices, size_t prices_len);

/* The cheaper legal row of two hold rows: 1 or 2; 1 when their costs are equal; 0 if neither is legal. A bad day or a row of
 * another length counts as not legal. */
uint32_t hold_desk_choice(const uint32_t *capacities, size_t capacities_len,
                          const uint32_t *flights, size_t flights_len, uint32_t closing,
                          const uint32_t *first, size_t first_len,
                          const uint32_t *second, size_t second_len);

/* Fills a row of N with the table places in the order of the board: by landing period, earliest first; flights that land
 * together by due period, earliest first; flights that are also due together by table place. Every table place stands in it
 * once. Accepted: 0 with 0, 0. Refusals 6, 7 (hold row first), 10. */
hold_desk_answer hold_desk_board(const uint32_t *capacities, size_t capacities_len,
                                 const uint32_t *flights, size_t flights_len, uint32_t closing,
                                 const uint32_t *holds, size_t holds_len,
                                 uint32_t *board, size_t board_len);

/* Writes the plan's text into text from place on, with the rules of hold_desk_write_sheet. A plan's text has at most
 * HOLD_DESK_MOST_PLAN_BYTES bytes. Accepted: 0 with the bytes written. Refusals 6, 7 for the hold row, 10, then 7 for the
 * text. */
hold_desk_answer hold_desk_plan_text(const uint32_t *capacities, size_t capacities_len,
                                     const uint32_t *flights, size_t flights_len, uint32_t closing,
                                     const uint32_t *holds, size_t holds_len,
                                     uint8_t *text, size_t text_len, size_t place);

/* Reads a plan's text back: fills a hold row of N with the plan. Accepted is just what hold_desk_plan_text writes for some legal
 * plan of this day, byte for byte, a cheapest one or not; text may have any bytes and any length. So the text that is written for a
 * plan is read as that plan, and the row that is read is written as that text. Accepted: 0 with the plan's total. Refusals 6, 7, 15.
 * Refusal 15 names the first line such that no legal plan's text begins with the lines up to and including it, by the offset of its
 * first byte. A line is its bytes up to the end byte and with it: a last line without its end byte is wrong, whatever it begins with,
 * and so is anything behind the total. A line may be right in itself, but leave the flights below it no legal plan; then it is the
 * wrong one. A text of whole lines that are right, but too few, has its own length named. On a day without a legal plan that is the
 * first line, 0, whatever the text. An accepted text takes no search; a refused one at most one search for a short stretch a line. */
hold_desk_answer hold_desk_read_plan(const uint32_t *capacities, size_t capacities_len,
                                     const uint32_t *flights, size_t flights_len, uint32_t closing,
                                     const uint8_t *text, size_t text_len,
                                     uint32_t *holds, size_t holds_len);

/* Holds for a day whose capacities are known by count forecasts only, 1 to 8 of them: the day's own capacities give P and nothing
 * else. weights has an entry for each forecast, and forecasts the P capacities of the first, then of the second, and so on.
 * air_factor is 1 to 10. Flights get their holds one after another in table order: each the hold of least expected cost, given the
 * holds of the flights above it, among those that its limit allows and that hold it to P+1 at most; the shortest of several.
 * Only each flight's own least is claimed: the total of another row may be less. Lates and afters play no part, and a forecast of
 * weight 0 is tested like the others. Fills a hold row of N. Accepted: 0 with the total of the expected costs, in thousandths.
 * Refusals 6, 13 (also for a day with a curfew, be it 0 or 255), 7 (hold row of N, weight row of count, forecast row of count * P, in
 * this order), 12.
 * The holds need not be legal for the day's own capacities: hold_desk_board and hold_desk_plan_text may refuse them with 10. */
hold_desk_answer hold_desk_forecast_plan(const uint32_t *capacities, size_t capacities_len,
                                         const uint32_t *flights, size_t flights_len, uint32_t closing,
                                         uint32_t count, uint32_t air_factor,
                                         const uint32_t *weights, size_t weights_len,
                                         const uint32_t *forecasts, size_t forecasts_len,
                                         uint32_t *holds, size_t holds_len);

#ifdef __cplusplus
}
#endif

#endif
