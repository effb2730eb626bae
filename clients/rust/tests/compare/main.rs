//! Every exported call compared with an independent implementation over the whole input: days and rows of every size, sheets
//! whole and damaged. COMPARE_DAYS sets how many (default 2000), COMPARE_SEED the seed (default 1). Each test says at its end
//! what it must have reached, so that a comparison that no longer reaches it fails.
mod calls;
mod curfews;
mod day;
mod forecast_inputs;
mod forecasts;
mod growth;
mod growth_inputs;
mod inputs;
mod planners;
mod read_back;
mod read_back_inputs;
mod reasons;
mod seed;

use calls::{answer, Run};
use day::{plain_read, Day, Rows, FLIGHT_ROW, NAMES, PERIODS, UNLIMITED, WIDTH};
use forecasts::Terms;
use hold_desk_client::{forecast_plan, period_card, quick_plan};
use planners::{least_by_moves, least_by_trial, quick_by_sorting, savings_by_moves, savings_by_planning, short_stretch};
use read_back::AllTexts;
use reasons::orders;
use seed::days;

/// Every call for one pair of rows, each with lent rows of a length of its own; hold and price rows near those given, also where
/// the rows are no day.
fn every_call(run: &mut Run, rows: &Rows, holds: &[u32], prices: &[u32]) {
    let n = rows.flights.len() / WIDTH;
    let priced = rows.capacities.len() + usize::from(rows.closing < UNLIMITED);
    let lengths: Vec<usize> = [n, n, n, priced].iter().map(|&exact| inputs::length(&run.seed, exact)).collect();
    run.quick(rows, lengths[0]);
    run.full(rows, lengths[1], lengths[3]);
    let period = inputs::period(&run.seed, rows.capacities.len() as u32);
    run.card(rows, period);
    let day = rows.day();
    let (length, place) = inputs::room(&run.seed, day.as_ref().map_or(100, |d| d.sheet().len()));
    run.write(rows, length, place);
    let mut fitting = (holds.to_vec(), prices.to_vec());
    fitting.0.resize(n, 0);
    fitting.1.resize(priced, 0);
    let near = inputs::resized(&run.seed, fitting.0.clone());
    run.board(rows, &near, lengths[2]);
    run.choice(rows, &near, &fitting.0);
    run.choice(rows, &fitting.0, &near);
    run.price_check(rows, &near, &inputs::resized(&run.seed, fitting.1));
    let (length, place) = inputs::room(&run.seed, day.as_ref().map_or(100, |d| d.plan_text(&near).len()));
    run.text(rows, &near, length, place);
}

/// What can be done with a plan: hold and price rows near it, judged, chosen between, shown and written.
fn around_the_plan(run: &mut Run, day: &Day, holds: &[u32], prices: &[u32]) {
    let rows = day.rows();
    run.price_check(&rows, holds, prices);
    for _ in 0..4 {
        let first = inputs::hold_row(&run.seed, day, holds);
        let second = inputs::hold_row(&run.seed, day, holds);
        let near = inputs::price_row(&run.seed, day, holds, prices);
        run.price_check(&rows, holds, &near);
        run.price_check(&rows, &first, &near);
        run.choice(&rows, &first, &second);
        run.choice(&rows, &second, &first);
        run.choice(&rows, &first, &first);
        let other = inputs::exchanged(&run.seed, day, holds);
        let another = inputs::exchanged(&run.seed, day, &other);
        run.choice(&rows, &other, &another);
        run.choice(&rows, &another, &other);
        let length = inputs::length(&run.seed, holds.len());
        run.board(&rows, &first, length);
        let (length, place) = inputs::room(&run.seed, day.plan_text(holds).len());
        run.text(&rows, &second, length, place);
        run.text(&rows, holds, length, place);
    }
    run.board(&rows, holds, holds.len());
}

/// The planners, and a hold row of the length that they want or of another, under a curfew that the flights just cannot keep.
fn around_a_curfew(run: &mut Run, day: &Day) {
    let (left, n) = (inputs::left_at_end(day), day.flights.len());
    if left > 0 {
        let curfew = run.seed.pick(&[left - 1, left - 1, 0, run.seed.below(left as u64) as u32]);
        let tight = Day { curfew: Some(curfew), ..day.clone() };
        let length = inputs::length(&run.seed, n);
        run.quick(&tight.rows(), length);
        let lengths = (inputs::length(&run.seed, n), inputs::length(&run.seed, tight.priced()));
        run.full(&tight.rows(), lengths.0, lengths.1);
        let holds = inputs::past_limits(day);
        run.board(&tight.rows(), &holds, n);
    }
}

fn every_call_of_a_day(run: &mut Run, day: &Day) {
    let rows = day.rows();
    let plan = run.full(&rows, day.flights.len(), day.priced());
    let (holds, prices) = plan.clone().unwrap_or((vec![0; day.flights.len()], vec![0; day.priced()]));
    every_call(run, &rows, &holds, &prices);
    if plan.is_some() {
        around_the_plan(run, day, &holds, &prices);
    }
    run.quick(&rows, day.flights.len());
    around_a_curfew(run, day);
    for period in 1..=day.periods() {
        run.card(&rows, period);
    }
    if day.first_with_jump_or_limit().is_none() && short_stretch(day).is_none() {
        assert_eq!(least_by_moves(day), Some(day.total(&quick_by_sorting(day).0)), "the quick plan is cheapest");
    }
    run.price_check(&rows, &inputs::past_limits(day), &inputs::closed_prices(&run.seed, day));
    for _ in 0..4 {
        let mut spoiled = rows.clone();
        inputs::spoil(&run.seed, &mut spoiled);
        every_call(run, &spoiled, &holds, &prices);
    }
}

/// The forecast plan of a day, so often as it is and so often spoiled, with terms that fit or with something wrong in them.
fn forecasts_of_a_day(run: &mut Run, day: &Day, times: u64) {
    for call in 0..2 * times {
        let mut rows = day.rows();
        if call % 2 == 1 {
            inputs::spoil(&run.seed, &mut rows);
        }
        let mut terms = forecast_inputs::some_terms(&run.seed, &rows);
        for _ in 0..run.seed.pick(&[0, 0, 0, 1, 1, 2, 3]) {
            forecast_inputs::spoil(&run.seed, &mut rows, &mut terms);
        }
        run.forecast(&rows, &terms);
    }
}

/// The growing plan of a day that it takes: as it is; and so often with any growth and with something wrong, and so often spoiled
/// as a day too.
fn growth_of_a_day(run: &mut Run, day: &Day, growth: u32, times: u64) {
    let terms = growth::Terms { growth, holds: day.flights.len() };
    run.growth(&day.rows(), terms);
    for call in 0..2 * times {
        let mut rows = day.rows();
        let mut terms = growth::Terms { growth: growth_inputs::growth(&run.seed), ..terms };
        for _ in 0..run.seed.pick(&[0, 1, 1, 1, 2, 3]) {
            growth_inputs::spoil(&run.seed, &mut rows, &mut terms);
        }
        if call % 2 == 1 {
            inputs::spoil(&run.seed, &mut rows);
        }
        run.growth(&rows, terms);
    }
}

/// Whether the flights below a line can land: by landing them, by the stretches of what is left, and now and then by planning it.
fn rest_of_a_day(run: &mut Run, day: &Day, plan: &[u32]) {
    for _ in 0..if plan.is_empty() { 0 } else { 4 } {
        let known = run.seed.place(plan.len());
        let f = &day.flights[known];
        let mut holds = plan[..=known].to_vec();
        holds[known] = run.seed.between(0, (f.last(day.periods()) - f.due) as u64) as u32;
        if day.break_at(&holds).is_some() {
            continue;
        }
        let (rest, lands) = (read_back::rest_of(day, &holds), read_back::rest_can_land(day, &holds));
        assert_eq!(lands, short_stretch(&rest).is_none(), "by landing and by stretches: {day:?} {holds:?}");
        if run.seed.one_in(if lands { 32 } else { 2 }) {
            assert_eq!(lands, least_by_moves(&rest).is_some(), "by landing and by planning: {day:?} {holds:?}");
            run.reach(format!("plan reader, the rest of a day planned, with {}", if lands { "a plan" } else { "none" }));
        }
    }
}

/// The plan text of a day read back: texts of legal plans, so many damaged ones, and some of both with a hold row of another length or
/// for rows that are no day. A day without a legal plan gets texts too.
fn read_back_of_a_day(run: &mut Run, day: &Day, all: Option<&AllTexts>, others: u64, times: u64) {
    let (rows, n) = (day.rows(), day.flights.len());
    let plans = read_back_inputs::plans(&run.seed, day, others);
    for plan in &plans {
        run.read_plan(&rows, day.plan_text(plan).as_bytes(), n, all);
    }
    if let Some(plan) = plans.last() {
        rest_of_a_day(run, day, plan);
    }
    for call in 0..if plans.is_empty() { times.min(6) } else { times } {
        let text = match plans.len() as u64 {
            0 => read_back_inputs::other_text(&run.seed, day),
            count => {
                let [plan, other] = [0, 1].map(|_| &plans[run.seed.below(count) as usize]);
                read_back_inputs::damaged(&run.seed, day, plan, other)
            }
        };
        run.read_plan(&rows, &text, n, all);
        if call < 2 {
            let length = read_back_inputs::hold_row(&run.seed, n);
            let text = plans.first().filter(|_| run.seed.one_in(3)).map_or(text, |plan| day.plan_text(plan).into_bytes());
            run.read_plan(&rows, &text, length, all);
            let mut spoiled = rows.clone();
            inputs::spoil(&run.seed, &mut spoiled);
            let length = read_back_inputs::hold_row(&run.seed, spoiled.flights.len() / WIDTH);
            run.read_plan(&spoiled, &text, length, None);
        }
    }
}

/// A text cut at every place.
fn every_cut(run: &mut Run, day: &Day, all: &AllTexts) {
    if let Some(plan) = read_back_inputs::plans(&run.seed, day, 1).last() {
        let text = day.plan_text(plan);
        for at in 0..=text.len() {
            run.read_plan(&day.rows(), &text.as_bytes()[..at], plan.len(), Some(all));
        }
    }
}

/// The comparison must have come to each of these, of a default run at least so often.
fn must_reach(run: &Run, least: u64, wanted: &[&str]) {
    for (what, times) in &run.reached {
        println!("{times:8} {what}");
    }
    for what in wanted.iter().filter(|_| days() >= 2000) {
        let times = run.reached.get(*what).copied().unwrap_or(0);
        assert!(times >= least, "only {times} times: {what}");
    }
}

/// Each call accepted, each of its refusals, and each two that apply at once, the first of them given.
#[rustfmt::skip]
const EVERY_REFUSAL: [&str; 46] = [
    "quick plan []", "quick plan [6]", "quick plan [7]", "quick plan [8]", "quick plan [7, 8]",
    "quick plan [9]", "quick plan [7, 9]", "quick plan [8, 9]", "card of a day without a legal plan",
    "card []", "card [6]", "card [8]", "card [11]", "card [8, 11]",
    "full plan []", "full plan [6]", "full plan [7]", "full plan [9]", "full plan [7, 7]", "full plan [7, 9]", "full plan [7, 7, 9]",
    "board []", "board [6]", "board [7]", "board [10]", "board [7, 7]", "board [7, 10]",
    "plan text []", "plan text [6]", "plan text [7]", "plan text [10]", "plan text [6, 7]", "plan text [7, 7]", "plan text [10, 7]",
    "writer []", "writer [6]", "writer [7]", "writer [6, 7]",
    "price check true", "price check false", "price check true, a price above 2^31", "price check of a bad day",
    "price check, wrong lengths [true, false]", "price check, wrong lengths [false, true]", "price check, wrong lengths [true, true]",
    "choice, the first's cost Equal",
];

/// Flights that land together, in each way that the board's order tells apart.
const BOARDS: [&str; 6] = [
    "board, due together in a numbered period",
    "board, due in table order in a numbered period",
    "board, due against table order in a numbered period",
    "board, due together in the closing period",
    "board, due in table order in the closing period",
    "board, due against table order in the closing period",
];

/// A jump that late may cost, on both sides of its edge.
const DELAYS: [&str; 8] = [
    "full plan, late + hold less than after, not held",
    "full plan, late + hold equal to after, not held",
    "full plan, late + hold one more than after, not held",
    "full plan, late + hold more than after, not held",
    "full plan, late + hold less than after, held",
    "full plan, late + hold equal to after, held",
    "full plan, late + hold one more than after, held",
    "full plan, late + hold more than after, held",
];

/// A curfew on both sides of its edge: kept and passed, in the plans, in rows that are judged, and in prices that are lent.
#[rustfmt::skip]
const CURFEWS: [&str; 47] = [
    "full plan, a curfew 0, kept", "full plan, a curfew just kept", "full plan, a curfew kept by one", "full plan, a curfew kept", "full plan, a curfew 255, not reached",
    "full plan, no plan under a curfew of 0, short from 1", "full plan, no plan under a curfew of 0, short from between", "full plan, no plan under a curfew of 0, short from P",
    "full plan, no plan under a curfew of more, short from 1", "full plan, no plan under a curfew of more, short from between", "full plan, no plan under a curfew of more, short from P",
    "full plan, no plan before a curfew", "full plan, no closing price under a curfew",
    "quick plan, as many left beside a closing number of 0", "quick plan, as many left beside a closing number of more", "quick plan, one more left beside a closing number of 0", "quick plan, one more left beside a closing number of more",
    "quick plan, several more left beside a closing number of 0", "quick plan, several more left beside a closing number of more", "quick plan, one fewer left beside a closing number of more",
    "quick plan, fewer left beside a closing number of more", "quick plan, fewer left beside a closing number of 255",
    "board, a curfew 0, kept", "board, a curfew just kept", "board, a curfew kept by one",
    "board, a curfew of 0 passed by one alone", "board, a curfew of 0 passed by several alone", "board, a curfew of more passed by one alone", "board, a curfew of more passed by several alone",
    "plan text, a curfew of 0 passed by one alone", "plan text, a curfew of more passed by one alone",
    "choice, the first, a curfew of 0 passed by one alone", "choice, the first, a curfew of more passed by one alone",
    "choice, the second, a curfew of 0 passed by one alone", "choice, the second, a curfew of more passed by one alone",
    "price check, no closing price under a curfew",
    "price check true, a closing price of 0, and the closing period is full", "price check true, a closing price of 0, and the closing period has room", "price check true, a closing price of 0, and the closing period takes nobody",
    "price check true, a closing price of 1, and the closing period is full", "price check true, a closing price of 1, and the closing period takes nobody",
    "price check true, a closing price of more, and the closing period is full", "price check true, a closing price of 4,294,967,295, and the closing period takes nobody",
    "price check false, a closing price of 1, and the closing period has room", "price check false, a closing price of 1, and the closing period is full",
    "price check false, a closing price of 4,294,967,295, and the closing period has room", "full plan, a period after the last, whose price may be higher",
];

/// The same on days of full size.
const CURFEW_SIZES: [&str; 8] = [
    "full plan, a curfew just kept",
    "full plan, a curfew kept by more than 64 landings",
    "full plan, no plan under a curfew of 0, short from between",
    "full plan, no plan under a curfew of more, short from between",
    "quick plan, as many left beside a closing number of more",
    "quick plan, one more left beside a closing number of more",
    "board, a curfew of more passed by one alone",
    "price check false, a closing price of 1, and the closing period has room",
];

/// Prices of every kind of period, and such that the price check would say yes to higher ones too.
const PRICES: [&str; 9] = [
    "full plan, a period closed, a price",
    "full plan, a period closed, no price",
    "full plan, a period full, a price",
    "full plan, a period full, no price",
    "full plan, a period one with room, no price",
    "full plan, a period one of capacity 255, no price",
    "full plan, a period closed, whose price may be higher",
    "full plan, a period full, whose price may be higher",
    "full plan, every changed day planned, of fewer periods",
];

const SIZES: [&str; 16] = [
    "full plan of 96 periods and 128 flights",
    "full plan of more than 64 flights, some held, some period open",
    "full plan, every changed day planned, of 96 periods",
    "full plan above 250,000,000",
    "full plan of 250,880,000",
    "quick plan of 96 periods and 128 flights",
    "quick plan of more than 64 flights, some held, some period open",
    "card with marks in the low word true, in the high word true",
    "card with marks in the low word false, in the high word true",
    "full plan [9]",
    "board of 128 flights, due together in a numbered period",
    "board of 128 flights, due in table order in a numbered period",
    "board of 128 flights, due against table order in a numbered period",
    "board of 128 flights, due together in the closing period",
    "board of 128 flights, due in table order in the closing period",
    "board of 128 flights, due against table order in the closing period",
];

/// What the forecast plan must have met: every count and air factor, what can happen to a flight, and every refusal at its edges.
#[rustfmt::skip]
const FORECASTS: [&str; 81] = [
    "count 1", "count 2", "count 3", "count 4", "count 5", "count 6", "count 7", "count 8",
    "air factor 1", "air factor 2", "air factor 3", "air factor 4", "air factor 5",
    "air factor 6", "air factor 7", "air factor 8", "air factor 9", "air factor 10",
    "a forecast of weight 0", "two forecasts, two landings", "limit 0", "limit 96", "no limit", "no flight",
    "held", "held to the closing period", "held, with a late and an after", "held, and in the air besides",
    "held as long as the limit allows", "the limit stops a hold that costs less",
    "two holds cost the least", "the cost rises before it falls to the least",
    "in the air to a numbered period", "in the air to the closing period", "in the air for several periods",
    "in the air over a closed period", "in the air over a full period",
    "no day", "a jump of the first flight", "a jump of a flight between", "a jump of the last flight",
    "a curfew of 0", "a curfew of 255", "a curfew of less than all flights", "a curfew that every flight may pass",
    "an air factor of 0", "an air factor of 11", "an air factor of more", "a count of 0", "a count of 9", "a count of more",
    "a hold row of none", "a hold row one shorter", "a hold row one longer", "a hold row shorter", "a hold row longer",
    "a weight row of none", "a weight row one shorter", "a weight row one longer", "a weight row shorter", "a weight row longer",
    "a forecast row of none", "a forecast row one shorter", "a forecast row one longer",
    "a forecast row for another count", "a forecast row for another P",
    "weights of 999", "weights of 1,001", "weights of 1,000 in 32 bits", "weights of 1,000 in 16 bits",
    "weights of less", "weights of more", "weights of more by one alone",
    "a forecast capacity of 256 at the first place", "a forecast capacity above at the first place",
    "a forecast capacity of 256 between", "a forecast capacity above between",
    "a forecast capacity of 256 at the last place", "a forecast capacity above at the last place",
    "a forecast capacity of 256 between, of weight 0", "a forecast capacity above between, of weight 0",
];

const FORECAST_SIZES: [&str; 8] = [
    "96 periods, 128 flights and 8 forecasts",
    "in the air from table place 64 on",
    "the 128th flight in the air",
    "held for more than 64 periods",
    "a total above 2^32",
    "a total above 2^40",
    "a total of 1,228,800,000,000",
    "no day",
];

/// What the growing plan must have met: every number of periods, who goes first, and every refusal at its edges.
#[rustfmt::skip]
const GROWTH: [&str; 60] = [
    "1 periods", "2 periods", "3 periods", "4 periods", "5 periods", "6 periods",
    "held for 0 periods", "held for 1 periods", "held for 2 periods", "held for 3 periods", "held for 4 periods", "held for 5 periods", "held for 6 periods",
    "some land and some wait in period 1", "some land and some wait in period 2", "some land and some wait in period 3",
    "some land and some wait in period 4", "some land and some wait in period 5", "some land and some wait in period 6",
    "a tie of dues 1 apart", "a tie of dues 2 apart", "a tie of dues 3 apart", "a tie of dues 4 apart", "a tie of dues 5 apart",
    "a tie of two dues against table order", "a tie of one due",
    "the later due first, which whole units do not tell", "the later due first, which thousandths do not tell", "the later due first, which 24 bits do not tell",
    "no flight", "nobody held", "held, with a late and an after", "every plan tried",
    "no day", "a hold row of none", "a hold row one shorter", "a hold row one longer", "a hold row longer",
    "a jump of the first flight", "a jump of a flight between", "a jump of the last flight",
    "a limit of the first flight", "a limit of a flight between", "a limit of the last flight",
    "a growth of 41", "a growth of 42", "a growth of 4,294,967,295", "a growth that fits in a byte", "a growth that fits in 16 bits",
    "7 periods", "8 periods",
    "as many left as the closing number", "fewer left than the closing number", "nobody left, and the closing number 0", "the closing number 255", "some left, and no curfew",
    "one more left than nobody", "several more left than nobody", "one more left than the closing number", "several more left than the closing number",
];

const GROWTH_SIZES: [&str; 13] = [
    "6 periods and 128 flights",
    "a tie of two dues past table place 64",
    "a tie of one due from table place 64 on",
    "a tie with the 128th flight",
    "a total above 2^32",
    "a total above 2^48",
    "a total above 2^52",
    "a total of 4,999,680,000,000,000",
    "96 periods",
    "more than 8 periods",
    "too many periods, and growth 0",
    "no day",
    "a hold row shorter",
];

/// What must have been met with each growth; with growth 0 no lower rate lands first.
fn with_each_growth() -> Vec<String> {
    let every = (0..=growth::MOST).flat_map(|a| growth::FOR_EACH.map(|what| format!("{what}, growth {a}")));
    every.filter(|what| what != "the lower rate first, growth 0").collect()
}

/// What the plan reader must have met: plans of all kinds, and each line with everything that can be wrong with it.
#[rustfmt::skip]
const READ_BACK: [&str; 74] = [
    "every plan's text made", "a plan", "a cheapest plan", "a plan that is not cheapest", "no flight",
    "several in the closing period", "none in the closing period", "as many in the closing period as may be", "fewer in the closing period than may be",
    "nobody may land in the closing period", "a full period", "a hold at its limit", "a cost of 7 digits",
    "a jump at hold 0", "late + hold equal to after", "late + hold one more than after", "a jump that the low seven bits of late do not cost",
    "no day", "a hold row of none", "a hold row one shorter", "a hold row one longer", "a hold row longer", "a hold row of 128",
    "no legal plan, an empty text", "no legal plan, the names line alone", "no legal plan, the names line and a flight's line",
    "no legal plan, the names line and another line", "no legal plan, another line",
    "no legal plan under a curfew, an empty text", "no legal plan under a curfew, the names line alone", "no legal plan under a curfew, the names line and a flight's line",
    "no legal plan under a curfew, the names line and another line", "no legal plan under a curfew, another line",
    "ends before the names line", "ends before a flight's line", "ends before the line before the total", "ends before the total",
    "the names line without its end byte", "a flight's line without its end byte", "the line before the total without its end byte", "the total without its end byte",
    "a part of the names line, or other bytes", "a part of a flight's line, or other bytes", "a part of the line before the total, or other bytes", "a part of the total, or other bytes",
    "not the names line", "not the line before the total", "another flight's line",
    "a flight's line with fewer fields", "a flight's line with more fields", "a line with several wrong numbers",
    "for the cost that without late", "for the cost that without the jump", "for the cost that without the jump at hold 0", "for the cost that with the jump at after",
    "right in itself, one over its limit", "right in itself, over its limit",
    "right in itself, just after the closing period", "right in itself, far after the closing period",
    "right in itself, in a period, which is full", "right in itself, in a period, which takes nobody",
    "right in itself, in the closing period, which is full", "right in itself, in the closing period, which takes nobody",
    "right in itself, but the closing period cannot take later flights, since this one lands there",
    "right in itself, but the closing period cannot take later flights, since this one lands elsewhere",
    "right in itself, but the next flight cannot land", "right in itself, but a later flight cannot land", "right in itself, but later flights cannot all land",
    "behind the total an end byte", "behind the total a byte 0", "behind the total a byte", "behind the total a byte 0 and more",
    "behind the total whole lines", "behind the total bytes without an end byte",
];

#[rustfmt::skip]
const READ_BACK_SIZES: [&str; 32] = [
    "96 periods and 128 flights", "128 flights in the closing period", "more than 64 landings in a numbered period", "a hold of more than 64 at its limit",
    "a total of 9 digits", "a total of 250,880,000", "a text of 2,859 bytes",
    "no day", "a hold row of none", "a hold row one shorter", "a hold row one longer", "a hold row of 128",
    "no legal plan, the names line and a flight's line, 96 periods and 128 flights", "no legal plan, another line, a text of more than 8,192 bytes",
    "not the names line, 96 periods and 128 flights", "not the names line, a text of more than 8,192 bytes",
    "ends before a flight's line, 96 periods and 128 flights", "ends before the total, 96 periods and 128 flights", "the total without its end byte, 96 periods and 128 flights",
    "behind the total an end byte, 96 periods and 128 flights", "behind the total whole lines, 96 periods and 128 flights",
    "behind the total bytes without an end byte, a text of more than 8,192 bytes", "behind the total bytes without an end byte, a text of more than 65,536 bytes",
    "right in itself, but the next flight cannot land, 96 periods and 128 flights", "right in itself, but a later flight cannot land, 96 periods and 128 flights",
    "right in itself, but later flights cannot all land, 96 periods and 128 flights", "right in itself, in a period, which is full, 96 periods and 128 flights",
    "right in itself, in the closing period, which is full, 96 periods and 128 flights",
    "right in itself, but the closing period cannot take later flights, since this one lands elsewhere, 96 periods and 128 flights",
    "no legal plan under a curfew, the names line and a flight's line, 96 periods and 128 flights",
    "the rest of a day planned, with a plan", "the rest of a day planned, with none",
];

/// What `must_reach` asks, of one call.
fn must_meet(run: &Run, call: &str, least: u64, wanted: &[&str], more: &[String]) {
    let all: Vec<String> = wanted.iter().copied().chain(more.iter().map(String::as_str)).map(|what| format!("{call}, {what}")).collect();
    must_reach(run, least, &all.iter().map(String::as_str).collect::<Vec<_>>());
}

#[rustfmt::skip]
const READER: [&str; 11] = [
    "reader []", "reader [1]", "reader [2]", "reader [3]", "reader [4]", "reader [5]",
    "reader [7]", "reader [7, 7]", "reader [7, 1]", "reader [7, 2]", "reader [7, 5]",
];

#[test]
fn small_days() {
    let mut run = Run::of(1);
    for _ in 0..days() * 2 {
        let day = inputs::random_day(&run.seed, 4, 5);
        assert_eq!(least_by_trial(&day), least_by_moves(&day), "the two planners here");
        assert_eq!(savings_by_planning(&day, least_by_trial), savings_by_moves(&day), "the savings by both");
        every_call_of_a_day(&mut run, &day);
    }
    must_reach(&run, 20, &EVERY_REFUSAL);
    must_reach(&run, 20, &CURFEWS);
    must_reach(&run, 20, &BOARDS);
    must_reach(&run, 20, &DELAYS);
    must_reach(&run, 20, &PRICES);
}

#[test]
fn large_days() {
    let mut run = Run::of(5);
    for round in 0..days() / 2 {
        let day = match round % 16 {
            0 => inputs::heavy_day(&run.seed),
            1..=2 => inputs::day_open_at_its_end(&run.seed),
            3..=7 => inputs::day_of_size(&run.seed, 96, 128),
            _ => inputs::random_day(&run.seed, 96, 128),
        };
        every_call_of_a_day(&mut run, &day);
    }
    must_reach(&run, 5, &SIZES);
    must_reach(&run, 5, &CURFEW_SIZES);
    must_reach(&run, 5, &DELAYS);
    must_reach(&run, 5, &PRICES);
}

/// Every closing number and some beyond, each in every call: for days of which all flights, or most, are left for the closing period.
#[test]
fn every_closing_number() {
    let mut run = Run::of(13);
    for round in 0..days() / 500 {
        let (growth, flights) = (growth_inputs::growth(&run.seed), if round == 0 { 128 } else { run.seed.between(1, 32) });
        let mut day = growth_inputs::day_of_size(&run.seed, growth, run.seed.between(1, 6), flights);
        day.capacities.iter_mut().for_each(|capacity| *capacity = (*capacity).min(if round == 0 { 0 } else { 1 }));
        let (n, holds) = (day.flights.len(), quick_by_sorting(&day).0);
        for closing in (0..=260).chain([384, 511, 512, 65_535, 65_536, 65_792, 1 << 31, u32::MAX - 1, u32::MAX]) {
            let rows = Rows { closing, ..day.rows() };
            let prices = vec![0; rows.capacities.len() + usize::from(closing < UNLIMITED)];
            run.quick(&rows, n);
            run.growth(&rows, growth::Terms { growth, holds: n });
            run.full(&rows, n, prices.len());
            run.card(&rows, day.periods());
            run.price_check(&rows, &holds, &prices);
            run.choice(&rows, &holds, &holds);
            run.board(&rows, &holds, n);
            run.text(&rows, &holds, 3_000, 0);
            run.write(&rows, 8_192, 0);
            run.read_plan(&rows, day.plan_text(&holds).as_bytes(), n, None);
            let terms = forecast_inputs::some_terms(&run.seed, &rows);
            run.forecast(&rows, &terms);
        }
    }
    must_reach(&run, 5, &["quick plan []", "quick plan [9]", "quick plan [6]", "card []", "card [6]", "board [10]", "writer [6]", "price check of a bad day"]);
}

#[test]
fn small_days_with_forecasts() {
    let mut run = Run::of(15);
    for _ in 0..days() * 2 {
        let day = forecast_inputs::random_day(&run.seed, 5, 6);
        forecasts_of_a_day(&mut run, &day, 16);
    }
    must_meet(&run, "forecast plan", 20, &FORECASTS, &orders(&forecasts::REASONS));
}

#[test]
fn large_days_with_forecasts() {
    let mut run = Run::of(6);
    for round in 0..days() / 4 {
        let day = match round % 8 {
            0 => {
                let (day, terms) = forecast_inputs::dearest(&run.seed);
                run.forecast(&day.rows(), &terms);
                day
            }
            1 => forecast_inputs::without_jumps(inputs::day_open_at_its_end(&run.seed)),
            2..=4 => forecast_inputs::day_of_size(&run.seed, 96, 128),
            _ => forecast_inputs::random_day(&run.seed, 96, 128),
        };
        forecasts_of_a_day(&mut run, &day, 5);
    }
    must_meet(&run, "forecast plan", 5, &FORECAST_SIZES, &[]);
}

#[test]
fn small_days_with_growth() {
    let mut run = Run::of(14);
    for _ in 0..days() * 16 {
        let growth = growth_inputs::growth(&run.seed);
        let day = match run.seed.below(2) {
            0 => growth_inputs::random_day(&run.seed, growth, 6),
            _ => growth_inputs::day_of_size(&run.seed, growth, 6, run.seed.between(2, 5)),
        };
        growth_of_a_day(&mut run, &day, growth, 2);
    }
    must_meet(&run, "growing plan", 2, &GROWTH, &[with_each_growth(), orders(&growth::REASONS)].concat());
}

#[test]
fn large_days_with_growth() {
    let mut run = Run::of(9);
    for round in 0..days() / 2 {
        let growth = growth_inputs::growth(&run.seed);
        let (growth, day) = match round % 8 {
            0 => (growth::MOST, growth_inputs::heavy_day(&run.seed)),
            1..=3 => (growth, growth_inputs::day_of_size(&run.seed, growth, 6, 128)),
            _ => (growth, growth_inputs::random_day(&run.seed, growth, 128)),
        };
        growth_of_a_day(&mut run, &day, growth, 2);
    }
    must_meet(&run, "growing plan", 2, &GROWTH_SIZES, &[]);
}

#[test]
fn small_days_read_back() {
    let mut run = Run::of(10);
    for round in 0..days() * 4 {
        let some = |low, high| run.seed.between(low, high);
        let day = match round % 4 {
            0 => inputs::random_day(&run.seed, 4, 5),
            1 => read_back_inputs::tight_day(&run.seed, some(1, 2), some(2, 6)),
            _ => read_back_inputs::tight_day(&run.seed, some(1, 4), some(0, 5)),
        };
        let all = AllTexts::of(&day);
        read_back_of_a_day(&mut run, &day, Some(&all), 2, 16);
        if round % 16 == 3 {
            every_cut(&mut run, &day, &all);
        }
    }
    must_meet(&run, "plan reader", 20, &READ_BACK, &orders(&read_back::REASONS));
    must_meet(&run, "plan reader", 5, &[], &read_back::every_wrong_number());
}

#[test]
fn large_days_read_back() {
    let mut run = Run::of(11);
    for round in 0..days() / 2 {
        let day = match round % 16 {
            0 => inputs::heavy_day(&run.seed),
            1 => read_back_inputs::longest_day(&run.seed),
            2 => inputs::day_open_at_its_end(&run.seed),
            3..=4 => inputs::day_of_size(&run.seed, 96, 128),
            5..=6 => inputs::random_day(&run.seed, 96, 128),
            7..=10 => read_back_inputs::tight_day(&run.seed, 96, 128),
            _ => read_back_inputs::tight_day(&run.seed, run.seed.between(1, 96), run.seed.between(0, 128)),
        };
        read_back_of_a_day(&mut run, &day, None, 2, 16);
    }
    must_meet(&run, "plan reader", 2, &READ_BACK_SIZES, &[]);
}

#[test]
fn sheets() {
    let mut run = Run::of(3);
    for round in 0..days() * 10 {
        let some = |low, high| run.seed.between(low, high);
        let day = match round % 16 {
            0 => inputs::day_of_size(&run.seed, 96, run.seed.pick(&[1, 128])),
            1 => inputs::day_of_size(&run.seed, run.seed.pick(&[1, 5, 96]), 128),
            2 => inputs::day_of_size(&run.seed, some(1, 96), some(0, 128)),
            3 => inputs::wide_day(&run.seed),
            _ => inputs::day_of_size(&run.seed, some(1, 11), some(0, 5)),
        };
        let sheet = day.sheet();
        run.read(sheet.as_bytes(), PERIODS, FLIGHT_ROW);
        let bytes = inputs::damaged(&run.seed, &sheet);
        run.read(&bytes, PERIODS, FLIGHT_ROW);
        let lengths = (inputs::length(&run.seed, PERIODS), inputs::length(&run.seed, FLIGHT_ROW));
        run.read(&bytes, lengths.0, lengths.1);
    }
    must_reach(&run, 100, &READER);
}

/// A sheet that is refused so, by the reader here and by the core.
fn expect_refused(run: &mut Run, sheet: &str, number: u64, offset: usize) {
    assert_eq!(plain_read(sheet.as_bytes()).err(), Some((number, offset as u64)), "{sheet}");
    run.read(sheet.as_bytes(), PERIODS, FLIGHT_ROW);
}

/// Sheets without the column late get 2 at the second names line, or 5 after 96 period lines and no closing line. Where it is there, a
/// late out of range gets 3, and one that is missing or no number 2.
#[test]
fn sheets_without_late() {
    let mut run = Run::of(4);
    for round in 0..days() / 2 {
        let periods = if round % 4 == 0 { PERIODS } else { run.seed.between(1, 95) as usize };
        let day = inputs::day_of_size(&run.seed, periods as u64, run.seed.between(1, 128));
        let sheet = day.sheet();
        let names = sheet.find("flight").unwrap();
        let number = if periods == PERIODS && day.curfew.is_none() { 5 } else { 2 };
        expect_refused(&mut run, &inputs::old_form(&sheet), number, names);
        expect_refused(&mut run, &sheet.replacen(",late\n", "\n", 1), number, names);
        expect_refused(&mut run, &inputs::old_form(&sheet.replace(&sheet[16..names], "")), 2, 16);
        // the last flight's line, up to its late
        let line = sheet[..sheet.len() - 1].rfind('\n').unwrap() + 1;
        let start = &sheet[..sheet.rfind(',').unwrap()];
        for (late, number) in [(",256", 3), (",9999999", 3), (",-", 2), (",", 2), ("", 2), (",00", 2), (",10000000", 2), (",0,0", 2)] {
            expect_refused(&mut run, &format!("{start}{late}\n"), number, line);
        }
    }
    must_reach(&run, 100, &["reader [2]", "reader [3]", "reader [5]"]);
}

/// A closing line in every place, of every form. Between the names lines whatever begins with `closing,` is taken for it: straight behind
/// the first it gets 5; behind 1 to 96 period lines it is read, and only the second names line may follow.
#[test]
fn sheets_with_a_closing_line() {
    let mut run = Run::of(12);
    for round in 0..days() / 4 {
        let periods = if round % 4 == 0 { PERIODS } else { run.seed.between(1, 95) as usize };
        let mut day = inputs::day_of_size(&run.seed, periods as u64, run.seed.pick(&[0, 1, 3, 128]));
        day.curfew = None;
        let sheet = day.sheet();
        let (names, late) = (sheet.find(NAMES[1]).unwrap(), if periods == PERIODS { 5 } else { 2 });
        let with = |line: &str| [&sheet[..names], line, &sheet[names..]].concat();
        let closing = (round % 258) as u32;
        day.curfew = Some(closing);
        match closing {
            0..=255 => run.read(day.sheet().as_bytes(), PERIODS, FLIGHT_ROW),
            _ => expect_refused(&mut run, &day.sheet(), 3, names),
        }
        for (line, number) in inputs::closing_lines(&run.seed) {
            expect_refused(&mut run, &with(&line), number, names);
            // straight behind the first names line, with the period lines behind it and without
            expect_refused(&mut run, &[&sheet[..16], &line, &sheet[16..]].concat(), 5, 16);
            expect_refused(&mut run, &[&sheet[..16], &line].concat(), 5, 16);
            // between two period lines
            let second = 16 + sheet[16..].find('\n').unwrap() + 1;
            expect_refused(&mut run, &[&sheet[..second], &line, &sheet[second..]].concat(), number, second);
        }
        // cut within its number: 5 straight behind the first names line, else 2
        expect_refused(&mut run, &[&sheet[..16], "closing,1"].concat(), 5, 16);
        expect_refused(&mut run, &[&sheet[..16], "closing,"].concat(), 5, 16);
        expect_refused(&mut run, &[&sheet[..names], "closing,1"].concat(), 2, names);
        expect_refused(&mut run, &[&sheet[..names], "closing,"].concat(), 2, names);
        for ordinary in ["closing\n", "closing", "Closing,1\n", "closing;1\n", " closing,1\n", "closin,1\n"] {
            expect_refused(&mut run, &with(ordinary), late, names);
            expect_refused(&mut run, &[&sheet[..16], ordinary].concat(), 2, 16);
        }
        let line = format!("closing,{}\n", run.seed.below(256));
        expect_refused(&mut run, &[&sheet[..16], &line, &sheet[16..]].concat(), 5, 16);
        expect_refused(&mut run, &[&sheet[..16], &line, &sheet[names..]].concat(), 5, 16);
        // what follows a closing line, also behind 96 period lines
        let behind = names + line.len();
        let next = format!("{},1\n", periods + 1);
        for other in [&line[..], &next, "closing,256\n", "closing,", "closing\n", "\n", "1,1\n", NAMES[1], "flight,due,rate,after,jump,limit\n", "period,capacity\n", "11,1,10,0,0,-,0\n", "x"] {
            expect_refused(&mut run, &[&sheet[..names], &line, other].concat(), 2, behind);
        }
        expect_refused(&mut run, &[&sheet[..names], &line].concat(), 2, behind);
        // elsewhere it is a line like any other
        expect_refused(&mut run, &[&line, &sheet[..]].concat(), 2, 0);
        expect_refused(&mut run, &[&sheet[..], &line].concat(), if day.flights.len() == 128 { 5 } else { 2 }, sheet.len());
        let flights = names + NAMES[1].len() + 1;
        expect_refused(&mut run, &[&sheet[..flights], &line, &sheet[flights..]].concat(), 2, flights);
    }
    must_reach(&run, 100, &["reader []", "reader [2]", "reader [3]", "reader [5]"]);
}

/// The report's example (NASA CR 177558, section 2.2.3), as printed there: the eligible flights and those that operate, period by
/// period.
#[test]
fn the_reports_plan() {
    let sheet = include_bytes!("../../../../examples/case-j.csv");
    let day = plain_read(sheet).unwrap();
    let rows = day.rows();
    let mut holds = vec![0; 10];
    assert_eq!(quick_plan(&rows.capacities, &rows.flights, rows.closing, &mut holds), answer(0, 45, 0));
    let eligible: [&[u32]; 7] = [&[], &[], &[1, 5, 7], &[4, 7, 9, 10], &[2, 3, 6, 7, 8, 10], &[2, 6, 7, 10], &[2, 6]];
    let operates: [&[u32]; 7] = [&[], &[], &[1, 5], &[4, 9], &[3, 8], &[7, 10], &[2, 6]];
    for period in 1..=7 {
        let landed: Vec<u32> = day.flights.iter().zip(&holds).filter(|(f, &h)| f.due + h == period).map(|(f, _)| f.number).collect();
        assert_eq!(landed, operates[period as usize - 1]);
        let card = period_card(&rows.capacities, &rows.flights, rows.closing, period);
        let marked: Vec<u32> = (0..10).filter(|i| card.low >> i & 1 == 1).map(|i| day.flights[i].number).collect();
        assert_eq!(marked, eligible[period as usize - 1]);
        assert_eq!((card.number, card.high, card.size as usize), (0, 0, marked.len()));
    }
}

/// The report's other example (section 3.2), its flights from its 4 down to its 1, as document 02 has it: with the odds reversed
/// flight 2 is held for 2 periods, so that flight 1 is better held for 1 than kept in the air.
#[test]
fn the_reports_forecasts() {
    let flights = [[4, 2, 10], [3, 1, 5], [2, 1, 10], [1, 3, 10]].map(|[number, due, rate]| [number, due, rate, 0, 0, 255, 0]).concat();
    let mut run = Run::of(7);
    for (weights, holds, total) in [([400, 600], [0, 0, 0, 0], 24_000), ([600, 400], [0, 0, 2, 1], 30_000)] {
        let rows = Rows { capacities: vec![0; 4], flights: flights.clone(), closing: UNLIMITED };
        let terms = Terms { count: 2, air_factor: 2, weights: weights.to_vec(), forecasts: [[1; 4], [2; 4]].concat(), holds: 4 };
        let mut got = [9; 4];
        assert_eq!(forecast_plan(&rows.capacities, &rows.flights, rows.closing, 2, 2, &weights, &terms.forecasts, &mut got), answer(0, total, 0));
        assert_eq!(got, holds);
        run.forecast(&rows, &terms);
    }
}
