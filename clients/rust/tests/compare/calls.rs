//! Each exported call compared with what document 01, or 02 for the curfew, the growing plan, the plan reader and the forecast plan,
//! says of it: the answer, and every lent row afterwards. A call is given rows of any content and length; the refusals that apply are listed in the document's
//! order, and the first is the answer.
use crate::day::{plain_read, Day, Flight, Rows, FLIGHTS, FLIGHT_ROW, PERIODS, UNLIMITED, WIDTH};
use crate::forecasts::{choices_by_places, choices_by_queues, met, met_in_refusal, Terms};
use crate::growth;
use crate::planners::{accepts, closing_landings, least_by_moves, least_by_moves_with, least_by_trial_with, quick_by_sorting, savings_by_moves, savings_by_planning, short_stretch};
use crate::read_back::{self, AllTexts};
use crate::seed::Seed;
use hold_desk_client::*;
use std::collections::BTreeMap;
use std::fmt::Debug;

pub fn answer(number: u64, first: u64, second: u64) -> Answer {
    Answer { number, first, second }
}

/// An answer of the sheet reader, with the closing number.
fn read_as(a: Answer, closing: u32) -> Reading {
    Reading { number: a.number, first: a.first, second: a.second, closing: closing as u64 }
}

pub trait Rubbish: Copy + PartialEq + Debug {
    fn any(seed: &Seed) -> Self;
}

impl Rubbish for u8 {
    fn any(seed: &Seed) -> u8 {
        seed.next() as u8
    }
}

impl Rubbish for u32 {
    fn any(seed: &Seed) -> u32 {
        seed.next() as u32
    }
}

/// A row to lend, full of rubbish, with rubbish on both sides that nobody may touch.
struct Lent<T> {
    before: Vec<T>,
    now: Vec<T>,
}

const MARGIN: usize = 16;

impl<T: Rubbish> Lent<T> {
    fn new(seed: &Seed, length: usize) -> Lent<T> {
        let before: Vec<T> = (0..length + 2 * MARGIN).map(|_| T::any(seed)).collect();
        Lent { now: before.clone(), before }
    }
    fn row(&mut self) -> &mut [T] {
        let end = self.now.len() - MARGIN;
        &mut self.now[MARGIN..end]
    }
    /// The entries from a place on are those given, and all others are as they were.
    fn expect(&self, place: usize, entries: &[T]) {
        let mut want = self.before.clone();
        want[MARGIN + place..MARGIN + place + entries.len()].copy_from_slice(entries);
        assert!(self.now == want, "row {:?} but wanted {:?}", &self.now, &want);
    }
    fn expect_kept(&self) {
        self.expect(0, &[]);
    }
}

/// A call that may read the day and these rows, and must leave them as they are.
fn reading<R>(rows: &Rows, others: &[&[u32]], call: impl FnOnce() -> R) -> R {
    let before = (rows.clone(), others.concat());
    let result = call();
    assert!(before == (std::hint::black_box(rows).clone(), std::hint::black_box(others).concat()), "a row lent for reading was changed");
    result
}

fn unless<T>(holds: bool, refusal: T) -> Option<T> {
    (!holds).then_some(refusal)
}

/// A seed, and how often each call met each list of refusals.
pub struct Run {
    pub seed: Seed,
    pub reached: BTreeMap<String, u64>,
}

impl Run {
    pub fn of(test: u64) -> Run {
        Run { seed: Seed::of(test), reached: BTreeMap::new() }
    }

    pub fn reach(&mut self, what: String) {
        *self.reached.entry(what).or_insert(0) += 1;
    }

    /// The first refusal that applies, or none; counted with those that it comes before.
    fn first(&mut self, call: &str, refusals: &[Answer]) -> Option<Answer> {
        self.reach(format!("{call} {:?}", refusals.iter().map(|a| a.number).collect::<Vec<_>>()));
        refusals.first().copied()
    }

    pub fn read(&mut self, sheet: &[u8], capacity_length: usize, flight_length: usize) {
        let mut capacities = Lent::new(&self.seed, capacity_length);
        let mut flights = Lent::new(&self.seed, flight_length);
        let before = sheet.to_vec();
        let got = read_sheet(sheet, capacities.row(), flights.row());
        assert!(before == std::hint::black_box(sheet), "the sheet was changed");
        let read = plain_read(sheet);
        let mut refusals = Vec::new();
        refusals.extend(unless(capacity_length == PERIODS, answer(7, PERIODS as u64, 0)));
        refusals.extend(unless(flight_length == FLIGHT_ROW, answer(7, FLIGHT_ROW as u64, 0)));
        refusals.extend(read.as_ref().err().map(|&(number, first)| answer(number, first, 0)));
        if let Some(refusal) = self.first("reader", &refusals) {
            assert_eq!(got, read_as(refusal, 0), "{:?}", String::from_utf8_lossy(sheet));
            capacities.expect_kept();
            return flights.expect_kept();
        }
        let day = read.unwrap();
        assert_eq!(got, read_as(answer(0, day.periods() as u64, day.flights.len() as u64), day.curfew.unwrap_or(UNLIMITED)));
        capacities.expect(0, &day.capacities);
        flights.expect(0, &day.rows().flights);
        assert_eq!(day.sheet().as_bytes(), sheet, "a sheet that is read is the sheet that is written");
    }

    pub fn write(&mut self, rows: &Rows, length: usize, place: usize) {
        let mut text = Lent::new(&self.seed, length);
        let got = reading(rows, &[], || write_sheet(&rows.capacities, &rows.flights, rows.closing, text.row(), place));
        let sheet = rows.day().map(|day| day.sheet());
        self.expect_text("writer", sheet.ok_or(vec![answer(6, 0, 0)]), got, text, place);
    }

    pub fn text(&mut self, rows: &Rows, holds: &[u32], length: usize, place: usize) {
        let mut text = Lent::new(&self.seed, length);
        let got = reading(rows, &[holds], || plan_text(&rows.capacities, &rows.flights, rows.closing, holds, text.row(), place));
        let plan = match rows.day() {
            None => Err(vec![answer(6, 0, 0)]),
            Some(day) => {
                self.reach_over_curfew("plan text", &day, holds);
                not_a_plan(&day, holds, None).map(|()| day.plan_text(holds))
            }
        };
        self.expect_text("plan text", plan, got, text, place);
    }

    /// The text stands from the place on, or nothing was written; a text's length comes last.
    fn expect_text(&mut self, call: &str, text: Result<String, Vec<Answer>>, got: Answer, buffer: Lent<u8>, place: usize) {
        let room = (buffer.now.len() - 2 * MARGIN).checked_sub(place);
        let (text, mut refusals) = match text {
            Ok(text) => (text, vec![]),
            Err(refusals) => (String::new(), refusals),
        };
        if refusals.is_empty() {
            refusals.extend(unless(room.is_some_and(|r| r >= text.len()), answer(7, text.len() as u64, 0)));
        } else if room.is_none() {
            // no text fits there
            refusals.push(answer(7, 0, 0));
        }
        match self.first(call, &refusals) {
            Some(refusal) => {
                assert_eq!(got, refusal);
                buffer.expect_kept();
            }
            None => {
                assert_eq!(got, answer(0, text.len() as u64, 0));
                buffer.expect(place, text.as_bytes());
            }
        }
    }

    pub fn quick(&mut self, rows: &Rows, length: usize) {
        let mut holds = Lent::new(&self.seed, length);
        let got = reading(rows, &[], || quick_plan(&rows.capacities, &rows.flights, rows.closing, holds.row()));
        let day = rows.day();
        let refusals = day.as_ref().map_or(vec![answer(6, 0, 0)], |day| {
            let n = day.flights.len();
            let jump = day.first_with_jump_or_limit().map(|place| answer(8, place as u64, 0));
            unless(length == n, answer(7, n as u64, 0)).into_iter().chain(jump).chain(no_plan(day)).collect()
        });
        self.reach_left(day.as_ref(), &refusals);
        if let Some(refusal) = self.first("quick plan", &refusals) {
            assert_eq!(got, refusal);
            return holds.expect_kept();
        }
        let day = day.unwrap();
        let (want, _) = quick_by_sorting(&day);
        assert!(day.legal_total(&want).is_some(), "no stretch is short, and the quick plan is not legal: {rows:?}");
        assert_eq!(got, answer(0, day.total(&want), 0));
        holds.expect(0, &want);
        self.reach_sizes("quick plan", &day, got.first);
    }

    pub fn growth(&mut self, rows: &Rows, terms: growth::Terms) {
        let mut holds = Lent::new(&self.seed, terms.holds);
        let got = reading(rows, &[], || growth_plan(&rows.capacities, &rows.flights, rows.closing, terms.growth, holds.row()));
        let refusals = terms.refusals(rows);
        if let Some(&(_, refusal)) = refusals.first() {
            assert_eq!(got, refusal, "{refusals:?} {rows:?} {terms:?}");
            holds.expect_kept();
            return self.reach_reasons("growing plan", &refusals, |why| growth::met_in_refusal(rows, terms, why));
        }
        let day = rows.day().unwrap();
        let plan = growth::plan_by_paying(&day, terms.growth);
        assert_eq!(plan.holds, growth::holds_by_places(&day, terms.growth), "the two simulations here");
        assert_eq!(got, answer(0, plan.total, 0), "{rows:?} {terms:?}");
        holds.expect(0, &plan.holds);
        self.growth_is_cheapest(&day, terms.growth, &plan);
        if terms.growth == 0 {
            let mut quick = Lent::new(&self.seed, terms.holds);
            let total = quick_plan(&rows.capacities, &rows.flights, rows.closing, quick.row()).first;
            assert_eq!(total * 1_000_000, got.first, "growth 0 is the quick plan");
            quick.expect(0, &plan.holds);
        }
        for what in growth::met(&day, terms.growth, &plan) {
            self.reach(format!("growing plan, {what}"));
        }
    }

    /// The plan is legal, its holds cost its total, and no legal plan costs less: by the planner that knows no order of flights, and on
    /// small days by trying every plan.
    fn growth_is_cheapest(&mut self, day: &Day, growth: u32, plan: &growth::Plan) {
        let cost = |f: &Flight, hold: u32| growth::cost(f, growth, hold);
        assert!(day.legal_total(&plan.holds).is_some());
        assert_eq!(day.flights.iter().zip(&plan.holds).map(|(f, &hold)| cost(f, hold)).sum::<u64>(), plan.total, "by the closed formula");
        assert_eq!(least_by_moves_with(day, cost), Some(plan.total), "{day:?} {growth}");
        if day.flights.len() <= 5 {
            assert_eq!(least_by_trial_with(day, cost), Some(plan.total), "{day:?} {growth}");
            self.reach("growing plan, every plan tried".into());
        }
    }

    pub fn card(&mut self, rows: &Rows, period: u32) {
        let got = reading(rows, &[], || period_card(&rows.capacities, &rows.flights, rows.closing, period));
        let day = rows.day();
        let refusals = day.as_ref().map_or(vec![answer(6, 0, 0)], |day| {
            let jump = day.first_with_jump_or_limit().map(|place| answer(8, place as u64, 0));
            let inside = (1..=day.periods()).contains(&period);
            jump.into_iter().chain(unless(inside, answer(11, day.periods() as u64, 0))).collect()
        });
        if let Some(r) = self.first("card", &refusals) {
            return assert_eq!(got, Card { number: r.number, first: r.first, second: r.second, low: 0, high: 0, size: 0 });
        }
        let day = day.unwrap();
        let (holds, eligible) = quick_by_sorting(&day);
        if day.curfew < Some(closing_landings(&day, &holds)) && day.curfew.is_some() {
            self.reach("card of a day without a legal plan".into());
        }
        let set = &eligible[period as usize - 1];
        let words = set.iter().fold(0u128, |w, &i| w | 1 << i);
        assert_eq!(got, Card { number: 0, first: 0, second: 0, low: words as u64, high: (words >> 64) as u64, size: set.len() as u64 });
        self.reach(format!("card with marks in the low word {}, in the high word {}", words as u64 > 0, words >> 64 > 0));
    }

    /// The full plan. The rows that it filled, if it was accepted.
    pub fn full(&mut self, rows: &Rows, hold_length: usize, price_length: usize) -> Option<(Vec<u32>, Vec<u32>)> {
        let mut holds = Lent::new(&self.seed, hold_length);
        let mut prices = Lent::new(&self.seed, price_length);
        let got = reading(rows, &[], || full_plan(&rows.capacities, &rows.flights, rows.closing, holds.row(), prices.row()));
        let day = rows.day();
        let refusals = day.as_ref().map_or(vec![answer(6, 0, 0)], |day| {
            let (n, priced) = (day.flights.len(), day.priced());
            let lengths = [unless(hold_length == n, answer(7, n as u64, 0)), unless(price_length == priced, answer(7, priced as u64, 0))];
            lengths.into_iter().flatten().chain(no_plan(day)).collect()
        });
        if let Some(refusal) = self.first("full plan", &refusals) {
            assert_eq!(got, refusal, "{rows:?}");
            self.reach_no_plan(day.as_ref(), refusal, price_length);
            holds.expect_kept();
            prices.expect_kept();
            return None;
        }
        let day = day.unwrap();
        let (hold_row, price_row) = (holds.row().to_vec(), prices.row().to_vec());
        holds.expect(0, &hold_row);
        prices.expect(0, &price_row);
        assert_eq!(day.legal_total(&hold_row), Some(got.first));
        assert_eq!(got, answer(0, least_by_moves(&day).expect("no stretch is short"), 0));
        assert!(accepts(&day, &hold_row, &price_row), "{rows:?} {price_row:?}");
        let savings: Vec<u64> = price_row.iter().map(|&price| price as u64).collect();
        assert_eq!(Some(&savings), savings_by_moves(&day).as_ref(), "{rows:?}");
        if day.curfew.is_some() && (day.periods() <= 4 || self.seed.one_in(16)) {
            let unlimited = Day { curfew: None, ..day.clone() };
            assert_eq!(least_by_moves(&unlimited), Some(got.first), "a curfew that leaves a plan leaves the total: {rows:?}");
            assert_eq!(savings_by_moves(&unlimited).unwrap(), savings[..savings.len() - 1], "and the prices: {rows:?}");
        }
        if day.periods() <= 4 || self.seed.one_in(16) {
            assert_eq!(Some(&savings), savings_by_planning(&day, least_by_moves).as_ref(), "{rows:?}");
            self.reach(format!("full plan, every changed day planned, of {} periods", if day.periods() == 96 { "96" } else { "fewer" }));
        }
        self.reach_sizes("full plan", &day, got.first);
        self.reach_delays(&day, &hold_row);
        self.reach_prices(&day, &hold_row, &price_row);
        self.reach_curfew("full plan", &day, &hold_row);
        Some((hold_row, price_row))
    }

    pub fn price_check(&mut self, rows: &Rows, holds: &[u32], prices: &[u32]) {
        let day = rows.day();
        let want = day.as_ref().is_some_and(|day| accepts(day, holds, prices));
        let got = reading(rows, &[holds, prices], || price_check(&rows.capacities, &rows.flights, rows.closing, holds, prices));
        assert_eq!(got, want, "{rows:?} {holds:?} {prices:?}");
        self.reach_closing_price(day.as_ref(), holds, prices, want);
        let wrong = day.map(|d| [holds.len() != d.flights.len(), prices.len() != d.priced()]);
        self.reach(match wrong {
            None => "price check of a bad day".into(),
            Some([false, false]) if prices.iter().any(|&price| price > 1 << 31) => format!("price check {want}, a price above 2^31"),
            Some([false, false]) => format!("price check {want}"),
            Some(wrong) => format!("price check, wrong lengths {wrong:?}"),
        });
    }

    pub fn choice(&mut self, rows: &Rows, first: &[u32], second: &[u32]) {
        let cost = |holds: &[u32]| rows.day().and_then(|day| day.legal_total(holds));
        let (one, other) = (cost(first), cost(second));
        if let Some(day) = rows.day() {
            for (which, holds) in [("first", first), ("second", second)] {
                self.reach_over_curfew(&format!("choice, the {which}"), &day, holds);
            }
        }
        let want = match (one, other) {
            (Some(a), Some(b)) if b < a => 2,
            (None, Some(_)) => 2,
            (None, None) => 0,
            _ => 1,
        };
        let got = reading(rows, &[first, second], || choice(&rows.capacities, &rows.flights, rows.closing, first, second));
        assert_eq!(got, want, "{rows:?} {first:?} {second:?}");
        self.reach(match (one, other) {
            (Some(a), Some(b)) => format!("choice, the first's cost {:?}", a.cmp(&b)),
            _ => format!("choice {want}, legal {:?}, lengths as wanted {:?}", [one.is_some(), other.is_some()], [first, second].map(|r| r.len() * WIDTH == rows.flights.len())),
        });
    }

    pub fn board(&mut self, rows: &Rows, holds: &[u32], length: usize) {
        let mut places = Lent::new(&self.seed, length);
        let got = reading(rows, &[holds], || board(&rows.capacities, &rows.flights, rows.closing, holds, places.row()));
        let day = rows.day();
        let refusals = day.as_ref().map_or(vec![answer(6, 0, 0)], |day| not_a_plan(day, holds, Some(length)).err().unwrap_or_default());
        if let Some(refusal) = self.first("board", &refusals) {
            assert_eq!(got, refusal);
            day.iter().for_each(|day| self.reach_over_curfew("board", day, holds));
            return places.expect_kept();
        }
        assert_eq!(got, answer(0, 0, 0));
        let day = day.unwrap();
        let stands = |&i: &u32| (day.flights[i as usize].due + holds[i as usize], day.flights[i as usize].due, i);
        let mut want: Vec<u32> = (0..holds.len() as u32).collect();
        want.sort_by_key(stands);
        places.expect(0, &want);
        self.reach_curfew("board", &day, holds);
        self.reach_board(&day, &want.iter().map(stands).collect::<Vec<_>>());
    }

    pub fn forecast(&mut self, rows: &Rows, terms: &Terms) {
        let mut holds = Lent::new(&self.seed, terms.holds);
        let got = reading(rows, &[&terms.weights, &terms.forecasts], || forecast_plan(&rows.capacities, &rows.flights, rows.closing, terms.count, terms.air_factor, &terms.weights, &terms.forecasts, holds.row()));
        let refusals = terms.refusals(rows);
        if let Some(&(_, refusal)) = refusals.first() {
            assert_eq!(got, refusal, "{refusals:?} {rows:?} {terms:?}");
            holds.expect_kept();
            return self.reach_reasons("forecast plan", &refusals, |why| met_in_refusal(rows, terms, why));
        }
        let day = rows.day().unwrap();
        let choices = choices_by_queues(&day, terms);
        if day.periods() <= 5 || self.seed.one_in(4) {
            assert_eq!(choices, choices_by_places(&day, terms), "the two simulations here");
        }
        let total = choices.iter().map(|choice| choice.costs[choice.hold as usize]).sum();
        assert_eq!(got, answer(0, total, 0), "{rows:?} {terms:?}");
        holds.expect(0, &choices.iter().map(|choice| choice.hold).collect::<Vec<_>>());
        for what in met(&day, terms, &choices, total) {
            self.reach(format!("forecast plan, {what}"));
        }
    }

    /// The plan text read back, of a small day also by the texts of all legal plans.
    pub fn read_plan(&mut self, rows: &Rows, text: &[u8], length: usize, all: Option<&AllTexts>) {
        let mut holds = Lent::new(&self.seed, length);
        let before = text.to_vec();
        let got = reading(rows, &[], || read_plan(&rows.capacities, &rows.flights, rows.closing, text, holds.row()));
        assert!(before == std::hint::black_box(text), "the text was changed");
        let day = rows.day();
        let plan = day.as_ref().map(|day| read_back::read_by_walking(day, text));
        if let (Some(plan), Some(all)) = (&plan, all) {
            assert_eq!(*plan, all.read(text), "the two readers here: {rows:?} {:?}", String::from_utf8_lossy(text));
            self.reach("plan reader, every plan's text made".into());
        }
        let refusals = read_back::refusals(rows, plan.as_ref(), text, length);
        if let Some(&(why, refusal)) = refusals.first() {
            assert_eq!(got, refusal, "{refusals:?} {rows:?} {:?}", String::from_utf8_lossy(text));
            holds.expect_kept();
            for (other, _) in &refusals[1..] {
                self.reach(format!("plan reader, {why} before {other}"));
            }
            for what in read_back::met_in_refusal(rows, text, length, why, refusal.first as usize) {
                self.reach(format!("plan reader, {what}"));
            }
            return;
        }
        let (day, plan) = (day.unwrap(), plan.unwrap().unwrap());
        assert_eq!(day.plan_text(&plan).as_bytes(), text, "a text that is read is the text that is written");
        assert_eq!(got, answer(0, day.legal_total(&plan).expect("legal"), 0), "{rows:?} {:?}", String::from_utf8_lossy(text));
        holds.expect(0, &plan);
        for what in read_back::met(&day, text, &plan, || (day.periods() <= 4).then(|| least_by_moves(&day)).flatten()) {
            self.reach(format!("plan reader, {what}"));
        }
    }

    /// The reason that was given, before each of the others; and what was wrong, if no other reason has its answer.
    fn reach_reasons(&mut self, call: &str, refusals: &[(&str, Answer)], wrong: impl Fn(&str) -> String) {
        let (why, refusal) = refusals[0];
        for (other, _) in &refusals[1..] {
            self.reach(format!("{call}, {why} before {other}"));
        }
        if refusals.iter().filter(|(_, other)| *other == refusal).count() == 1 {
            self.reach(format!("{call}, {}", wrong(why)));
        }
    }

    /// What a board has side by side: flights that land together, by due period, by table place or both.
    fn reach_board(&mut self, day: &Day, board: &[(u32, u32, u32)]) {
        for pair in board.windows(2).filter(|pair| pair[0].0 == pair[1].0) {
            let together = match (pair[0].1 == pair[1].1, pair[0].2 < pair[1].2) {
                (true, _) => "due together",
                (false, true) => "due in table order",
                (false, false) => "due against table order",
            };
            let period = if pair[0].0 > day.periods() { "the closing" } else { "a numbered" };
            let size = if board.len() == FLIGHTS { " of 128 flights" } else { "" };
            self.reach(format!("board{size}, {together} in {period} period"));
        }
    }

    /// How a flight's whole delay stands to its after, where it would cost a jump and is not all hold.
    fn reach_delays(&mut self, day: &Day, holds: &[u32]) {
        for (f, &hold) in day.flights.iter().zip(holds).filter(|(f, _)| f.jump > 0 && f.late > 0) {
            let past = f.delay(hold) as i64 - f.after as i64;
            let stands = if past == 1 { "one more than" } else { ["less than", "equal to", "more than"][(past.signum() + 1) as usize] };
            self.reach(format!("full plan, late + hold {stands} after, {}", if hold > 0 { "held" } else { "not held" }));
        }
    }

    /// Prices of full periods, open and closed; at one place, whether the check would say yes to a higher one too.
    fn reach_prices(&mut self, day: &Day, holds: &[u32], prices: &[u32]) {
        let places = day.places();
        let kind = |at: usize| match places[at] {
            _ if at == day.capacities.len() => "after the last",
            0 => "closed",
            c if c == day.landings(holds, at as u32 + 1) => "full",
            255 => "one of capacity 255",
            _ => "one with room",
        };
        for (at, &price) in prices.iter().enumerate() {
            self.reach(format!("full plan, a period {}, {} price", kind(at), if price > 0 { "a" } else { "no" }));
        }
        let at = self.seed.place(prices.len());
        let mut higher = prices.to_vec();
        higher[at] += 1;
        if accepts(day, holds, &higher) {
            self.reach(format!("full plan, a period {}, whose price may be higher", kind(at)));
        }
    }

    fn reach_sizes(&mut self, call: &str, day: &Day, total: u64) {
        if day.capacities.len() == PERIODS && day.flights.len() == FLIGHTS {
            self.reach(format!("{call} of {PERIODS} periods and {FLIGHTS} flights"));
        }
        if day.flights.len() > 64 && total > 0 && day.capacities.iter().any(|&c| c > 0) {
            self.reach(format!("{call} of more than 64 flights, some held, some period open"));
        }
        if total > 250_000_000 {
            self.reach(format!("{call} above 250,000,000"));
        }
        if total == 250_880_000 {
            self.reach(format!("{call} of 250,880,000"));
        }
    }
}

/// Refusal 9, if a stretch is short.
fn no_plan(day: &Day) -> Option<Answer> {
    short_stretch(day).map(|(first, last)| answer(9, first, last))
}

/// Refusals 7 for the hold row, 7 for the board's row if there is one, and 10.
fn not_a_plan(day: &Day, holds: &[u32], board: Option<usize>) -> Result<(), Vec<Answer>> {
    let n = day.flights.len();
    let mut refusals = Vec::new();
    refusals.extend(unless(holds.len() == n, answer(7, n as u64, 0)));
    refusals.extend(board.and_then(|length| unless(length == n, answer(7, n as u64, 0))));
    if holds.len() == n {
        refusals.extend(day.break_at(holds).map(|place| answer(10, place as u64, 0)));
    }
    if refusals.is_empty() { Ok(()) } else { Err(refusals) }
}
