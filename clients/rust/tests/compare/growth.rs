//! The growing plan of document 02, #105, apart from the core: why it is refused, what a hold costs, its holds by two simulations
//! of the day, and what a call has met of all that can happen.
use crate::day::{Day, Flight, Rows, UNLIMITED, WIDTH};
use crate::planners::{closing_landings, short_stretch};
use crate::reasons::{applying, off, which, Reason};
use hold_desk_client::Answer;
use std::cmp::Reverse;
use std::collections::BTreeSet;

/// The greatest growth, in tenths, and the most periods of a day that has one.
pub const MOST: u32 = 40;
pub const PERIODS: usize = 6;

/// What the call is given besides the day: the growth, and of the hold row its length.
#[derive(Clone, Copy, Debug)]
pub struct Terms {
    pub growth: u32,
    pub holds: usize,
}

/// Why a call is refused, and its answer's number: in the order of the tests, the reasons of 14 together.
pub const REASONS: [Reason; 6] = [("day", 6), ("hold row", 7), ("jump or limit", 8), ("growth", 14), ("periods", 14), ("curfew", 9)];

impl Terms {
    /// The reasons that apply, each with its answer. Where the rows are no day, those that can be told from the rows alone.
    pub fn refusals(&self, rows: &Rows) -> Vec<(&'static str, Answer)> {
        let n = rows.flights.len() / WIDTH;
        let barred = having(rows, |f| f[4] > 0 || f[5] != 255).iter().position(|&has| has);
        let short = rows.day().map_or_else(|| too_few(rows).then_some((0, 0)), |day| short_stretch(&day));
        let good = [rows.day().is_some(), self.holds == n, barred.is_none(), self.growth <= MOST, rows.capacities.len() <= PERIODS, short.is_none()];
        applying(&REASONS, &good, &[(0, 0), (n as u64, 0), (barred.unwrap_or(0) as u64, 0), (0, 0), (0, 0), short.unwrap_or((0, 0))])
    }
}

/// Whether there are more flights than places, the closing period's among them.
fn too_few(rows: &Rows) -> bool {
    let places: u64 = rows.capacities.iter().chain([&rows.closing]).map(|&places| places as u64).sum();
    rows.closing < UNLIMITED && places < (rows.flights.len() / WIDTH) as u64
}

fn having(rows: &Rows, what: impl Fn(&[u32]) -> bool) -> Vec<bool> {
    rows.flights.chunks_exact(WIDTH).map(what).collect()
}

// ---- what a hold costs, and two simulations

/// What a hold costs, in millionths: the report's closed formula, with its bracket.
pub fn cost(f: &Flight, growth: u32, hold: u32) -> u64 {
    let (rate, a) = (f.rate as u64, growth as u64);
    if a == 0 {
        return 1_000_000 * rate * hold as u64;
    }
    rate * ((10 + a).pow(hold) * 10u64.pow(7 - hold) - 10_000_000) / a
}

/// A flight that waits, and what its next period costs, in millionths.
#[derive(Clone, Copy)]
pub struct Waiting {
    next: u64,
    due: u32,
    place: usize,
}

/// A plan, its total, and the edges: in each period in which some land and some wait, the last that lands and the first that waits.
pub struct Plan {
    pub holds: Vec<u32>,
    pub total: u64,
    edges: Vec<(u32, Waiting, Waiting)>,
}

/// Period by period: whoever waits pays what its next period costs, and that grows.
pub fn plan_by_paying(day: &Day, growth: u32) -> Plan {
    let mut plan = Plan { holds: vec![0; day.flights.len()], total: 0, edges: vec![] };
    let mut waiting: Vec<Waiting> = Vec::new();
    for (period, &capacity) in (1..).zip(&day.capacities) {
        let due = day.flights.iter().enumerate().filter(|(_, f)| f.due == period);
        waiting.extend(due.map(|(place, f)| Waiting { next: 1_000_000 * f.rate as u64, due: period, place }));
        waiting.sort_by_key(|w| (Reverse(w.next), w.due, w.place));
        let landed: Vec<Waiting> = waiting.drain(..waiting.len().min(capacity as usize)).collect();
        plan.edges.extend(landed.last().zip(waiting.first()).map(|(&last, &first)| (period, last, first)));
        for w in &mut waiting {
            plan.total += w.next;
            plan.holds[w.place] += 1;
            w.next = w.next * (10 + growth as u64) / 10;
        }
    }
    plan
}

/// The same holds without periods: what waiting costs grows alike for all, so that one order, that of the costs in the closing
/// period, is the order of every period; and each in turn takes a place of the first period that still has one.
pub fn holds_by_places(day: &Day, growth: u32) -> Vec<u32> {
    let mut room = day.places();
    let periods = |f: &Flight| day.periods() + 1 - f.due;
    let at_close = |f: &Flight| f.rate as u128 * (10 + growth as u128).pow(periods(f)) * 10u128.pow(f.due);
    let mut turns: Vec<usize> = (0..day.flights.len()).collect();
    turns.sort_by_key(|&i| (Reverse(at_close(&day.flights[i])), day.flights[i].due, i));
    let mut holds = vec![0; turns.len()];
    for i in turns {
        let due = day.flights[i].due;
        let lands = (due..).find(|&k| room[k as usize - 1] > 0).unwrap();
        room[lands as usize - 1] -= 1;
        holds[i] = lands - due;
    }
    holds
}

// ---- what a call has met

/// What a refusal was given for, where no other reason has the same answer.
pub fn met_in_refusal(rows: &Rows, terms: Terms, why: &str) -> String {
    let p = rows.capacities.len();
    match why {
        "hold row" => format!("a hold row {}", off(terms.holds, rows.flights.len() / WIDTH)),
        "jump or limit" => barring(rows),
        "growth" => format!("a growth {}", too_great(terms.growth)),
        "curfew" => curfew_passed(rows, terms.growth),
        "periods" if rows.flights.is_empty() => "too many periods, and no flight".into(),
        "periods" if terms.growth == 0 => "too many periods, and growth 0".into(),
        "periods" => if [7, 8, 96].contains(&p) { format!("{p} periods") } else { "more than 8 periods".into() },
        _ => "no day".into(),
    }
}

fn barring(rows: &Rows) -> String {
    let (jumps, limits) = (having(rows, |f| f[4] > 0), having(rows, |f| f[5] != 255));
    match (jumps.contains(&true), limits.contains(&true)) {
        (true, false) => format!("a jump of {}", which(&jumps)),
        (false, true) => format!("a limit of {}", which(&limits)),
        _ => "jumps and limits".into(),
    }
}

/// By how many more than the closing number are left.
fn curfew_passed(rows: &Rows, growth: u32) -> String {
    let day = rows.day().unwrap();
    let left = closing_landings(&day, &plan_by_paying(&day, growth).holds);
    let passed = left - day.curfew.unwrap();
    format!("{} more left than {}", if passed == 1 { "one" } else { "several" }, if rows.closing == 0 { "nobody" } else { "the closing number" })
}

fn too_great(growth: u32) -> &'static str {
    match growth {
        41 => "of 41",
        42 => "of 42",
        u32::MAX => "of 4,294,967,295",
        _ if growth as u16 as u32 <= MOST => "that fits in 16 bits",
        _ if growth as u8 as u32 <= MOST => "that fits in a byte",
        _ => "of more",
    }
}

/// How the last that lands in a period and the first that waits stand to each other.
fn met_at(day: &Day, (period, landed, left): (u32, Waiting, Waiting)) -> Vec<String> {
    let rate = |w: Waiting| day.flights[w.place].rate;
    let (tie, later) = (landed.next == left.next, landed.due > left.due);
    let two_dues = tie && landed.due < left.due;
    let met = [
        (two_dues, "a tie of two dues".into()),
        (two_dues, format!("a tie of dues {} apart", left.due.abs_diff(landed.due))),
        (two_dues && landed.place > left.place, "a tie of two dues against table order".into()),
        (two_dues && landed.place.max(left.place) >= 64, "a tie of two dues past table place 64".into()),
        (tie && !two_dues, "a tie of one due".into()),
        (tie && !two_dues && landed.place >= 64, "a tie of one due from table place 64 on".into()),
        (tie && landed.place.max(left.place) == 127, "a tie with the 128th flight".into()),
        (rate(landed) < rate(left), "the lower rate first".into()),
        (later, "the later due first".into()),
        (later && landed.next / 1_000_000 == left.next / 1_000_000, "the later due first, which whole units do not tell".into()),
        (later && (landed.next + 500) / 1_000 == (left.next + 500) / 1_000, "the later due first, which thousandths do not tell".into()),
        (later && landed.next as f32 == left.next as f32, "the later due first, which 24 bits do not tell".into()),
        (true, format!("some land and some wait in period {period}")),
    ];
    met.into_iter().filter(|(met, _)| *met).map(|(_, what)| what).collect()
}

/// What every growth must have met; it is counted for each.
pub const FOR_EACH: [&str; 4] = ["a tie of two dues", "the lower rate first", "the later due first", "held for 6 periods"];

/// What an accepted call has met.
pub fn met(day: &Day, growth: u32, plan: &Plan) -> BTreeSet<String> {
    let flights = || day.flights.iter().zip(&plan.holds);
    let mut met: BTreeSet<String> = plan.edges.iter().flat_map(|&edge| met_at(day, edge)).collect();
    met.extend(plan.holds.iter().map(|hold| format!("held for {hold} periods")));
    let each: Vec<String> = FOR_EACH.iter().filter(|what| met.contains(**what)).map(|what| format!("{what}, growth {growth}")).collect();
    met.extend(each);
    met.insert(format!("{} periods", day.periods()));
    let (left, curfew) = (closing_landings(day, &plan.holds), day.curfew);
    let more = [
        (curfew == Some(left) && left > 0, "as many left as the closing number"),
        (curfew.is_some_and(|c| c > left) && left > 0, "fewer left than the closing number"),
        (curfew == Some(0), "nobody left, and the closing number 0"),
        (curfew == Some(255), "the closing number 255"),
        (curfew.is_none() && left > 0, "some left, and no curfew"),
        (day.flights.is_empty(), "no flight"),
        (plan.total == 0 && day.flights.len() > 1, "nobody held"),
        (flights().any(|(f, &hold)| hold > 0 && f.late > 0 && f.after > 0), "held, with a late and an after"),
        (day.periods() == 6 && day.flights.len() == 128, "6 periods and 128 flights"),
        (plan.total > u32::MAX as u64, "a total above 2^32"),
        (plan.total > 1 << 48, "a total above 2^48"),
        (plan.total > 1 << 52, "a total above 2^52"),
        (plan.total == 4_999_680_000_000_000, "a total of 4,999,680,000,000,000"),
    ];
    met.extend(more.into_iter().filter(|(met, _)| *met).map(|(_, what)| what.to_string()));
    met
}
