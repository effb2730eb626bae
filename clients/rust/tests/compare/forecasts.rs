//! The forecast plan of document 02, #104, apart from the core: what it is lent, why it is refused, its holds by two simulations
//! of the day, and what a call has met of all that can happen.
use crate::day::{Day, Flight, Rows, UNLIMITED, WIDTH};
use crate::reasons::{applying, off, which, Reason};
use hold_desk_client::Answer;
use std::collections::{BTreeSet, VecDeque};

/// What the call is given besides the day, of any content and length; of the hold row its length.
#[derive(Clone, Debug)]
pub struct Terms {
    pub count: u32,
    pub air_factor: u32,
    pub weights: Vec<u32>,
    pub forecasts: Vec<u32>,
    pub holds: usize,
}

/// Why a call is refused, and its answer's number: in the order of the tests, the reasons of 13 and those of 12 together.
#[rustfmt::skip]
pub const REASONS: [Reason; 10] = [
    ("day", 6), ("jump", 13), ("curfew", 13), ("air factor", 13), ("count", 13), ("hold row", 7), ("weight row", 7), ("forecast row", 7),
    ("weights", 12), ("capacity", 12),
];

impl Terms {
    /// The reasons that apply, each with its answer. Where the rows are no day, those that can be told from the rows alone.
    pub fn refusals(&self, rows: &Rows) -> Vec<(&'static str, Answer)> {
        let (n, p, count) = (rows.flights.len() / WIDTH, rows.capacities.len() as u64, self.count as u64);
        let good = [
            rows.day().is_some(),
            rows.flights.iter().skip(4).step_by(WIDTH).all(|&jump| jump == 0),
            rows.closing >= UNLIMITED,
            (1..=10).contains(&self.air_factor),
            (1..=8).contains(&self.count),
            self.holds == n,
            self.weights.len() as u64 == count,
            self.forecasts.len() as u64 == count * p,
            self.sum() == 1_000,
            self.forecasts.iter().all(|&capacity| capacity <= 255),
        ];
        applying(&REASONS, &good, &[0, 0, 0, 0, 0, n as u64, count, count * p, 0, 0].map(|first| (first, 0)))
    }
    pub fn sum(&self) -> u64 {
        self.weights.iter().map(|&weight| weight as u64).sum()
    }
    /// The forecasts, each a row of P capacities.
    pub fn rows(&self, periods: u32) -> std::slice::Chunks<'_, u32> {
        self.forecasts.chunks(periods as usize)
    }
}

// ---- two simulations

/// A flight's hold, the expected cost of every hold up to the closing period whatever its limit, and where it lands under each
/// forecast.
#[derive(Debug, PartialEq)]
pub struct Choice {
    pub hold: u32,
    pub costs: Vec<u64>,
    pub lands: Vec<u32>,
}

/// Every hold tried, given where the flight lands under each forecast if it is held to a period.
fn choose(f: &Flight, periods: u32, terms: &Terms, lands: impl Fn(usize, u32) -> u32) -> Choice {
    let cost = |hold: u32| {
        let held_to = f.due + hold;
        let under = |(s, &weight): (usize, &u32)| weight as u64 * f.rate as u64 * (hold + terms.air_factor * (lands(s, held_to) - held_to)) as u64;
        terms.weights.iter().enumerate().map(under).sum()
    };
    let costs: Vec<u64> = (0..=periods + 1 - f.due).map(cost).collect();
    let allowed = f.last(periods) - f.due;
    let hold = (0..=allowed).min_by_key(|&hold| (costs[hold as usize], hold)).unwrap();
    Choice { hold, costs, lands: (0..terms.weights.len()).map(|s| lands(s, f.due + hold)).collect() }
}

/// Whether each period has a place left for others than those that come to it or came before: they stand in a queue, and as many as
/// the capacity takes land.
fn places_left(coming: &[Vec<usize>], capacities: &[u32]) -> Vec<bool> {
    let mut queue: VecDeque<usize> = VecDeque::new();
    let mut period = |(come, &capacity): (&Vec<usize>, &u32)| {
        queue.extend(come);
        let landing = queue.len().min(capacity as usize);
        queue.drain(..landing);
        landing < capacity as usize
    };
    coming.iter().zip(capacities).map(|pair| period(pair)).collect()
}

/// Flight by flight, the day of those above it run through period by period under each forecast. Those held to the closing period
/// come to none of the others.
pub fn choices_by_queues(day: &Day, terms: &Terms) -> Vec<Choice> {
    let p = day.periods();
    let mut coming: Vec<Vec<usize>> = vec![vec![]; p as usize + 1];
    let mut choices = Vec::new();
    for (place, f) in day.flights.iter().enumerate() {
        let left: Vec<Vec<bool>> = terms.rows(p).map(|row| places_left(&coming, row)).collect();
        let choice = choose(f, p, terms, |s, from| (from..=p).find(|&k| left[s][k as usize - 1]).unwrap_or(p + 1));
        coming[(f.due + choice.hold) as usize - 1].push(place);
        choices.push(choice);
    }
    choices
}

/// The same without queues: under each forecast each flight takes a place of the first period that still has one.
pub fn choices_by_places(day: &Day, terms: &Terms) -> Vec<Choice> {
    let p = day.periods();
    let mut room: Vec<Vec<u32>> = terms.rows(p).map(|row| [row, &[u32::MAX]].concat()).collect();
    let mut choices = Vec::new();
    for f in &day.flights {
        let choice = choose(f, p, terms, |s, from| (from..).find(|&k| room[s][k as usize - 1] > 0).unwrap());
        for (room, &lands) in room.iter_mut().zip(&choice.lands) {
            room[lands as usize - 1] -= 1;
        }
        choices.push(choice);
    }
    choices
}

// ---- what a call has met

/// What a refusal was given for, where no other reason has the same answer.
pub fn met_in_refusal(rows: &Rows, terms: &Terms, why: &str) -> String {
    let (n, p, count) = (rows.flights.len() / WIDTH, rows.capacities.len(), terms.count as usize);
    match why {
        "jump" => format!("a jump of {}", which(&rows.flights.chunks(WIDTH).map(|f| f[4] > 0).collect::<Vec<_>>())),
        "curfew" => format!("a curfew {}", kept_to(rows.closing, n)),
        "air factor" => format!("an air factor of {}", past(terms.air_factor as u64, 11)),
        "count" => format!("a count of {}", past(terms.count as u64, 9)),
        "hold row" => format!("a hold row {}", off(terms.holds, n)),
        "weight row" => format!("a weight row {}", off(terms.weights.len(), count)),
        "forecast row" if terms.forecasts.len().abs_diff(count * p) == p && p > 1 => "a forecast row for another count".into(),
        "forecast row" if terms.forecasts.len().abs_diff(count * p) == count && count > 1 => "a forecast row for another P".into(),
        "forecast row" => format!("a forecast row {}", off(terms.forecasts.len(), count * p)),
        "weights" => format!("weights of {}", summing(terms)),
        "capacity" => format!("a forecast capacity {}", too_high(terms, p)),
        _ => "no day".into(),
    }
}

/// How many may land after the last period, beside the number of flights.
fn kept_to(closing: u32, flights: usize) -> &'static str {
    match closing {
        0 => "of 0",
        255 => "of 255",
        _ if (closing as usize) < flights => "of less than all flights",
        _ => "that every flight may pass",
    }
}

/// 0, the number just past the most, or more.
fn past(number: u64, first: u64) -> String {
    if number > first { "more".into() } else { number.to_string() }
}

fn summing(terms: &Terms) -> &'static str {
    match terms.sum() {
        999 => "999",
        1_001 => "1,001",
        sum if sum as u32 == 1_000 => "1,000 in 32 bits",
        sum if sum as u16 == 1_000 => "1,000 in 16 bits",
        sum if sum < 1_000 => "less",
        _ if terms.weights.iter().any(|&weight| weight > 1_000) => "more by one alone",
        _ => "more",
    }
}

fn too_high(terms: &Terms, periods: usize) -> String {
    let high: Vec<usize> = (0..terms.forecasts.len()).filter(|&at| terms.forecasts[at] > 255).collect();
    let at = high[0];
    let place = match at {
        _ if high.len() > 1 => "at several places",
        0 => "at the first place",
        _ if at + 1 == terms.forecasts.len() => "at the last place",
        _ => "between",
    };
    let idle = if terms.weights[at / periods] == 0 { ", of weight 0" } else { "" };
    format!("{} {place}{idle}", if terms.forecasts[at] == 256 { "of 256" } else { "above" })
}

/// What happened to a flight, under forecasts that may come.
fn met_by(f: &Flight, choice: &Choice, periods: u32, terms: &Terms) -> Vec<&'static str> {
    let (held_to, hold) = (f.due + choice.hold, choice.hold as usize);
    let least = choice.costs[hold];
    let allowed = &choice.costs[..=(f.last(periods) - f.due) as usize];
    let coming = || terms.rows(periods).zip(&choice.lands).zip(&terms.weights).filter(|(_, &weight)| weight > 0).map(|(under, _)| under);
    let waits = |what: &dyn Fn(&[u32], u32) -> bool| coming().any(|(row, &lands)| lands > held_to && what(&row[held_to as usize - 1..lands as usize - 1], lands));
    let met = [
        (hold > 0 && held_to <= periods, "held"),
        (held_to > periods, "held to the closing period"),
        (hold > 0 && f.late > 0 && f.after > 0, "held, with a late and an after"),
        (allowed.iter().filter(|&&cost| cost == least).count() > 1, "two holds cost the least"),
        (choice.costs[..=hold].windows(2).any(|pair| pair[0] < pair[1]), "the cost rises before it falls to the least"),
        (choice.costs.iter().any(|&cost| cost < least), "the limit stops a hold that costs less"),
        (f.limit == Some(choice.hold) && hold > 0, "held as long as the limit allows"),
        (f.limit == Some(0), "limit 0"),
        (f.limit == Some(96), "limit 96"),
        (f.limit.is_none(), "no limit"),
        (waits(&|_, lands| lands <= periods), "in the air to a numbered period"),
        (waits(&|_, lands| lands > periods), "in the air to the closing period"),
        (waits(&|row, _| row.len() > 2), "in the air for several periods"),
        (waits(&|row, _| row.contains(&0)), "in the air over a closed period"),
        (waits(&|row, _| row.iter().any(|&capacity| capacity > 0)), "in the air over a full period"),
        (waits(&|_, _| hold > 0), "held, and in the air besides"),
        (coming().any(|(_, &lands)| lands != choice.lands[0]), "two forecasts, two landings"),
    ];
    met.into_iter().filter(|(met, _)| *met).map(|(_, what)| what).collect()
}

/// What an accepted call has met.
pub fn met(day: &Day, terms: &Terms, choices: &[Choice], total: u64) -> BTreeSet<String> {
    let p = day.periods();
    let flights = || day.flights.iter().zip(choices).enumerate();
    let mut met: BTreeSet<String> = flights().flat_map(|(_, (f, choice))| met_by(f, choice, p, terms)).map(String::from).collect();
    met.extend([format!("count {}", terms.count), format!("air factor {}", terms.air_factor)]);
    let late = |first: usize| flights().any(|(i, (f, choice))| i >= first && choice.lands.iter().any(|&lands| lands > f.due + choice.hold));
    let more = [
        (terms.weights.contains(&0), "a forecast of weight 0"),
        (day.flights.is_empty(), "no flight"),
        (p == 96 && choices.len() == 128 && terms.count == 8, "96 periods, 128 flights and 8 forecasts"),
        (late(64), "in the air from table place 64 on"),
        (late(127), "the 128th flight in the air"),
        (choices.iter().any(|choice| choice.hold > 64), "held for more than 64 periods"),
        (total > u32::MAX as u64, "a total above 2^32"),
        (total > 1 << 40, "a total above 2^40"),
        (total == 1_228_800_000_000, "a total of 1,228,800,000,000"),
    ];
    met.extend(more.into_iter().filter(|(met, _)| *met).map(|(_, what)| what.to_string()));
    met
}
