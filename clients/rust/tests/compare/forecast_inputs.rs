//! Inputs of the forecast plan from a seed: days, terms that fit them, and terms with something wrong.
use crate::day::{Day, Rows, WIDTH};
use crate::forecasts::Terms;
use crate::inputs;
use crate::seed::Seed;

// ---- what is accepted

/// A day without jumps; its capacities, afters and lates, which play no part, of any value.
pub fn day_of_size(seed: &Seed, periods: u64, flights: u64) -> Day {
    without_jumps(inputs::day_of_size(seed, periods, flights))
}

pub fn random_day(seed: &Seed, most_periods: u64, most_flights: u64) -> Day {
    without_jumps(inputs::random_day(seed, most_periods, most_flights))
}

/// A curfew is refused as a jump is.
pub fn without_jumps(mut day: Day) -> Day {
    day.flights.iter_mut().for_each(|f| f.jump = 0);
    day.curfew = None;
    day
}

/// Terms that cost as much as any can, 1,228,800,000,000, or a little less, and their day: nobody may be held, and nobody lands.
pub fn dearest(seed: &Seed) -> (Day, Terms) {
    let mut day = without_jumps(inputs::heavy_day(seed));
    day.flights.iter_mut().for_each(|f| f.limit = Some(0));
    let mut terms = some_terms(seed, &day.rows());
    terms.air_factor = 10;
    terms.forecasts.fill(0);
    if seed.one_in(2) {
        let at = seed.place(terms.forecasts.len());
        terms.forecasts[at] = 1;
    }
    (day, terms)
}

/// Weights that add up to 1,000: about equal, all on one, or any; zeros among them.
fn weights(seed: &Seed, count: usize) -> Vec<u32> {
    let kind = seed.below(4);
    let cut = |k: usize| match kind {
        0 => (1_000 * k / count) as u32,
        1 => seed.pick(&[0, 1_000]),
        2 => seed.edged(0, 1_000),
        _ => seed.between(0, 1_000) as u32,
    };
    let mut cuts: Vec<u32> = (1..count).map(cut).chain([0, 1_000]).collect();
    cuts.sort();
    cuts.windows(2).map(|pair| pair[1] - pair[0]).collect()
}

/// A forecast: as the day's own capacities are drawn, the same in all periods, or closed up to a period.
fn forecast(seed: &Seed, periods: usize, flights: usize) -> Vec<u32> {
    let (p, n) = (periods.max(1) as u64, flights as u64);
    let same = seed.pick(&[0, 1, 1, 2, 2, (n / p) as u32 + 1, 255]);
    let open = seed.pick(&[p - seed.below(p.min(4)), seed.between(1, p)]) as usize;
    match seed.below(6) {
        0 | 1 => vec![same; periods],
        2 => (0..periods).map(|at| if at + 1 < open { 0 } else { same }).collect(),
        _ => inputs::capacities(seed, p, n)[..periods].to_vec(),
    }
}

/// Terms that fit the rows and are accepted, if the rows are a day without jumps.
pub fn some_terms(seed: &Seed, rows: &Rows) -> Terms {
    let count = seed.edged(1, 8);
    let air_factor = seed.pick(&[seed.edged(1, 10), seed.edged(1, 10), 2, count]);
    fitting(seed, rows, count, air_factor)
}

fn fitting(seed: &Seed, rows: &Rows, count: u32, air_factor: u32) -> Terms {
    let (p, n) = (rows.capacities.len(), rows.flights.len() / WIDTH);
    let forecasts = (0..count).flat_map(|_| forecast(seed, p, n)).collect();
    Terms { count, air_factor, weights: if count > 0 { weights(seed, count as usize) } else { vec![] }, forecasts, holds: n }
}

// ---- what is refused

/// One thing put wrong, at any place: one of the reasons but for the day.
pub fn spoil(seed: &Seed, rows: &mut Rows, terms: &mut Terms) {
    let flights = rows.flights.len() / WIDTH;
    match seed.below(9) {
        8 => rows.closing = seed.pick(&[0, 0, 1, flights as u32 % 256, 128, 255, 255, seed.edged(0, 255)]),
        0 if flights > 0 => rows.flights[seed.place(flights) * WIDTH + 4] = seed.pick(&[seed.edged(1, 1_000_000), 1 << seed.below(20)]),
        0 | 1 => terms.air_factor = out_of(seed, 10, terms.air_factor),
        2 => spoil_count(seed, rows, terms),
        3 => terms.holds = other_than(seed, terms.holds, rows.capacities.len(), terms.count as usize),
        4 => spoil_weight_row(seed, rows, terms),
        5 => {
            let length = other_than(seed, terms.forecasts.len(), rows.capacities.len(), terms.count as usize);
            terms.forecasts.resize(length, seed.edged(0, 255));
        }
        6 => spoil_weights(seed, &mut terms.weights),
        _ => spoil_capacity(seed, rows, terms),
    }
}

/// A number that is 0, just past the most, or far past it, one that only its low bits make look right among them.
fn out_of(seed: &Seed, most: u64, right: u32) -> u32 {
    match seed.below(4) {
        0 => 0,
        1 => most as u32 + 1,
        2 => right.wrapping_add(1 << seed.between(8, 31)),
        _ => seed.from(most + 1),
    }
}

/// A length that is another: one more or less, a forecast or a period for each forecast more or less, none, one forecast alone, 8.
fn other_than(seed: &Seed, length: usize, periods: usize, count: usize) -> usize {
    let by = seed.pick(&[1, 1, 1, periods, periods, count, count, seed.between(2, 1_000) as usize]).min(2_000);
    match seed.below(8) {
        0 => 0,
        1 => seed.pick(&[periods, count.min(2_000), 8, 8 * periods]),
        2..=4 => length.saturating_sub(by),
        _ => length + by,
    }
}

/// A count that is out of range: with rows that fit it, or with those that were right.
fn spoil_count(seed: &Seed, rows: &Rows, terms: &mut Terms) {
    let count = out_of(seed, 8, terms.count);
    if count <= 16 {
        *terms = Terms { holds: terms.holds, ..fitting(seed, rows, count, terms.air_factor) };
    }
    terms.count = count;
}

/// A weight row of another length, its sum kept where that can be; or both rows for another count.
fn spoil_weight_row(seed: &Seed, rows: &Rows, terms: &mut Terms) {
    if seed.one_in(4) {
        let count = terms.count;
        *terms = Terms { holds: terms.holds, ..fitting(seed, rows, seed.edged(1, 8), terms.air_factor) };
        return terms.count = count;
    }
    let length = other_than(seed, terms.weights.len(), rows.capacities.len(), terms.count as usize);
    let gone: u32 = terms.weights.iter().skip(length).fold(0, |sum, &weight| sum.wrapping_add(weight));
    terms.weights.resize(length, 0);
    if let Some(first) = terms.weights.first_mut() {
        *first = first.wrapping_add(gone);
    }
}

/// A sum one off, one that only its low 10, 16 or 32 bits make look right, or any weight.
fn spoil_weights(seed: &Seed, weights: &mut Vec<u32>) {
    if weights.is_empty() {
        return;
    }
    let (one, other) = (seed.place(weights.len()), seed.place(weights.len()));
    let sum = weights[one].wrapping_add(weights[other]);
    let weight = &mut weights[one];
    match seed.below(8) {
        0 | 1 => *weight = weight.wrapping_add(1),
        2 | 3 => *weight = weight.saturating_sub(1),
        4 => *weight = weight.wrapping_add(1 << seed.pick(&[10, 16, 31])),
        5 | 6 if one != other => {
            weights[one] = seed.from(2_000);
            weights[other] = sum.wrapping_sub(weights[one]);
        }
        _ => *weight = seed.pick(&[0, 1_000, 1_001, seed.from(1_001)]),
    }
}

/// A capacity above 255, in a forecast of weight 0 or at any place.
fn spoil_capacity(seed: &Seed, rows: &Rows, terms: &mut Terms) {
    if terms.forecasts.is_empty() {
        return;
    }
    let idle = |at: &usize| terms.weights.get(at / rows.capacities.len().max(1)) == Some(&0);
    let idle: Vec<usize> = (0..terms.forecasts.len()).filter(idle).collect();
    let at = if idle.is_empty() || seed.one_in(2) { seed.place(terms.forecasts.len()) } else { idle[seed.place(idle.len())] };
    terms.forecasts[at] = seed.pick(&[256, 256 + terms.forecasts[at] % 256, seed.from(256)]);
}
