//! Inputs of the growing plan from a seed: days and growths that it takes, and such with something wrong.
use crate::day::{Day, Rows, WIDTH};
use crate::growth::{Terms, MOST, PERIODS};
use crate::inputs;
use crate::seed::Seed;

// ---- what is accepted

/// Any growth; those with which next costs can meet over five periods are likely.
pub fn growth(seed: &Seed) -> u32 {
    let any = seed.between(0, MOST as u64) as u32;
    seed.pick(&[any, any, seed.edged(0, MOST as u64), seed.pick(&[0, 2, 5, 10, 15, 20, 30, 40])])
}

/// A day that the call takes; its afters and lates, which play no part, of any value. Dues and capacities as they come, or such
/// that flights of two dues wait for the same places; rates as they come, or such that next costs meet with this growth, or come
/// near each other.
pub fn random_day(seed: &Seed, growth: u32, most_flights: u64) -> Day {
    made_close(seed, growth, plain(inputs::random_day(seed, PERIODS as u64, most_flights)))
}

pub fn day_of_size(seed: &Seed, growth: u32, periods: u64, flights: u64) -> Day {
    made_close(seed, growth, plain(inputs::day_of_size(seed, periods, flights)))
}

fn plain(mut day: Day) -> Day {
    day.flights.iter_mut().for_each(|f| (f.jump, f.limit) = (0, None));
    day
}

/// A day whose plan costs as much as any can with a growth of 40, 4,999,680,000,000,000, or a little less.
pub fn heavy_day(seed: &Seed) -> Day {
    let mut day = plain(inputs::heavy_day(seed));
    day.capacities.truncate(PERIODS);
    day.curfew = seed.pick(&[None, Some(128), Some(255)]);
    day.flights.iter_mut().for_each(|f| f.due = f.due.min(PERIODS as u32));
    day
}

fn made_close(seed: &Seed, growth: u32, mut day: Day) -> Day {
    let kind = seed.below(6);
    if !seed.one_in(4) {
        crowd(seed, kind > 2, &mut day);
    }
    match kind {
        0..=2 => meet(seed, growth, &mut day),
        3 | 4 => come_near(seed, growth, &mut day),
        _ => (),
    }
    inputs::with_some_curfew(seed, day)
}

/// Most flights due in one of two periods, and few places: hardly any up to a period in which both wait, and there often just as
/// many as flights due in the first, or in the second.
fn crowd(seed: &Seed, for_second: bool, day: &mut Day) {
    let (p, n) = (day.periods() as u64, day.flights.len() as u64);
    let first = seed.pick(&[1, seed.between(1, p)]);
    let likely = if for_second { p - 1 } else { first + 1 };
    let second = seed.pick(&[p, p - 1, seed.between(first, p), likely, likely]).clamp(first, p);
    let both = seed.pick(&[second, p, seed.between(second, p)]);
    let other = seed.pick(&[2, 8, 1_000]);
    for f in &mut day.flights {
        f.due = if seed.one_in(other) { seed.between(1, p) } else { seed.pick(&[first, second]) } as u32;
    }
    let many = day.flights.iter().filter(|f| (f.due as u64 >= second) == for_second).count() as u32;
    let most = seed.pick(&[1, n / 4 + 1, n / 2 + 1]);
    let places = |period| match period {
        _ if period < both && !seed.one_in(8) => 0,
        _ if period == both && !seed.one_in(4) => many,
        _ => seed.below(most + 1) as u32,
    };
    day.capacities = (1..=p).map(places).collect();
}

/// What waiting costs grows by `up` / `down` in a period.
fn ratio(growth: u32) -> (u32, u32) {
    let shared = (1..=10).rev().find(|by| 10 % by == 0 && growth % by == 0).unwrap();
    ((10 + growth) / shared, 10 / shared)
}

fn some_due(seed: &Seed, day: &Day) -> Option<u32> {
    (!day.flights.is_empty()).then(|| day.flights[seed.place(day.flights.len())].due)
}

/// Rates that grow from some due on as waiting costs do, so that next costs are the same; one in so many off by one or by a due.
fn meet(seed: &Seed, growth: u32, day: &mut Day) {
    let Some(first) = some_due(seed, day) else { return };
    let (up, down) = ratio(growth);
    let most = (1..=5).rev().find(|&k| up.pow(k) <= 10_000).unwrap();
    let steps = seed.pick(&[most, most, seed.between(1, most as u64) as u32]);
    let base = seed.edged(1, (10_000 / up.pow(steps)) as u64);
    let off = seed.pick(&[4, 16, 1_000]);
    for f in &mut day.flights {
        let by = if seed.one_in(off) { seed.pick(&[1, 2]) } else { 0 };
        let k = (f.due + by).saturating_sub(first).min(steps);
        f.rate = base * up.pow(k) * down.pow(steps - k);
        if seed.one_in(off) {
            f.rate = seed.pick(&[f.rate + 1, f.rate - 1]).clamp(1, 10_000);
        }
    }
}

/// Two rates, for flights up to a due and after it, such that next costs are not the same but come near, mostly with the later due's
/// above: the nearest of all from some rate on.
fn come_near(seed: &Seed, growth: u32, day: &mut Day) {
    let (Some(one), Some(other)) = (some_due(seed, day), some_due(seed, day)) else { return };
    let (early, apart) = (one.min(other), one.abs_diff(other));
    let (up, down) = ratio(growth);
    let (up, down) = ((up as i64).pow(apart), (down as i64).pow(apart));
    let most = 10_000 * down / up;
    let above = seed.pick(&[0, 1, 1, 1]);
    let tried = (seed.between(1, most as u64) as i64..=most).map(|rate| (rate, rate * up / down + above));
    let near = |&(rate, other): &(i64, i64)| (rate * up - other * down).abs();
    if let Some((rate, other)) = tried.filter(|pair| pair.1 <= 10_000 && near(pair) > 0).min_by_key(near) {
        for f in &mut day.flights {
            f.rate = if f.due <= early { rate as u32 } else { other as u32 };
        }
    }
}

// ---- what is refused

/// One thing put wrong, at any place: one of the reasons but for the day.
pub fn spoil(seed: &Seed, rows: &mut Rows, terms: &mut Terms) {
    let flights = rows.flights.len() / WIDTH;
    match seed.below(5) {
        4 => rows.closing = closing_too_small(seed, rows),
        0 if flights > 0 => {
            let at = seed.place(flights) * WIDTH;
            match seed.below(2) {
                0 => rows.flights[at + 4] = seed.pick(&[1, seed.edged(1, 1_000_000)]),
                _ => rows.flights[at + 5] = seed.edged(0, 96),
            }
        }
        0 | 1 => terms.growth = too_great(seed, terms.growth),
        2 => terms.holds = inputs::length(seed, terms.holds),
        _ => more_periods(seed, rows),
    }
}

/// The first few past the most, one that only its low bits make look right, or any.
fn too_great(seed: &Seed, right: u32) -> u32 {
    seed.pick(&[MOST + 1, MOST + 1, MOST + 2, right.wrapping_add(1 << seed.between(6, 31)), seed.from(MOST as u64 + 1), u32::MAX])
}

/// A closing number that not all flights can keep, if there is one: one less than need be, 0, or between.
fn closing_too_small(seed: &Seed, rows: &Rows) -> u32 {
    match rows.day().map(|day| inputs::left_at_end(&day)) {
        Some(left @ 1..) => seed.pick(&[left - 1, left - 1, 0, seed.below(left as u64) as u32]),
        _ => rows.closing,
    }
}

/// As many periods as are too many, also such that 64 less would not be.
fn more_periods(seed: &Seed, rows: &mut Rows) {
    let periods = seed.pick(&[7, 7, 8, 64 + seed.between(1, 6), seed.between(9, 96), 96]) as usize;
    let highest = seed.pick(&[0, 1, 255]);
    let more = periods.saturating_sub(rows.capacities.len());
    rows.capacities.extend((0..more).map(|_| seed.edged(0, highest)));
}
