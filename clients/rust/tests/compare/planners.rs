//! Planners and checkers of another kind than the core's.
use crate::day::{Day, Flight};

/// The least total by trying every plan.
pub fn least_by_trial(day: &Day) -> Option<u64> {
    least_by_trial_with(day, Flight::cost)
}

/// The same where a hold costs what is said.
pub fn least_by_trial_with(day: &Day, cost: impl Fn(&Flight, u32) -> u64) -> Option<u64> {
    fn rest(day: &Day, cost: &impl Fn(&Flight, u32) -> u64, i: usize, room: &mut Vec<u32>) -> Option<u64> {
        let Some(f) = day.flights.get(i) else { return Some(0) };
        let mut least = None;
        for lands in f.due..=f.last(day.periods()) {
            let at = lands as usize - 1;
            if room[at] > 0 {
                room[at] -= 1;
                let here = rest(day, cost, i + 1, room).map(|r| r + cost(f, lands - f.due));
                least = [least, here].into_iter().flatten().min();
                room[at] += 1;
            }
        }
        least
    }
    rest(day, &cost, 0, &mut day.places())
}

/// A cheapest plan, the landing periods, by putting in one flight after the other, each along the cheapest chain of moves. The
/// chains are found by going over all moves until nothing gets cheaper; no prices, and no order of flights or periods.
fn plan_by_moves(day: &Day, cost: &impl Fn(&Flight, u32) -> u64) -> Option<Vec<u32>> {
    let p = day.periods();
    let places = day.places();
    let room = |k: u32| places[k as usize - 1];
    let cost = |i: usize, k: u32| cost(&day.flights[i], k - day.flights[i].due) as i64;
    let mut lands: Vec<u32> = Vec::new();
    for (new, f) in day.flights.iter().enumerate() {
        // what it costs to have one landing more in a period, and which flight comes there
        let mut more = vec![(i64::MAX, new); p as usize + 2];
        for k in f.due..=f.last(p) {
            more[k as usize] = (cost(new, k), new);
        }
        // at which of these sums each flight was gone over last
        let mut looked = vec![i64::MAX; lands.len()];
        let (mut cheaper, mut rounds) = (true, 0);
        while cheaper {
            (cheaper, rounds) = (false, rounds + 1);
            assert!(rounds <= p + 3, "a plan that was not cheapest before");
            for (i, &at) in lands.iter().enumerate() {
                let (sum, _) = more[at as usize];
                if std::mem::replace(&mut looked[i], sum) == sum {
                    continue;
                }
                for k in day.flights[i].due..=day.flights[i].last(p) {
                    if sum - cost(i, at) + cost(i, k) < more[k as usize].0 {
                        more[k as usize] = (sum - cost(i, at) + cost(i, k), i);
                        cheaper = true;
                    }
                }
            }
        }
        let mut landed = vec![0; p as usize + 2];
        lands.iter().for_each(|&at| landed[at as usize] += 1);
        let free = |k: &u32| landed[*k as usize] < room(*k) && more[*k as usize].0 < i64::MAX;
        let mut to = (1..=p + 1).filter(free).min_by_key(|&k| more[k as usize].0)?;
        lands.push(0);
        while to != 0 {
            to = std::mem::replace(&mut lands[more[to as usize].1], to);
        }
    }
    Some(lands)
}

/// The least total of such a plan.
pub fn least_by_moves(day: &Day) -> Option<u64> {
    least_by_moves_with(day, Flight::cost)
}

/// The same where a hold costs what is said.
pub fn least_by_moves_with(day: &Day, cost: impl Fn(&Flight, u32) -> u64) -> Option<u64> {
    let lands = plan_by_moves(day, &cost)?;
    Some(day.flights.iter().zip(lands).map(|(f, k)| cost(f, k - f.due)).sum())
}

/// What one more landing in each period would save, under a curfew in the closing period too, by planning each of the changed days
/// from nothing. A day that has a plan has one with more capacity too; a capacity or a curfew of 256 is a number like any other here.
pub fn savings_by_planning(day: &Day, least: fn(&Day) -> Option<u64>) -> Option<Vec<u64>> {
    let total = least(day)?;
    let mut changed = day.clone();
    let mut saving = |at: usize| {
        let Day { capacities, curfew, .. } = &mut changed;
        match capacities.get_mut(at) {
            Some(capacity) => *capacity += 1,
            None => *curfew = curfew.map(|c| c + 1),
        }
        let less = least(&changed)?;
        changed.clone_from(day);
        Some(total - less)
    };
    (0..day.priced()).map(|at| saving(at)).collect()
}

/// The same from a cheapest plan of the day as it is: a flight moves to the period, another into the place that it left, and so on,
/// as far as that saves something; all moves are gone over until nothing more is saved.
pub fn savings_by_moves(day: &Day) -> Option<Vec<u64>> {
    let lands = plan_by_moves(day, &Flight::cost)?;
    let mut saved = vec![0i64; day.capacities.len() + 2];
    let (mut more, mut rounds) = (true, 0);
    while more {
        (more, rounds) = (false, rounds + 1);
        assert!(rounds <= saved.len() + 1, "a plan that is not cheapest");
        for (f, &at) in day.flights.iter().zip(&lands) {
            for k in f.due..=f.last(day.periods()) {
                let saving = saved[at as usize] + f.cost(at - f.due) as i64 - f.cost(k - f.due) as i64;
                if saving > saved[k as usize] {
                    (saved[k as usize], more) = (saving, true);
                }
            }
        }
    }
    assert_eq!(saved.last(), Some(&0), "one more in the closing period saves nothing, under a curfew too");
    Some(saved[1..=day.priced()].iter().map(|&saving| saving as u64).collect())
}

/// The short stretch with the smallest last period, and among those the largest first. Under a curfew it may end with the closing
/// period, by which every flight must have landed.
pub fn short_stretch(day: &Day) -> Option<(u64, u64)> {
    let places = day.places();
    let mut by_due = vec![vec![]; places.len()];
    day.flights.iter().for_each(|f| by_due[f.due as usize - 1].push(f.last(day.periods())));
    for last in 1..=day.priced() as u32 {
        let mut over = 0i64;
        for first in (1..=last).rev() {
            let must = by_due[first as usize - 1].iter().filter(|&&latest| latest <= last).count();
            over += must as i64 - places[first as usize - 1] as i64;
            if over > 0 {
                return Some((first as u64, last as u64));
            }
        }
    }
    None
}

/// The report's Fast Algorithm with a sorted list: holds, and the eligible set of each period.
pub fn quick_by_sorting(day: &Day) -> (Vec<u32>, Vec<Vec<usize>>) {
    let mut holds: Vec<u32> = day.flights.iter().map(|f| day.periods() + 1 - f.due).collect();
    let mut waiting: Vec<usize> = Vec::new();
    let mut eligible = Vec::new();
    for j in 1..=day.periods() {
        waiting.extend((0..day.flights.len()).filter(|&i| day.flights[i].due == j));
        waiting.sort_by_key(|&i| (std::cmp::Reverse(day.flights[i].rate), day.flights[i].due, i));
        eligible.push(waiting.clone());
        let landing = waiting.len().min(day.capacities[j as usize - 1] as usize);
        for i in waiting.drain(..landing) {
            holds[i] = j - day.flights[i].due;
        }
    }
    (holds, eligible)
}

/// How many of these holds land in the closing period.
pub fn closing_landings(day: &Day, holds: &[u32]) -> u32 {
    day.landings(holds, day.periods() + 1)
}

/// The price check, from document 01's sentence; without a curfew the closing period has price 0.
pub fn accepts(day: &Day, holds: &[u32], prices: &[u32]) -> bool {
    let (p, places) = (day.periods(), day.places());
    if prices.len() != day.priced() || day.legal_total(holds).is_none() {
        return false;
    }
    let price = |k: u32| prices.get(k as usize - 1).map_or(0, |&price| price as u64);
    let only_on_full = (1..=p + 1).all(|k| price(k) == 0 || day.landings(holds, k) == places[k as usize - 1]);
    let least = |(f, &h): (&Flight, &u32)| (f.due..=f.last(p)).all(|k| f.cost(h) + price(f.due + h) <= f.cost(k - f.due) + price(k));
    only_on_full && day.flights.iter().zip(holds).all(least)
}
