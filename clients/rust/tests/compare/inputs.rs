//! Inputs from a seed: days, rows that are no day, lengths and places, hold and price rows, sheets.
use crate::day::{Day, Flight, Rows, CLOSING, FLIGHTS, NAMES, OLD_NAMES, PERIODS, WIDTH};
use crate::seed::Seed;
use std::collections::BTreeSet;

// ---- days

fn size(seed: &Seed, low: u64, high: u64) -> u64 {
    match seed.below(6) {
        0 => high - seed.below(2).min(high - low),
        1 => seed.between(low, high.min(low + 3)),
        _ => seed.between(low, high),
    }
}

/// Distinct numbers: in steps (the core looks for a repeated number by its residue), or anywhere; in any order.
fn numbers(seed: &Seed, count: u64) -> Vec<u32> {
    let mut numbers: BTreeSet<u32> = BTreeSet::new();
    let step = seed.pick(&[0, 0, 1, 64, 78]);
    while (numbers.len() as u64) < count {
        let next = numbers.len() as u32 * step + 1;
        numbers.insert(if step > 0 { next } else { seed.edged(1, 9_999) });
    }
    let mut numbers: Vec<u32> = numbers.into_iter().collect();
    seed.shuffle(&mut numbers);
    numbers
}

pub fn capacities(seed: &Seed, periods: u64, count: u64) -> Vec<u32> {
    let most = seed.pick(&[0, 1, 3, count / periods + 1, 2 * count / periods + 1, 255]).min(255);
    let mixed = seed.one_in(2);
    (0..periods).map(|_| if mixed && seed.one_in(8) { seed.edged(0, 255) } else { seed.edged(0, most) }).collect()
}

type Range = (u64, u64);

/// The ranges that the flights of one day are mostly drawn from: each field's whole range, or a part in which ties, jumps and
/// limits meet often.
struct Style {
    due: Range,
    rate: Range,
    after: Range,
    jump: Range,
    limit: Range,
    /// one flight in so many has no limit
    unlimited: u64,
    late: Range,
}

fn style(seed: &Seed, periods: u64) -> Style {
    let one = seed.between(1, periods);
    Style {
        due: seed.pick(&[(1, periods), (1, periods), (1, periods.min(3)), (one, one), (periods.saturating_sub(4).max(1), periods)]),
        rate: seed.pick(&[(1, 3), (1, 10_000), (9_990, 10_000)]),
        after: seed.pick(&[(0, 96), (0, 4), (90, 96)]),
        jump: seed.pick(&[(0, 0), (0, 9), (0, 1_000_000), (999_990, 1_000_000)]),
        limit: seed.pick(&[(0, 2), (0, 6), (0, 96), (periods / 2, 96), (90, 96)]),
        unlimited: seed.pick(&[1, 2, 3, 8, 1000]),
        late: seed.pick(&[(0, 0), (0, 3), (0, 96), (85, 100), (0, 255), (250, 255)]),
    }
}

fn flight(seed: &Seed, number: u32, periods: u64, style: &Style) -> Flight {
    let field = |part: Range, whole: Range| if seed.one_in(16) { seed.edged(whole.0, whole.1) } else { seed.edged(part.0, part.1) };
    let after = field(style.after, (0, 96));
    // a late that costs the jump, but whose low seven bits would not
    let high = 128 + seed.edged(0, after as u64);
    Flight {
        number,
        due: field(style.due, (1, periods)),
        rate: field(style.rate, (1, 10_000)),
        after,
        jump: field(style.jump, (0, 1_000_000)),
        limit: Some(field(style.limit, (0, 96))).filter(|_| !seed.one_in(style.unlimited)),
        late: if seed.one_in(8) { high } else { field(style.late, (0, 255)) },
    }
}

/// A day of at most so many periods and flights.
pub fn random_day(seed: &Seed, most_periods: u64, most_flights: u64) -> Day {
    let periods = size(seed, 1, most_periods);
    let count = size(seed, 0, most_flights);
    day_of_size(seed, periods, count)
}

/// One day in three is without jumps and limits, as the quick plan wants it.
pub fn day_of_size(seed: &Seed, periods: u64, count: u64) -> Day {
    let style = style(seed, periods);
    let plain = seed.one_in(3);
    let mut flights: Vec<Flight> = numbers(seed, count).into_iter().map(|number| flight(seed, number, periods, &style)).collect();
    for f in flights.iter_mut().filter(|_| plain) {
        (f.jump, f.limit) = (0, None);
    }
    // a plain day but for one flight, anywhere
    if plain && count > 0 && seed.one_in(4) {
        let f = &mut flights[seed.place(count as usize)];
        (f.jump, f.limit) = seed.pick(&[(1, None), (1_000_000, None), (0, Some(0)), (0, Some(96)), (5, Some(95))]);
    }
    with_some_curfew(seed, Day { capacities: capacities(seed, periods, count), flights, curfew: None })
}

/// How many flights every plan leaves for the closing period at least: of those due from some period on all that find no place in the
/// periods from there to the last.
pub fn left_at_end(day: &Day) -> u32 {
    let (mut left, mut over) = (0, 0);
    for (at, &capacity) in day.capacities.iter().enumerate().rev() {
        over += day.flights.iter().filter(|f| f.due as usize == at + 1).count() as i64 - capacity as i64;
        left = left.max(over);
    }
    left as u32
}

/// A curfew for every second day: mostly the tightest that a plan may keep, or one off it; else 0, about the number of flights, or
/// anything.
pub fn with_some_curfew(seed: &Seed, mut day: Day) -> Day {
    let (left, n) = (left_at_end(&day), day.flights.len() as u32);
    let tight = seed.pick(&[left, left, left, left.max(1) - 1, left + 1]);
    let around = seed.pick(&[0, 1, n.max(1) - 1, n, n + 1, 127, 128, 254, 255, seed.edged(0, 255)]);
    day.curfew = [Some(tight), Some(tight), Some(around), None, None, None][seed.below(6) as usize];
    day
}

/// A day whose plan costs as much as any can, 250,880,000, or a little less.
pub fn heavy_day(seed: &Seed) -> Day {
    let dear = Style { due: (1, 1), rate: (10_000, 10_000), after: (0, 95), jump: (1_000_000, 1_000_000), limit: (96, 96), unlimited: 2, late: (0, 255) };
    let mut day = Day { capacities: vec![0; PERIODS], flights: Vec::new(), curfew: None };
    for number in numbers(seed, FLIGHTS as u64) {
        day.flights.push(Flight { number, due: 1, rate: 10_000, after: seed.edged(0, 95), jump: 1_000_000, limit: seed.pick(&[None, Some(96)]), late: seed.edged(0, 255) });
    }
    for _ in 0..seed.below(4) {
        let at = seed.below(128) as usize;
        match seed.below(3) {
            0 => day.capacities[at.min(95)] = seed.edged(0, 3),
            1 => day.flights[at].rate = seed.edged(9_000, 10_000),
            _ => day.flights[at] = flight(seed, day.flights[at].number, 96, &dear),
        }
    }
    with_some_curfew(seed, day)
}

/// A day whose sheet is about as long as one can be, 4,825 bytes.
pub fn wide_day(seed: &Seed) -> Day {
    let wide = Style { due: (10, 96), rate: (10_000, 10_000), after: (10, 96), jump: (1_000_000, 1_000_000), limit: (10, 96), unlimited: 1000, late: (100, 255) };
    let flights = (0..128).map(|i| flight(seed, 9_999 - i, 96, &wide)).collect();
    Day { capacities: (0..PERIODS).map(|_| seed.edged(100, 255)).collect(), flights, curfew: seed.pick(&[None, Some(seed.edged(100, 255))]) }
}

/// A day on which all periods but the last few are closed and flights are due early, so that limits near the day's length bind.
pub fn day_open_at_its_end(seed: &Seed) -> Day {
    let periods = seed.pick(&[96, seed.between(90, 96)]);
    let count = seed.between(1, 16);
    let long = Style { due: (1, 2), rate: (1, 10_000), after: (90, 96), jump: (0, 1_000_000), limit: (periods - 3, 96), unlimited: 8, late: (0, 8) };
    let flights = numbers(seed, count).into_iter().map(|number| flight(seed, number, periods, &long)).collect();
    let open = periods - seed.between(1, 4);
    with_some_curfew(seed, Day { capacities: (0..periods).map(|k| if k < open { 0 } else { seed.edged(0, count) }).collect(), flights, curfew: None })
}

// ---- rows that are no day

/// A closing number out of range: the first few, one that only its low bits make look right, or any.
pub fn too_great_closing(seed: &Seed, right: u32) -> u32 {
    seed.pick(&[257, 257, 258, (right % 257).max(1) + (1 << seed.between(8, 31)), seed.from(257), u32::MAX])
}

/// One thing put wrong, at any place: a length, a repeated number, or one field out of its range.
pub fn spoil(seed: &Seed, rows: &mut Rows) {
    if seed.one_in(10) {
        return rows.closing = too_great_closing(seed, rows.closing);
    }
    if rows.flights.is_empty() && seed.one_in(2) {
        return rows.capacities.clear();
    }
    if rows.flights.is_empty() {
        rows.flights = vec![1, 1, 1, 0, 0, 255, 0];
    }
    let (p, n) = (rows.capacities.len(), rows.flights.len() / WIDTH);
    let i = seed.place(n) * WIDTH;
    match seed.below(14) {
        0 => rows.capacities.clear(),
        1 => rows.capacities.resize(seed.pick(&[97, 97, 98, 1000]), seed.edged(0, 255)),
        2 => rows.capacities[seed.place(p)] = seed.from(256),
        3 => rows.flights.resize(i + seed.between(1, WIDTH as u64 - 1) as usize, 1),
        4 => add_flights(rows, seed.pick(&[129, 129, 130, 256])),
        5 if n > 1 => rows.flights[i] = rows.flights[(i + WIDTH * seed.between(1, n as u64 - 1) as usize) % (WIDTH * n)],
        6 => rows.flights[i] = seed.pick(&[0, 10_000, seed.from(10_000)]),
        7 => rows.flights[i + 1] = seed.pick(&[0, p as u32 + 1, seed.from(p as u64 + 1)]),
        8 => rows.flights[i + 2] = seed.pick(&[0, 10_001, seed.from(10_001)]),
        9 => rows.flights[i + 3] = seed.from(97),
        10 => rows.flights[i + 4] = seed.from(1_000_001),
        11 => rows.flights[i + 5] = seed.pick(&[97, 98, 253, 254, seed.between(97, 254) as u32]),
        12 => rows.flights[i + 5] = seed.from(256),
        _ => rows.flights[i + 6] = seed.from(256),
    }
}

/// Flights up to so many, good but for their count.
fn add_flights(rows: &mut Rows, count: usize) {
    let used: BTreeSet<u32> = rows.flights.iter().step_by(WIDTH).copied().collect();
    for number in (1..=9_999).rev().filter(|n| !used.contains(n)) {
        if rows.flights.len() < count * WIDTH {
            rows.flights.extend([number, 1, 1, 0, 0, 255, 0]);
        }
    }
}

// ---- lengths and places

/// The length wanted, or none, one less, a flight less, a number less for each flight, one more, a flight more, many more.
pub fn length(seed: &Seed, exact: usize) -> usize {
    match seed.below(12) {
        0 => 0,
        1 => exact.saturating_sub(seed.pick(&[1, 1, WIDTH, FLIGHTS])),
        2 => exact + 1,
        3 => exact + seed.pick(&[WIDTH, seed.between(2, 1000) as usize]),
        _ => exact,
    }
}

/// A buffer's length and a place for a text of so many bytes: with bytes to spare, just enough, one too few, none left, a place
/// beyond the buffer, and places so large that a sum with them is too large for 32 or 64 bits.
pub fn room(seed: &Seed, needed: usize) -> (usize, usize) {
    let place = seed.pick(&[0, 1, seed.below(40) as usize, seed.below(9_000) as usize]);
    match seed.below(10) {
        0 | 1 => (place + needed, place),
        2 => (place + needed - 1, place),
        3 => (place, place + seed.below(3) as usize),
        4 => (0, seed.below(2) as usize),
        5 => {
            let huge = [usize::MAX, usize::MAX - needed, usize::MAX - needed + 1, usize::MAX - needed + 2, 1 << 63, 1 << 32, (1 << 32) + 7, u32::MAX as usize];
            (needed + seed.below(50) as usize, seed.pick(&huge))
        }
        _ => (place + needed + seed.below(100) as usize, place),
    }
}

/// A period: one of the day, one beside its ends, or one that only its low bits make look like one.
pub fn period(seed: &Seed, periods: u32) -> u32 {
    match seed.below(8) {
        0 => seed.pick(&[0, periods + 1, 97, 255, 256]),
        1 => seed.pick(&[1, periods]),
        2 => (1 << seed.between(8, 31)) + seed.below(periods as u64 + 2) as u32,
        3 => seed.from(0),
        _ => 1 + seed.below(periods.max(1) as u64) as u32,
    }
}

// ---- hold and price rows

/// Each flight to some period that its limit and the flights before it leave, if there is one.
fn some_plan(seed: &Seed, day: &Day) -> Vec<u32> {
    let mut room = day.places();
    let mut land = |f: &Flight| {
        let free: Vec<u32> = (f.due..=f.last(day.periods())).filter(|&k| room[k as usize - 1] > 0).collect();
        let lands = if free.is_empty() { f.due } else { seed.pick(&free) };
        room[lands as usize - 1] = room[lands as usize - 1].saturating_sub(1);
        lands - f.due
    };
    day.flights.iter().map(|f| land(f)).collect()
}

/// Each flight to the first period with room, whatever its limit: where a limit is too short for that, there may be no plan.
pub fn past_limits(day: &Day) -> Vec<u32> {
    let mut room = [&day.capacities[..], &[u32::MAX]].concat();
    let mut land = |f: &Flight| {
        let at = (f.due as usize - 1..).find(|&at| room[at] > 0).unwrap();
        room[at] -= 1;
        at as u32 + 1 - f.due
    };
    day.flights.iter().map(|f| land(f)).collect()
}

/// No price but on closed periods, which have any price, so that nobody would land there.
pub fn closed_prices(seed: &Seed, day: &Day) -> Vec<u32> {
    let high = seed.pick(&[u32::MAX, 1 << 31, 250_880_000]);
    day.places()[..day.priced()].iter().map(|&c| if c == 0 { high } else { 0 }).collect()
}

/// A hold row for a good day: the plan, another one, one with a few holds changed, or none at all; mostly of the day's length.
/// A hold may be so long that its landing period is small again in 32 bits.
pub fn hold_row(seed: &Seed, day: &Day, plan: &[u32]) -> Vec<u32> {
    let mut holds = match seed.below(6) {
        0 => vec![0; plan.len()],
        1 | 2 => some_plan(seed, day),
        3 if seed.one_in(4) => plan.iter().map(|_| seed.from(0)).collect(),
        _ => plan.to_vec(),
    };
    let changes = if holds.is_empty() { 0 } else { seed.pick(&[0, 0, 1, 1, 2, 3]) };
    for _ in 0..changes {
        let i = seed.place(holds.len());
        let f = &day.flights[i];
        let around = seed.between(0, day.periods() as u64 + 1) as u32;
        let most = f.last(day.periods()) - f.due;
        holds[i] = seed.pick(&[holds[i].wrapping_add(1), holds[i].wrapping_sub(1), 0, most, most + 1, around.wrapping_sub(f.due), u32::MAX]);
    }
    resized(seed, holds)
}

/// The plan with two flights in each other's landing period, where a few tries find two whose windows allow it: another legal
/// plan, whose cost differs by those two alone.
pub fn exchanged(seed: &Seed, day: &Day, plan: &[u32]) -> Vec<u32> {
    let mut holds = plan.to_vec();
    for _ in 0..if plan.is_empty() { 0 } else { 8 } {
        let (i, k) = (seed.place(plan.len()), seed.place(plan.len()));
        let (one, other) = (&day.flights[i], &day.flights[k]);
        let (lands, there) = (one.due + plan[i], other.due + plan[k]);
        let may_land = |f: &Flight, period: u32| (f.due..=f.last(day.periods())).contains(&period);
        if lands != there && may_land(one, there) && may_land(other, lands) {
            (holds[i], holds[k]) = (there - one.due, lands - other.due);
            break;
        }
    }
    holds
}

/// Mostly as it is; else shorter or longer.
pub fn resized(seed: &Seed, mut row: Vec<u32>) -> Vec<u32> {
    let exact = row.len();
    row.resize(if seed.one_in(4) { length(seed, exact) } else { exact }, 0);
    row
}

/// A price row for a good day: the plan's, one with a few prices changed, all raised by as much, or closed periods at any price. Under a
/// curfew also one with another closing price, or with the prices of the full periods at the day's end raised by as much, the closing
/// price among them: that gets a yes, since flights that land in these periods are due in them.
pub fn price_row(seed: &Seed, day: &Day, holds: &[u32], prices: &[u32]) -> Vec<u32> {
    let mut row = prices.to_vec();
    match seed.below(if day.curfew.is_some() { 10 } else { 7 }) {
        0 | 1 => (),
        7 => *row.last_mut().unwrap() = seed.pick(&[1, 1, 2, u32::MAX, seed.edged(0, 250_880_000)]),
        8 | 9 => {
            let places = day.places();
            let has_room = |&at: &usize| day.landings(holds, at as u32 + 1) < places[at];
            let full_from = (0..row.len()).rev().find(has_room).map_or(0, |at| at + 1);
            let from = if seed.one_in(8) { seed.place(row.len()) } else { full_from };
            let rise = seed.pick(&[1, 1, u32::MAX - row.iter().max().unwrap(), seed.edged(1, 250_880_000)]);
            row[from..].iter_mut().for_each(|price| *price += rise);
        }
        2 => {
            let rise = seed.pick(&[1, u32::MAX - row.iter().max().unwrap()]);
            row.iter_mut().for_each(|price| *price += rise);
        }
        3 => {
            let high = seed.pick(&[u32::MAX, 1 << 31, 0, seed.from(0)]);
            row.iter_mut().zip(day.places()).filter(|&(_, c)| c == 0).for_each(|(price, _)| *price = high);
        }
        _ => {
            for _ in 0..seed.between(1, 3) {
                let k = seed.place(row.len());
                row[k] = seed.pick(&[0, row[k].wrapping_add(1), row[k].wrapping_sub(1), u32::MAX, u32::MAX - seed.below(10_000) as u32, seed.edged(0, 250_880_000)]);
            }
        }
    }
    resized(seed, row)
}

// ---- sheets

const ODD_FIELDS: [&str; 36] = [
    "", "0", "00", "01", "07", "007", "-", "--", "-1", "+1", " 1", "1 ", "1\r", "1.0", "1e1", "x", "\"1\"", "96", "97", "128", "254", "255", "256", "999", "9999", "10000", "10001", "99999", "100000", "999999", "1000000",
    "1000001", "9999999", "10000000", "4294967297", "\u{661}",
];

/// For each field of a flight line: numbers just out of range, and a dash where none may be.
const JUST_PAST: [[&str; 3]; WIDTH] = [["0", "10000", "-"], ["0", "97", "-"], ["0", "10001", "-"], ["97", "98", "-"], ["1000001", "1000002", "-"], ["97", "255", "--"], ["256", "257", "-"]];

fn lines(bytes: &[u8]) -> Vec<Vec<u8>> {
    bytes.split_inclusive(|&b| b == 10).map(<[u8]>::to_vec).collect()
}

/// Where the second names line is, or else the end.
fn second_names(lines: &[Vec<u8>]) -> usize {
    lines.iter().position(|l| l.starts_with(NAMES[1].as_bytes())).unwrap_or(lines.len())
}

/// Some line; the first, the last and that of the last period are likely.
fn some_line(seed: &Seed, lines: &[Vec<u8>]) -> usize {
    if seed.one_in(4) { second_names(lines).max(1) - 1 } else { seed.place(lines.len()) }
}

/// One or two fields of one line made odd.
fn odd_fields(seed: &Seed, bytes: &[u8]) -> Vec<u8> {
    let mut lines = lines(bytes);
    let pick = some_line(seed, &lines);
    for _ in 0..seed.pick(&[1, 1, 2]) {
        lines[pick] = with_odd_field(seed, &lines[pick]);
    }
    lines.concat()
}

/// A number at or past an edge, one that only its low bits make look right, or none; or a field more or less.
fn with_odd_field(seed: &Seed, line: &[u8]) -> Vec<u8> {
    let mut fields: Vec<Vec<u8>> = line.strip_suffix(b"\n").unwrap_or(line).split(|&b| b == b',').map(<[u8]>::to_vec).collect();
    let at = seed.below(fields.len() as u64) as usize;
    let number: u64 = String::from_utf8_lossy(&fields[at]).parse().unwrap_or(0);
    match seed.below(14) {
        0 | 1 => fields[at] = seed.below(10u64.pow(seed.between(1, 8) as u32)).to_string().into_bytes(),
        2 | 3 => fields[at] = (number + (1 << seed.pick(&[0, 8, 8, 16, 20, 32]))).to_string().into_bytes(),
        12 | 13 if fields.len() == WIDTH => fields[at] = seed.pick(&JUST_PAST[at]).as_bytes().to_vec(),
        4 | 5 => fields[at].insert(0, b'0'),
        6 => fields.insert(at + 1, seed.pick(&[&b""[..], b"1"]).to_vec()),
        7 => drop(fields.remove(at)),
        _ => fields[at] = seed.pick(&ODD_FIELDS).as_bytes().to_vec(),
    }
    [&fields.join(&b","[..]), &b"\n"[..]].concat()
}

/// Lines that are taken for a closing line and refused, each with its number.
pub fn closing_lines(seed: &Seed) -> Vec<(String, u64)> {
    let line = |field: &str| format!("{CLOSING}{field}\n");
    let odd = ["", "-", "00", "01", "007", "+1", "-1", " 1", "1 ", "1\r", "1,", "1,1", "x", "1x", "10000000", "00000001", "99999999", "\u{661}", "\"1\"", "1.0", "closing"];
    let great = ["256", "257", "511", "512", "999", "1000", "65536", "65537", "9999999", "1048576"];
    let any = seed.between(256, 9_999_999).to_string();
    odd.iter().map(|field| (line(field), 2)).chain(great.iter().chain([&any.as_str()]).map(|field| (line(field), 3))).collect()
}

/// A closing line, mostly one that can be read.
fn closing_line(seed: &Seed) -> Vec<u8> {
    let own = format!("{CLOSING}{}\n", seed.edged(0, 255)).into_bytes();
    match seed.below(4) {
        0 => seed.pick(&[&b"closing\n"[..], b"closing,", b"closing,1", b"closing,\xff\n", b"closing,\0\n", b"closing,1\0\n", b"clos"]).to_vec(),
        1 => with_odd_field(seed, &own),
        _ => own,
    }
}

/// A line twice, the second as it is or with an odd field; one left out, two exchanged, no period lines, one more after the last
/// period, one more at the end, a closing line put in or in a line's place.
fn odd_lines(seed: &Seed, bytes: &[u8]) -> Vec<u8> {
    let mut lines = lines(bytes);
    let pick = some_line(seed, &lines);
    let second = second_names(&lines);
    match seed.below(10) {
        8 => lines.insert(seed.pick(&[1, second, second, pick]).min(lines.len()), closing_line(seed)),
        9 => lines[pick] = closing_line(seed),
        0 => {
            let copy = if seed.one_in(2) { lines[pick].clone() } else { with_odd_field(seed, &lines[pick]) };
            lines.insert(seed.between(pick as u64 + 1, lines.len() as u64) as usize, copy);
        }
        1 => drop(lines.remove(pick)),
        2 => {
            let other = seed.below(lines.len() as u64) as usize;
            lines.swap(pick, other)
        }
        3 => drop(lines.drain(1.min(second)..second)),
        4 => lines.insert(second, format!("{second},{}\n", seed.edged(0, 256)).into_bytes()),
        5 => lines.push(format!("{},1,1,0,0,-,0\n", seed.edged(1, 10_000)).into_bytes()),
        // cut after the last period line or not at all, and a piece of a line there
        _ => {
            let piece = seed.pick(&[&b""[..], b"\n", b"1", b"\r\n", b"\xff", b"\0", b"\0\n", b"flight,due,rate,after,jump,limit,late\n", b"flight,due,rate,after,jump,limit,late", b"flight,due,rate,after,jump,limit\n"]);
            lines.truncate(seed.pick(&[second, lines.len()]));
            lines.push(piece.to_vec());
        }
    }
    lines.concat()
}

/// One byte removed, put in or replaced; any of the 256, the sheet's own likely.
pub fn odd_byte(seed: &Seed, mut bytes: Vec<u8>) -> Vec<u8> {
    let at = seed.below(bytes.len() as u64 + 1) as usize;
    let byte = if seed.one_in(2) { seed.pick(b"0123456789/:,-\n\r \0;\"") } else { seed.next() as u8 };
    match seed.below(5) {
        0 if at < bytes.len() => drop(bytes.remove(at)),
        1 if at < bytes.len() => bytes[at] = byte,
        // the same byte but for its high bit, or for the bit of a capital
        2 if at < bytes.len() => bytes[at] ^= 128,
        3 if at < bytes.len() => bytes[at] ^= 32,
        _ => bytes.insert(at, byte),
    }
    bytes
}

/// The sheet as it was before #102: no column late.
pub fn old_form(sheet: &str) -> String {
    let (periods, flights) = sheet.split_once(NAMES[1]).unwrap();
    let without_late = |line: &str| line.rsplit_once(',').map_or(String::new(), |(rest, _)| format!("{rest}\n"));
    [periods, OLD_NAMES, "\n", &flights.lines().map(without_late).collect::<String>()].concat()
}

/// What other programs make of a sheet.
fn other_form(seed: &Seed, sheet: &str) -> Vec<u8> {
    match seed.below(7) {
        0 => sheet.replace('\n', "\r\n").into_bytes(),
        1 => ["\u{feff}", sheet].concat().into_bytes(),
        2 => sheet.replace(',', ";").into_bytes(),
        3 => sheet.replace('\n', "\r").into_bytes(),
        4 => old_form(sheet).into_bytes(),
        5 => sheet.replace(NAMES[1], OLD_NAMES).into_bytes(),
        _ => sheet.trim_end().as_bytes().to_vec(),
    }
}

pub fn damaged(seed: &Seed, sheet: &str) -> Vec<u8> {
    if seed.one_in(16) {
        return other_form(seed, sheet);
    }
    let mut bytes = sheet.as_bytes().to_vec();
    for _ in 0..seed.pick(&[1, 1, 1, 2, 3]) {
        if bytes.is_empty() {
            break;
        }
        bytes = match seed.below(12) {
            0..=3 => odd_fields(seed, &bytes),
            4..=7 => odd_lines(seed, &bytes),
            8..=9 => odd_byte(seed, bytes),
            10 => bytes[..seed.below(bytes.len() as u64) as usize].to_vec(),
            _ => {
                bytes.resize(seed.pick(&[8_191, 8_192, 8_193, 8_194, 16_384, 65_536]), seed.pick(b"\n1,\xff"));
                bytes
            }
        };
    }
    bytes
}
