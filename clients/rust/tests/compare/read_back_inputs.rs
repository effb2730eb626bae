//! Inputs of the plan reader from a seed: days, legal plans of all kinds, their texts, and texts with something wrong.
use crate::day::{Day, Flight, FLIGHTS, PERIODS};
use crate::inputs;
use crate::planners::quick_by_sorting;
use crate::read_back::{rest_can_land, room_after, NAMES};
use crate::seed::Seed;
use hold_desk_client::full_plan;

// ---- days

/// A day with a legal plan and hardly a place to spare: as many places as flights that land in each period of some plan, and limits of
/// all kinds, so that a flight that takes another's place often leaves it none.
pub fn tight_day(seed: &Seed, periods: u64, flights: u64) -> Day {
    let mut day = inputs::day_of_size(seed, periods, flights);
    day.capacities.fill(0);
    let mut closing = 0;
    let (limited, longest) = (seed.pick(&[1, 2, 8]), seed.pick(&[0, 1, 3, 6, 96]));
    for f in &mut day.flights {
        if !seed.one_in(limited + 1) {
            f.limit = Some(seed.edged(0, longest));
        }
        let last = f.last(periods as u32);
        let lands = seed.pick(&[f.due, last, seed.between(f.due as u64, last as u64) as u32]);
        *day.capacities.get_mut(lands as usize - 1).unwrap_or(&mut closing) += 1;
    }
    day.curfew = seed.pick(&[None, Some(closing), Some(closing), Some(closing + seed.below(3) as u32)]);
    for _ in 0..seed.below(3) {
        day.capacities[seed.place(periods as usize)] += 1;
    }
    day
}

/// A day of which one plan has the longest text there is, 2,859 bytes: nobody lands before the closing period, which may just take all.
pub fn longest_day(seed: &Seed) -> Day {
    let flight = |i: u32| Flight { number: 9_999 - i, due: 10, rate: 10_000, after: seed.edged(0, 86), jump: 1_000_000, limit: None, late: seed.edged(10, 255) };
    Day { capacities: vec![0; PERIODS], flights: (0..FLIGHTS as u32).map(flight).collect(), curfew: seed.pick(&[None, Some(128), Some(255)]) }
}

// ---- legal plans

/// Each flight in table order to a period that leaves those after it a plan: the first, the last, or any.
fn some_plan(seed: &Seed, day: &Day) -> Option<Vec<u32>> {
    let way = seed.below(4);
    let mut holds: Vec<u32> = Vec::new();
    for f in &day.flights {
        let room = room_after(day, &holds);
        let mut free: Vec<u32> = (f.due..=f.last(day.periods())).filter(|&k| room.get(k as usize - 1) != Some(&0)).collect();
        match way {
            0 => (),
            1 => free.reverse(),
            _ => seed.shuffle(&mut free),
        }
        let fits = |lands: &u32| rest_can_land(day, &[&holds[..], &[lands - f.due]].concat());
        let lands = free.into_iter().find(fits)?;
        holds.push(lands - f.due);
    }
    Some(holds)
}

/// A cheapest plan, which is the core's own, the quick plan where it is legal, and so many others; none if the day has none. The core's
/// rows lie within longer ones: what it may do beside them is another test's matter.
pub fn plans(seed: &Seed, day: &Day, others: u64) -> Vec<Vec<u32>> {
    const MARGIN: usize = 16;
    let rows = day.rows();
    let (n, priced) = (day.flights.len(), day.priced());
    let (mut holds, mut prices) = (vec![0; n + 2 * MARGIN], vec![0; priced + 2 * MARGIN]);
    let planned = full_plan(&rows.capacities, &rows.flights, rows.closing, &mut holds[MARGIN..][..n], &mut prices[MARGIN..][..priced]).number == 0;
    let mut plans = vec![holds[MARGIN..][..n].to_vec(), quick_by_sorting(day).0];
    for _ in 0..if planned { others } else { 0 } {
        plans.extend(some_plan(seed, day));
    }
    plans.retain(|plan| day.legal_total(plan).is_some());
    plans
}

// ---- texts

type Lines = Vec<Vec<u8>>;

fn lines(text: &[u8]) -> Lines {
    text.split_inclusive(|&b| b == 10).map(<[u8]>::to_vec).collect()
}

/// The text that these holds and costs would have, and this total.
fn text_with(day: &Day, holds: &[u32], costs: &[u64], total: u64) -> Vec<u8> {
    let mut text = NAMES.to_vec();
    for ((f, hold), cost) in day.flights.iter().zip(holds).zip(costs) {
        text.extend(format!("{},{},{},{hold},{cost}\n", f.number, f.due, f.due + hold).bytes());
    }
    text.extend(format!("total\n{total}\n").bytes());
    text
}

/// Holds that are not legal, or not for the flights below, in lines that are each right in itself: over the limit, after the closing
/// period, where another lands, or anywhere. The total is theirs or the plan's.
fn other_holds(seed: &Seed, day: &Day, plan: &[u32]) -> Vec<u8> {
    let mut holds = plan.to_vec();
    for _ in 0..seed.pick(&[1, 1, 1, 2]) {
        let i = seed.place(plan.len());
        let other = &day.flights[seed.place(plan.len())];
        let f = &day.flights[i];
        let most = day.periods() + 1 - f.due;
        holds[i] = match seed.below(10) {
            0 | 1 => f.limit.unwrap_or(most) + 1,
            2 => most + 1,
            3 => most + seed.pick(&[2, 96, 255, 256, 65_536]),
            4 => most,
            5 => (other.due + seed.pick(plan)).saturating_sub(f.due),
            6 => 0,
            7 => holds[i] + 1,
            8 => holds[i].saturating_sub(1),
            _ => seed.between(0, most as u64) as u32,
        };
    }
    let costs: Vec<u64> = day.flights.iter().zip(&holds).map(|(f, &hold)| f.cost(hold)).collect();
    let total = if seed.one_in(4) { day.total(plan) } else { costs.iter().sum() };
    text_with(day, &holds, &costs, total)
}

/// One flight to a period with room that leaves the flights below without a plan, if a few tries find one. The lines below are the
/// plan's, or something else.
fn left_stuck(seed: &Seed, day: &Day, plan: &[u32]) -> Vec<u8> {
    let mut holds = plan.to_vec();
    for _ in 0..16 {
        let i = seed.pick(&[seed.place(plan.len()), seed.below(plan.len() as u64) as usize, plan.len().max(2) - 2]);
        let f = &day.flights[i];
        let lands = seed.between(f.due as u64, f.last(day.periods()) as u64) as u32;
        holds[i] = lands - f.due;
        if room_after(day, &plan[..i]).get(lands as usize - 1) != Some(&0) && !rest_can_land(day, &holds[..=i]) {
            break;
        }
        holds[i] = plan[i];
    }
    let text = day.plan_text(&holds).into_bytes();
    if seed.one_in(4) { odd_field(seed, &text) } else { text }
}

/// Costs by another rule, of one flight or of all; the total is the costs' or the plan's.
fn other_costs(seed: &Seed, day: &Day, plan: &[u32]) -> Vec<u8> {
    let by = |rule: u64, f: &Flight, hold: u32| {
        let (held, late, jump) = (f.rate as u64 * hold as u64, f.late as u64, f.jump as u64);
        let (delay, after) = (late + hold as u64, f.after as u64);
        match rule {
            0 => held + if hold as u64 > after { jump } else { 0 },
            1 => held + if delay >= after { jump } else { 0 },
            2 => held,
            3 => held + if delay > after && hold > 0 { jump } else { 0 },
            4 => held + if late % 128 + hold as u64 > after { jump } else { 0 },
            5 => f.cost(hold) + 1,
            6 => f.cost(hold).saturating_sub(1),
            7 => f.cost(hold) % (1 << 16),
            8 => f.cost(hold) % (1 << 20),
            _ => f.cost(hold + 1),
        }
    };
    let right: Vec<u64> = day.flights.iter().zip(plan).map(|(f, &hold)| f.cost(hold)).collect();
    let mut costs = right.clone();
    for _ in 0..6 {
        let rule = seed.below(10);
        let other: Vec<u64> = day.flights.iter().zip(plan).map(|(f, &hold)| by(rule, f, hold)).collect();
        let differs: Vec<usize> = (0..plan.len()).filter(|&i| other[i] != right[i]).collect();
        if differs.is_empty() {
            continue;
        }
        match seed.below(4) {
            0 => costs = other,
            1 => costs[differs[0]] = other[differs[0]],
            2 => costs[*differs.last().unwrap()] = *other.last().unwrap(),
            _ => {
                let at = seed.pick(&differs);
                costs[at] = other[at];
            }
        }
        break;
    }
    let total = if seed.one_in(2) { right.iter().sum() } else { costs.iter().sum() };
    text_with(day, plan, &costs, total)
}

/// A field of a flight's line or the total made odd.
fn odd_field(seed: &Seed, text: &[u8]) -> Vec<u8> {
    let mut lines = lines(text);
    let last = lines.len().max(1) - 1;
    // the total, the last flight's line, or any but the names line
    let pick = seed.pick(&[last, last.max(2) - 2, seed.between(1.min(last as u64), last as u64) as usize, seed.between(1.min(last as u64), last as u64) as usize]);
    if let Some(line) = lines.get_mut(pick) {
        *line = with_odd_field(seed, line);
    }
    lines.concat()
}

fn with_odd_field(seed: &Seed, line: &[u8]) -> Vec<u8> {
    let mut fields: Vec<Vec<u8>> = line.strip_suffix(b"\n").unwrap_or(line).split(|&b| b == b',').map(<[u8]>::to_vec).collect();
    let at = seed.below(fields.len() as u64) as usize;
    let field = &mut fields[at];
    let number: Option<u128> = std::str::from_utf8(field).ok().and_then(|field| field.parse().ok());
    let any = number.unwrap_or(0);
    match seed.below(16) {
        0 | 1 => *field = (any + 1).to_string().into_bytes(),
        2 => *field = any.saturating_sub(1).to_string().into_bytes(),
        3 => *field = (any + (1 << seed.pick(&[8, 16, 24, 31, 32, 32, 32, 63, 64, 64, 64]))).to_string().into_bytes(),
        4 => field.insert(0, b'0'),
        5 => *field = format!("{any:0width$}", width = seed.between(8, 25) as usize).into_bytes(),
        6 => *field = (0..seed.between(8, 25)).map(|_| b'1' + seed.below(9) as u8).collect(),
        7 => field.insert(0, seed.pick(b"+- ")),
        8 => field.push(seed.pick(b" \r\0\t.")),
        9 => field.clear(),
        // a byte beside the digits, a high bit
        10 => field.iter_mut().for_each(|b| *b = if *b == b'9' { b':' } else if *b == b'0' { b'/' } else { *b }),
        11 if !field.is_empty() => field[0] ^= 128,
        12 => fields.insert(at + 1, seed.pick(&[&b""[..], b"0", b"1"]).to_vec()),
        13 => drop(fields.remove(at)),
        14 => {
            let other = seed.below(fields.len() as u64) as usize;
            fields.swap(at, other);
        }
        _ => *field = (any % (1 << seed.pick(&[8, 16, 20, 24]))).to_string().into_bytes(),
    }
    let (comma, end) = (if seed.one_in(32) { b";" } else { b"," }, if seed.one_in(8) { seed.pick(&[&b"\r\n"[..], b",\n", b""]) } else { b"\n" });
    [&fields.join(&comma[..]), end].concat()
}

/// The last two lines made odd.
fn odd_total(seed: &Seed, day: &Day, plan: &[u32]) -> Vec<u8> {
    let (total, last) = (day.total(plan) as u128, plan.last().map_or(0, |&hold| day.flights[plan.len() - 1].cost(hold)) as u128);
    let numbers = [total + 1, total.saturating_sub(1), total - last, 0, total * 10, total / 10, total - total % 10, total % (1 << 24), total + (1 << 32), total + (1 << 64), total % 10_000_000, total + 1_000_000_000, 250_880_000];
    let number = if seed.one_in(3) { total } else { seed.pick(&numbers) };
    let mut text = day.plan_text(plan).into_bytes();
    text.truncate(text.len() - format!("total\n{total}\n").len());
    let ending = match seed.below(12) {
        0 => format!("{number}\n"),
        1 => "total\n".into(),
        2 => format!("total\n{number}\n{number}\n"),
        3 => format!("total\ntotal\n{number}\n"),
        4 => format!("total,{number}\n"),
        5 => format!("{}\n{number}\n", seed.pick(&["Total", "TOTAL", "total ", "totals", "tota", "totaL", "", " total", "total\r", "total\0"])),
        6 => format!("total\n0{number}\n"),
        7 => format!("total\n{}{number}\n", seed.pick(&["+", "-", " ", "\n", "0,"])),
        8 => format!("total\n{number}{}\n", seed.pick(&[" ", "\r", ".0", ",", ",0", "\0"])),
        _ => format!("total\n{number}\n"),
    };
    [text, ending.into_bytes()].concat()
}

/// Something behind the total.
fn with_more(seed: &Seed, text: Vec<u8>) -> Vec<u8> {
    let own = lines(&text);
    let more = match seed.below(10) {
        0 => own[seed.place(own.len())].clone(),
        1 => text.clone(),
        2 => long_rubbish(seed, text.len()),
        _ => seed.pick(&[&b"\n"[..], b"\n", b"\n\n", b"\0", b"\0\n", b"\0rest\n", b"0", b"0\n", b" ", b" \n", b"\r\n", b"x", b"total\n", b"\xff"]).to_vec(),
    };
    [text, more].concat()
}

/// Many bytes, now and then very many; also such that a text of so many with them has as many as without in 12 or 16 bits, and such that
/// it comes to 8,192.
fn long_rubbish(seed: &Seed, before: usize) -> Vec<u8> {
    let many = seed.pick(&[4_096, 8_192 - before.min(8_000), 8_193, 20_000, 20_000, 65_536, 65_536, 100_000]);
    let many = if many > 20_000 && seed.one_in(2) { 256 } else { many };
    let byte = seed.pick(b"\n\n0,\0\xff ");
    (0..many).map(|_| if seed.one_in(64) { seed.next() as u8 } else { byte }).collect()
}

/// A line left out, twice, exchanged with another, of another plan, or an empty one put in.
fn odd_lines(seed: &Seed, text: &[u8], other: &[u8]) -> Vec<u8> {
    let mut own = lines(text);
    let (pick, from) = (seed.place(own.len()), lines(other));
    match seed.below(8) {
        0 => drop(own.remove(pick)),
        1 => own.insert(pick, own[pick].clone()),
        2 => {
            let next = seed.place(own.len());
            own.swap(pick, next);
        }
        3 if pick > 0 => own.swap(pick - 1, pick),
        4 => own.insert(pick, seed.pick(&[&b"\n"[..], b" \n", b"\r\n", b"\0\n"]).to_vec()),
        5 => own[pick..].clone_from_slice(&from[pick..]),
        6 => own[..pick].clone_from_slice(&from[..pick]),
        _ => own[pick] = from[pick].clone(),
    }
    own.concat()
}

fn odd_names(seed: &Seed, text: &[u8]) -> Vec<u8> {
    let names = seed.pick(&[
        "", "\n", "Flight,due,lands,hold,cost\n", "flight,due,lands,hold,cosT\n", "flight,due,lands,hold,cos\n", "flight,due,hold,lands,cost\n", "flight,due,lands,hold,cost\r\n", "flight,due,lands,hold,cost \n",
        "flight,due,lands,hold,cost,\n", "flight,due,lands,hold,cost\0\n", "\u{feff}flight,due,lands,hold,cost\n", "flight,due,lands,hold,costs\n", "flight;due;lands;hold;cost\n", "flight,due,lands,hold\n",
        "flight,due,rate,after,jump,limit,late\n", "flight,due,lands,hold,cost\nflight,due,lands,hold,cost\n", "flight,due,lands,hold,cost",
    ]);
    [names.as_bytes(), text.strip_prefix(NAMES).unwrap_or(text)].concat()
}

/// A byte changed, left out, put in or twice.
fn odd_byte(seed: &Seed, mut text: Vec<u8>) -> Vec<u8> {
    if !text.is_empty() && seed.one_in(5) {
        let at = seed.place(text.len());
        text.insert(at, text[at]);
        return text;
    }
    inputs::odd_byte(seed, text)
}

/// Cut anywhere, behind a line, or before a line's end byte.
fn cut(seed: &Seed, text: &[u8]) -> Vec<u8> {
    let own = lines(text);
    let behind = own[..seed.below(own.len() as u64 + 1) as usize].concat().len();
    let at = seed.pick(&[seed.below(text.len() as u64 + 1) as usize, behind, behind, behind.max(1) - 1, text.len() - 1]);
    text[..at].to_vec()
}

/// What is no text of this day's plan at all, but for chance.
pub fn other_text(seed: &Seed, day: &Day) -> Vec<u8> {
    let other = inputs::random_day(seed, 4, 5);
    let zeros = |day: &Day| day.plan_text(&vec![0; day.flights.len()]).into_bytes();
    match seed.below(12) {
        0 => vec![],
        1 => b"\n".to_vec(),
        2 => day.sheet().into_bytes(),
        3 => zeros(&other),
        4 => zeros(day),
        5 => zeros(day).iter().flat_map(|&b| if b == 10 { vec![13, 10] } else { vec![b] }).collect(),
        6 => long_rubbish(seed, 0),
        7 => (0..seed.below(60)).map(|_| seed.next() as u8).collect(),
        8 => NAMES.to_vec(),
        9 => b"refusal,first,second\n9,1,1\n".to_vec(),
        10 => day.plan_text(&inputs::past_limits(day)).into_bytes(),
        _ => NAMES[..seed.below(28) as usize].to_vec(),
    }
}

/// The text of a legal plan with something wrong, mostly one thing; of another plan of the day something may come into it.
pub fn damaged(seed: &Seed, day: &Day, plan: &[u32], other: &[u32]) -> Vec<u8> {
    let text = day.plan_text(plan).into_bytes();
    let odd = match seed.below(24) {
        0..=3 if !plan.is_empty() => other_holds(seed, day, plan),
        4..=6 if !plan.is_empty() => left_stuck(seed, day, plan),
        7..=8 if !plan.is_empty() => other_costs(seed, day, plan),
        9..=13 => odd_field(seed, &text),
        14..=15 => odd_total(seed, day, plan),
        16..=17 => with_more(seed, text),
        18 => odd_lines(seed, &text, &day.plan_text(other).into_bytes()),
        19 => odd_names(seed, &text),
        20 => other_text(seed, day),
        21 => cut(seed, &text),
        _ => odd_byte(seed, text),
    };
    match seed.below(16) {
        0 => odd_byte(seed, odd),
        1 if !odd.is_empty() => cut(seed, &odd),
        _ => odd,
    }
}

/// The length wanted, or another one.
pub fn hold_row(seed: &Seed, exact: usize) -> usize {
    if seed.one_in(4) { seed.pick(&[0, FLIGHTS, FLIGHTS + 1, exact + 1, exact.max(1) - 1]) } else { inputs::length(seed, exact) }
}
