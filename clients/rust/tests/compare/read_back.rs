//! The plan text read back, document 02, #107, apart from the core: why it is refused, and at which line, found in two ways; and what
//! a call has met of all that can happen.
use crate::day::{Day, Flight, Rows, FLIGHTS, PERIODS, WIDTH};
use crate::planners::closing_landings;
use crate::reasons::{applying, off, Reason};
use hold_desk_client::Answer;
use std::cmp::Reverse;
use std::collections::{BTreeSet, BinaryHeap};

pub const NAMES: &[u8] = b"flight,due,lands,hold,cost\n";

/// Why a call is refused, and its answer's number, in the order of the tests.
pub const REASONS: [Reason; 3] = [("day", 6), ("hold row", 7), ("text", 15)];

/// What a text says: the holds of a legal plan, or the offset that it is refused with.
pub type Reading = Result<Vec<u32>, usize>;

/// The reasons that apply, each with its answer. Where the rows are no day, a text is wrong if it is so for every day.
pub fn refusals(rows: &Rows, reading: Option<&Reading>, text: &[u8], holds: usize) -> Vec<(&'static str, Answer)> {
    let n = rows.flights.len() / WIDTH;
    let good = reading.map_or(text.starts_with(NAMES), |reading| reading.is_ok());
    let offset = reading.and_then(|reading| reading.as_ref().err()).copied().unwrap_or(0);
    applying(&REASONS, &[reading.is_some(), holds == n, good], &[0, n as u64, offset as u64].map(|first| (first, 0)))
}

/// The lines with their offsets, the end byte with each; the last may lack it.
fn lines_of(text: &[u8]) -> impl Iterator<Item = (usize, &[u8])> {
    let mut next = 0;
    text.split_inclusive(|&b| b == 10).map(move |line| {
        next += line.len();
        (next - line.len(), line)
    })
}

// ---- by the texts of all legal plans

/// The texts of all legal plans of a day, in the order of their bytes, each with its holds.
pub struct AllTexts(Vec<(Vec<u8>, Vec<u32>)>);

impl AllTexts {
    pub fn of(day: &Day) -> AllTexts {
        fn plans(day: &Day, holds: &mut Vec<u32>, room: &mut [u32], all: &mut Vec<(Vec<u8>, Vec<u32>)>) {
            let Some(f) = day.flights.get(holds.len()) else {
                return all.push((day.plan_text(holds).into_bytes(), holds.clone()));
            };
            for lands in f.due..=f.last(day.periods()) {
                let at = lands as usize - 1;
                if room[at] > 0 {
                    room[at] -= 1;
                    holds.push(lands - f.due);
                    plans(day, holds, room, all);
                    holds.pop();
                    room[at] += 1;
                }
            }
        }
        let mut all = Vec::new();
        plans(day, &mut vec![], &mut day.places(), &mut all);
        all.sort();
        AllTexts(all)
    }

    /// Whether the text of some legal plan begins with these bytes.
    fn some_begins(&self, bytes: &[u8]) -> bool {
        let at = self.0.partition_point(|(text, _)| text.as_slice() < bytes);
        self.0.get(at).is_some_and(|(text, _)| text.starts_with(bytes))
    }

    /// The sentence of document 02 as it stands.
    pub fn read(&self, text: &[u8]) -> Reading {
        if let Ok(at) = self.0.binary_search_by(|(other, _)| other.as_slice().cmp(text)) {
            return Ok(self.0[at].1.clone());
        }
        let refused = |&(offset, line): &(usize, &[u8])| !line.ends_with(b"\n") || !self.some_begins(&text[..offset + line.len()]);
        Err(lines_of(text).find(refused).map_or(text.len(), |(offset, _)| offset))
    }
}

// ---- by walking the lines

/// Whether these flights can all land in what is left of each period, the closing period last, by landing them: in each period those
/// that may not wait longest, as many as there is room for. Where the closing period takes all, those that may wait for it are in
/// nobody's way.
pub fn can_land(flights: &[Flight], room: &[u32]) -> bool {
    let p = room.len() as u32 - 1;
    let takes_all = room[p as usize] as usize >= flights.len();
    let mut coming: Vec<(u32, u32)> = flights.iter().map(|f| (f.due, f.last(p))).filter(|&(_, last)| !takes_all || last <= p).collect();
    coming.sort_unstable();
    let mut coming = coming.into_iter().peekable();
    let mut waiting = BinaryHeap::new();
    (1..).zip(room).all(|(period, &places)| {
        while let Some((_, last)) = coming.next_if(|&(due, _)| due == period) {
            waiting.push(Reverse(last));
        }
        (0..places).take_while(|_| waiting.pop().is_some()).count();
        !waiting.peek().is_some_and(|&Reverse(last)| last == period)
    })
}

/// What is left of each period, the closing period last, after these holds of the first flights.
pub fn room_after(day: &Day, holds: &[u32]) -> Vec<u32> {
    let mut room = day.places();
    for (f, &hold) in day.flights.iter().zip(holds) {
        room[(f.due + hold) as usize - 1] -= 1;
    }
    room
}

/// The day that is left after these holds of the first flights.
pub fn rest_of(day: &Day, holds: &[u32]) -> Day {
    let mut capacities = room_after(day, holds);
    let closing = capacities.pop();
    Day { capacities, flights: day.flights[holds.len()..].to_vec(), curfew: closing.filter(|_| day.curfew.is_some()) }
}

/// Whether the flights that have no hold yet can still land.
pub fn rest_can_land(day: &Day, holds: &[u32]) -> bool {
    can_land(&day.flights[holds.len()..], &room_after(day, holds))
}

fn line_of(f: &Flight, hold: u32) -> String {
    format!("{},{},{},{},{}\n", f.number, f.due, f.due + hold, hold, f.cost(hold))
}

/// The hold that a flight's line tells, if the line is that flight's with this hold, whether it may be held so long or not.
fn hold_of(f: &Flight, line: &[u8]) -> Option<u32> {
    let field = std::str::from_utf8(line).ok()?.split(',').nth(3)?;
    let hold = field.parse().ok().filter(|&hold: &u32| hold <= 1_000_000)?;
    (line_of(f, hold).as_bytes() == line).then_some(hold)
}

/// The lines from the top as far as each is right in itself and its flight finds room; then the first of them after which the flights
/// below cannot land any more.
pub fn read_by_walking(day: &Day, text: &[u8]) -> Reading {
    let mut lines = lines_of(text).peekable();
    let mut starts = vec![0];
    let mut holds: Vec<u32> = Vec::new();
    let named = lines.next_if(|&(_, line)| line == NAMES).is_some();
    for f in day.flights.iter().take_while(|_| named) {
        let Some(hold) = lines.peek().and_then(|(_, line)| hold_of(f, line)) else { break };
        let lands = f.due + hold;
        if lands > f.last(day.periods()) || room_after(day, &holds).get(lands as usize - 1) == Some(&0) {
            break;
        }
        holds.push(hold);
        starts.extend(lines.next().map(|(offset, _)| offset));
    }
    let known: Vec<usize> = (0..=holds.len()).collect();
    let stuck = known.partition_point(|&count| rest_can_land(day, &holds[..count]));
    if stuck <= holds.len() {
        return Err(starts[stuck]);
    }
    if named && holds.len() == day.flights.len() {
        let total = format!("{}\n", day.total(&holds));
        let ends = lines.next_if(|&(_, line)| line == b"total\n").is_some() && lines.next_if(|&(_, line)| line == total.as_bytes()).is_some();
        if ends && lines.peek().is_none() {
            return Ok(holds);
        }
    }
    Err(lines.next().map_or(text.len(), |(offset, _)| offset))
}

// ---- what a call has met

/// What a refusal was given for, where no other reason has the same answer.
pub fn met_in_refusal(rows: &Rows, text: &[u8], holds: usize, why: &str, offset: usize) -> Vec<String> {
    let (n, periods) = (rows.flights.len() / WIDTH, rows.capacities.len());
    match (why, rows.day()) {
        ("hold row", _) if holds == FLIGHTS && n < FLIGHTS => vec!["a hold row of 128".into()],
        ("hold row", _) => vec![format!("a hold row {}", off(holds, n))],
        ("text", Some(day)) => {
            let what = refused_for(&day, text, offset);
            let sizes = [(periods == PERIODS && n == FLIGHTS, "96 periods and 128 flights"), (text.len() > 8_192, "a text of more than 8,192 bytes"), (text.len() > 65_536, "a text of more than 65,536 bytes")];
            let more: Vec<String> = sizes.iter().filter(|(met, _)| *met).map(|(_, size)| format!("{what}, {size}")).collect();
            [vec![what], more].concat()
        }
        _ => vec!["no day".into()],
    }
}

/// Words for what stands at the offset: all lines above it are right.
fn refused_for(day: &Day, text: &[u8], offset: usize) -> String {
    let above: Vec<&[u8]> = lines_of(&text[..offset]).map(|(_, line)| line).collect();
    let n = day.flights.len();
    let which = match above.len() {
        0 => "the names line",
        k if k <= n => "a flight's line",
        k if k == n + 1 => "the line before the total",
        k if k == n + 2 => "the total",
        _ => return format!("behind the total {}", behind(&text[offset..])),
    };
    if !rest_can_land(day, &[]) {
        let unlimited = Day { curfew: None, ..day.clone() };
        return format!("no legal plan{}, {}", if rest_can_land(&unlimited, &[]) { " under a curfew" } else { "" }, first_line(day, text));
    }
    let Some((_, line)) = lines_of(&text[offset..]).next() else {
        return format!("ends before {which}");
    };
    let holds: Vec<u32> = above.iter().skip(1).zip(&day.flights).map(|(line, f)| hold_of(f, line).unwrap()).collect();
    let whole = [line, b"\n"].concat();
    let total = format!("{}\n", day.total(&holds));
    let right = match above.len() {
        0 => whole == NAMES,
        k if k <= n => hold_of(&day.flights[k - 1], &whole).is_some(),
        k if k == n + 1 => whole == b"total\n",
        _ => whole == total.as_bytes(),
    };
    match line.strip_suffix(b"\n") {
        None if right => format!("{which} without its end byte"),
        None => format!("a part of {which}, or other bytes"),
        Some(line) if which == "a flight's line" => wrong_flight(day, &holds, line),
        Some(line) if which == "the total" => wrong_total(line, day.total(&holds)),
        Some(_) => format!("not {which}"),
    }
}

fn behind(rest: &[u8]) -> &'static str {
    match rest {
        b"\n" => "an end byte",
        b"\0" => "a byte 0",
        [_] => "a byte",
        _ if rest.starts_with(b"\0") => "a byte 0 and more",
        _ if rest.ends_with(b"\n") => "whole lines",
        _ => "bytes without an end byte",
    }
}

fn first_line(day: &Day, text: &[u8]) -> &'static str {
    let mut lines = lines_of(text).map(|(_, line)| line);
    match (lines.next(), lines.next().zip(day.flights.first())) {
        (None, _) => "an empty text",
        (Some(NAMES), Some((line, f))) if hold_of(f, line).is_some() => "the names line and a flight's line",
        (Some(NAMES), None) => "the names line alone",
        (Some(NAMES), _) => "the names line and another line",
        _ => "another line",
    }
}

/// A number as a text has it, of any size that 128 bits take.
fn number(field: &[u8]) -> Option<u128> {
    let plain = !field.is_empty() && field.len() <= 38 && field.iter().all(u8::is_ascii_digit) && (field.len() == 1 || field[0] != b'0');
    plain.then(|| std::str::from_utf8(field).unwrap().parse().unwrap())
}

fn odd_form(field: &[u8]) -> &'static str {
    match field {
        [] => "none",
        [b'0', ..] if field.iter().all(u8::is_ascii_digit) => "one with a leading zero",
        [b'+', ..] => "one with a plus",
        [b'-', ..] => "one with a minus",
        [b' ', ..] | [.., b' '] => "one with a blank",
        [.., b'\r'] => "one with a carriage return",
        _ => "no number",
    }
}

/// How a number is not the right one.
fn apart(got: u128, right: u128) -> &'static str {
    match got {
        _ if got == right + 1 => "one more",
        _ if got + 1 == right => "one less",
        _ if got > u64::MAX as u128 => if got as u64 as u128 == right { "the right one in 64 bits" } else { "one past 64 bits" },
        _ if got > u32::MAX as u128 => if got as u32 as u128 == right { "the right one in 32 bits" } else { "one past 32 bits" },
        _ if got > 9_999_999 => "one of more than 7 digits",
        _ => "another",
    }
}

fn wrong_total(line: &[u8], right: u64) -> String {
    let kind = number(line).map_or_else(|| odd_form(line), |got| apart(got, right as u128));
    format!("for the total {kind}")
}

const FIELDS: [&str; 5] = ["the flight", "due", "lands", "the hold", "the cost"];

/// How each number of a text must have been wrong, alone in its line.
#[rustfmt::skip]
const WRONG: [&str; 14] = [
    "one more", "one less", "none", "no number", "one with a leading zero", "one with a plus", "one with a minus", "one with a blank",
    "one with a carriage return", "one of more than 7 digits", "one past 32 bits", "one past 64 bits", "the right one in 32 bits", "the right one in 64 bits",
];

pub fn every_wrong_number() -> Vec<String> {
    FIELDS.iter().chain(&["the total"]).flat_map(|field| WRONG.map(|wrong| format!("for {field} {wrong}"))).collect()
}

fn wrong_flight(day: &Day, holds: &[u32], line: &[u8]) -> String {
    let f = &day.flights[holds.len()];
    let fields: Vec<&[u8]> = line.split(|&b| b == b',').collect();
    if fields.len() != 5 {
        return format!("a flight's line with {} fields", if fields.len() < 5 { "fewer" } else { "more" });
    }
    if let Some(at) = fields.iter().position(|field| number(field).is_none()) {
        return format!("for {} {}", FIELDS[at], odd_form(fields[at]));
    }
    let got: Vec<u128> = fields.iter().map(|field| number(field).unwrap()).collect();
    // the right line for the hold that it tells, or for the landing period
    let line_for = |hold: u128| [f.number as u128, f.due as u128, f.due as u128 + hold, hold, f.rate as u128 * hold + if f.late as u128 + hold > f.after as u128 { f.jump as u128 } else { 0 }];
    let wrong_in = |right: &[u128; 5]| (0..5).filter(|&at| got[at] != right[at]).collect::<Vec<_>>();
    let rights = [line_for(got[3]), line_for(got[2].saturating_sub(f.due as u128))];
    match rights.iter().map(|right| (right, wrong_in(right))).min_by_key(|(_, wrong)| wrong.len()).unwrap() {
        (_, wrong) if wrong.is_empty() => right_in_itself(day, f, holds, got[3]),
        (right, wrong) if wrong == [4] => format!("for the cost {}", other_cost(f, got[3], got[4]).unwrap_or_else(|| apart(got[4], right[4]))),
        (right, wrong) if wrong.len() == 1 => format!("for {} {}", FIELDS[wrong[0]], apart(got[wrong[0]], right[wrong[0]])),
        _ if day.flights.iter().any(|other| other.number as u128 == got[0] && other.number != f.number) => "another flight's line".into(),
        _ => "a line with several wrong numbers".into(),
    }
}

/// By which other rule a cost comes out so.
fn other_cost(f: &Flight, hold: u128, cost: u128) -> Option<&'static str> {
    let held = f.rate as u128 * hold;
    let (late, after, jump) = (f.late as u128, f.after as u128, f.jump as u128);
    let right = late + hold > after;
    let rules = [
        (late + hold == after && cost == held + jump, "that with the jump at after"),
        (right && hold == 0 && cost == held, "that without the jump at hold 0"),
        (right && hold <= after && cost == held, "that without late"),
        (right && cost == held, "that without the jump"),
    ];
    rules.iter().find(|(applies, _)| *applies && jump > 1).map(|&(_, what)| what)
}

fn right_in_itself(day: &Day, f: &Flight, holds: &[u32], hold: u128) -> String {
    let (p, lands) = (day.periods() as u128, f.due as u128 + hold);
    let over = f.limit.filter(|&limit| hold > limit as u128);
    let past = [(lands > p + 2, "far after the closing period"), (lands == p + 2, "just after the closing period")];
    if let Some((_, what)) = past.iter().find(|(met, _)| *met) {
        return format!("right in itself, {what}{}", if over.is_some() { " and over its limit" } else { "" });
    }
    if let Some(limit) = over {
        return format!("right in itself, {} its limit", if hold == limit as u128 + 1 { "one over" } else { "over" });
    }
    if room_after(day, holds)[lands as usize - 1] == 0 {
        let (closed, which) = (day.places()[lands as usize - 1] == 0, if lands > p { "the closing" } else { "a" });
        return format!("right in itself, in {which} period, which {}", if closed { "takes nobody" } else { "is full" });
    }
    let stuck: Vec<u32> = [holds, &[hold as u32]].concat();
    assert!(!rest_can_land(day, &stuck), "a line is refused that is right");
    // whether the next flight finds no period alone, or several later ones together
    let room = room_after(day, &stuck);
    let alone = |g: &Flight| !can_land(std::slice::from_ref(g), &room);
    let later = &day.flights[stuck.len()..];
    if can_land(later, &[&room[..p as usize], &[u32::MAX]].concat()) {
        return format!("right in itself, but the closing period cannot take later flights, {}", if lands > p { "since this one lands there" } else { "since this one lands elsewhere" });
    }
    match (alone(&later[0]), later.iter().any(alone)) {
        (true, _) => "right in itself, but the next flight cannot land".into(),
        (_, true) => "right in itself, but a later flight cannot land".into(),
        _ => "right in itself, but later flights cannot all land".into(),
    }
}

/// What an accepted call has met.
pub fn met(day: &Day, text: &[u8], holds: &[u32], least: impl FnOnce() -> Option<u64>) -> BTreeSet<String> {
    let flights = || day.flights.iter().zip(holds);
    let closing = closing_landings(day, holds) as usize;
    let total = day.total(holds);
    let more = [
        (true, "a plan"),
        (day.flights.is_empty(), "no flight"),
        (closing > 2, "several in the closing period"),
        (closing > 0 && day.curfew == Some(closing as u32), "as many in the closing period as may be"),
        (closing > 0 && day.curfew > Some(closing as u32), "fewer in the closing period than may be"),
        (day.curfew == Some(0), "nobody may land in the closing period"),
        (closing == FLIGHTS, "128 flights in the closing period"),
        (day.flights.len() > 1 && closing == 0, "none in the closing period"),
        (flights().any(|(f, &hold)| hold == 0 && f.cost(0) > 0), "a jump at hold 0"),
        (flights().any(|(f, &hold)| f.jump > 0 && f.delay(hold) == f.after as u64), "late + hold equal to after"),
        (flights().any(|(f, &hold)| f.jump > 0 && f.delay(hold) == f.after as u64 + 1), "late + hold one more than after"),
        (flights().any(|(f, &hold)| f.jump > 0 && f.late > 127 && (f.late % 128 + hold) <= f.after), "a jump that the low seven bits of late do not cost"),
        (flights().any(|(f, &hold)| f.limit == Some(hold)), "a hold at its limit"),
        (flights().any(|(f, &hold)| f.limit == Some(hold) && hold > 64), "a hold of more than 64 at its limit"),
        ((1..=day.periods()).any(|k| day.capacities[k as usize - 1] > 0 && day.landings(holds, k) == day.capacities[k as usize - 1]), "a full period"),
        ((1..=day.periods()).any(|k| day.landings(holds, k) > 64), "more than 64 landings in a numbered period"),
        (total > 99_999_999, "a total of 9 digits"),
        (total == 250_880_000, "a total of 250,880,000"),
        (flights().any(|(f, &hold)| f.cost(hold) > 999_999), "a cost of 7 digits"),
        (day.periods() == 96 && day.flights.len() == 128, "96 periods and 128 flights"),
        (text.len() == 2_859, "a text of 2,859 bytes"),
        (text.len() > 2_048, "a text of more than 2,048 bytes"),
    ];
    let mut met: BTreeSet<String> = more.into_iter().filter(|(met, _)| *met).map(|(_, what)| what.to_string()).collect();
    if let Some(least) = least() {
        met.insert(if total == least { "a cheapest plan".into() } else { "a plan that is not cheapest".into() });
    }
    met
}
