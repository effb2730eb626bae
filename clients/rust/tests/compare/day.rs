//! The day of document 01 as #102 and #108 have it, apart from the core: what it is, what it costs, its two texts, and its reader.

/// The most periods and flights of a day, the numbers of a flight, and the entries of the flight row that the reader is lent.
pub const PERIODS: usize = 96;
pub const FLIGHTS: usize = 128;
pub const WIDTH: usize = 7;
pub const FLIGHT_ROW: usize = FLIGHTS * WIDTH;

/// The closing number of a day in memory that has no curfew.
pub const UNLIMITED: u32 = 256;

#[derive(Clone, Debug, PartialEq)]
pub struct Flight {
    pub number: u32,
    pub due: u32,
    pub rate: u32,
    pub after: u32,
    pub jump: u32,
    pub limit: Option<u32>,
    pub late: u32,
}

/// A day; without a curfew the closing period takes any number.
#[derive(Clone, Debug, PartialEq)]
pub struct Day {
    pub capacities: Vec<u32>,
    pub flights: Vec<Flight>,
    pub curfew: Option<u32>,
}

/// The two rows that are lent for a day, and the closing number behind them. They may be of any content and length.
#[derive(Clone, Debug, PartialEq)]
pub struct Rows {
    pub capacities: Vec<u32>,
    pub flights: Vec<u32>,
    pub closing: u32,
}

impl Flight {
    pub fn cost(&self, hold: u32) -> u64 {
        self.rate as u64 * hold as u64 + if self.delay(hold) > self.after as u64 { self.jump as u64 } else { 0 }
    }
    /// The aircraft's whole delay, what it brought along included.
    pub fn delay(&self, hold: u32) -> u64 {
        self.late as u64 + hold as u64
    }
    /// The last period that the limit and the closing period leave.
    pub fn last(&self, periods: u32) -> u32 {
        self.limit.map_or(periods + 1, |l| (self.due + l).min(periods + 1))
    }
    fn in_range(&self, periods: u32) -> bool {
        (1..=9_999).contains(&self.number)
            && (1..=periods).contains(&self.due)
            && (1..=10_000).contains(&self.rate)
            && self.after <= 96
            && self.jump <= 1_000_000
            && self.limit.map_or(true, |l| l <= 96)
            && self.late <= 255
    }
}

impl Rows {
    /// The day, if every length and value is as the table says and no number is repeated; else refusal 6.
    pub fn day(&self) -> Option<Day> {
        let sizes = (1..=PERIODS).contains(&self.capacities.len()) && self.flights.len() % WIDTH == 0 && self.flights.len() <= FLIGHT_ROW;
        if !sizes || self.capacities.iter().any(|&c| c > 255) || self.closing > UNLIMITED {
            return None;
        }
        let limit = |l: u32| if l == 255 { None } else { Some(l) };
        let flight = |v: &[u32]| Flight { number: v[0], due: v[1], rate: v[2], after: v[3], jump: v[4], limit: limit(v[5]), late: v[6] };
        let flights: Vec<Flight> = self.flights.chunks(WIDTH).map(flight).collect();
        let numbers: std::collections::HashSet<u32> = flights.iter().map(|f| f.number).collect();
        let good = flights.iter().all(|f| f.in_range(self.capacities.len() as u32)) && numbers.len() == flights.len();
        good.then(|| Day { capacities: self.capacities.clone(), flights, curfew: Some(self.closing).filter(|&c| c < UNLIMITED) })
    }
}

impl Day {
    pub fn periods(&self) -> u32 {
        self.capacities.len() as u32
    }
    pub fn rows(&self) -> Rows {
        let flights = self.flights.iter().flat_map(|f| [f.number, f.due, f.rate, f.after, f.jump, f.limit.unwrap_or(255), f.late]).collect();
        Rows { capacities: self.capacities.clone(), flights, closing: self.curfew.unwrap_or(UNLIMITED) }
    }
    /// How many flights each period takes, the closing period last.
    pub fn places(&self) -> Vec<u32> {
        [&self.capacities[..], &[self.curfew.unwrap_or(u32::MAX)]].concat()
    }
    /// The periods that have a price: under a curfew the closing period too.
    pub fn priced(&self) -> usize {
        self.capacities.len() + usize::from(self.curfew.is_some())
    }
    pub fn sheet(&self) -> String {
        let mut text = String::from("period,capacity\n");
        for (j, c) in self.capacities.iter().enumerate() {
            text += &format!("{},{}\n", j + 1, c);
        }
        text += &self.curfew.map_or(String::new(), |c| format!("closing,{c}\n"));
        text += &format!("{}\n", NAMES[1]);
        for f in &self.flights {
            let limit = f.limit.map_or("-".to_string(), |l| l.to_string());
            text += &format!("{},{},{},{},{},{},{}\n", f.number, f.due, f.rate, f.after, f.jump, limit, f.late);
        }
        text
    }
    pub fn plan_text(&self, holds: &[u32]) -> String {
        let mut text = String::from("flight,due,lands,hold,cost\n");
        for (f, &h) in self.flights.iter().zip(holds) {
            text += &format!("{},{},{},{},{}\n", f.number, f.due, f.due + h, h, f.cost(h));
        }
        text + &format!("total\n{}\n", self.total(holds))
    }
    pub fn total(&self, holds: &[u32]) -> u64 {
        self.flights.iter().zip(holds).map(|(f, &h)| f.cost(h)).sum()
    }
    pub fn landings(&self, holds: &[u32], period: u32) -> u32 {
        self.flights.iter().zip(holds).filter(|(f, &h)| f.due as u64 + h as u64 == period as u64).count() as u32
    }
    /// The first flight whose hold is too long, or whose period, the closing period among them, is over capacity with the flights
    /// before it.
    pub fn break_at(&self, holds: &[u32]) -> Option<usize> {
        let mut room = self.places();
        self.flights.iter().zip(holds).position(|(f, &h)| {
            let lands = f.due as u64 + h as u64;
            if lands > f.last(self.periods()) as u64 || room[lands as usize - 1] == 0 {
                return true;
            }
            room[lands as usize - 1] -= 1;
            false
        })
    }
    /// The total of a hold row of any content and length, if it is a legal plan.
    pub fn legal_total(&self, holds: &[u32]) -> Option<u64> {
        (holds.len() == self.flights.len() && self.break_at(holds).is_none()).then(|| self.total(holds))
    }
    pub fn first_with_jump_or_limit(&self) -> Option<usize> {
        self.flights.iter().position(|f| f.jump > 0 || f.limit.is_some())
    }
}

// ---- the reader: line by line, with the standard library's own splitting and parsing

pub const NAMES: [&str; 2] = ["period,capacity", "flight,due,rate,after,jump,limit,late"];

/// The second names line before #102.
pub const OLD_NAMES: &str = "flight,due,rate,after,jump,limit";

fn digits(field: &str) -> Option<u32> {
    let plain = !field.is_empty() && field.len() <= 7 && field.bytes().all(|b| b.is_ascii_digit());
    (plain && (field.len() == 1 || !field.starts_with('0'))).then(|| field.parse().unwrap())
}

fn flight_of(line: &str) -> Option<Flight> {
    let fields: Vec<&str> = line.split(',').collect();
    let [number, due, rate, after, jump, limit, late] = fields[..] else { return None };
    let limit = if limit == "-" { None } else { Some(digits(limit)?) };
    Some(Flight { number: digits(number)?, due: digits(due)?, rate: digits(rate)?, after: digits(after)?, jump: digits(jump)?, limit, late: digits(late)? })
}

fn period_of(line: &str) -> Option<(u32, u32)> {
    let (period, capacity) = line.split_once(',')?;
    Some((digits(period)?, digits(capacity)?))
}

fn closing_of(line: &str) -> Option<u32> {
    digits(line.strip_prefix(CLOSING)?)
}

/// What a closing line begins with.
pub const CLOSING: &str = "closing,";

/// The lines with their offsets and bytes. A line without its end byte, or that is no text, is none.
fn lines_of(bytes: &[u8]) -> Vec<(u64, &[u8], Option<&str>)> {
    let mut at = 0;
    let pieces = bytes.split_inclusive(|&b| b == 10).map(|piece| {
        at += piece.len();
        let line = piece.strip_suffix(b"\n").and_then(|l| std::str::from_utf8(l).ok());
        ((at - piece.len()) as u64, piece, line)
    });
    pieces.collect()
}

/// A day, or a refusal's number and offset.
pub fn plain_read(bytes: &[u8]) -> Result<Day, (u64, u64)> {
    if bytes.len() > 8192 {
        return Err((1, 8192));
    }
    let mut lines = lines_of(bytes).into_iter();
    if lines.next().and_then(|(_, _, line)| line) != Some(NAMES[0]) {
        return Err((2, 0));
    }
    let mut day = Day { capacities: vec![], flights: vec![], curfew: None };
    loop {
        let (offset, piece, line) = lines.next().ok_or((2, bytes.len() as u64))?;
        match (line == Some(NAMES[1]), day.capacities.len()) {
            (false, _) if day.curfew.is_some() => return Err((2, offset)),
            (false, periods) if piece.starts_with(CLOSING.as_bytes()) => {
                if periods == 0 {
                    return Err((5, offset));
                }
                match line.and_then(closing_of).ok_or((2, offset))? {
                    closing @ 0..=255 => day.curfew = Some(closing),
                    _ => return Err((3, offset)),
                }
            }
            (true, 0) | (false, PERIODS) => return Err((5, offset)),
            (true, _) => break,
            (false, before) => match line.and_then(period_of).ok_or((2, offset))? {
                (period, capacity) if period as usize == before + 1 && capacity <= 255 => day.capacities.push(capacity),
                _ => return Err((3, offset)),
            },
        }
    }
    for (offset, _, line) in lines {
        if day.flights.len() == FLIGHTS {
            return Err((5, offset));
        }
        let flight = line.and_then(flight_of).ok_or((2, offset))?;
        if !flight.in_range(day.periods()) {
            return Err((3, offset));
        }
        if day.flights.iter().any(|f| f.number == flight.number) {
            return Err((4, offset));
        }
        day.flights.push(flight);
    }
    Ok(day)
}
