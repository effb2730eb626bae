//! The planning core of a hold desk, called from Rust. Each function lends its slices to the C function of the same name;
//! include/hold_desk.h says what each answers. The core takes rows of any content and length, so every wrapper is safe.

/// The closing number of a day whose closing period takes any number of flights.
pub const NO_CURFEW: u32 = 256;

/// Entries of the capacity row and of the flight row that the reader is lent.
pub const MOST_PERIODS: usize = 96;
pub const FLIGHT_ROW: usize = MOST_FLIGHTS * FLIGHT_WIDTH;

/// The most flights of a day, and how many numbers each takes; and the two columns that a board shows.
pub const MOST_FLIGHTS: usize = 128;
pub const FLIGHT_WIDTH: usize = 7;
pub const NUMBER: usize = 0;
pub const DUE: usize = 1;

#[repr(C)]
#[derive(Clone, Copy, Debug, PartialEq, Eq)]
pub struct Answer {
    pub number: u64,
    pub first: u64,
    pub second: u64,
}

/// What reading a sheet answers: an answer's three numbers, and the closing number.
#[repr(C)]
#[derive(Clone, Copy, Debug, PartialEq, Eq)]
pub struct Reading {
    pub number: u64,
    pub first: u64,
    pub second: u64,
    pub closing: u64,
}

#[repr(C)]
#[derive(Clone, Copy, Debug, PartialEq, Eq)]
pub struct Card {
    pub number: u64,
    pub first: u64,
    pub second: u64,
    pub low: u64,
    pub high: u64,
    pub size: u64,
}

mod raw {
    use super::{Answer, Card, Reading};
    extern "C" {
        pub fn hold_desk_read_sheet(s: *const u8, sn: usize, c: *mut u32, cn: usize, f: *mut u32, fnn: usize) -> Reading;
        pub fn hold_desk_write_sheet(c: *const u32, cn: usize, f: *const u32, fnn: usize, closing: u32, t: *mut u8, tn: usize, place: usize) -> Answer;
        pub fn hold_desk_quick_plan(c: *const u32, cn: usize, f: *const u32, fnn: usize, closing: u32, h: *mut u32, hn: usize) -> Answer;
        pub fn hold_desk_growth_plan(c: *const u32, cn: usize, f: *const u32, fnn: usize, closing: u32, growth: u32, h: *mut u32, hn: usize) -> Answer;
        pub fn hold_desk_period_card(c: *const u32, cn: usize, f: *const u32, fnn: usize, closing: u32, period: u32) -> Card;
        pub fn hold_desk_full_plan(c: *const u32, cn: usize, f: *const u32, fnn: usize, closing: u32, h: *mut u32, hn: usize, p: *mut u32, pn: usize) -> Answer;
        pub fn hold_desk_price_check(c: *const u32, cn: usize, f: *const u32, fnn: usize, closing: u32, h: *const u32, hn: usize, p: *const u32, pn: usize) -> bool;
        pub fn hold_desk_choice(c: *const u32, cn: usize, f: *const u32, fnn: usize, closing: u32, a: *const u32, an: usize, b: *const u32, bn: usize) -> u32;
        pub fn hold_desk_board(c: *const u32, cn: usize, f: *const u32, fnn: usize, closing: u32, h: *const u32, hn: usize, b: *mut u32, bn: usize) -> Answer;
        pub fn hold_desk_plan_text(c: *const u32, cn: usize, f: *const u32, fnn: usize, closing: u32, h: *const u32, hn: usize, t: *mut u8, tn: usize, place: usize) -> Answer;
        pub fn hold_desk_read_plan(c: *const u32, cn: usize, f: *const u32, fnn: usize, closing: u32, t: *const u8, tn: usize, h: *mut u32, hn: usize) -> Answer;
        pub fn hold_desk_forecast_plan(c: *const u32, cn: usize, f: *const u32, fnn: usize, closing: u32, count: u32, air: u32, w: *const u32, wn: usize, r: *const u32, rn: usize, h: *mut u32, hn: usize) -> Answer;
    }
}

/// The closing number that it answers fits in 32 bits: it is 256 at most.
pub fn read_sheet(sheet: &[u8], capacities: &mut [u32], flights: &mut [u32]) -> Reading {
    unsafe { raw::hold_desk_read_sheet(sheet.as_ptr(), sheet.len(), capacities.as_mut_ptr(), capacities.len(), flights.as_mut_ptr(), flights.len()) }
}

pub fn write_sheet(capacities: &[u32], flights: &[u32], closing: u32, text: &mut [u8], place: usize) -> Answer {
    unsafe { raw::hold_desk_write_sheet(capacities.as_ptr(), capacities.len(), flights.as_ptr(), flights.len(), closing, text.as_mut_ptr(), text.len(), place) }
}

pub fn quick_plan(capacities: &[u32], flights: &[u32], closing: u32, holds: &mut [u32]) -> Answer {
    unsafe { raw::hold_desk_quick_plan(capacities.as_ptr(), capacities.len(), flights.as_ptr(), flights.len(), closing, holds.as_mut_ptr(), holds.len()) }
}

/// The growth is in tenths, and the total in millionths.
pub fn growth_plan(capacities: &[u32], flights: &[u32], closing: u32, growth: u32, holds: &mut [u32]) -> Answer {
    unsafe { raw::hold_desk_growth_plan(capacities.as_ptr(), capacities.len(), flights.as_ptr(), flights.len(), closing, growth, holds.as_mut_ptr(), holds.len()) }
}

pub fn period_card(capacities: &[u32], flights: &[u32], closing: u32, period: u32) -> Card {
    unsafe { raw::hold_desk_period_card(capacities.as_ptr(), capacities.len(), flights.as_ptr(), flights.len(), closing, period) }
}

/// The price row has an entry for each period, and under a curfew one more for the closing period.
pub fn full_plan(capacities: &[u32], flights: &[u32], closing: u32, holds: &mut [u32], prices: &mut [u32]) -> Answer {
    unsafe { raw::hold_desk_full_plan(capacities.as_ptr(), capacities.len(), flights.as_ptr(), flights.len(), closing, holds.as_mut_ptr(), holds.len(), prices.as_mut_ptr(), prices.len()) }
}

pub fn price_check(capacities: &[u32], flights: &[u32], closing: u32, holds: &[u32], prices: &[u32]) -> bool {
    unsafe { raw::hold_desk_price_check(capacities.as_ptr(), capacities.len(), flights.as_ptr(), flights.len(), closing, holds.as_ptr(), holds.len(), prices.as_ptr(), prices.len()) }
}

/// 1 for the first row, 2 for the second, 0 for neither.
pub fn choice(capacities: &[u32], flights: &[u32], closing: u32, first: &[u32], second: &[u32]) -> u32 {
    unsafe { raw::hold_desk_choice(capacities.as_ptr(), capacities.len(), flights.as_ptr(), flights.len(), closing, first.as_ptr(), first.len(), second.as_ptr(), second.len()) }
}

/// Fills the row with the table places, by landing period, then by due period, then by table place.
pub fn board(capacities: &[u32], flights: &[u32], closing: u32, holds: &[u32], board: &mut [u32]) -> Answer {
    unsafe { raw::hold_desk_board(capacities.as_ptr(), capacities.len(), flights.as_ptr(), flights.len(), closing, holds.as_ptr(), holds.len(), board.as_mut_ptr(), board.len()) }
}

pub fn plan_text(capacities: &[u32], flights: &[u32], closing: u32, holds: &[u32], text: &mut [u8], place: usize) -> Answer {
    unsafe { raw::hold_desk_plan_text(capacities.as_ptr(), capacities.len(), flights.as_ptr(), flights.len(), closing, holds.as_ptr(), holds.len(), text.as_mut_ptr(), text.len(), place) }
}

/// Fills the hold row with the plan that the text tells.
pub fn read_plan(capacities: &[u32], flights: &[u32], closing: u32, text: &[u8], holds: &mut [u32]) -> Answer {
    unsafe { raw::hold_desk_read_plan(capacities.as_ptr(), capacities.len(), flights.as_ptr(), flights.len(), closing, text.as_ptr(), text.len(), holds.as_mut_ptr(), holds.len()) }
}

/// The forecasts stand one after another, each with a capacity for every period; each has a weight in thousandths.
pub fn forecast_plan(capacities: &[u32], flights: &[u32], closing: u32, count: u32, air_factor: u32, weights: &[u32], forecasts: &[u32], holds: &mut [u32]) -> Answer {
    unsafe { raw::hold_desk_forecast_plan(capacities.as_ptr(), capacities.len(), flights.as_ptr(), flights.len(), closing, count, air_factor, weights.as_ptr(), weights.len(), forecasts.as_ptr(), forecasts.len(), holds.as_mut_ptr(), holds.len()) }
}
