//! What the calls have met of a curfew, document 02, #108: kept and passed, by one or by several, and the closing price.
use crate::calls::Run;
use crate::day::Day;
use crate::planners::{accepts, closing_landings, quick_by_sorting};
use hold_desk_client::Answer;

impl Run {
    /// How a curfew stands to the flights that land in the closing period.
    pub fn reach_curfew(&mut self, call: &str, day: &Day, holds: &[u32]) {
        let landed = closing_landings(day, holds);
        let kept = match day.curfew {
            None => return,
            Some(0) => "0, kept",
            Some(c) if c == landed => "just kept",
            Some(255) => "255, not reached",
            Some(c) if c == landed + 1 => "kept by one",
            _ => "kept",
        };
        self.reach(format!("{call}, a curfew {kept}"));
        if landed > 64 {
            self.reach(format!("{call}, a curfew kept by more than 64 landings"));
        }
    }

    /// Whether a hold row breaks the curfew alone, and by how many.
    pub fn reach_over_curfew(&mut self, call: &str, day: &Day, holds: &[u32]) {
        let Some(over) = day.curfew.and_then(|curfew| closing_landings(day, holds).checked_sub(curfew)) else { return };
        let unlimited = Day { curfew: None, ..day.clone() };
        if over == 0 || unlimited.legal_total(holds).is_none() {
            return;
        }
        let of = if day.curfew == Some(0) { "0" } else { "more" };
        self.reach(format!("{call}, a curfew of {of} passed by {} alone", if over == 1 { "one" } else { "several" }));
    }

    /// How many the quick plan leaves for the closing period, beside the closing number.
    pub fn reach_left(&mut self, day: Option<&Day>, refusals: &[Answer]) {
        let Some((day, curfew)) = day.and_then(|day| Some((day, day.curfew?))) else { return };
        if refusals.iter().any(|refusal| refusal.number != 9) {
            return;
        }
        let left = closing_landings(day, &quick_by_sorting(day).0);
        assert_eq!(left > curfew, !refusals.is_empty(), "more are left than the closing number exactly if a stretch is short");
        let of = match curfew {
            0 => "0",
            255 => "255",
            _ => "more",
        };
        let left = match left as i64 - curfew as i64 {
            0 => "as many",
            1 => "one more",
            -1 => "one fewer",
            difference if difference > 0 => "several more",
            _ => "fewer",
        };
        self.reach(format!("quick plan, {left} left beside a closing number of {of}"));
    }

    /// No plan, by the stretch that is named.
    pub fn reach_no_plan(&mut self, day: Option<&Day>, refusal: Answer, prices: usize) {
        let Some((day, curfew)) = day.and_then(|day| Some((day, day.curfew?))) else { return };
        let p = day.capacities.len();
        match (refusal.number, refusal.second == p as u64 + 1) {
            (9, true) => {
                let from = if refusal.first == 1 { "1" } else if refusal.first == p as u64 { "P" } else { "between" };
                self.reach(format!("full plan, no plan under a curfew of {}, short from {from}", if curfew == 0 { "0" } else { "more" }));
            }
            (9, false) => self.reach("full plan, no plan before a curfew".into()),
            _ if refusal.number == 7 && refusal.first == p as u64 + 1 && prices == p => self.reach("full plan, no closing price under a curfew".into()),
            _ => (),
        }
    }

    /// A closing price that is lent, of a full closing period or of one with room.
    pub fn reach_closing_price(&mut self, day: Option<&Day>, holds: &[u32], prices: &[u32], yes: bool) {
        let Some((day, curfew)) = day.and_then(|day| Some((day, day.curfew?))) else { return };
        if day.legal_total(holds).is_none() {
            return;
        }
        if prices.len() + 1 == day.priced() {
            return self.reach("price check, no closing price under a curfew".into());
        }
        if prices.len() != day.priced() {
            return;
        }
        let price = match prices[day.capacities.len()] {
            0 => "0",
            1 => "1",
            u32::MAX => "4,294,967,295",
            _ => "more",
        };
        let kind = match curfew {
            0 => "takes nobody",
            _ if curfew == closing_landings(day, holds) => "is full",
            _ => "has room",
        };
        let told = yes || accepts(day, holds, &[&prices[..day.capacities.len()], &[0]].concat());
        if told {
            self.reach(format!("price check {yes}, a closing price of {price}, and the closing period {kind}"));
        }
    }
}
