//! Numbers from a seed, with the edges of a range likely.

/// A whole number from the environment. A malformed one stops the run: a comparison of nothing must not pass.
pub fn setting(name: &str, default: u64) -> u64 {
    match std::env::var(name) {
        Err(_) => default,
        Ok(text) => text.parse().ok().filter(|n| (1..=1_000_000).contains(n)).unwrap_or_else(|| panic!("{name} must be a whole number from 1 to 1000000, not {text:?}")),
    }
}

pub fn days() -> u64 {
    setting("COMPARE_DAYS", 2000)
}

pub struct Seed(std::cell::Cell<u64>);

impl Seed {
    /// Each test has numbers of its own, so that two tests do not try the same days.
    pub fn of(test: u64) -> Seed {
        let start = (setting("COMPARE_SEED", 1) * 16 + test).wrapping_mul(0x9e37_79b9_7f4a_7c15) | 1;
        let seed = Seed(std::cell::Cell::new(start));
        for _ in 0..20 {
            seed.next();
        }
        seed
    }
    pub fn next(&self) -> u64 {
        let mut next = self.0.get();
        next ^= next << 13;
        next ^= next >> 7;
        next ^= next << 17;
        self.0.set(next);
        next
    }
    pub fn below(&self, n: u64) -> u64 {
        (self.next() >> 11) % n
    }
    pub fn one_in(&self, n: u64) -> bool {
        self.below(n) == 0
    }
    pub fn between(&self, low: u64, high: u64) -> u64 {
        low + self.below(high - low + 1)
    }
    pub fn pick<T: Copy>(&self, of: &[T]) -> T {
        of[self.below(of.len() as u64) as usize]
    }
    /// A number of the range: an edge, one beside an edge, a low one, or any.
    pub fn edged(&self, low: u64, high: u64) -> u32 {
        let some = match self.below(5) {
            0 => self.pick(&[low, high]),
            1 => self.pick(&[low + 1, high.saturating_sub(1)]),
            2 => low + self.below(8),
            _ => self.between(low, high),
        };
        some.clamp(low, high) as u32
    }
    /// A 32-bit number from `low` on: the first few, those whose low bits look small, the last few, or any.
    pub fn from(&self, low: u64) -> u32 {
        let most = u32::MAX as u64;
        let some = match self.below(5) {
            0 => low,
            1 => low + self.below(4),
            2 => (1 << self.between(7, 31)) + self.below(100),
            3 => most - self.below(130),
            _ => self.between(low, most),
        };
        some.clamp(low, most) as u32
    }
    /// A place of a row of n entries, its ends likely.
    pub fn place(&self, n: usize) -> usize {
        match self.below(4) {
            0 => 0,
            1 => n - 1,
            _ => self.below(n as u64) as usize,
        }
    }
    pub fn shuffle<T>(&self, row: &mut [T]) {
        for i in (1..row.len()).rev() {
            row.swap(i, self.below(i as u64 + 1) as usize);
        }
    }
}
