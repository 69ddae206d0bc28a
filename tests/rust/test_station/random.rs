//! Random numbers by a seed.

/// Numbers that follow from a seed.
#[derive(Drop)]
pub struct Random {
    state: u64,
}

impl Random {
    /// The numbers of a seed.
    pub fn new(seed: u64) -> Random {
        Random {
            state: seed.wrapping_mul(0x9e37_79b9_7f4a_7c15),
        }
    }

    /// The next one.
    pub fn next(&mut self) -> u64 {
        self.state = self.state.wrapping_add(0x9e37_79b9_7f4a_7c15);
        let mixed = (self.state ^ (self.state >> 30)).wrapping_mul(0xbf58_476d_1ce4_e5b9);
        let mixed = (mixed ^ (mixed >> 27)).wrapping_mul(0x94d0_49bb_1331_11eb);
        mixed ^ (mixed >> 31)
    }

    /// One below this number, or 0.
    pub fn below(&mut self, most: u64) -> u64 {
        self.next() % most.max(1)
    }

    /// One below this number, or 0, of so many seconds.
    pub fn seconds(&mut self, most: u32) -> u32 {
        match u32::try_from(self.below(u64::from(most))) {
            Ok(seconds) => seconds,
            Err(_) => 0,
        }
    }

    /// A place in a list of so many.
    pub fn place(&mut self, count: usize) -> usize {
        self.below(count as u64) as usize
    }

    /// One from a number up to another.
    pub fn between(&mut self, least: u64, most: u64) -> u64 {
        let range = most.saturating_sub(least).saturating_add(1);
        least.saturating_add(self.below(range))
    }

    /// Whether one of so many throws succeeds.
    pub fn one_in(&mut self, throws: u64) -> bool {
        self.below(throws) == 0
    }
}
