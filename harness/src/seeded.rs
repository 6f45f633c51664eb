//! A small deterministic generator for test cases.

/// The generator (splitmix64).
pub struct Seeded {
    state: u64,
}

impl Seeded {
    /// Starts at a seed.
    pub fn new(seed: u64) -> Self {
        Seeded { state: seed }
    }

    /// Any word.
    pub fn word(&mut self) -> u64 {
        self.state = self.state.wrapping_add(0x9E37_79B9_7F4A_7C15);
        let mixed = (self.state ^ (self.state >> 30)).wrapping_mul(0xBF58_476D_1CE4_E5B9);
        let mixed = (mixed ^ (mixed >> 27)).wrapping_mul(0x94D0_49BB_1331_11EB);
        mixed ^ (mixed >> 31)
    }

    /// A number below `count`, which is at least 1.
    pub fn below(&mut self, count: u64) -> u64 {
        self.word() % count
    }

    /// A position or length below `count`, which is at least 1.
    pub fn index(&mut self, count: usize) -> usize {
        self.below(count as u64) as usize
    }

    /// Puts the items into any order.
    pub fn shuffle<T>(&mut self, items: &mut [T]) {
        for last in (1..items.len()).rev() {
            items.swap(last, self.index(last + 1));
        }
    }

    /// A bound: small, near the largest, at or beside a power of two, or any of a bit width.
    pub fn bound(&mut self) -> u64 {
        let top_bit = 1 << self.below(64);
        match self.below(10) {
            0 => 1 + self.below(12),
            1 => u64::MAX - self.below(3),
            2 => u64::MAX / (2 + self.below(4)) + self.below(2),
            3 => top_bit,
            4 => top_bit + 1,
            5 => top_bit.saturating_sub(2) + 1,
            _ => top_bit | (self.word() & (top_bit - 1)),
        }
    }

    /// A word for a draw below `bound`: at the ends, near K × W on either side, or any.
    pub fn word_near(&mut self, bound: u64) -> u64 {
        let limit = limit(bound);
        match self.below(8) {
            0 => 0,
            1 => limit - 1,
            2 => limit,
            3 => limit.saturating_add(1),
            4 => u64::MAX,
            5 => self.passed_over(bound),
            6 => self.counted(bound),
            _ => self.word(),
        }
    }

    /// A word that a draw below `bound` passes over.
    pub fn passed_over(&mut self, bound: u64) -> u64 {
        u64::MAX - self.below(u64::MAX - limit(bound) + 1)
    }

    /// A word that gives a draw below `bound` its value.
    pub fn counted(&mut self, bound: u64) -> u64 {
        self.below(limit(bound))
    }

    /// A sum of a round's measures: the largest, small, or any.
    pub fn round_sum(&mut self) -> u64 {
        match self.below(4) {
            0 => 1 << 20,
            1 => 1 + self.below(12),
            _ => 1 + self.below(1 << 20),
        }
    }

    /// Splits a sum into so many parts, at least 1, some of them 0.
    pub fn split(&mut self, sum: u64, parts: usize) -> Vec<u64> {
        let mut cuts: Vec<u64> = (1..parts).map(|_| self.below(sum + 1)).collect();
        cuts.extend([0, sum]);
        cuts.sort_unstable();
        cuts.windows(2).map(|pair| pair[1] - pair[0]).collect()
    }
}

/// K × W: the first word that is passed over.
pub fn limit(bound: u64) -> u64 {
    u64::MAX / bound * bound
}
