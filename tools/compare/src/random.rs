//! Random numbers that a seed determines (splitmix64), and how odd the pieces are that they choose.

pub struct Random {
    state: u64,
    oddness: usize,
}

impl Random {
    pub fn new(seed: u64) -> Random {
        Random { state: seed, oddness: 0 }
    }

    /// From now on so many pieces of a hundred are odd ones.
    pub fn set_oddness(&mut self, percent: usize) {
        self.oddness = percent;
    }

    fn next(&mut self) -> u64 {
        self.state = self.state.wrapping_add(0x9e37_79b9_7f4a_7c15);
        let mut z = self.state;
        z = (z ^ (z >> 30)).wrapping_mul(0xbf58_476d_1ce4_e5b9);
        z = (z ^ (z >> 27)).wrapping_mul(0x94d0_49bb_1331_11eb);
        z ^ (z >> 31)
    }

    /// A number below `n`, which is not 0.
    pub fn below(&mut self, n: usize) -> usize {
        (self.next() % n as u64) as usize
    }

    /// True in `percent` of a hundred cases.
    pub fn percent(&mut self, percent: usize) -> bool {
        self.below(100) < percent
    }

    pub fn choose<'a>(&mut self, from: &[&'a str]) -> &'a str {
        from[self.below(from.len())]
    }

    /// Whether the next piece is an odd one.
    pub fn odd(&mut self) -> bool {
        let oddness = self.oddness;
        self.percent(oddness)
    }

    /// A usual piece, or an odd one.
    pub fn either<'a>(&mut self, usual: &[&'a str], odd: &[&'a str]) -> &'a str {
        if self.odd() { self.choose(odd) } else { self.choose(usual) }
    }
}
