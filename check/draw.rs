//! Random numbers from a seed, drawn so that limits and ties come up often.

use crate::rules::Limits;

/// The generator splitmix64.
pub struct Draw {
    state: u64,
    /// Which run of its part it draws for, counted from 0: some parts share their cases out to their runs.
    pub run: usize,
}

impl Draw {
    /// The stream of one run of one part.
    pub fn new(seed: u64, part: &str, run: usize) -> Draw {
        let name = part.bytes().fold(seed, |sofar, byte| sofar.wrapping_mul(0x100_0000_01B3) ^ u64::from(byte));
        let mut draw = Draw { state: name.wrapping_add((run as u64) << 32), run };
        draw.next();
        draw
    }

    pub fn next(&mut self) -> u64 {
        self.state = self.state.wrapping_add(0x9E37_79B9_7F4A_7C15);
        let mixed = (self.state ^ (self.state >> 30)).wrapping_mul(0xBF58_476D_1CE4_E5B9);
        let mixed = (mixed ^ (mixed >> 27)).wrapping_mul(0x94D0_49BB_1331_11EB);
        mixed ^ (mixed >> 31)
    }

    pub fn below(&mut self, count: usize) -> usize {
        (self.next() % count as u64) as usize
    }

    pub fn between(&mut self, low: i64, high: i64) -> i64 {
        let width = (high as i128 - low as i128 + 1) as u128;
        (low as i128 + (u128::from(self.next()) % width) as i128) as i64
    }

    pub fn one_in(&mut self, count: usize) -> bool {
        self.below(count) == 0
    }

    pub fn of<T: Copy>(&mut self, list: &[T]) -> T {
        list[self.below(list.len())]
    }

    /// A number within the limits: anywhere, small, or near an end.
    pub fn fit(&mut self, limits: Limits) -> i64 {
        let Limits(low, high) = limits;
        let near = self.between(0, 2);
        let drawn = match self.below(8) {
            0 => low.saturating_add(near),
            1 => high.saturating_sub(near),
            2 => self.between(-20, 20),
            3 => self.between(-30, 30) * 1000,
            _ => self.between(low, high),
        };
        drawn.clamp(low, high)
    }

    /// Any number: mostly one that fits, otherwise one at or past an edge, or one of the whole 64-bit range.
    pub fn any(&mut self, limits: Limits) -> i64 {
        match self.below(16) {
            0..=2 => self.of(&edges(limits)),
            3 => self.next() as i64,
            _ => self.fit(limits),
        }
    }
}

/// Every limit, its neighbours, the 64-bit ends, and numbers that a narrower type would take for fit ones.
pub fn edges(Limits(low, high): Limits) -> Vec<i64> {
    let mut list = vec![-1, 0, 1, i64::MIN, i64::MIN + 1, i64::MAX - 1, i64::MAX];
    for end in [low, high] {
        list.extend([-1, 0, 1].map(|step| end.saturating_add(step)));
        list.extend([1 << 8, 1 << 16, 1 << 32, -(1 << 32)].map(|step| end.wrapping_add(step)));
    }
    list.sort();
    list.dedup();
    list
}
