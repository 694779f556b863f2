//! A small deterministic generator (splitmix64).

pub struct Random(u64);

impl Random {
    pub fn new(seed: u64) -> Random {
        Random(seed)
    }

    pub fn next(&mut self) -> u64 {
        self.0 = self.0.wrapping_add(0x9e37_79b9_7f4a_7c15);
        let mut z = self.0;
        z = (z ^ (z >> 30)).wrapping_mul(0xbf58_476d_1ce4_e5b9);
        z = (z ^ (z >> 27)).wrapping_mul(0x94d0_49bb_1331_11eb);
        z ^ (z >> 31)
    }

    /// From `low` to `high`, both of them possible.
    pub fn within(&mut self, low: i32, high: i32) -> i32 {
        let width = (i64::from(high) - i64::from(low) + 1) as u64;
        (i64::from(low) + (self.next() % width) as i64) as i32
    }

    pub fn below(&mut self, bound: usize) -> usize {
        (self.next() % bound as u64) as usize
    }

    /// True in `n` of 100 cases.
    pub fn percent(&mut self, n: u64) -> bool {
        self.next() % 100 < n
    }

    pub fn pick<T: Copy>(&mut self, of: &[T]) -> T {
        of[self.below(of.len())]
    }

    /// A number about a range: mostly in it, often at its ends, sometimes just outside or far off.
    pub fn about(&mut self, low: i32, high: i32) -> i32 {
        match self.below(20) {
            0 => low,
            1 => high,
            2 => low.wrapping_sub(1),
            3 => high.wrapping_add(1),
            4 => self.pick(&[i32::MIN, i32::MAX, 0, -1]),
            5 => self.next() as i32,
            _ => self.within(low, high),
        }
    }

    /// In the range, often at its ends.
    pub fn legal(&mut self, low: i32, high: i32) -> i32 {
        match self.below(8) {
            0 => low,
            1 => high,
            _ => self.within(low, high),
        }
    }
}
