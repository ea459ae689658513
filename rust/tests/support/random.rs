//! Random numbers from a fixed seed: splitmix64.

pub struct Random(u64);

impl Random {
    pub fn new(seed: u64) -> Random {
        Random(seed)
    }

    pub fn next(&mut self) -> u64 {
        self.0 = self.0.wrapping_add(0x9e37_79b9_7f4a_7c15);
        let mut z = self.0;
        z = (z ^ (z >> 30)).wrapping_mul(0xbf58_476d_1ce4_e5b9);
        z = (z ^ (z >> 27)).wrapping_mul(0x94d0_49bb_1331_11eb);
        z ^ (z >> 31)
    }

    /// A number from first to last, each about as likely.
    pub fn within(&mut self, first: i64, last: i64) -> i64 {
        let count = (last as i128 - first as i128 + 1) as u128;
        (first as i128 + ((self.next() as u128 * count) >> 64) as i128) as i64
    }

    /// A number from first to last, not negative, whose bit length is about as likely as any other.
    pub fn of_any_size(&mut self, first: i64, last: i64) -> i64 {
        let bits = self.within(0, i64::from(64 - last.leading_zeros()));
        let most = if bits == 63 { i64::MAX } else { (1 << bits) - 1 };
        self.within(first, most.clamp(first, last))
    }

    pub fn choose<T: Copy>(&mut self, from: &[T]) -> T {
        from[self.within(0, from.len() as i64 - 1) as usize]
    }
}
