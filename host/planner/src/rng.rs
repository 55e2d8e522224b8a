//! A small random number generator (splitmix64).

pub struct Rng(pub u64);

impl Rng {
    fn next(&mut self) -> u64 {
        self.0 = self.0.wrapping_add(0x9e37_79b9_7f4a_7c15);
        let mixed = (self.0 ^ self.0 >> 30).wrapping_mul(0xbf58_476d_1ce4_e5b9);
        let mixed = (mixed ^ mixed >> 27).wrapping_mul(0x94d0_49bb_1331_11eb);
        mixed ^ mixed >> 31
    }

    fn below(&mut self, n: u32) -> u32 {
        ((self.next() >> 32) * u64::from(n) >> 32) as u32
    }

    /// The place of one of the bits set, each as likely as the others. There must be one.
    pub fn bit(&mut self, bits: u64) -> u32 {
        let mut left = bits;
        for _ in 0..self.below(bits.count_ones()) {
            left &= left - 1;
        }
        left.trailing_zeros()
    }
}

#[cfg(test)]
mod tests {
    use super::*;

    #[test]
    fn every_bit_comes_up_and_no_other() {
        let bits = 1 << 63 | 1 << 40 | 1;
        let mut rng = Rng(1);
        let drawn = (0..100).fold(0u64, |seen, _| seen | 1 << rng.bit(bits));
        assert_eq!(drawn, bits);
    }
}
