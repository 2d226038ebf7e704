//! A small seeded generator of random numbers (xoshiro256** over splitmix64).

/// A source of random numbers that its seed determines.
#[derive(Clone, Debug)]
pub struct Random {
    state: [u64; 4],
}

impl Random {
    /// The source for one case of a run, the same for the same two numbers.
    #[must_use]
    pub fn of_case(seed: u64, case: u64) -> Self {
        let mut mixed = seed ^ split(&mut case.clone());
        let state = std::array::from_fn(|_| split(&mut mixed));
        Random { state }
    }

    /// The next 64 random bits.
    #[inline]
    pub fn bits(&mut self) -> u64 {
        let s = &mut self.state;
        let result = s[1].wrapping_mul(5).rotate_left(7).wrapping_mul(9);
        let shifted = s[1] << 17;
        s[2] ^= s[0];
        s[3] ^= s[1];
        s[1] ^= s[2];
        s[0] ^= s[3];
        s[2] ^= shifted;
        s[3] = s[3].rotate_left(45);
        result
    }

    /// A random byte.
    #[inline]
    pub fn byte(&mut self) -> u8 {
        (self.bits() >> 56) as u8
    }

    /// A number below `end`, which is not 0.
    #[inline]
    pub fn below(&mut self, end: u64) -> u64 {
        ((u128::from(self.bits()) * u128::from(end)) >> 64) as u64
    }

    /// A place below `end`, which is not 0.
    #[inline]
    pub fn index(&mut self, end: usize) -> usize {
        self.below(end as u64) as usize
    }

    /// A number from `low` to `high`, both included.
    #[inline]
    pub fn between(&mut self, low: u64, high: u64) -> u64 {
        low + self.below(high - low + 1)
    }

    /// True in `percent` of a hundred cases.
    #[inline]
    pub fn chance(&mut self, percent: u64) -> bool {
        self.below(100) < percent
    }

    /// One of the items of a slice that is not empty.
    #[inline]
    pub fn pick<T: Copy>(&mut self, items: &[T]) -> T {
        items[self.index(items.len())]
    }

    /// The number of the share drawn from `shares`, whose sum is not 0.
    pub fn share(&mut self, shares: &[u64]) -> usize {
        let mut drawn = self.below(shares.iter().sum());
        shares
            .iter()
            .position(|&share| {
                let here = drawn < share;
                drawn = drawn.wrapping_sub(share);
                here
            })
            .unwrap_or(0)
    }

    /// Appends `count` random bytes.
    pub fn bytes(&mut self, count: usize, out: &mut Vec<u8>) {
        let end = out.len() + count;
        while out.len() + 8 <= end {
            out.extend_from_slice(&self.bits().to_le_bytes());
        }
        while out.len() < end {
            out.push(self.byte());
        }
    }
}

/// One step of splitmix64.
fn split(state: &mut u64) -> u64 {
    *state = state.wrapping_add(0x9E37_79B9_7F4A_7C15);
    let mut mixed = *state;
    mixed = (mixed ^ (mixed >> 30)).wrapping_mul(0xBF58_476D_1CE4_E5B9);
    mixed = (mixed ^ (mixed >> 27)).wrapping_mul(0x94D0_49BB_1331_11EB);
    mixed ^ (mixed >> 31)
}

#[cfg(test)]
mod tests {
    use super::Random;

    #[test]
    fn same_case_same_numbers() {
        let (mut one, mut two) = (Random::of_case(7, 9), Random::of_case(7, 9));
        assert!((0..100).all(|_| one.bits() == two.bits()));
        assert_ne!(Random::of_case(7, 9).bits(), Random::of_case(7, 10).bits());
        assert_ne!(Random::of_case(7, 9).bits(), Random::of_case(8, 9).bits());
    }

    #[test]
    fn ranges_hold() {
        let mut random = Random::of_case(1, 1);
        assert!((0..1000).all(|_| (3..=5).contains(&random.between(3, 5))));
        assert!((0..1000).all(|_| random.share(&[0, 1, 1]) > 0));
        let mut out = vec![1];
        random.bytes(19, &mut out);
        assert_eq!(out.len(), 20);
    }
}
