//! The generator and the digest that the compared programs share, so that a seed names the same cases on both sides.

/// xorshift64. The state is never 0, where the generator would stay.
#[derive(Clone, Debug)]
pub struct Random {
    state: u64,
}

impl Random {
    /// A seed of 0 cannot be a state; it is taken as 1.
    pub fn new(seed: u64) -> Random {
        Random { state: seed.max(1) }
    }

    #[allow(clippy::should_implement_trait)]
    pub fn next(&mut self) -> u64 {
        let mut x = self.state;
        x ^= x << 13;
        x ^= x >> 7;
        x ^= x << 17;
        self.state = x;
        x
    }

    /// The next number modulo `n`, which is not 0.
    pub fn below(&mut self, n: u64) -> u64 {
        self.next() % n
    }
}

/// The digest after `value`, from the digest before it.
pub fn mix(digest: u64, value: u64) -> u64 {
    let mut x = digest.rotate_left(7).wrapping_add(value);
    x ^= x >> 29;
    x ^= x << 17;
    x
}

#[cfg(test)]
mod tests {
    use super::*;

    #[test]
    fn first_numbers_worked_by_hand() {
        // 1 -> 2001 -> 2041 -> 2041 xor 40820000.
        assert_eq!(Random::new(1).next(), 0x4082_2041);
        // High bit alone: << 13 drops it, >> 7 gives bit 56 too, << 17 of both is dropped.
        assert_eq!(Random::new(1 << 63).next(), 1 << 63 | 1 << 56);
        assert_eq!(Random::new(0).next(), Random::new(1).next());
    }

    #[test]
    fn below_is_the_remainder() {
        let (mut numbers, mut remainders) = (Random::new(77), Random::new(77));
        for n in 1..2000 {
            assert_eq!(remainders.below(n), numbers.next() % n);
        }
    }

    #[test]
    fn never_zero_and_no_early_return() {
        let mut random = Random::new(1);
        for _ in 0..100_000 {
            let x = random.next();
            assert!(x != 0 && x != 1);
        }
    }

    #[test]
    fn mix_worked_by_hand() {
        assert_eq!(mix(0, 0), 0);
        assert_eq!(mix(0, 1), 0x2_0001);
        assert_eq!(mix(1, 0), 0x100_0080);
        // 2^29 folds down to bit 0, then both move up by 17.
        assert_eq!(mix(0, 1 << 29), 1 << 46 | 1 << 29 | 1 << 17 | 1);
        // The sum wraps: the digest's bits turned by seven are all ones again.
        assert_eq!(mix(u64::MAX, 1), 0);
    }

    #[test]
    fn mix_minds_the_order() {
        assert_ne!(mix(mix(0, 1), 2), mix(mix(0, 2), 1));
    }
}
