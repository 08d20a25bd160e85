//! A small seeded generator of random numbers (splitmix64). The same seed and case give the same numbers everywhere.

const GOLDEN: u64 = 0x9e37_79b9_7f4a_7c15;

#[derive(Clone, Debug)]
pub struct Random {
    state: u64,
}

impl Random {
    /// The numbers of one case of a seed.
    pub fn of_case(seed: u64, case: u64) -> Random {
        Random { state: mix(mix(seed.wrapping_add(GOLDEN)) ^ case.wrapping_mul(GOLDEN)) }
    }

    pub fn next(&mut self) -> u64 {
        self.state = self.state.wrapping_add(GOLDEN);
        mix(self.state)
    }

    /// A number below a bound, which is above 0.
    pub fn below(&mut self, bound: u32) -> u32 {
        ((self.next() >> 32) * u64::from(bound) >> 32) as u32
    }

    /// A number from a lowest to a highest one.
    pub fn between(&mut self, lowest: u32, highest: u32) -> u32 {
        let numbers = u64::from(highest) - u64::from(lowest) + 1;
        lowest + ((self.next() >> 32) * numbers >> 32) as u32
    }

    pub fn index(&mut self, length: usize) -> usize {
        self.below(length as u32) as usize
    }

    pub fn pick<T: Copy>(&mut self, choices: &[T]) -> T {
        choices[self.index(choices.len())]
    }

    /// Yes in so many of a hundred cases.
    pub fn percent(&mut self, chances: u32) -> bool {
        self.below(100) < chances
    }

    /// Any number of 32 bits, small ones as likely as large ones.
    pub fn any(&mut self) -> u32 {
        let bits = self.below(33);
        ((self.next() >> 32) >> (32 - bits)) as u32
    }

    pub fn byte(&mut self) -> u8 {
        (self.next() >> 56) as u8
    }
}

fn mix(mut z: u64) -> u64 {
    z = (z ^ (z >> 30)).wrapping_mul(0xbf58_476d_1ce4_e5b9);
    z = (z ^ (z >> 27)).wrapping_mul(0x94d0_49bb_1331_11eb);
    z ^ (z >> 31)
}

#[cfg(test)]
mod tests {
    use super::*;

    #[test]
    fn a_case_repeats() {
        let mut first = Random::of_case(1, 2);
        let mut second = Random::of_case(1, 2);
        let mut other = Random::of_case(1, 3);
        assert_eq!(first.next(), second.next());
        assert_ne!(first.next(), other.next());
    }

    #[test]
    fn bounds_are_kept_and_reached() {
        let mut random = Random::of_case(0, 0);
        let mut seen = [false; 3];
        for _ in 0..100 {
            seen[random.between(5, 7) as usize - 5] = true;
        }
        assert_eq!(seen, [true; 3]);
        assert!((0..100).all(|_| random.below(2) < 2));
        assert!((0..1_000).any(|_| random.any() > u32::MAX / 2));
        assert!((0..1_000).any(|_| random.any() == 0));
    }
}
