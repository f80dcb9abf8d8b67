//! Where inputs come from: random numbers that a seed fixes, and the values at which an answer may change.

/// The containers a tracker may have at most.
pub const MOST_CONTAINERS: u32 = 256;
/// The records of a flow table.
pub const TABLE: usize = 512;
/// The bytes that `tally` reads at most.
pub const MOST_BYTES: usize = 16_384;

/// Numbers of containers at which words of a tag set or bytes of a number begin and end.
pub const SIZES: [u32; 14] = [1, 2, 3, 63, 64, 65, 127, 128, 129, 191, 192, 193, 255, 256];

/// Numbers at which the groups of seven bits, the signs and the ends of other widths lie.
pub const NUMBERS: [u32; 30] = [
    0, 1, 2, 3, 15, 16, 126, 127, 128, 129, 255, 256, 257, 16_383, 16_384, 16_385, 65_535, 65_536, 2_097_151, 2_097_152, 2_097_153, 268_435_455, 268_435_456,
    268_435_457, 0x4000_0000, 0x7FFF_FFFF, 0x8000_0000, 0xF000_0000, 4_294_967_294, 4_294_967_295,
];

/// Random numbers that a seed fixes (splitmix64).
#[derive(Clone, Debug)]
pub struct Random {
    state: u64,
}

impl Random {
    /// The random numbers of one case: the same seed, class and case always give the same.
    pub fn new(seed: u64, class: u64, case: u64) -> Random {
        let mut random = Random { state: seed ^ 0x5DEE_CE66_D1CE_4E5B };
        random.state = random.draw() ^ class.wrapping_mul(0xA076_1D64_78BD_642F);
        random.state = random.draw() ^ case.wrapping_mul(0xE703_7ED1_A0B4_28DB);
        random
    }

    /// The next 64 random bits.
    pub fn draw(&mut self) -> u64 {
        self.state = self.state.wrapping_add(0x9E37_79B9_7F4A_7C15);
        let mut z = self.state;
        z = (z ^ (z >> 30)).wrapping_mul(0xBF58_476D_1CE4_E5B9);
        z = (z ^ (z >> 27)).wrapping_mul(0x94D0_49BB_1331_11EB);
        z ^ (z >> 31)
    }

    /// A number below `n`, or 0 where `n` is 0.
    pub fn below(&mut self, n: usize) -> usize {
        match n {
            0 => 0,
            n => (self.draw() % n as u64) as usize,
        }
    }

    /// Yes once in so many times.
    pub fn once_in(&mut self, times: usize) -> bool {
        self.below(times) == 0
    }

    /// One of a list that is not empty.
    pub fn pick<T: Copy>(&mut self, list: &[T]) -> T {
        list[self.below(list.len())]
    }

    /// A byte, often one at which numbers end.
    pub fn byte(&mut self) -> u8 {
        match self.below(3) {
            0 => self.pick(&[0, 1, 2, 15, 16, 127, 128, 129, 254, 255]),
            1 => self.below(5) as u8,
            _ => self.draw() as u8,
        }
    }

    /// A 32-bit number: a boundary, a small one, or any.
    pub fn number(&mut self) -> u32 {
        match self.below(4) {
            0 => self.pick(&NUMBERS),
            1 => self.below(300) as u32,
            2 => (self.draw() as u32) >> self.below(32),
            _ => self.draw() as u32,
        }
    }

    /// A word: zero, one bit, few bits, many bits, or any.
    pub fn word(&mut self) -> u64 {
        match self.below(6) {
            0 => 0,
            1 => 1 << self.below(64),
            2 => self.draw() & self.draw() & self.draw(),
            3 => u64::MAX,
            4 => self.draw() | self.draw(),
            _ => self.draw(),
        }
    }

    /// A number of containers that starting accepts: a boundary or any.
    pub fn containers(&mut self) -> u32 {
        match self.below(4) {
            0 => self.pick(&SIZES),
            1 => 1 + self.below(256) as u32,
            2 => 2 + self.below(9) as u32,
            _ => 2 + self.below(40) as u32,
        }
    }

    /// A container below `n`.
    pub fn container(&mut self, n: u32) -> u32 {
        match self.below(6) {
            0 => 0,
            1 => n.saturating_sub(1),
            _ => self.below(n as usize) as u32,
        }
    }

    /// A container that is `n` or more, often one whose low bits are those of a right one.
    pub fn no_container(&mut self, n: u32) -> u32 {
        let right = self.container(n);
        let wrong = [n, n.saturating_add(1), right.saturating_add(256), right.saturating_add(65_536), right | 0x8000_0000, u32::MAX, self.number()];
        let chosen = self.pick(&wrong);
        if chosen < n { n } else { chosen }
    }

    /// A buffer with content of its own.
    pub fn bytes(&mut self, length: usize) -> Vec<u8> {
        (0..length).map(|_| self.draw() as u8).collect()
    }
}

#[cfg(test)]
mod tests {
    use super::*;

    /// The same seed gives the same numbers; another seed, class or case gives others.
    #[test]
    fn seed_fixes_the_numbers() {
        let first = |mut random: Random| [random.draw(), random.draw()];
        assert_eq!(first(Random::new(1, 2, 3)), first(Random::new(1, 2, 3)));
        let others = [Random::new(2, 2, 3), Random::new(1, 3, 3), Random::new(1, 2, 4), Random::new(1, 3, 2)];
        for other in others {
            assert_ne!(first(Random::new(1, 2, 3)), first(other));
        }
    }

    /// A container that is asked to be wrong is never below n.
    #[test]
    fn wrong_containers_are_wrong() {
        let mut random = Random::new(1, 0, 0);
        for n in 0..300 {
            assert!((0..50).all(|_| random.no_container(n) >= n));
        }
    }
}
