//! A splitmix64 generator and the pickers that random lines are made with.

use crate::lines::Number;

/// FNV-1a over 64 bits: turns any text into a seed.
pub fn seed_of(text: &[u8]) -> u64 {
    text.iter().fold(0xcbf2_9ce4_8422_2325, |hash: u64, byte| {
        (hash ^ u64::from(*byte)).wrapping_mul(0x0000_0100_0000_01b3)
    })
}

pub struct Random {
    state: u64,
}

impl Random {
    pub fn new(seed: u64) -> Random {
        Random { state: seed }
    }

    /// The next 64 bits (splitmix64).
    pub fn next(&mut self) -> u64 {
        self.state = self.state.wrapping_add(0x9e37_79b9_7f4a_7c15);
        let mut z = self.state;
        z = (z ^ (z >> 30)).wrapping_mul(0xbf58_476d_1ce4_e5b9);
        z = (z ^ (z >> 27)).wrapping_mul(0x94d0_49bb_1331_11eb);
        z ^ (z >> 31)
    }

    /// 0 to bound - 1; 0 when the bound is 0.
    pub fn below(&mut self, bound: u64) -> u64 {
        let drawn = self.next();
        if bound == 0 {
            0
        } else {
            drawn % bound
        }
    }

    /// first to last, both included.
    pub fn between(&mut self, first: u64, last: u64) -> u64 {
        first.saturating_add(self.below(last.saturating_sub(first).saturating_add(1)))
    }

    /// True once in so many times.
    pub fn once_in(&mut self, times: u64) -> bool {
        self.below(times) == 0
    }

    /// An index into something of that length.
    pub fn index(&mut self, length: usize) -> usize {
        self.below(length as u64) as usize
    }

    /// One of the choices. There is always at least one.
    pub fn pick<T: Copy>(&mut self, choices: &[T]) -> T {
        choices[self.index(choices.len())]
    }

    /// The limit, the number before it or the number after it.
    pub fn around(&mut self, limit: u64) -> u64 {
        match self.below(3) {
            0 => limit.saturating_sub(1),
            1 => limit,
            _ => limit.saturating_add(1),
        }
    }

    /// One of the limits, or a neighbour of it.
    pub fn around_one_of(&mut self, limits: &[u64]) -> u64 {
        let limit = self.pick(limits);
        self.around(limit)
    }

    /// Numbers that arithmetic trips over: powers of two and their
    /// neighbours, the ends of the usual widths, and any 64 bits at all.
    pub fn hostile(&mut self) -> u64 {
        match self.below(8) {
            0 => 0,
            1 => u64::MAX,
            2 => self.around(1 << 32),
            3 => self.around(1 << 63),
            4 | 5 => {
                let power = 1u64 << self.below(64);
                self.around(power)
            }
            6 => {
                let bits = self.below(64);
                self.next() >> bits
            }
            _ => self.next(),
        }
    }

    /// Hostile numbers as they may stand on a line where both signs are
    /// allowed: from -2^63 on, and below 2^64.
    pub fn any_sign(&mut self) -> Number {
        let size = Number::from(self.hostile());
        match self.below(2) {
            0 => size,
            _ => (-size).max(Number::from(i64::MIN)),
        }
    }
}

#[cfg(test)]
mod tests {
    use super::*;

    #[test]
    fn splitmix64_gives_its_published_numbers() {
        let mut random = Random::new(1234567);
        let wanted = [
            6457827717110365317,
            3203168211198807973,
            9817491932198370423,
            4593380528125082431,
            16408922859458223821,
        ];
        for number in wanted {
            assert_eq!(random.next(), number);
        }
    }

    #[test]
    fn fnv_1a_gives_its_published_numbers() {
        assert_eq!(seed_of(b""), 0xcbf29ce484222325);
        assert_eq!(seed_of(b"a"), 0xaf63dc4c8601ec8c);
        assert_eq!(seed_of(b"foobar"), 0x85944171f73967e8);
    }

    #[test]
    fn pickers_keep_their_bounds() {
        let mut random = Random::new(1);
        for _ in 0..10_000 {
            assert!(random.below(7) < 7);
            assert!((3..=5).contains(&random.between(3, 5)));
            assert!((9..=11).contains(&random.around(10)));
        }
        assert_eq!(random.below(0), 0);
        random.between(0, u64::MAX);
    }
}
