//! Rule 4 of document 01: the swizzle M, B, S of document 004 over element
//! addresses, and the numbers that element bits and a mode give.

use crate::lines::Answer;

/// Refusal: swizzle numbers, bits or mode not allowed.
pub const NOT_ALLOWED: u64 = 6;

const MOST_M: u64 = 8;
const MOST_B: u64 = 4;
const MOST_S: u64 = 8;

#[derive(Clone, Copy, Debug)]
pub struct Swizzle {
    pub m: u64,
    pub b: u64,
    pub s: u64,
}

impl Swizzle {
    pub fn permitted(&self) -> bool {
        self.m <= MOST_M && self.b <= MOST_B && self.s <= MOST_S && self.s >= self.b
    }

    /// The new address, bit by bit: bit j of x, for j below B, becomes the
    /// XOR of bits j and S + j of x, where x is the address without its low
    /// M bits. To be asked of permitted numbers only.
    pub fn apply(&self, address: u64) -> u64 {
        let bit = |position: u64| position < 64 && address >> position & 1 == 1;
        let mut swizzled = 0;
        for position in 0..64 {
            let in_group = position >= self.m && position < self.m + self.b;
            let value = bit(position) ^ (in_group && bit(position + self.s));
            swizzled |= u64::from(value) << position;
        }
        swizzled
    }
}

pub fn answer_swizzle(numbers: &[u64]) -> Option<Answer> {
    let &[m, b, s, address] = numbers else {
        return None;
    };
    let swizzle = Swizzle { m, b, s };
    Some(if swizzle.permitted() {
        Answer::plain(0, [swizzle.apply(address), 0, 0])
    } else {
        Answer::plain(NOT_ALLOWED, [0; 3])
    })
}

/// The bits that an element may have.
pub const ELEMENT_BITS: &[u64] = &[4, 8, 16, 32, 64, 128];

/// M, B, S from element bits and mode.
pub fn from_mode(bits: u64, mode: u64) -> Option<Swizzle> {
    if !ELEMENT_BITS.contains(&bits) || mode > 3 {
        return None;
    }
    let bit_length = u64::from(64 - (128 / bits).leading_zeros());
    Some(Swizzle {
        m: bit_length - 1,
        b: mode,
        s: 3,
    })
}

pub fn answer_mode(numbers: &[u64]) -> Option<Answer> {
    let &[bits, mode] = numbers else { return None };
    Some(match from_mode(bits, mode) {
        Some(Swizzle { m, b, s }) => Answer::plain(0, [m, b, s]),
        None => Answer::plain(NOT_ALLOWED, [0; 3]),
    })
}

#[cfg(test)]
mod tests {
    use super::*;
    use crate::lines::says;
    use crate::loads::random::Random;
    use crate::loads::small::{random_address, random_swizzle};

    #[test]
    fn the_sheet() {
        says("swizzle 3 3 3 64", "0 72 0 0");
        says("swizzle 3 3 3 72", "0 64 0 0");
        says("swizzle 3 3 3 511", "0 455 0 0");
        says("swizzle 3 3 2 64", "6 0 0 0");
    }

    #[test]
    fn limits_of_the_swizzle() {
        says("swizzle 8 4 8 0", "0 0 0 0");
        says("swizzle 9 4 8 0", "6 0 0 0");
        says("swizzle 8 5 8 0", "6 0 0 0");
        says("swizzle 8 4 9 0", "6 0 0 0");
        says(
            "swizzle 8 0 0 18446744073709551615",
            "0 18446744073709551615 0 0",
        );
        says(
            "swizzle 0 18446744073709551615 18446744073709551615 0",
            "6 0 0 0",
        );
    }

    #[test]
    fn the_transform_as_004_writes_it() {
        let mut random = Random::new(4);
        for _ in 0..20_000 {
            let swizzle = random_swizzle(&mut random);
            if !swizzle.permitted() {
                continue;
            }
            let Swizzle { m, b, s } = swizzle;
            let address = random_address(&mut random);
            let x = address >> m;
            let f = x ^ ((x & (((1 << b) - 1) << s)) >> s);
            assert_eq!(swizzle.apply(address), (f << m) + address % (1 << m));
            assert_eq!(swizzle.apply(swizzle.apply(address)), address);
            assert_eq!(swizzle.apply(address) >> (m + b), address >> (m + b));
        }
    }

    #[test]
    fn the_worked_example_of_004() {
        let swizzle = Swizzle { m: 3, b: 3, s: 3 };
        for i in 0..8u64 {
            for j in 0..64u64 {
                let wanted = 64 * i + 8 * ((j / 8) ^ i) + j % 8;
                assert_eq!(swizzle.apply(64 * i + j), wanted);
            }
        }
    }

    #[test]
    fn bits_and_mode() {
        says("mode 16 3", "0 3 3 3");
        says("mode 4 0", "0 5 0 3");
        says("mode 8 1", "0 4 1 3");
        says("mode 32 2", "0 2 2 3");
        says("mode 64 3", "0 1 3 3");
        says("mode 128 3", "0 0 3 3");
        for line in [
            "mode 0 0",
            "mode 2 1",
            "mode 256 1",
            "mode 24 1",
            "mode 16 4",
        ] {
            says(line, "6 0 0 0");
        }
    }
}
