//! Line and bank of an element address, as document 004 has them: banks are 4
//! bytes wide, and 32 of them make a line.

use crate::layout::OUTSIDE_DIMENSION;
use crate::lines::Answer;
use crate::swizzle::{ELEMENT_BITS, NOT_ALLOWED};

/// Addresses are below this.
const ADDRESSES: u64 = 1 << 32;

const BITS_OF_A_BANK: u64 = 32;
const BANKS_OF_A_LINE: u64 = 32;

/// The bank word in which an element begins. An address and bits that are
/// permitted have a product below 2^39.
fn bank_word(bits: u64, address: u64) -> u64 {
    address * bits / BITS_OF_A_BANK
}

pub fn answer_bank(numbers: &[u64]) -> Option<Answer> {
    let &[bits, address] = numbers else {
        return None;
    };
    Some(if !ELEMENT_BITS.contains(&bits) {
        Answer::plain(NOT_ALLOWED, [0; 3])
    } else if address >= ADDRESSES {
        Answer::plain(OUTSIDE_DIMENSION, [0; 3])
    } else {
        let word = bank_word(bits, address);
        Answer::plain(0, [word / BANKS_OF_A_LINE, word % BANKS_OF_A_LINE, 0])
    })
}

#[cfg(test)]
mod tests {
    use super::*;
    use crate::lines::says;
    use crate::swizzle::from_mode;
    use std::collections::BTreeSet;

    #[test]
    fn the_worked_example_of_004() {
        for row in 0..8 {
            let line = format!("bank 16 {}", 72 * row);
            says(&line, &format!("0 {row} {} 0", 4 * row));
        }
    }

    #[test]
    fn every_width_at_both_ends() {
        for (bits, last) in [
            (4, "0 16777215 31 0"),
            (8, "0 33554431 31 0"),
            (16, "0 67108863 31 0"),
            (32, "0 134217727 31 0"),
            (64, "0 268435455 30 0"),
            (128, "0 536870911 28 0"),
        ] {
            says(&format!("bank {bits} 0"), "0 0 0 0");
            says(&format!("bank {bits} 4294967295"), last);
            says(&format!("bank {bits} 4294967296"), "10 0 0 0");
            says(&format!("bank {bits} 18446744073709551615"), "10 0 0 0");
        }
    }

    #[test]
    fn bits_are_judged_first() {
        for bits in [0, 1, 2, 3, 5, 12, 24, 31, 33, 48, 127, 129, 256, u64::MAX] {
            for address in [0, 1, u64::MAX >> 32, 1 << 32, u64::MAX] {
                says(&format!("bank {bits} {address}"), "6 0 0 0");
            }
        }
    }

    /// For every mode with a swizzle and every width: the group of four banks
    /// that each of the eight 16-byte pieces of a column falls on.
    #[test]
    fn the_pieces_of_a_column_fall_on_different_groups() {
        for mode in 1..=3 {
            for bits in ELEMENT_BITS {
                for first in [0, 1_024, 3_072, 1 << 20] {
                    groups_differ(mode, *bits, first);
                }
            }
        }
    }

    fn groups_differ(mode: u64, bits: u64, first: u64) {
        let width = 16 << mode;
        let swizzle = from_mode(bits, mode).unwrap();
        for column in 0..width / 16 {
            let byte = |row: u64| first + row * width + 16 * column;
            let word = |row: u64| bank_word(bits, swizzle.apply(byte(row) * 8 / bits));
            let groups: BTreeSet<u64> = (0..8).map(|row| word(row) % 32 / 4).collect();
            assert_eq!(groups.len(), 8, "{mode} {bits} {column}");
            assert!((0..8).all(|row| word(row) % 4 == 0));
        }
    }
}
