//! Random questions that need no card: swizzles, banks, fragments and masks.

use super::limits::{ADDRESSES, MOST_B, MOST_M, MOST_S, SHIFTS};
use super::random::Random;
use crate::lines::{whole, Number};
use crate::mask::Fields;
use crate::swizzle::Swizzle;

/// M, B and S as large as they may be, or smaller.
pub fn permitted_swizzle(random: &mut Random) -> Swizzle {
    let b = random.between(0, MOST_B);
    Swizzle {
        m: random.between(0, MOST_M),
        b,
        s: random.between(b, MOST_S),
    }
}

/// Permitted triples most of the time, else the neighbourhood of the limits,
/// now and then anything.
pub fn random_swizzle(random: &mut Random) -> Swizzle {
    match random.below(8) {
        0..=3 => permitted_swizzle(random),
        4..=6 => Swizzle {
            m: random.below(MOST_M + 2),
            b: random.below(MOST_B + 2),
            s: random.below(MOST_S + 2),
        },
        _ => {
            let mut any = || match random.below(3) {
                0 => random.hostile(),
                _ => random.below(10),
            };
            Swizzle {
                m: any(),
                b: any(),
                s: any(),
            }
        }
    }
}

/// An address: small ones, single bits, ends of widths, any.
pub fn random_address(random: &mut Random) -> u64 {
    match random.below(4) {
        0 => random.below(4096),
        1 => random.hostile(),
        2 => {
            let bits = random.below(24);
            random.next() >> (40 + bits)
        }
        _ => random.next(),
    }
}

pub fn swizzle(random: &mut Random) -> Vec<Number> {
    let Swizzle { m, b, s } = random_swizzle(random);
    whole(&[m, b, s, random_address(random)])
}

fn random_bits(random: &mut Random) -> u64 {
    match random.below(8) {
        0..=3 => random.pick(&[4, 8, 16, 32, 64, 128]),
        4 | 5 => random.around_one_of(&[0, 1, 2, 3, 4, 5, 8, 16, 32, 64, 128, 256]),
        6 => random.below(300),
        _ => random.hostile(),
    }
}

/// An address of which there is a bank, mostly: a small one, one at a multiple
/// of a line's bits or beside it, any, the last ones.
fn bank_address(random: &mut Random) -> u64 {
    match random.below(12) {
        0 | 1 => random.below(4_096),
        2..=4 => {
            let line = random.below(1 << 21) << random.between(3, 11);
            random.around(line)
        }
        5..=7 => random.below(ADDRESSES),
        8 => ADDRESSES - 1 - random.below(300),
        9 => random.around(ADDRESSES),
        _ => random.hostile(),
    }
}

pub fn bank(random: &mut Random) -> Vec<Number> {
    let bits = match random.once_in(3) {
        true => random_bits(random),
        false => random.pick(&[4, 8, 16, 32, 64, 128]),
    };
    whole(&[bits, bank_address(random)])
}

pub fn mode(random: &mut Random) -> Vec<Number> {
    let bits = random_bits(random);
    let mode = match random.below(8) {
        0..=4 => random.below(4),
        5 | 6 => random.below(6),
        _ => random.hostile(),
    };
    whole(&[bits, mode])
}

/// Mostly inside, sometimes at the edge, now and then anything.
pub fn near(random: &mut Random, inside: u64) -> u64 {
    match random.below(20) {
        0..=16 => random.below(inside),
        17 | 18 => random.around(inside),
        _ => random.hostile(),
    }
}

pub fn fragment(random: &mut Random) -> Vec<Number> {
    let kind = near(random, 9);
    let lane = near(random, 32);
    let registers = match kind {
        0..=3 => 4,
        6 | 7 => 1,
        8 => 2,
        _ => 8,
    };
    whole(&[kind, lane, near(random, registers)])
}

pub fn holder(random: &mut Random) -> Vec<Number> {
    let kind = near(random, 9);
    let (computations, rows, columns) = match kind {
        0 | 1 => (4, 8, 4),
        2 | 3 => (4, 4, 8),
        4 | 5 => (4, 8, 8),
        6 => (1, 8, 4),
        7 => (1, 4, 8),
        _ => (1, 8, 8),
    };
    let computation = near(random, computations);
    let row = near(random, rows);
    whole(&[kind, computation, row, near(random, columns)])
}

/// Small spans and counts make busy masks; large ones reach past the end.
fn random_byte(random: &mut Random) -> u64 {
    match random.below(8) {
        0..=3 => random.below(8),
        4 => random.below(64),
        5 => random.below(256),
        _ => random.pick(&[0, 1, 127, 128, 129, 254, 255, 255]),
    }
}

fn random_shift(random: &mut Random) -> u64 {
    match random.below(8) {
        0 | 1 => 0,
        2 | 3 => random.below(17),
        4..=6 => random.around_one_of(SHIFTS),
        _ => random.below(64),
    }
}

pub fn random_fields(random: &mut Random) -> Fields {
    Fields {
        start_counts: [0; 4].map(|_: u64| random_byte(random)),
        first_spans: [0; 4].map(|_: u64| random.below(2)),
        non_zero_mask: u64::from(!random.once_in(8)),
        skip_span: random_byte(random),
        use_span: random_byte(random),
        shift: random_shift(random),
    }
}

/// A descriptor: of random fields, sometimes with a reserved bit, or any.
pub fn random_descriptor(random: &mut Random) -> u64 {
    let descriptor = random_fields(random).write();
    match random.below(16) {
        0 => descriptor | 1 << random.pick(&[36, 37, 38, 62, 63]),
        1 => random.hostile(),
        2 => random.next() & !(7 << 36) & !(3 << 62),
        _ => descriptor,
    }
}

pub fn fields(random: &mut Random) -> Vec<Number> {
    whole(&[random_descriptor(random)])
}

/// One that a mask can have, mostly; others look like one, even when cut to
/// 32 bits.
fn random_m(random: &mut Random) -> u64 {
    match random.below(20) {
        0..=16 => random.pick(&[32, 64, 128]),
        17 => random.pick(&[0, 1, 8, 16, 31, 33, 63, 65, 96, 127, 129, 256]),
        18 => (1 << random.between(32, 63)) + random.pick(&[32, 64, 128]),
        _ => random.hostile(),
    }
}

pub fn descriptor(random: &mut Random) -> Vec<Number> {
    let m = random_m(random);
    let mut numbers = random_fields(random).numbers();
    if random.once_in(6) {
        numbers[11] = random.hostile();
    }
    if random.once_in(6) {
        // Beyond what the program takes, or just inside it.
        let at = random.index(numbers.len());
        numbers[at] = random.pick(&[2, 255, 256, 257, 511, 1 << 32, u64::MAX]);
    }
    whole(&[&[m], &numbers[..]].concat())
}

fn random_n(random: &mut Random) -> u64 {
    match random.below(40) {
        0..=35 => 8 * random.between(1, 32),
        36 | 37 => random.below(300),
        38 => random.pick(&[0, 7, 8, 9, 248, 255, 256, 257, 264, 512]),
        _ => random.hostile(),
    }
}

pub fn mask(random: &mut Random) -> Vec<Number> {
    let m = random_m(random);
    let n = random_n(random);
    let length = match random.below(12) {
        0..=6 => n / 8 % 64,
        7 | 8 => random.around(n / 8 % 64),
        9 | 10 => random.below(65),
        _ => random.pick(&[0, 32, 33, 63, 64, 65, 66, 128, 1 << 32, u64::MAX]),
    };
    whole(&[m, n, random_descriptor(random), length])
}
