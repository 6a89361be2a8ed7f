//! Questions about values: random ones, and all of them over kinds,
//! computations, places and sorts, with not-a-numbers at every place.

use super::random::Random;
use super::small::near;
use crate::lines::{whole, Number};

/// Not-a-numbers, quiet and signalling, of both signs, with several payloads;
/// then the infinities and what lies beside them.
const SINGLES: &[u64] = &[
    0x7f80_0001,
    0x7fa0_0000,
    0x7fbf_ffff,
    0x7fc0_0000,
    0x7fc0_0001,
    0x7fff_ffff,
    0xff80_0001,
    0xffa5_a5a5,
    0xffbf_ffff,
    0xffc0_0000,
    0xffd5_5555,
    0xffff_ffff,
    0x7f80_0000,
    0xff80_0000,
];
const DOUBLES: &[u64] = &[
    0x7ff0_0000_0000_0001,
    0x7ff4_0000_0000_0000,
    0x7ff7_ffff_ffff_ffff,
    0x7ff8_0000_0000_0000,
    0x7ff8_0000_0000_0001,
    0x7fff_ffff_ffff_ffff,
    0xfff0_0000_0000_0001,
    0xfff0_0000_ffff_ffff,
    0xfff7_ffff_ffff_ffff,
    0xfff8_0000_0000_0000,
    0xfffd_5555_5555_5555,
    0xffff_ffff_ffff_ffff,
    0x7ff0_0000_0000_0000,
    0xfff0_0000_0000_0000,
];

/// How many of them are not-a-numbers.
const NOT_NUMBERS: usize = 12;

/// Kinds that are not dealt, some of which look like one when cut.
const OTHER_KINDS: &[u64] = &[0, 1, 2, 3, 4, 9, 10, (1 << 32) + 5, (1 << 63) + 8, u64::MAX];

/// Computations that no kind has, some of which look like one when cut.
const OTHER_COMPUTATIONS: &[u64] = &[5, 16, 1 << 32, (1 << 63) + 1, u64::MAX];

/// A kind that is dealt and one of its computations, mostly.
fn matrix(random: &mut Random) -> (u64, u64) {
    let kind = match random.below(12) {
        0 => near(random, 9),
        1..=5 => 5,
        _ => random.between(6, 8),
    };
    let computation = match kind {
        0..=5 => near(random, 4),
        _ => near(random, 1),
    };
    (kind, computation)
}

/// Bits of a value: a not-a-number, a small number, any.
fn bits(random: &mut Random, special: &[u64], size: u64) -> u64 {
    match random.below(4) {
        0 | 1 => random.pick(special),
        2 => random.below(8),
        _ => random.next() >> (64 - size),
    }
}

/// Sort and bits: those of the kind, mostly; now and then past the limits.
fn sort_and_bits(random: &mut Random, kind: u64) -> [u64; 2] {
    let own = if kind == 5 { 1 } else { 2 };
    let sort = match random.below(8) {
        0..=4 => own,
        5 | 6 => random.below(3),
        _ => random.pick(&[0, 1, 2, 3, 4, 1 << 32, u64::MAX]),
    };
    let bits = match (random.below(12), sort) {
        (0, _) => random.hostile(),
        (_, 0) => 0,
        (_, 1) => bits(random, SINGLES, 32),
        _ => bits(random, DOUBLES, 64),
    };
    [sort, bits]
}

/// A place that is emptied: none, mostly.
fn other(random: &mut Random, places: u64) -> u64 {
    match random.below(8) {
        0..=3 => places,
        4..=6 => random.below(places),
        _ => near(random, places),
    }
}

pub fn deal(random: &mut Random) -> Vec<Number> {
    let (kind, computation) = matrix(random);
    let place = near(random, 64);
    let [sort, bits] = sort_and_bits(random, kind);
    whole(&[kind, computation, place, sort, bits, other(random, 64)])
}

pub fn deal_f64(random: &mut Random) -> Vec<Number> {
    let mut numbers = deal(random);
    if numbers[0] == 5 && !random.once_in(8) {
        // Kind 5 has no holdings.
        numbers[0] = random.between(6, 8).into();
        numbers[1] = near(random, 1).into();
    }
    numbers
}

pub fn collect(random: &mut Random) -> Vec<Number> {
    let (kind, computation) = matrix(random);
    let lane = match kind {
        // Mostly one of the computation's own.
        5 if computation < 4 && !random.once_in(4) => {
            4 * computation + random.below(4) + 16 * random.below(2)
        }
        _ => near(random, 32),
    };
    let registers = match kind {
        6 | 7 => 1,
        8 => 2,
        _ => 8,
    };
    let register = match random.once_in(4) {
        true => near(random, 8),
        false => near(random, registers),
    };
    let [sort, bits] = sort_and_bits(random, kind);
    let other = other(random, 256);
    whole(&[kind, computation, lane, register, sort, bits, other])
}

pub fn collect_f64(random: &mut Random) -> Vec<Number> {
    let kind = match random.below(8) {
        0 => near(random, 9),
        _ => random.between(6, 8),
    };
    let computation = near(random, 1);
    let (lane, field) = (near(random, 32), near(random, 4));
    let bits = bits(random, DOUBLES, 64);
    whole(&[kind, computation, lane, field, bits])
}

/// The kinds that are dealt with every computation, and with one too many.
fn dealt() -> impl Iterator<Item = (u64, u64)> {
    (5..=8).flat_map(|kind| (0..=4).map(move |computation| (kind, computation)))
}

/// Wrong kinds, and right kinds with computations far from any.
fn not_dealt() -> Vec<(u64, u64)> {
    let others = OTHER_KINDS.iter().flat_map(|kind| [(*kind, 0), (*kind, 4)]);
    let wrong = OTHER_COMPUTATIONS;
    let far = (5..=8).flat_map(|kind| wrong.iter().map(move |computation| (kind, *computation)));
    others.chain(far).collect()
}

/// A value of each sort, the empty one first.
const VALUES: &[(u64, u64)] = &[(0, 0), (1, 0x4049_0fdb), (2, 0x4009_21fb_5444_2d18)];

fn every_deal() -> String {
    let mut lines = String::new();
    for word in ["deal", "deal-f64"] {
        for (kind, computation) in dealt() {
            for place in 0..=64 {
                for (sort, bits) in VALUES {
                    lines += &format!("{word} {kind} {computation} {place} {sort} {bits} 64\n");
                }
            }
        }
    }
    lines
}

fn every_collect() -> String {
    let mut lines = String::new();
    for (kind, computation) in dealt() {
        for lane in 0..=32 {
            for register in 0..=8 {
                let at = format!("{kind} {computation} {lane} {register}");
                for (sort, bits) in VALUES {
                    lines += &format!("collect {at} {sort} {bits} 256\n");
                }
                lines += &format!("collect-f64 {at} {}\n", VALUES[2].1);
            }
        }
    }
    lines
}

/// What is wrong before any place is looked at: all four words.
fn every_other() -> String {
    let mut lines = String::new();
    for (kind, computation) in not_dealt() {
        for (sort, bits) in VALUES {
            let deal = format!("{kind} {computation} 63 {sort} {bits} 64\n");
            lines += &format!("deal {deal}deal-f64 {deal}");
            lines += &format!("collect {kind} {computation} 31 7 {sort} {bits} 256\n");
        }
        lines += &format!("collect-f64 {kind} {computation} 31 3 {}\n", VALUES[2].1);
    }
    lines
}

/// Kinds with their computations and the sort of their values.
const MATRICES: &[(u64, u64, u64)] = &[
    (5, 0, 1),
    (5, 1, 1),
    (5, 2, 1),
    (5, 3, 1),
    (6, 0, 2),
    (7, 0, 2),
    (8, 0, 2),
];

/// Whether a place of a tile is one of the kind's matrix: A of kind 6 has four
/// columns, B of kind 7 four rows.
fn is_own_place(kind: u64, place: u64) -> bool {
    match kind {
        6 => place % 8 < 4,
        7 => place / 8 < 4,
        _ => true,
    }
}

/// Whether a register is one of the computation's.
fn is_own_register(kind: u64, computation: u64, lane: u64, register: u64) -> bool {
    match kind {
        5 => lane % 16 / 4 == computation,
        8 => register < 2,
        _ => register == 0,
    }
}

/// Whether a field of a holding is the kind's.
fn is_own_field(kind: u64, field: u64) -> bool {
    match kind {
        6 => field == 0,
        7 => field == 1,
        _ => field == 2 || field == 3,
    }
}

/// All of the patterns where they count, and one not-a-number, each in its
/// turn, where they are not looked at.
fn patterns(sort: u64, own: bool, entry: u64) -> impl Iterator<Item = u64> {
    let all = if sort == 1 { SINGLES } else { DOUBLES };
    let turn = entry as usize % NOT_NUMBERS;
    let these = if own { all } else { &all[turn..=turn] };
    these.iter().copied()
}

/// Not-a-numbers at every place and in every register of every matrix: each
/// pattern where it is dealt or collected, one elsewhere. The holdings have no
/// kind 5, which is refused before any place is looked at.
fn every_not_a_number() -> String {
    let mut lines = String::new();
    for &(kind, computation, sort) in MATRICES {
        for place in 0..64 {
            for bits in patterns(sort, is_own_place(kind, place), place) {
                let rest = format!("{kind} {computation} {place} {sort} {bits} 64\n");
                lines += &format!("deal {rest}");
                if kind != 5 {
                    lines += &format!("deal-f64 {rest}");
                }
            }
        }
        for entry in 0..256 {
            let (lane, register) = (entry / 8, entry % 8);
            let at = format!("{kind} {computation} {lane} {register}");
            for bits in patterns(
                sort,
                is_own_register(kind, computation, lane, register),
                entry,
            ) {
                lines += &format!("collect {at} {sort} {bits} 256\n");
            }
            if kind == 5 {
                continue;
            }
            for bits in patterns(sort, is_own_field(kind, register), entry) {
                lines += &format!("collect-f64 {at} {bits}\n");
            }
        }
    }
    lines
}

/// Two places of the wrong sort: of a tile all pairs, of the lanes those among
/// the first registers of every lane. Which of a pair of places of a tile is
/// named first makes no other question, and the holdings have no kind 5.
fn every_pair() -> String {
    let mut lines = String::new();
    for &(kind, computation, _) in MATRICES {
        for place in 0..64 {
            for other in place..64 {
                let rest = format!("{kind} {computation} {place} 0 0 {other}\n");
                lines += &format!("deal {rest}");
                if kind != 5 {
                    lines += &format!("deal-f64 {rest}");
                }
            }
        }
        for lane in 0..32 {
            for other in 0..32 {
                let register = (lane + other) % 3;
                let at = format!("{lane} {register} 0 0 {}", 8 * other + lane % 3);
                lines += &format!("collect {kind} {computation} {at}\n");
            }
        }
    }
    lines
}

/// Every kind, computation, place and sort, wrong ones too, not-a-numbers at
/// every place, and pairs of places of the wrong sort.
pub fn all() -> Vec<u8> {
    let places = every_deal() + &every_collect() + &every_other();
    (places + &every_not_a_number() + &every_pair()).into_bytes()
}

#[cfg(test)]
mod tests {
    use super::*;
    use crate::lines::{answers_of, client_answer_line};
    use crate::verdict::MOST_ENTRIES;

    #[test]
    fn these_are_not_numbers() {
        let single = |bits: &u64| f32::from_bits(*bits as u32);
        let double = |bits: &u64| f64::from_bits(*bits);
        let (singles, others) = SINGLES.split_at(NOT_NUMBERS);
        assert!(singles.iter().map(single).all(f32::is_nan));
        assert!(others.iter().map(single).all(f32::is_infinite));
        let (doubles, others) = DOUBLES.split_at(NOT_NUMBERS);
        assert!(doubles.iter().map(double).all(f64::is_nan));
        assert!(others.iter().map(double).all(f64::is_infinite));
        for entry in 0..256 {
            assert!(patterns(1, false, entry).all(|bits| singles.contains(&bits)));
            assert!(patterns(2, false, entry).all(|bits| doubles.contains(&bits)));
        }
    }

    fn said(lines: String) -> Vec<String> {
        let lines = lines.into_bytes();
        answers_of(client_answer_line, &lines, MOST_ENTRIES).collect()
    }

    fn refused(lines: String) -> usize {
        let said = said(lines);
        assert!(!said.iter().any(|text| text == "?\n"));
        said.iter().filter(|text| text.starts_with("14 ")).count()
    }

    #[test]
    fn every_place_is_dealt_and_collected() {
        // Of the wrong sort are two of three values, at 64, 32, 32 and 64
        // places of a tile, and in as many registers.
        let wrong = 2 * (64 + 64 + 64 + 64 + 32 + 32 + 64);
        let f64_wrong = 2 * (32 + 32 + 64);
        let deals = dealt().count() * 65 * 3;
        let good = (7 + 3) * 65 * 3 - wrong - f64_wrong;
        assert_eq!(refused(every_deal()), 2 * deals - good);
        let collects = dealt().count() * 33 * 9;
        let good = 7 * 33 * 9 * 3 - wrong + 3 * 33 * 9;
        assert_eq!(refused(every_collect()), 4 * collects - good);
        assert_eq!(refused(every_other()), not_dealt().len() * 10);
    }

    #[test]
    fn no_bits_are_refused() {
        assert_eq!(refused(every_not_a_number()), 0);
    }

    #[test]
    fn every_pattern_is_at_every_place_and_in_every_register() {
        // Of places and registers 64, 32, 32 and 64 are a computation's own,
        // of the fields of holdings 32, 32 and 64.
        let lines = |own: usize, all: usize| 14 * own + all - own;
        let deals = 4 * lines(64, 64) + 2 * (2 * lines(32, 64) + lines(64, 64));
        let collects = 4 * lines(64, 256) + 2 * (2 * lines(32, 256) + lines(64, 256));
        assert_eq!(every_not_a_number().lines().count(), deals + collects);
    }

    #[test]
    fn every_line_of_a_pair_is_a_question() {
        let pairs = (7 + 3) * 65 * 32 + 7 * 32 * 32;
        assert_eq!(said(every_pair()).len(), pairs);
        assert!(refused(every_pair()) > pairs / 2);
    }
}
