//! Lines over whole ranges: every question about fragments, a mask of every
//! M, N and lent length, and masks and descriptors of every M and shift.

use super::random::{seed_of, Random};
use super::small::{random_descriptor, random_fields};
use crate::mask::Fields;

/// So many descriptors follow the masks of every M, N and lent length.
const DESCRIPTORS: u64 = 4_000;

/// Every question of both words with numbers up to one beyond each edge.
pub fn fragments() -> Vec<u8> {
    let mut lines = String::new();
    for kind in 0..=9 {
        for lane in 0..=32 {
            for register in 0..=8 {
                lines += &format!("fragment {kind} {lane} {register}\n");
            }
        }
    }
    for kind in 0..=9 {
        for computation in 0..=4 {
            for row in 0..=8 {
                for column in 0..=8 {
                    lines += &format!("holder {kind} {computation} {row} {column}\n");
                }
            }
        }
    }
    lines.into_bytes()
}

/// A mask of every M, N and lent length, each with a descriptor of its own
/// that is refused by none of them.
fn every_length(random: &mut Random) -> String {
    let mut lines = String::new();
    for m in [128, 64, 32] {
        for n in (8..=256).step_by(8) {
            for length in 0..=64 {
                let fields = Fields {
                    shift: random.below(17),
                    ..random_fields(random)
                };
                lines += &format!("mask {m} {n} {} {length}\n", fields.write());
            }
        }
    }
    lines
}

/// For every M and shift two masks, of which the second has too little room,
/// and the writing of the same fields.
fn every_shift(random: &mut Random) -> String {
    let mut lines = String::new();
    for m in [128, 64, 32] {
        for shift in 0..64 {
            let fields = Fields {
                shift,
                ..random_fields(random)
            };
            let bytes = random.between(1, 32);
            let begun = format!("mask {m} {} {}", 8 * bytes, fields.write());
            lines += &format!("{begun} {bytes}\n{begun} {}\n", bytes - 1);
            let numbers = Vec::from_iter(fields.numbers().iter().map(u64::to_string));
            lines += &format!("descriptor {m} {}\n", numbers.join(" "));
        }
    }
    lines
}

/// Masks of every M, N and lent length, masks and descriptors of every M and
/// shift, then the fields and a mask of further descriptors, in which every
/// bit is free.
pub fn masks(seed: &[u8]) -> Vec<u8> {
    let mut random = Random::new(seed_of(seed));
    let mut lines = every_length(&mut random) + &every_shift(&mut random);
    for _ in 0..DESCRIPTORS {
        let descriptor = random_descriptor(&mut random);
        let m = random.pick(&[128, 64, 32]);
        let n = 8 * random.between(1, 32);
        let length = random.around(n / 8);
        lines += &format!("fields {descriptor}\nmask {m} {n} {descriptor} {length}\n");
    }
    lines.into_bytes()
}

#[cfg(test)]
mod tests {
    use super::*;
    use crate::lines::answers;
    use crate::verdict::MOST_ENTRIES;

    /// How many of the answers begin so.
    fn said(answers: &[String], beginning: &str) -> usize {
        let begins = |text: &&String| text.starts_with(beginning);
        answers.iter().filter(begins).count()
    }

    #[test]
    fn every_fragment_is_asked_for_both_ways() {
        let lines = fragments();
        let all: Vec<String> = answers(&lines, MOST_ENTRIES).collect();
        assert_eq!(all.len(), 10 * 33 * 9 + 10 * 5 * 9 * 9);
        let held = 4 * 128 + 2 * 256 + 2 * 32 + 64;
        let (forth, back) = all.split_at(10 * 33 * 9);
        assert_eq!((said(forth, "0 "), said(back, "0 ")), (held, held));
        assert_eq!(said(&all, "?"), 0);
    }

    #[test]
    fn every_mask_is_asked_for() {
        let lines = masks(b"masks");
        let all: Vec<String> = answers(&lines, MOST_ENTRIES).collect();
        let (every, rest) = all.split_at(3 * 32 * 65);
        let (shifts, further) = rest.split_at(3 * 64 * 3);
        let short: usize = (1..=32).map(|bytes| 3 * bytes).sum();
        assert_eq!(said(every, "11 "), short);
        assert_eq!(said(every, "0 "), every.len() - short);
        assert_eq!(said(shifts, "16 32 "), 2 * 31 * 3);
        assert_eq!(said(shifts, "16 16 "), 47 * 3);
        assert_eq!(said(shifts, "11 "), 33 + 33 + 17);
        assert_eq!(said(shifts, "0 "), 2 * (33 + 33 + 17));
        assert_eq!(further.len() as u64, 2 * DESCRIPTORS);
        for number in ["0 ", "11 ", "15 ", "16 "] {
            assert!(said(further, number) > 200, "{number}");
        }
        assert_eq!(said(&all, "?") + said(&all, "13 "), 0);
    }
}
