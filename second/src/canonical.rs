//! The canonical shared-memory layouts (document 02, request 7): the rows of
//! source document 001's table as they are printed, the card that a row stands
//! for, and the verdict on it.

use crate::layout::{Card, Iter, Refusal, AXES, M_AXIS, NO_MARKS, REPLICA_SLOTS, SHARD_SLOTS};
use crate::lines::{digest, Answer, Number};
use crate::swizzle::{from_mode, Swizzle, NOT_ALLOWED};
use crate::verdict::{lent_table, verdict};

/// Refusal: a byte stride, the major-ness, m or k not allowed.
const NOT_CANONICAL: u64 = 22;

const MOST_REPEATS: u64 = 8;

/// A byte stride is a multiple of the one and below the other.
const BYTE_STEP: u64 = 16;
const BYTE_STRIDES: u64 = 262_144;

/// What is reported of an LBO that is not used.
const ASSUMED: u64 = 1;

/// A canonical layout without swizzling: its shape and its strides.
type Row = (&'static str, &'static str);

/// The table by major-ness, K and then MN, and by mode: none, 32B, 64B, 128B.
/// Its swizzles are over bytes; those over elements are document 01's.
const TABLE: [[Row; 4]; 2] = [
    [
        ("((8,m),(T,2k))", "((1T,SBO),(1,LBO))"),
        ("((8,m),(T,2k))", "((2T,SBO),(1,T))"),
        ("((8,m),(T,2k))", "((4T,SBO),(1,T))"),
        ("((8,m),(T,2k))", "((8T,SBO),(1,T))"),
    ],
    [
        ("((T,1,m),(8,k))", "((1,T,SBO),(1T,LBO))"),
        ("((T,2,m),(8,k))", "((1,T,LBO),(2T,SBO))"),
        ("((T,4,m),(8,k))", "((1,T,LBO),(4T,SBO))"),
        ("((T,8,m),(8,k))", "((1,T,LBO),(8T,SBO))"),
    ],
];

/// The terms of the rows, then those of the columns. Each of the two CuTe
/// modes is turned round, since CuTe writes the innermost first.
fn turned_round(text: &str) -> impl Iterator<Item = &str> {
    let modes = text.split("),(");
    modes.flat_map(|mode| mode.trim_matches(['(', ')']).rsplit(','))
}

/// Whether a row uses the LBO.
fn uses_lbo((_, strides): &Row) -> bool {
    strides.contains("LBO")
}

fn byte_stride_permitted(bytes: u64) -> bool {
    bytes.is_multiple_of(BYTE_STEP) && bytes < BYTE_STRIDES
}

/// What a canonical layout is asked for with, LBO and SBO in bytes.
#[derive(Clone, Copy, Debug)]
struct Canonical {
    major: u64,
    mode: u64,
    bits: u64,
    m: u64,
    k: u64,
    lbo: u64,
    sbo: u64,
    length_of_m: u64,
}

impl Canonical {
    /// The row of the table and the swizzle over elements, or refusal 6 or 22.
    fn row(&self) -> Result<(&'static Row, Swizzle), Refusal> {
        let swizzle = from_mode(self.bits, self.mode).ok_or(Refusal::plain(NOT_ALLOWED))?;
        let refused = Refusal::plain(NOT_CANONICAL);
        let rows = TABLE.get(self.major as usize).ok_or(refused)?;
        let row = rows.get(self.mode as usize).ok_or(refused)?;
        let repeats = [self.m, self.k];
        let permitted = repeats.iter().all(|n| (1..=MOST_REPEATS).contains(n))
            && byte_stride_permitted(self.sbo)
            && (!uses_lbo(row) || byte_stride_permitted(self.lbo));
        permitted.then_some((row, swizzle)).ok_or(refused)
    }

    /// So many bytes counted in elements. For bits that are permitted.
    fn elements(&self, bytes: u64) -> Number {
        Number::from(bytes) * 8 / Number::from(self.bits)
    }

    /// A term's number times what its name stands for; either may be missing.
    fn value(&self, term: &str) -> Number {
        let digits = term.bytes().take_while(u8::is_ascii_digit).count();
        let (factor, name) = term.split_at(digits);
        let named = match name {
            "T" => Number::from(128 / self.bits),
            "m" => self.m.into(),
            "k" => self.k.into(),
            "LBO" => self.elements(self.lbo),
            "SBO" => self.elements(self.sbo),
            _ => 1,
        };
        factor.parse().unwrap_or(1) * named
    }

    /// The card of a row: all its iters on m, every other length 1.
    fn card(&self, (shape, strides): &Row, swizzle: Swizzle) -> Card {
        let mut shard_slots = [Iter::default(); SHARD_SLOTS];
        let mut shard_count = 0;
        let terms = turned_round(shape).zip(turned_round(strides));
        for (slot, (extent, stride)) in shard_slots.iter_mut().zip(terms) {
            *slot = Iter {
                extent: self.value(extent) as u64,
                stride: self.value(stride),
                axis: M_AXIS as u64,
            };
            shard_count += 1;
        }
        let mut space = [1; AXES];
        space[M_AXIS] = self.length_of_m;
        Card {
            shard_count,
            shard_slots,
            marks: NO_MARKS,
            replica_count: 0,
            replica_slots: [Iter::default(); REPLICA_SLOTS],
            offset: [0; AXES],
            space,
            swizzle,
        }
    }

    /// The verdict's details, and LBO and SBO as they are reported.
    fn judge(&self, table: &mut [u64]) -> Result<([u64; 3], [u64; 2]), Refusal> {
        let (row, swizzle) = self.row()?;
        let details = verdict(&self.card(row, swizzle), table)?;
        let lbo = match uses_lbo(row) {
            true => self.lbo / BYTE_STEP,
            false => ASSUMED,
        };
        Ok((details, [lbo, self.sbo / BYTE_STEP]))
    }
}

pub fn answer_canonical(numbers: &[u64], most: u64) -> Option<Answer> {
    let &[major, mode, bits, m, k, lbo, sbo, length_of_m, _] = numbers else {
        return None;
    };
    let mut table = lent_table(numbers, most)?;
    let asked = Canonical {
        major,
        mode,
        bits,
        m,
        k,
        lbo,
        sbo,
        length_of_m,
    };
    let (number, details, [lbo, sbo]) = match asked.judge(&mut table) {
        Ok((details, reported)) => (0, details, reported),
        Err(refusal) => (refusal.number, refusal.details, [0; 2]),
    };
    Some(Answer::beside(number, details, &[lbo, sbo, digest(&table)]))
}

#[cfg(test)]
mod tests {
    use super::*;
    use crate::layout::lent_entries;
    use crate::lines::{answer_line, says};
    use crate::swizzle::ELEMENT_BITS;
    use crate::verdict::MOST_ENTRIES;

    /// The digest of so many lent entries that were not touched.
    fn untouched(length: u64) -> u64 {
        digest(&lent_entries(length))
    }

    /// What is asked with these nine numbers, and its table after the verdict.
    fn judged(numbers: [u64; 9]) -> (Result<[u64; 3], u64>, Vec<u64>) {
        let [major, mode, bits, m, k, lbo, sbo, length_of_m, length] = numbers;
        let asked = Canonical {
            major,
            mode,
            bits,
            m,
            k,
            lbo,
            sbo,
            length_of_m,
        };
        let mut table = lent_entries(length);
        let said = asked.judge(&mut table);
        let details = said.map(|(details, _)| details);
        (details.map_err(|refusal| refusal.number), table)
    }

    /// Extent and stride of each iter of the row with T 8, m 3, k 2, LBO 80
    /// and SBO 24 elements.
    fn iters(major: u64, mode: u64) -> Vec<(u64, Number)> {
        let asked = Canonical {
            major,
            mode,
            bits: 16,
            m: 3,
            k: 2,
            lbo: 160,
            sbo: 48,
            length_of_m: 1,
        };
        let (row, swizzle) = asked.row().unwrap();
        assert_eq!((swizzle.m, swizzle.b, swizzle.s), (3, mode, 3));
        let card = asked.card(row, swizzle);
        assert!(card.shard().iter().all(|iter| iter.axis == 7));
        let both = |iter: &Iter| (iter.extent, iter.stride);
        card.shard().iter().map(both).collect()
    }

    #[test]
    fn rows_run_from_outermost_to_innermost() {
        let (lbo, sbo) = (80, 24);
        assert_eq!(iters(0, 0), [(3, sbo), (8, 8), (4, lbo), (8, 1)]);
        assert_eq!(iters(0, 1), [(3, sbo), (8, 16), (4, 8), (8, 1)]);
        assert_eq!(iters(0, 2), [(3, sbo), (8, 32), (4, 8), (8, 1)]);
        assert_eq!(iters(0, 3), [(3, sbo), (8, 64), (4, 8), (8, 1)]);
        assert_eq!(iters(1, 0), [(3, sbo), (1, 8), (8, 1), (2, lbo), (8, 8)]);
        assert_eq!(iters(1, 1), [(3, lbo), (2, 8), (8, 1), (2, sbo), (8, 16)]);
        assert_eq!(iters(1, 2), [(3, lbo), (4, 8), (8, 1), (2, sbo), (8, 32)]);
        assert_eq!(iters(1, 3), [(3, lbo), (8, 8), (8, 1), (2, sbo), (8, 64)]);
    }

    /// Figures 188, 190, 191 and 192: B of the printed swizzle, the bits, the
    /// printed extents and strides of the rows and of the columns, and what is
    /// asked.
    type Printed = &'static [(u64, u64)];
    const FIGURES: &[(u64, u64, Printed, Printed, [u64; 9])] = &[
        (
            0,
            32,
            &[(8, 4), (2, 32)],
            &[(4, 1), (4, 64)],
            [0, 0, 32, 2, 2, 64 * 4, 32 * 4, 256, 256],
        ),
        (
            0,
            16,
            &[(8, 1), (1, 8), (2, 64)],
            &[(8, 8), (2, 128)],
            [1, 0, 16, 2, 2, 128 * 2, 64 * 2, 256, 256],
        ),
        (
            1,
            16,
            &[(8, 1), (2, 8), (2, 128)],
            &[(8, 16), (2, 256)],
            [1, 1, 16, 2, 2, 128 * 2, 256 * 2, 512, 512],
        ),
        (
            2,
            16,
            &[(8, 1), (4, 8), (2, 256)],
            &[(8, 32), (2, 512)],
            [1, 2, 16, 2, 2, 256 * 2, 512 * 2, 1024, 1024],
        ),
    ];

    /// A row's or a column's part of the address, the first iter fastest.
    fn part(mut number: u64, printed: Printed) -> u64 {
        let mut sum = 0;
        for (extent, stride) in printed {
            sum += number % extent * stride;
            number /= extent;
        }
        sum
    }

    #[test]
    fn figures_lie_as_they_are_printed() {
        for (b, bits, rows, columns, numbers) in FIGURES {
            let (said, table) = judged(*numbers);
            let length = table.len() as u64;
            assert_eq!(said, Ok([length; 3]));
            let count = |printed: Printed| printed.iter().map(|(extent, _)| extent).product();
            let (row_count, column_count): (u64, u64) = (count(rows), count(columns));
            assert_eq!(row_count * column_count, length);
            for row in 0..row_count {
                for column in 0..column_count {
                    // Swizzle<B,4,3> over bytes.
                    let byte = (part(row, rows) + part(column, columns)) * bits / 8;
                    let byte = byte ^ (byte >> 3 & ((1 << b) - 1) << 4);
                    let address = byte * 8 / bits;
                    let flat = row * column_count + column;
                    assert_eq!(table[address as usize], flat + 1);
                }
            }
        }
    }

    /// Where some elements lie, worked out by hand from the printed layouts.
    #[test]
    fn some_elements_of_the_figures() {
        let owner = |figure: usize, cell: usize| judged(FIGURES[figure].4).1[cell];
        // 188: row 11, column 14: 3 * 4 + 32 + 2 + 3 * 64.
        assert_eq!(owner(0, 238), 11 * 16 + 14 + 1);
        // 190: row 13, column 10: 5 + 64 + 2 * 8 + 128.
        assert_eq!(owner(1, 213), 13 * 16 + 10 + 1);
        // 191: row 9, column 5: 1 + 8 + 5 * 16 is 89, byte 178, swizzled 162.
        assert_eq!(owner(2, 81), 9 * 16 + 5 + 1);
        // 191: row 9, column 1: 1 + 8 + 16 is 25, byte 50, which stays.
        assert_eq!(owner(2, 25), 9 * 16 + 1 + 1);
        // 192: row 37, column 11: 5 + 256 + 3 * 32 + 512 is 869, byte 1738,
        // swizzled 1754.
        assert_eq!(owner(3, 877), 37 * 16 + 11 + 1);
        assert_eq!(owner(3, 0), 1);
    }

    #[test]
    fn encodings_of_the_figures() {
        says(
            "canonical 0 0 32 2 2 256 128 256 256",
            "0 256 256 256 | 16 8 4657536",
        );
        says("canonical 0 1 32 2 2 16 256 256 256", "8 8 16 8 | 0 0 0");
        says(
            "canonical 1 0 16 2 2 256 128 256 256",
            "0 256 256 256 | 16 8 4849216",
        );
        says(
            "canonical 1 1 16 2 2 256 512 512 512",
            "0 512 512 512 | 16 32 38228096",
        );
        says(
            "canonical 1 2 16 2 2 512 1024 1024 1024",
            "0 1024 1024 1024 | 32 64 303821056",
        );
        // Half of Figure 189 is one-to-one, and the encodings are its own.
        let (said, table) = judged([0, 1, 32, 2, 1, 0, 256, 128, 128]);
        assert_eq!(said, Ok([128; 3]));
        says(
            "canonical 0 1 32 2 1 0 256 128 128",
            &format!("0 128 128 128 | 1 16 {}", digest(&table)),
        );
    }

    /// The beginning of what is said, before the table's digest.
    fn said(line: &str) -> String {
        let text = answer_line(line.as_bytes(), MOST_ENTRIES).unwrap_or_default();
        text.rsplit_once(' ').map_or("", |both| both.0).to_string()
    }

    /// The tile is approved in just so many cells, and this is reported.
    fn packed(begun: &str, elements: u64, reported: [u64; 2]) {
        let [lbo, sbo] = reported;
        assert_eq!(
            said(&format!("{begun} {elements} {elements}")),
            format!("0 {elements} {elements} {elements} | {lbo} {sbo}")
        );
    }

    #[test]
    fn packed_mn_major_tiles_of_every_width() {
        for bits in ELEMENT_BITS {
            for mode in 0..4 {
                let elements = (32 << mode) * 128 / bits;
                let block: u64 = 128 << mode;
                for (lbo, sbo) in [(block, 2 * block), (2 * block, block)] {
                    let begun = format!("canonical 1 {mode} {bits} 2 2 {lbo} {sbo}");
                    packed(&begun, elements, [lbo / 16, sbo / 16]);
                }
            }
        }
    }

    #[test]
    fn packed_k_major_tiles_of_every_width() {
        for bits in ELEMENT_BITS {
            let t = 128 / bits;
            for (lbo, sbo) in [(256, 128), (128, 512)] {
                let begun = format!("canonical 0 0 {bits} 2 2 {lbo} {sbo}");
                packed(&begun, 64 * t, [lbo / 16, sbo / 16]);
            }
            // As many columns of 16 bytes as the mode is wide, and more: the
            // first of these are the next row's first.
            for (mode, k) in [(1, 1), (2, 2), (3, 4)] {
                let sbo = 128 << mode;
                let begun = format!("canonical 0 {mode} {bits} 2 {k} 7 {sbo}");
                packed(&begun, 32 * k * t, [1, sbo / 16]);
                let (x, y) = (2 * k * t, 2 * (k + 1) * t);
                let cell = swizzled(*bits, mode, x);
                let line = format!("canonical 0 {mode} {bits} 2 {} 7 {sbo} 9999 9999", k + 1);
                assert_eq!(said(&line), format!("8 {x} {y} {cell} | 0 0"));
            }
        }
    }

    fn swizzled(bits: u64, mode: u64, address: u64) -> u64 {
        from_mode(bits, mode).unwrap().apply(address)
    }

    #[test]
    fn bits_and_mode_are_judged_first() {
        let refused = |line: &str| says(line, &format!("6 0 0 0 | 0 0 {}", untouched(9)));
        refused("canonical 0 4 32 2 2 256 128 256 9");
        refused("canonical 0 0 24 2 2 256 128 256 9");
        refused("canonical 2 4 32 0 9 1 262144 0 9");
        refused("canonical 18446744073709551615 0 0 0 0 1 1 0 9");
        refused("canonical 1 18446744073709551615 16 2 2 256 128 256 9");
    }

    #[test]
    fn each_reason_of_22_alone() {
        let refused = |line: &str| says(line, &format!("22 0 0 0 | 0 0 {}", untouched(256)));
        refused("canonical 2 0 32 2 2 256 128 256 256");
        refused("canonical 18446744073709551615 0 32 2 2 256 128 256 256");
        refused("canonical 0 0 32 0 2 256 128 256 256");
        refused("canonical 0 0 32 9 2 256 128 256 256");
        refused("canonical 0 0 32 2 0 256 128 256 256");
        refused("canonical 0 0 32 2 9 256 128 256 256");
        refused("canonical 0 0 32 2 2 264 128 256 256");
        refused("canonical 0 0 32 2 2 256 129 256 256");
        refused("canonical 0 0 32 2 2 262144 128 256 256");
        refused("canonical 0 0 32 2 2 256 262144 256 256");
        // Before the verdict's own refusals, and where m is 1 as well.
        refused("canonical 1 3 4 1 8 1024 8 0 256");
        refused("canonical 0 3 16 1 1 0 8 64 256");
        refused("canonical 1 1 16 1 2 8 256 256 256");
    }

    #[test]
    fn only_a_used_lbo_is_looked_at() {
        for lbo in [0, 1, 8, 262_144, 1 << 63, u64::MAX] {
            for mode in 1..4 {
                let block = 128 << mode;
                let line =
                    |major: u64| format!("canonical {major} {mode} 128 2 1 {lbo} {block} 256 256");
                let reported = format!(" | 1 {}", block / 16);
                assert!(said(&line(0)).ends_with(&reported), "{lbo} {mode}");
                let number = if lbo == 0 { "8 " } else { "22 " };
                assert!(said(&line(1)).starts_with(number), "{lbo} {mode}");
            }
            let number = if lbo == 0 { "8 " } else { "22 " };
            let line = format!("canonical 0 0 128 2 1 {lbo} 128 256 256");
            assert!(said(&line).starts_with(number), "{lbo}");
        }
    }

    #[test]
    fn a_stride_of_0_is_allowed() {
        // Where m or k is 1 it moves nothing.
        assert_eq!(
            said("canonical 0 3 16 1 4 0 0 512 512"),
            "0 512 512 512 | 1 0"
        );
        assert_eq!(said("canonical 1 0 16 1 1 0 0 64 64"), "0 64 64 64 | 0 0");
        assert_eq!(
            said("canonical 1 2 16 1 2 0 512 512 512"),
            "0 512 512 512 | 0 32"
        );
        assert_eq!(said("canonical 0 3 16 2 4 0 0 512 512"), "8 0 512 0 | 0 0");
    }

    #[test]
    fn refusals_of_the_verdict() {
        // Strides in elements above 65,535, even where m is 1, then 4, then 5.
        assert_eq!(said("canonical 1 1 4 1 1 32768 0 0 0"), "2 0 0 0 | 0 0");
        assert_eq!(said("canonical 1 1 8 1 1 65536 0 0 0"), "2 0 0 0 | 0 0");
        assert_eq!(said("canonical 1 1 16 1 1 0 131072 0 0"), "2 0 0 0 | 0 0");
        assert_eq!(said("canonical 1 1 16 1 1 0 131056 0 0"), "4 0 0 0 | 0 0");
        assert_eq!(
            said("canonical 1 3 4 5 7 262128 0 65537 0"),
            "2 0 0 0 | 0 0"
        );
        assert_eq!(said("canonical 1 3 4 5 7 0 0 65537 0"), "4 0 0 0 | 0 0");
        assert_eq!(said("canonical 1 3 4 5 7 0 0 65536 0"), "5 0 0 0 | 0 0");
        assert_eq!(
            said("canonical 1 3 4 4 8 0 0 65536 0"),
            "11 65536 0 0 | 0 0"
        );
        // 32 bits and more never reach the limit of strides.
        assert_eq!(
            said("canonical 1 1 32 1 1 262128 262128 64 64"),
            "0 64 64 64 | 16383 16383"
        );
        assert_eq!(
            said("canonical 1 1 32 2 1 262128 262128 64 64"),
            "7 64 7 0 | 0 0"
        );
    }

    #[test]
    fn what_a_refusal_leaves() {
        let after = |numbers| judged(numbers).1;
        let figure = [0, 0, 32, 2, 2, 256, 128];
        let with = |length_of_m: u64, length: u64| {
            let mut numbers = [0; 9];
            numbers[..7].copy_from_slice(&figure);
            (numbers[7], numbers[8]) = (length_of_m, length);
            numbers
        };
        assert_eq!(judged(with(256, 255)), (Err(11), lent_entries(255)));
        assert_eq!(judged(with(0, 9)), (Err(4), lent_entries(9)));
        assert_eq!(judged(with(65_537, 9)), (Err(4), lent_entries(9)));
        let table = after(with(255, 260));
        assert!(table[..255].iter().all(|entry| *entry == 0));
        assert_eq!(table[255..], lent_entries(260)[255..]);
        let table = after([0, 1, 32, 2, 2, 0, 256, 256, 300]);
        assert!(table[..256].iter().all(|entry| *entry == 0));
        assert_eq!(table[256..], lent_entries(300)[256..]);
        let table = after(with(300, 310));
        assert_eq!((table[255], table[256], table[299]), (256, 0, 0));
        assert_eq!(table[300..], lent_entries(310)[300..]);
    }

    #[test]
    fn no_questions() {
        for line in [
            "canonical",
            "canonical 0 0 32 2 2 256 128 256",
            "canonical 0 0 32 2 2 256 128 256 256 0",
            "canonical 0 0 32 2 2 256 128 256 16385",
            "canonical 0 0 32 2 2 256 -128 256 256",
            "canonical 0 1 32 2 1 -16 256 256 256",
            "canonical 0 1 32 2 1 18446744073709551616 256 256 256",
            "canonical 9 9 9 9 9 9 9 9 16385",
        ] {
            says(line, "?");
        }
        let line = b"canonical 0 0 32 2 2 256 128 256 16385";
        let said = answer_line(line, 16_385).unwrap_or_default();
        assert!(said.starts_with("0 256 256 256 | 16 8 "));
    }
}
