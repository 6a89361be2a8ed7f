//! Zero-column masks and their descriptors (document 003, with document 01's
//! reading of the spans: the examples decide).

use crate::lines::Answer;

/// Refusals.
const WRONG_M_OR_N: u64 = 13;
const RESERVED_BITS: u64 = 15;
const SHIFT_ABOVE_LIMIT: u64 = 16;
const TOO_SHORT: u64 = 11;

/// The program lends at most so many bytes to a mask.
const MOST_BYTES: u64 = 64;

/// What a lent byte is before the question.
const LENT_BYTE: u64 = 165;

fn permitted_m(m: u64) -> bool {
    [128, 64, 32].contains(&m)
}

/// The limit on the shift, for a permitted M.
fn most_shift(m: u64) -> u64 {
    match m {
        32 => 16,
        _ => 32,
    }
}

#[derive(Clone, Copy, Debug, Default, PartialEq, Eq)]
pub struct Fields {
    pub start_counts: [u64; 4],
    pub first_spans: [u64; 4],
    pub non_zero_mask: u64,
    pub skip_span: u64,
    pub use_span: u64,
    pub shift: u64,
}

impl Fields {
    /// The twelve numbers in the protocol's order.
    pub fn numbers(&self) -> Vec<u64> {
        let rest = [
            self.non_zero_mask,
            self.skip_span,
            self.use_span,
            self.shift,
        ];
        [&self.start_counts[..], &self.first_spans, &rest].concat()
    }

    /// The fields, unless there are not twelve numbers.
    fn of(numbers: &[u64]) -> Option<Fields> {
        let &[s0, s1, s2, s3, f0, f1, f2, f3, non_zero_mask, skip_span, use_span, shift] = numbers
        else {
            return None;
        };
        Some(Fields {
            start_counts: [s0, s1, s2, s3],
            first_spans: [f0, f1, f2, f3],
            non_zero_mask,
            skip_span,
            use_span,
            shift,
        })
    }

    /// The fields of a descriptor, whatever its reserved bits.
    fn read(descriptor: u64) -> Fields {
        let bits = |first: u64, size: u64| descriptor >> first & ((1 << size) - 1);
        Fields {
            start_counts: [bits(0, 8), bits(8, 8), bits(16, 8), bits(24, 8)],
            first_spans: [bits(32, 1), bits(33, 1), bits(34, 1), bits(35, 1)],
            non_zero_mask: bits(39, 1),
            skip_span: bits(40, 8),
            use_span: bits(48, 8),
            shift: bits(56, 6),
        }
    }

    /// The descriptor of fields that fit their places; reserved bits clear.
    pub fn write(&self) -> u64 {
        let mut descriptor = 0;
        for i in 0..4 {
            descriptor |= self.start_counts[i] << (8 * i);
            descriptor |= self.first_spans[i] << (32 + i);
        }
        descriptor |= self.non_zero_mask << 39;
        descriptor |= self.skip_span << 40;
        descriptor |= self.use_span << 48;
        descriptor | self.shift << 56
    }

    /// Counts and spans are bytes, one-bit fields 0 or 1, the shift any.
    fn within_the_program(&self) -> bool {
        let bytes = [self.skip_span, self.use_span];
        let flags = [self.non_zero_mask];
        self.start_counts.iter().chain(&bytes).all(|n| *n <= 255)
            && self.first_spans.iter().chain(&flags).all(|n| *n <= 1)
    }
}

/// Whether bits 36-38 or 62-63 are set.
fn reserved_bits_set(descriptor: u64) -> bool {
    [36, 37, 38, 62, 63]
        .iter()
        .any(|bit| descriptor >> bit & 1 == 1)
}

pub fn answer_fields(numbers: &[u64]) -> Option<Answer> {
    let &[descriptor] = numbers else { return None };
    let (number, fields) = match reserved_bits_set(descriptor) {
        true => (RESERVED_BITS, Fields::default()),
        false => (0, Fields::read(descriptor)),
    };
    Some(Answer::beside(number, [0; 3], &fields.numbers()))
}

/// M, then the twelve fields: refusals 13, 16.
pub fn answer_descriptor(numbers: &[u64]) -> Option<Answer> {
    let (&m, fields) = numbers.split_first()?;
    let fields = Fields::of(fields).filter(Fields::within_the_program)?;
    Some(if !permitted_m(m) {
        Answer::plain(WRONG_M_OR_N, [0; 3])
    } else if fields.shift > most_shift(m) {
        Answer::plain(SHIFT_ABOVE_LIMIT, [most_shift(m), 0, 0])
    } else {
        Answer::plain(0, [fields.write(), 0, 0])
    })
}

/// The first bits of one sub-mask: the endless pattern is written down run by
/// run, the start count drops its leading columns.
fn sub_mask(fields: &Fields, which: usize, size: usize) -> Vec<bool> {
    let dropped = fields.start_counts[which] as usize;
    let mut set = fields.first_spans[which] == 1;
    let mut pattern = Vec::new();
    while pattern.len() < dropped + size {
        let span = if set {
            fields.skip_span
        } else {
            fields.use_span
        };
        pattern.extend(vec![set; span as usize + 1]);
        set = !set;
    }
    pattern[dropped..dropped + size].to_vec()
}

/// All the mask's bits, for a permitted M and N.
fn mask_bits(m: u64, n: u64, fields: &Fields) -> Vec<bool> {
    if fields.non_zero_mask == 0 {
        return vec![false; n as usize];
    }
    let sub_masks = 128 / m as usize;
    let size = n as usize / sub_masks;
    (0..sub_masks)
        .flat_map(|which| sub_mask(fields, which, size))
        .collect()
}

/// Number and details of refusal, if the mask is refused.
fn mask_refusal(m: u64, n: u64, descriptor: u64, length: u64) -> Option<(u64, u64)> {
    let multiple_of_8 = (1..=32).any(|k| n == 8 * k);
    if !permitted_m(m) || !multiple_of_8 {
        Some((WRONG_M_OR_N, 0))
    } else if reserved_bits_set(descriptor) {
        Some((RESERVED_BITS, 0))
    } else if Fields::read(descriptor).shift > most_shift(m) {
        Some((SHIFT_ABOVE_LIMIT, most_shift(m)))
    } else if length < n / 8 {
        Some((TOO_SHORT, n / 8))
    } else {
        None
    }
}

pub fn answer_mask(numbers: &[u64]) -> Option<Answer> {
    let &[m, n, descriptor, length] = numbers else {
        return None;
    };
    if length > MOST_BYTES {
        return None;
    }
    let mut bytes = vec![LENT_BYTE; length as usize];
    if let Some((number, detail)) = mask_refusal(m, n, descriptor, length) {
        return Some(Answer::beside(number, [detail, 0, 0], &bytes));
    }
    let bits = mask_bits(m, n, &Fields::read(descriptor));
    for (at, eight) in bits.chunks(8).enumerate() {
        bytes[at] = (0..8).map(|bit| u64::from(eight[bit]) << bit).sum();
    }
    let zeroed = bits.iter().filter(|bit| **bit).count();
    let first_used = bits.iter().position(|bit| !bit).unwrap_or(bits.len());
    let details = [zeroed as u64, first_used as u64, 0];
    Some(Answer::beside(0, details, &bytes))
}

#[cfg(test)]
mod tests {
    use super::*;
    use crate::lines::says;
    use crate::loads::random::Random;
    use crate::loads::small::random_fields;

    /// The bits of a mask, highest first, as 003 prints them.
    fn printed(bits: &[bool]) -> String {
        bits.iter()
            .rev()
            .map(|bit| if *bit { '1' } else { '0' })
            .collect()
    }

    #[test]
    fn the_page() {
        says(
            "mask 32 32 144962374686867712 4",
            "0 14 3 0 | 135 195 28 56",
        );
        says("mask 128 8 0 0", "11 1 0 0 |");
        says("fields 68719476736", "15 0 0 0 | 0 0 0 0 0 0 0 0 0 0 0 0");
    }

    #[test]
    fn the_sheet() {
        let line = format!("mask 32 32 {} 4", 0x0203028301020100u64);
        says(&line, "0 14 3 0 | 135 195 28 56");
        says(
            &format!("fields {}", 0x0203028301020100u64),
            "0 0 0 0 | 0 1 2 1 1 1 0 0 1 2 3 2",
        );
        says("descriptor 64 0 0 0 0 0 0 0 0 1 2 3 0", &{
            let wanted = 1u64 << 39 | 2 << 40 | 3 << 48;
            format!("0 {wanted} 0 0")
        });
        let descriptor = 1u64 << 39 | 2 << 40 | 3 << 48;
        says(&format!("mask 128 16 {descriptor} 2"), "0 6 0 0 | 112 56");
        says(
            &format!("mask 128 16 {} 3", descriptor | 32 << 56),
            "0 6 0 0 | 112 56 165",
        );
        says(
            &format!("mask 128 16 {} 3", descriptor | 33 << 56),
            "16 32 0 0 | 165 165 165",
        );
    }

    #[test]
    fn the_examples_of_003() {
        let spans = Fields {
            skip_span: 2,
            use_span: 3,
            non_zero_mask: 1,
            ..Fields::default()
        };
        assert_eq!(printed(&sub_mask(&spans, 0, 14)), "11100001110000");
        let third = Fields {
            first_spans: [1, 0, 0, 0],
            ..spans
        };
        assert_eq!(printed(&sub_mask(&third, 0, 17)), "11100001110000111");
        assert_eq!(printed(&sub_mask(&third, 1, 18)), "000011100001110000");
        let fourth = Fields {
            start_counts: [0, 1, 2, 1],
            first_spans: [1, 1, 0, 0],
            shift: 2,
            ..spans
        };
        assert_eq!(printed(&sub_mask(&fourth, 0, 14)), "00001110000111");
        assert_eq!(printed(&sub_mask(&fourth, 1, 13)), "0000111000011");
        assert_eq!(printed(&sub_mask(&fourth, 2, 12)), "111000011100");
        assert_eq!(printed(&sub_mask(&fourth, 3, 13)), "1110000111000");
    }

    #[test]
    fn order_of_the_refusals() {
        let all_wrong = u64::MAX;
        let shift = 33u64 << 56;
        says(&format!("mask 31 8 {all_wrong} 0"), "13 0 0 0 |");
        says(&format!("mask 32 264 {all_wrong} 1"), "13 0 0 0 | 165");
        says(&format!("mask 32 256 {all_wrong} 0"), "15 0 0 0 |");
        says(&format!("mask 32 256 {shift} 0"), "16 16 0 0 |");
        says(&format!("mask 64 256 {shift} 0"), "16 32 0 0 |");
        says("mask 32 256 0 31", &{
            let bytes = " 165".repeat(31);
            format!("11 32 0 0 |{bytes}")
        });
        says("mask 32 8 0 65", "?");
        says("descriptor 64 0 0 0 0 0 0 0 0 0 0 0 33", "16 32 0 0");
        says("descriptor 31 0 0 0 0 0 0 0 0 0 0 0 33", "13 0 0 0");
        says("descriptor 31 256 0 0 0 0 0 0 0 0 0 0 33", "?");
        says("descriptor 64 0 0 0 0 0 0 0 2 0 0 0 0", "?");
        says("descriptor 0 0 0 0 0 0 0 0 0 0 0 0", "?");
    }

    #[test]
    fn the_limit_on_the_shift_is_of_m() {
        for (m, limit) in [(32u64, 16u64), (64, 32), (128, 32)] {
            for shift in 0..64 {
                let refused = format!("16 {limit} 0 0");
                let (written, masked) = match shift <= limit {
                    true => (format!("0 {} 0 0", shift << 56), "0 0 0 0 | 0"),
                    false => (refused.clone(), &*format!("{refused} | 165")),
                };
                let line = format!("descriptor {m} 0 0 0 0 0 0 0 0 0 0 0 {shift}");
                says(&line, &written);
                says(&format!("mask {m} 8 {} 1", shift << 56), masked);
                let fields = format!("0 0 0 0 | 0 0 0 0 0 0 0 0 0 0 0 {shift}");
                says(&format!("fields {}", shift << 56), &fields);
            }
            let line = format!("descriptor {m} 0 0 0 0 0 0 0 0 0 0 0 {}", u64::MAX);
            says(&line, &format!("16 {limit} 0 0"));
        }
    }

    #[test]
    fn a_wrong_m_comes_before_the_shift() {
        for m in [0, 1, 16, 31, 33, 63, 65, 127, 129, (1 << 32) + 32, u64::MAX] {
            for shift in [0, 17, 33, u64::MAX] {
                let line = format!("descriptor {m} 0 0 0 0 0 0 0 0 0 0 0 {shift}");
                says(&line, "13 0 0 0");
            }
            says(&format!("mask {m} 8 {} 1", 33u64 << 56), "13 0 0 0 | 165");
        }
    }

    #[test]
    fn one_column_at_a_time() {
        let mut random = Random::new(3);
        for _ in 0..2_000 {
            let fields = random_fields(&mut random);
            let which = random.index(4);
            let (ones, zeros) = (fields.skip_span + 1, fields.use_span + 1);
            for (p, bit) in sub_mask(&fields, which, 256).iter().enumerate() {
                let at = (fields.start_counts[which] + p as u64) % (ones + zeros);
                let wanted = match fields.first_spans[which] {
                    1 => at < ones,
                    _ => at >= zeros,
                };
                assert_eq!(*bit, wanted);
            }
        }
    }

    #[test]
    fn writing_and_reading_undo_each_other() {
        let mut random = Random::new(33);
        for _ in 0..5_000 {
            let fields = random_fields(&mut random);
            assert!(fields.within_the_program());
            assert_eq!(Fields::read(fields.write()), fields);
            assert_eq!(Fields::of(&fields.numbers()), Some(fields));
            assert!(!reserved_bits_set(fields.write()));
        }
    }
}
