//! Who holds what in a warp: the m8n8k4 fragments of document 002, written
//! as its formulas stand, and searched when asked the other way.

use crate::lines::Answer;

/// Refusal: unknown kind, or something outside it.
pub const OUTSIDE_FRAGMENT: u64 = 14;

pub const LANES: u64 = 32;

/// Where a lane's register lies.
#[derive(Clone, Copy, Debug, PartialEq, Eq, PartialOrd, Ord)]
pub struct Place {
    pub computation: u64,
    pub row: u64,
    pub column: u64,
}

/// How many registers a lane has of this kind; none for an unknown kind.
pub fn registers(kind: u64) -> Option<u64> {
    match kind {
        0..=3 => Some(4),
        4 | 5 => Some(8),
        6 | 7 => Some(1),
        8 => Some(2),
        _ => None,
    }
}

/// The computation a lane works for: of the .f16 kinds, lanes 0-3 and 16-19
/// the first, 4-7 and 20-23 the second and so on; of .f64 there is one.
fn computation(kind: u64, lane: u64) -> u64 {
    match kind {
        0..=5 => match lane {
            0..=3 | 16..=19 => 0,
            4..=7 | 20..=23 => 1,
            8..=11 | 24..=27 => 2,
            _ => 3,
        },
        _ => 0,
    }
}

/// Row and column, each as 002 computes it. `i` is the register.
fn row_and_column(kind: u64, lane: u64, i: u64) -> (u64, u64) {
    let low_group = lane < 16;
    let and_four_if_high = |number: u64| if low_group { number } else { number + 4 };
    match kind {
        0 => (and_four_if_high(lane % 4), i),
        1 => (and_four_if_high(i % 4), lane % 4),
        2 => (lane % 4, and_four_if_high(i)),
        3 => (i, and_four_if_high(lane % 4)),
        4 => (and_four_if_high(lane % 4), i),
        5 => {
            let x = (lane & 0b1) + (i & 0b10);
            (and_four_if_high(x), (i & 0b100) + (lane & 0b10) + (i & 0b1))
        }
        6 => (lane >> 2, lane % 4),
        7 => (lane % 4, lane >> 2),
        _ => (lane >> 2, (lane % 4) * 2 + (i & 1)),
    }
}

/// The place of a lane's register, unless one of the numbers is outside.
pub fn place(kind: u64, lane: u64, register: u64) -> Option<Place> {
    if lane >= LANES || register >= registers(kind)? {
        return None;
    }
    let (row, column) = row_and_column(kind, lane, register);
    Some(Place {
        computation: computation(kind, lane),
        row,
        column,
    })
}

/// The lane and register that hold a place, found by looking at all of them.
pub fn holder(kind: u64, wanted: Place) -> Option<(u64, u64)> {
    let count = registers(kind)?;
    let all = (0..LANES).flat_map(|lane| (0..count).map(move |register| (lane, register)));
    all.into_iter()
        .find(|(lane, register)| place(kind, *lane, *register) == Some(wanted))
}

pub fn answer_fragment(numbers: &[u64]) -> Option<Answer> {
    let &[kind, lane, register] = numbers else {
        return None;
    };
    Some(match place(kind, lane, register) {
        Some(at) => Answer::plain(0, [at.computation, at.row, at.column]),
        None => Answer::plain(OUTSIDE_FRAGMENT, [0; 3]),
    })
}

pub fn answer_holder(numbers: &[u64]) -> Option<Answer> {
    let &[kind, computation, row, column] = numbers else {
        return None;
    };
    let wanted = Place {
        computation,
        row,
        column,
    };
    Some(match holder(kind, wanted) {
        Some((lane, register)) => Answer::plain(0, [lane, register, 0]),
        None => Answer::plain(OUTSIDE_FRAGMENT, [0; 3]),
    })
}

#[cfg(test)]
mod tests {
    use super::*;
    use crate::lines::says;
    use std::collections::BTreeSet;

    #[test]
    fn the_sheet() {
        says("fragment 5 5 6", "0 1 3 4");
        says("fragment 5 18 3", "0 0 6 3");
        says("holder 5 1 3 4", "0 5 6 0");
        says("holder 5 0 6 3", "0 18 3 0");
    }

    #[test]
    fn edges() {
        says("fragment 9 0 0", "14 0 0 0");
        says("fragment 0 32 0", "14 0 0 0");
        says("fragment 0 31 4", "14 0 0 0");
        says("fragment 6 31 1", "14 0 0 0");
        says("fragment 8 31 1", "0 0 7 7");
        says("holder 6 1 0 0", "14 0 0 0");
        says("holder 0 3 7 4", "14 0 0 0");
        says("holder 0 3 7 3", "0 31 3 0");
        says("holder 2 0 4 0", "14 0 0 0");
    }

    /// Document 01's table, which says the same in other words.
    fn by_the_table(kind: u64, lane: u64, i: u64) -> [u64; 3] {
        let q = lane % 4;
        let h = if lane >= 16 { 4 } else { 0 };
        let (row, column) = match kind {
            0 | 4 => (q + h, i),
            1 => (i + h, q),
            2 => (q, i + h),
            3 => (i, q + h),
            5 => ((lane & 1) + (i & 2) + h, (i & 4) + (lane & 2) + (i & 1)),
            6 => (lane / 4, q),
            7 => (q, lane / 4),
            _ => (lane / 4, 2 * q + i),
        };
        let computation = if kind < 6 { (lane % 16) / 4 } else { 0 };
        [computation, row, column]
    }

    #[test]
    fn the_table_of_document_01_and_both_ways() {
        let sizes = [128, 128, 128, 128, 256, 256, 32, 32, 64];
        for (kind, size) in (0..).zip(sizes) {
            let mut places = BTreeSet::new();
            for lane in 0..LANES {
                for register in 0..registers(kind).unwrap_or(0) {
                    let found = place(kind, lane, register).unwrap();
                    let as_numbers = [found.computation, found.row, found.column];
                    assert_eq!(as_numbers, by_the_table(kind, lane, register));
                    assert_eq!(holder(kind, found), Some((lane, register)));
                    places.insert(found);
                }
            }
            assert_eq!(places.len(), size);
        }
    }
}
