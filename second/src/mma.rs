//! The further kinds of fragments, written as PTX's rules stand, and searched
//! when asked the other way. A kind's layout is read off its holders, step by
//! step.

use crate::fragment::{LANES, OUTSIDE_FRAGMENT};
use crate::layout::{Card, Iter, M_AXIS};
use crate::lines::{Answer, Number};
use crate::notation::{written, EMPTY};

/// Matrix, row and column of an element.
type Place = [u64; 3];

/// The warp, the lane of the warp and the register that hold an element.
type Held = [u64; 3];

/// The place by the warp w, the group g = lane / 4, the lane's number in its
/// group t = lane % 4, and the register i.
type Rule = fn(w: u64, g: u64, t: u64, i: u64) -> Place;

struct Kind {
    /// Matrices, rows and columns.
    sizes: [u64; 3],
    warps: u64,
    registers: u64,
    rule: Rule,
}

/// The kinds with a number of their own: number; matrices, warps, registers,
/// rows, columns; rule. A line each, so that it lies beside the papers' line.
#[rustfmt::skip]
const ROWS: &[(u64, [u64; 5], Rule)] = &[
    // m16n8k8 .f16 and .bf16, A and B; C and D of every m16n8
    (9,  [1, 1,  4, 16,  8], |_, g, t, i| [0, g + 8 * (i / 2), 2 * t + i % 2]),
    (10, [1, 1,  2,  8,  8], |_, g, t, i| [0, 2 * t + i, g]),
    (11, [1, 1,  4, 16,  8], |_, g, t, i| [0, g + 8 * (i / 2), 2 * t + i % 2]),
    // m16n8k16 .f16 and .bf16, A and B
    (12, [1, 1,  8, 16, 16], |_, g, t, i| [0, g + 8 * (i / 2 % 2), 2 * t + i % 2 + 8 * (i / 4)]),
    (13, [1, 1,  4, 16,  8], |_, g, t, i| [0, 2 * t + i % 2 + 8 * (i / 2), g]),
    // m16n8k4 and m16n8k8 .tf32, A and B of each
    (14, [1, 1,  2, 16,  4], |_, g, t, i| [0, g + 8 * i, t]),
    (15, [1, 1,  1,  4,  8], |_, g, t, _| [0, t, g]),
    (16, [1, 1,  4, 16,  8], |_, g, t, i| [0, g + 8 * (i % 2), t + 4 * (i / 2)]),
    (17, [1, 1,  2,  8,  8], |_, g, t, i| [0, t + 4 * i, g]),
    // m8n8k16 .s8 and .u8, A and B; C and D of every m8n8 .s32
    (18, [1, 1,  4,  8, 16], |_, g, t, i| [0, g, 4 * t + i]),
    (19, [1, 1,  4, 16,  8], |_, g, t, i| [0, 4 * t + i, g]),
    (20, [1, 1,  2,  8,  8], |_, g, t, i| [0, g, 2 * t + i]),
    // m16n8k16 and m16n8k32 .s8 and .u8, A and B of each
    (21, [1, 1,  8, 16, 16], |_, g, t, i| [0, g + 8 * (i / 4), 4 * t + i % 4]),
    (22, [1, 1,  4, 16,  8], |_, g, t, i| [0, 4 * t + i, g]),
    (23, [1, 1, 16, 16, 32], |_, g, t, i| [0, g + 8 * (i / 4 % 2), 4 * t + i % 4 + 16 * (i / 8)]),
    (24, [1, 1,  8, 32,  8], |_, g, t, i| [0, 4 * t + i % 4 + 16 * (i / 4), g]),
    // m8n8k32, m16n8k32 and m16n8k64 .s4 and .u4, A and B of each
    (25, [1, 1,  8,  8, 32], |_, g, t, i| [0, g, 8 * t + i]),
    (26, [1, 1,  8, 32,  8], |_, g, t, i| [0, 8 * t + i, g]),
    (27, [1, 1, 16, 16, 32], |_, g, t, i| [0, g + 8 * (i / 8), 8 * t + i % 8]),
    (28, [1, 1,  8, 32,  8], |_, g, t, i| [0, 8 * t + i, g]),
    (29, [1, 1, 32, 16, 64], |_, g, t, i| [0, g + 8 * (i / 8 % 2), 8 * t + i % 8 + 32 * (i / 16)]),
    (30, [1, 1, 16, 64,  8], |_, g, t, i| [0, 8 * t + i % 8 + 32 * (i / 8), g]),
    // m16n8k4, m16n8k8 and m16n8k16 .f64, A and B of each
    (31, [1, 1,  2, 16,  4], |_, g, t, i| [0, g + 8 * i, t]),
    (32, [1, 1,  1,  4,  8], |_, g, t, _| [0, t, g]),
    (33, [1, 1,  4, 16,  8], |_, g, t, i| [0, g + 8 * (i % 2), t + 4 * (i / 2)]),
    (34, [1, 1,  2,  8,  8], |_, g, t, i| [0, t + 4 * i, g]),
    (35, [1, 1,  8, 16, 16], |_, g, t, i| [0, g + 8 * (i % 2), t + 4 * (i / 2)]),
    (36, [1, 1,  4, 16,  8], |_, g, t, i| [0, t + 4 * i, g]),
    // wgmma, A in registers: m64k16 .f16 and .bf16, m64k8 .tf32, m64k32 .s8 and .u8
    (37, [1, 4,  8, 64, 16], |w, g, t, i| [0, 16 * w + g + 8 * (i / 2 % 2), 2 * t + i % 2 + 8 * (i / 4)]),
    (38, [1, 4,  4, 64,  8], |w, g, t, i| [0, 16 * w + g + 8 * (i % 2), t + 4 * (i / 2)]),
    (39, [1, 4, 16, 64, 32], |w, g, t, i| [0, 16 * w + g + 8 * (i / 4 % 2), 4 * t + i % 4 + 16 * (i / 8)]),
    // ldmatrix and stmatrix m8n8 .b16: .x1, .x2 and .x4, each plain and .trans
    (40, [1, 1,  2,  8,  8], |_, g, t, i| [0, g, 2 * t + i]),
    (41, [1, 1,  2,  8,  8], |_, g, t, i| [0, 2 * t + i, g]),
    (42, [2, 1,  4,  8,  8], |_, g, t, i| [i / 2, g, 2 * t + i % 2]),
    (43, [2, 1,  4,  8,  8], |_, g, t, i| [i / 2, 2 * t + i % 2, g]),
    (44, [4, 1,  8,  8,  8], |_, g, t, i| [i / 2, g, 2 * t + i % 2]),
    (45, [4, 1,  8,  8,  8], |_, g, t, i| [i / 2, 2 * t + i % 2, g]),
];

/// D of wgmma m64nN is kind 1000 + N, N = 8, 16, .. 256, by one rule.
const ACCUMULATORS: u64 = 1_000;
const MOST_N: u64 = 256;

fn accumulator(n: u64) -> Option<Kind> {
    let admitted = (8..=MOST_N).contains(&n) && n % 8 == 0;
    let rule: Rule = |w, g, t, i| {
        let row = 16 * w + g + 8 * (i / 2 % 2);
        [0, row, 8 * (i / 4) + 2 * t + i % 2]
    };
    admitted.then(|| Kind::new([1, 4, n / 2, 64, n], rule))
}

impl Kind {
    fn new([matrices, warps, registers, rows, columns]: [u64; 5], rule: Rule) -> Kind {
        Kind {
            sizes: [matrices, rows, columns],
            warps,
            registers,
            rule,
        }
    }

    /// The kind of this number; none where it is none of these.
    fn of(number: u64) -> Option<Kind> {
        match ROWS.iter().find(|row| row.0 == number) {
            Some((_, numbers, rule)) => Some(Kind::new(*numbers, *rule)),
            None => accumulator(number.checked_sub(ACCUMULATORS)?),
        }
    }

    /// What is held here, unless one of the numbers is outside.
    fn place(&self, [warp, lane, register]: Held) -> Option<Place> {
        let inside = warp < self.warps && lane < LANES && register < self.registers;
        inside.then(|| (self.rule)(warp, lane / 4, lane % 4, register))
    }

    /// Every register of every lane of every warp.
    fn all(&self) -> impl Iterator<Item = Held> + '_ {
        let lanes = (0..self.warps).flat_map(|warp| (0..LANES).map(move |lane| (warp, lane)));
        lanes.flat_map(|(warp, lane)| (0..self.registers).map(move |i| [warp, lane, i]))
    }

    /// Who holds a place, found by looking at all of them.
    fn holder(&self, wanted: Place) -> Option<Held> {
        self.all().find(|held| self.place(*held) == Some(wanted))
    }

    /// Who holds what lies along one of matrix, row and column, from its
    /// first on; the other two are 0.
    fn along(&self, dimension: usize) -> Option<Vec<Held>> {
        let held = |at: u64| {
            let mut place = [0; 3];
            place[dimension] = at;
            self.holder(place)
        };
        (0..self.sizes[dimension]).map(held).collect()
    }

    /// The layout: its elements are the places, row-major over matrix, row
    /// and column, and its cells the registers.
    fn card(&self) -> Option<Card> {
        let mut shard = Vec::new();
        for dimension in 0..3 {
            shard.extend(iters(&self.along(dimension)?));
        }
        let mut card = EMPTY;
        card.shard_count = shard.len() as u64;
        for (slot, iter) in card.shard_slots.iter_mut().zip(shard) {
            *slot = iter;
        }
        let lengths = [self.warps, LANES, self.registers];
        for (axis, length) in HELD_AXES.into_iter().zip(lengths) {
            card.space[axis] = length;
        }
        Some(card)
    }
}

/// The axes of warp, lane and register: warpid, laneid and m.
const HELD_AXES: [usize; 3] = [1, 2, M_AXIS];

/// How far it is from one holder to another, for each of the three.
fn step(from: Held, to: Held) -> [Number; 3] {
    std::array::from_fn(|k| Number::from(to[k]) - Number::from(from[k]))
}

/// The iters that lead along these holders, from slow to fast. The fastest is
/// found first: it goes on while each step is its first step again; where the
/// step changes it ends, and what it spans is what the next one steps over.
fn iters(held: &[Held]) -> Vec<Iter> {
    let mut iters = Vec::new();
    let mut span = 1;
    while span < held.len() {
        let first = step(held[0], held[span]);
        let ends = held.iter().step_by(span);
        let pairs = ends.clone().zip(ends.skip(1));
        let alike = pairs.take_while(|(from, to)| step(**from, **to) == first);
        // One more than its steps, of which there is at least the first.
        let extent = alike.count() + 1;
        iters.insert(0, iter(extent, first));
        span *= extent;
    }
    iters
}

/// An iter with this step, which is along one axis alone.
fn iter(extent: usize, step: [Number; 3]) -> Iter {
    let k = step.iter().position(|length| *length != 0).unwrap_or(0);
    Iter {
        extent: extent as u64,
        stride: step[k],
        axis: HELD_AXES[k] as u64,
    }
}

fn three_or_outside(found: Option<[u64; 3]>) -> Answer {
    match found {
        Some(three) => Answer::plain(0, three),
        None => Answer::plain(OUTSIDE_FRAGMENT, [0; 3]),
    }
}

pub fn answer_mma(numbers: &[u64]) -> Option<Answer> {
    let &[kind, warp, lane, register] = numbers else {
        return None;
    };
    let held = [warp, lane, register];
    let place = Kind::of(kind).and_then(|kind| kind.place(held));
    Some(three_or_outside(place))
}

pub fn answer_holder(numbers: &[u64]) -> Option<Answer> {
    let &[kind, matrix, row, column] = numbers else {
        return None;
    };
    let place = [matrix, row, column];
    let held = Kind::of(kind).and_then(|kind| kind.holder(place));
    Some(three_or_outside(held))
}

pub fn answer_layout(numbers: &[u64]) -> Option<Answer> {
    let &[kind] = numbers else {
        return None;
    };
    let card = Kind::of(kind).and_then(|kind| kind.card());
    let text = card.map(|card| written(&card));
    let number = if text.is_some() { 0 } else { OUTSIDE_FRAGMENT };
    Some(Answer::beside(number, [0; 3], text.as_slice()))
}

#[cfg(test)]
mod tests {
    use super::*;
    use crate::fragment;
    use crate::lines::says;
    use crate::notation::read;
    use crate::verdict::verdict;
    use std::collections::{BTreeMap, BTreeSet};

    /// What others say of the kinds, after a line that says what it is: kind,
    /// warp, lane, register; matrix, row, column.
    const FACTS: &str = include_str!("../facts/cute-3.4.1.txt");

    fn kinds() -> impl Iterator<Item = (u64, Kind)> {
        let accumulators = (1..=32).map(|eighth| ACCUMULATORS + 8 * eighth);
        let numbers = ROWS.iter().map(|row| row.0).chain(accumulators);
        numbers.map(|number| (number, Kind::of(number).unwrap()))
    }

    #[test]
    fn single_registers() {
        says("mma 12 0 5 3", "0 0 9 3");
        says("mma 30 0 31 15", "0 0 63 7");
        says("mma 39 2 6 13", "0 0 41 25");
        says("mma 42 0 9 3", "0 1 2 3");
        says("mma 43 0 9 3", "0 1 3 2");
        says("mma 1256 3 31 127", "0 0 63 255");
        says("mma-holder 12 0 9 3", "0 0 5 3");
        says("mma-holder 45 3 7 7", "0 0 31 7");
        says("mma-holder 1024 0 63 23", "0 3 31 11");
    }

    #[test]
    fn layouts() {
        for (kind, wanted) in [
            (12, "(2,8,2,4,2):(2@m,4@laneid,4@m,1@laneid,1@m)"),
            (15, "(4,8):(1@laneid,4@laneid)"),
            (45, "(4,4,2,8):(2@m,1@laneid,1@m,4@laneid)"),
            (1008, "(4,2,8,4,2):(1@warpid,2@m,4@laneid,1@laneid,1@m)"),
            (
                1024,
                "(4,2,8,3,4,2):(1@warpid,2@m,4@laneid,4@m,1@laneid,1@m)",
            ),
        ] {
            says(
                &format!("mma-layout {kind}"),
                &format!("0 0 0 0 | S[{wanted}]"),
            );
        }
    }

    #[test]
    fn edges() {
        let most = u64::MAX;
        for (number, kind) in kinds() {
            for [warp, lane, i] in [
                [kind.warps, 0, 0],
                [0, LANES, 0],
                [0, 0, kind.registers],
                [most, 0, 0],
                [0, most, 0],
                [0, 0, most],
            ] {
                says(&format!("mma {number} {warp} {lane} {i}"), "14 0 0 0");
            }
            let [matrices, rows, columns] = kind.sizes;
            for [matrix, row, column] in [
                [matrices, 0, 0],
                [0, rows, 0],
                [0, 0, columns],
                [most, most, most],
            ] {
                let line = format!("mma-holder {number} {matrix} {row} {column}");
                says(&line, "14 0 0 0");
            }
        }
    }

    #[test]
    fn what_is_no_kind() {
        let first = 0..=8;
        let others = [46, 47, 999, 1000, 1001, 1004, 1007, 1009, 1255, 1257, 1264];
        for kind in first.chain(others).chain([2008, 1 << 32, u64::MAX]) {
            says(&format!("mma {kind} 0 0 0"), "14 0 0 0");
            says(&format!("mma-holder {kind} 0 0 0"), "14 0 0 0");
            says(&format!("mma-layout {kind}"), "14 0 0 0 |");
        }
    }

    #[test]
    fn numbers_follow_each_other() {
        let numbers = ROWS.iter().map(|row| row.0);
        assert!(numbers.eq((9..).take(ROWS.len())));
        assert!(9 + ROWS.len() as u64 <= ACCUMULATORS);
    }

    /// Each register has a place of its own, and no place is left.
    #[test]
    fn every_kind_is_one_to_one() {
        for (number, kind) in kinds() {
            let place = |held| kind.place(held).unwrap();
            let places: BTreeSet<Place> = kind.all().map(place).collect();
            let inside = |place: &Place| place.iter().zip(kind.sizes).all(|(at, size)| *at < size);
            assert!(places.iter().all(inside), "{number}");
            assert_eq!(places.len(), kind.all().count(), "{number}");
            assert_eq!(places.len() as u64, kind.sizes.iter().product(), "{number}");
        }
    }

    #[test]
    fn the_holder_undoes_the_rule() {
        // A search for each element of each accumulator would take too long.
        let asked = |number: &u64| *number < ACCUMULATORS || [1008, 1024, 1096].contains(number);
        for (number, kind) in kinds().filter(|(number, _)| asked(number)) {
            for held in kind.all() {
                let place = kind.place(held).unwrap();
                assert_eq!(kind.holder(place), Some(held), "{number}");
            }
        }
    }

    /// The text that is printed, in the kind's space: it is approved with every
    /// cell occupied, and the owner of each register is the rule's.
    #[test]
    fn every_layout_is_approved_and_owned_by_the_rule() {
        for (number, kind) in kinds() {
            let made = kind.card().unwrap();
            let mut card = read(written(&made).as_bytes()).unwrap();
            card.space = made.space;
            let cells = kind.all().count();
            let mut table = vec![0; cells];
            let approved = verdict(&card, &mut table);
            assert_eq!(approved, Ok([cells as u64; 3]), "{number}");
            let [_, rows, columns] = kind.sizes;
            for (held, owner) in kind.all().zip(table) {
                let [matrix, row, column] = kind.place(held).unwrap();
                let flat = (matrix * rows + row) * columns + column;
                assert_eq!(owner, flat + 1, "{number} {held:?}");
            }
        }
    }

    fn by_the_rules(kind: u64, [warp, lane, register]: Held) -> Option<Place> {
        match Kind::of(kind) {
            Some(kind) => kind.place([warp, lane, register]),
            None if warp > 0 => None,
            None => fragment::place(kind, lane, register)
                .map(|place| [place.computation, place.row, place.column]),
        }
    }

    #[test]
    fn the_facts_agree() {
        let mut facts: BTreeMap<u64, BTreeSet<Held>> = BTreeMap::new();
        for line in FACTS.lines().skip(1) {
            let numbers = line.split(' ').map(|number| number.parse().unwrap());
            let numbers: Vec<u64> = numbers.collect();
            let [kind, warp, lane, register, matrix, row, column] = numbers[..] else {
                panic!("{line}");
            };
            let held = [warp, lane, register];
            let said = Some([matrix, row, column]);
            assert_eq!(by_the_rules(kind, held), said, "{line}");
            assert!(facts.entry(kind).or_default().insert(held), "{line}");
        }
        // Every register of a kind of which they say anything.
        for (kind, held) in &facts {
            let registers = match Kind::of(*kind) {
                Some(kind) => kind.all().count() as u64,
                None => LANES * fragment::registers(*kind).unwrap(),
            };
            assert_eq!(held.len() as u64, registers, "{kind}");
        }
        let without = (0..=45).filter(|kind| !facts.contains_key(kind));
        assert!(without.eq([25, 26, 27, 28, 29, 30, 35, 36, 39]));
        assert!([1008, 1016, 1032]
            .iter()
            .all(|kind| facts.contains_key(kind)));
    }
}
