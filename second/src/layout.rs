//! The layout card, its checks 1 to 6, and the way from an element to its
//! cells (document 01's rules 1 to 5), with the question that places one
//! element.

use crate::lines::{plain, whole, Answer, Number};
use crate::swizzle::{Swizzle, NOT_ALLOWED};

pub const AXES: usize = 8;
pub const M_AXIS: usize = 7;
pub const SHARD_SLOTS: usize = 8;
pub const REPLICA_SLOTS: usize = 4;

const MOST_EXTENT: u64 = 65_536;
const LEAST_STRIDE: Number = -65_536;
const MOST_STRIDE: Number = 65_535;
const MOST_LENGTH: u64 = 65_536;
const MOST_CELLS: u64 = 65_536;
const MOST_ELEMENTS: u64 = 65_536;
const MOST_COPIES: u64 = 64;

/// Refusals 1 to 5, 7, 9 to 11 and 17 by name; 6 is the swizzle's.
pub const WRONG_COUNT: u64 = 1;
pub const WRONG_NUMBER: u64 = 2;
pub const WRONG_AXIS: u64 = 3;
pub const WRONG_SPACE: u64 = 4;
pub const TOO_MANY: u64 = 5;
pub const OUTSIDE_SPACE: u64 = 7;
pub const SHAPE_NOT_ADMITTED: u64 = 9;
pub const OUTSIDE_DIMENSION: u64 = 10;
pub const TOO_SHORT: u64 = 11;
pub const IDLE_COPY: u64 = 17;

/// The program lends at most so many entries to a placement.
const MOST_ENTRIES: u64 = 64;

/// An element's index; never a cell number.
#[derive(Clone, Copy, Debug, PartialEq, Eq, PartialOrd, Ord)]
pub struct Flat(pub u64);

/// A cell's number; never an element's index.
#[derive(Clone, Copy, Debug, PartialEq, Eq, PartialOrd, Ord)]
pub struct Cell(pub u64);

/// A refusal with its details.
#[derive(Clone, Copy, Debug, PartialEq, Eq)]
pub struct Refusal {
    pub number: u64,
    pub details: [u64; 3],
}

impl Refusal {
    pub fn plain(number: u64) -> Refusal {
        Refusal {
            number,
            details: [0; 3],
        }
    }

    pub fn with(number: u64, a: u64, b: u64) -> Refusal {
        Refusal {
            number,
            details: [a, b, 0],
        }
    }
}

#[derive(Clone, Copy, Debug, Default)]
pub struct Iter {
    pub extent: u64,
    pub stride: Number,
    pub axis: u64,
}

/// For each shard slot whether its iter carries a reuse mark.
pub type Marks = [bool; SHARD_SLOTS];

pub const NO_MARKS: Marks = [false; SHARD_SLOTS];

/// One coordinate per axis, as a cell is asked for.
pub type Coordinates = [u64; AXES];

/// One coordinate per axis, as sums of signed products give them.
pub type Sums = [Number; AXES];

#[derive(Clone, Copy, Debug)]
pub struct Card {
    pub shard_count: u64,
    pub shard_slots: [Iter; SHARD_SLOTS],
    pub marks: Marks,
    pub replica_count: u64,
    pub replica_slots: [Iter; REPLICA_SLOTS],
    pub offset: Sums,
    pub space: [u64; AXES],
    pub swizzle: Swizzle,
}

/// What lent entry i is before the question.
pub fn lent_entries(length: u64) -> Vec<u64> {
    (0..length).map(|i| 1_000_000 + i).collect()
}

/// The product as a whole number, or the largest 128-bit number where it is
/// larger still. A zero factor makes it zero whatever the others are; without
/// one it only grows, so comparing it with any 64-bit number is right.
pub fn whole_product(numbers: &[u64]) -> u128 {
    if numbers.contains(&0) {
        return 0;
    }
    numbers.iter().fold(1, |product: u128, number| {
        product.saturating_mul(u128::from(*number))
    })
}

/// Rule 2: component k is the number divided by the product of the extents
/// after k, modulo extent k. For extents whose product is within its limit.
fn split(number: u64, iters: &[Iter]) -> Vec<u64> {
    (0..iters.len())
        .map(|k| {
            let after: u64 = iters[k + 1..].iter().map(|iter| iter.extent).product();
            number / after % iters[k].extent
        })
        .collect()
}

/// Each component times its stride, added to its axis.
fn add_components(sums: &mut Sums, components: &[u64], iters: &[Iter]) {
    for (component, iter) in components.iter().zip(iters) {
        sums[iter.axis as usize] += Number::from(*component) * iter.stride;
    }
}

/// Check 4: each length and the cells are within their limits.
pub fn space_permitted(space: &[u64; AXES]) -> bool {
    let lengths = space.iter().all(|n| (1..=MOST_LENGTH).contains(n));
    lengths && whole_product(space) <= u128::from(MOST_CELLS)
}

fn extents(iters: &[Iter]) -> Vec<u64> {
    iters.iter().map(|iter| iter.extent).collect()
}

impl Card {
    /// How many numbers a card is on a line.
    pub const NUMBERS: usize = 57;

    /// Whether the number at this place of a card is a stride or an offset,
    /// which may be below zero, whatever the counts are.
    pub fn signed_at(at: usize) -> bool {
        let in_iters = |first: usize, slots: usize| {
            (first..first + 3 * slots).contains(&at) && (at - first) % 3 == 1
        };
        in_iters(1, SHARD_SLOTS) || in_iters(26, REPLICA_SLOTS) || (38..46).contains(&at)
    }

    /// The card of the first numbers, without marks; none if there are too
    /// few, or if one that is no stride and no offset is below zero.
    pub fn of(numbers: &[Number]) -> Option<Card> {
        let signed = numbers.get(..Card::NUMBERS)?;
        let other = |at: usize| if Card::signed_at(at) { 0 } else { signed[at] };
        let others: Vec<Number> = (0..Card::NUMBERS).map(other).collect();
        let numbers = plain(&others)?;
        let iter = |at: usize| Iter {
            extent: numbers[at],
            stride: signed[at + 1],
            axis: numbers[at + 2],
        };
        Some(Card {
            shard_count: numbers[0],
            shard_slots: std::array::from_fn(|k| iter(1 + 3 * k)),
            marks: NO_MARKS,
            replica_count: numbers[25],
            replica_slots: std::array::from_fn(|k| iter(26 + 3 * k)),
            offset: std::array::from_fn(|axis| signed[38 + axis]),
            space: std::array::from_fn(|axis| numbers[46 + axis]),
            swizzle: Swizzle {
                m: numbers[54],
                b: numbers[55],
                s: numbers[56],
            },
        })
    }

    /// The card's numbers as they stand on a line; its marks are not among
    /// them.
    pub fn numbers(&self) -> Vec<Number> {
        let of_iters = |iters: &[Iter]| -> Vec<Number> {
            let three = |iter: &Iter| [iter.extent.into(), iter.stride, iter.axis.into()];
            iters.iter().flat_map(three).collect()
        };
        [
            vec![self.shard_count.into()],
            of_iters(&self.shard_slots),
            vec![self.replica_count.into()],
            of_iters(&self.replica_slots),
            self.offset.to_vec(),
            whole(&self.space),
            whole(&[self.swizzle.m, self.swizzle.b, self.swizzle.s]),
        ]
        .concat()
    }

    /// The shard's iters; those past the count are ignored.
    pub fn shard(&self) -> &[Iter] {
        &self.shard_slots[..self.shard_count.min(SHARD_SLOTS as u64) as usize]
    }

    /// The replica's iters; those past the count are ignored.
    pub fn replica(&self) -> &[Iter] {
        &self.replica_slots[..self.replica_count.min(REPLICA_SLOTS as u64) as usize]
    }

    pub fn elements(&self) -> u128 {
        whole_product(&extents(self.shard()))
    }

    pub fn copies(&self) -> u128 {
        whole_product(&extents(self.replica()))
    }

    pub fn cells(&self) -> u128 {
        whole_product(&self.space)
    }

    /// The shard's iters, each with whether it is marked; marks past the
    /// count are ignored too.
    fn marked_shard(&self) -> impl Iterator<Item = (&Iter, bool)> {
        self.shard().iter().zip(self.marks)
    }

    /// Whether an iter of the shard is marked.
    pub fn reuses(&self) -> bool {
        self.marked_shard().any(|(_, marked)| marked)
    }

    /// The components of an element that are not marked. Elements that have
    /// these in common are one. For a card that passes checks 1 to 6.
    pub fn unmarked(&self, flat: Flat) -> Vec<u64> {
        let components = split(flat.0, self.shard()).into_iter();
        let both = components.zip(self.marked_shard());
        both.filter(|(_, (_, marked))| !marked)
            .map(|(component, _)| component)
            .collect()
    }

    /// Checks 1 to 6, each looked at only when those before it hold.
    pub fn refusal(&self) -> Option<Refusal> {
        self.first_refusal(6)
    }

    /// The first so many of these checks.
    pub fn first_refusal(&self, count: usize) -> Option<Refusal> {
        let iters = [self.shard(), self.replica()].concat();
        let counts = (1..=SHARD_SLOTS as u64).contains(&self.shard_count)
            && self.replica_count <= REPLICA_SLOTS as u64;
        let signed = |number: &Number| (LEAST_STRIDE..=MOST_STRIDE).contains(number);
        let numbers = iters
            .iter()
            .all(|iter| (1..=MOST_EXTENT).contains(&iter.extent) && signed(&iter.stride))
            && self.offset.iter().all(signed)
            && self
                .marked_shard()
                .all(|(iter, marked)| !marked || iter.stride == 0);
        let axes = iters.iter().all(|iter| iter.axis < AXES as u64);
        let few = self.elements() <= u128::from(MOST_ELEMENTS)
            && self.copies() <= u128::from(MOST_COPIES);
        let checks = [
            (counts, WRONG_COUNT),
            (numbers, WRONG_NUMBER),
            (axes, WRONG_AXIS),
            (space_permitted(&self.space), WRONG_SPACE),
            (few, TOO_MANY),
            (self.swizzle.permitted(), NOT_ALLOWED),
        ];
        let first = checks[..count].iter().find(|(holds, _)| !holds);
        first.map(|(_, number)| Refusal::plain(*number))
    }

    /// What each replica combination adds, last replica iter fastest. For a
    /// card that passes checks 1 to 6.
    fn replica_sums(&self) -> Vec<Sums> {
        let sums = |combination| {
            let mut sums = [0; AXES];
            let components = split(combination, self.replica());
            add_components(&mut sums, &components, self.replica());
            sums
        };
        (0..self.copies() as u64).map(sums).collect()
    }

    /// Refusal 17, if two replica combinations add the same on every axis:
    /// the smallest that adds what a smaller one does, and the smallest of
    /// those. For a card that passes checks 1 to 6.
    pub fn idle(&self) -> Option<Refusal> {
        let sums = self.replica_sums();
        let alike = |second: usize| (0..second).find(|first| sums[*first] == sums[second]);
        let pair = |second| Some((alike(second)?, second));
        let (first, second) = (0..sums.len()).find_map(pair)?;
        Some(Refusal::with(IDLE_COPY, first as u64, second as u64))
    }

    /// Checks 1 to 6, then 17, with which every question about a card begins.
    pub fn admitted(&self) -> Result<(), Refusal> {
        match self.refusal().or_else(|| self.idle()) {
            Some(refusal) => Err(refusal),
            None => Ok(()),
        }
    }

    /// Rules 3 and 4: the finished coordinates of all copies of an element,
    /// last replica iter fastest. An m below zero is not swizzled. For a card
    /// that passes checks 1 to 6.
    pub fn copies_of(&self, flat: Flat) -> Vec<Sums> {
        let mut base = [0; AXES];
        add_components(&mut base, &split(flat.0, self.shard()), self.shard());
        for (coordinate, offset) in base.iter_mut().zip(&self.offset) {
            *coordinate += offset;
        }
        let copy = |sums: Sums| {
            let mut coordinates: Sums = std::array::from_fn(|axis| base[axis] + sums[axis]);
            if let Ok(m) = u64::try_from(coordinates[M_AXIS]) {
                coordinates[M_AXIS] = self.swizzle.apply(m).into();
            }
            coordinates
        };
        self.replica_sums().into_iter().map(copy).collect()
    }

    /// Rule 5: row-major over the axes, pid first, m last. For coordinates
    /// inside the space.
    pub fn cell(&self, coordinates: &Coordinates) -> Cell {
        let axes = coordinates.iter().zip(&self.space);
        Cell(axes.fold(0, |cell, (coordinate, length)| cell * length + coordinate))
    }

    /// The cells of all copies of an element, or refusal 7 with the smallest
    /// axis on which any copy of it lies outside, at either end.
    pub fn cells_of(&self, flat: Flat) -> Result<Vec<Cell>, Refusal> {
        let copies = self.copies_of(flat);
        let outside = |axis: &usize| {
            let length = Number::from(self.space[*axis]);
            let inside = |copy: &Sums| (0..length).contains(&copy[*axis]);
            !copies.iter().all(inside)
        };
        if let Some(axis) = (0..AXES).find(outside) {
            return Err(Refusal::with(OUTSIDE_SPACE, flat.0, axis as u64));
        }
        let inside = copies.iter().map(|copy| copy.map(|sum| sum as u64));
        Ok(inside.map(|copy| self.cell(&copy)).collect())
    }
}

/// A shape and a coordinate in it, as they stand on a line: slots past a
/// count are ignored.
#[derive(Clone, Debug)]
pub struct Spot {
    pub dimensions: u64,
    pub sizes: [u64; 8],
    pub coordinates: u64,
    pub values: [u64; 8],
}

impl Spot {
    pub fn of(numbers: &[u64]) -> Option<Spot> {
        let numbers = numbers.get(..18)?;
        Some(Spot {
            dimensions: numbers[0],
            sizes: std::array::from_fn(|d| numbers[1 + d]),
            coordinates: numbers[9],
            values: std::array::from_fn(|d| numbers[10 + d]),
        })
    }

    pub fn numbers(&self) -> Vec<u64> {
        let shape = [&[self.dimensions], &self.sizes[..]].concat();
        let coordinate = [&[self.coordinates], &self.values[..]].concat();
        [shape, coordinate].concat()
    }

    /// Rule 1: row-major, or refusal 9 or 10.
    pub fn flat(&self, elements: u128) -> Result<Flat, Refusal> {
        if !(1..=8).contains(&self.dimensions) {
            return Err(Refusal::plain(SHAPE_NOT_ADMITTED));
        }
        let sizes = &self.sizes[..self.dimensions as usize];
        if whole_product(sizes) != elements {
            return Err(Refusal::plain(SHAPE_NOT_ADMITTED));
        }
        let values = &self.values[..sizes.len()];
        let inside = values.iter().zip(sizes).all(|(value, size)| value < size);
        if self.coordinates != self.dimensions || !inside {
            return Err(Refusal::plain(OUTSIDE_DIMENSION));
        }
        let both = values.iter().zip(sizes);
        Ok(Flat(
            both.fold(0, |flat, (value, size)| flat * size + value),
        ))
    }
}

/// The cells of one element: checks 1 to 6, 17, 9, 10, 11, then 7.
fn place(card: &Card, spot: &Spot, length: u64) -> Result<Vec<Cell>, Refusal> {
    card.admitted()?;
    let flat = spot.flat(card.elements())?;
    let copies = card.copies() as u64;
    if length < copies {
        return Err(Refusal::with(TOO_SHORT, copies, 0));
    }
    card.cells_of(flat)
}

pub fn answer_place(marks: Marks, numbers: &[Number]) -> Option<Answer> {
    let card = Card {
        marks,
        ..Card::of(numbers)?
    };
    let rest = plain(numbers.get(Card::NUMBERS..)?)?;
    let spot = Spot::of(&rest)?;
    let length = *rest.last()?;
    if length > MOST_ENTRIES {
        return None;
    }
    let mut entries = lent_entries(length);
    let (number, details) = match place(&card, &spot, length) {
        Ok(cells) => {
            for (entry, cell) in entries.iter_mut().zip(&cells) {
                *entry = cell.0;
            }
            (0, [cells.len() as u64, 0, 0])
        }
        Err(refusal) => (refusal.number, refusal.details),
    };
    Some(Answer::beside(number, details, &entries))
}

#[cfg(test)]
mod tests {
    use super::*;
    use crate::loads::cards;

    fn spot(flat: u64, elements: u64) -> Spot {
        Spot {
            dimensions: 1,
            sizes: [elements; 8],
            coordinates: 1,
            values: [flat; 8],
        }
    }

    fn cells(card: &Card, flat: u64) -> Result<Vec<Cell>, Refusal> {
        place(card, &spot(flat, card.elements() as u64), 64)
    }

    fn said(card: &Card, spot: &Spot, length: u64) -> String {
        let numbers = [card.numbers(), whole(&spot.numbers()), whole(&[length])].concat();
        answer_place(card.marks, &numbers).map_or("?".to_string(), |answer| answer.print())
    }

    #[test]
    fn whole_products() {
        assert_eq!(whole_product(&[]), 1);
        assert_eq!(whole_product(&[1 << 63, 1 << 63, 0]), 0);
        assert_eq!(whole_product(&[u64::MAX; 8]), u128::MAX);
        assert_eq!(whole_product(&[1 << 32, 1 << 32]), 1 << 64);
        assert_eq!(whole_product(&[8, 2, 4, 2]), 128);
    }

    #[test]
    fn the_last_element_of_tile_x() {
        let card = cards::tile_x();
        assert_eq!(cells(&card, 127), Ok(vec![Cell(447), Cell(703)]));
        let at = Spot {
            dimensions: 2,
            sizes: [8, 16, 9, 9, 9, 9, 9, 9],
            coordinates: 2,
            values: [7, 15, 99, 99, 99, 99, 99, 99],
        };
        assert_eq!(said(&card, &at, 3), "0 2 0 0 | 447 703 1000002");
        assert_eq!(said(&card, &at, 1), "11 2 0 0 | 1000000");
        assert_eq!(said(&card, &at, 65), "?");
    }

    #[test]
    fn the_elements_004_shows_of_tile_x() {
        let card = cards::tile_x();
        let shown = [
            (0, 0, [5, 9], 0),
            (1, 0, [5, 9], 1),
            (2, 1, [5, 9], 0),
            (16, 4, [5, 9], 0),
            (8, 0, [6, 10], 0),
            (127, 31, [6, 10], 1),
        ];
        for (flat, lane, warps, m) in shown {
            let wanted = warps.map(|warp| [0, warp, lane, 0, 0, 0, 0, m]);
            assert_eq!(card.copies_of(Flat(flat)), wanted);
        }
    }

    #[test]
    fn outside_the_space() {
        let mut card = cards::tile_x();
        card.space[1] = 10;
        assert_eq!(cells(&card, 8), Err(Refusal::with(7, 8, 1)));
        assert_eq!(cells(&card, 7).map(|cells| cells.len()), Ok(2));
        let mut card = cards::sixty_five();
        card.space[M_AXIS] = 72;
        assert_eq!(cells(&card, 64), Err(Refusal::with(7, 64, 7)));
        card.space[M_AXIS] = 73;
        assert_eq!(cells(&card, 64), Ok(vec![Cell(72)]));
        card.offset[M_AXIS] = 8;
        card.space[M_AXIS] = 65;
        assert_eq!(cells(&card, 64), Ok(vec![Cell(64)]));
    }

    /// One iter of 4 that runs backwards from this offset of m.
    fn backwards(from: i32) -> Card {
        let mut card = cards::card_of(&[cards::iter(4, -1, 7)], &[]);
        card.offset[M_AXIS] = from.into();
        card.space[M_AXIS] = 4;
        card
    }

    #[test]
    fn strides_that_run_backwards() {
        for flat in 0..4 {
            assert_eq!(cells(&backwards(3), flat), Ok(vec![Cell(3 - flat)]));
        }
        assert_eq!(cells(&backwards(2), 2), Ok(vec![Cell(0)]));
        assert_eq!(cells(&backwards(2), 3), Err(Refusal::with(7, 3, 7)));
        let mut card = cards::tile_x();
        card.replica_slots[0].stride = -4;
        card.offset[1] = 9;
        assert_eq!(cells(&card, 127), Ok(vec![Cell(703), Cell(447)]));
        card.offset[1] = 2;
        assert_eq!(cells(&card, 127), Err(Refusal::with(7, 127, 1)));
    }

    #[test]
    fn an_m_below_zero_is_not_swizzled() {
        let mut card = cards::sixty_five();
        card.offset[M_AXIS] = -1;
        let m = |flat| card.copies_of(Flat(flat))[0][M_AXIS];
        assert_eq!((m(0), m(1), m(64)), (-1, 0, 63));
        assert_eq!(cells(&card, 0), Err(Refusal::with(7, 0, 7)));
    }

    #[test]
    fn below_zero_lies_outside_on_its_own_axis() {
        let replica = [cards::iter(2, -1, 6), cards::iter(2, -1, 2)];
        let mut card = cards::card_of(&[cards::iter(2, 1, 7)], &replica);
        assert_eq!(cells(&card, 1), Err(Refusal::with(7, 1, 2)));
        card.offset[2] = 1;
        card.space[2] = 2;
        assert_eq!(cells(&card, 1), Err(Refusal::with(7, 1, 6)));
        card.offset[6] = 1;
        assert_eq!(cells(&card, 1), Err(Refusal::with(7, 1, 6)));
        card.space[6] = 2;
        assert_eq!(cells(&card, 1).map(|cells| cells.len()), Ok(4));
    }

    #[test]
    fn sums_may_be_below_zero_on_the_way() {
        let shard = [cards::iter(128, 65_535, 3), cards::iter(128, -65_536, 3)];
        let mut card = cards::card_of(&shard, &[]);
        card.offset[3] = 100;
        card.space = [1; AXES];
        assert_eq!(cells(&card, 128 * 100 + 100), Ok(vec![Cell(0)]));
        assert_eq!(
            cells(&card, 128 * 99 + 100),
            Err(Refusal::with(7, 12_772, 3))
        );
    }

    #[test]
    fn limits_of_strides_and_offsets() {
        let refused = |card: &Card| card.refusal().map(|refusal| refusal.number);
        for (number, wanted) in [
            (-65_537, Some(2)),
            (-65_536, None),
            (65_535, None),
            (65_536, Some(2)),
            (1 << 63, Some(2)),
            (-(1 << 63), Some(2)),
        ] {
            let mut card = backwards(3);
            card.shard_slots[0].stride = number;
            assert_eq!(refused(&card), wanted);
            card = cards::tile_x();
            card.replica_slots[0].stride = number;
            assert_eq!(refused(&card), wanted);
            card = backwards(3);
            card.offset[0] = number;
            assert_eq!(refused(&card), wanted);
            card = backwards(3);
            card.shard_slots[1].stride = number;
            assert_eq!(refused(&card), None);
        }
    }

    #[test]
    fn shapes_and_coordinates() {
        let card = cards::tile_x();
        let refused = |change: fn(&mut Spot)| {
            let mut spot = spot(5, 128);
            change(&mut spot);
            place(&card, &spot, 2).map_err(|refusal| refusal.number)
        };
        assert_eq!(refused(|spot| spot.dimensions = 0), Err(9));
        assert_eq!(refused(|spot| spot.dimensions = 9), Err(9));
        assert_eq!(refused(|spot| spot.dimensions = u64::MAX), Err(9));
        assert_eq!(refused(|spot| spot.sizes[0] = 127), Err(9));
        assert_eq!(refused(|spot| spot.coordinates = 2), Err(10));
        assert_eq!(refused(|spot| spot.values[0] = 128), Err(10));
        assert_eq!(refused(|spot| spot.values[1] = 128), refused(|_| {}));
        assert_eq!(
            refused(|spot| (spot.sizes[0], spot.coordinates) = (0, 2)),
            Err(9)
        );
    }

    #[test]
    fn checks_in_their_order() {
        let mut card = cards::tile_x();
        let refused = |card: &Card| card.refusal().map(|refusal| refusal.number);
        assert_eq!(refused(&card), None);
        card.swizzle.m = 9;
        assert_eq!(refused(&card), Some(6));
        card.replica_slots[0].extent = 65;
        assert_eq!(refused(&card), Some(5));
        card.space[0] = 0;
        assert_eq!(refused(&card), Some(4));
        card.shard_slots[3].axis = 8;
        assert_eq!(refused(&card), Some(3));
        card.offset[0] = 65_536;
        assert_eq!(refused(&card), Some(2));
        card.replica_count = 5;
        assert_eq!(refused(&card), Some(1));
    }

    #[test]
    fn a_marked_iter_has_stride_0() {
        let refused = |card: &Card| card.refusal().map(|no| no.number);
        let marked = |extent, stride: i64, at: usize| {
            let shard = [cards::iter(2, 0, 7), cards::iter(extent, stride, 7)];
            let mut card = cards::card_of(&shard, &[cards::iter(2, 1, 0)]);
            card.marks[at] = true;
            card
        };
        for stride in [-65_537, -65_536, -1, 1, 65_535, 65_536] {
            assert_eq!(refused(&marked(1, stride, 1)), Some(2), "{stride}");
            let within = (-65_536..=65_535).contains(&stride);
            assert_eq!(refused(&marked(1, stride, 0)).is_none(), within);
        }
        for at in 0..SHARD_SLOTS {
            assert_eq!(refused(&marked(3, 0, at)), None);
        }
        let mut card = marked(1, 1, 1);
        card.swizzle.m = 9;
        card.space[0] = 0;
        card.shard_slots[0].axis = 8;
        assert_eq!(refused(&card), Some(2));
        card.shard_count = 1;
        assert_eq!(refused(&card), Some(3));
        card.shard_count = 9;
        assert_eq!(refused(&card), Some(1));
    }

    #[test]
    fn a_follower_lies_where_its_leader_does() {
        let shard = [
            cards::iter(2, 0, 6),
            cards::iter(32, 1, 5),
            cards::iter(4, 1, 6),
        ];
        let mut card = cards::card_of(&shard, &[cards::iter(4, 32, 5)]);
        let unmarked = cells(&card, 150);
        card.marks[0] = true;
        assert_eq!(cells(&card, 150), unmarked);
        assert_eq!(cells(&card, 150), cells(&card, 22));
        assert_eq!(cells(&card, 22).map(|cells| cells[1]), Ok(Cell(150)));
        card.marks[1] = true;
        assert_eq!(cells(&card, 150), Err(Refusal::plain(2)));
    }

    #[test]
    fn components_that_are_not_marked() {
        let shard = [2, 3, 4].map(|extent| cards::iter(extent, 0, 7));
        let mut card = cards::card_of(&shard, &[]);
        assert_eq!(card.unmarked(Flat(23)), [1, 2, 3]);
        card.marks = [false, true, false, true, true, true, true, true];
        assert_eq!(card.unmarked(Flat(23)), [1, 3]);
        card.marks[0] = true;
        assert_eq!(card.unmarked(Flat(14)), [2]);
        card.marks[2] = true;
        assert!(card.unmarked(Flat(14)).is_empty());
    }

    #[test]
    fn limits_of_extents_and_elements() {
        let refused = |extents: &[u64]| {
            let iters = Vec::from_iter(extents.iter().map(|extent| cards::iter(*extent, 0, 7)));
            cards::card_of(&iters, &[]).refusal().map(|no| no.number)
        };
        for extents in [
            &[65_536][..],
            &[65_536, 1],
            &[256, 256],
            &[255, 257],
            &[4; 8],
        ] {
            assert_eq!(refused(extents), None, "{extents:?}");
        }
        for extents in [
            &[2, 32_769][..],
            &[65_536, 2],
            &[65_536, 65_536],
            &[65_536; 4],
            &[244, 1_321, 13_325],
            &[8_192, 2_763, 2_857, 6_529, 43_691],
        ] {
            assert_eq!(refused(extents), Some(5), "{extents:?}");
        }
        for extents in [&[65_537][..], &[1, 65_537], &[1 << 32], &[u64::MAX]] {
            assert_eq!(refused(extents), Some(2), "{extents:?}");
        }
    }

    #[test]
    fn limits_of_lengths_and_cells() {
        let permitted = |lengths: &[u64]| {
            space_permitted(&std::array::from_fn(|axis| {
                *lengths.get(axis).unwrap_or(&1)
            }))
        };
        for lengths in [&[65_536][..], &[256, 256], &[255, 257], &[4; 8]] {
            assert!(permitted(lengths), "{lengths:?}");
        }
        for lengths in [
            &[65_537][..],
            &[0],
            &[2, 32_769],
            &[65_536, 65_536],
            &[65_536; 4],
            &[244, 1_321, 13_325],
            &[8_192, 2_763, 2_857, 6_529, 43_691],
        ] {
            assert!(!permitted(lengths), "{lengths:?}");
        }
    }

    #[test]
    fn copies_keep_their_limit() {
        for (extent, wanted) in [
            (64, None),
            (65, Some(5)),
            (65_536, Some(5)),
            (65_537, Some(2)),
        ] {
            let card = cards::card_of(&[cards::iter(1, 0, 7)], &[cards::iter(extent, 1, 0)]);
            let card = Card {
                space: [1; AXES],
                ..card
            };
            assert_eq!(card.refusal().map(|no| no.number), wanted);
        }
    }

    #[test]
    fn the_last_elements_of_large_tiles() {
        let card = cards::accumulator();
        assert_eq!(cells(&card, 28_671), Ok(vec![Cell(28_671)]));
        assert_eq!(cells(&card, 14_336), Ok(vec![Cell(112)]));
        let mut card = cards::card_of(&[cards::iter(65_536, -1, 7)], &[]);
        card.offset[M_AXIS] = 65_535;
        card.space[M_AXIS] = 65_536;
        assert_eq!(cells(&card, 65_535), Ok(vec![Cell(0)]));
        assert_eq!(cells(&card, 0), Ok(vec![Cell(65_535)]));
        card.space[M_AXIS] = 65_535;
        assert_eq!(cells(&card, 0), Err(Refusal::with(7, 0, 7)));
    }

    /// The pair of refusal 17 of copies with these extents, strides and axes.
    fn pair(replica: &[(u64, i32, u64)]) -> Option<[u64; 2]> {
        let iters: Vec<Iter> = replica
            .iter()
            .map(|(extent, stride, axis)| cards::iter(*extent, *stride, *axis))
            .collect();
        let [a, b, _] = cards::card_of(&[cards::iter(2, 1, 0)], &iters)
            .idle()?
            .details;
        Some([a, b])
    }

    #[test]
    fn idle_copies() {
        assert_eq!(pair(&[]), None);
        assert_eq!(pair(&[(1, 0, 7), (1, 0, 7)]), None);
        assert_eq!(pair(&[(2, 0, 7)]), Some([0, 1]));
        assert_eq!(pair(&[(2, 1, 7), (2, 1, 7)]), Some([1, 2]));
        assert_eq!(pair(&[(2, 1, 6), (2, 1, 7)]), None);
        assert_eq!(pair(&[(2, 2, 7), (2, -2, 7)]), Some([0, 3]));
        assert_eq!(pair(&[(8, 7, 3), (8, 1, 3)]), Some([7, 8]));
        assert_eq!(pair(&[(8, 8, 3), (8, 1, 3)]), None);
        assert_eq!(pair(&[(2, -31, 3), (32, 1, 3)]), Some([0, 63]));
        assert_eq!(pair(&[(2, 1, 6), (2, 65_535, 7), (2, 1, 7)]), None);
        assert_eq!(pair(&[(4, 4, 7), (2, 2, 7), (2, -1, 7)]), None);
        assert_eq!(pair(&[(2, 1, 6), (2, 64, 7)]), None);
        assert_eq!(pair(&[(1, 5, 2), (2, 0, 2)]), Some([0, 1]));
        assert_eq!(pair(&[(2, 0, 6), (2, 1, 7)]), Some([0, 2]));
        assert_eq!(pair(&[(2, -65_536, 7), (2, -65_536, 7)]), Some([1, 2]));
        assert_eq!(pair(&[(2, -5, 6), (3, 1, 6), (3, 2, 6)]), Some([1, 6]));
        assert_eq!(pair(&[(3, 1, 4), (2, 2, 4)]), Some([1, 4]));
        assert_eq!(pair(&[(2, 1, 1), (2, 1, 1), (2, 1, 2)]), Some([2, 4]));
        let four = [(2, 7, 5), (2, 1, 5), (2, 2, 5), (2, 4, 5)];
        assert_eq!(pair(&four), Some([7, 8]));
        let four = [(2, -1, 0), (2, 1, 1), (2, -1, 2), (2, 1, 5)];
        assert_eq!(pair(&four), None);
    }

    #[test]
    fn the_second_of_an_idle_pair_is_the_smallest() {
        // 0 and 4 are a pair too, with a smaller first.
        assert_eq!(pair(&[(2, 0, 7), (2, 1, 7), (2, 1, 7)]), Some([1, 2]));
        // Of 0, 1 and 2, which add the same, 0 and 1 are the pair.
        assert_eq!(pair(&[(3, 0, 5)]), Some([0, 1]));
    }

    #[test]
    fn idle_copies_are_judged_after_check_6_and_before_9() {
        let mut card = cards::tile_x();
        card.replica_slots[0].stride = 0;
        let at = |card: &Card, flat| place(card, &spot(flat, 127), 0).map_err(|no| no.number);
        assert_eq!(at(&card, 200), Err(17));
        card.swizzle.m = 9;
        assert_eq!(at(&card, 200), Err(6));
        assert_eq!(card.idle(), Some(Refusal::with(17, 0, 1)));
        assert_eq!(at(&cards::tile_x(), 200), Err(9));
    }

    #[test]
    fn cards_stand_on_a_line_as_they_are_read() {
        let numbers: Vec<Number> = (100..157).collect();
        let card = Card::of(&numbers).unwrap();
        assert_eq!(card.numbers(), numbers);
        assert_eq!(card.shard_slots[7].axis, 124);
        assert_eq!(card.replica_slots[3].axis, 137);
        assert_eq!((card.offset[0], card.space[7]), (138, 153));
        assert_eq!(card.swizzle.s, 156);
    }
}
