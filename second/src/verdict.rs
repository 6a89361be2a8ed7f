//! The verdict on a card, the owner of a cell, and a stretch of the table.
//! Who lies where is written down as sets, and each refusal is read off them
//! in the words of document 01.

use crate::layout::{
    lent_entries, space_permitted, whole_product, Card, Coordinates, Flat, Marks, Refusal, AXES,
    TOO_SHORT, WRONG_AXIS, WRONG_SPACE,
};
use crate::lines::{digest, plain, Answer, Number};
use std::collections::{BTreeMap, BTreeSet};

/// Refusals: two elements that are not one share a cell, an asked cell outside
/// the space.
const CELL_SHARED: u64 = 8;
const ASKED_OUTSIDE: u64 = 12;

/// The programs lend at most so many entries to a table, unless told
/// otherwise.
pub const MOST_ENTRIES: u64 = 16_384;

/// All elements that have a copy in a cell, for each cell.
type Holders = Vec<BTreeSet<Flat>>;

fn flats(card: &Card) -> impl Iterator<Item = Flat> {
    (0..card.elements() as u64).map(Flat)
}

/// Which elements are one: the sets of those that are, and for each element
/// the number of its set.
struct Classes {
    sets: Vec<BTreeSet<Flat>>,
    set_of: BTreeMap<Flat, usize>,
}

impl Classes {
    fn new(sets: Vec<BTreeSet<Flat>>) -> Classes {
        let numbered = sets.iter().enumerate();
        let pairs = numbered.flat_map(|(at, set)| set.iter().map(move |flat| (*flat, at)));
        let set_of = pairs.collect();
        Classes { sets, set_of }
    }

    /// Elements that differ only in marked components are one.
    fn of(card: &Card) -> Classes {
        let mut alike: BTreeMap<Vec<u64>, BTreeSet<Flat>> = BTreeMap::new();
        for flat in flats(card) {
            alike.entry(card.unmarked(flat)).or_default().insert(flat);
        }
        Classes::new(alike.into_values().collect())
    }

    /// All elements that are one with this one, itself among them.
    fn with(&self, flat: Flat) -> &BTreeSet<Flat> {
        &self.sets[self.set_of[&flat]]
    }
}

/// Who lies where, or refusal 7 for the smallest flat that lies outside.
fn holders(card: &Card) -> Result<Holders, Refusal> {
    let mut holders = vec![BTreeSet::new(); card.cells() as usize];
    for flat in flats(card) {
        for cell in card.cells_of(flat)? {
            holders[cell.0 as usize].insert(flat);
        }
    }
    Ok(holders)
}

/// Refusal 8, if two elements that are not one share a cell: y is the
/// smallest flat sharing a cell with a smaller one that is not one with it, x
/// the smallest that shares with y and is not one with it, and the cell the
/// smallest they share.
fn clash(holders: &[BTreeSet<Flat>], classes: &Classes) -> Option<Refusal> {
    // All that come before it in the cell are one with the first of the cell,
    // so no smaller flat there shares it with a smaller one it is not one with.
    let second = |flats: &BTreeSet<Flat>| {
        let first = classes.with(*flats.first()?);
        flats.difference(first).next().copied()
    };
    let y = holders.iter().filter_map(second).min()?;
    let one = classes.with(y);
    let with_y = holders.iter().filter(|flats| flats.contains(&y));
    let x = *with_y.flatten().filter(|x| !one.contains(x)).min()?;
    let both = |flats: &BTreeSet<Flat>| flats.contains(&x) && flats.contains(&y);
    let cell = holders.iter().position(both)?;
    Some(Refusal {
        number: CELL_SHARED,
        details: [x.0, y.0, cell as u64],
    })
}

/// Fills the table for an admitted card: refusals 11, 7, 8.
/// The cells are all 0 at 7 and 8, the owners otherwise, each the smallest of
/// those that are one with it.
fn fill(card: &Card, table: &mut [u64]) -> Result<[u64; 3], Refusal> {
    let cells = card.cells() as u64;
    let Some(own) = table.get_mut(..cells as usize) else {
        return Err(Refusal::with(TOO_SHORT, cells, 0));
    };
    own.fill(0);
    let holders = holders(card)?;
    let classes = Classes::of(card);
    if let Some(refusal) = clash(&holders, &classes) {
        return Err(refusal);
    }
    let shown = |flats: &BTreeSet<Flat>| classes.with(*flats.first()?).first().copied();
    for (entry, flats) in own.iter_mut().zip(&holders) {
        *entry = shown(flats).map_or(0, |flat| flat.0 + 1);
    }
    let occupied = holders.iter().filter(|flats| !flats.is_empty()).count();
    Ok([card.elements() as u64, occupied as u64, cells])
}

pub fn verdict(card: &Card, table: &mut [u64]) -> Result<[u64; 3], Refusal> {
    card.admitted()?;
    fill(card, table)
}

/// The smallest of the axes on which an asked coordinate lies outside.
fn asked_outside(space: &[u64; AXES], asked: &[u64]) -> Option<Refusal> {
    let axis = (0..asked.len()).find(|axis| asked[*axis] >= space[*axis])?;
    Some(Refusal::with(ASKED_OUTSIDE, axis as u64, 0))
}

fn owner(card: &Card, asked: &Coordinates, table: &mut [u64]) -> Result<[u64; 3], Refusal> {
    card.admitted()?;
    asked_outside(&card.space, asked).map_or(Ok(()), Err)?;
    fill(card, table)?;
    Ok([table[card.cell(asked).0 as usize], 0, 0])
}

/// The first cell and the length of the stretch: refusals 3, 4, 12, 11.
fn stretch(
    space: &[u64; AXES],
    axis: u64,
    asked: &Coordinates,
    length: u64,
) -> Result<[u64; 2], Refusal> {
    if axis >= AXES as u64 {
        return Err(Refusal::plain(WRONG_AXIS));
    }
    if !space_permitted(space) {
        return Err(Refusal::plain(WRONG_SPACE));
    }
    let asked = &asked[..=axis as usize];
    asked_outside(space, asked).map_or(Ok(()), Err)?;
    let cells = whole_product(space) as u64;
    if length < cells {
        return Err(Refusal::with(TOO_SHORT, cells, 0));
    }
    let under = whole_product(&space[asked.len()..]) as u64;
    let both = asked.iter().zip(space);
    let prefix = both.fold(0, |cell, (coordinate, length)| cell * length + coordinate);
    Ok([prefix * under, under])
}

fn numbers_of(result: Result<[u64; 3], Refusal>) -> (u64, [u64; 3]) {
    match result {
        Ok(details) => (0, details),
        Err(refusal) => (refusal.number, refusal.details),
    }
}

fn printed(result: Result<[u64; 3], Refusal>, digested: &[u64]) -> Answer {
    let (number, details) = numbers_of(result);
    Answer::beside(number, details, &[digest(digested)])
}

/// An answer with the whole of the lent table in the place of its digest.
fn whole((result, table): Judged) -> Answer {
    let (number, details) = numbers_of(result);
    Answer::beside(number, details, &table)
}

/// What a question comes to, and the lent table after it.
type Judged = (Result<[u64; 3], Refusal>, Vec<u64>);

/// A lent table of the last number's length; none beyond what may be lent.
pub fn lent_table(numbers: &[u64], most: u64) -> Option<Vec<u64>> {
    let length = *numbers.last()?;
    (length <= most).then(|| lent_entries(length))
}

fn judged_verdict(marks: Marks, numbers: &[Number], most: u64) -> Option<Judged> {
    let mut table = lent_table(&plain(numbers.get(Card::NUMBERS..)?)?, most)?;
    let card = Card {
        marks,
        ..Card::of(numbers)?
    };
    let result = verdict(&card, &mut table);
    Some((result, table))
}

fn judged_owner(marks: Marks, numbers: &[Number], most: u64) -> Option<Judged> {
    let rest = plain(numbers.get(Card::NUMBERS..)?)?;
    let mut table = lent_table(&rest, most)?;
    let card = Card {
        marks,
        ..Card::of(numbers)?
    };
    let result = owner(&card, rest.first_chunk()?, &mut table);
    Some((result, table))
}

pub fn answer_verdict(marks: Marks, numbers: &[Number], most: u64) -> Option<Answer> {
    let (result, table) = judged_verdict(marks, numbers, most)?;
    Some(printed(result, &table))
}

pub fn answer_owner(marks: Marks, numbers: &[Number], most: u64) -> Option<Answer> {
    let (result, table) = judged_owner(marks, numbers, most)?;
    Some(printed(result, &table))
}

/// The same two with whole tables.
pub fn whole_verdict(marks: Marks, numbers: &[Number], most: u64) -> Option<Answer> {
    judged_verdict(marks, numbers, most).map(whole)
}

pub fn whole_owner(marks: Marks, numbers: &[Number], most: u64) -> Option<Answer> {
    judged_owner(marks, numbers, most).map(whole)
}

pub fn answer_stretch(numbers: &[u64], most: u64) -> Option<Answer> {
    let table = lent_table(numbers, most)?;
    let (space, rest) = numbers.split_first_chunk()?;
    let (axis, rest) = rest.split_first()?;
    let result = stretch(space, *axis, rest.first_chunk()?, table.len() as u64);
    Some(match result {
        Ok([first, length]) => {
            let own = table.iter().skip(first as usize).take(length as usize);
            let own: Vec<u64> = own.copied().collect();
            printed(Ok([first, length, 0]), &own)
        }
        Err(refusal) => printed(Err(refusal), &[]),
    })
}

#[cfg(test)]
mod tests {
    use super::*;
    use crate::layout::{Cell, M_AXIS, NO_MARKS};
    use crate::lines::answer_line;
    use crate::loads::cards::{self, random_card};
    use crate::loads::random::Random;
    use crate::loads::reuse::{meeting_card, reused_card};
    use crate::loads::signed::signed_card;

    /// The verdict's number and details on a card with a table to spare, the
    /// table after it, and the number of cells.
    fn judged(card: &Card) -> (String, Vec<u64>, usize) {
        let cells = card.cells() as usize;
        let mut table = lent_entries(cells as u64 + 3);
        let answer = printed(verdict(card, &mut table), &[]).print();
        let plain = answer.split(" |").next().unwrap_or("").to_string();
        assert_eq!(table[cells..], lent_entries(cells as u64 + 3)[cells..]);
        (plain, table, cells)
    }

    fn says(card: &Card, wanted: &str) {
        let (said, table, cells) = judged(card);
        assert_eq!(said, wanted);
        if said.starts_with("7 ") || said.starts_with("8 ") {
            assert!(table[..cells].iter().all(|entry| *entry == 0));
        }
    }

    #[test]
    fn tile_x_of_the_sheet() {
        let card = cards::tile_x();
        says(&card, "0 128 256 704");
        let (_, table, _) = judged(&card);
        assert_eq!((table[447], table[703], table[0]), (128, 128, 0));
        let mut short = card;
        short.space[1] = 10;
        says(&short, "7 8 1 0");
        let mut shared = card;
        shared.replica_slots[0].stride = 1;
        says(&shared, "8 0 8 384");
    }

    #[test]
    fn other_cards_of_the_sheet() {
        let mut card = cards::sixty_five();
        card.space[M_AXIS] = 72;
        says(&card, "7 64 7 0");
        card.space[M_AXIS] = 73;
        says(&card, "0 65 65 73");
        says(&cards::figure_189(), "8 8 16 8");
    }

    #[test]
    fn the_accumulator_needs_more_than_the_programs_lend() {
        let card = cards::accumulator();
        says(&card, "0 28672 28672 28672");
        let short = Err(Refusal::with(11, 28_672, 0));
        for length in [0, 16_384, 28_671] {
            let mut table = lent_entries(length);
            assert_eq!(verdict(&card, &mut table), short);
            assert_eq!(table, lent_entries(length));
        }
        let asked = [0, 0, 0, 0, 0, 127, 223, 0];
        let mut table = lent_entries(28_672);
        assert_eq!(owner(&card, &asked, &mut table), Ok([28_672, 0, 0]));
        assert_eq!(owner(&card, &asked, &mut table[1..]), short);
    }

    #[test]
    fn what_may_be_lent_is_told() {
        let line = |length: u64| format!("stretch 1 1 1 1 1 1 1 1 0 0 0 0 0 0 0 0 0 {length}");
        for most in [0, 1, MOST_ENTRIES, 65_536] {
            for length in [0, 1, most, most + 1] {
                let said = answer_line(line(length).as_bytes(), most);
                let unknown = said.as_deref() == Some("?");
                assert_eq!(unknown, length > most, "{length} {most}");
            }
        }
    }

    #[test]
    fn the_owner_of_the_sheet() {
        let card = cards::scale_factors();
        let asked = [0, 0, 0, 0, 0, 37, 2, 0];
        assert_eq!(card.cell(&asked), Cell(150));
        let mut table = lent_entries(512);
        assert_eq!(owner(&card, &asked, &mut table), Ok([23, 0, 0]));
        let outside = [0, 0, 0, 1, 0, 128, 2, 0];
        assert_eq!(
            owner(&card, &outside, &mut []),
            Err(Refusal::with(12, 3, 0))
        );
        assert_eq!(
            owner(&card, &asked, &mut [0; 511]),
            Err(Refusal::with(11, 512, 0))
        );
    }

    #[test]
    fn last_row_first() {
        let mut card = cards::card_of(&[cards::iter(4, -1, 7)], &[]);
        card.space[M_AXIS] = 4;
        card.offset[M_AXIS] = 3;
        says(&card, "0 4 4 4");
        assert_eq!(judged(&card).1[..4], [4, 3, 2, 1]);
        assert_eq!(owner(&card, &[0; AXES], &mut [0; 4]), Ok([4, 0, 0]));
        card.offset[M_AXIS] = 2;
        says(&card, "7 3 7 0");
    }

    #[test]
    fn idle_copies_are_judged_before_12_and_11_and_touch_nothing() {
        let mut card = cards::tile_x();
        card.replica_slots[0].stride = 0;
        let mut table = lent_entries(703);
        let refused = Refusal::with(17, 0, 1);
        assert_eq!(verdict(&card, &mut table), Err(refused));
        assert_eq!(owner(&card, &[99; AXES], &mut table), Err(refused));
        card.space[1] = 1;
        assert_eq!(verdict(&card, &mut table), Err(refused));
        assert_eq!(table, lent_entries(703));
    }

    #[test]
    fn a_short_table_is_untouched() {
        let mut table = lent_entries(703);
        let refused = verdict(&cards::tile_x(), &mut table);
        assert_eq!(refused, Err(Refusal::with(11, 704, 0)));
        assert_eq!(table, lent_entries(703));
    }

    fn sets(sets: &[&[u64]]) -> Vec<BTreeSet<Flat>> {
        let set = |flats: &&[u64]| flats.iter().copied().map(Flat).collect();
        sets.iter().map(set).collect()
    }

    /// What refusal 8 names for these holders of cells, if these are one.
    fn named(holders: &[&[u64]], classes: &[&[u64]]) -> Option<[u64; 3]> {
        let refusal = clash(&sets(holders), &Classes::new(sets(classes)))?;
        assert_eq!(refusal.number, 8);
        Some(refusal.details)
    }

    const ALONE: &[&[u64]] = &[&[0], &[1], &[2], &[3], &[4], &[5], &[6], &[7]];

    #[test]
    fn x_is_the_smallest_shared_with_not_the_one_in_the_smallest_cell() {
        let holders: &[&[u64]] = &[&[3], &[], &[1, 2], &[0, 2], &[0, 2, 7]];
        assert_eq!(named(holders, ALONE), Some([0, 2, 3]));
    }

    #[test]
    fn elements_that_are_one_do_not_clash() {
        let holders: &[&[u64]] = &[&[0, 4], &[1, 5], &[], &[2, 6], &[3, 7]];
        let pairs: &[&[u64]] = &[&[0, 4], &[1, 5], &[2, 6], &[3, 7]];
        assert_eq!(named(holders, pairs), None);
        assert_eq!(named(holders, ALONE), Some([0, 4, 0]));
        let others: &[&[u64]] = &[&[0, 5], &[1, 4], &[2, 6], &[3, 7]];
        assert_eq!(named(holders, others), Some([0, 4, 0]));
        let but_one: &[&[u64]] = &[&[0, 4], &[1, 5], &[2, 6], &[3], &[7]];
        assert_eq!(named(holders, but_one), Some([3, 7, 4]));
    }

    #[test]
    fn y_and_x_are_not_one() {
        let pairs: &[&[u64]] = &[&[0, 1, 2], &[3, 4], &[5, 6, 7]];
        let holders: &[&[u64]] = &[&[5, 6, 7], &[0, 1, 2, 3, 4], &[3, 4], &[2]];
        assert_eq!(named(holders, pairs), Some([0, 3, 1]));
        // 3 shares cell 0 with 4, but they are one.
        let holders: &[&[u64]] = &[&[3, 4], &[4, 6], &[1, 3], &[0, 4]];
        assert_eq!(named(holders, pairs), Some([1, 3, 2]));
        // y of the largest cell, and a smaller cell where only others meet.
        let holders: &[&[u64]] = &[&[4, 5], &[0, 1], &[2, 4, 7], &[2, 3]];
        assert_eq!(named(holders, pairs), Some([2, 3, 3]));
    }

    /// The scale factors for two MMAs: the first iter reuses them.
    fn reused_scale_factors() -> Card {
        let shard = [
            cards::iter(2, 0, 6),
            cards::iter(32, 1, 5),
            cards::iter(4, 1, 6),
        ];
        let mut card = cards::card_of(&shard, &[cards::iter(4, 32, 5)]);
        card.marks[0] = true;
        card
    }

    #[test]
    fn scale_factors_are_reused() {
        let card = reused_scale_factors();
        says(&card, "0 256 512 512");
        let (_, table, _) = judged(&card);
        assert_eq!((table[150], table[511], table[0]), (23, 128, 1));
        let plain = Card {
            marks: NO_MARKS,
            ..card
        };
        says(&plain, "8 0 128 0");
        let past = Card {
            marks: [false, false, false, true, true, true, true, true],
            ..card
        };
        says(&past, "8 0 128 0");
        let both = Card {
            marks: [true, false, false, true, true, true, true, true],
            ..card
        };
        assert_eq!(judged(&both), judged(&card));
    }

    #[test]
    fn the_owner_shown_is_the_smallest_that_is_one() {
        // The marked iter is the fastest: 0 to 2 are one, 3 to 5, 6 to 8.
        let shard = [cards::iter(3, -2, 7), cards::iter(3, 0, 2)];
        let mut card = cards::card_of(&shard, &[]);
        (card.offset[M_AXIS], card.space[M_AXIS]) = (4, 6);
        card.marks[1] = true;
        says(&card, "0 9 3 6");
        assert_eq!(judged(&card).1[..6], [7, 0, 4, 0, 1, 0]);
        let asked = [0, 0, 0, 0, 0, 0, 0, 2];
        assert_eq!(owner(&card, &asked, &mut [0; 6]), Ok([4, 0, 0]));
        card.marks[1] = false;
        says(&card, "8 0 1 4");
    }

    #[test]
    fn classes_that_meet_are_refused() {
        let shard = [
            cards::iter(2, 0, 0),
            cards::iter(3, 1, 7),
            cards::iter(2, 0, 0),
        ];
        let mut card = cards::card_of(&shard, &[cards::iter(2, 2, 7)]);
        card.marks = [true, false, true, false, false, false, false, true];
        says(&card, "8 0 4 2");
        card.replica_slots[0].stride = 3;
        card.space[M_AXIS] = 6;
        says(&card, "0 12 6 6");
        card.space[M_AXIS] = 5;
        says(&card, "7 4 7 0");
        card.marks[0] = false;
        card.space[M_AXIS] = 6;
        says(&card, "8 0 6 0");
        card.shard_slots[1].stride = 0;
        says(&card, "8 0 2 0");
    }

    #[test]
    fn a_marked_stride_is_judged_as_check_2() {
        let mut card = reused_scale_factors();
        card.shard_slots[0].stride = 1;
        card.shard_slots[1].axis = 8;
        let mut table = lent_entries(4);
        let refused = Err(Refusal::plain(2));
        assert_eq!(verdict(&card, &mut table), refused);
        assert_eq!(owner(&card, &[99; AXES], &mut table), refused);
        assert_eq!(table, lent_entries(4));
        card.shard_count = 9;
        assert_eq!(verdict(&card, &mut table), Err(Refusal::plain(1)));
    }

    #[test]
    fn the_stretch_of_the_page() {
        let says = |line: &str, wanted: &str| {
            let said = answer_line(line.as_bytes(), MOST_ENTRIES);
            assert_eq!(said.as_deref(), Some(wanted));
        };
        says(
            "stretch 1 11 32 1 1 1 1 2 1 0 6 99 0 0 0 0 0 704",
            "0 384 64 0 | 2080886080",
        );
        says(
            "stretch 1 11 32 1 1 1 1 2 1 0 6 99 0 0 0 0 0 703",
            "11 704 0 0 | 0",
        );
        says(
            "stretch 1 11 32 1 1 1 1 2 1 0 11 99 0 0 0 0 0 0",
            "12 1 0 0 | 0",
        );
        says(
            "stretch 1 11 32 1 1 1 0 2 1 0 11 99 0 0 0 0 0 0",
            "4 0 0 0 | 0",
        );
        says(
            "stretch 1 11 32 1 1 1 0 2 8 0 11 99 0 0 0 0 0 0",
            "3 0 0 0 | 0",
        );
        says("stretch 1 11 32 1 1 1 1 2 1 0 6 99 0 0 0 0 0 16385", "?");
        says(
            "stretch 1 1 1 1 1 1 1 1 7 0 0 0 0 0 0 0 0 1",
            "0 0 1 0 | 1000000",
        );
    }

    /// Demand 3's words, on whatever the random cards give.
    #[test]
    fn approved_exactly_when_all_lie_inside_and_none_share() {
        let mut random = Random::new(8);
        for at in 0..600 {
            let make = [random_card, signed_card][at % 2];
            let card = make(&mut random);
            if card.admitted().is_err() || card.elements() * card.copies() > 4_096 {
                continue;
            }
            let (said, table, cells) = judged(&card);
            let flats = || (0..card.elements() as u64).map(Flat);
            let inside = flats().all(|flat| card.cells_of(flat).is_ok());
            let own = |flat| BTreeSet::from_iter(card.cells_of(flat).unwrap_or_default());
            let sizes = flats().map(|flat| own(flat).len()).sum::<usize>();
            let all: BTreeSet<Cell> = flats().flat_map(own).collect();
            assert_eq!(said.starts_with("0 "), inside && sizes == all.len());
            if said.starts_with("0 ") {
                let occupied = table[..cells].iter().filter(|entry| **entry > 0);
                assert_eq!(occupied.count(), all.len());
                let held = |flat: Flat| {
                    own(flat)
                        .iter()
                        .all(|cell| table[cell.0 as usize] == flat.0 + 1)
                };
                assert!(flats().all(held));
            }
        }
    }

    /// The same words with marks: whether two elements are one is asked of
    /// each pair, and refusal 8 is searched for from the smallest flats on.
    #[test]
    fn approved_exactly_when_only_those_share_that_are_one() {
        let mut random = Random::new(26);
        for at in 0..400 {
            let make = [reused_card, meeting_card][at % 2];
            let card = make(&mut random);
            if card.admitted().is_err() || card.elements() > 128 {
                continue;
            }
            let own = |flat| card.cells_of(flat).map(BTreeSet::from_iter);
            let cells: Result<Vec<BTreeSet<Cell>>, Refusal> = flats(&card).map(own).collect();
            let Ok(cells) = cells else {
                assert!(judged(&card).0.starts_with("7 "));
                continue;
            };
            let one = |x: usize, y: usize| differ_only_marked(&card, x as u64, y as u64);
            let shared = |x: usize, y: usize| cells[x].intersection(&cells[y]).next();
            let meet = |x: usize, y: usize| shared(x, y).filter(|_| !one(x, y));
            let pairs = (0..cells.len()).flat_map(|y| (0..y).map(move |x| (x, y)));
            let first = pairs.clone().find_map(|(x, y)| Some((x, y, meet(x, y)?.0)));
            let (said, table, _) = judged(&card);
            if let Some((x, y, cell)) = first {
                assert_eq!(said, format!("8 {x} {y} {cell}"));
                continue;
            }
            assert!(said.starts_with("0 "));
            for (y, cells) in cells.iter().enumerate() {
                let smallest = (0..=y).find(|x| one(*x, y)).unwrap() as u64;
                let entry = |cell: &Cell| table[cell.0 as usize];
                assert!(cells.iter().all(|cell| entry(cell) == smallest + 1));
            }
        }
    }

    /// Whether components that differ are all marked.
    fn differ_only_marked(card: &Card, x: u64, y: u64) -> bool {
        let mut rest = (x, y);
        let mut one = true;
        for (k, iter) in card.shard().iter().enumerate().rev() {
            one &= card.marks[k] || rest.0 % iter.extent == rest.1 % iter.extent;
            rest = (rest.0 / iter.extent, rest.1 / iter.extent);
        }
        one
    }
}
