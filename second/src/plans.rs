//! A carrier's plan (document 02, request 13): a list of copies, cell to
//! cell, that turns one layout into another in one space. It is checked by
//! running it, or written down cell by cell.

use crate::layout::{
    space_permitted, Card, Marks, Refusal, SHAPE_NOT_ADMITTED, TOO_SHORT, WRONG_NUMBER, WRONG_SPACE,
};
use crate::lines::{digest, plain, Answer, Number};
use crate::verdict::verdict;
use std::collections::{BTreeMap, BTreeSet};

/// Refusals: a copy outside or a plan that ends wrongly, and occupied cells
/// that overlap.
const WRONG_PLAN: u64 = 21;
const OVERLAP: u64 = 23;

/// The programs take at most so many numbers of a plan that is checked, and
/// lend at most so many for each entry of a table to one that is written.
const MOST_NUMBERS: u64 = 256;
const NUMBERS_AN_ENTRY: u64 = 2;

/// What the first entry of each table and the first number of a plan's memory
/// is before the question; each later one is 1 more.
const FIRST_TABLE: u64 = 1_000_000;
const SECOND_TABLE: u64 = 3_000_000;
const PLAN: u64 = 2_000_000;

/// What each cell of a table holds: the flat of an owner plus 1, or 0.
pub type Held = Vec<u64>;

/// The number and the details of an answer, and what the cells of the first
/// and of the second table hold after it.
type Outcome = (Result<[u64; 3], Refusal>, [Held; 2]);

/// A refusal that leaves the cells of both tables empty.
fn emptied(refusal: Refusal, cells: usize) -> Outcome {
    (Err(refusal), [vec![0; cells], vec![0; cells]])
}

/// The cells that hold something, rising, and what they hold.
fn occupied(held: &[u64]) -> impl Iterator<Item = (u64, u64)> + '_ {
    let cells = held.iter().enumerate();
    cells
        .filter(|(_, owner)| **owner > 0)
        .map(|(cell, owner)| (cell as u64, *owner))
}

/// How many cells there are, or refusal 4 or 11: one space, and two tables
/// that have room for it.
fn room([first, second]: &[Card; 2], tables: &[Vec<u64>; 2]) -> Result<usize, Refusal> {
    if first.space != second.space || !space_permitted(&first.space) {
        return Err(Refusal::plain(WRONG_SPACE));
    }
    let cells = first.cells() as usize;
    if tables.iter().any(|table| table.len() < cells) {
        return Err(Refusal::with(TOO_SHORT, cells as u64, 0));
    }
    Ok(cells)
}

/// The owners of both cards, or the refusal of the first, of the second, 2
/// for a reuse mark on either, or 9 where one has more elements. For cards of
/// one permitted space with so many cells.
fn owners(cards: &[Card; 2], cells: usize) -> Result<[Held; 2], Refusal> {
    let mut owners = [vec![0; cells], vec![0; cells]];
    for (card, own) in cards.iter().zip(&mut owners) {
        verdict(card, own)?;
    }
    if cards.iter().any(Card::reuses) {
        return Err(Refusal::plain(WRONG_NUMBER));
    }
    let [first, second] = cards;
    if first.elements() != second.elements() {
        return Err(Refusal::plain(SHAPE_NOT_ADMITTED));
    }
    Ok(owners)
}

/// A question on two cards: the checks that both questions have, and then
/// what comes of the owners. Entries past the cells stay.
fn ask(
    cards: &[Card; 2],
    tables: &mut [Vec<u64>; 2],
    question: impl FnOnce([Held; 2]) -> Outcome,
) -> Result<[u64; 3], Refusal> {
    let cells = room(cards, tables)?;
    let (said, left) = match owners(cards, cells) {
        Ok(owners) => question(owners),
        Err(refusal) => emptied(refusal, cells),
    };
    for (table, left) in tables.iter_mut().zip(&left) {
        table[..cells].copy_from_slice(left);
    }
    said
}

/// Refusal 21 for the first copy that names a cell outside; a number left
/// over is a copy that does.
fn outside(plan: &[u64], cells: usize) -> Option<Refusal> {
    let inside = |copy: &[u64]| copy.len() == 2 && copy.iter().all(|cell| *cell < cells as u64);
    let index = plan.chunks(2).position(|copy| !inside(copy))?;
    Some(Refusal::with(WRONG_PLAN, index as u64 + 1, 0))
}

/// Runs the plan on the first owners and looks whether the second's cells
/// hold theirs.
fn carry(plan: &[u64], [mut held, wanted]: [Held; 2]) -> Outcome {
    if let Some(refusal) = outside(plan, held.len()) {
        return emptied(refusal, held.len());
    }
    for copy in plan.chunks(2) {
        held[copy[1] as usize] = held[copy[0] as usize];
    }
    let wrong = occupied(&wanted).find(|(cell, owner)| held[*cell as usize] != *owner);
    let said = match wrong {
        None => Ok([0; 3]),
        Some((cell, _)) => Err(Refusal::with(WRONG_PLAN, 0, cell)),
    };
    (said, [held, wanted])
}

/// For each cell of the second owners, rising, a copy from the smallest cell
/// of the first that has the same owner.
fn plain_plan([first, second]: &[Held; 2]) -> Vec<u64> {
    let mut places: BTreeMap<u64, BTreeSet<u64>> = BTreeMap::new();
    for (cell, owner) in occupied(first) {
        places.entry(owner).or_default().insert(cell);
    }
    let copy = |(cell, owner)| Some([*places.get(&owner)?.first()?, cell]);
    occupied(second).filter_map(copy).flatten().collect()
}

/// Refusal 23 with the smallest cell that is occupied in both.
fn overlap([first, second]: &[Held; 2]) -> Option<Refusal> {
    let shared = |(cell, _): &(u64, u64)| second[*cell as usize] > 0;
    let (cell, _) = occupied(first).find(shared)?;
    Some(Refusal::with(OVERLAP, cell, 0))
}

/// Writes the plan into its memory: refusals 23 and 11, which leave it alone.
fn write(memory: &mut [u64], owners: [Held; 2]) -> Outcome {
    let cells = owners[0].len();
    if let Some(refusal) = overlap(&owners) {
        return emptied(refusal, cells);
    }
    let needed = 2 * occupied(&owners[1]).count();
    if memory.len() < needed {
        return emptied(Refusal::with(TOO_SHORT, needed as u64, 0), cells);
    }
    let plan = plain_plan(&owners);
    memory[..plan.len()].copy_from_slice(&plan);
    (Ok([plan.len() as u64, 0, 0]), owners)
}

/// The owners of two cards that a plan can be asked about; none where one of
/// the checks on them refuses.
pub fn both_owners(cards: &[Card; 2]) -> Option<[Held; 2]> {
    let [first, second] = cards;
    let one_space = first.space == second.space && space_permitted(&first.space);
    one_space
        .then(|| owners(cards, first.cells() as usize).ok())
        .flatten()
}

/// The numbers that are written for these owners with memory to spare; none
/// where they overlap.
pub fn written(owners: &[Held; 2]) -> Option<Vec<u64>> {
    match overlap(owners) {
        Some(_) => None,
        None => Some(plain_plan(owners)),
    }
}

/// The two cards with their marks, and the plain numbers that follow them.
fn two_cards(marks: [Marks; 2], numbers: &[Number]) -> Option<([Card; 2], Vec<u64>)> {
    let card = |at: usize| {
        Some(Card {
            marks: marks[at],
            ..Card::of(numbers.get(at * Card::NUMBERS..)?)?
        })
    };
    let rest = numbers.get(2 * Card::NUMBERS..)?;
    Some(([card(0)?, card(1)?], plain(rest)?))
}

/// Lent memory of this length; none beyond what may be lent.
fn lent(first: u64, length: u64, most: u64) -> Option<Vec<u64>> {
    (length <= most).then(|| (first..first + length).collect())
}

fn lent_tables(lengths: [u64; 2], most: u64) -> Option<[Vec<u64>; 2]> {
    let [first, second] = lengths;
    Some([
        lent(FIRST_TABLE, first, most)?,
        lent(SECOND_TABLE, second, most)?,
    ])
}

fn printed(said: Result<[u64; 3], Refusal>, lent: &[&[u64]]) -> Answer {
    let (number, details) = match said {
        Ok(details) => (0, details),
        Err(refusal) => (refusal.number, refusal.details),
    };
    let digests: Vec<u64> = lent.iter().map(|lent| digest(lent)).collect();
    Answer::beside(number, details, &digests)
}

pub fn answer_carry(marks: [Marks; 2], numbers: &[Number], most: u64) -> Option<Answer> {
    let (cards, rest) = two_cards(marks, numbers)?;
    let (count, rest) = rest.split_first()?;
    if *count > MOST_NUMBERS {
        return None;
    }
    let (plan, lengths) = rest.split_at_checked(*count as usize)?;
    let mut tables = lent_tables(lengths.try_into().ok()?, most)?;
    let said = ask(&cards, &mut tables, |owners| carry(plan, owners));
    Some(printed(said, &[&tables[0], &tables[1]]))
}

pub fn answer_plan(marks: [Marks; 2], numbers: &[Number], most: u64) -> Option<Answer> {
    let (cards, rest) = two_cards(marks, numbers)?;
    let &[length, first, second] = &rest[..] else {
        return None;
    };
    let mut memory = lent(PLAN, length, NUMBERS_AN_ENTRY * most)?;
    let mut tables = lent_tables([first, second], most)?;
    let said = ask(&cards, &mut tables, |owners| write(&mut memory, owners));
    Some(printed(said, &[&memory, &tables[0], &tables[1]]))
}

#[cfg(test)]
mod tests {
    use super::*;
    use crate::layout::{M_AXIS, NO_MARKS};
    use crate::lines::{answer_line, whole};
    use crate::loads::cards::{card_of, iter};
    use crate::loads::plans::{any_pair, carry_question, plan_question, Pair};
    use crate::loads::random::Random;
    use crate::verdict::MOST_ENTRIES;

    /// So many elements on m from a cell on, in so many cells.
    fn run(elements: u64, stride: i32, first: i32, cells: u64) -> Card {
        let mut card = card_of(&[iter(elements, stride, 7)], &[]);
        card.offset[M_AXIS] = first.into();
        card.space[M_AXIS] = cells;
        card
    }

    fn carried(pair: &Pair, plan: &[u64], lengths: [u64; 2]) -> String {
        let line = carry_question(pair, false, plan, lengths).bytes();
        answer_line(&line, MOST_ENTRIES).unwrap_or_default()
    }

    fn planned(pair: &Pair, rest: [u64; 3]) -> String {
        let line = plan_question(pair, false, rest).bytes();
        answer_line(&line, MOST_ENTRIES).unwrap_or_default()
    }

    /// Two elements, and the same two turned round, with a cell to spare.
    fn turn() -> Pair {
        [run(2, 1, 0, 3), run(2, -1, 1, 3)]
    }

    #[test]
    fn a_turn_of_two_elements() {
        // The cells hold 1 2 0, then 1 2 1, 2 2 1 and 2 1 1; wanted is 2 1.
        let said = carried(&turn(), &[0, 2, 1, 0, 2, 1], [3, 3]);
        assert_eq!(said, "0 0 0 0 | 7 4");
        // Entry 3 of each table stays: 4 times 1,000,003 and 3,000,003.
        let said = carried(&turn(), &[0, 2, 1, 0, 2, 1], [4, 4]);
        assert_eq!(said, "0 0 0 0 | 4000019 12000016");
        // Nothing need be done to leave them as they are.
        let [first, _] = turn();
        assert_eq!(carried(&[first, first], &[], [3, 3]), "0 0 0 0 | 5 5");
        assert_eq!(carried(&turn(), &[], [3, 3]), "21 0 0 0 | 5 4");
    }

    #[test]
    fn a_plan_in_the_wrong_order() {
        // 1 2 0, then 2 2 0, 2 2 2 and 2 2 2: element 0 is lost.
        let said = carried(&turn(), &[1, 0, 0, 2, 2, 1], [3, 3]);
        assert_eq!(said, "21 0 1 0 | 12 4");
        // 1 2 0, then 1 1 0: cell 0 is the first wrong one.
        assert_eq!(carried(&turn(), &[0, 1], [3, 3]), "21 0 0 0 | 3 4");
    }

    #[test]
    fn a_number_left_over_is_a_copy_in_its_place() {
        for (plan, wanted) in [
            (&[0][..], 1),
            (&[0, 2, 1], 2),
            (&[0, 2, 1, 0, 2], 3),
            (&[0, 2, 1, 0, 2, 1, 0], 4),
            (&[0, 3, 1, 0, 2], 1),
            (&[0, 2, 3, 0, 2], 2),
            (&[0, 2, 1, 0, u64::MAX], 3),
        ] {
            let said = carried(&turn(), plan, [3, 4]);
            assert_eq!(said, format!("21 {wanted} 0 0 | 0 12000012"));
        }
    }

    #[test]
    fn copies_outside_are_looked_for_before_any_is_run() {
        for (plan, wanted) in [
            ([3, 0, 0, 0], 1),
            ([0, 3, 0, 0], 1),
            ([0, 0, 3, 0], 2),
            ([0, 0, 0, 3], 2),
            ([9, 9, 9, 9], 1),
            ([1, 0, 1 << 32, 0], 2),
            ([1, 0, 0, (1 << 32) + 1], 2),
            ([1, 0, 0, u64::MAX], 2),
            ([1 << 63, 0, 0, 0], 1),
        ] {
            let said = carried(&turn(), &plan, [3, 3]);
            assert_eq!(said, format!("21 {wanted} 0 0 | 0 0"), "{plan:?}");
        }
    }

    #[test]
    fn nothing_can_be_copied_too() {
        // 1 2 0 0, then 0 2 0 0 and 0 2 1 0 or 0 2 0 0: only what the second
        // occupies is looked at.
        let pair = [run(2, 1, 0, 4), run(2, 1, 1, 4)];
        assert_eq!(carried(&pair, &[1, 2, 0, 1, 3, 0], [4, 4]), "0 0 0 0 | 8 8");
        assert_eq!(carried(&pair, &[3, 0, 0, 1], [4, 4]), "21 0 1 0 | 0 8");
        assert_eq!(carried(&pair, &[0, 1, 1, 2], [4, 4]), "21 0 2 0 | 6 8");
    }

    #[test]
    fn a_plain_plan() {
        // The second holds 0 0 2 1: copies 1 to 2 and 0 to 3.
        let pair = [run(2, 1, 0, 4), run(2, -1, 3, 4)];
        assert_eq!(planned(&pair, [4, 4, 4]), "0 4 0 0 | 17 5 10");
        assert_eq!(planned(&pair, [6, 4, 4]), "0 4 0 0 | 22000067 5 10");
        // Too short by one: 2,000,000 + 4,000,002 + 6,000,006 stay.
        assert_eq!(planned(&pair, [3, 4, 4]), "11 4 0 0 | 12000008 0 0");
        assert_eq!(planned(&pair, [0, 4, 5]), "11 4 0 0 | 0 0 15000020");
        assert_eq!(carried(&pair, &[1, 2, 0, 3], [4, 4]), "0 0 0 0 | 15 10");
    }

    #[test]
    fn the_smallest_cell_with_the_owner() {
        // The first holds 1 2 1 2, its first copies being those at 2 and 3.
        let mut first = card_of(&[iter(2, 1, 7)], &[iter(2, -2, 7)]);
        (first.offset[M_AXIS], first.space[M_AXIS]) = (2, 8);
        let mut second = card_of(&[iter(2, -1, 7)], &[iter(2, 2, 7)]);
        (second.offset[M_AXIS], second.space[M_AXIS]) = (5, 8);
        let owners = both_owners(&[first, second]).unwrap();
        assert_eq!(owners[0], [1, 2, 1, 2, 0, 0, 0, 0]);
        assert_eq!(owners[1], [0, 0, 0, 0, 2, 1, 2, 1]);
        assert_eq!(written(&owners).unwrap(), [1, 4, 0, 5, 1, 6, 0, 7]);
        assert_eq!(planned(&[first, second], [8, 8, 8])[..9], *"0 8 0 0 |");
    }

    #[test]
    fn overlaps_come_before_the_plan_is_too_short() {
        assert_eq!(planned(&turn(), [0, 3, 3]), "23 0 0 0 | 0 0 0");
        let pair = [run(3, 1, 0, 9), run(3, 1, 2, 9)];
        assert_eq!(planned(&pair, [1, 9, 9]), "23 2 0 0 | 2000000 0 0");
        let pair = [run(3, 1, 0, 9), run(3, 1, 3, 9)];
        assert_eq!(planned(&pair, [1, 9, 9]), "11 6 0 0 | 2000000 0 0");
        assert_eq!(planned(&pair, [5, 9, 9])[..8], *"11 6 0 0");
        assert_eq!(planned(&pair, [6, 9, 9])[..7], *"0 6 0 0");
        // Cell 8 alone is shared.
        let pair = [run(2, 8, 0, 9), run(2, -1, 8, 9)];
        assert_eq!(planned(&pair, [9, 9, 9])[..8], *"23 8 0 0");
    }

    /// A question and what it has left in eight cells: `untouched` or empty.
    fn faulty(said: String, number: &str, untouched: bool) {
        let left = match untouched {
            true => "36000168 108000168",
            false => "0 0",
        };
        assert!(said.starts_with(&format!("{number} ")), "{number}: {said}");
        assert!(said.ends_with(left), "{number}: {said}");
    }

    #[test]
    fn checks_come_in_their_order() {
        let still = iter(1, 0, 7);
        let of = |first: i32| {
            let mut card = card_of(&[still, iter(2, 1, 7)], &[]);
            (card.offset[M_AXIS], card.space[M_AXIS]) = (first.into(), 8);
            card
        };
        // All is wrong; then one thing after the other is put right.
        let mut pair = [of(0), of(1)];
        let [first, second] = &mut pair;
        second.shard_slots[1].extent = 3;
        (first.marks[0], second.shard_count, second.space[0]) = (true, 0, 2);
        first.shard_slots[1].axis = 8;
        let mut plan = vec![0, 8, 0];
        let mut rest = [3, 8, 7];
        let both = |pair: &Pair, plan: &[u64], rest: [u64; 3]| {
            let [_, first, second] = rest;
            [carried(pair, plan, [first, second]), planned(pair, rest)]
        };
        let short = "36000168 84000112";
        for said in both(&pair, &plan, rest) {
            assert!(said.starts_with("4 0 0 0 |") && said.ends_with(short));
        }
        pair[1].space[0] = 1;
        for said in both(&pair, &plan, rest) {
            assert!(said.starts_with("11 8 0 0 |") && said.ends_with(short));
        }
        rest[2] = 8;
        let refused = |pair: &Pair, plan: &[u64], rest: [u64; 3], number: &str| {
            for said in both(pair, plan, rest) {
                faulty(said, number, false);
            }
        };
        refused(&pair, &plan, rest, "3 0 0 0");
        pair[0].shard_slots[1].axis = 7;
        refused(&pair, &plan, rest, "1 0 0 0");
        pair[1].shard_count = 2;
        refused(&pair, &plan, rest, "2 0 0 0");
        pair[0].marks[0] = false;
        pair[1].marks[0] = true;
        refused(&pair, &plan, rest, "2 0 0 0");
        pair[1].marks = [false, false, true, true, true, true, true, true];
        refused(&pair, &plan, rest, "9 0 0 0");
        pair[1].shard_slots[1].extent = 2;
        faulty(carried(&pair, &plan, [8, 8]), "21 1 0 0", false);
        faulty(planned(&pair, rest), "23 1 0 0", false);
        plan[1] = 7;
        faulty(carried(&pair, &plan, [8, 8]), "21 2 0 0", false);
        plan.push(1);
        assert_eq!(carried(&pair, &plan, [8, 8]), "21 0 2 0 | 11 8");
        assert_eq!(carried(&pair, &[1, 2, 0, 1], [8, 8]), "0 0 0 0 | 9 8");
        pair[1].offset[M_AXIS] = 2;
        faulty(planned(&pair, rest), "11 4 0 0", false);
        rest[0] = 4;
        // Copies 0 to 2 and 1 to 3.
        assert_eq!(planned(&pair, rest), "0 4 0 0 | 19 5 11");
    }

    #[test]
    fn each_card_is_refused_with_its_own_number_and_details() {
        let right = run(4, 1, 0, 8);
        let change = |change: fn(&mut Card)| {
            let mut card = right;
            change(&mut card);
            card
        };
        let wrong = [
            ("1 0 0 0", change(|card| card.replica_count = 5)),
            ("2 0 0 0", change(|card| card.offset[0] = 65_536)),
            ("2 0 0 0", change(|card| card.marks[0] = true)),
            ("3 0 0 0", change(|card| card.shard_slots[0].axis = 8)),
            ("5 0 0 0", {
                let mut card = right;
                card.replica_count = 1;
                card.replica_slots[0] = iter(65, 1, 7);
                card
            }),
            ("6 0 0 0", change(|card| card.swizzle.m = 9)),
            ("7 3 7 0", change(|card| card.offset[M_AXIS] = 5)),
            ("8 0 1 0", change(|card| card.shard_slots[0].stride = 0)),
            ("17 0 1 0", {
                let mut card = right;
                card.replica_count = 1;
                card.replica_slots[0] = iter(2, 0, 7);
                card
            }),
        ];
        for (number, card) in &wrong {
            for pair in [[*card, right], [right, *card]] {
                faulty(carried(&pair, &[0], [8, 8]), number, false);
                faulty(planned(&pair, [0, 8, 8]), number, false);
            }
            for (_, other) in &wrong {
                faulty(carried(&[*card, *other], &[], [8, 8]), number, false);
            }
        }
        let mut other = right;
        other.space = [1, 1, 1, 1, 1, 2, 1, 4];
        for pair in [[right, other], [other, right]] {
            faulty(carried(&pair, &[], [8, 8]), "4 0 0 0", true);
            faulty(planned(&pair, [0, 8, 8]), "4 0 0 0", true);
        }
        let large = change(|card| card.space[0] = 8_193);
        faulty(carried(&[large, large], &[], [8, 8]), "4 0 0 0", true);
        let many = change(|card| card.space[0] = 8_192);
        faulty(carried(&[many, many], &[], [8, 8]), "11 65536 0 0", true);
    }

    #[test]
    fn limits_of_the_lines() {
        let pair = turn();
        let numbers = [pair[0].numbers(), pair[1].numbers()].concat();
        let unknown = |word: &str, before: &[u64], rest: &[u64], most: u64| {
            let numbers = [whole(before), numbers.clone(), whole(rest)].concat();
            let texts: Vec<String> = numbers.iter().map(ToString::to_string).collect();
            let line = format!("{word} {}", texts.join(" "));
            answer_line(line.as_bytes(), most).as_deref() == Some("?")
        };
        for most in [3, 16_384, 65_536] {
            for (at, limit) in [2 * most, most, most].into_iter().enumerate() {
                let mut rest = [3; 3];
                rest[at] = limit;
                assert!(!unknown("plan", &[], &rest, most));
                rest[at] = limit + 1;
                assert!(unknown("plan", &[], &rest, most));
                rest[0] = 0;
                assert_eq!(unknown("carry", &[], &rest, most), at > 0);
            }
        }
        for (count, there) in [
            (0, 0),
            (1, 1),
            (256, 256),
            (257, 257),
            (2, 1),
            (1, 2),
            (0, 1),
            (1 << 32, 0),
            (u64::MAX, 0),
            (256, 255),
            (255, 256),
        ] {
            let rest = [vec![count], vec![0; there], vec![3, 3]].concat();
            let wrong = count > 256 || count != there as u64;
            assert_eq!(unknown("carry", &[], &rest, 16_384), wrong);
            assert_eq!(unknown("carry*", &[255, 0], &rest, 16_384), wrong);
            assert!(unknown("carry", &[255, 0], &rest, 16_384));
        }
        for marks in [[0, 255], [255, 255], [256, 0], [0, 256], [256, u64::MAX]] {
            let wrong = marks.iter().any(|marks| *marks > 255);
            assert_eq!(unknown("plan*", &marks, &[6, 3, 3], 16_384), wrong);
            assert_eq!(unknown("carry*", &marks, &[0, 3, 3], 16_384), wrong);
        }
        assert!(unknown("plan", &[], &[6, 3], 16_384));
        assert!(unknown("carry", &[], &[0, 3], 16_384));
        assert!(unknown("carry", &[], &[], 16_384));
        assert!(unknown("plan*", &[0], &[6, 3, 3], 16_384));
    }

    /// What the documents promise, on whatever the random pairs give.
    #[test]
    fn plans_that_are_written_are_accepted() {
        let mut random = Random::new(40);
        let (mut apart, mut over) = (0, 0);
        for _ in 0..600 {
            let pair = any_pair(&mut random);
            if pair[0].cells() > 1_024 {
                continue;
            }
            let Some(owners) = both_owners(&pair) else {
                continue;
            };
            let cells = owners[0].len();
            let shared = |cell: &usize| owners[0][*cell] > 0 && owners[1][*cell] > 0;
            let mut memory = vec![7; 2 * cells];
            let (said, left) = write(&mut memory, owners.clone());
            if let Some(cell) = (0..cells).find(shared) {
                assert_eq!(said, Err(Refusal::with(23, cell as u64, 0)));
                assert_eq!(left, [vec![0; cells], vec![0; cells]]);
                assert_eq!(memory, vec![7; 2 * cells]);
                over += 1;
                continue;
            }
            apart += 1;
            let needed = 2 * owners[1].iter().filter(|owner| **owner > 0).count();
            assert_eq!(said, Ok([needed as u64, 0, 0]));
            assert_eq!(left, owners);
            assert!(memory[needed..].iter().all(|number| *number == 7));
            let plan = &memory[..needed];
            for copy in plan.chunks(2) {
                let [from, to] = [copy[0] as usize, copy[1] as usize];
                let owner = owners[1][to];
                assert!(owner > 0 && owners[0][from] == owner);
                assert!(!owners[0][..from].contains(&owner));
            }
            assert!(plan.chunks(2).is_sorted_by(|one, next| one[1] < next[1]));
            let (said, left) = carry(plan, owners.clone());
            assert_eq!(said, Ok([0; 3]));
            assert_eq!(left[1], owners[1]);
            // Nothing of the first is lost, and the second is all there.
            let both = owners[0].iter().zip(&owners[1]);
            let sum: Vec<u64> = both.map(|(one, other)| one + other).collect();
            assert_eq!(left[0], sum);
            // Each copy is needed.
            for at in (0..needed).step_by(2) {
                let without = [&plan[..at], &plan[at + 2..]].concat();
                let wrong = Err(Refusal::with(21, 0, plan[at + 1]));
                assert_eq!(carry(&without, owners.clone()).0, wrong);
            }
            let mut short = vec![7; needed - 1];
            let (said, left) = write(&mut short, owners.clone());
            assert_eq!(said, Err(Refusal::with(11, needed as u64, 0)));
            assert_eq!(left, [vec![0; cells], vec![0; cells]]);
            assert_eq!(short, vec![7; needed - 1]);
        }
        assert!(apart > 200 && over > 80, "{apart} {over}");
    }

    /// Each cell's way backwards: what it holds in the end is what the cell
    /// where the last copy to it came from held before that copy.
    #[test]
    fn copies_are_run_in_their_order() {
        fn holds(plan: &[u64], cell: u64, first: &[u64]) -> u64 {
            match plan.rchunks(2).next() {
                None => first[cell as usize],
                Some(copy) => {
                    let before = &plan[..plan.len() - 2];
                    let from = if copy[1] == cell { copy[0] } else { cell };
                    holds(before, from, first)
                }
            }
        }
        let mut random = Random::new(41);
        for _ in 0..300 {
            let cells = random.between(1, 12);
            let mut table = || -> Held { (0..cells).map(|_| random.below(4)).collect() };
            let owners = [table(), table()];
            let count = 2 * random.below(20);
            let plan: Vec<u64> = (0..count).map(|_| random.below(cells)).collect();
            let (said, [held, wanted]) = carry(&plan, owners.clone());
            assert_eq!(wanted, owners[1]);
            let last = (0..cells).map(|cell| holds(&plan, cell, &owners[0]));
            assert_eq!(held, Vec::from_iter(last));
            let right = |cell: usize| wanted[cell] == 0 || wanted[cell] == held[cell];
            match (0..cells as usize).find(|cell| !right(*cell)) {
                None => assert_eq!(said, Ok([0; 3])),
                Some(cell) => assert_eq!(said, Err(Refusal::with(21, 0, cell as u64))),
            }
        }
    }

    #[test]
    fn marks_past_the_count_are_ignored() {
        let mut pair = turn();
        for marks in [[2, 0], [0, 254], [254, 254]] {
            for (card, marks) in pair.iter_mut().zip(marks) {
                card.marks = std::array::from_fn(|k| marks >> k & 1 == 1);
            }
            let said = carried(&pair, &[0, 2, 1, 0, 2, 1], [3, 3]);
            assert_eq!(said, "0 0 0 0 | 7 4");
        }
        // Two elements that are one are approved, but not here.
        let mut one = run(2, 0, 0, 3);
        one.marks[0] = true;
        assert_eq!(carried(&[one, one], &[], [3, 3]), "2 0 0 0 | 0 0");
        assert_eq!(planned(&[one, one], [0, 3, 3]), "2 0 0 0 | 0 0 0");
        one.marks = NO_MARKS;
        assert_eq!(carried(&[one, one], &[], [3, 3]), "8 0 1 0 | 0 0");
    }
}
