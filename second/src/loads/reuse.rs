//! Random layout cards with reuse marks: stride-0 iters put into cards of
//! every sort, which would clash but for the marks; marks that are refused,
//! marks that change nothing, and elements that meet and are not one.

use super::asked::{owner_on, place_on, random_spot, verdict_on};
use super::cards::{iter, loose, random_card, sound_card, spoil, tangled};
use super::copies::copied_card;
use super::larger::crossing;
use super::limits::{MARKS, STRIDES};
use super::random::Random;
use super::signed::{lower, signed_card, turn_some};
use crate::layout::{Card, Iter, Marks, AXES, SHARD_SLOTS};
use crate::lines::{whole, Number};

/// Cards that are not of full size are given no more elements than this.
const FEW: u64 = 2_048;

type MakeCard = fn(&mut Random) -> Card;

/// MARKS as it stands on a line: bit k marks shard iter k.
pub fn number_of(marks: &Marks) -> u64 {
    let bits = marks.iter().rev();
    bits.fold(0, |number, bit| 2 * number + u64::from(*bit))
}

/// How many of the slots are used; a spoiled count may be any number.
fn used(card: &Card) -> usize {
    (card.shard_count as usize).clamp(1, SHARD_SLOTS)
}

/// Puts an iter into the shard; those after it keep their marks.
fn insert(card: &mut Card, at: usize, iter: Iter, marked: bool) {
    card.shard_count += 1;
    card.shard_slots[at..].rotate_right(1);
    card.marks[at..].rotate_right(1);
    (card.shard_slots[at], card.marks[at]) = (iter, marked);
}

/// Puts up to three marked iters of stride 0 anywhere into the shard, as
/// long as the elements do not become more than these.
pub fn reuse(random: &mut Random, card: &mut Card, most: u64) {
    for _ in 0..random.between(1, 3) {
        let extent = random.pick(&[1, 2, 2, 2, 3, 3, 4, 5]);
        let elements = card.elements().saturating_mul(extent.into());
        let few = elements <= most.into();
        if few && (1..SHARD_SLOTS as u64).contains(&card.shard_count) {
            let at = random.index(used(card) + 1);
            let still = iter(extent, 0, random.below(AXES as u64));
            insert(card, at, still, true);
        }
    }
}

/// Marks in the slots past the count, which must be ignored.
pub fn mark_past(random: &mut Random, card: &mut Card) {
    let used = used(card);
    for mark in &mut card.marks[used..] {
        *mark = random.once_in(2);
    }
}

/// A mark too many or too few, or one on a stride that it does not allow.
fn change(random: &mut Random, card: &mut Card) {
    let at = random.index(used(card));
    let (iter, mark) = (&mut card.shard_slots[at], &mut card.marks[at]);
    match random.below(12) {
        0 | 1 => *mark = !*mark,
        2 => (iter.stride, *mark) = (random.pick(&[-1, 1]), true),
        3 => (iter.stride, *mark) = (random.pick(STRIDES), true),
        4 => {
            // An iter of extent 1 moves nothing, but its stride is judged.
            iter.extent = 1;
            *mark = true;
        }
        5 => (iter.extent, iter.stride, *mark) = (1, 0, true),
        6 => (iter.stride, *mark) = (0, false),
        7 => (iter.stride, *mark) = (0, true),
        8 => card.marks = [true; SHARD_SLOTS],
        9 => card.marks = card.marks.map(|_| random.once_in(2)),
        _ => lower(random, card),
    }
}

/// Marks on all iters that have stride 0 anyhow.
fn mark_still(card: &mut Card) {
    let used = used(card);
    for (iter, mark) in card.shard_slots[..used].iter().zip(&mut card.marks) {
        *mark |= iter.stride == 0;
    }
}

/// A card of any sort, with iters that are reused.
pub fn reused_card(random: &mut Random) -> Card {
    let make: MakeCard = random.pick(&[
        sound_card,
        sound_card,
        sound_card,
        random_card,
        signed_card,
        signed_card,
        copied_card,
    ]);
    let mut card = make(random);
    // Where nothing stands still, marks can only be refused or ignored.
    let still = !random.once_in(6);
    if still {
        reuse(random, &mut card, FEW);
    }
    if random.once_in(2) {
        mark_still(&mut card);
    }
    if !still || random.once_in(3) {
        change(random, &mut card);
    }
    if random.once_in(2) {
        mark_past(random, &mut card);
    }
    if random.once_in(10) {
        spoil(random, &mut card);
    }
    card
}

/// A small card in which elements meet that are not one, mostly.
pub fn meeting_card(random: &mut Random) -> Card {
    let mut card = match random.below(8) {
        0..=2 => tangled(random),
        3..=5 => loose(random),
        _ => crossing(random.between(3, 9), random.below(AXES as u64)),
    };
    turn_some(random, &mut card, 4);
    reuse(random, &mut card, FEW);
    match random.below(8) {
        0 => change(random, &mut card),
        1 => lower(random, &mut card),
        _ => mark_past(random, &mut card),
    }
    card
}

/// MARKS and then the numbers of the word without the star. Now and then
/// another MARKS, which may be past the limit or look alike when it is cut.
fn starred(random: &mut Random, card: &Card, numbers: Vec<Number>) -> Vec<Number> {
    let right = number_of(&card.marks);
    let marks = match random.below(48) {
        0 => random.around(MARKS),
        1 => right + (1 << random.pick(&[8, 8, 9, 16, 32, 63])),
        2 => random.hostile(),
        _ => right,
    };
    [whole(&[marks]), numbers].concat()
}

pub fn verdict(random: &mut Random, make: MakeCard) -> Vec<Number> {
    let card = make(random);
    let numbers = verdict_on(random, &card);
    starred(random, &card, numbers)
}

pub fn owner(random: &mut Random, make: MakeCard) -> Vec<Number> {
    let card = make(random);
    let numbers = owner_on(random, &card);
    starred(random, &card, numbers)
}

pub fn place(random: &mut Random, make: MakeCard) -> Vec<Number> {
    let card = make(random);
    let spot = random_spot(random, &card);
    let numbers = place_on(random, &card, &spot);
    starred(random, &card, numbers)
}

#[cfg(test)]
mod tests {
    use super::*;
    use crate::layout::NO_MARKS;
    use crate::verdict::answer_verdict;

    fn said(card: &Card) -> u64 {
        let numbers = [card.numbers(), whole(&[1 << 16])].concat();
        answer_verdict(card.marks, &numbers, 1 << 16).map_or(99, |answer| answer.number)
    }

    /// How often the verdict with the marks and the one without them are so.
    fn counted(seed: u64, make: MakeCard, with: u64, without: u64) -> usize {
        let mut random = Random::new(seed);
        let so = |card: &Card| {
            let plain = Card {
                marks: NO_MARKS,
                ..*card
            };
            said(card) == with && said(&plain) == without
        };
        let cards = (0..500).map(|_| make(&mut random));
        cards.filter(so).count()
    }

    #[test]
    fn marks_make_the_difference_often() {
        assert!(counted(20, reused_card, 0, 8) > 100);
        assert!(counted(21, reused_card, 8, 8) > 40);
        assert!(counted(22, reused_card, 2, 0) > 5);
        assert!(counted(22, reused_card, 2, 8) > 15);
        assert!(counted(23, meeting_card, 8, 8) > 200);
        assert!(counted(24, meeting_card, 0, 8) > 40);
    }

    #[test]
    fn inserted_iters_leave_the_others_their_marks() {
        let mut card = super::super::cards::tile_x();
        card.marks[1] = true;
        insert(&mut card, 1, iter(3, 0, 7), true);
        insert(&mut card, 3, iter(5, 0, 7), false);
        insert(&mut card, 6, iter(7, 0, 7), true);
        let extents = card.shard().iter().map(|iter| iter.extent);
        assert_eq!(Vec::from_iter(extents), [8, 3, 2, 5, 4, 2, 7]);
        assert_eq!(number_of(&card.marks), 0b100_0110);
    }

    #[test]
    fn elements_stay_few() {
        let mut random = Random::new(25);
        for _ in 0..500 {
            let mut card = sound_card(&mut random);
            let before = card.elements();
            reuse(&mut random, &mut card, FEW);
            assert!(card.elements() <= u128::from(FEW).max(before));
        }
        // Twice as many would be none in 128 bits.
        let spoiled = [1 << 63, 1 << 63, 2].map(|extent| iter(extent, 0, 0));
        for _ in 0..50 {
            let mut card = sound_card(&mut random);
            card.shard_count = 3;
            card.shard_slots[..3].copy_from_slice(&spoiled);
            reuse(&mut random, &mut card, FEW);
            assert_eq!(card.shard_count, 3);
        }
    }
}
