//! Random layout cards with strides and offsets of both signs: sound cards
//! whose iters are turned round, loose ones, all of them lowered or put at
//! the limits, and for a placement cards of which one element lies inside.

use super::asked::{self, place_on, random_spot};
use super::cards::{
    card_of, clutter, fit, iter, some_iter, some_swizzle, sound_card, spoil, NO_SWIZZLE,
};
use super::limits::STRIDES;
use super::random::Random;
use crate::layout::{Card, Flat, Iter, Spot, Sums, AXES};
use crate::lines::Number;

/// The iter's coordinates, the last one first.
fn turn(iter: &mut Iter, offset: &mut Sums) {
    offset[iter.axis as usize] += Number::from(iter.extent - 1) * iter.stride;
    iter.stride = -iter.stride;
}

/// Turns the iters of a sound card round, each with one chance in so many.
/// Every axis keeps its coordinates, so an approved card stays approved.
pub fn turn_some(random: &mut Random, card: &mut Card, times: u64) {
    let (shard, replica) = (card.shard().len(), card.replica().len());
    let shard = card.shard_slots[..shard].iter_mut();
    for iter in shard.chain(&mut card.replica_slots[..replica]) {
        if random.once_in(times) {
            turn(iter, &mut card.offset);
        }
    }
}

fn turned(random: &mut Random) -> Card {
    let mut card = sound_card(random);
    let times = random.between(1, 2);
    turn_some(random, &mut card, times);
    card
}

/// Raises the offsets until no coordinate is below zero.
pub fn lift(card: &mut Card) {
    for iter in [card.shard(), card.replica()].concat() {
        let below = Number::from(iter.extent - 1) * -iter.stride.min(0);
        card.offset[iter.axis as usize] += below;
    }
}

/// Small iters that run either way, lifted.
fn either_way(random: &mut Random) -> Card {
    let axes = [random.below(AXES as u64), random.below(AXES as u64)];
    let mut some = |count: u64, most: u64| -> Vec<Iter> {
        let any = |_| {
            let extent = random.between(1, most);
            let stride = Number::from(random.below(25)) - 12;
            iter(extent, stride, random.pick(&axes))
        };
        (0..count).map(any).collect()
    };
    let (shard, replica) = (some(3, 4), some(2, 3));
    let used = random.index(3) + 1;
    let mut card = card_of(&shard[..used], &replica[..random.index(3)]);
    lift(&mut card);
    fit(&mut card);
    some_swizzle(random, &mut card);
    card
}

/// Changes a number so that some coordinate comes to lie below zero, or just
/// does not.
pub fn lower(random: &mut Random, card: &mut Card) {
    let axis = random.index(AXES);
    // The axis of a card that is spoiled may be any number.
    let used = match some_iter(random, card).axis {
        used if used < AXES as u64 => used as usize,
        _ => axis,
    };
    match random.below(12) {
        0..=2 => card.offset[axis] -= 1,
        3 | 4 => card.offset[used] -= Number::from(random.between(1, 3)),
        5 => card.offset[used] = -card.offset[used],
        6 => {
            // Copies of one element then lie outside on several axes.
            let less = |offset: Number| offset - Number::from(random.below(2));
            card.offset = card.offset.map(less);
        }
        7 => {
            let iter = some_iter(random, card);
            iter.stride = -iter.stride;
        }
        8 | 9 => {
            let by = random.pick(&[-1, 1]);
            some_iter(random, card).stride += by;
        }
        10 => card.space[used] = random.around(card.space[used]),
        _ => {
            let by = Number::from(random.between(1, 9));
            some_iter(random, card).stride -= by;
            card.offset[used] += by;
        }
    }
}

/// Puts a stride or an offset at a limit, or spoils what has no sign.
pub fn limit(random: &mut Random, card: &mut Card) {
    let axis = random.index(AXES);
    let edge = random.pick(STRIDES);
    match random.below(8) {
        0 | 1 => some_iter(random, card).stride = edge,
        2 | 3 => card.offset[axis] = edge,
        4..=6 => {
            // An iter of extent 1 moves nothing, whatever its stride.
            let iter = some_iter(random, card);
            (iter.extent, iter.stride) = (1, edge);
        }
        _ => spoil(random, card),
    }
}

/// Fills the slots past the counts with things that must be ignored.
fn signed_clutter(random: &mut Random, card: &mut Card) {
    clutter(random, card);
    if random.once_in(2) {
        return;
    }
    let (shard, replica) = (card.shard().len(), card.replica().len());
    let past = card.shard_slots[shard..].iter_mut();
    for iter in past.chain(&mut card.replica_slots[replica..]) {
        iter.stride = random.any_sign();
    }
}

/// A card before anything is lowered or put at a limit.
fn sound_signed_card(random: &mut Random) -> Card {
    let mut card = match random.below(8) {
        0..=5 => turned(random),
        _ => either_way(random),
    };
    signed_clutter(random, &mut card);
    card
}

pub fn signed_card(random: &mut Random) -> Card {
    let mut card = sound_signed_card(random);
    match random.below(16) {
        0..=8 => {}
        9..=12 => lower(random, &mut card),
        13 | 14 => limit(random, &mut card),
        _ => (0..2).for_each(|_| limit(random, &mut card)),
    }
    card
}

/// Moves the card until one element lies in a space that just holds it; the
/// others lie where they may, many below zero.
fn move_inside(random: &mut Random, card: &mut Card, flat: Flat) {
    let swizzle = std::mem::replace(&mut card.swizzle, NO_SWIZZLE);
    let copies = card.copies_of(flat);
    for (axis, offset) in card.offset.iter_mut().enumerate() {
        let smallest = copies.iter().map(|copy| copy[axis]).min();
        *offset += Number::from(random.below(3)) - smallest.unwrap_or(0);
    }
    card.swizzle = swizzle;
    let copies = card.copies_of(flat);
    let largest = |axis: usize| copies.iter().map(|copy| copy[axis]).max();
    card.space = std::array::from_fn(|axis| largest(axis).unwrap_or(0) as u64 + 1);
}

/// A long way forwards and about as long a way backwards, and an element
/// that goes equally many steps of both.
fn there_and_back(random: &mut Random) -> (Card, Spot) {
    let steps = random.between(2, 127);
    let axis = random.below(AXES as u64);
    let forwards = 65_535 - Number::from(random.below(300));
    let backwards = Number::from(random.below(300)) - 65_536;
    let mut shard = [iter(steps, forwards, axis), iter(steps, backwards, axis)];
    if random.once_in(2) {
        shard.reverse();
    }
    let card = card_of(&shard, &[iter(random.between(1, 4), -1, axis)]);
    let spot = Spot {
        dimensions: 2,
        sizes: [steps; 8],
        coordinates: 2,
        values: [random.below(steps); 8],
    };
    (card, spot)
}

/// The numbers of a placement, half of the time of an element that was moved
/// inside.
pub fn place(random: &mut Random) -> Vec<Number> {
    let (mut card, spot) = match random.below(8) {
        0 => there_and_back(random),
        1..=4 => {
            let card = sound_signed_card(random);
            let spot = random_spot(random, &card);
            (card, spot)
        }
        _ => return asked::place(random, signed_card),
    };
    if let Ok(flat) = spot.flat(card.elements()) {
        move_inside(random, &mut card, flat);
        if random.once_in(4) {
            lower(random, &mut card);
        }
    }
    place_on(random, &card, &spot)
}

#[cfg(test)]
mod tests {
    use super::*;
    use crate::layout::Cell;
    use crate::loads::cards::tile_x;
    use std::collections::BTreeSet;

    /// All cells of all elements; none if some copy lies outside.
    fn all_cells(card: &Card) -> Option<BTreeSet<Cell>> {
        let flats = (0..card.elements() as u64).map(Flat);
        let cells: Result<Vec<Vec<Cell>>, _> = flats.map(|flat| card.cells_of(flat)).collect();
        Some(cells.ok()?.concat().into_iter().collect())
    }

    #[test]
    fn turning_moves_no_coordinate_of_the_whole() {
        let mut random = Random::new(11);
        for _ in 0..200 {
            let card = sound_card(&mut random);
            let mut other = card;
            turn_some(&mut random, &mut other, 2);
            if card.refusal().is_none() {
                assert_eq!(all_cells(&other), all_cells(&card));
            }
        }
    }

    #[test]
    fn a_moved_element_lies_inside() {
        let mut random = Random::new(12);
        for _ in 0..500 {
            let (mut card, spot) = there_and_back(&mut random);
            let flat = spot.flat(card.elements()).unwrap();
            move_inside(&mut random, &mut card, flat);
            assert_eq!(card.refusal(), None);
            assert!(card.cells_of(flat).is_ok());
        }
    }

    #[test]
    fn spoiled_cards_can_be_lowered() {
        let mut random = Random::new(14);
        for _ in 0..500 {
            let mut card = tile_x();
            for iter in &mut card.shard_slots {
                iter.axis = random.pick(&[7, 8, 1 << 32, u64::MAX]);
            }
            (0..20).for_each(|_| lower(&mut random, &mut card));
        }
    }

    #[test]
    fn many_signed_cards_run_backwards_and_lie_inside() {
        let mut random = Random::new(13);
        let backwards = |card: &Card| card.shard().iter().any(|iter| iter.stride < 0);
        let inside = |card: &Card| card.refusal().is_none() && all_cells(card).is_some();
        let cards = (0..1_000).map(|_| signed_card(&mut random));
        let both = cards.filter(|card| backwards(card) && inside(card)).count();
        assert!(both > 300, "{both}");
    }
}
