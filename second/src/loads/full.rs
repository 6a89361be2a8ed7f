//! Random questions of full size: as many cells as the program lends a
//! table, all of them taken by elements and their copies, unless a number is
//! wrong.

use super::cards::{card_of, iter, random_axes, shuffle, some_iter};
use super::limits::{LARGEST_TABLE, LENT_TABLE, MOST_B, MOST_M, MOST_S};
use super::random::Random;
use super::reuse::{number_of, reuse};
use super::signed::{lower, turn_some};
use crate::layout::{Card, Coordinates, AXES, M_AXIS, REPLICA_SLOTS, SHARD_SLOTS};
use crate::lines::{whole, Number};
use crate::swizzle::Swizzle;

/// So many bits dealt out to at most so many iters.
fn dealt(random: &mut Random, bits: u64, iters: usize) -> Vec<u64> {
    let count = random.index(iters) + 1;
    let mut widths = vec![0; count];
    for _ in 0..bits {
        widths[random.index(count)] += 1;
    }
    widths.retain(|width| *width > 0);
    widths
}

/// A tile without gaps: the iters of shard and replica, in any order, count
/// through some axes, some of them turned round.
pub fn tile(random: &mut Random, shard: &[u64], replica: &[u64]) -> Card {
    let axes = random_axes(random);
    tile_on(random, &axes, shard, replica)
}

/// The same on some of these axes.
pub fn tile_on(random: &mut Random, axes: &[u64], shard: &[u64], replica: &[u64]) -> Card {
    let shard = shard.iter().map(|extent| (*extent, false));
    let replica = replica.iter().map(|extent| (*extent, true));
    let mut extents: Vec<(u64, bool)> = shard.chain(replica).collect();
    shuffle(random, &mut extents);

    let mut reached = [1; AXES];
    let (mut shard, mut replica) = (Vec::new(), Vec::new());
    for (extent, copied) in extents {
        let axis = random.pick(axes);
        let stride: u64 = reached[axis as usize];
        reached[axis as usize] *= extent;
        let iters = if copied { &mut replica } else { &mut shard };
        iters.push(iter(extent, stride, axis));
    }
    let mut card = card_of(&shard, &replica);
    turn_some(random, &mut card, 2);
    card
}

/// The bits of the index of so large a table go to the iters of shard and
/// replica.
pub fn bit_tile(random: &mut Random, cells: u64) -> Card {
    let copies = random.below(7);
    let bits = u64::from(cells.ilog2()) - copies;
    let mut extents = |bits: u64, slots: usize| -> Vec<u64> {
        let widths = dealt(random, bits, slots);
        widths.into_iter().map(|width| 1 << width).collect()
    };
    let (shard, replica) = (extents(bits, SHARD_SLOTS), extents(copies, REPLICA_SLOTS));
    tile(random, &shard, &replica)
}

/// The tile under a swizzle, which keeps its memory if that is a power of
/// two; one in three is wrong.
pub fn finished(random: &mut Random, mut card: Card) -> Card {
    let bits = u64::from(card.space[M_AXIS].ilog2());
    let b = random.between(0, MOST_B.min(bits));
    card.swizzle = Swizzle {
        m: random.between(0, MOST_M.min(bits - b)),
        b,
        s: random.between(b, MOST_S),
    };
    match random.below(6) {
        0 => lower(random, &mut card),
        1 => some_iter(random, &mut card).stride /= 2,
        _ => {}
    }
    card
}

fn full_card(random: &mut Random) -> Card {
    let card = bit_tile(random, LENT_TABLE);
    finished(random, card)
}

pub fn verdict(random: &mut Random) -> Vec<Number> {
    let card = full_card(random);
    [card.numbers(), whole(&[LENT_TABLE])].concat()
}

pub fn owner(random: &mut Random) -> Vec<Number> {
    let card = full_card(random);
    let asked: Coordinates = card.space.map(|length| random.below(length));
    [card.numbers(), whole(&asked), whole(&[LENT_TABLE])].concat()
}

/// The same with reused iters, so that there are more elements than cells.
fn reused_card(random: &mut Random) -> Card {
    let mut card = full_card(random);
    reuse(random, &mut card, LARGEST_TABLE);
    card
}

pub fn starred_verdict(random: &mut Random) -> Vec<Number> {
    let card = reused_card(random);
    let marks = number_of(&card.marks);
    [whole(&[marks]), card.numbers(), whole(&[LENT_TABLE])].concat()
}

pub fn starred_owner(random: &mut Random) -> Vec<Number> {
    let card = reused_card(random);
    let asked: Coordinates = card.space.map(|length| random.below(length));
    let marks = whole(&[number_of(&card.marks)]);
    [marks, card.numbers(), whole(&asked), whole(&[LENT_TABLE])].concat()
}

#[cfg(test)]
mod tests {
    use super::*;

    #[test]
    fn tiles_are_full() {
        let mut random = Random::new(16);
        for _ in 0..200 {
            let cells = random.pick(&[LENT_TABLE, 65_536]);
            let card = bit_tile(&mut random, cells);
            assert_eq!(card.elements() * card.copies(), cells.into());
            assert_eq!(card.cells(), cells.into());
            assert_eq!(card.admitted(), Ok(()));
        }
    }
}
