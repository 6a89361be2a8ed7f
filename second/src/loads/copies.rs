//! Random layout cards with several copies. The copies lie beside the shard,
//! so that elements clash only where a number was changed afterwards; in half
//! of the cards no two replica combinations add the same, in the others they
//! may, and but for refusal 17 many of these would be approved.

use super::cards::{
    card_of, clutter, fit, iter, orderly_iters, random_axes, some_iter, some_swizzle,
};
use super::limits::{COPIES, LENT_TABLE};
use super::random::Random;
use super::signed::{lift, limit, lower, turn_some};
use crate::layout::{Card, Iter, AXES, REPLICA_SLOTS};
use crate::lines::Number;

/// Iters that count through their axes, each stride the reach of those
/// before it on its axis or a little more: no two combinations add the same.
fn apart(random: &mut Random, axes: &[u64], count: usize) -> Vec<Iter> {
    let mut reached = [1; AXES];
    let mut iters = Vec::new();
    for _ in 0..count {
        let (extent, axis) = (random.pick(&[2, 2, 2, 3, 4]), random.pick(axes));
        let stride: u64 = reached[axis as usize] + u64::from(random.once_in(6));
        reached[axis as usize] = stride * extent;
        iters.push(iter(extent, stride, axis));
    }
    iters
}

/// Iters with small strides either way: often two combinations add the same.
fn crowded(random: &mut Random, axes: &[u64], count: usize) -> Vec<Iter> {
    let mut some = || {
        let extent = random.pick(&[1, 2, 2, 2, 3, 3, 4]);
        let stride = random.pick(&[-3, -2, -1, -1, 0, 1, 1, 2, 2, 3, 4, 5]);
        iter(extent, stride, random.pick(axes))
    };
    (0..count).map(|_| some()).collect()
}

/// One iter against the others: a step of it adds what they add together at
/// most, or takes it back, so that the pair comes late.
fn met(random: &mut Random, axes: &[u64], count: usize) -> Vec<Iter> {
    let others = apart(random, &axes[..1], count.clamp(1, REPLICA_SLOTS - 1));
    let far = |iter: &Iter| Number::from(iter.extent - 1) * iter.stride;
    let together: Number = others.iter().map(far).sum();
    let one = iter(2, together * random.pick(&[-1, 1]), axes[0]);
    let at = random.index(others.len() + 1);
    [&others[..at], &[one], &others[at..]].concat()
}

/// A shard that counts through its axes, and copies of the whole beside it.
fn copied(random: &mut Random) -> Card {
    let axes = random_axes(random);
    let mut shard = orderly_iters(random, &axes);
    shard.truncate(random.index(3) + 1);
    let whole = card_of(&shard, &[]).space;
    let count = random.index(REPLICA_SLOTS) + 1;
    let mut replica = match random.below(8) {
        0..=3 => apart(random, &axes, count),
        4..=6 => crowded(random, &axes, count),
        _ => met(random, &axes, count),
    };
    for iter in &mut replica {
        iter.stride *= Number::from(whole[iter.axis as usize]);
    }
    let mut card = card_of(&shard, &replica);
    lift(&mut card);
    if random.once_in(2) {
        turn_some(random, &mut card, 3);
    }
    fit(&mut card);
    some_swizzle(random, &mut card);
    card
}

/// A card with copies for one line. Too many cells or copies are seldom of
/// interest here, so another card is drawn then, but not for ever.
pub fn copied_card(random: &mut Random) -> Card {
    let large = |card: &Card| card.cells() > LENT_TABLE.into() || card.copies() > COPIES.into();
    let mut card = copied(random);
    for _ in 0..4 {
        if large(&card) {
            card = copied(random);
        }
    }
    clutter(random, &mut card);
    match random.below(16) {
        0..=9 => {}
        10 | 11 => lower(random, &mut card),
        12 | 13 => {
            // A smaller stride of the shard makes elements clash.
            let stride = random.below(3).into();
            some_iter(random, &mut card).stride = stride;
        }
        14 => limit(random, &mut card),
        _ => (0..3).for_each(|_| lower(random, &mut card)),
    }
    card
}

#[cfg(test)]
mod tests {
    use super::*;

    #[test]
    fn iters_apart_have_no_pair_and_met_ones_have_one() {
        let mut random = Random::new(14);
        for _ in 0..500 {
            let axes = random_axes(&mut random);
            let count = random.index(REPLICA_SLOTS) + 1;
            let of = |replica: &[Iter]| card_of(&[iter(2, 1, 0)], replica);
            let card = of(&apart(&mut random, &axes, count));
            assert!(card.copies() > 64 || card.idle().is_none());
            let card = of(&met(&mut random, &axes, count));
            assert!(card.copies() > 64 || card.idle().is_some());
        }
    }

    #[test]
    fn many_copied_cards_are_idle_and_many_are_not() {
        let mut random = Random::new(15);
        let cards: Vec<Card> = (0..1_000).map(|_| copied_card(&mut random)).collect();
        let sound = |card: &&Card| card.refusal().is_none() && card.copies() > 1;
        let idle = |card: &&Card| sound(card) && card.idle().is_some();
        let busy = |card: &&Card| sound(card) && card.idle().is_none();
        assert!(cards.iter().filter(idle).count() > 250);
        assert!(cards.iter().filter(busy).count() > 350);
    }
}
