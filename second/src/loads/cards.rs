//! Random layout cards: orderly ones that are mostly approved, loose and
//! tangled ones whose elements clash, tiles in memory that a swizzle moves,
//! cards of the test sheet, and all of them nudged or spoiled at a limit.

use super::limits::{AXIS, COPIES, MOST_B, SIZES, STRIDES};
use super::random::Random;
use super::small::{permitted_swizzle, random_swizzle};
use crate::layout::{Card, Flat, Iter, AXES, M_AXIS, NO_MARKS, REPLICA_SLOTS, SHARD_SLOTS};
use crate::lines::Number;
use crate::swizzle::{from_mode, Swizzle};

pub const NO_SWIZZLE: Swizzle = Swizzle { m: 0, b: 0, s: 3 };

/// A card of these iters, without offset, in the smallest space that holds
/// every coordinate before the swizzle.
pub fn card_of(shard: &[Iter], replica: &[Iter]) -> Card {
    let slot = |iters: &[Iter], k: usize| iters.get(k).copied().unwrap_or_default();
    let mut card = Card {
        shard_count: shard.len() as u64,
        shard_slots: std::array::from_fn(|k| slot(shard, k)),
        marks: NO_MARKS,
        replica_count: replica.len() as u64,
        replica_slots: std::array::from_fn(|k| slot(replica, k)),
        offset: [0; AXES],
        space: [1; AXES],
        swizzle: NO_SWIZZLE,
    };
    fit(&mut card);
    card
}

/// The lengths that hold every coordinate before the swizzle, unless one is
/// below zero.
pub fn fit(card: &mut Card) {
    let mut largest = card.offset;
    for iter in [card.shard(), card.replica()].concat() {
        largest[iter.axis as usize] += Number::from(iter.extent - 1) * iter.stride.max(0);
    }
    card.space = largest.map(|coordinate| coordinate.max(0) as u64 + 1);
}

pub fn shuffle<T>(random: &mut Random, things: &mut [T]) {
    for at in (1..things.len()).rev() {
        things.swap(at, random.index(at + 1));
    }
}

/// One to three axes, m among them half of the time.
pub fn random_axes(random: &mut Random) -> Vec<u64> {
    let count = random.between(1, 3);
    let mut axes: Vec<u64> = (0..count).map(|_| random.below(AXES as u64)).collect();
    if random.once_in(2) {
        axes.push(M_AXIS as u64);
    }
    axes
}

/// Iters that count through their axes without gap or overlap, or with a
/// gap now and then.
pub fn orderly_iters(random: &mut Random, axes: &[u64]) -> Vec<Iter> {
    let mut room = 1u64 << random.between(2, 10);
    let mut reached = [1u64; AXES];
    let count = random.between(1, 8);
    let mut iters = Vec::new();
    for _ in 0..count {
        let extent = random.pick(&[1, 2, 2, 2, 3, 4, 4, 5, 8, 16]).min(room);
        let axis = random.pick(axes);
        let stride = reached[axis as usize];
        let gap = u64::from(random.once_in(8));
        reached[axis as usize] = stride * extent + gap;
        room /= extent;
        iters.push(iter(extent, stride, axis));
    }
    shuffle(random, &mut iters);
    iters
}

/// Takes some of the iters for the replica, at least one for the shard.
fn dealt(random: &mut Random, iters: &[Iter]) -> (Vec<Iter>, Vec<Iter>) {
    let (mut shard, mut replica) = (vec![iters[0]], Vec::new());
    let mut copies = 1;
    for iter in &iters[1..] {
        let fits = replica.len() < REPLICA_SLOTS && copies * iter.extent <= COPIES;
        if fits && random.once_in(3) {
            copies *= iter.extent;
            replica.push(*iter);
        } else {
            shard.push(*iter);
        }
    }
    if replica.len() < REPLICA_SLOTS && copies * 2 <= COPIES && random.once_in(8) {
        // An idle copy.
        replica.push(iter(2, 0, random.below(AXES as u64)));
    }
    (shard, replica)
}

fn some_offsets(random: &mut Random, card: &mut Card) {
    for offset in &mut card.offset {
        if random.once_in(6) {
            *offset = random.below(6).into();
        }
    }
}

/// No swizzle, one of a mode, or one whose bits small addresses reach.
pub fn some_swizzle(random: &mut Random, card: &mut Card) {
    card.swizzle = match random.below(8) {
        0..=3 => NO_SWIZZLE,
        4 => {
            from_mode(random.pick(&[4, 8, 16, 32, 64, 128]), random.below(4)).unwrap_or(NO_SWIZZLE)
        }
        5 | 6 => {
            let b = random.below(4);
            Swizzle {
                m: random.below(4),
                b,
                s: b + random.below(2),
            }
        }
        _ => permitted_swizzle(random),
    };
    let block = 1 << (card.swizzle.m + card.swizzle.b);
    let rounded = card.space[M_AXIS].div_ceil(block) * block;
    if rounded <= 1024 && random.once_in(2) {
        // Whole blocks: no swizzle leaves them.
        card.space[M_AXIS] = rounded;
    }
}

fn orderly(random: &mut Random) -> Card {
    let axes = random_axes(random);
    let iters = orderly_iters(random, &axes);
    let (shard, replica) = dealt(random, &iters);
    let mut card = card_of(&shard, &replica);
    some_offsets(random, &mut card);
    fit(&mut card);
    some_swizzle(random, &mut card);
    card
}

/// Small iters with any strides; they clash more often than not. The more
/// axes, the smaller the strides, or the cells would be too many.
pub fn loose(random: &mut Random) -> Card {
    let axes = random_axes(random);
    let strides = 24 >> axes.len();
    let iters = |random: &mut Random, count: u64, most: u64| -> Vec<Iter> {
        let loose = |_| {
            let extent = random.between(1, most);
            iter(extent, random.below(strides), random.pick(&axes))
        };
        (0..count).map(loose).collect()
    };
    let shard_count = random.between(1, 4);
    let shard = iters(random, shard_count, 6);
    let replica_count = random.below(3);
    let replica = iters(random, replica_count, 4);
    let mut card = card_of(&shard, &replica);
    some_offsets(random, &mut card);
    fit(&mut card);
    some_swizzle(random, &mut card);
    card
}

/// A tile in memory whose addresses reach the bits that its swizzle reads,
/// so that the swizzle moves something.
fn memory_tile(random: &mut Random) -> Card {
    let mut iters = orderly_iters(random, &[M_AXIS as u64, M_AXIS as u64, M_AXIS as u64 - 1]);
    if random.once_in(3) {
        let at = random.index(iters.len());
        iters[at].stride *= Number::from(random.between(1, 9));
    }
    let (shard, replica) = dealt(random, &iters);
    let mut card = card_of(&shard, &replica);
    if random.once_in(2) {
        card.offset[M_AXIS] = random.below(64).into();
    }
    fit(&mut card);
    let reached = u64::from(card.space[M_AXIS].ilog2());
    let b = random.between(1, MOST_B);
    let s = random.between(b, b + 1);
    let m = random.below(3).min(reached.saturating_sub(s + 1));
    card.swizzle = Swizzle { m, b, s };
    match random.below(4) {
        0 => {}
        1 => {
            // Whole blocks: no swizzle leaves them.
            let block = 1 << (m + b);
            card.space[M_AXIS] = card.space[M_AXIS].div_ceil(block) * block;
        }
        _ => card.space[M_AXIS] = largest_m(&card) + 1,
    }
    card
}

/// The largest m coordinate of any copy after the swizzle.
fn largest_m(card: &Card) -> u64 {
    let flats = (0..card.elements() as u64).map(Flat);
    let copies = flats.flat_map(|flat| card.copies_of(flat));
    copies.map(|copy| copy[M_AXIS]).max().unwrap_or(0) as u64
}

/// Element 2 shares one cell with element 0 and a smaller one with element
/// 1: the smallest element it shares with does not hold the smallest cell it
/// shares.
pub fn tangled(random: &mut Random) -> Card {
    let axis = random.below(AXES as u64);
    let scale = random.between(1, 3);
    let small = random.between(1, 4);
    let large = 3 * small + random.between(1, 8);
    let on_axis = |stride: u64| iter(2, stride * scale, axis);
    let mut shard = vec![on_axis(large - small), on_axis(large - 2 * small)];
    if random.once_in(2) {
        shard.insert(
            0,
            iter(random.between(1, 3), random.below(40), random.below(8)),
        );
    }
    let mut replica = [on_axis(small), on_axis(large)];
    shuffle(random, &mut replica);
    let mut card = card_of(&shard, &replica);
    some_offsets(random, &mut card);
    fit(&mut card);
    card
}

/// Copies spread over two axes in a space that is short on both: of one
/// element an earlier copy lies outside on the larger axis, a later one on
/// the smaller.
fn spread(random: &mut Random) -> Card {
    let low = random.below(M_AXIS as u64);
    let high = random.between(low + 1, M_AXIS as u64);
    let mut some = |most: u64, axis: u64| {
        let extent = random.between(2, 3);
        iter(extent, random.between(1, most), axis)
    };
    let replica = [some(4, low), some(4, high)];
    let shard = [some(3, high), some(2, low)];
    let mut card = card_of(&shard[..random.between(1, 2) as usize], &replica);
    for axis in [low as usize, high as usize] {
        let short = random.below(4);
        card.space[axis] = card.space[axis].saturating_sub(short).max(1);
    }
    card
}

pub fn iter(extent: u64, stride: impl Into<Number>, axis: u64) -> Iter {
    Iter {
        extent,
        stride: stride.into(),
        axis,
    }
}

/// Tile X of the test sheet.
pub fn tile_x() -> Card {
    let shard = [iter(8, 4, 2), iter(2, 1, 1), iter(4, 1, 2), iter(2, 1, 7)];
    let mut card = card_of(&shard, &[iter(2, 4, 1)]);
    card.offset[1] = 5;
    fit(&mut card);
    card
}

/// The scale factors of the test sheet.
pub fn scale_factors() -> Card {
    card_of(&[iter(32, 1, 5), iter(4, 1, 6)], &[iter(4, 32, 5)])
}

/// The 65 elements of the test sheet, before a length is chosen.
pub fn sixty_five() -> Card {
    let mut card = card_of(&[iter(65, 1, 7)], &[]);
    card.swizzle = Swizzle { m: 3, b: 3, s: 3 };
    card
}

/// Figure 189's exact layout as printed.
pub fn figure_189() -> Card {
    let shard = [iter(2, 64, 7), iter(8, 8, 7), iter(4, 4, 7), iter(4, 1, 7)];
    let mut card = card_of(&shard, &[]);
    card.space[M_AXIS] = 256;
    card.swizzle = Swizzle { m: 2, b: 1, s: 3 };
    card
}

/// The 224-column accumulator, which has more cells than the programs lend.
pub fn accumulator() -> Card {
    card_of(&[iter(2, 112, 6), iter(128, 1, 5), iter(112, 1, 6)], &[])
}

fn of_the_sheet(random: &mut Random) -> Card {
    match random.below(8) {
        0..=2 => tile_x(),
        3 | 4 => scale_factors(),
        5 => {
            let mut card = sixty_five();
            card.space[M_AXIS] = random.between(64, 74);
            card
        }
        6 => figure_189(),
        _ => accumulator(),
    }
}

/// Fills the slots past the counts with things that must be ignored.
pub fn clutter(random: &mut Random, card: &mut Card) {
    let sort = random.below(4);
    let mut fill = |slot: &mut Iter| {
        *slot = match sort {
            0 | 1 => Iter::default(),
            2 => iter(random.below(5), random.below(20), random.below(10)),
            _ => iter(random.hostile(), random.hostile(), random.hostile()),
        };
    };
    let used = card.shard().len();
    card.shard_slots[used..].iter_mut().for_each(&mut fill);
    let used = card.replica().len();
    card.replica_slots[used..].iter_mut().for_each(&mut fill);
}

/// One of the used iters; the shard has at least one.
pub fn some_iter<'a>(random: &mut Random, card: &'a mut Card) -> &'a mut Iter {
    let shard = (card.shard_count as usize).clamp(1, SHARD_SLOTS);
    let replica = (card.replica_count as usize).min(REPLICA_SLOTS);
    let at = random.index(shard + replica);
    if at < shard {
        &mut card.shard_slots[at]
    } else {
        &mut card.replica_slots[at - shard]
    }
}

/// Changes one number a little, so that the card is just no longer, or just
/// still, what it was. For strides that are not below zero.
fn nudge(random: &mut Random, card: &mut Card) {
    let axis = random.index(AXES);
    match random.below(10) {
        0 => {
            let iter = some_iter(random, card);
            iter.extent = random.around(iter.extent);
        }
        1 | 2 => {
            let iter = some_iter(random, card);
            iter.stride = random.around(iter.stride as u64).into();
        }
        3 => some_iter(random, card).axis = axis as u64,
        4 => card.offset[axis] += 1,
        5 => {
            let longest = (0..AXES).max_by_key(|axis| card.space[*axis]);
            let axis = longest.unwrap_or(axis);
            card.space[axis] = random.around(card.space[axis]);
        }
        6 => card.space[axis] = random.around(card.space[axis]),
        7 | 8 => {
            // Copies of one element then lie outside on several axes.
            let fewer = |length: u64| length - length / random.between(2, 4);
            card.space = card.space.map(fewer);
        }
        _ => {
            let swizzle = &mut card.swizzle;
            let number = random.pick(&[0, 1, 2]);
            *[&mut swizzle.m, &mut swizzle.b, &mut swizzle.s][number] = random.below(6);
        }
    }
}

/// Factors of 16,384 and of 65,536, of a little less or more, and of numbers
/// that would wrap to something small in 32 or in 64 bits.
fn large_factors(random: &mut Random) -> Vec<u64> {
    let factors = random.pick(&[
        &[16_384, 1][..],
        &[128, 128],
        &[5, 29, 113],
        &[145, 113],
        &[128, 129],
        &[2, 16_384],
        &[65_536],
        &[256, 256],
        &[4, 16_384],
        &[2, 32_768],
        &[255, 257],
        &[2, 32_769],
        &[18, 3_641],
        &[6, 10_923],
        &[2, 65_536],
        &[65_537],
        &[16_384, 16_384, 16],
        &[16_384, 16_384, 17],
        &[65_536; 2],
        &[244, 1_321, 13_325],
        &[8_192, 2_763, 2_857, 6_529, 43_691],
        &[16_384, 16_384, 16_384, 16_384, 256],
        &[65_536; 4],
        &[16_384, 16_384, 16_384, 16_384, 16_384, 4],
        &[16_384; 8],
    ]);
    let mut factors = factors.to_vec();
    shuffle(random, &mut factors);
    factors
}

/// Shard extents at and above the most elements.
fn many_elements(random: &mut Random, card: &mut Card) {
    let factors = large_factors(random);
    card.shard_count = factors.len() as u64;
    for (slot, factor) in card.shard_slots.iter_mut().zip(&factors) {
        *slot = iter(*factor, random.below(2), random.below(AXES as u64));
    }
}

/// Replica extents at and above the most copies.
fn many_copies(random: &mut Random, card: &mut Card) {
    let factors = random.pick(&[
        &[64][..],
        &[8, 8],
        &[65],
        &[5, 13],
        &[2, 33],
        &[16_384, 16_384, 16],
        &[16_384; 4],
        &[65_536; 4],
        &[4, 4, 4, 1],
        &[4, 4, 4, 2],
    ]);
    card.replica_count = factors.len() as u64;
    for (slot, factor) in card.replica_slots.iter_mut().zip(factors) {
        *slot = iter(*factor, random.below(2), random.below(AXES as u64));
    }
}

/// Lengths at and above the most cells.
pub fn large_lengths(random: &mut Random) -> [u64; AXES] {
    let factors = large_factors(random);
    let mut lengths = std::array::from_fn(|at| factors.get(at).copied().unwrap_or(1));
    shuffle(random, &mut lengths);
    lengths
}

/// One of the limits, a neighbour of it, one below the least, or anything.
fn at_limit(random: &mut Random, least: u64, limits: &[u64]) -> u64 {
    match random.below(4) {
        0 => least.saturating_sub(1),
        1 => random.hostile(),
        _ => random.around_one_of(limits),
    }
}

/// Breaks, or just does not break, one limit of the card.
pub fn spoil(random: &mut Random, card: &mut Card) {
    let axis = random.index(AXES);
    match random.below(18) {
        0 => card.shard_count = random.pick(&[0, 8, 9, 10, 1 << 32, u64::MAX]),
        1 => card.replica_count = random.pick(&[0, 4, 5, 6, 1 << 32, u64::MAX]),
        2 => some_iter(random, card).extent = at_limit(random, 1, SIZES),
        3 | 4 => some_iter(random, card).stride = random.pick(STRIDES),
        5 => card.offset[axis] = random.pick(STRIDES),
        6 | 7 => some_iter(random, card).axis = at_limit(random, 0, &[AXIS]),
        8 => card.space[axis] = at_limit(random, 1, SIZES),
        9 => card.space = large_lengths(random),
        10 | 11 => many_elements(random, card),
        12 => many_copies(random, card),
        13 => card.space = [random.pick(&[1, 2, 3, 4, 16_384, 1 << 16, 1 << 32]); AXES],
        14..=16 => card.swizzle = random_swizzle(random),
        _ => {
            let at = random.index(Card::NUMBERS);
            let mut numbers = card.numbers();
            numbers[at] = random.hostile().into();
            let marks = card.marks;
            *card = Card::of(&numbers).map_or(*card, |card| Card { marks, ..card });
        }
    }
}

/// A card before anything is nudged or spoiled.
pub fn sound_card(random: &mut Random) -> Card {
    match random.below(16) {
        0..=4 => orderly(random),
        5..=7 => loose(random),
        8 => tangled(random),
        9..=12 => memory_tile(random),
        13 => spread(random),
        _ => of_the_sheet(random),
    }
}

/// A card for one line.
pub fn random_card(random: &mut Random) -> Card {
    let mut card = sound_card(random);
    clutter(random, &mut card);
    match random.below(16) {
        0..=7 => {}
        8..=11 => nudge(random, &mut card),
        12..=14 => spoil(random, &mut card),
        _ => (0..3).for_each(|_| spoil(random, &mut card)),
    }
    card
}

#[cfg(test)]
mod tests {
    use super::*;

    #[test]
    fn cards_of_the_sheet_are_what_the_sheet_says() {
        assert_eq!(tile_x().space, [1, 11, 32, 1, 1, 1, 1, 2]);
        assert_eq!(scale_factors().space, [1, 1, 1, 1, 1, 128, 4, 1]);
        assert_eq!(accumulator().cells(), 28_672);
        assert_eq!(figure_189().elements(), 256);
    }

    #[test]
    fn these_factors_wrap_to_something_permitted() {
        assert_eq!(244u32.wrapping_mul(1_321).wrapping_mul(13_325), 4);
        let factors = [8_192u64, 2_763, 2_857, 6_529, 43_691];
        assert_eq!(
            factors.iter().fold(1, |p: u64, n| p.wrapping_mul(*n)),
            8_192
        );
    }

    #[test]
    fn orderly_cards_are_permitted() {
        let mut random = Random::new(7);
        let cards = (0..1_000).map(|_| orderly(&mut random));
        let permitted = cards.filter(|card| card.refusal().is_none()).count();
        assert!(permitted > 900, "{permitted}");
    }
}
