//! Random questions about a carrier's plan. Two tiles of as many elements lie
//! in one space: beside each other, partly over each other, or one in the
//! other's place and rearranged. Plans are the plain one or other ways that
//! end rightly, and such with something wrong. Then the cards, the spaces, the
//! marks and what is lent may be wrong too, of the first, the second or both.

use super::asked::{random_sizes, table_length};
use super::cards::{clutter, iter, large_lengths, random_axes, shuffle, some_iter, spoil};
use super::full::{bit_tile, tile, tile_on};
use super::limits::{
    LARGEST_PLAN, LARGEST_TABLE, LENT_PLAN, LENT_TABLE, MARKS, MOST_B, MOST_M, MOST_S, PLAN, SIZES,
};
use super::malformed::Question;
use super::random::Random;
use super::reuse::{mark_past, number_of, reuse};
use super::signed::{limit, lower, turn_some};
use crate::layout::{Card, Iter, AXES, M_AXIS, REPLICA_SLOTS, SHARD_SLOTS};
use crate::lines::{whole, Number};
use crate::plans::{both_owners, written, Held};
use crate::swizzle::Swizzle;

/// Two cards, mostly of one space.
pub type Pair = [Card; 2];

/// Pairs that are not of full size have no more cells than this.
const FEW: u128 = 1_024;

/// A card with marks may have so many elements.
const FEW_ELEMENTS: u64 = 512;

/// Some extents whose product is at most so much.
fn extents(random: &mut Random, slots: usize, most: u64) -> Vec<u64> {
    let mut room = most;
    let mut some = || {
        let extent = random.pick(&[1, 2, 2, 2, 3, 3, 4, 5, 8]).min(room);
        room /= extent;
        extent
    };
    (0..slots).map(|_| some()).collect()
}

/// As many elements in another shape, or in the same.
fn reshaped(random: &mut Random, shard: &[u64]) -> Vec<u64> {
    let mut other = shard.to_vec();
    match random.below(4) {
        0 => {}
        1 | 2 => shuffle(random, &mut other),
        _ => {
            let dimensions = random.index(5) + 1;
            let sizes = random_sizes(random, shard.iter().product(), dimensions);
            other = sizes[..dimensions].to_vec();
        }
    }
    other
}

fn exchange(random: &mut Random, pair: &mut Pair) {
    if random.once_in(2) {
        pair.reverse();
    }
}

/// Both cards in a space that holds both, the second moved by so much.
fn joined([first, mut second]: Pair, axis: usize, by: u64) -> Pair {
    second.offset[axis] += Number::from(by);
    second.space[axis] += by;
    let space = std::array::from_fn(|axis| first.space[axis].max(second.space[axis]));
    [first, second].map(|card| Card { space, ..card })
}

/// Some way along an axis: beside the other, or over a part of it.
fn some_way(random: &mut Random, card: &Card, beside: bool) -> (usize, u64) {
    let axis = match random.once_in(3) {
        true => random.index(AXES),
        false => (0..AXES)
            .max_by_key(|axis| card.space[*axis])
            .unwrap_or(M_AXIS),
    };
    let length = card.space[axis];
    let by = match beside {
        true => length + random.pick(&[0, 0, 0, 1, 2]),
        false => random.below(length),
    };
    (axis, by)
}

/// Two tiles that have nothing in common but their elements.
fn two_tiles(random: &mut Random) -> Pair {
    let axes = random_axes(random);
    let most = random.pick(&[1, 4, 8, 12, 16, 24, 32, 48, 60, 96]);
    let count = random.index(4) + 1;
    let shard = extents(random, count, most);
    let card = |random: &mut Random, shard: &[u64]| {
        let copies = random.pick(&[1, 1, 1, 2, 3, 4, 6]);
        let count = random.index(3);
        let replica = extents(random, count, copies);
        tile_on(random, &axes, shard, &replica)
    };
    let first = card(random, &shard);
    let shard = reshaped(random, &shard);
    let second = card(random, &shard);
    let (axis, by) = match random.below(8) {
        0..=4 => some_way(random, &first, true),
        5 | 6 => some_way(random, &first, false),
        _ => (M_AXIS, 0),
    };
    joined([first, second], axis, by)
}

/// Takes an iter of the shard apart: its elements stay where they are.
fn split(random: &mut Random, card: &mut Card) {
    let count = card.shard().len();
    let at = random.index(count);
    let own = card.shard_slots[at];
    let inner = random.pick(&[2, 3, 4, 5]);
    if count < SHARD_SLOTS && own.extent.is_multiple_of(inner) {
        card.shard_slots[at..].rotate_right(1);
        let stride = own.stride * Number::from(inner);
        card.shard_slots[at] = iter(own.extent / inner, stride, own.axis);
        card.shard_slots[at + 1] = iter(inner, own.stride, own.axis);
        card.shard_count += 1;
    }
}

/// The same elements otherwise in the same cells, or in some of them.
fn rearranged(random: &mut Random, card: &Card) -> Card {
    let mut card = *card;
    for _ in 0..random.below(3) {
        split(random, &mut card);
    }
    if random.once_in(2) {
        let count = card.shard().len();
        shuffle(random, &mut card.shard_slots[..count]);
    }
    let copies = card.replica().len();
    for at in 0..copies {
        let own = card.replica_slots[at];
        let alike = |iter: &&mut Iter| iter.extent == own.extent;
        let count = card.shard().len();
        if let Some(other) = card.shard_slots[..count].iter_mut().find(alike) {
            if random.once_in(3) {
                card.replica_slots[at] = std::mem::replace(other, own);
            }
        }
    }
    if random.once_in(2) {
        card.replica_count = random.below(copies as u64 + 1);
    }
    turn_some(random, &mut card, 4);
    card
}

/// A tile, and the same tile rearranged or moved a little.
fn tile_again(random: &mut Random) -> Pair {
    let most = random.pick(&[2, 4, 8, 16, 32, 64]);
    let (count, copied) = (random.index(4) + 1, random.index(3));
    let (shard, copies) = (
        extents(random, count, most),
        extents(random, copied, 64 / most),
    );
    let first = tile(random, &shard, &copies);
    let second = match random.below(4) {
        0 => first,
        _ => rearranged(random, &first),
    };
    let (axis, by) = match random.below(8) {
        0..=2 => (M_AXIS, 0),
        3 => some_way(random, &first, false),
        4 => {
            let (axis, _) = some_way(random, &first, false);
            (axis, random.between(1, 2))
        }
        _ => some_way(random, &first, true),
    };
    joined([first, second], axis, by)
}

/// A swizzle for one card or both, which keeps whole blocks of m.
fn swizzle_some(random: &mut Random, pair: &mut Pair) {
    let b = random.between(1, 2);
    let swizzle = Swizzle {
        m: random.below(3),
        b,
        s: b + random.below(2),
    };
    let which = random.between(1, 3);
    for (at, card) in pair.iter_mut().enumerate() {
        card.space[M_AXIS] = card.space[M_AXIS].next_multiple_of(1 << (swizzle.m + b));
        if which >> at & 1 == 1 {
            card.swizzle = swizzle;
        }
    }
}

/// Two tiles before anything is wrong with them.
pub fn any_pair(random: &mut Random) -> Pair {
    let mut pair = match random.below(8) {
        0..=4 => two_tiles(random),
        _ => tile_again(random),
    };
    exchange(random, &mut pair);
    if random.once_in(3) {
        swizzle_some(random, &mut pair);
    }
    if random.once_in(3) {
        let (axis, by) = (random.index(AXES), random.between(1, 2));
        pair.iter_mut().for_each(|card| card.space[axis] += by);
    }
    pair.iter_mut().for_each(|card| clutter(random, card));
    pair
}

/// A pair that a plan can be asked about and that is wanted, and its owners.
fn pair(random: &mut Random, wanted: impl Fn(&[Held; 2]) -> bool) -> (Pair, [Held; 2]) {
    loop {
        let pair = any_pair(random);
        if pair[0].cells() > FEW {
            continue;
        }
        if let Some(owners) = both_owners(&pair).filter(&wanted) {
            return (pair, owners);
        }
    }
}

fn apart(owners: &[Held; 2]) -> bool {
    written(owners).is_some()
}

/// A cell for which this holds, the first from some cell on.
fn some_cell(random: &mut Random, cells: usize, holds: impl Fn(usize) -> bool) -> Option<usize> {
    let start = random.index(cells);
    (start..cells).chain(0..start).find(|cell| holds(*cell))
}

/// Copies in some order, each from some cell that holds the owner, that end
/// rightly. A cell is written when what it holds is not needed any more, and
/// where all wait for each other one is put aside; with no cell for that the
/// plan ends where it is. Now and then a copy more that does no harm.
fn route(random: &mut Random, [first, second]: &[Held; 2]) -> Vec<u64> {
    let cells = first.len();
    let mut held = first.clone();
    let mut plan = Vec::new();
    while plan.len() < PLAN as usize {
        let wrong = |cell: usize, held: &Held| second[cell] > 0 && held[cell] != second[cell];
        let pending: Vec<usize> = (0..cells).filter(|cell| wrong(*cell, &held)).collect();
        let spare = |cell: usize| {
            let own = held[cell];
            let needed = pending.iter().any(|other| second[*other] == own);
            own == 0 || !needed || held.iter().filter(|owner| **owner == own).count() > 1
        };
        let aside = |cell: usize| second[cell] == 0 && spare(cell);
        if random.once_in(24) {
            let from = random.index(cells);
            let to = some_cell(random, cells, aside).unwrap_or(from);
            plan.extend([from, to]);
            held[to] = held[from];
            continue;
        }
        if pending.is_empty() {
            break;
        }
        let free = some_cell(random, pending.len(), |at| spare(pending[at]));
        let (from, to) = match free {
            Some(at) => {
                let to = pending[at];
                let from = some_cell(random, cells, |cell| held[cell] == second[to]);
                (from.unwrap_or(to), to)
            }
            None => match some_cell(random, cells, aside) {
                Some(to) => (random.pick(&pending), to),
                None => break,
            },
        };
        plan.extend([from, to]);
        held[to] = held[from];
    }
    plan.iter().map(|cell| *cell as u64).collect()
}

/// The plain plan whether it is right or not: for each cell of the second,
/// rising, a copy from some cell of the first.
fn plain(random: &mut Random, [first, second]: &[Held; 2]) -> Vec<u64> {
    let smallest = random.once_in(2);
    let mut copy = |to: usize| {
        let holds = |cell: usize| first[cell] == second[to];
        let from = match smallest {
            true => (0..first.len()).find(|cell| holds(*cell)),
            false => some_cell(random, first.len(), holds),
        };
        [from.unwrap_or(to) as u64, to as u64]
    };
    let cells = (0..second.len()).filter(|cell| second[*cell] > 0);
    cells.flat_map(&mut copy).collect()
}

/// A number that is no cell, or hardly one.
fn no_cell(random: &mut Random, cells: u64) -> u64 {
    match random.below(6) {
        0..=2 => cells,
        3 => random.around(cells),
        4 => random.below(cells) + (1 << random.pick(&[16, 32, 32, 48, 63])),
        _ => random.hostile(),
    }
}

/// A plan with something wrong, which may do no harm.
fn spoil_plan(random: &mut Random, plan: &mut Vec<u64>, owners: &[Held; 2]) {
    let cells = owners[0].len() as u64;
    let copies = plan.len() / 2;
    let (one, other) = (random.index(copies), random.index(copies));
    let any = random.index(plan.len());
    match random.below(20) {
        0..=13 if copies == 0 => plan.extend([random.below(cells), random.below(cells)]),
        0 | 1 => drop(plan.drain(2 * one..2 * one + 2)),
        2 | 3 => {
            plan.swap(2 * one, 2 * other);
            plan.swap(2 * one + 1, 2 * other + 1);
        }
        4 => {
            let copy = [plan[2 * one], plan[2 * one + 1]];
            plan.splice(2 * other..2 * other, copy);
        }
        5 | 6 => plan[any] = random.below(cells),
        7 => plan.swap(2 * one, 2 * one + 1),
        8..=10 => plan[any] = no_cell(random, cells),
        11 => {
            plan[any] = no_cell(random, cells);
            plan[2 * one] = no_cell(random, cells);
            plan.pop();
        }
        12 => plan.rotate_left(2 * one),
        13 => {
            let empty = some_cell(random, cells as usize, |cell| owners[0][cell] == 0);
            plan[2 * one] = empty.map_or(cells, |cell| cell as u64);
        }
        14 | 15 => drop(plan.pop()),
        16 => plan.push(random.below(cells)),
        17 => plan.push(no_cell(random, cells)),
        18 => plan.truncate(any),
        _ => {
            let mut turned = Vec::new();
            for copy in plan.rchunks(2) {
                turned.extend(copy);
            }
            *plan = turned;
        }
    }
}

/// A plan for these owners; half of them end rightly.
fn some_plan(random: &mut Random, owners: &[Held; 2]) -> Vec<u64> {
    let mut plan = match random.below(16) {
        0..=9 => route(random, owners),
        10..=12 => plain(random, owners),
        13 => {
            let [first, second] = owners;
            plain(random, &[second.clone(), first.clone()])
        }
        14 => {
            let count = random.below(PLAN / 2);
            let cells = owners[0].len() as u64;
            (0..count).map(|_| random.below(cells)).collect()
        }
        _ => Vec::new(),
    };
    if random.once_in(2) {
        let times = random.pick(&[1, 1, 1, 2, 3]);
        (0..times).for_each(|_| spoil_plan(random, &mut plan, owners));
    }
    if plan.len() as u64 > PLAN && !random.once_in(24) {
        plan.truncate(PLAN as usize);
    }
    plan
}

/// Any numbers in the place of a plan, for cards that have no owners.
fn any_plan(random: &mut Random, cells: u128) -> Vec<u64> {
    let cells = cells.min(LENT_TABLE.into()) as u64;
    let count = random.below(12);
    let mut some = || match random.once_in(8) {
        true => no_cell(random, cells),
        false => random.below(cells),
    };
    (0..count).map(|_| some()).collect()
}

/// One of the cards, or both.
fn some_of(random: &mut Random, pair: &mut Pair, change: impl Fn(&mut Random, &mut Card)) {
    let which = random.pick(&[1, 1, 2, 2, 3]);
    for (at, card) in pair.iter_mut().enumerate() {
        if which >> at & 1 == 1 {
            change(random, card);
        }
    }
}

/// One space for both, of the one or of the other.
fn same_space(random: &mut Random, pair: &mut Pair) {
    let space = pair[random.index(2)].space;
    pair.iter_mut().for_each(|card| card.space = space);
}

/// An element less, or far fewer: what is left lies where it did.
fn fewer(random: &mut Random, card: &mut Card) {
    let at = random.index(card.shard().len());
    let extent = &mut card.shard_slots[at].extent;
    *extent = match random.once_in(2) {
        true => extent.saturating_sub(1).max(1),
        false => 1,
    };
}

/// Two copies of each element in its cells.
fn idle(random: &mut Random, card: &mut Card) {
    let at = card.replica().len();
    if at < REPLICA_SLOTS {
        card.replica_slots[at] = iter(2, 0, random.below(AXES as u64));
        card.replica_count += 1;
    }
}

/// Elements that clash, mostly.
fn clash(random: &mut Random, card: &mut Card) {
    let stride = random.below(2).into();
    some_iter(random, card).stride = stride;
}

/// Two lengths exchanged, one of them another, or both wrong alike.
fn other_space(random: &mut Random, pair: &mut Pair) {
    let (one, other) = (random.index(AXES), random.index(AXES));
    match random.below(8) {
        0..=2 => some_of(random, pair, |_, card| card.space.swap(one, other)),
        3 | 4 => some_of(random, pair, |random, card| {
            card.space[one] = random.around(card.space[one]);
        }),
        5 => {
            let length = match random.below(3) {
                0 => 0,
                1 => random.hostile(),
                _ => random.around_one_of(SIZES),
            };
            some_of(random, pair, |_, card| card.space[one] = length);
        }
        6 => {
            let space = large_lengths(random);
            pair.iter_mut().for_each(|card| card.space = space);
        }
        _ => pair.iter_mut().for_each(|card| card.space[one] = 0),
    }
}

/// Breaks, or just does not break, something of the cards.
fn break_some(random: &mut Random, pair: &mut Pair) {
    match random.below(16) {
        0..=4 => some_of(random, pair, spoil),
        5 => some_of(random, pair, limit),
        6 => some_of(random, pair, lower),
        7 | 8 => some_of(random, pair, fewer),
        9 => some_of(random, pair, idle),
        10 | 11 => some_of(random, pair, clash),
        12 => {
            // The last cells are gone.
            let axis = random.index(AXES);
            pair.iter_mut().for_each(|card| {
                card.space[axis] = card.space[axis].saturating_sub(1).max(1);
            });
        }
        _ => return other_space(random, pair),
    }
    if !random.once_in(8) {
        same_space(random, pair);
    }
}

/// An iter of the shard that is marked: one that stands still, or one whose
/// mark is refused. For cards that are not spoiled.
fn mark(random: &mut Random, card: &mut Card) {
    let at = random.index(card.shard().len());
    match random.below(6) {
        0..=2 => reuse(random, card, FEW_ELEMENTS),
        3 => card.marks[at] = true,
        4 => {
            // A single component may be marked where it does not move.
            let one = card.shard().iter().position(|iter| iter.extent == 1);
            let at = one.unwrap_or(at);
            card.shard_slots[at].stride = 0;
            card.marks[at] = true;
        }
        _ => card.marks = [true; SHARD_SLOTS],
    }
}

/// How much is lent for the tables of so many cells: enough, mostly.
fn lengths(random: &mut Random, cells: u128) -> [u64; 2] {
    let enough = cells.min(LENT_TABLE.into()) as u64;
    let mut lengths = [enough, enough].map(|cells| match random.below(3) {
        0 => cells + random.below(4),
        _ => cells,
    });
    match random.below(16) {
        0 => lengths[random.index(2)] = table_length(random, cells),
        1 => lengths[random.index(2)] = enough.saturating_sub(random.between(1, 3)),
        2 if random.once_in(4) => lengths = lengths.map(|_| table_length(random, cells)),
        _ => {}
    }
    lengths
}

/// How much is lent for a plan of so many numbers: enough, mostly.
fn plan_length(random: &mut Random, needed: u64) -> u64 {
    match random.below(24) {
        0..=9 => needed,
        10..=17 => needed + random.below(5),
        18 | 19 => needed.saturating_sub(random.between(1, 2)),
        20 => needed / 2,
        21 => random.below(needed),
        22 => random.pick(&[0, 1, LENT_PLAN - 1, LENT_PLAN, LENT_PLAN]),
        _ => random.pick(&[LENT_PLAN, LENT_PLAN + 1, LARGEST_PLAN, 1 << 32, u64::MAX]),
    }
}

/// Two cards of any sort: most of them can be asked about, and then their
/// owners are told.
fn asked(
    random: &mut Random,
    marked: bool,
    wanted: fn(&[Held; 2]) -> bool,
) -> (Pair, Option<[Held; 2]>) {
    let (mut pair, owners) = pair(random, wanted);
    if marked && random.once_in(4) {
        some_of(random, &mut pair, mark);
    }
    if marked && random.once_in(2) {
        some_of(random, &mut pair, mark_past);
    }
    if random.once_in(4) {
        let times = random.pick(&[1, 1, 1, 2]);
        (0..times).for_each(|_| break_some(random, &mut pair));
        return (pair, both_owners_of_few(&pair));
    }
    (pair, Some(owners))
}

/// The owners, but not of a pair whose cells have become many.
fn both_owners_of_few(pair: &Pair) -> Option<[Held; 2]> {
    let few = pair.iter().all(|card| card.cells() <= FEW);
    few.then(|| both_owners(pair)).flatten()
}

/// MARKS of both cards, now and then one that is past the limit or looks
/// alike when it is cut.
fn marks(random: &mut Random, pair: &Pair) -> Vec<Number> {
    let mut marks = [pair[0].marks, pair[1].marks].map(|marks| number_of(&marks));
    let own = &mut marks[random.index(2)];
    match random.below(64) {
        0 => *own = random.around(MARKS),
        1 => *own += 1 << random.pick(&[8, 8, 9, 16, 32, 63]),
        2 => *own = random.hostile(),
        _ => {}
    }
    whole(&marks)
}

fn numbers_of(pair: &Pair, rest: &[u64]) -> Vec<Number> {
    [pair[0].numbers(), pair[1].numbers(), whole(rest)].concat()
}

/// The numbers of a plan that is checked; now and then the count is another.
fn counted(random: &mut Random, pair: &Pair, plan: &[u64], lengths: [u64; 2]) -> Vec<Number> {
    let right = plan.len() as u64;
    let count = match random.below(96) {
        0 => random.around(right),
        1 => random.pick(&[0, PLAN, PLAN + 1, right / 2]),
        2 => right + (1 << random.pick(&[8, 16, 32, 63])),
        3 => random.hostile(),
        _ => right,
    };
    numbers_of(pair, &[&[count], plan, &lengths].concat())
}

fn carry_of(random: &mut Random, marked: bool) -> (Pair, Vec<Number>) {
    let (pair, owners) = asked(random, marked, |_| true);
    let cells = pair[random.index(2)].cells();
    let plan = match owners {
        Some(owners) => some_plan(random, &owners),
        None => any_plan(random, cells),
    };
    let lengths = lengths(random, cells);
    let numbers = counted(random, &pair, &plan, lengths);
    (pair, numbers)
}

fn plan_of(random: &mut Random, marked: bool) -> (Pair, Vec<Number>) {
    let wanted = match random.once_in(4) {
        true => |_: &[Held; 2]| true,
        false => apart,
    };
    let (pair, owners) = asked(random, marked, wanted);
    let cells = pair[random.index(2)].cells();
    let occupied = owners.map_or(random.below(40) as usize, |[_, second]| {
        second.iter().filter(|owner| **owner > 0).count()
    });
    let length = plan_length(random, 2 * occupied as u64);
    let [first, second] = lengths(random, cells);
    (pair, numbers_of(&pair, &[length, first, second]))
}

pub fn carry(random: &mut Random) -> Vec<Number> {
    carry_of(random, false).1
}

pub fn plan(random: &mut Random) -> Vec<Number> {
    plan_of(random, false).1
}

pub fn starred_carry(random: &mut Random) -> Vec<Number> {
    let (pair, numbers) = carry_of(random, true);
    [marks(random, &pair), numbers].concat()
}

pub fn starred_plan(random: &mut Random) -> Vec<Number> {
    let (pair, numbers) = plan_of(random, true);
    [marks(random, &pair), numbers].concat()
}

/// A question of two cards, under the word with a star where they have marks
/// or one is wanted.
fn about(pair: &Pair, words: [&'static str; 2], star: bool, rest: &[u64]) -> Question<'static> {
    let [plain, starred] = words;
    let numbers = numbers_of(pair, rest);
    let marks = [pair[0].marks, pair[1].marks].map(|marks| number_of(&marks));
    match star || marks != [0; 2] {
        false => Question::new(plain, &numbers),
        true => Question::new(starred, &[whole(&marks), numbers].concat()),
    }
}

pub fn plan_question(pair: &Pair, star: bool, rest: [u64; 3]) -> Question<'static> {
    about(pair, ["plan", "plan*"], star, &rest)
}

pub fn carry_question(
    pair: &Pair,
    star: bool,
    plan: &[u64],
    lengths: [u64; 2],
) -> Question<'static> {
    let count = plan.len() as u64;
    about(
        pair,
        ["carry", "carry*"],
        star,
        &[&[count], plan, &lengths].concat(),
    )
}

/// A pair that a plan is written for, now and then with marks that are
/// ignored, and the plan.
fn planned(random: &mut Random) -> (Pair, Vec<u64>) {
    let (mut pair, owners) = pair(random, apart);
    if random.once_in(3) {
        some_of(random, &mut pair, mark_past);
    }
    (pair, written(&owners).unwrap_or_default())
}

/// Lengths of tables and of a plan's memory that have room.
fn enough(random: &mut Random, pair: &Pair, plan: &[u64]) -> [u64; 3] {
    let cells = pair[0].cells() as u64;
    [plan.len() as u64, cells, cells].map(|needed| needed + random.pick(&[0, 0, 1, 5]))
}

/// A plan that is written, or one time in eight any question for one.
pub fn written_plan(random: &mut Random) -> Question<'static> {
    if random.once_in(8) {
        return Question::new("plan*", &starred_plan(random));
    }
    let (pair, plan) = planned(random);
    let rest = enough(random, &pair, &plan);
    plan_question(&pair, random.once_in(2), rest)
}

/// A plan that is written, and the same plan checked.
pub fn followed_plan(random: &mut Random) -> [Question<'static>; 2] {
    loop {
        let (pair, plan) = planned(random);
        if plan.len() as u64 <= PLAN {
            let [_, first, second] = enough(random, &pair, &plan);
            let rest = enough(random, &pair, &plan);
            return [
                plan_question(&pair, random.once_in(2), rest),
                carry_question(&pair, random.once_in(2), &plan, [first, second]),
            ];
        }
    }
}

/// A swizzle that keeps blocks of so many bits.
fn some_swizzle(random: &mut Random, card: &mut Card, bits: u64) {
    let b = random.between(0, MOST_B.min(bits));
    card.swizzle = Swizzle {
        m: random.between(0, MOST_M.min(bits - b)),
        b,
        s: random.between(b, MOST_S),
    };
}

/// A tile of as many cells as are half of a space, and in the other half the
/// same tile rearranged. Half of them under a swizzle.
fn halves(random: &mut Random, cells: u64) -> Pair {
    let first = bit_tile(random, cells / 2);
    let second = rearranged(random, &first);
    let bits = u64::from(first.space[M_AXIS].ilog2());
    let axis = random.index(AXES);
    let mut pair = joined([first, second], axis, first.space[axis]);
    for card in &mut pair {
        if random.once_in(2) {
            some_swizzle(random, card, bits);
        }
    }
    exchange(random, &mut pair);
    pair
}

/// Few elements with many copies, and beside them one copy of each in some
/// of as many cells.
fn few_of_many(random: &mut Random, cells: u64) -> Pair {
    let elements = random.pick(&[16, 32, 64, 128]);
    let copies = (cells / 2 / elements).min(64);
    let replica = [copies / 4, 2, 2];
    let first = tile(random, &[elements / 4, 4], &replica);
    let mut second = rearranged(random, &first);
    second.replica_count = 0;
    let axis = random.index(AXES);
    joined([first, second], axis, first.space[axis])
}

/// A full tile twice, the second time taken apart and put together again.
fn full_again(random: &mut Random, cells: u64) -> Pair {
    let first = bit_tile(random, cells);
    let mut second = first;
    (0..random.below(3)).for_each(|_| split(random, &mut second));
    if random.once_in(2) {
        second = rearranged(random, &first);
    }
    joined([first, second], M_AXIS, 0)
}

/// A plan for a pair of many cells, right where the few copies suffice.
fn large_plan(random: &mut Random, pair: &Pair) -> Vec<u64> {
    let cells = pair[0].cells() as u64;
    let Some(owners) = both_owners(pair) else {
        return Vec::new();
    };
    let occupied = owners[1].iter().filter(|owner| **owner > 0).count() as u64;
    let mut plan = match (2 * occupied <= PLAN, owners[0] == owners[1]) {
        (true, _) => route(random, &owners),
        (_, true) => vec![random.below(cells); 2 * random.index(PLAN as usize / 2)],
        _ => (0..PLAN).map(|_| random.below(cells)).collect(),
    };
    if random.once_in(3) {
        spoil_plan(random, &mut plan, &owners);
    }
    plan.truncate(PLAN as usize);
    plan
}

/// Two cards in so many cells, for a plan that is checked.
fn large_pair(random: &mut Random, cells: u64) -> Pair {
    match random.below(4) {
        0 => halves(random, cells),
        1 => full_again(random, cells),
        _ => few_of_many(random, cells),
    }
}

fn full_carry_of(random: &mut Random) -> (Pair, Vec<Number>) {
    let pair = large_pair(random, LENT_TABLE);
    let plan = large_plan(random, &pair);
    let count = plan.len() as u64;
    let rest = [&[count], &plan[..], &[LENT_TABLE; 2]].concat();
    (pair, numbers_of(&pair, &rest))
}

/// Marks past the counts, or one that is refused when all else is judged.
fn full_marks(random: &mut Random, pair: &mut Pair) {
    match random.once_in(4) {
        true => some_of(random, pair, |random, card| reuse(random, card, LENT_TABLE)),
        false => some_of(random, pair, mark_past),
    }
}

fn full_plan_of(random: &mut Random) -> (Pair, [u64; 3]) {
    let mut pair = halves(random, LENT_TABLE);
    if random.once_in(6) {
        some_of(random, &mut pair, lower);
        same_space(random, &mut pair);
    }
    let length = random.pick(&[LENT_TABLE, LENT_TABLE, LENT_TABLE - 1, LENT_PLAN]);
    (pair, [length, LENT_TABLE, LENT_TABLE])
}

pub fn full_carry(random: &mut Random) -> Vec<Number> {
    full_carry_of(random).1
}

pub fn full_plan(random: &mut Random) -> Vec<Number> {
    let (pair, rest) = full_plan_of(random);
    numbers_of(&pair, &rest)
}

pub fn full_starred_carry(random: &mut Random) -> Vec<Number> {
    let (mut pair, numbers) = full_carry_of(random);
    let rest = &numbers[2 * Card::NUMBERS..];
    full_marks(random, &mut pair);
    [marks(random, &pair), numbers_of(&pair, &[]), rest.to_vec()].concat()
}

pub fn full_starred_plan(random: &mut Random) -> Vec<Number> {
    let (mut pair, rest) = full_plan_of(random);
    full_marks(random, &mut pair);
    [marks(random, &pair), numbers_of(&pair, &rest)].concat()
}

/// A random question about more cells than the programs lend, mostly.
pub fn larger(random: &mut Random) -> Question<'static> {
    let cells = random.pick(&[32_768, LARGEST_TABLE]);
    let lent = |random: &mut Random| match random.below(16) {
        0 => cells - 1,
        1 => LENT_TABLE,
        _ => random.between(cells, LARGEST_TABLE),
    };
    let lengths = [lent(random), lent(random)];
    if random.once_in(2) {
        let mut pair = halves(random, cells);
        if random.once_in(8) {
            some_of(random, &mut pair, mark);
        }
        let length = match random.below(4) {
            0 => cells - 1,
            1 => random.below(LARGEST_PLAN),
            _ => cells,
        };
        return plan_question(&pair, false, [length, lengths[0], lengths[1]]);
    }
    let pair = large_pair(random, cells);
    let plan = large_plan(random, &pair);
    carry_question(&pair, false, &plan, lengths)
}

#[cfg(test)]
mod tests {
    use super::*;
    use crate::lines::{answer_line, answers};
    use crate::loads::{followed_plans, written_plans};
    use crate::verdict::MOST_ENTRIES;

    fn said(question: &Question) -> String {
        answer_line(&question.bytes(), MOST_ENTRIES).unwrap_or_default()
    }

    #[test]
    fn pairs_are_mostly_approved() {
        let mut random = Random::new(42);
        let pairs = (0..500).map(|_| any_pair(&mut random));
        let few = pairs.filter(|pair| pair[0].cells() <= FEW);
        let approved = few.filter(|pair| both_owners(pair).is_some()).count();
        assert!(approved > 400, "{approved}");
    }

    #[test]
    fn splitting_moves_no_element() {
        let mut random = Random::new(43);
        for _ in 0..200 {
            let (pair, owners) = pair(&mut random, |_| true);
            let mut other = pair;
            other.iter_mut().for_each(|card| split(&mut random, card));
            assert_eq!(both_owners(&other), Some(owners));
        }
    }

    #[test]
    fn routes_end_rightly_where_there_is_room() {
        let mut random = Random::new(44);
        let (mut right, mut longer) = (0, 0);
        for _ in 0..300 {
            let (pair, owners) = pair(&mut random, |_| true);
            let plan = route(&mut random, &owners);
            let cells = pair[0].cells() as u64;
            let said = said(&carry_question(&pair, true, &plan, [cells; 2]));
            let all_wanted = owners[1].iter().all(|owner| *owner > 0);
            let full = plan.len() as u64 >= PLAN - 2;
            if said.starts_with("0 ") {
                right += 1;
                longer += u64::from(written(&owners).is_some_and(|plain| plain != plan));
            } else {
                assert!(all_wanted || full, "{said} {plan:?}");
            }
        }
        assert!(right > 250 && longer > 80, "{right} {longer}");
    }

    #[test]
    fn plans_that_are_followed_are_accepted() {
        let lines: Vec<Vec<u8>> = followed_plans(b"followed", 300).collect();
        let said: Vec<String> = answers(&lines.concat(), MOST_ENTRIES).collect();
        assert_eq!(said.len(), 600);
        assert!(said.iter().all(|text| text.starts_with("0 ")));
        for (at, line) in lines.iter().enumerate() {
            let word: &[u8] = if at % 2 == 0 { b"plan" } else { b"carry" };
            assert!(line.starts_with(word));
        }
    }

    #[test]
    fn most_plans_that_are_asked_for_are_written() {
        let lines = Vec::from_iter(written_plans(b"written", 400)).concat();
        let said = answers(&lines, MOST_ENTRIES);
        let written = said.filter(|text| text.starts_with("0 ")).count();
        assert!((350..400).contains(&written), "{written}");
    }

    #[test]
    fn full_pairs_are_full() {
        let mut random = Random::new(45);
        for _ in 0..20 {
            let pair = halves(&mut random, LENT_TABLE);
            assert_eq!(pair[0].cells(), LENT_TABLE.into());
            assert!(both_owners(&pair).is_some_and(|owners| apart(&owners)));
            let pair = full_again(&mut random, LENT_TABLE);
            let owners = both_owners(&pair).unwrap_or_default();
            assert!(owners[0].iter().all(|owner| *owner > 0));
            let pair = few_of_many(&mut random, LENT_TABLE);
            let plan = written(&both_owners(&pair).unwrap_or_default());
            assert!(plan.is_some_and(|plan| (1..=PLAN).contains(&(plan.len() as u64))));
        }
    }
}
