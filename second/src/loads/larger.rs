//! Questions about more cells than the programs lend, up to the largest table:
//! those on both sides of each limit by hand, then random ones.

use super::asked::random_asked;
use super::canonical::{self, Tile};
use super::cards::{accumulator, card_of, iter};
use super::full::{bit_tile, finished, tile};
use super::limits::{LARGEST_PLAN, LARGEST_TABLE, LENT_TABLE};
use super::malformed::Question;
use super::plans::{self, carry_question, plan_question, Pair};
use super::random::Random;
use super::reuse::{number_of, reuse};
use crate::layout::{whole_product, Card, Coordinates, Iter, Marks, AXES, M_AXIS, SHARD_SLOTS};
use crate::lines::whole;
use crate::swizzle::Swizzle;

type Asked = Question<'static>;

/// All the cells that a space can have.
const ALL: u64 = LARGEST_TABLE;

/// A question about a card, under the word with a star if it has marks.
fn about(card: &Card, [plain, starred]: [&'static str; 2], rest: &[u64]) -> Asked {
    let numbers = [card.numbers(), whole(rest)].concat();
    match number_of(&card.marks) {
        0 => Question::new(plain, &numbers),
        marks => Question::new(starred, &[whole(&[marks]), numbers].concat()),
    }
}

fn verdict(card: &Card, length: u64) -> Asked {
    about(card, ["verdict", "verdict*"], &[length])
}

fn owner(card: &Card, asked: &Coordinates, length: u64) -> Asked {
    about(card, ["owner", "owner*"], &[&asked[..], &[length]].concat())
}

fn stretch(space: &[u64; AXES], axis: u64, asked: &Coordinates, length: u64) -> Asked {
    let numbers = [&space[..], &[axis], asked, &[length]].concat();
    Question::new("stretch", &numbers)
}

/// The last cell of a space.
fn last(space: &[u64; AXES]) -> Coordinates {
    space.map(|length| length - 1)
}

/// The card on m alone, in so many cells.
fn on_m(shard: &[Iter], replica: &[Iter], offset: i32, cells: u64) -> Card {
    let mut card = card_of(shard, replica);
    card.offset[M_AXIS] = offset.into();
    card.space = [1; AXES];
    card.space[M_AXIS] = cells;
    card
}

fn accumulators() -> Vec<Asked> {
    let card = accumulator();
    vec![
        verdict(&card, 28_672),
        verdict(&card, ALL),
        verdict(&card, 28_671),
        owner(&card, &last(&card.space), 28_672),
        owner(&card, &last(&card.space), 28_671),
    ]
}

/// As many elements and cells as there may be, on one axis or several.
fn full_tiles() -> Vec<Card> {
    let mut swizzled = card_of(&[iter(2, 32_768, 7), iter(32_768, 1, 7)], &[]);
    swizzled.swizzle = Swizzle { m: 4, b: 3, s: 3 };
    vec![
        card_of(&[iter(65_536, 1, 7)], &[]),
        card_of(&[iter(65_536, 1, 0)], &[]),
        on_m(&[iter(65_536, -1, 7)], &[], 65_535, ALL),
        card_of(&[iter(256, 256, 7), iter(256, 1, 7)], &[]),
        card_of(&[iter(256, 1, 5), iter(256, 1, 6)], &[]),
        card_of(
            &std::array::from_fn::<_, 8, _>(|axis| iter(4, 1, axis as u64)),
            &[],
        ),
        swizzled,
    ]
}

/// Cards that are refused by 2, 4 or 5, each beside a limit.
fn beyond_a_limit() -> Vec<Card> {
    let one = || on_m(&[iter(1, 0, 7)], &[], 0, ALL);
    let of = |extents: &[u64]| {
        let shard: Vec<Iter> = extents.iter().map(|extent| iter(*extent, 0, 7)).collect();
        on_m(&shard, &[], 0, ALL)
    };
    let within = |lengths: &[u64]| {
        let mut card = one();
        card.space = std::array::from_fn(|axis| lengths.get(axis).copied().unwrap_or(1));
        card
    };
    vec![
        of(&[65_537]),
        on_m(&[iter(1, 0, 7)], &[iter(65_537, 0, 7)], 0, ALL),
        on_m(&[iter(65_536, 1, 7)], &[], 0, 65_537),
        within(&[2, 32_769]),
        within(&[65_536, 65_536]),
        within(&[65_536; 4]),
        within(&[244, 1_321, 13_325]),
        within(&[8_192, 2_763, 2_857, 6_529, 43_691]),
        of(&[2, 32_769]),
        of(&[65_536, 65_536]),
        of(&[65_536; 4]),
        of(&[244, 1_321, 13_325]),
        of(&[8_192, 2_763, 2_857, 6_529, 43_691]),
        on_m(&[iter(1, 0, 7)], &[iter(65, 1, 7)], 0, ALL),
        on_m(&[iter(1, 0, 7)], &[iter(65_536, 1, 7)], 0, ALL),
    ]
}

/// Cards with many copies, and cards whose first fault comes late.
fn copies_and_faults() -> Vec<Card> {
    let sixty_four = [iter(4, 16_384, 7), iter(4, 1_024, 7), iter(4, 4_096, 7)];
    vec![
        on_m(&[iter(1_024, 1, 7)], &[iter(64, 1_024, 7)], 0, ALL),
        on_m(&[iter(1_024, -1, 7)], &sixty_four, 1_023, ALL),
        on_m(&[iter(1_024, 64, 7)], &[iter(64, -1, 7)], 63, ALL),
        on_m(&[iter(1_024, 1, 7)], &[iter(64, 1_023, 7)], 0, ALL),
        on_m(&[iter(255, 257, 7), iter(257, 1, 7)], &[], 0, 65_535),
        on_m(&[iter(2, 65_535, 7)], &[], 0, ALL),
        on_m(&[iter(65_536, 1, 7)], &[], 0, 65_535),
        on_m(&[iter(65_536, -1, 7)], &[], 65_534, ALL),
        met_late(32_768, 7),
        crossing(181, 7),
        on_m(
            &[iter(1_024, 1, 7), iter(64, 0, 7)],
            &[iter(64, 1_024, 7)],
            0,
            ALL,
        ),
    ]
}

/// The card with these iters marked.
fn marked(card: Card, iters: &[usize]) -> Card {
    let marks: Marks = std::array::from_fn(|k| iters.contains(&k));
    Card { marks, ..card }
}

/// Cards with marked iters: five that are approved, then refused ones.
fn reused_tiles() -> Vec<Card> {
    let still = |extent: u64| iter(extent, 0, 7);
    let all_on_m = |shard: &[Iter]| on_m(shard, &[], 0, ALL);
    let steps = [iter(4, 0, 0), iter(4_096, -16, 7), iter(4, 0, 3)];
    let late = [iter(16_384, 1, 7), still(2)];
    vec![
        marked(all_on_m(&[still(2), iter(32_768, 1, 7)]), &[0]),
        marked(all_on_m(&[iter(16_384, 4, 7), still(4)]), &[1, 5]),
        marked(all_on_m(&[still(65_536)]), &[0]),
        marked(on_m(&steps, &[], 65_520, ALL), &[0, 2]),
        marked(
            on_m(
                &[iter(1_024, 1, 7), still(64)],
                &[iter(64, 1_024, 7)],
                0,
                ALL,
            ),
            &[1],
        ),
        marked(all_on_m(&[iter(65_536, 1, 7)]), &[0]),
        marked(all_on_m(&[still(65_536), still(2)]), &[0, 1]),
        marked(on_m(&[still(2), iter(32_768, 1, 7)], &[], 0, 32_767), &[0]),
        marked(on_m(&late, &[iter(2, 16_383, 7)], 0, ALL), &[1]),
        marked(all_on_m(&[still(2), still(2), iter(16_384, 1, 7)]), &[0]),
    ]
}

/// The accumulator twice over the same cells.
fn reused_accumulator() -> Card {
    let shard = [
        iter(2, 0, 6),
        iter(2, 112, 6),
        iter(128, 1, 5),
        iter(112, 1, 6),
    ];
    marked(card_of(&shard, &[]), &[0])
}

fn reused() -> Vec<Asked> {
    let tiles = reused_tiles();
    let verdicts = tiles.iter().map(|card| verdict(card, ALL));
    let owners = tiles[..5].iter().map(|card| owner(card, &[0; AXES], ALL));
    let card = reused_accumulator();
    let accumulator = [
        verdict(&card, 28_672),
        verdict(&card, 28_671),
        owner(&card, &last(&card.space), 28_672),
    ];
    verdicts.chain(owners).chain(accumulator).collect()
}

/// The second copy of the first element lies where the last element does.
fn met_late(extent: u64, axis: u64) -> Card {
    card_of(
        &[iter(extent, 1, axis)],
        &[iter(2, extent as i64 - 1, axis)],
    )
}

/// One way back and one way forth, of lengths that meet nowhere but at the
/// end of both.
pub fn crossing(extent: u64, axis: u64) -> Card {
    let back = extent as i64 - 2;
    let mut card = card_of(
        &[iter(extent, -back, axis), iter(extent, back + 1, axis)],
        &[],
    );
    card.offset[axis as usize] = (back * (back + 1)).into();
    card.space[axis as usize] = ((back + 1) * (2 * back + 1) + 1) as u64;
    card
}

fn stretches() -> Vec<Asked> {
    let of = |lengths: [u64; 3]| {
        let [pid, lane, m] = lengths;
        [pid, 1, 1, 1, 1, lane, 1, m]
    };
    let (all, square) = (of([1, 1, 65_536]), of([1, 256, 256]));
    let first = [0; AXES];
    vec![
        stretch(&all, 0, &first, ALL),
        stretch(&all, 7, &last(&all), ALL),
        stretch(&all, 0, &first, ALL - 1),
        stretch(&all, 7, &all, ALL),
        stretch(&square, 4, &first, ALL),
        stretch(&square, 5, &last(&square), ALL),
        stretch(&of([65_536, 1, 1]), 0, &last(&of([65_536, 1, 1])), ALL),
        stretch(&of([1, 128, 224]), 5, &last(&of([1, 128, 224])), 28_672),
        stretch(&of([1, 1, 65_537]), 0, &first, ALL),
        stretch(&of([2, 1, 32_769]), 0, &first, ALL),
        stretch(&of([1, 65_536, 65_536]), 0, &first, ALL),
        stretch(&of([244, 1_321, 13_325]), 0, &first, ALL),
    ]
}

fn canonical_question(tile: &Tile, length: u64) -> Asked {
    let numbers = [&tile.numbers()[..], &[length]].concat();
    Question::new("canonical", &numbers)
}

/// Canonical layouts in all cells that a space can have: six that are
/// approved, then refused ones.
fn canonical_tiles() -> Vec<Tile> {
    let tile = |[major, mode, bits]: [u64; 3], [m, k]: [u64; 2], [lbo, sbo]: [u64; 2]| Tile {
        major,
        mode,
        bits,
        m,
        k,
        lbo,
        sbo,
        length_of_m: ALL,
    };
    let shortened = Tile {
        length_of_m: ALL - 1,
        ..tile([1, 3, 8], [8, 8], [1_024, 8_192])
    };
    vec![
        tile([1, 3, 8], [8, 8], [1_024, 8_192]),
        tile([1, 2, 4], [8, 8], [4_096, 512]),
        tile([1, 3, 4], [4, 8], [1_024, 4_096]),
        tile([0, 0, 4], [8, 8], [1_024, 128]),
        tile([0, 3, 4], [8, 4], [u64::MAX, 4_096]),
        tile([0, 0, 4], [8, 8], [2_048, 256]),
        tile([1, 3, 4], [5, 7], [1_024, 5_120]),
        tile([0, 0, 4], [8, 8], [2_064, 256]),
        tile([1, 3, 8], [8, 8], [1_024, 8_176]),
        shortened,
    ]
}

/// The accumulator, and beside it one of another column order.
fn two_accumulators() -> Pair {
    let mut first = accumulator();
    first.space[6] = 448;
    let shard = [iter(2, -112, 6), iter(128, 1, 5), iter(112, -1, 6)];
    let mut second = card_of(&shard, &[]);
    second.space = first.space;
    second.offset[6] = 447;
    [first, second]
}

/// So many elements from a cell on, rising or falling.
fn run(elements: u64, stride: i32, offset: i32) -> Card {
    on_m(&[iter(elements, stride, 7)], &[], offset, ALL)
}

/// Few elements, and beside them 64 copies of each.
fn one_and_many() -> Pair {
    let many = on_m(&[iter(1_008, 1, 7)], &[iter(64, 1_008, 7)], 1_008, ALL);
    [run(1_008, 1, 0), many]
}

/// Pairs for which a plan is written, and its numbers.
fn planned() -> Vec<(Pair, u64)> {
    let [one, many] = one_and_many();
    vec![
        (two_accumulators(), 57_344),
        ([run(32_768, 1, 0), run(32_768, 1, 32_768)], 65_536),
        ([run(32_768, -1, 65_535), run(32_768, 2, 1)], 0),
        ([run(32_768, 2, 0), run(32_768, -2, 65_535)], 65_536),
        ([one, many], 129_024),
        ([many, one], 2_016),
        ([run(1, 0, 0), run(1, 0, 65_535)], 2),
    ]
}

/// Plans that are written, then one number too little lent, then refused
/// ones, each of two cards.
fn plans_by_hand() -> Vec<Asked> {
    let ask = |pair: &Pair, length: u64| plan_question(pair, false, [length, ALL, ALL]);
    let planned = planned();
    let just = planned.iter().map(|(pair, needed)| ask(pair, *needed));
    let more = planned.iter().map(|(pair, _)| ask(pair, LARGEST_PLAN));
    let short = planned
        .iter()
        .map(|(pair, needed)| ask(pair, needed.saturating_sub(1)));
    let last = [run(2, 65_535, 0), run(2, -1, 65_535)];
    let all = run(65_536, 1, 0);
    let reused = reused_tiles().swap_remove(0);
    let refused = [
        ask(&last, 0),
        ask(&[all, all], LARGEST_PLAN),
        ask(&[all, run(65_535, 1, 0)], LARGEST_PLAN),
        ask(&[all, reused], LARGEST_PLAN),
        ask(&[met_late(32_768, 7), all], 0),
        ask(
            &[
                all,
                on_m(&[iter(32_768, 1, 7)], &[iter(2, 32_767, 7)], 0, ALL),
            ],
            0,
        ),
        ask(&[all, run(65_536, 1, 1)], 0),
        plan_question(&last, false, [4, ALL - 1, ALL]),
        plan_question(&last, false, [4, ALL, ALL - 1]),
    ];
    just.chain(more).chain(short).chain(refused).collect()
}

/// Plans that are checked on as many cells as there may be.
fn checks_by_hand() -> Vec<Asked> {
    let all = run(65_536, 1, 0);
    let ask = |second: &Card, plan: &[u64]| carry_question(&[all, *second], false, plan, [ALL; 2]);
    let mut swizzled = all;
    swizzled.swizzle = Swizzle { m: 4, b: 3, s: 3 };
    let [one, many] = one_and_many();
    let first: Vec<u64> = (0..128).flat_map(|cell| [cell, 1_008 + cell]).collect();
    let last = |apart: u64| -> Vec<u64> {
        let back = |cell: u64| [64 * apart + cell, cell];
        (0..128).flat_map(back).collect()
    };
    let few = on_m(&[iter(128, 1, 7)], &[iter(64, 1_000, 7)], 1_000, ALL);
    vec![
        ask(&all, &[]),
        ask(&all, &[65_535, 65_535]),
        ask(&all, &[65_535; 256]),
        ask(&all, &[65_536, 0]),
        ask(&all, &[0, 65_536]),
        ask(&all, &[0, 0, 5]),
        ask(&all, &[1, 0]),
        ask(&all, &[0, 65_535]),
        ask(&run(65_536, -1, 65_535), &[]),
        ask(&swizzled, &[]),
        carry_question(&[one, many], false, &first, [ALL; 2]),
        carry_question(&[many, one], false, &last(1_008), [ALL; 2]),
        carry_question(&[few, run(128, 1, 0)], false, &last(1_000), [ALL; 2]),
        carry_question(&[all, all], false, &[], [ALL, ALL - 1]),
    ]
}

pub fn by_hand() -> Vec<Asked> {
    let full = full_tiles();
    let enough = full.iter().map(|card| verdict(card, ALL));
    let short = full.iter().map(|card| verdict(card, ALL - 1));
    let owners = full.iter().map(|card| owner(card, &last(&card.space), ALL));
    let beyond = beyond_a_limit().into_iter().map(|card| verdict(&card, ALL));
    let others = copies_and_faults();
    let others = others.iter().map(|card| verdict(card, ALL));
    let questions = accumulators().into_iter().chain(enough).chain(short);
    let questions = questions.chain(owners).chain(beyond).chain(others);
    let tiles = canonical_tiles();
    let canonical = tiles.iter().map(|tile| canonical_question(tile, ALL));
    let short = canonical_question(&tiles[0], ALL - 1);
    let questions = questions.chain(stretches()).chain(reused());
    let questions = questions.chain(canonical).chain([short]);
    let plans = plans_by_hand().into_iter().chain(checks_by_hand());
    questions.chain(plans).collect()
}

/// So many sizes whose product with a number lies above what the programs
/// lend and not above the largest table.
fn sizes(random: &mut Random, count: usize, times: u64) -> Vec<u64> {
    let mut sizes = vec![1; count];
    let mut product = times;
    while product <= LENT_TABLE {
        let factor = random.pick(&[2, 2, 2, 3, 5, 7, 11]);
        if product * factor <= ALL {
            product *= factor;
            sizes[random.index(count)] *= factor;
        }
    }
    sizes
}

/// A tile of some extents with some copies.
fn mixed_tile(random: &mut Random) -> Card {
    let replica = random.pick(&[
        &[][..],
        &[2],
        &[3],
        &[64],
        &[3, 2],
        &[7, 9],
        &[4, 4, 4],
        &[2, 8, 2, 2],
    ]);
    let count = random.index(SHARD_SLOTS) + 1;
    let shard = sizes(random, count, replica.iter().product());
    tile(random, &shard, replica)
}

/// A card with more cells than the programs lend, mostly.
pub fn card(random: &mut Random) -> Card {
    let axis = random.below(AXES as u64);
    match random.below(12) {
        0..=3 => {
            let cells = random.pick(&[32_768, 65_536]);
            let card = bit_tile(random, cells);
            finished(random, card)
        }
        4..=7 => {
            let card = mixed_tile(random);
            finished(random, card)
        }
        8 => met_late(random.between(8_193, 32_768), axis),
        9 => crossing(random.between(92, 181), axis),
        _ => {
            // The last elements lie outside.
            let mut card = mixed_tile(random);
            let longest = card.space.iter_mut().max();
            longest.into_iter().for_each(|length| *length -= 1);
            card
        }
    }
}

/// A length for so many cells: enough, mostly.
fn lent(random: &mut Random, cells: u128) -> u64 {
    let cells = cells.min(ALL.into()) as u64;
    let length = match random.below(12) {
        0..=6 => cells,
        7 | 8 => cells + random.below(4),
        9 => ALL,
        10 => random.around(cells),
        _ => random.pick(&[0, LENT_TABLE, LENT_TABLE + 1, cells / 2, ALL - 1]),
    };
    length.min(ALL)
}

fn random_stretch(random: &mut Random) -> Asked {
    let mut space: [u64; AXES] = [1; AXES];
    space.copy_from_slice(&sizes(random, AXES, 1));
    let axis = random.index(AXES);
    match random.below(16) {
        0 => space[axis] = random.around(ALL),
        1 => space[axis] *= 2,
        _ => {}
    }
    let asked = random_asked(random, &space);
    let length = lent(random, whole_product(&space));
    // Now and then the axis may be one too many.
    let axes = AXES as u64 + u64::from(random.once_in(4));
    let axis = random.below(axes);
    stretch(&space, axis, &asked, length)
}

/// A random question; all of them may be answered.
pub fn question(random: &mut Random) -> Asked {
    if random.once_in(4) {
        return random_stretch(random);
    }
    if random.once_in(8) {
        let tile = canonical::larger_tile(random);
        let length = lent(random, tile.length_of_m.into());
        return canonical_question(&tile, length);
    }
    if random.once_in(6) {
        return plans::larger(random);
    }
    let mut card = card(random);
    if random.once_in(3) {
        reuse(random, &mut card, ALL);
    }
    let length = lent(random, card.cells());
    if random.once_in(3) {
        let asked = random_asked(random, &card.space);
        return owner(&card, &asked, length);
    }
    verdict(&card, length)
}

#[cfg(test)]
mod tests {
    use super::*;
    use crate::lines::answer_line;

    fn said(question: &Asked) -> String {
        let text = answer_line(&question.bytes(), ALL).unwrap_or_default();
        text.split(" |").next().unwrap_or("").to_string()
    }

    fn all_say(cards: &[Card], length: u64, wanted: &str) {
        for card in cards {
            assert_eq!(said(&verdict(card, length)), wanted, "{card:?}");
        }
    }

    #[test]
    fn what_is_said_by_hand() {
        let accumulators: Vec<String> = accumulators().iter().map(said).collect();
        let (approved, short) = ("0 28672 28672 28672", "11 28672 0 0");
        let owner = "0 28672 0 0";
        assert_eq!(accumulators, [approved, approved, short, owner, short]);
        all_say(&full_tiles(), ALL, "0 65536 65536 65536");
        all_say(&full_tiles(), ALL - 1, "11 65536 0 0");
        let beyond = beyond_a_limit();
        all_say(&beyond[..2], ALL, "2 0 0 0");
        all_say(&beyond[2..8], ALL, "4 0 0 0");
        all_say(&beyond[8..], ALL, "5 0 0 0");
        let others = copies_and_faults();
        all_say(&others[..3], ALL, "0 1024 65536 65536");
        all_say(&others[3..4], ALL, "8 0 1023 1023");
        all_say(&others[4..5], ALL, "0 65535 65535 65535");
        all_say(&others[5..6], ALL, "0 2 2 65536");
        all_say(&others[6..8], ALL, "7 65535 7 0");
        all_say(&others[8..9], ALL, "8 0 32767 32767");
        all_say(&others[9..10], ALL, "8 0 32759 32220");
        all_say(&others[10..], ALL, "8 0 1 0");
    }

    #[test]
    fn what_is_said_to_reused_tiles() {
        let said: Vec<String> = reused().iter().map(said).collect();
        let wanted = [
            "0 65536 32768 65536",
            "0 65536 16384 65536",
            "0 65536 1 65536",
            "0 65536 4096 65536",
            "0 65536 65536 65536",
            "2 0 0 0",
            "5 0 0 0",
            "7 32767 7 0",
            "8 0 32766 16383",
            "8 0 16384 0",
            "0 1 0 0",
            "0 1 0 0",
            "0 1 0 0",
            "0 16381 0 0",
            "0 1 0 0",
            "0 57344 28672 28672",
            "11 28672 0 0",
            "0 28672 0 0",
        ];
        assert_eq!(said, wanted);
    }

    #[test]
    fn what_is_said_to_stretches() {
        let said: Vec<String> = stretches().iter().map(said).collect();
        let wanted = [
            "0 0 65536 0",
            "0 65535 1 0",
            "11 65536 0 0",
            "12 0 0 0",
            "0 0 65536 0",
            "0 65280 256 0",
            "0 65535 1 0",
            "0 28448 224 0",
            "4 0 0 0",
            "4 0 0 0",
            "4 0 0 0",
            "4 0 0 0",
        ];
        assert_eq!(said, wanted);
    }

    #[test]
    fn what_is_said_to_canonical_layouts() {
        let tiles = canonical_tiles();
        let said: Vec<String> = tiles
            .iter()
            .map(|tile| said(&canonical_question(tile, ALL)))
            .collect();
        let wanted = [
            "0 65536 65536 65536",
            "0 65536 65536 65536",
            "0 65536 65536 65536",
            "0 32768 32768 65536",
            "0 16384 16384 65536",
            "0 32768 32768 65536",
            "5 0 0 0",
            "7 29664 7 0",
            "8 8 64519 8064",
            "7 58367 7 0",
        ];
        assert_eq!(said, wanted);
    }

    #[test]
    fn what_is_said_to_plans() {
        let said_to: Vec<String> = plans_by_hand().iter().map(said).collect();
        let needed = [57_344, 65_536, 0, 65_536, 129_024, 2_016, 2];
        for (at, needed) in needed.iter().enumerate() {
            let (just, more, short) = match needed {
                // These two meet.
                0 => ["23 32769 0 0"; 3].map(str::to_string).into(),
                _ => (
                    format!("0 {needed} 0 0"),
                    format!("0 {needed} 0 0"),
                    format!("11 {needed} 0 0"),
                ),
            };
            let own = [&said_to[at], &said_to[7 + at], &said_to[14 + at]];
            assert_eq!(own, [&just, &more, &short]);
        }
        let wanted = [
            "23 65535 0 0",
            "23 0 0 0",
            "9 0 0 0",
            "2 0 0 0",
            "4 0 0 0",
            "8 0 32767 32767",
            "7 65535 7 0",
            "11 65536 0 0",
            "11 65536 0 0",
        ];
        assert_eq!(said_to[21..], wanted);
        let said_to: Vec<String> = checks_by_hand().iter().map(said).collect();
        let wanted = [
            "0 0 0 0",
            "0 0 0 0",
            "0 0 0 0",
            "21 1 0 0",
            "21 1 0 0",
            "21 2 0 0",
            "21 0 0 0",
            "21 0 65535 0",
            "21 0 0 0",
            "21 0 128 0",
            "21 0 1136 0",
            "21 0 128 0",
            "0 0 0 0",
            "11 65536 0 0",
        ];
        assert_eq!(said_to, wanted);
    }

    #[test]
    fn faults_come_late() {
        let refused = |card: Card| said(&verdict(&card, ALL));
        for (extent, axis) in [(8_193, 0), (20_000, 5), (32_768, 7)] {
            let last = extent - 1;
            assert_eq!(
                refused(met_late(extent, axis)),
                format!("8 0 {last} {last}")
            );
        }
        for extent in [92, 100, 181] {
            let (y, cell) = (extent * extent - 2, (extent - 1) * (extent - 2));
            assert_eq!(refused(crossing(extent, 3)), format!("8 0 {y} {cell}"));
        }
    }

    #[test]
    fn tiles_are_larger_than_what_is_lent() {
        let mut random = Random::new(17);
        for _ in 0..200 {
            let card = mixed_tile(&mut random);
            let permitted = u128::from(LENT_TABLE + 1)..=ALL.into();
            assert!(permitted.contains(&card.cells()));
            assert_eq!(card.elements() * card.copies(), card.cells());
            assert_eq!(card.admitted(), Ok(()));
        }
    }
}
