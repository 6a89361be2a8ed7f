//! Blocks of the layout book: right ones of random cards and notes, some with
//! numbers that no writer lets pass, and damaged ones; the lines of `block`,
//! `block*` and `page`; whole books; every byte of a few blocks changed; and
//! every unused byte of one set.

use super::cards::{card_of, iter, some_iter, tile_x};
use super::limits::{BLOCK, LENT_BYTES, LINE, NOTE, SEED};
use super::random::{seed_of, Random};
use super::reuse::{number_of, reused_card};
use super::texts::any_card;
use crate::book::{self, block_of, put_check};
use crate::layout::{Card, AXES, REPLICA_SLOTS, SHARD_SLOTS};
use crate::lines::{whole, Number};
use crate::swizzle::Swizzle;

/// A block's parts where damage is done to them.
const SLOTS: std::ops::Range<u64> = 8..152;
const NOTE_BYTES: std::ops::Range<u64> = 216..508;
const CHECK_AT: usize = 508;

/// What the check counts modulo.
const MODULUS: u32 = 65_521;

/// A note of any length that is permitted, often one that ends in zeros.
fn note(random: &mut Random) -> Vec<u8> {
    let length = match random.below(8) {
        0 | 1 => 0,
        2 => random.between(1, 3),
        3 | 4 => random.between(4, 60),
        5 => NOTE,
        6 => NOTE - random.below(3),
        _ => random.below(NOTE),
    };
    let filling = random.below(4);
    let byte = |i: u64| match filling {
        0 => 0,
        1 => 255,
        2 => (random.next() >> (i % 8)) as u8,
        _ => b'a' + (i % 26) as u8,
    };
    (0..length).map(byte).collect()
}

/// A number that a block can hold and no card of the verdict may have.
fn widen(random: &mut Random, card: &mut Card) {
    let axis = random.index(AXES);
    match random.below(10) {
        0 => some_iter(random, card).extent = random.hostile(),
        1 | 2 => some_iter(random, card).stride = random.any_sign(),
        3 => some_iter(random, card).axis = random.hostile(),
        4 | 5 => card.offset[axis] = random.any_sign(),
        6 => card.space[axis] = random.hostile(),
        7 => {
            card.swizzle = Swizzle {
                m: random.hostile(),
                b: random.hostile(),
                s: random.hostile(),
            }
        }
        _ => card.marks = card.marks.map(|_| random.once_in(2)),
    }
}

/// A block that is read.
fn right_block(random: &mut Random) -> book::Block {
    let mut card = any_card(random);
    card.shard_count = card.shard_count.clamp(1, SHARD_SLOTS as u64);
    card.replica_count = card.replica_count.min(REPLICA_SLOTS as u64);
    for _ in 0..random.below(3) {
        widen(random, &mut card);
    }
    block_of(&card, &note(random))
}

/// A little more or less, one bit, or anything; mostly another byte.
fn other_byte(random: &mut Random, byte: u8) -> u8 {
    match random.below(5) {
        0 => byte.wrapping_add(1),
        1 => byte.wrapping_sub(1),
        2 | 3 => byte ^ 1 << random.below(8),
        _ => random.next() as u8,
    }
}

fn change_within(random: &mut Random, block: &mut book::Block, places: std::ops::Range<u64>) {
    let at = random.between(places.start, places.end - 1) as usize;
    block[at] = other_byte(random, block[at]);
}

/// Another number in the place of the check, or its bytes in another order.
fn wrong_check(random: &mut Random, block: &mut book::Block) {
    let (before, own) = block.split_at_mut(CHECK_AT);
    let right = u32::from_le_bytes([own[0], own[1], own[2], own[3]]);
    let last = u32::from(before[CHECK_AT - 1]);
    let wrong = match random.below(8) {
        0 => right.wrapping_add(1),
        1 => right.wrapping_sub(1),
        2 => right + MODULUS,
        3 => right ^ 1 << random.between(16, 31),
        4 => right.swap_bytes(),
        5 => right + (1 << 16),
        6 => right.wrapping_sub(508 * last),
        _ => random.next() as u32,
    };
    own.copy_from_slice(&wrong.to_le_bytes());
}

/// Damage with the check put right after it.
fn damage_within(random: &mut Random, block: &mut book::Block) {
    match random.below(14) {
        0 => block[0] = random.pick(&[0, 1, 7, 8, 9, 10, 128, 255]),
        1 => block[1] = random.pick(&[0, 3, 4, 5, 6, 128, 255]),
        2 => block[5] = other_byte(random, block[5]),
        3 | 4 => {
            let length = random.around_one_of(&[NOTE, NOTE, 0, 36, 256, 65_534]);
            block[6..8].copy_from_slice(&(length as u16).to_le_bytes());
        }
        5 | 6 => {
            // The mark's byte of a shard slot, or the same byte of a replica
            // slot, which has none.
            let slot = random.index(SHARD_SLOTS + REPLICA_SLOTS);
            block[8 + 12 * slot + 9] = random.pick(&[0, 1, 1, 2, 2, 3, 128, 255]);
        }
        7..=9 => change_within(random, block, SLOTS),
        10 | 11 => change_within(random, block, NOTE_BYTES),
        _ => change_within(random, block, 0..BLOCK),
    }
    put_check(block);
}

fn damage(random: &mut Random, block: &mut book::Block) {
    match random.below(8) {
        0 => change_within(random, block, 0..BLOCK),
        1 => wrong_check(random, block),
        2 => {
            let (one, other) = (random.index(block.len()), random.index(block.len()));
            block.swap(one, other);
        }
        3 => {
            *block = block.map(|_| random.next() as u8);
            put_check(block);
        }
        _ => damage_within(random, block),
    }
}

/// A block of 512 bytes; half of them are right.
fn any_block(random: &mut Random) -> book::Block {
    let mut block = right_block(random);
    if random.once_in(2) {
        (0..random.pick(&[1, 1, 1, 2, 3])).for_each(|_| damage(random, &mut block));
    }
    block
}

/// The bytes of a page: now and then too few, or more than are looked at.
fn page(random: &mut Random) -> Vec<u8> {
    let mut bytes = any_block(random).to_vec();
    let length = match random.below(16) {
        0 => random.around(BLOCK),
        1 => random.below(BLOCK),
        2 => random.between(BLOCK, LENT_BYTES),
        3 => random.pick(&[0, 1, 4, 8, BLOCK - 1, BLOCK + 1, LENT_BYTES]),
        _ => BLOCK,
    };
    bytes.truncate(length as usize);
    while bytes.len() < length as usize {
        bytes.push(random.next() as u8);
    }
    bytes
}

fn digits(bytes: &[u8]) -> Vec<u8> {
    let text: String = bytes.iter().map(|byte| format!("{byte:02x}")).collect();
    text.into_bytes()
}

/// Digits that are not an even count of hex digits, or still are.
fn misspelt(random: &mut Random, mut digits: Vec<u8>) -> Vec<u8> {
    let at = random.index(digits.len() + 1);
    match random.below(12) {
        0 => digits.insert(at, b'0'),
        1 | 2 => {
            digits.pop();
        }
        3 => digits.insert(at, b' '),
        4 => digits.push(random.pick(b" \r\t\0")),
        5 => digits.make_ascii_uppercase(),
        6 => {
            let length = 2 * random.around(LENT_BYTES) as usize;
            digits.resize(length, b'0');
        }
        7 => digits.resize(random.around(2 * LENT_BYTES) as usize, b'f'),
        8 => digits.resize(random.around(LINE as u64 - 5) as usize, b'0'),
        _ => {
            // The neighbours of the digits, and such as look like them.
            let other = random.pick(b"/:@GAFg` xX+-.,\0\xff");
            match digits.get_mut(at) {
                Some(digit) => *digit = other,
                None => digits.push(other),
            }
        }
    }
    digits
}

/// A line of the word `page`, or one that looks like it.
pub fn page_line(random: &mut Random) -> Vec<u8> {
    let digits = digits(&page(random));
    match random.below(120) {
        0 => [b"page", &digits[..]].concat(),
        1 => [b"page\t", &digits[..]].concat(),
        2 => [b"Page ", &digits[..]].concat(),
        3 => [b" page ", &digits[..]].concat(),
        4 => [b"page  ", &digits[..]].concat(),
        5 => [b"page* ", &digits[..]].concat(),
        6 => b"page".to_vec(),
        7 => b"page ".to_vec(),
        8..=15 => [b"page ", &misspelt(random, digits)[..]].concat(),
        _ => [b"page ", &digits[..]].concat(),
    }
}

/// A card's numbers, then note length, seed and length: mostly such that a
/// permitted card is written.
fn block_on(random: &mut Random, card: &Card) -> Vec<Number> {
    let note_length = match random.below(32) {
        0..=15 => random.below(NOTE + 1),
        16 | 17 => 0,
        18..=25 => random.around(NOTE),
        26 | 27 => NOTE,
        28 | 29 => random.below(LENT_BYTES),
        30 => random.around(LENT_BYTES),
        _ => random.hostile(),
    };
    let seed = match random.below(32) {
        0 => random.around(SEED),
        1 => random.hostile(),
        _ => random.below(SEED + 1),
    };
    let length = match random.below(32) {
        0..=13 => BLOCK,
        14..=21 => random.around(BLOCK),
        22..=27 => random.between(BLOCK, LENT_BYTES),
        28 | 29 => random.below(BLOCK),
        30 => random.around(LENT_BYTES),
        _ => random.hostile(),
    };
    [card.numbers(), whole(&[note_length, seed, length])].concat()
}

pub fn block(random: &mut Random) -> Vec<Number> {
    let card = any_card(random);
    block_on(random, &card)
}

pub fn starred_block(random: &mut Random) -> Vec<Number> {
    let card = reused_card(random);
    let marks = whole(&[number_of(&card.marks)]);
    [marks, block_on(random, &card)].concat()
}

/// How often a block comes in a row.
fn run(random: &mut Random) -> u64 {
    match random.below(24) {
        0 => random.between(100, 1_000),
        1 => random.between(4, 40),
        _ => random.between(1, 3),
    }
}

/// A random book of so many blocks, and in half of the books a short one
/// after them. It comes in pieces.
pub fn book(seed: &[u8], count: u64) -> impl Iterator<Item = Vec<u8>> {
    let mut random = Random::new(seed_of(seed));
    let mut left = count;
    let mut last = random.once_in(2);
    std::iter::from_fn(move || {
        let block = any_block(&mut random);
        if left > 0 {
            let run = run(&mut random).min(left);
            left -= run;
            return Some(block.repeat(run as usize));
        }
        let short = random.between(1, BLOCK - 1) as usize;
        std::mem::take(&mut last).then(|| block[..short].to_vec())
    })
}

/// A card with every slot used, marked where it may be, and with its numbers
/// at their limits.
fn fullest() -> Card {
    let shard: [_; SHARD_SLOTS] = std::array::from_fn(|k| match k {
        0 => iter(65_536, -65_536, 7),
        _ => iter(1, 65_535 * Number::from(k as u64 % 2), k as u64),
    });
    let replica: [_; REPLICA_SLOTS] = std::array::from_fn(|k| iter(2, -1 << (4 * k), k as u64));
    Card {
        marks: std::array::from_fn(|k| shard[k].stride == 0),
        offset: std::array::from_fn(|axis| [-65_536, 65_535, -1, 1][axis % 4]),
        space: [1, 2, 4, 8, 16, 8, 4, 2],
        swizzle: Swizzle { m: 8, b: 4, s: 8 },
        ..card_of(&shard, &replica)
    }
}

/// Notes that give the blocks of tile X the smallest and the largest check.
const CHECK_0: [u8; 3] = [1, 192, 51];
const CHECK_65520: [u8; 3] = [1, 193, 50];

/// The blocks of which `changes` changes every byte.
fn changed_blocks() -> Vec<book::Block> {
    let smallest = card_of(&[iter(1, 0, 0)], &[]);
    vec![
        block_of(&tile_x(), b"tile X of the test sheet"),
        block_of(&smallest, b""),
        block_of(&fullest(), &[255; NOTE as usize]),
        block_of(&tile_x(), &CHECK_0),
        block_of(&tile_x(), &CHECK_65520),
    ]
}

/// The block with another byte at this place.
fn changed(mut block: book::Block, at: usize) -> book::Block {
    let more = 1 + 37 * at % 255;
    block[at] = block[at].wrapping_add(more as u8);
    block
}

fn line_of(block: book::Block) -> Vec<u8> {
    [b"page ", &digits(&block)[..], b"\n"].concat()
}

/// Every byte of a few blocks changed once, as lines of the word `page`.
pub fn changes() -> impl Iterator<Item = Vec<u8>> {
    let each = |block: book::Block| (0..block.len()).map(move |at| changed(block, at));
    changed_blocks().into_iter().flat_map(each).map(line_of)
}

/// The note of the block of which `unused` sets every unused byte.
const NOTE_X: &[u8] = b"tile X and a note";

/// The unused bytes of the block of tile X with that note: byte 5, the ends of
/// its four shard iters and of its replica iter, which has no mark, the slots
/// past them, and what follows the note.
fn unused_bytes() -> impl Iterator<Item = usize> {
    let shard_ends = (0..4).flat_map(|k| [8 + 12 * k + 10, 8 + 12 * k + 11]);
    let slots = (56..104).chain(104 + 9..152);
    let after_note = 216 + NOTE_X.len()..CHECK_AT;
    std::iter::once(5)
        .chain(shard_ends)
        .chain(slots)
        .chain(after_note)
}

/// Every unused byte of a block set once and the check put right, as lines of
/// the word `page`.
pub fn unused() -> impl Iterator<Item = Vec<u8>> {
    let block = block_of(&tile_x(), NOTE_X);
    let set = move |at| {
        let mut block = changed(block, at);
        put_check(&mut block);
        block
    };
    unused_bytes().map(set).map(line_of)
}

#[cfg(test)]
mod tests {
    use super::*;
    use crate::book::{listed, read};
    use crate::lines::answers;
    use crate::verdict::MOST_ENTRIES;
    use std::collections::BTreeSet;

    #[test]
    fn right_blocks_are_read() {
        let mut random = Random::new(40);
        for _ in 0..1_000 {
            let block = right_block(&mut random);
            assert!(read(&block).is_ok(), "{:?}", read(&block));
        }
    }

    #[test]
    fn damaged_blocks_have_every_number_often() {
        let mut random = Random::new(41);
        let mut counts = [0; 21];
        for _ in 0..4_000 {
            let mut block = right_block(&mut random);
            damage(&mut random, &mut block);
            let number = read(&block).map_or_else(|refusal| refusal.number, |_| 0);
            counts[number as usize] += 1;
        }
        let often = [0, 1, 19, 20].map(|number| counts[number]);
        assert!(often.iter().all(|count| *count > 300), "{often:?}");
        assert_eq!(often.iter().sum::<u64>(), 4_000);
    }

    fn whole_book(seed: &str, count: u64) -> Vec<u8> {
        book(seed.as_bytes(), count).flatten().collect()
    }

    #[test]
    fn books_are_as_long_as_asked() {
        let mut short = 0;
        for count in [0, 1, 2, 127, 128, 129, 1_000] {
            for seed in ["a", "b", "c", "d"] {
                let bytes = whole_book(seed, count).len();
                assert_eq!(bytes / 512, count as usize);
                short += u64::from(bytes % 512 != 0);
            }
        }
        assert!((7..22).contains(&short), "{short}");
        assert_eq!(whole_book("a", 50), whole_book("a", 50));
        assert_ne!(whole_book("a", 50), whole_book("b", 50));
    }

    #[test]
    fn books_have_every_number() {
        let mut numbers = BTreeSet::new();
        for at in 0..40 {
            let said = listed(&whole_book(&at.to_string(), 300)).collect::<Vec<_>>();
            let said = String::from_utf8(said.concat()).unwrap();
            let number = |line: &str| line.split(' ').nth(1).map(str::to_string);
            numbers.extend(said.lines().filter_map(number));
        }
        assert_eq!(Vec::from_iter(numbers), ["0", "1", "11", "19", "20"]);
    }

    #[test]
    fn changed_blocks_are_right_before_and_wrong_after() {
        let blocks = changed_blocks();
        assert!(blocks.iter().all(|block| read(block).is_ok()));
        assert_eq!(blocks[3][508..], [0; 4]);
        assert_eq!(blocks[4][508..], 65_520u32.to_le_bytes());
        assert_eq!(fullest().refusal(), None);
        let lines: Vec<Vec<u8>> = changes().collect();
        assert_eq!(BTreeSet::from_iter(&lines).len(), 5 * 512);
        let lines = lines.concat();
        let said = answers(&lines, MOST_ENTRIES);
        let refused = said.filter(|said| said.starts_with("19 0 0 0 | 0 "));
        assert_eq!(refused.count(), 5 * 512);
    }

    #[test]
    fn unused_bytes_are_zero_before_and_refused_after() {
        let block = block_of(&tile_x(), NOTE_X);
        assert!(read(&block).is_ok());
        assert!(unused_bytes().all(|at| block[at] == 0));
        // Byte 5, two of each shard iter, four and three slots, three of the
        // replica iter, and what a note of 17 bytes leaves of 292.
        let count = 1 + 4 * 2 + (4 + 3) * 12 + 3 + 292 - 17;
        let lines: Vec<Vec<u8>> = unused().collect();
        assert_eq!(BTreeSet::from_iter(&lines).len(), count);
        let lines = lines.concat();
        let said = answers(&lines, MOST_ENTRIES);
        let refused = said.filter(|said| said.starts_with("20 0 0 0 | 0 "));
        assert_eq!(refused.count(), count);
    }

    #[test]
    fn most_pages_are_questions() {
        let mut random = Random::new(42);
        let lines: Vec<Vec<u8>> = (0..1_000).map(|_| page_line(&mut random)).collect();
        assert!(!lines.concat().contains(&b'\n'));
        let lines = lines.join(&b'\n');
        let unknown = answers(&lines, MOST_ENTRIES).filter(|said| said == "?\n");
        let unknown = unknown.count();
        assert!((50..200).contains(&unknown), "{unknown}");
    }
}
