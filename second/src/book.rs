//! The layout book (document 02, request 9, with request 11's mark byte):
//! blocks of 512 bytes, each a card with a note and a check; the reader, the
//! writer and the program `lister`.

use crate::layout::{Card, Iter, Marks, Refusal, AXES, NO_MARKS, REPLICA_SLOTS, SHARD_SLOTS};
use crate::layout::{TOO_SHORT, WRONG_COUNT};
use crate::lines::{digest, plain, Answer, Number};
use crate::swizzle::Swizzle;
use std::ops::Range;

/// Refusals: the check is wrong; the note is too long, an unused byte is not
/// zero or a mark is neither 0 nor 1.
const WRONG_CHECK: u64 = 19;
const WRONG_BYTE: u64 = 20;

/// The bytes of a block.
pub const BLOCK: usize = 512;
pub type Block = [u8; BLOCK];

const MOST_NOTE: u64 = 292;

/// Where the slots, the offsets, the lengths, the note and the check begin.
const SHARD: usize = 8;
const REPLICA: usize = 104;
const OFFSETS: usize = 152;
const LENGTHS: usize = 184;
const NOTE: usize = 216;
const CHECK: usize = 508;

/// From one slot to the next, and where in a slot the mark is.
const SLOT: usize = 12;
const MARK: usize = 9;

const CHECK_MODULUS: u64 = 65_521;

/// The program takes no page of more digits, has no longer note, lends no
/// more to a writer, and takes no larger seed.
const MOST_DIGITS: usize = 2_048;
const MOST_BYTES: u64 = 1_024;
const MOST_SEED: u64 = 255;

/// What every lent byte is before the question.
const LENT_BYTE: u8 = 165;

/// A little-endian number.
fn number_in(bytes: &[u8]) -> u64 {
    let bytes = bytes.iter().rev();
    bytes.fold(0, |number, byte| 256 * number + u64::from(*byte))
}

/// Four bytes in two's complement: the upper half of what they can hold is
/// below zero.
fn signed_in(bytes: &[u8]) -> Number {
    match Number::from(number_in(bytes)) {
        number if number < 1 << 31 => number,
        number => number - (1 << 32),
    }
}

/// The sum of (i + 1) times byte i over all bytes before the check.
fn check(block: &Block) -> u64 {
    let weighed = |(i, byte): (usize, &u8)| (i as u64 + 1) * u64::from(*byte);
    let sum: u64 = block[..CHECK].iter().enumerate().map(weighed).sum();
    sum % CHECK_MODULUS
}

/// Puts a number into so many bytes from this one on, little-endian and in
/// two's complement; of one that is too wide the low bytes.
fn put(block: &mut Block, at: usize, width: usize, number: impl Into<Number>) {
    let bytes = number.into().to_le_bytes();
    block[at..at + width].copy_from_slice(&bytes[..width]);
}

/// Puts the check right.
pub fn put_check(block: &mut Block) {
    let right = check(block);
    put(block, CHECK, BLOCK - CHECK, right);
}

fn put_iter(block: &mut Block, at: usize, iter: &Iter, marked: bool) {
    put(block, at, 4, iter.extent);
    put(block, at + 4, 4, iter.stride);
    put(block, at + 8, 1, iter.axis);
    put(block, at + MARK, 1, marked);
}

/// The block of a card and of a note that is not too long. What it is not
/// told to have stays zero, slots and marks past a count among it.
pub fn block_of(card: &Card, note: &[u8]) -> Block {
    let mut block = [0; BLOCK];
    put(&mut block, 0, 1, card.shard_count);
    put(&mut block, 1, 1, card.replica_count);
    put(&mut block, 2, 1, card.swizzle.m);
    put(&mut block, 3, 1, card.swizzle.b);
    put(&mut block, 4, 1, card.swizzle.s);
    put(&mut block, 6, 2, note.len() as u64);
    for (k, (iter, marked)) in card.shard().iter().zip(card.marks).enumerate() {
        put_iter(&mut block, SHARD + SLOT * k, iter, marked);
    }
    for (k, iter) in card.replica().iter().enumerate() {
        put_iter(&mut block, REPLICA + SLOT * k, iter, false);
    }
    for axis in 0..AXES {
        put(&mut block, OFFSETS + 4 * axis, 4, card.offset[axis]);
        put(&mut block, LENGTHS + 4 * axis, 4, card.space[axis]);
    }
    block[NOTE..][..note.len()].copy_from_slice(note);
    put_check(&mut block);
    block
}

/// The counts of shard and replica, and the note's length.
fn sizes_in(block: &Block) -> [usize; 3] {
    let note = number_in(&block[6..8]);
    [block[0].into(), block[1].into(), note as usize]
}

fn iter_in(slot: &[u8]) -> Iter {
    Iter {
        extent: number_in(&slot[..4]),
        stride: signed_in(&slot[4..8]),
        axis: slot[8].into(),
    }
}

/// The card of a block whose counts are permitted. Slots past a count are
/// zeros.
fn card_in(block: &Block) -> Card {
    let [shard, replica, _] = sizes_in(block);
    let slot = |first: usize, k: usize| &block[first + SLOT * k..][..SLOT];
    let mut card = Card {
        shard_count: shard as u64,
        shard_slots: [Iter::default(); SHARD_SLOTS],
        marks: NO_MARKS,
        replica_count: replica as u64,
        replica_slots: [Iter::default(); REPLICA_SLOTS],
        offset: std::array::from_fn(|axis| signed_in(&block[OFFSETS + 4 * axis..][..4])),
        space: std::array::from_fn(|axis| number_in(&block[LENGTHS + 4 * axis..][..4])),
        swizzle: Swizzle {
            m: block[2].into(),
            b: block[3].into(),
            s: block[4].into(),
        },
    };
    for k in 0..shard {
        card.shard_slots[k] = iter_in(slot(SHARD, k));
        card.marks[k] = slot(SHARD, k)[MARK] == 1;
    }
    for k in 0..replica {
        card.replica_slots[k] = iter_in(slot(REPLICA, k));
    }
    card
}

/// The bytes that are used with these counts and so long a note. A shard iter
/// uses one more than a replica iter, its mark.
fn used([shard, replica, note]: [usize; 3]) -> Vec<Range<usize>> {
    let mut used = vec![0..5, 6..8];
    for k in 0..shard {
        let first = SHARD + SLOT * k;
        used.push(first..first + 10);
    }
    for k in 0..replica {
        let first = REPLICA + SLOT * k;
        used.push(first..first + 9);
    }
    used.extend([OFFSETS..LENGTHS, LENGTHS..NOTE, NOTE..NOTE + note]);
    used.push(CHECK..BLOCK);
    used
}

/// Whether every unused byte is zero and every mark 0 or 1.
fn bytes_permitted(block: &Block, sizes: [usize; 3]) -> bool {
    let used = used(sizes);
    let unused = |at: &usize| !used.iter().any(|bytes| bytes.contains(at));
    let mut marks = (0..sizes[0]).map(|k| block[SHARD + SLOT * k + MARK]);
    (0..BLOCK).filter(unused).all(|at| block[at] == 0) && marks.all(|mark| mark <= 1)
}

/// The card and the note of a block, of which only the first 512 bytes are
/// looked at: refusals 11, 19, 1, 20. The note is the block's own bytes.
pub fn read(bytes: &[u8]) -> Result<(Card, &[u8]), Refusal> {
    let short = Refusal::with(TOO_SHORT, BLOCK as u64, 0);
    let block: &Block = bytes.first_chunk().ok_or(short)?;
    if number_in(&block[CHECK..]) != check(block) {
        return Err(Refusal::plain(WRONG_CHECK));
    }
    let sizes = sizes_in(block);
    let [shard, replica, note] = sizes;
    if !(1..=SHARD_SLOTS).contains(&shard) || replica > REPLICA_SLOTS {
        return Err(Refusal::plain(WRONG_COUNT));
    }
    if note as u64 > MOST_NOTE || !bytes_permitted(block, sizes) {
        return Err(Refusal::plain(WRONG_BYTE));
    }
    Ok((card_in(block), &block[NOTE..NOTE + note]))
}

/// Writes a card and a note into lent bytes: checks 1 to 6, then 20, then 11.
fn write(card: &Card, note: &[u8], lent: &mut [u8]) -> Result<(), Refusal> {
    card.refusal().map_or(Ok(()), Err)?;
    if note.len() as u64 > MOST_NOTE {
        return Err(Refusal::plain(WRONG_BYTE));
    }
    let own = lent.first_chunk_mut();
    *own.ok_or(Refusal::with(TOO_SHORT, BLOCK as u64, 0))? = block_of(card, note);
    Ok(())
}

pub fn answer_block(marks: Marks, numbers: &[Number]) -> Option<Answer> {
    let card = Card {
        marks,
        ..Card::of(numbers)?
    };
    let rest = plain(numbers.get(Card::NUMBERS..)?)?;
    let &[note_length, seed, length] = &rest[..] else {
        return None;
    };
    if note_length > MOST_BYTES || seed > MOST_SEED || length > MOST_BYTES {
        return None;
    }
    let note: Vec<u8> = (0..note_length).map(|i| (seed + 7 * i) as u8).collect();
    let mut lent = vec![LENT_BYTE; length as usize];
    let (number, details) = match write(&card, &note, &mut lent) {
        Ok(()) => (0, [0; 3]),
        Err(refusal) => (refusal.number, refusal.details),
    };
    Some(Answer::beside(number, details, &[digest(&lent)]))
}

/// The bytes of an even count of hex digits, none of them a capital letter.
fn bytes_of(digits: &[u8]) -> Option<Vec<u8>> {
    let value = |digit: u8| match digit {
        b'0'..=b'9' => Some(digit - b'0'),
        b'a'..=b'f' => Some(10 + digit - b'a'),
        _ => None,
    };
    let byte = |pair: &[u8]| match *pair {
        [high, low] => Some(16 * value(high)? + value(low)?),
        _ => None,
    };
    digits.chunks(2).map(byte).collect()
}

/// The numbers of a page: those of the card, a mark for each shard slot, the
/// note's length and its digest. All of them are 0 where it is refused.
fn record(page: &Result<(Card, &[u8]), Refusal>) -> Vec<Number> {
    match page {
        Ok((card, note)) => {
            let marks = card.marks.map(Number::from);
            let of_note = [note.len() as Number, digest(note).into()];
            [&card.numbers()[..], &marks, &of_note].concat()
        }
        Err(_) => vec![0; Card::NUMBERS + SHARD_SLOTS + 2],
    }
}

pub fn answer_page(text: &[u8]) -> Option<Answer> {
    let digits = Some(text).filter(|text| text.len() <= MOST_DIGITS)?;
    let block = bytes_of(digits)?;
    let page = read(&block);
    let (number, details) = match page {
        Ok(_) => (0, [0; 3]),
        Err(refusal) => (refusal.number, refusal.details),
    };
    Some(Answer::beside(number, details, &record(&page)))
}

/// The lines of the program `lister`: for each block of a book its index and
/// the reader's number. What is left at the end is a short block.
pub fn listed(book: &[u8]) -> impl Iterator<Item = Vec<u8>> + '_ {
    let number = |block: &[u8]| read(block).map_or_else(|refusal| refusal.number, |_| 0);
    let blocks = book.chunks(BLOCK).enumerate();
    blocks.map(move |(index, block)| format!("{index} {}\n", number(block)).into_bytes())
}

#[cfg(test)]
mod tests {
    use super::*;
    use crate::layout::lent_entries;
    use crate::lines::says;
    use crate::loads::cards::{card_of, iter, tile_x};
    use crate::loads::random::Random;
    use crate::loads::reuse::number_of;
    use crate::loads::texts::any_card;
    use crate::verdict::verdict;

    /// Tile X with the note "tile X", byte for byte.
    fn block_x() -> Block {
        let mut block = [0; BLOCK];
        let parts: &[(usize, &[u8])] = &[
            (0, &[4, 1, 0, 0, 3, 0, 6, 0]),
            (8, &[8, 0, 0, 0, 4, 0, 0, 0, 2, 0, 0, 0]),
            (20, &[2, 0, 0, 0, 1, 0, 0, 0, 1, 0, 0, 0]),
            (32, &[4, 0, 0, 0, 1, 0, 0, 0, 2, 0, 0, 0]),
            (44, &[2, 0, 0, 0, 1, 0, 0, 0, 7, 0, 0, 0]),
            (104, &[2, 0, 0, 0, 4, 0, 0, 0, 1, 0, 0, 0]),
            (156, &[5]),
            (184, &[1]),
            (188, &[11]),
            (192, &[32]),
            (196, &[1, 0, 0, 0, 1, 0, 0, 0, 1, 0, 0, 0, 1, 0, 0, 0, 2]),
            (216, b"tile X"),
            // The sum is 132,842, the check 1,800.
            (508, &[0x08, 0x07]),
        ];
        for (at, bytes) in parts {
            block[*at..at + bytes.len()].copy_from_slice(bytes);
        }
        block
    }

    fn number(block: &[u8]) -> u64 {
        read(block).map_or_else(|refusal| refusal.number, |_| 0)
    }

    /// The reader's number where these bytes are changed and the check is put
    /// right.
    fn changed(block: &Block, changes: &[(usize, u8)]) -> u64 {
        let mut block = *block;
        for (at, byte) in changes {
            block[*at] = *byte;
        }
        put_check(&mut block);
        number(&block)
    }

    /// A card with every slot used, and a note of full length.
    fn full_block() -> Block {
        let shard = [iter(2, -3, 5); SHARD_SLOTS];
        block_of(&card_of(&shard, &[iter(2, 0, 7); REPLICA_SLOTS]), &[9; 292])
    }

    #[test]
    fn tile_x_with_a_note() {
        let block = block_x();
        assert_eq!(block_of(&tile_x(), b"tile X"), block);
        let (card, note) = read(&block).unwrap();
        assert_eq!(card.numbers(), tile_x().numbers());
        assert_eq!(note, b"tile X");
        assert_eq!(note.as_ptr(), block[216..].as_ptr());
        assert_eq!(verdict(&card, &mut lent_entries(704)), Ok([128, 256, 704]));
    }

    #[test]
    fn numbers_in_bytes() {
        assert_eq!(number_in(&[1, 2, 3, 4]), 0x0403_0201);
        assert_eq!(number_in(&[0xff; 4]), 0xffff_ffff);
        assert_eq!(signed_in(&[0xff; 4]), -1);
        assert_eq!(signed_in(&[0, 0, 0xff, 0xff]), -65_536);
        assert_eq!(signed_in(&[0, 0, 0, 0x80]), -(1 << 31));
        assert_eq!(signed_in(&[0xff, 0xff, 0xff, 0x7f]), (1 << 31) - 1);
    }

    #[test]
    fn only_the_first_512_bytes_are_looked_at() {
        let block = block_x();
        let short = Refusal::with(11, 512, 0);
        for length in [0, 1, 508, 511] {
            assert_eq!(read(&block[..length]).map(|_| ()), Err(short));
        }
        for after in [1, 512, 9_999] {
            let longer = [&block[..], &vec![255; after]].concat();
            assert_eq!(read(&longer).map(|(_, note)| note), Ok(&b"tile X"[..]));
        }
        let shifted = [&[0], &block[..]].concat();
        assert_eq!(number(&shifted), 19);
    }

    #[test]
    fn any_single_changed_byte_is_noticed() {
        let with_notes = [&b"\x01\xc0\x33"[..], b"\x01\xc1\x32"];
        let [zero, largest] = with_notes.map(|note| block_of(&tile_x(), note));
        assert_eq!((check(&zero), check(&largest)), (0, 65_520));
        for mut block in [block_x(), full_block(), zero, largest] {
            for at in 0..BLOCK {
                let right = block[at];
                for other in (0..=255).filter(|byte| *byte != right) {
                    block[at] = other;
                    assert_eq!(number(&block), 19, "{at} {other}");
                }
                block[at] = right;
            }
            assert_eq!(number(&block), 0);
        }
    }

    #[test]
    fn a_check_that_is_right_modulo_is_wrong() {
        for more in [65_521, 2 * 65_521, 65_536, 1 << 24, 1 << 31] {
            let mut block = block_x();
            let right = check(&block);
            put(&mut block, CHECK, 4, right + more);
            assert_eq!(number(&block), 19);
        }
    }

    #[test]
    fn first_19_then_1_then_20() {
        let x = block_x();
        let mut block = x;
        (block[0], block[5], block[7]) = (9, 1, 2);
        assert_eq!(number(&block), 19);
        put_check(&mut block);
        assert_eq!(number(&block), 1);
        assert_eq!(changed(&block, &[(0, 4)]), 20);
        assert_eq!(changed(&block, &[(0, 4), (5, 0)]), 20);
        assert_eq!(changed(&block, &[(0, 4), (7, 0)]), 20);
        assert_eq!(changed(&block, &[(0, 4), (5, 0), (7, 0)]), 0);
        assert_eq!(number(&[0; BLOCK]), 1);
        for (at, permitted) in [(0, 1..=8), (1, 0..=4)] {
            for count in 0..=255 {
                let wrong = changed(&x, &[(at, count)]) == 1;
                assert_eq!(wrong, !permitted.contains(&count), "{at} {count}");
            }
        }
    }

    #[test]
    fn every_unused_byte_is_zero() {
        let fields = |at: &usize| match *at {
            5 => false,
            at if at < 8 => true,
            at if at < 104 => at < 8 + 4 * 12 && (at - 8) % 12 < 10,
            at if at < 152 => at < 104 + 12 && at - 104 < 9,
            at if at < 216 => true,
            at => at < 216 + 6 || at >= 508,
        };
        let unused: Vec<usize> = (0..BLOCK).filter(|at| !fields(at)).collect();
        assert_eq!(unused.len(), 1 + 4 * 2 + 4 * 12 + 3 + 3 * 12 + 286);
        for at in unused {
            for byte in [1, 2, 128, 255] {
                assert_eq!(changed(&block_x(), &[(at, byte)]), 20, "{at}");
            }
        }
    }

    #[test]
    fn marks_are_0_or_1_in_used_shard_slots_only() {
        let (x, full) = (block_x(), full_block());
        for k in 0..SHARD_SLOTS {
            let at = SHARD + SLOT * k + MARK;
            let wanted = |mark: u8| if mark == 1 { 0 } else { 20 };
            for mark in 1..=255 {
                assert_eq!(changed(&full, &[(at, mark)]), wanted(mark));
                let past = if k < 4 { wanted(mark) } else { 20 };
                assert_eq!(changed(&x, &[(at, mark)]), past);
            }
        }
        for k in 0..REPLICA_SLOTS {
            let at = REPLICA + SLOT * k + MARK;
            assert_eq!(changed(&full, &[(at, 1)]), 20);
            assert_eq!(changed(&x, &[(at, 1)]), 20);
        }
        let mut block = full;
        (block[SHARD + MARK], block[SHARD + 7 * SLOT + MARK]) = (1, 1);
        put_check(&mut block);
        let (card, _) = read(&block).unwrap();
        assert_eq!(number_of(&card.marks), 129);
        // Its strides are not 0, which is for the verdict to say.
        assert_eq!(card.refusal(), Some(Refusal::plain(2)));
    }

    #[test]
    fn lengths_of_notes() {
        let full = full_block();
        for length in 0..=600u16 {
            let [low, high] = length.to_le_bytes();
            let wanted = if length == 292 { 0 } else { 20 };
            assert_eq!(changed(&full, &[(6, low), (7, high)]), wanted);
            let empty = block_of(&tile_x(), b"");
            let wanted = if length <= 292 { 0 } else { 20 };
            assert_eq!(changed(&empty, &[(6, low), (7, high)]), wanted);
        }
        assert_eq!(changed(&full, &[(6, 255), (7, 255)]), 20);
    }

    #[test]
    fn wider_numbers_are_read() {
        let mut block = block_x();
        block[2..5].copy_from_slice(&[200, 255, 1]);
        put(&mut block, SHARD, 4, 0u64);
        put(&mut block, SHARD + 4, 4, i32::MIN);
        put(&mut block, SHARD + 8, 1, 9);
        put(&mut block, OFFSETS + 28, 4, i32::MAX);
        put(&mut block, LENGTHS, 4, u32::MAX);
        put_check(&mut block);
        let (card, note) = read(&block).unwrap();
        let numbers = card.numbers();
        assert_eq!(numbers[..4], [4, 0, i32::MIN.into(), 9]);
        assert_eq!(numbers[45..47], [i32::MAX.into(), u32::MAX.into()]);
        assert_eq!(numbers[54..], [200, 255, 1]);
        assert_eq!(note, b"tile X");
    }

    fn stated(card: &Card) -> (Vec<Number>, Marks) {
        let mut kept = *card;
        kept.shard_slots[card.shard().len()..].fill(Iter::default());
        kept.replica_slots[card.replica().len()..].fill(Iter::default());
        kept.marks[card.shard().len()..].fill(false);
        (kept.numbers(), kept.marks)
    }

    #[test]
    fn what_is_written_reads_back() {
        let mut random = Random::new(35);
        let mut written = 0;
        for at in 0..2_000 {
            let card = any_card(&mut random);
            let note: Vec<u8> = (0..at % 293).map(|_| random.next() as u8).collect();
            let mut lent = [LENT_BYTE; BLOCK + 9];
            if let Err(refusal) = write(&card, &note, &mut lent) {
                assert_eq!(Some(refusal), card.refusal());
                assert_eq!(lent, [LENT_BYTE; BLOCK + 9]);
                continue;
            }
            written += 1;
            assert_eq!(lent[BLOCK..], [LENT_BYTE; 9]);
            let (back, note_back) = read(&lent).unwrap();
            assert_eq!(stated(&back), stated(&card));
            assert_eq!((back.numbers(), back.marks), stated(&card));
            assert_eq!(note_back, note);
        }
        assert!(written > 1_000, "{written}");
    }

    /// The second opinion on 20: a block is read exactly when it is the block
    /// of what would be read from it.
    #[test]
    fn one_card_with_one_note_has_one_block() {
        let mut random = Random::new(36);
        let mut counts = [0, 0];
        for at in 0..4_000 {
            let mut block = if at % 2 == 0 { block_x() } else { full_block() };
            for _ in 0..1 + at % 3 {
                block[random.index(BLOCK)] ^= 1 << random.below(8);
            }
            put_check(&mut block);
            let [shard, replica, note] = sizes_in(&block);
            if number(&block) == 1 || note > 292 {
                continue;
            }
            assert!(shard <= 8 && replica <= 4);
            let again = block_of(&card_in(&block), &block[NOTE..NOTE + note]);
            assert_eq!(number(&block) == 0, again == block);
            counts[usize::from(again == block)] += 1;
        }
        assert!(counts.iter().all(|count| *count > 500), "{counts:?}");
    }

    #[test]
    fn the_writer_refuses_1_to_6_then_20_then_11_and_touches_nothing() {
        let mut card = tile_x();
        let refused = |card: &Card, note: usize, length: usize, wanted: u64| {
            let mut lent = vec![LENT_BYTE; length];
            let refusal = write(card, &vec![1; note], &mut lent).unwrap_err();
            let details = if wanted == 11 { [512, 0, 0] } else { [0; 3] };
            assert_eq!((refusal.number, refusal.details), (wanted, details));
            assert_eq!(lent, vec![LENT_BYTE; length]);
        };
        refused(&card, 292, 511, 11);
        refused(&card, 293, 511, 20);
        refused(&card, 293, 512, 20);
        card.swizzle.m = 9;
        refused(&card, 293, 0, 6);
        card.replica_slots[0].extent = 65;
        refused(&card, 293, 0, 5);
        card.space[3] = 0;
        refused(&card, 293, 0, 4);
        card.shard_slots[3].axis = 8;
        refused(&card, 293, 0, 3);
        card.marks[0] = true;
        refused(&card, 293, 0, 2);
        card.replica_count = 5;
        refused(&card, 293, 0, 1);
    }

    #[test]
    fn the_writer_looks_at_no_idle_copy_and_at_no_mark_past_the_count() {
        let mut card = tile_x();
        card.replica_slots[0].stride = 0;
        card.marks[4] = true;
        let mut lent = [0; BLOCK];
        assert_eq!(write(&card, b"", &mut lent), Ok(()));
        assert_eq!(lent[SHARD + 4 * SLOT..REPLICA], [0; 48]);
        assert_eq!(card.admitted(), Err(Refusal::with(17, 0, 1)));
    }

    fn line_x(word: &str, rest: &str) -> String {
        let numbers = tile_x().numbers().into_iter();
        let numbers = Vec::from_iter(numbers.map(|number| number.to_string()));
        format!("{word} {} {rest}", numbers.join(" "))
    }

    #[test]
    fn lines_of_block() {
        let note: Vec<u8> = [250, 1, 8].to_vec();
        let block = block_of(&tile_x(), &note);
        let said = format!("0 0 0 0 | {}", digest(&block));
        says(&line_x("block", "3 250 512"), &said);
        says(&line_x("block* 0", "3 250 512"), &said);
        says(&line_x("block* 240", "3 250 512"), &said);
        let longer = [&block[..], &[LENT_BYTE; 512]].concat();
        let said = format!("0 0 0 0 | {}", digest(&longer));
        says(&line_x("block", "3 250 1024"), &said);
        let untouched = digest(&[LENT_BYTE; 511]);
        says(
            &line_x("block", "3 250 511"),
            &format!("11 512 0 0 | {untouched}"),
        );
        says(
            &line_x("block", "293 250 511"),
            &format!("20 0 0 0 | {untouched}"),
        );
        says(
            &line_x("block* 1", "293 250 511"),
            &format!("2 0 0 0 | {untouched}"),
        );
        says(&line_x("block", "1024 255 0"), "20 0 0 0 | 0");
        for rest in [
            "1025 0 512",
            "0 256 512",
            "0 0 1025",
            "0 0",
            "0 0 512 0",
            "-1 0 512",
        ] {
            says(&line_x("block", rest), "?");
        }
        says(&line_x("block* 256", "0 0 512"), "?");
        says(&line_x("block*", "0 0 512"), "?");
        says(&line_x("block 0", "0 0 512"), "?");
    }

    fn spelt(bytes: &[u8]) -> String {
        bytes.iter().map(|byte| format!("{byte:02x}")).collect()
    }

    #[test]
    fn lines_of_page() {
        let numbers = tile_x().numbers().into_iter();
        let numbers = Vec::from_iter(numbers.map(|number| number.to_string())).join(" ");
        let said = format!(
            "0 0 0 0 | {numbers} 0 0 0 0 0 0 0 0 6 {}",
            digest(b"tile X")
        );
        let x = spelt(&block_x());
        says(&format!("page {x}"), &said);
        says(&format!("page {x}{}", "ff".repeat(512)), &said);
        let zeros = " 0".repeat(67);
        let short = format!("11 512 0 0 |{zeros}");
        says("page ", &short);
        says("page 00", &short);
        says(&format!("page {}", &x[..1_022]), &short);
        says(
            &format!("page {}", "00".repeat(512)),
            &format!("1 0 0 0 |{zeros}"),
        );
        says(
            &format!("page {}", "01".repeat(1_024)),
            &format!("19 0 0 0 |{zeros}"),
        );
        let mut wrong = block_x();
        wrong[5] = 1;
        put_check(&mut wrong);
        says(
            &format!("page {}", spelt(&wrong)),
            &format!("20 0 0 0 |{zeros}"),
        );
    }

    #[test]
    fn pages_are_spelt_in_small_hex_digits() {
        for text in [
            "0", "000", "0A", "0g", " 00", "00 ", "0 0", "00 00", "0x00", "-1",
        ] {
            says(&format!("page {text}"), "?");
        }
        for line in [
            "page", "page\t00", " page 00", "Page 00", "page* 00", "page00",
        ] {
            says(line, "?");
        }
        says(&format!("page {}", "0".repeat(2_049)), "?");
        says(&format!("page {}", "00".repeat(1_025)), "?");
        let x = spelt(&block_x());
        says(&format!("page {x}").to_uppercase(), "?");
        says(&format!("page {}", x.to_uppercase()), "?");
    }

    fn lists(book: &[u8], wanted: &str) {
        let said = listed(book).collect::<Vec<_>>().concat();
        assert_eq!(String::from_utf8_lossy(&said), wanted);
    }

    #[test]
    fn lines_of_lister() {
        let x = block_x();
        let mut wrong = x;
        wrong[300] = 1;
        lists(b"", "");
        lists(&x, "0 0\n");
        lists(&[x, wrong].concat(), "0 0\n1 19\n");
        put_check(&mut wrong);
        let book = [&x[..], &wrong, &[0; BLOCK], &x, &x[..511]].concat();
        lists(&book, "0 0\n1 20\n2 1\n3 0\n4 11\n");
        lists(&[7], "0 11\n");
        lists(&x[..511], "0 11\n");
        lists(&[&x[..], &[0]].concat(), "0 0\n1 11\n");
        let long = x.repeat(1_001);
        assert_eq!(listed(&long).last(), Some(b"1000 0\n".to_vec()));
    }
}
