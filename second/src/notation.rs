//! The layout notation of request 5, with the minus of request 6 and the star
//! of request 11: its grammar as a list of what each part can be, its reader
//! and its writer.

use crate::layout::{Card, Iter, Marks, Refusal, AXES, NO_MARKS, TOO_SHORT};
use crate::layout::{REPLICA_SLOTS, SHARD_SLOTS};
use crate::lines::{digest, plain, Answer, Number};
use crate::swizzle::Swizzle;
use std::collections::BTreeSet;

/// Refusal: no text of the grammar.
pub const NOT_THE_GRAMMAR: u64 = 18;

/// The axes by name, in the order of their numbers.
pub const NAMES: [&str; AXES] = ["pid", "warpid", "laneid", "P", "F", "TLane", "TCol", "m"];

/// A number has at most so many digits.
const MOST_DIGITS: usize = 5;

/// The program takes no text of more bytes, and lends no more to a writer.
const MOST_BYTES: u64 = 1_024;

/// What every lent byte is before the question.
const LENT_BYTE: u8 = 165;

const ANY_DIGIT: &str = "0123456789";
const ANY_BUT_0: &str = "123456789";

/// A part of a text: bytes, or something that is made of further parts.
#[derive(Clone, Copy, Debug, PartialEq, Eq, PartialOrd, Ord)]
enum Part {
    /// Just these bytes.
    Exactly(&'static str),
    /// One of these bytes.
    OneOf(&'static str),
    Text,
    Shard,
    /// The replica with its plus, or none.
    Replica,
    /// Offsets on axes from this one on, each with its plus, or none.
    Offsets(usize),
    /// So many numbers, parted by commas.
    Extents(usize),
    /// So many strides of shard iters, parted by commas.
    ShardStrides(usize),
    /// So many strides of replica iters, parted by commas.
    ReplicaStrides(usize),
    ShardStride,
    ReplicaStride,
    /// A number without leading zeros.
    Number,
    /// The same, or one that is not 0 after a minus.
    Signed,
    /// At most so many further digits of a number.
    Digits(usize),
}

use Part::{
    Digits, Exactly, Extents, Number as Plain, Offsets, OneOf, Replica, ReplicaStride,
    ReplicaStrides, Shard, ShardStride, ShardStrides, Signed, Text,
};

/// So many of a part, parted by commas: the first and then the others.
fn list(count: usize, part: Part, others: fn(usize) -> Part) -> Vec<Vec<Part>> {
    match count {
        1 => vec![vec![part]],
        _ => vec![vec![part, Exactly(","), others(count - 1)]],
    }
}

/// A shard has 1 to 8 iters; both lists have equally many.
fn ways_of_shard() -> Vec<Vec<Part>> {
    let way = |count: usize| {
        let (extents, strides) = (Extents(count), ShardStrides(count));
        vec![
            Exactly("S[("),
            extents,
            Exactly("):("),
            strides,
            Exactly(")]"),
        ]
    };
    (1..=SHARD_SLOTS).map(way).collect()
}

/// None, one bare iter, or several in two lists like the shard's.
fn ways_of_replica() -> Vec<Vec<Part>> {
    let bare = vec![
        Exactly("+R["),
        Plain,
        Exactly(":"),
        ReplicaStride,
        Exactly("]"),
    ];
    let several = |count: usize| {
        let (extents, strides) = (Extents(count), ReplicaStrides(count));
        vec![
            Exactly("+R[("),
            extents,
            Exactly("):("),
            strides,
            Exactly(")]"),
        ]
    };
    let mut ways = vec![vec![], bare];
    ways.extend((2..=REPLICA_SLOTS).map(several));
    ways
}

/// None, or one on an axis that is still free and then others after it. A
/// missing axis means m, the last of all.
fn ways_of_offsets(from: usize) -> Vec<Vec<Part>> {
    let mut ways = vec![vec![]];
    for axis in from..AXES {
        let name = Exactly(NAMES[axis]);
        ways.push(vec![
            Exactly("+"),
            Signed,
            Exactly("@"),
            name,
            Offsets(axis + 1),
        ]);
    }
    if from < AXES {
        ways.push(vec![Exactly("+"), Signed]);
    }
    ways
}

/// A number, and an axis if it is named; a named axis may have a star where
/// the iter may have a mark.
fn ways_of_stride(star: bool) -> Vec<Vec<Part>> {
    let mut ways = vec![vec![Signed]];
    for name in NAMES {
        let named = vec![Signed, Exactly("@"), Exactly(name)];
        if star {
            ways.push([&named[..], &[Exactly("*")]].concat());
        }
        ways.push(named);
    }
    ways
}

/// All that a part can be, each way as the parts that follow each other. Every
/// part can be something, so whatever is begun by these can be ended.
fn ways(part: Part) -> Vec<Vec<Part>> {
    match part {
        Exactly(_) | OneOf(_) => vec![vec![part]],
        Text => vec![vec![Shard, Replica, Offsets(0)]],
        Shard => ways_of_shard(),
        Replica => ways_of_replica(),
        Offsets(from) => ways_of_offsets(from),
        Extents(count) => list(count, Plain, Extents),
        ShardStrides(count) => list(count, ShardStride, ShardStrides),
        ReplicaStrides(count) => list(count, ReplicaStride, ReplicaStrides),
        ShardStride => ways_of_stride(true),
        ReplicaStride => ways_of_stride(false),
        Plain => vec![
            vec![Exactly("0")],
            vec![OneOf(ANY_BUT_0), Digits(MOST_DIGITS - 1)],
        ],
        Signed => vec![
            vec![Plain],
            vec![Exactly("-"), OneOf(ANY_BUT_0), Digits(MOST_DIGITS - 1)],
        ],
        Digits(0) => vec![vec![]],
        Digits(most) => vec![vec![], vec![OneOf(ANY_DIGIT), Digits(most - 1)]],
    }
}

/// What may still follow a beginning: parts of which the last comes next.
type Rest = Vec<Part>;

/// Adds what may follow a byte that comes where this may follow.
fn add_after(byte: u8, mut rest: Rest, found: &mut BTreeSet<Rest>) {
    match rest.pop() {
        None => {}
        Some(Exactly(text)) => {
            if text.as_bytes()[0] == byte {
                if text.len() > 1 {
                    rest.push(Exactly(&text[1..]));
                }
                found.insert(rest);
            }
        }
        Some(OneOf(choices)) => {
            if choices.as_bytes().contains(&byte) {
                found.insert(rest);
            }
        }
        Some(part) => {
            for way in ways(part) {
                let mut rest = rest.clone();
                rest.extend(way.iter().rev());
                add_after(byte, rest, found);
            }
        }
    }
}

/// Whether a text may end where this may follow.
fn may_end(rest: &[Part]) -> bool {
    let nothing = |part: &Part| match part {
        Exactly(_) | OneOf(_) => false,
        _ => ways(*part).iter().any(|way| may_end(way)),
    };
    rest.iter().all(nothing)
}

/// The length of the longest beginning that some correct text also has, and
/// whether the text is a correct one.
fn beginning(text: &[u8]) -> (usize, bool) {
    let mut rests = BTreeSet::from([vec![Text]]);
    for (at, byte) in text.iter().enumerate() {
        let mut found = BTreeSet::new();
        for rest in rests {
            add_after(*byte, rest, &mut found);
        }
        if found.is_empty() {
            return (at, false);
        }
        rests = found;
    }
    (text.len(), rests.iter().any(|rest| may_end(rest)))
}

/// Number and axis of a stride or an offset, and whether it has a star.
fn term(text: &str) -> Option<(Number, usize, bool)> {
    let (text, marked) = match text.strip_suffix('*') {
        Some(text) => (text, true),
        None => (text, false),
    };
    let (number, name) = text.split_once('@').unwrap_or((text, "m"));
    let axis = NAMES.iter().position(|axis| *axis == name)?;
    Some((number.parse().ok()?, axis, marked))
}

/// The iters of `EXTENTS:STRIDES`, each with whether it is marked.
fn iters(text: &str) -> Option<Vec<(Iter, bool)>> {
    let (extents, strides) = text.split_once(':')?;
    let bare = |list: &'_ str| list.trim_matches(['(', ')']).to_string();
    let (extents, strides) = (bare(extents), bare(strides));
    let iter = |(extent, stride): (&str, &str)| {
        let (stride, axis, marked) = term(stride)?;
        let iter = Iter {
            extent: extent.parse().ok()?,
            stride,
            axis: axis as u64,
        };
        Some((iter, marked))
    };
    extents
        .split(',')
        .zip(strides.split(','))
        .map(iter)
        .collect()
}

/// A card of nothing, in the smallest space, without a swizzle.
pub const EMPTY: Card = Card {
    shard_count: 0,
    shard_slots: [Iter {
        extent: 0,
        stride: 0,
        axis: 0,
    }; SHARD_SLOTS],
    marks: NO_MARKS,
    replica_count: 0,
    replica_slots: [Iter {
        extent: 0,
        stride: 0,
        axis: 0,
    }; REPLICA_SLOTS],
    offset: [0; AXES],
    space: [1; AXES],
    swizzle: Swizzle { m: 0, b: 0, s: 3 },
};

/// What a correct text says: up to the first `]` the shard, and then after
/// each plus the replica or an offset.
fn meaning(text: &str) -> Option<Card> {
    let mut card = EMPTY;
    let (shard, rest) = text.strip_prefix("S[")?.split_once(']')?;
    let shard = iters(shard)?;
    card.shard_count = shard.len() as u64;
    for (slot, (iter, marked)) in shard.into_iter().enumerate() {
        (card.shard_slots[slot], card.marks[slot]) = (iter, marked);
    }
    for piece in rest.split('+').skip(1) {
        if let Some(replica) = piece.strip_prefix("R[") {
            let replica = iters(replica.strip_suffix(']')?)?;
            card.replica_count = replica.len() as u64;
            for (slot, (iter, _)) in replica.into_iter().enumerate() {
                card.replica_slots[slot] = iter;
            }
        } else {
            let (number, axis, _) = term(piece)?;
            card.offset[axis] = number;
        }
    }
    Some(card)
}

/// The card that a text says, or refusal 18.
pub fn read(text: &[u8]) -> Result<Card, Refusal> {
    let (length, correct) = beginning(text);
    let said = match correct {
        true => std::str::from_utf8(text).ok().and_then(meaning),
        false => None,
    };
    said.ok_or(Refusal::with(NOT_THE_GRAMMAR, length as u64, 0))
}

fn written_list(texts: Vec<String>, bare: bool) -> String {
    match (bare, &texts[..]) {
        (true, [text]) => text.clone(),
        _ => format!("({})", texts.join(",")),
    }
}

fn written_iters(iters: &[Iter], marks: &Marks, bare: bool) -> String {
    let extents = iters.iter().map(|iter| iter.extent.to_string());
    let stride = |(iter, marked): (&Iter, &bool)| {
        let star = if *marked { "*" } else { "" };
        format!("{}@{}{star}", iter.stride, NAMES[iter.axis as usize])
    };
    let strides = iters.iter().zip(marks).map(stride);
    format!(
        "{}:{}",
        written_list(extents.collect(), bare),
        written_list(strides.collect(), bare)
    )
}

/// The text of a card that passes checks 1 to 3: every axis is named, and
/// neither an offset of 0 nor an empty replica is there.
pub fn written(card: &Card) -> String {
    let mut text = format!("S[{}]", written_iters(card.shard(), &card.marks, false));
    if !card.replica().is_empty() {
        let replica = written_iters(card.replica(), &NO_MARKS, true);
        text += &format!("+R[{replica}]");
    }
    for (offset, name) in card.offset.iter().zip(NAMES) {
        if *offset != 0 {
            text += &format!("+{offset}@{name}");
        }
    }
    text
}

/// Writes a card's text into lent bytes: checks 1 to 3, then 11.
fn write(card: &Card, lent: &mut [u8]) -> Result<String, Refusal> {
    card.first_refusal(3).map_or(Ok(()), Err)?;
    let text = written(card);
    let Some(own) = lent.get_mut(..text.len()) else {
        return Err(Refusal::with(TOO_SHORT, text.len() as u64, 0));
    };
    own.copy_from_slice(text.as_bytes());
    Ok(text)
}

/// Where a card's lengths begin, which no notation has.
const BEFORE_LENGTHS: usize = 46;

/// The numbers of a reading: those of a card before its lengths, and for each
/// shard slot whether it is marked.
fn record(card: &Card) -> Vec<Number> {
    let marks = card.marks.map(Number::from);
    [&card.numbers()[..BEFORE_LENGTHS], &marks].concat()
}

pub fn answer_read(text: &[u8]) -> Option<Answer> {
    if text.len() as u64 > MOST_BYTES {
        return None;
    }
    Some(match read(text) {
        Ok(card) => Answer::beside(0, [0; 3], &record(&card)),
        Err(Refusal { number, details }) => Answer::beside(number, details, &record(&EMPTY)),
    })
}

pub fn answer_write(marks: Marks, numbers: &[Number]) -> Option<Answer> {
    let (numbers, length) = numbers.split_at_checked(BEFORE_LENGTHS)?;
    let length = *plain(length)?
        .first()
        .filter(|length| **length <= MOST_BYTES)?;
    let of_space = &EMPTY.numbers()[BEFORE_LENGTHS..];
    let card = Card {
        marks,
        ..Card::of(&[numbers, of_space].concat())?
    };
    let mut lent = vec![LENT_BYTE; length as usize];
    let result = write(&card, &mut lent);
    let digest = digest(&lent).to_string();
    Some(match result {
        Ok(text) => Answer::beside(0, [text.len() as u64, 0, 0], &[digest, text]),
        Err(Refusal { number, details }) => Answer::beside(number, details, &[digest]),
    })
}

#[cfg(test)]
mod tests {
    use super::*;
    use crate::lines::says;
    use crate::loads::cards::tile_x;
    use crate::loads::random::Random;
    use crate::loads::texts::{any_card, correct_text, text};

    fn refused(text: &str, length: usize) {
        let zeros = " 0".repeat(54);
        says(
            &format!("read {text}"),
            &format!("18 {length} 0 0 |{zeros}"),
        );
    }

    #[test]
    fn the_longest_beginning() {
        for (begun, rest) in [
            ("", ""),
            ("", "x"),
            ("", " S[(1):(1)]"),
            ("S[(1):(1", ""),
            ("S[(1,2,3,4,5,6,7,8", ",9"),
            ("S[(12345", "6):(1)]"),
            ("S[(0", "1):(1)]"),
            ("S[(", "-1):(1)]"),
            ("S[(", ")"),
            ("S[", "1:1]"),
            ("S[(1):(-", "0)]"),
            ("S[(1):(-", "@m)]"),
            ("S[(1):(1", "*)]"),
            ("S[(1):(1@m*", "*)]"),
            ("S[(1):(1@", "*)]"),
            ("S[(1):(1@T", "lane)]"),
            ("S[(1,2):(1", ")]"),
            ("S[(1):(1", ",2)]"),
            ("S[(1):(1)]", "x"),
            ("S[(1):(1)]", " "),
            ("S[(1):(1)]", "\r"),
            ("S[(1):(1)]", "R[2:1]"),
            ("S[(1):(1)]+", ""),
            ("S[(1):(1)]+", "+"),
            ("S[(1):(1)]+R[", "]"),
            ("S[(1):(1)]+R[(2", "):(1)]"),
            ("S[(1):(1)]+R[2", ",2:1,1]"),
            ("S[(1):(1)]+R[2:", "(1)]"),
            ("S[(1):(1)]+R[2:1@m", "*]"),
            ("S[(1):(1)]+R[(1,2,3,4", ",5"),
            ("S[(1):(1)]+R[2:1]+", "R[2:1]"),
            ("S[(1):(1)]+5", "+R[2:1]"),
            ("S[(1):(1)]+5@pid+", "R[2:1]"),
            ("S[(1):(1)]+5@m", "+1"),
            ("S[(1):(1)]+5@m", "*"),
            ("S[(1):(1)]+5@TLane+6@T", "Lane"),
            ("S[(1):(1)]+5@TCol+6@", "TCol"),
            ("S[(1):(1)]+5@TCol+6@", "p"),
            ("S[(1):(1)]+0@pid+0@", "pid"),
            ("S[(1):(1)]+-", "0"),
        ] {
            refused(&format!("{begun}{rest}"), begun.len());
        }
    }

    #[test]
    fn texts_are_at_most_1024_bytes_and_may_have_any() {
        let padded = |length: usize| format!("S[(1):(1)]{}", "x".repeat(length - 10));
        refused(&padded(1_024), 10);
        says(&format!("read {}", padded(1_025)), "?");
        says(&format!("read {}", padded(5_000)), "?");
        for line in ["read", "read\tS[(1):(1)]", " read S[(1):(1)]", "READ x"] {
            says(line, "?");
        }
        refused(" S[(1):(1)]", 0);
        refused("S[(1):(1)] 0", 10);
        refused("S[(\u{e4}", 3);
        refused("0", 0);
    }

    #[test]
    fn what_a_text_says() {
        let numbers = |text: &str| read(text.as_bytes()).map(|card| record(&card));
        let card = Card {
            space: [1; AXES],
            ..tile_x()
        };
        let x = "S[(8,2,4,2):(4@laneid,1@warpid,1@laneid,1)]+R[2:4@warpid]+5@warpid";
        assert_eq!(numbers(x), Ok(record(&card)));
        says(
            "read S[(0,99999):(-99999@TCol*,0)]+R[(7,8):(-1@F,2)]+0@pid+-3",
            "0 0 0 0 | 2 0 -99999 6 99999 0 7 0 0 0 0 0 0 0 0 0 0 0 0 0 0 0 0 0 0 \
             2 7 -1 4 8 2 7 0 0 0 0 0 0 0 0 0 0 0 0 0 -3 1 0 0 0 0 0 0 0",
        );
    }

    const SLOTS: &str = " 0 0 0 0 0 0 0 0 0 0 0 0 0 0 0 0 0 0 0 0 0";

    fn writes(first: &str, replica: &str, offsets: &str, length: u64, wanted: &str) {
        let line = format!("1 {first}{SLOTS} {replica} {offsets} {length}");
        says(&format!("write {line}"), wanted);
        says(&format!("write* 254 {line}"), wanted);
    }

    #[test]
    fn what_is_written() {
        let none = "0 1 2 3 4 5 6 7 8 9 10 11 12";
        let one = "1 2 -3 4 5 6 7 8 9 10 11 12 13";
        let zeros = "0 0 0 0 0 0 0 0";
        let bytes = |text: &str, length: usize| {
            let mut bytes = text.as_bytes().to_vec();
            bytes.resize(length.max(text.len()), LENT_BYTE);
            digest(&bytes)
        };
        let first = "S[(65536):(-65536@pid)]";
        let said = format!("0 23 0 0 | {} {first}", bytes(first, 30));
        writes("65536 -65536 0", none, zeros, 30, &said);
        let second = "S[(1):(0@m)]+R[2:-3@F]+-1@pid+65535@m";
        let said = format!("0 37 0 0 | {} {second}", bytes(second, 0));
        writes("1 0 7", one, "-1 0 0 0 0 0 0 65535", 37, &said);
        let short = digest(&[LENT_BYTE; 36]);
        let said = format!("11 37 0 0 | {short}");
        writes("1 0 7", one, "-1 0 0 0 0 0 0 65535", 36, &said);
        writes("1 0 7", one, "-1 0 0 0 0 0 0 65535", 0, "11 37 0 0 | 0");
        writes("1 0 8", none, zeros, 0, "3 0 0 0 | 0");
        writes("1 65536 8", none, zeros, 0, "2 0 0 0 | 0");
        writes("1 0 8", none, "0 0 0 0 0 0 0 -65537", 0, "2 0 0 0 | 0");
        writes(
            "0 0 8",
            "5 0 0 0 0 0 0 0 0 0 0 0 0",
            zeros,
            0,
            "1 0 0 0 | 0",
        );
        writes("1 0 7", none, zeros, 1_025, "?");
        let line = |stride: u64| format!("write* 1 1 4 {stride} 7{SLOTS} {none} {zeros} 13");
        let starred = "S[(4):(0@m*)]";
        let said = format!("0 13 0 0 | {} {starred}", bytes(starred, 0));
        says(&line(0), &said);
        says(&line(1), &format!("2 0 0 0 | {}", bytes("", 13)));
    }

    #[test]
    fn reading_what_was_written_gives_the_same() {
        let mut random = Random::new(14);
        let mut written_cards = 0;
        for _ in 0..2_000 {
            let card = any_card(&mut random);
            let mut lent = [LENT_BYTE; 400];
            let Ok(text) = write(&card, &mut lent) else {
                assert_eq!(lent, [LENT_BYTE; 400]);
                continue;
            };
            written_cards += 1;
            assert!(lent.starts_with(text.as_bytes()));
            assert!(lent[text.len()..].iter().all(|byte| *byte == LENT_BYTE));
            let back = read(text.as_bytes()).unwrap();
            assert_eq!(marked(&back), marked(&card));
            assert_eq!(stated(back.replica()), stated(card.replica()));
            assert_eq!(back.offset, card.offset);
        }
        assert!(written_cards > 1_000, "{written_cards}");
    }

    fn stated(iters: &[Iter]) -> Vec<(u64, Number, u64)> {
        let three = |iter: &Iter| (iter.extent, iter.stride, iter.axis);
        iters.iter().map(three).collect()
    }

    fn marked(card: &Card) -> Vec<((u64, Number, u64), bool)> {
        stated(card.shard()).into_iter().zip(card.marks).collect()
    }

    /// Whether a text is correct, found by taking it apart from outside, with
    /// no grammar: the second opinion on the grammar.
    fn plainly_correct(text: &str) -> bool {
        plain_shard(text).is_some_and(|rest| match rest.strip_prefix("+R[") {
            None => plain_offsets(rest),
            Some(rest) => rest
                .split_once(']')
                .is_some_and(|(replica, rest)| plain_replica(replica) && plain_offsets(rest)),
        })
    }

    fn plain_number(text: &str) -> bool {
        let digits = text.bytes().all(|byte| byte.is_ascii_digit());
        digits && (1..=5).contains(&text.len()) && (text == "0" || !text.starts_with('0'))
    }

    fn plain_term(text: &str) -> Option<usize> {
        let (number, name) = text.split_once('@').unwrap_or((text, "m"));
        let fine = match number.strip_prefix('-') {
            Some(number) => plain_number(number) && number != "0",
            None => plain_number(number),
        };
        let axis = NAMES.iter().position(|axis| *axis == name);
        axis.filter(|_| fine)
    }

    fn plain_stride(text: &str) -> bool {
        match text.strip_suffix('*') {
            Some(text) => text.contains('@') && plain_term(text).is_some(),
            None => plain_term(text).is_some(),
        }
    }

    fn plain_lists(text: &str, counts: std::ops::RangeInclusive<usize>, star: bool) -> bool {
        let Some((extents, strides)) = text.split_once("):(") else {
            return false;
        };
        let (extents, strides) = (extents.split(','), strides.split(','));
        let count = extents.clone().count();
        let fine = |text: &str| plain_stride(text) && (star || !text.contains('*'));
        counts.contains(&count)
            && strides.clone().count() == count
            && extents.into_iter().all(plain_number)
            && strides.into_iter().all(fine)
    }

    /// What follows the shard, if it is one.
    fn plain_shard(text: &str) -> Option<&str> {
        let (shard, rest) = text.strip_prefix("S[(")?.split_once(")]")?;
        plain_lists(shard, 1..=8, true).then_some(rest)
    }

    fn plain_replica(text: &str) -> bool {
        match text.strip_prefix('(') {
            Some(lists) => lists
                .strip_suffix(')')
                .is_some_and(|lists| plain_lists(lists, 2..=4, false)),
            None => text.split_once(':').is_some_and(|(extent, stride)| {
                plain_number(extent) && plain_term(stride).is_some()
            }),
        }
    }

    fn plain_offsets(text: &str) -> bool {
        let mut pieces = text.split('+');
        let axes: Option<Vec<usize>> = match pieces.next() {
            Some("") => pieces.map(plain_term).collect(),
            _ => None,
        };
        axes.is_some_and(|axes| axes.windows(2).all(|two| two[0] < two[1]))
    }

    /// Bytes that end a text where this may follow: the first way of each part.
    fn ending(rest: &[Part]) -> String {
        let one = |part: &Part| match part {
            Exactly(text) => text.to_string(),
            OneOf(choices) => choices[..1].to_string(),
            _ => ending(&Vec::from_iter(ways(*part)[0].iter().rev().copied())),
        };
        rest.iter().rev().map(one).collect()
    }

    /// An ending for a beginning, if the grammar has one.
    fn ended(text: &[u8]) -> Option<String> {
        let mut rests = BTreeSet::from([vec![Text]]);
        for byte in text {
            let mut found = BTreeSet::new();
            rests
                .into_iter()
                .for_each(|rest| add_after(*byte, rest, &mut found));
            rests = found;
        }
        rests.first().map(|rest| ending(rest))
    }

    fn as_text(bytes: &[u8]) -> String {
        String::from_utf8_lossy(bytes).into_owned()
    }

    #[test]
    fn the_grammar_and_the_plain_words_agree() {
        let mut random = Random::new(15);
        let mut correct_ones = 0;
        for _ in 0..4_000 {
            let text = text(&mut random);
            let (length, correct) = beginning(&text);
            assert_eq!(correct, plainly_correct(&as_text(&text)), "{text:?}");
            assert_eq!(read(&text).is_ok(), correct);
            correct_ones += u64::from(correct);
            let ending = ended(&text[..length]).unwrap();
            let whole = as_text(&text[..length]) + &ending;
            assert!(plainly_correct(&whole), "{whole}");
        }
        assert!((1_500..2_500).contains(&correct_ones), "{correct_ones}");
    }

    #[test]
    fn no_ending_makes_a_longer_beginning_correct() {
        let mut random = Random::new(16);
        let texts: Vec<String> = (0..60).map(|_| correct_text(&mut random)).collect();
        let suffixes = |text: &'_ String| -> Vec<String> {
            (0..=text.len()).map(|at| text[at..].to_string()).collect()
        };
        let endings: Vec<String> = texts.iter().flat_map(suffixes).collect();
        for _ in 0..150 {
            let text = text(&mut random);
            let (length, correct) = beginning(&text);
            if correct || length == text.len() {
                continue;
            }
            let begun = as_text(&text[..=length]);
            let ends = |ending: &String| plainly_correct(&format!("{begun}{ending}"));
            assert!(!endings.iter().any(ends), "{begun}");
        }
    }
}
