//! Texts of the layout notation: correct ones, of random parts and of random
//! cards, and such as are wrong at one place; every one-byte change of a dozen
//! texts; cards to be written; and inputs of the program `judge`.

use super::cards::random_card;
use super::copies::copied_card;
use super::limits::{LINE, TEXT};
use super::random::Random;
use super::reuse::{number_of, reused_card};
use super::signed::signed_card;
use crate::judge::spelt;
use crate::layout::Card;
use crate::lines::{whole, Number};
use crate::notation::written;

/// The axes by name.
const NAMES: &[&str] = &["pid", "warpid", "laneid", "P", "F", "TLane", "TCol", "m"];

/// Every byte that a correct text can have, and some that none can.
const BYTES: &[u8] = b"0123456789S[(,):]+R@-*pidwarplnePFTLCom\
                       sr{}<>.;/_#AZMtcf \t\r\0\x0b\x7f\x80\xc3\xff";

/// What a changed or an inserted byte is in `mutations`: each of these, which
/// are all that a correct text can have, and a few others.
const ALPHABET: &[u8] = b"0159S[(,):]+R@-*pidwarlnePFTLCom t\0\r\xff";

fn number(random: &mut Random) -> String {
    let number = match random.below(8) {
        0 => 0,
        1..=4 => random.between(1, 9),
        5 => random.between(10, 999),
        6 => random.pick(&[
            9_999, 10_000, 16_384, 16_385, 65_535, 65_536, 65_537, 99_999,
        ]),
        _ => random.below(100_000),
    };
    number.to_string()
}

fn signed(random: &mut Random) -> String {
    let number = number(random);
    match number != "0" && random.once_in(4) {
        true => format!("-{number}"),
        false => number,
    }
}

fn axis(random: &mut Random) -> String {
    match random.once_in(4) {
        true => String::new(),
        false => format!("@{}", random.pick(NAMES)),
    }
}

fn stride(random: &mut Random, star: bool) -> String {
    let (number, axis) = (signed(random), axis(random));
    match star && !axis.is_empty() && random.once_in(5) {
        true => number + &axis + "*",
        false => number + &axis,
    }
}

fn listed(texts: &[String]) -> String {
    format!("({})", texts.join(","))
}

fn iters(random: &mut Random, count: u64, star: bool) -> (Vec<String>, Vec<String>) {
    let extents = (0..count).map(|_| number(random)).collect();
    let strides = (0..count).map(|_| stride(random, star)).collect();
    (extents, strides)
}

fn replica(random: &mut Random) -> String {
    let count = random.pick(&[0, 0, 0, 1, 1, 1, 2, 3, 4]);
    let (extents, strides) = iters(random, count, false);
    match count {
        0 => String::new(),
        1 => format!("+R[{}:{}]", extents[0], strides[0]),
        _ => format!("+R[{}:{}]", listed(&extents), listed(&strides)),
    }
}

fn offsets(random: &mut Random) -> String {
    let mut text = String::new();
    let times = random.pick(&[1, 2, 4, 8, 100]);
    for name in NAMES {
        if random.once_in(times) {
            let bare = *name == "m" && random.once_in(2);
            let named = if bare { "" } else { name };
            let at = if bare { "" } else { "@" };
            text += &format!("+{}{at}{named}", signed(random));
        }
    }
    text
}

/// A correct text of random parts, with any numbers.
fn correct(random: &mut Random) -> String {
    let count = random.pick(&[1, 1, 2, 2, 3, 4, 5, 7, 8]);
    let (extents, strides) = iters(random, count, true);
    let shard = format!("S[{}:{}]", listed(&extents), listed(&strides));
    shard + &replica(random) + &offsets(random)
}

pub fn any_card(random: &mut Random) -> Card {
    random.pick(&[random_card, signed_card, copied_card, reused_card])(random)
}

/// The text of a card, some of its m left out; none if it has no text.
fn text_of(random: &mut Random, card: &Card) -> Option<String> {
    let mut text = card.first_refusal(3).is_none().then(|| written(card))?;
    for end in [",", ")", "]"] {
        if random.once_in(2) {
            text = text.replace(&format!("@m{end}"), end);
        }
    }
    if random.once_in(2) {
        text = text.strip_suffix("@m").unwrap_or(&text).to_string();
    }
    Some(text)
}

pub fn correct_text(random: &mut Random) -> String {
    let card = any_card(random);
    match random.once_in(2) {
        true => correct(random),
        false => text_of(random, &card).unwrap_or_else(|| correct(random)),
    }
}

/// A text that says a thing that the grammar does not allow, or just allows.
const TELLING: &[&str] = &[
    "",
    "S",
    "S[",
    "S[(",
    "S[()",
    "S[():()]",
    "S[(,",
    "S[(1",
    "S[(1)",
    "S[(1)]",
    "S[(1):",
    "S[(1):1]",
    "S[1:1]",
    "S[1:1@m]",
    "S[(1):()]",
    "S[(1):(1)]",
    "S[(1):(1)",
    "S[(1):(1)]]",
    "S[(1):(1)])",
    "S[(1):(1))]",
    "S[(0):(0)]",
    "S[(00):(0)]",
    "S[(01):(1)]",
    "S[(1):(01)]",
    "S[(1):(00)]",
    "S[(99999):(99999)]",
    "S[(100000):(1)]",
    "S[(1):(100000)]",
    "S[(1):(-99999)]",
    "S[(1):(-100000)]",
    "S[(-1):(1)]",
    "S[(1):(-1)]",
    "S[(1):(-0)]",
    "S[(1):(-01)]",
    "S[(1):(--1)]",
    "S[(1):(+1)]",
    "S[(1):(-)]",
    "S[(1):(-@m)]",
    "S[(1):(@m)]",
    "S[(1):(1@)]",
    "S[(1):(1@m@m)]",
    "S[(1):(1@mm)]",
    "S[(1):(1@M)]",
    "S[(1):(1@p)]",
    "S[(1):(1@pi)]",
    "S[(1):(1@Pid)]",
    "S[(1):(1@pidd)]",
    "S[(1):(1@tid)]",
    "S[(1):(1@T)]",
    "S[(1):(1@TLan)]",
    "S[(1):(1@TLanes)]",
    "S[(1):(1@TCo)]",
    "S[(1):(1@Tcol)]",
    "S[(1):(1@f)]",
    "S[(1):(1@lane)]",
    "S[(1):(1@warp)]",
    "S[(1):(1*)]",
    "S[(1):(0*)]",
    "S[(1):(*)]",
    "S[(1):(1@*)]",
    "S[(1):(1*@m)]",
    "S[(1):(0@m*)]",
    "S[(1):(1@m*)]",
    "S[(1):(-1@m*)]",
    "S[(1):(0@m**)]",
    "S[(1):(0@m *)]",
    "S[(1):(0@TLane*)]+R[2:1@TLane]",
    "S[(1*):(0@m)]",
    "S[(1@m):(1)]",
    "S[(1,2):(1)]",
    "S[(1):(1,2)]",
    "S[(1,2):(1,2,3)]",
    "S[(1,):(1,)]",
    "S[(1,2):(1,)]",
    "S[(1,2):(,1)]",
    "S[(1 ,2):(1,2)]",
    "S[(1, 2):(1, 2)]",
    "S[ (1):(1)]",
    " S[(1):(1)]",
    "S[(1):(1)] ",
    "S[(1):(1)] +R[2:1]",
    "S[(1):(1)]\r",
    "s[(1):(1)]",
    "D[(1):(1)]",
    "S((1):(1))",
    "S[(1,2,3,4,5,6,7,8):(1,2,3,4,5,6,7,8)]",
    "S[(1,2,3,4,5,6,7,8,9):(1,2,3,4,5,6,7,8,9)]",
    "S[(1,2,3,4,5,6,7,8):(1,2,3,4,5,6,7,8,9)]",
    "S[(1,2,3,4,5,6,7,8):(1,2,3,4,5,6,7)]",
    "S[(1):(1)]+",
    "S[(1):(1)]++1",
    "S[(1):(1)]-1",
    "S[(1):(1)]+R",
    "S[(1):(1)]+R[",
    "S[(1):(1)]+R[]",
    "S[(1):(1)]+R[()]",
    "S[(1):(1)]+R[():()]",
    "S[(1):(1)]+R[2]",
    "S[(1):(1)]+R[2:]",
    "S[(1):(1)]+R[2:1",
    "S[(1):(1)]+R[2:1]",
    "S[(1):(1)]+R[0:0]",
    "S[(1):(1)]+R[-2:1]",
    "S[(1):(1)]+R[2:-1]",
    "S[(1):(1)]+R[2:-0]",
    "S[(1):(1)]+R[2:1@m]",
    "S[(1):(1)]+R[2:1@m*]",
    "S[(1):(1)]+R[2:1*]",
    "S[(1):(1)]+R[2,2:1,2]",
    "S[(1):(1)]+R[(2):(1)]",
    "S[(1):(1)]+R[(2):1]",
    "S[(1):(1)]+R[2:(1)]",
    "S[(1):(1)]+R[(2,2):(1,2)]",
    "S[(1):(1)]+R[(2,2):(1,2@m*)]",
    "S[(1):(1)]+R[(2,2):(1)]",
    "S[(1):(1)]+R[(2,2):(1,2,3)]",
    "S[(1):(1)]+R[(2,2,2,2):(1,2,4,8)]",
    "S[(1):(1)]+R[(2,2,2,2,2):(1,2,4,8,16)]",
    "S[(1):(1)]+R[2:1]+R[2:1]",
    "S[(1):(1)]+R[2:1]+",
    "S[(1):(1)]R[2:1]",
    "S[(1):(1)]+r[2:1]",
    "S[(1):(1)]+5+R[2:1]",
    "S[(1):(1)]+5@pid+R[2:1]",
    "R[2:1]",
    "+5",
    "S[(1):(1)]+5",
    "S[(1):(1)]+0",
    "S[(1):(1)]+00",
    "S[(1):(1)]+-5",
    "S[(1):(1)]+-0",
    "S[(1):(1)]+-",
    "S[(1):(1)]+5@",
    "S[(1):(1)]+5@m",
    "S[(1):(1)]+5@m*",
    "S[(1):(1)]+5*",
    "S[(1):(1)]+5@m+",
    "S[(1):(1)]+5+",
    "S[(1):(1)]+5@m+5",
    "S[(1):(1)]+5@TCol+5",
    "S[(1):(1)]+5@TCol+5@m",
    "S[(1):(1)]+5@TCol+5@TCol",
    "S[(1):(1)]+5@TCol+5@TLane",
    "S[(1):(1)]+5@TLane+6@TLane",
    "S[(1):(1)]+5@TLane+6@TCol",
    "S[(1):(1)]+5@F+6@P",
    "S[(1):(1)]+5@P+6@P",
    "S[(1):(1)]+5@P+6@F+7@TLane+8@TCol+9",
    "S[(1):(1)]+5@laneid+6@warpid",
    "S[(1):(1)]+5@warpid+6@warpid",
    "S[(1):(1)]+5@warpid+6@pid",
    "S[(1):(1)]+0@pid",
    "S[(1):(1)]+0@pid+0@pid",
    "S[(1):(1)]+-65536@pid+65535@warpid+0@laneid+1@P+2@F+3@TLane+4@TCol+5@m",
    "S[(1):(1)]+123456",
    "S[(1):(1)]+12345@pid",
    "S[(1):(1)]+1@m1",
    "S[(1):(1)]+1@pid1",
    "S[(32, sf_per_mma):(1@TLane, 1@TCol)] + R[4:32@TLane]",
    "S[(2,128,112):(112@TCol,1@TLane,1@TCol)]",
    "S[(8,2,4,2):(4@laneid,1@warpid,1@laneid,1)] + R[2:4@warpid] + 5@warpid",
    "S[(8,2,4,2):(4@laneid,1@warpid,1@laneid,1)]+R[2:4@warpid]+5@warpid",
    "S[(8,64):(64@m,1@m)]",
];

/// One byte left out, put in or changed, or all from one on left out; now and
/// then a stretch left out, doubled or moved.
fn changed(random: &mut Random, text: &[u8]) -> Vec<u8> {
    let at = random.index(text.len() + 1);
    let (front, back) = text.split_at(at);
    let tail = back.get(1..).unwrap_or(b"");
    let byte = random.pick(BYTES);
    let length = random.index(back.len().min(12) + 1);
    let (piece, after) = back.split_at(length);
    match random.below(12) {
        0 | 1 => [front, tail].concat(),
        2..=4 => [front, &[byte], back].concat(),
        5..=7 => [front, &[byte], tail].concat(),
        8 => front.to_vec(),
        9 => [front, after].concat(),
        10 => [front, piece, piece, after].concat(),
        _ => [piece, front, after].concat(),
    }
}

/// A text: half of them correct.
pub fn text(random: &mut Random) -> Vec<u8> {
    match random.below(12) {
        0 => random.pick(TELLING).as_bytes().to_vec(),
        1..=6 => correct_text(random).into_bytes(),
        other => {
            let text = correct_text(random).into_bytes();
            let once = changed(random, &text);
            match other {
                7 => changed(random, &once),
                _ => once,
            }
        }
    }
}

/// A text of about as many bytes as the program takes, or far more.
fn long_text(random: &mut Random) -> Vec<u8> {
    let mut text = correct(random).into_bytes();
    let length = match random.below(4) {
        0 => random.around(LINE as u64 - 5),
        _ => random.around(TEXT),
    };
    text.resize(length as usize, random.pick(b"0 S]+x"));
    text
}

/// A line of the word `read`, or one that looks like it.
pub fn read_line(random: &mut Random) -> Vec<u8> {
    let text = text(random);
    let line = [b"read ", &text[..]].concat();
    match random.below(120) {
        0 => [b"read", &text[..]].concat(),
        1 => [b"read\t", &text[..]].concat(),
        2 => [b"Read ", &text[..]].concat(),
        3 => [b" read ", &text[..]].concat(),
        4 => [b"read  ", &text[..]].concat(),
        5 => [b"read* ", &text[..]].concat(),
        6 => b"read".to_vec(),
        7 => b"read ".to_vec(),
        8..=10 => [b"read ", &long_text(random)[..]].concat(),
        11 => [&line[..], b" 0"].concat(),
        _ => line,
    }
}

/// The numbers of a card that are written, and a length: enough, mostly.
fn write_on(random: &mut Random, card: &Card) -> Vec<Number> {
    let needed = match card.first_refusal(3) {
        None => written(card).len() as u64,
        Some(_) => random.below(100),
    };
    let length = match random.below(12) {
        0..=4 => needed,
        5..=7 => random.around(needed),
        8 => needed + random.below(9),
        9 => random.below(needed),
        10 => random.around(TEXT),
        _ => random.pick(&[0, 1, TEXT, TEXT + 1, 4_096, 1 << 32, u64::MAX]),
    };
    [&card.numbers()[..46], &whole(&[length])].concat()
}

pub fn write(random: &mut Random) -> Vec<Number> {
    let card = any_card(random);
    write_on(random, &card)
}

pub fn starred_write(random: &mut Random) -> Vec<Number> {
    let card = reused_card(random);
    let marks = number_of(&card.marks);
    [whole(&[marks]), write_on(random, &card)].concat()
}

/// The texts of which `mutations` prints every one-byte change.
const CHANGED: &[&str] = &[
    "S[(8,2,4,2):(4@laneid,1@warpid,1@laneid,1)]+R[2:4@warpid]+5@warpid",
    "S[(2,128,112):(112@TCol,1@TLane,1@TCol)]",
    "S[(32,4):(1@TLane,1@TCol)]+R[4:32@TLane]",
    "S[(2,32,4):(0@TCol*,1@TLane,1@TCol)]",
    "S[(4):(-1)]+3",
    "S[(0):(0)]",
    "S[(12345):(-99999@P*)]+R[(10,2):(1,-3@F)]+-65536@F+7",
    "S[(1,2,3,4,5,6,7,8):(1,2,3,4,5,6,7,8)]",
    "S[(1):(1)]+R[(1,2,3,4):(0,1@pid,2,3)]+1@m",
    "S[(1):(1)]+0@pid+1@warpid+2@laneid+3@P+4@F+5@TLane+6@TCol+7@m",
    "S[(1):(1)]+5@TLane+6@TLane",
    "S[(64,8):(1@F,64@F)]+R[2:0]+10@P+-1@TCol",
];

/// Every text that comes of this one by leaving out, changing or putting in
/// one byte, and every beginning of it.
fn one_byte_changes(text: &[u8]) -> Vec<Vec<u8>> {
    let mut texts = Vec::new();
    for at in 0..=text.len() {
        let (front, back) = text.split_at(at);
        texts.push(front.to_vec());
        for byte in ALPHABET {
            texts.push([front, &[*byte], back].concat());
        }
        if let Some((_, tail)) = back.split_first() {
            texts.push([front, tail].concat());
            for byte in ALPHABET {
                texts.push([front, &[*byte], tail].concat());
            }
        }
    }
    texts
}

/// Every one-byte change of a dozen texts, as lines of the word `read`.
pub fn mutations() -> impl Iterator<Item = Vec<u8>> {
    let texts = CHANGED.iter();
    let changed = texts.flat_map(|text| one_byte_changes(text.as_bytes()));
    changed.map(|text| [b"read ", &text[..], b"\n"].concat())
}

/// A line of lengths: those of the card, mostly.
fn lengths(random: &mut Random, card: &Card) -> Vec<u8> {
    let line = card.space.map(|length| length.to_string()).join(" ");
    match random.below(24) {
        0 => changed(random, line.as_bytes()),
        1 => {
            let count = random.pick(&[0, 1, 7, 8, 8, 9]);
            let some: Vec<String> = (0..count).map(|_| number(random)).collect();
            some.join(" ").into_bytes()
        }
        2 => {
            let spelling =
                random.pick(&["0", "00", "01", "-1", "65536", "65537", "99999", "100000"]);
            line.replacen('1', spelling, 1).into_bytes()
        }
        _ => line.into_bytes(),
    }
}

/// An input of `judge`, as `printf %b` takes it.
pub fn judge_input(random: &mut Random) -> Vec<u8> {
    let card = any_card(random);
    let first = lengths(random, &card);
    let said = text_of(random, &card);
    let second = match (random.below(6), said) {
        (1.., Some(text)) => text.into_bytes(),
        _ => text(random),
    };
    let end: &[u8] = match random.below(16) {
        0 => b"",
        1 => b"\r\n",
        2 => b"\n\nS[(1):(1)]\n",
        3 => b"\n1 1 1 1 1 1 1 1\nS[(1):(1)]",
        _ => b"\n",
    };
    let part: &[u8] = match random.below(40) {
        0 => b"\r\n",
        1 => b"\n\n",
        2 => b"",
        _ => b"\n",
    };
    spelt(&[&first, part, &second, end].concat())
}

#[cfg(test)]
mod tests {
    use super::*;
    use crate::judge::answer_each;
    use crate::lines::reached;
    use crate::loads::judge_inputs;
    use crate::notation::read;
    use crate::verdict::MOST_ENTRIES;
    use std::collections::BTreeSet;

    #[test]
    fn correct_texts_are_correct() {
        let mut random = Random::new(17);
        for _ in 0..1_000 {
            let text = correct_text(&mut random);
            assert!(read(text.as_bytes()).is_ok(), "{text}");
            let text = correct(&mut random);
            assert!(read(text.as_bytes()).is_ok(), "{text}");
        }
    }

    #[test]
    fn telling_texts_are_told_apart() {
        let right = TELLING.iter().filter(|text| read(text.as_bytes()).is_ok());
        assert_eq!(right.count(), 30);
        let right = CHANGED.iter().filter(|text| read(text.as_bytes()).is_ok());
        assert_eq!(right.count(), CHANGED.len() - 1);
    }

    #[test]
    fn every_byte_is_changed() {
        let lines: Vec<Vec<u8>> = mutations().collect();
        let places: usize = CHANGED.iter().map(|text| text.len()).sum();
        let changes = places * (2 + 2 * ALPHABET.len());
        assert_eq!(lines.len(), changes + CHANGED.len() * (1 + ALPHABET.len()));
        assert!(!ALPHABET.contains(&b'\n') && !BYTES.contains(&b'\n'));
        for name in [NAMES.concat().as_bytes(), b"S[(0,1):(2@m*)]+R[3:-4]"].concat() {
            let digit = name.is_ascii_digit();
            assert!(BYTES.contains(&name) && (digit || ALPHABET.contains(&name)));
        }
        let few: Vec<Vec<u8>> = lines.into_iter().step_by(7).collect();
        let reached = reached(&few.concat(), MOST_ENTRIES);
        assert_eq!(Vec::from_iter(reached.keys()), [&0, &18]);
        assert!(reached[&0] > 100);
    }

    #[test]
    fn inputs_of_judge_come_to_every_number() {
        let inputs: Vec<Vec<u8>> = judge_inputs(b"judge", 3_000).collect();
        let said = String::from_utf8(answer_each(&inputs.concat())).unwrap();
        assert_eq!(said.lines().count(), 3_000);
        let begin = |line: &str| match line.strip_prefix("refused ") {
            Some(rest) => rest.split(' ').next().unwrap_or("").to_string(),
            None => "accepted".to_string(),
        };
        let begun: BTreeSet<String> = said.lines().map(begin).collect();
        let wanted = ["11", "17", "18", "2", "4", "5", "7", "8", "accepted"];
        assert_eq!(Vec::from_iter(begun), wanted);
    }
}
