//! The program `judge` of request 5: eight lengths on one line, a notation on
//! the next, and the verdict on them in one line.

use crate::layout::{lent_entries, Card, Coordinates, Refusal, WRONG_SPACE};
use crate::lines::number;
use crate::notation;
use crate::verdict::{verdict, MOST_ENTRIES};

/// One of the notation's numbers has at most so many digits.
const MOST_DIGITS: usize = 5;

/// The eight lengths of a line that is eight of the notation's numbers parted
/// by single spaces.
fn lengths(line: &[u8]) -> Option<Coordinates> {
    let short = |piece: &&[u8]| piece.len() <= MOST_DIGITS;
    let length = |piece: &[u8]| number(Some(piece).filter(short)?);
    let pieces = line.split(|byte| *byte == b' ');
    let lengths: Vec<u64> = pieces.map(length).collect::<Option<_>>()?;
    lengths.try_into().ok()
}

/// The verdict on the card that two lines say, with a table of as many entries
/// as the programs lend.
fn judged(first: &[u8], second: &[u8]) -> Result<[u64; 3], Refusal> {
    let space = lengths(first).ok_or(Refusal::plain(WRONG_SPACE))?;
    let card = Card {
        space,
        ..notation::read(second)?
    };
    verdict(&card, &mut lent_entries(MOST_ENTRIES))
}

/// The line for an input, of which only the first two lines are looked at. A
/// line that is missing is empty.
pub fn answer(input: &[u8]) -> String {
    let mut lines = input.split(|byte| *byte == b'\n');
    let mut next = || lines.next().unwrap_or(b"");
    match judged(next(), next()) {
        Ok([a, b, c]) => format!("accepted {a} {b} {c}\n"),
        Err(Refusal { number, details }) => {
            let [a, b, c] = details;
            format!("refused {number} {a} {b} {c}\n")
        }
    }
}

/// An input as `printf %b` takes it, so that it is one line.
pub fn spelt(input: &[u8]) -> Vec<u8> {
    let mut line = Vec::new();
    for byte in input {
        match byte {
            b'\n' => line.extend(b"\\n"),
            b'\\' => line.extend(b"\\\\"),
            b' '..=b'~' => line.push(*byte),
            _ => line.extend(format!("\\0{byte:03o}").bytes()),
        }
    }
    line
}

/// The input that such a line spells; none where it is not spelt so.
fn unspelt(line: &[u8]) -> Option<Vec<u8>> {
    let mut input = Vec::new();
    let mut rest = line;
    while let Some((byte, after)) = rest.split_first() {
        let (byte, length) = match (byte, after.first()) {
            (b'\\', Some(b'n')) => (b'\n', 1),
            (b'\\', Some(b'\\')) => (b'\\', 1),
            (b'\\', Some(b'0')) => (octal(after.get(1..4)?)?, 4),
            (b'\\', _) => return None,
            _ => (*byte, 0),
        };
        input.push(byte);
        rest = &after[length..];
    }
    Some(input)
}

fn octal(digits: &[u8]) -> Option<u8> {
    let text = std::str::from_utf8(digits).ok()?;
    u8::from_str_radix(text, 8).ok()
}

/// The answers to inputs that are each spelt on a line.
pub fn answer_each(lines: &[u8]) -> Vec<u8> {
    let all = lines.strip_suffix(b"\n").unwrap_or(lines);
    let each = all.split(|byte| *byte == b'\n');
    let said = each.map(|line| match unspelt(line) {
        Some(input) => answer(&input),
        None => "?\n".to_string(),
    });
    said.collect::<String>().into_bytes()
}

#[cfg(test)]
mod tests {
    use super::*;

    fn says(input: &str, wanted: &str) {
        assert_eq!(answer(input.as_bytes()), format!("{wanted}\n"), "{input}");
    }

    const X: &str = "S[(8,2,4,2):(4@laneid,1@warpid,1@laneid,1)]+R[2:4@warpid]+5@warpid";

    #[test]
    fn tile_x() {
        says(&format!("1 11 32 1 1 1 1 2\n{X}\n"), "accepted 128 256 704");
        says(&format!("1 11 32 1 1 1 1 2\n{X}"), "accepted 128 256 704");
        says(&format!("1 10 32 1 1 1 1 2\n{X}\n"), "refused 7 8 1 0");
        let other = X.replace("R[2:4@", "R[2:1@");
        says(
            &format!("1 11 32 1 1 1 1 2\n{other}\n"),
            "refused 8 0 8 384",
        );
        let idle = X.replace("R[2:4@", "R[2:0@");
        says(&format!("1 11 32 1 1 1 1 2\n{idle}\n"), "refused 17 0 1 0");
    }

    #[test]
    fn the_first_line_is_judged_first() {
        for first in [
            "",
            " ",
            "1 1 1 1 1 1 1",
            "1 1 1 1 1 1 1 1 1",
            "1 1 1 1 1 1 1 1 ",
            " 1 1 1 1 1 1 1 1",
            "1 1 1 1  1 1 1 1",
            "1 1 1 1 1 1 1 1\r",
            "1 1 1 1 1 1 1 01",
            "1 1 1 1 1 1 1 100000",
            "1 1 1 1 1 1 1 -1",
            "1 1 1 1 1 1 1 +1",
            "1,1,1,1,1,1,1,1",
            "1\t1 1 1 1 1 1 1",
            "1 1 1 1 1 1 1 x",
        ] {
            for second in ["", "S[(1):(1)]", "S[(1):(1)", "S[(0):(1)]"] {
                says(&format!("{first}\n{second}\n"), "refused 4 0 0 0");
            }
        }
    }

    #[test]
    fn then_18_then_the_verdict() {
        says("0 0 0 0 0 0 0 0\nS[(1):(1)]x\n", "refused 18 10 0 0");
        says("0 0 0 0 0 0 0 99999\n", "refused 18 0 0 0");
        says("0 0 0 0 0 0 0 99999", "refused 18 0 0 0");
        says("0 0 0 0 0 0 0 0\nS[(1):(1)]\r\n", "refused 18 10 0 0");
        says("0 0 0 0 0 0 0 0\nS[(0):(1)]\n", "refused 2 0 0 0");
        says("0 0 0 0 0 0 0 0\nS[(1):(1)]\n", "refused 4 0 0 0");
        says("1 1 1 1 1 1 1 65537\nS[(1):(1)]\n", "refused 4 0 0 0");
        says("1 1 1 1 1 1 1 65536\nS[(1):(1)]\n", "refused 11 65536 0 0");
        says("1 1 1 1 1 1 1 16385\nS[(1):(1)]\n", "refused 11 16385 0 0");
        says("1 1 1 1 1 1 1 16384\nS[(1):(1)]\n", "accepted 1 1 16384");
        says("1 1 1 1 1 1 1 4\nS[(4):(-1)]+3\n", "accepted 4 4 4");
        says("1 1 1 1 1 1 1 4\nS[(4):(-1)]+2\n", "refused 7 3 7 0");
        says("1 1 1 1 1 1 1 4\nS[(2,4):(0,1)]\n", "refused 8 0 4 0");
        says("1 1 1 1 1 1 1 4\nS[(2,4):(0@m*,1)]\n", "accepted 8 4 4");
        says("1 1 1 1 1 1 1 4\nS[(1,4):(1@m*,1)]\n", "refused 2 0 0 0");
    }

    #[test]
    fn no_further_line_is_looked_at() {
        says("1 1 1 1 1 1 1 1\nS[(1):(1)]\nS[", "accepted 1 1 1");
        says("1 1 1 1 1 1 1 1\n\nS[(1):(1)]\n", "refused 18 0 0 0");
        says("\n1 1 1 1 1 1 1 1\nS[(1):(1)]\n", "refused 4 0 0 0");
    }

    #[test]
    fn spelling_gives_back_the_input() {
        let all: Vec<u8> = (0..=255).collect();
        let line = spelt(&all);
        assert!(line.is_ascii() && !line.contains(&b'\n'));
        assert_eq!(unspelt(&line), Some(all));
        assert_eq!(unspelt(b"\\x"), None);
        assert_eq!(
            answer_each(b"1\\n\n\n"),
            b"refused 4 0 0 0\nrefused 4 0 0 0\n"
        );
    }
}
