//! Lines that are no questions, or only look as if they were none. Each kind
//! starts from a valid question of a word and spoils it in one way.
//!
//! No kind may make a word that could become a question one day: the answers
//! to committed lines must not change when words are added.

use super::limits::LINE;
use super::random::Random;

/// A valid question before it is spoiled: the word and its numbers.
pub struct Question<'a> {
    pub word: &'a str,
    pub numbers: Vec<String>,
}

impl Question<'_> {
    pub fn new<'a>(word: &'a str, numbers: &[impl ToString]) -> Question<'a> {
        Question {
            word,
            numbers: numbers.iter().map(ToString::to_string).collect(),
        }
    }

    pub fn bytes(&self) -> Vec<u8> {
        self.under(self.word)
    }

    /// The same numbers under another word.
    fn under(&self, word: &str) -> Vec<u8> {
        self.joined(word, &self.numbers)
    }

    fn joined(&self, word: &str, numbers: &[String]) -> Vec<u8> {
        let mut line = word.as_bytes().to_vec();
        for number in numbers {
            line.push(b' ');
            line.extend(number.as_bytes());
        }
        line
    }

    /// This text in the place of a number.
    pub fn with(&self, at: usize, text: &str) -> Vec<u8> {
        let mut numbers = self.numbers.clone();
        numbers[at] = text.to_string();
        self.joined(self.word, &numbers)
    }

    /// One of the numbers changed.
    fn changed(&self, random: &mut Random, change: impl Fn(&str) -> String) -> Vec<u8> {
        let at = random.index(self.numbers.len());
        self.with(at, &change(&self.numbers[at]))
    }

    /// One of the spaces replaced.
    fn parted(&self, random: &mut Random, by: &[u8]) -> Vec<u8> {
        let line = self.bytes();
        let spaces: Vec<usize> = (0..line.len()).filter(|at| line[*at] == b' ').collect();
        let at = spaces[random.index(spaces.len())];
        [&line[..at], by, &line[at + 1..]].concat()
    }
}

type Kind = fn(&mut Random, &Question) -> Vec<u8>;

/// The kinds that keep a line short.
pub const SHORT_KINDS: &[Kind] = &[
    |_, _| Vec::new(),
    unknown_word,
    other_case,
    other_star,
    too_few,
    too_many,
    |random, question| question.changed(random, |number| format!("0{number}")),
    |random, question| question.changed(random, |_| "00".to_string()),
    twenty_one_digits,
    near_two_to_the_64,
    |random, question| question.changed(random, |number| format!("{number:0>20}")),
    signed,
    |random, question| question.changed(random, |number| format!("0x{number}")),
    decimal_point,
    |_, question| [b" ", &question.bytes()[..]].concat(),
    |_, question| [&question.bytes()[..], b" "].concat(),
    |random, question| question.parted(random, b"  "),
    |random, question| question.parted(random, b"\t"),
    |_, question| [&question.bytes()[..], b"\r"].concat(),
    |random, question| inserted(random, &question.bytes(), 0),
    high_byte,
    letter_in_number,
    |_, question| question.word.as_bytes().to_vec(),
    |_, question| [question.word.as_bytes(), b" "].concat(),
    |_, _| b" ".to_vec(),
    |_, question| question.numbers.join(" ").into_bytes(),
    unparted,
    other_separator,
    |_, question| [question.bytes(), question.bytes()].join(&b' '),
    |_, question| [&question.bytes()[..], b" x"].concat(),
    word_after_a_number,
    |_, question| [question.word.as_bytes(), &question.bytes()[..]].join(&b' '),
    control_byte,
    cut_short,
    other_digits,
    |_, question| ["\u{feff}".as_bytes(), &question.bytes()[..]].concat(),
    |random, question| question.changed(random, |_| u64::MAX.to_string()),
    |random, question| question.changed(random, |_| String::new()),
    any_bytes,
];

/// The kinds that are longer than any question can be.
pub const LONG_KINDS: &[Kind] = &[
    |random, question| padded(random, question, LINE),
    |random, question| padded(random, question, LINE + 1),
    |random, question| padded(random, question, 5000),
    |random, question| padded(random, question, 10_000),
    question_after_the_buffer,
    question_on_both_sides,
    |_, question| [vec![b' '; LINE], question.bytes()].concat(),
    |_, question| [question.bytes(), vec![b'0'; LINE]].concat(),
];

fn unknown_word(random: &mut Random, question: &Question) -> Vec<u8> {
    let word = question.word;
    let shorter: String = word.chars().take(word.len() - 1).collect();
    let last = word.chars().last().unwrap_or('x');
    match random.below(6) {
        0 => question.under(&shorter),
        1 => question.under(&format!("{word}{last}")),
        2 => question.under(&format!("{word}1")),
        3 => question.under(&format!("{word}{word}")),
        4 => question.under("hello"),
        _ => question.under("?"),
    }
}

fn other_case(random: &mut Random, question: &Question) -> Vec<u8> {
    let (first, rest) = question.word.split_at(1);
    match random.below(3) {
        0 => question.under(&question.word.to_uppercase()),
        1 => question.under(&format!("{}{rest}", first.to_uppercase())),
        _ => question.under(&format!("{first}{}", rest.to_uppercase())),
    }
}

/// Only these words get a star: others with one may be questions one day.
const STARRED: &[&str] = &[
    "verdict*", "owner*", "place*", "write*", "block*", "carry*", "plan*",
];

/// The word without its star, or with one, before the numbers of the other.
fn other_star(_: &mut Random, question: &Question) -> Vec<u8> {
    let starred = format!("{}*", question.word);
    match question.word.strip_suffix('*') {
        Some(plain) => question.under(plain),
        None if STARRED.contains(&&starred[..]) => question.under(&starred),
        None => question.under("*"),
    }
}

fn too_few(random: &mut Random, question: &Question) -> Vec<u8> {
    let mut numbers = question.numbers.clone();
    numbers.remove(random.index(numbers.len()));
    question.joined(question.word, &numbers)
}

fn too_many(random: &mut Random, question: &Question) -> Vec<u8> {
    let mut numbers = question.numbers.clone();
    let number = if random.once_in(2) {
        "0".to_string()
    } else {
        random.hostile().to_string()
    };
    numbers.insert(random.index(numbers.len() + 1), number);
    question.joined(question.word, &numbers)
}

fn twenty_one_digits(random: &mut Random, question: &Question) -> Vec<u8> {
    let low = random.below(1_000_000_000_000_000_000);
    let first = random.pick(&["0", "1", "9", "18"]);
    question.changed(random, |_| {
        format!("{first}{low:0>width$}", width = 21 - first.len())
    })
}

/// 20 digits on both sides of 2^64; the first two are numbers.
fn near_two_to_the_64(random: &mut Random, question: &Question) -> Vec<u8> {
    let number = random.pick(&[
        "18446744073709551614",
        "18446744073709551615",
        "18446744073709551616",
        "18446744073709551617",
        "18446744073709551625",
        "18446744073709551700",
        "18446744073709552000",
        "18446744078004518913",
        "28446744073709551615",
        "36893488147419103232",
        "99999999999999999999",
    ]);
    question.changed(random, |_| number.to_string())
}

fn signed(random: &mut Random, question: &Question) -> Vec<u8> {
    let sign = random.pick(&["-", "+"]);
    question.changed(random, |number| format!("{sign}{number}"))
}

fn decimal_point(random: &mut Random, question: &Question) -> Vec<u8> {
    let tail = random.pick(&[".", ".0", ".5", ",0", "e0"]);
    question.changed(random, |number| format!("{number}{tail}"))
}

fn inserted(random: &mut Random, line: &[u8], byte: u8) -> Vec<u8> {
    let at = random.index(line.len() + 1);
    [&line[..at], &[byte], &line[at..]].concat()
}

fn high_byte(random: &mut Random, question: &Question) -> Vec<u8> {
    let byte = random.between(0x80, 0xff) as u8;
    inserted(random, &question.bytes(), byte)
}

fn letter_in_number(random: &mut Random, question: &Question) -> Vec<u8> {
    let letter = char::from(random.pick(b"aAbfoOlIxzZ_:/'\"#%&*()[]{}<>=!;"));
    let front = random.once_in(2);
    question.changed(random, |number| match front {
        true => format!("{letter}{number}"),
        false => format!("{number}{letter}"),
    })
}

fn unparted(_: &mut Random, question: &Question) -> Vec<u8> {
    [
        question.word.as_bytes(),
        question.numbers.join(" ").as_bytes(),
    ]
    .concat()
}

fn other_separator(random: &mut Random, question: &Question) -> Vec<u8> {
    let by = random.pick(&[
        &b","[..],
        b", ",
        b";",
        b"  ",
        b"\r",
        b"\x0b",
        b"\xc2\xa0",
        b"\0",
    ]);
    question.parted(random, by)
}

fn word_after_a_number(_: &mut Random, question: &Question) -> Vec<u8> {
    let (first, rest) = question.numbers.split_at(1);
    [first, &[question.word.to_string()], rest]
        .concat()
        .join(" ")
        .into_bytes()
}

fn control_byte(random: &mut Random, question: &Question) -> Vec<u8> {
    let byte = random.pick(&[1, 7, 8, 9, 11, 12, 13, 26, 27, 31, 127]);
    inserted(random, &question.bytes(), byte)
}

/// Cut anywhere; inside the last number it is still a question.
fn cut_short(random: &mut Random, question: &Question) -> Vec<u8> {
    let line = question.bytes();
    line[..random.index(line.len())].to_vec()
}

/// Digits of another script.
fn other_digits(random: &mut Random, question: &Question) -> Vec<u8> {
    let zero = random.pick(&['\u{0660}', '\u{ff10}', '\u{0966}']);
    question.changed(random, |number| {
        let other = |digit: char| char::from_u32(zero as u32 + digit as u32 - '0' as u32);
        number.chars().filter_map(other).collect()
    })
}

/// Any bytes, the line feed left out; capital letters after the first byte
/// make sure that no word can come of them.
fn any_bytes(random: &mut Random, _: &Question) -> Vec<u8> {
    let length = random.between(1, 40);
    let mut line = vec![random.pick(b"!\"#$%&'()*+,-./:;<=>?@ABCXYZ[]^_{}~\xff\xfe\x80\x01")];
    for _ in 0..length {
        let byte = random.next() as u8;
        line.push(if byte == b'\n' { b' ' } else { byte });
    }
    line
}

/// A question followed by what a reader that cuts lines would not see.
fn padded(random: &mut Random, question: &Question, length: usize) -> Vec<u8> {
    let mut line = question.bytes();
    let filling = random.pick(&[&b" "[..], b"0", b"9", b" 0", b"\r", b"\0", b"x"]);
    while line.len() < length {
        line.push(filling[line.len() % filling.len()]);
    }
    line
}

/// Nothing of sense in the first bytes, a question right behind them.
fn question_after_the_buffer(random: &mut Random, question: &Question) -> Vec<u8> {
    let length = random.around(LINE as u64) as usize;
    [vec![b'x'; length], question.bytes()].concat()
}

/// A question, spaces up to the longest line, and a question right behind.
fn question_on_both_sides(random: &mut Random, question: &Question) -> Vec<u8> {
    let mut line = question.bytes();
    line.resize(random.around(LINE as u64) as usize, b' ');
    [line, question.bytes()].concat()
}

#[cfg(test)]
mod tests {
    use super::*;
    use crate::lines::answer_line;
    use crate::verdict::MOST_ENTRIES;

    /// Whether reading the line and writing it anew gives the same line.
    fn still_a_question(line: &[u8]) -> bool {
        let text = String::from_utf8_lossy(line).into_owned();
        let numbers: Vec<u64> = text
            .split(' ')
            .filter_map(|piece| piece.parse().ok())
            .collect();
        numbers.len() == 4 && Question::new("swizzle", &numbers).bytes() == line
    }

    #[test]
    fn spoiled_lines_are_no_questions_unless_they_read_alike() {
        let mut random = Random::new(9);
        for kind in SHORT_KINDS.iter().chain(LONG_KINDS) {
            for _ in 0..200 {
                let question = Question::new("swizzle", &[3, 2, 5, 77]);
                let line = kind(&mut random, &question);
                assert!(!line.contains(&b'\n'));
                let unknown = answer_line(&line, MOST_ENTRIES).as_deref() == Some("?");
                let fine = line.is_empty() || unknown != still_a_question(&line);
                assert!(fine, "{}", String::from_utf8_lossy(&line));
            }
        }
    }

    #[test]
    fn long_lines_are_longer_than_any_question() {
        let mut random = Random::new(10);
        for kind in LONG_KINDS {
            let line = kind(&mut random, &Question::new("swizzle", &[3, 3, 3, 64]));
            assert!(line.len() >= LINE);
            assert_eq!(answer_line(&line, MOST_ENTRIES).as_deref(), Some("?"));
        }
    }
}
