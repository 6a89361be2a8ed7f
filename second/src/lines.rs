//! The line protocol: splitting the input, the rule for numbers, and how an
//! answer is printed.

use crate::words::{Word, CLIENT, DESK, TABLES, TEXT_WORDS};
use std::fmt::Write;

/// A line of more bytes than this is no question.
const LONGEST_LINE: usize = 4096;

/// What is said to a line that is no question.
pub const NO_QUESTION: &str = "?";

/// A number and three details, and where the question lends memory or gives a
/// record, the values that follow the bar.
#[derive(Clone, Debug, PartialEq, Eq)]
pub struct Answer {
    pub number: u64,
    pub details: [u64; 3],
    pub after_bar: Option<Vec<String>>,
}

impl Answer {
    /// An answer of a question that lends nothing.
    pub fn plain(number: u64, details: [u64; 3]) -> Answer {
        Answer {
            number,
            details,
            after_bar: None,
        }
    }

    /// An answer with these values after the bar.
    pub fn beside(number: u64, details: [u64; 3], values: &[impl ToString]) -> Answer {
        Answer {
            number,
            details,
            after_bar: Some(values.iter().map(ToString::to_string).collect()),
        }
    }

    /// `N A B C`, and after a bar the values, each after a space.
    pub fn print(&self) -> String {
        let [a, b, c] = self.details;
        let mut text = format!("{} {} {} {}", self.number, a, b, c);
        if let Some(values) = &self.after_bar {
            text.push_str(" |");
            for value in values {
                // Writing into a string cannot fail.
                let _ = write!(text, " {value}");
            }
        }
        text
    }
}

/// A digest is given modulo this.
const DIGEST_MODULUS: u128 = 4_294_967_291;

/// The sum of (i + 1) times entry i. Entries below 2^66, of which there are
/// fewer than 2^30, are far from the end of 128 bits.
pub fn digest<Entry: Copy + Into<u128>>(entries: &[Entry]) -> u64 {
    let weighed = |(i, entry): (usize, &Entry)| (i as u128 + 1) * (*entry).into();
    let sum: u128 = entries.iter().enumerate().map(weighed).sum();
    (sum % DIGEST_MODULUS) as u64
}

/// A number as it stands on a line: from -2^63 to 2^64 - 1.
pub type Number = i128;

/// 1 to 20 digits, no leading zero but `0` itself, below 2^64.
pub fn number(text: &[u8]) -> Option<u64> {
    let digits_only = text.iter().all(|byte| byte.is_ascii_digit());
    let leading_zero = text.len() > 1 && text[0] == b'0';
    if text.is_empty() || text.len() > 20 || !digits_only || leading_zero {
        return None;
    }
    // Twenty digits stay below 10^20, far inside 128 bits.
    let value = text
        .iter()
        .fold(0u128, |value, digit| value * 10 + u128::from(digit - b'0'));
    u64::try_from(value).ok()
}

/// The same, or a minus and then such a number from 1 to 2^63. Whether a
/// number may be below zero where it stands is for the question to say.
fn signed_number(text: &[u8]) -> Option<Number> {
    match text.strip_prefix(b"-") {
        None => number(text).map(Number::from),
        Some(digits) => number(digits)
            .filter(|size| (1..=1 << 63).contains(size))
            .map(|size| -Number::from(size)),
    }
}

/// Numbers none of which may be below zero.
pub fn plain(numbers: &[Number]) -> Option<Vec<u64>> {
    let plain = |number: &Number| u64::try_from(*number).ok();
    numbers.iter().map(plain).collect()
}

/// Plain numbers as they stand on a line.
pub fn whole(numbers: &[u64]) -> Vec<Number> {
    numbers.iter().copied().map(Number::from).collect()
}

/// The words that a program answers.
type Words = &'static [&'static [Word]];

/// The word and the numbers of a line, if it is a question with numbers.
fn question(line: &[u8], words: Words) -> Option<(&'static Word, Vec<Number>)> {
    // Splitting at every single space leaves an empty piece wherever there is
    // one space too many, and an empty piece is no number.
    let mut pieces = line.split(|byte| *byte == b' ');
    let name = pieces.next()?;
    let mut words = words.iter().copied().flatten();
    let word = words.find(|word| word.name.as_bytes() == name)?;
    let numbers = pieces.map(signed_number).collect::<Option<Vec<_>>>()?;
    let admitted = word.count.admits(numbers.len());
    admitted.then_some((word, numbers))
}

/// The answer to a question with a text, if the line is one: all that follows
/// the one space after the word is the text, whatever bytes it has.
fn text_answer(line: &[u8]) -> Option<Answer> {
    let space = line.iter().position(|byte| *byte == b' ')?;
    let (name, text) = (&line[..space], &line[space + 1..]);
    let mut words = TEXT_WORDS.iter();
    let word = words.find(|word| word.name.as_bytes() == name)?;
    (word.answer)(text)
}

/// The answer to a question, if the line is one.
fn answer_question(words: Words, line: &[u8], most: u64) -> Option<Answer> {
    if line.len() > LONGEST_LINE {
        return None;
    }
    // No word is of both sorts, so a line that is none of the one sort may be
    // tried as the other.
    text_answer(line).or_else(|| {
        let (word, numbers) = question(line, words)?;
        (word.answer)(&numbers, most)
    })
}

/// The answer of the program with these words to one line without its line
/// feed; an empty line gets none.
fn answer_among(words: Words, line: &[u8], most: u64) -> Option<String> {
    if line.is_empty() {
        return None;
    }
    Some(match answer_question(words, line, most) {
        Some(answer) => answer.print(),
        None => NO_QUESTION.to_string(),
    })
}

/// What a program says to one line, with so many entries at most lent to a
/// table.
pub type AnswerLine = fn(&[u8], u64) -> Option<String>;

/// What `desk` says to one line.
pub fn answer_line(line: &[u8], most: u64) -> Option<String> {
    answer_among(DESK, line, most)
}

/// What `desk` says to one line, with whole tables in the place of the digests
/// of a verdict and of an owner.
pub fn tables_answer_line(line: &[u8], most: u64) -> Option<String> {
    answer_among(TABLES, line, most)
}

/// What the C client says to one line.
pub fn client_answer_line(line: &[u8], most: u64) -> Option<String> {
    answer_among(CLIENT, line, most)
}

/// The answers of a program to a whole input, each ending in a line feed.
pub fn answers_of(
    program: AnswerLine,
    input: &[u8],
    most: u64,
) -> impl Iterator<Item = String> + '_ {
    // What follows the last line feed is a line if there is anything in it;
    // if there is nothing it counts as an empty line, which gets no answer.
    input
        .split(|byte| *byte == b'\n')
        .filter_map(move |line| program(line, most))
        .map(|mut text| {
            text.push('\n');
            text
        })
}

#[cfg(test)]
use crate::verdict::MOST_ENTRIES;

/// For the tests: what `desk` says to a whole input.
#[cfg(test)]
pub fn answers(input: &[u8], most: u64) -> impl Iterator<Item = String> + '_ {
    answers_of(answer_line, input, most)
}

/// For the tests: a line has this answer.
#[cfg(test)]
pub fn says(line: &str, answer: &str) {
    assert_eq!(
        answer_line(line.as_bytes(), MOST_ENTRIES).as_deref(),
        Some(answer),
        "{line}"
    );
}

/// For the tests: the client has this answer to a line.
#[cfg(test)]
pub fn client_says(line: &str, answer: &str) {
    assert_eq!(
        client_answer_line(line.as_bytes(), MOST_ENTRIES).as_deref(),
        Some(answer),
        "{line}"
    );
}

/// For the tests: how often each number stands in the client's answers to
/// lines; where `desk` has one it is the same.
#[cfg(test)]
pub fn reached(lines: &[u8], most: u64) -> std::collections::BTreeMap<u64, u64> {
    let number = |text: String| text.split(' ').next()?.parse().ok();
    let mut reached = std::collections::BTreeMap::new();
    for number in answers_of(client_answer_line, lines, most).filter_map(number) {
        *reached.entry(number).or_default() += 1;
    }
    reached
}

#[cfg(test)]
mod tests {
    use super::*;
    use crate::loads::random::Random;
    use crate::words::Count;

    fn all(input: &[u8]) -> String {
        answers(input, MOST_ENTRIES).collect()
    }

    #[test]
    fn numbers_follow_the_rule() {
        assert_eq!(number(b"0"), Some(0));
        assert_eq!(number(b"18446744073709551615"), Some(u64::MAX));
        let refused: [&[u8]; 10] = [
            b"",
            b"00",
            b"01",
            b"18446744073709551616",
            b"99999999999999999999",
            b"100000000000000000000",
            b"00000000000000000001",
            b"+1",
            b"0x1",
            b"1.0",
        ];
        for text in refused {
            assert_eq!(number(text), None, "{text:?}");
        }
    }

    #[test]
    fn a_minus_stands_before_a_number_that_is_not_0() {
        assert_eq!(signed_number(b"-1"), Some(-1));
        assert_eq!(signed_number(b"18446744073709551615"), Some((1 << 64) - 1));
        assert_eq!(signed_number(b"-9223372036854775808"), Some(-1 << 63));
        let refused: [&[u8]; 12] = [
            b"-",
            b"-0",
            b"-00",
            b"-01",
            b"--1",
            b"-+1",
            b"+1",
            b"1-",
            b"-9223372036854775809",
            b"-18446744073709551615",
            b"-99999999999999999999",
            b"-100000000000000000000",
        ];
        for text in refused {
            assert_eq!(signed_number(text), None, "{text:?}");
        }
    }

    #[test]
    fn digests() {
        assert_eq!(digest::<u64>(&[]), 0);
        assert_eq!(digest(&[5u64, 7]), 19);
        assert_eq!(digest(&[4_294_967_291u64, 1]), 2);
        assert_eq!(digest(&[165u8; 3]), 990);
        assert_eq!(digest(&[3 * u128::from(u64::MAX) + 2]), 74);
    }

    #[test]
    fn tables_are_printed_whole() {
        let layout = "1 4 -1 7 0 0 0 0 0 0 0 0 0 0 0 0 0 0 0 0 0 0 0 0 0 \
                      0 0 0 0 0 0 0 0 0 0 0 0 0 0 0 0 0 0 0 0 3 1 1 1 1 1 1 1 4 0 0 3";
        let says = |line: String, wanted: &str| {
            let said = tables_answer_line(line.as_bytes(), MOST_ENTRIES);
            assert_eq!(said.as_deref(), Some(wanted), "{line}");
        };
        says(format!("verdict {layout} 5"), "0 4 4 4 | 4 3 2 1 1000004");
        says(format!("verdict* 0 {layout} 4"), "0 4 4 4 | 4 3 2 1");
        says(format!("verdict {layout} 0"), "11 4 0 0 |");
        says(
            format!("owner {layout} 0 0 0 0 0 0 0 1 4"),
            "0 3 0 0 | 4 3 2 1",
        );
        says(
            format!("owner* 1 {layout} 0 0 0 0 0 0 0 1 1"),
            "2 0 0 0 | 1000000",
        );
        says("swizzle 3 3 3 64".to_string(), "0 72 0 0");
        says("deal 5 0 0 0 0 0".to_string(), "?");
    }

    #[test]
    fn lines_end_at_a_line_feed_and_a_last_one_counts() {
        assert_eq!(all(b""), "");
        assert_eq!(all(b"\n\n\n"), "");
        assert_eq!(all(b"swizzle 3 3 3 64"), "0 72 0 0\n");
        assert_eq!(all(b"swizzle 3 3 3 64\n"), "0 72 0 0\n");
        assert_eq!(all(b"\nhello\n\nswizzle 3 3 3 64\n\nx"), "?\n0 72 0 0\n?\n");
    }

    #[test]
    fn other_bytes_make_no_question() {
        let lines: [&[u8]; 12] = [
            b" swizzle 3 3 3 64",
            b"swizzle 3 3 3 64 ",
            b"swizzle 3  3 3 64",
            b"swizzle\t3 3 3 64",
            b"swizzle 3 3 3 64\r",
            b"swizzle 3 3 3 64\0",
            b"swizzle 3 3 3 6\xc3\xa4",
            b"swizzle 3 3 3",
            b"swizzle 3 3 3 64 0",
            b"swizzle",
            b" ",
            b"Swizzle 3 3 3 64",
        ];
        for line in lines {
            let said = answer_line(line, MOST_ENTRIES);
            assert_eq!(said.as_deref(), Some("?"), "{line:?}");
        }
    }

    #[test]
    fn long_lines_are_no_questions_and_do_not_disturb_the_next() {
        for length in [4095, 4096, 4097, 5000, 8192, 100_000] {
            let mut input = b"swizzle 3 3 3 64".to_vec();
            input.resize(length, b' ');
            input.extend(b"swizzle 3 3 3 64\nswizzle 3 3 3 72\n");
            assert_eq!(all(&input), "?\n0 64 0 0\n");
        }
    }

    #[test]
    fn no_bytes_make_it_panic() {
        let mut random = Random::new(0x6e6f_7061);
        for _ in 0..20_000 {
            let length = random.index(200);
            let bytes: Vec<u8> = (0..length).map(|_| random.next() as u8).collect();
            all(&bytes);
        }
    }

    #[test]
    fn no_numbers_make_it_panic() {
        let mut random = Random::new(0x6e75_6d62);
        for word in CLIENT.iter().copied().flatten() {
            for _ in 0..2_000 {
                let count = match word.count {
                    Count::Just(count) => count,
                    Count::AtLeast(count) => count + random.index(4),
                };
                let numbers: Vec<Number> = (0..count).map(|_| random.any_sign()).collect();
                (word.answer)(&numbers, MOST_ENTRIES);
            }
        }
    }
}
