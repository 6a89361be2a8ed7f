//! The words of the protocol, in the order in which they arrived, and which
//! program answers them.

use crate::bank;
use crate::book;
use crate::canonical;
use crate::fragment;
use crate::layout::{self, Marks, NO_MARKS};
use crate::lines::{plain, Answer, Number};
use crate::mask;
use crate::mma;
use crate::notation;
use crate::plans;
use crate::swizzle;
use crate::values;
use crate::verdict;

/// Above this, MARKS is past what the programs take.
const MOST_MARKS: Number = 255;

/// How many numbers follow a word.
#[derive(Clone, Copy)]
pub enum Count {
    Just(usize),
    /// So many and more, of which one of these says how many.
    AtLeast(usize),
}

use Count::{AtLeast, Just};

impl Count {
    pub fn admits(self, count: usize) -> bool {
        match self {
            Just(number) => count == number,
            AtLeast(number) => count >= number,
        }
    }
}

/// The marks of which bit k marks shard iter k, and the numbers after MARKS.
fn marked(numbers: &[Number]) -> Option<(Marks, &[Number])> {
    let (marks, rest) = numbers.split_first()?;
    let bit = |k: usize| marks >> k & 1 == 1;
    let permitted = (0..=MOST_MARKS).contains(marks);
    permitted.then(|| (std::array::from_fn(bit), rest))
}

/// The same of two cards, whose MARKS follow each other.
fn both_marked(numbers: &[Number]) -> Option<([Marks; 2], &[Number])> {
    let (first, rest) = marked(numbers)?;
    let (second, rest) = marked(rest)?;
    Some(([first, second], rest))
}

pub struct Word {
    pub name: &'static str,
    pub count: Count,
    /// The answer to so many numbers, with so many entries at most lent to a
    /// table; none where a number breaks the program's own limit or is below
    /// zero where it may not be, or where the count is another than a number
    /// says.
    pub answer: fn(&[Number], u64) -> Option<Answer>,
}

/// The words that both programs answer.
pub const WORDS: &[Word] = &[
    Word {
        name: "swizzle",
        count: Just(4),
        answer: |numbers, _| swizzle::answer_swizzle(&plain(numbers)?),
    },
    Word {
        name: "mode",
        count: Just(2),
        answer: |numbers, _| swizzle::answer_mode(&plain(numbers)?),
    },
    Word {
        name: "fragment",
        count: Just(3),
        answer: |numbers, _| fragment::answer_fragment(&plain(numbers)?),
    },
    Word {
        name: "holder",
        count: Just(4),
        answer: |numbers, _| fragment::answer_holder(&plain(numbers)?),
    },
    Word {
        name: "fields",
        count: Just(1),
        answer: |numbers, _| mask::answer_fields(&plain(numbers)?),
    },
    Word {
        name: "descriptor",
        count: Just(13),
        answer: |numbers, _| mask::answer_descriptor(&plain(numbers)?),
    },
    Word {
        name: "mask",
        count: Just(4),
        answer: |numbers, _| mask::answer_mask(&plain(numbers)?),
    },
    Word {
        name: "place",
        count: Just(76),
        answer: |numbers, _| layout::answer_place(NO_MARKS, numbers),
    },
    Word {
        name: "verdict",
        count: Just(58),
        answer: |numbers, most| verdict::answer_verdict(NO_MARKS, numbers, most),
    },
    Word {
        name: "owner",
        count: Just(66),
        answer: |numbers, most| verdict::answer_owner(NO_MARKS, numbers, most),
    },
    Word {
        name: "stretch",
        count: Just(18),
        answer: |numbers, most| verdict::answer_stretch(&plain(numbers)?, most),
    },
    Word {
        name: "verdict*",
        count: Just(59),
        answer: |numbers, most| {
            let (marks, numbers) = marked(numbers)?;
            verdict::answer_verdict(marks, numbers, most)
        },
    },
    Word {
        name: "owner*",
        count: Just(67),
        answer: |numbers, most| {
            let (marks, numbers) = marked(numbers)?;
            verdict::answer_owner(marks, numbers, most)
        },
    },
    Word {
        name: "place*",
        count: Just(77),
        answer: |numbers, _| {
            let (marks, numbers) = marked(numbers)?;
            layout::answer_place(marks, numbers)
        },
    },
    Word {
        name: "bank",
        count: Just(2),
        answer: |numbers, _| bank::answer_bank(&plain(numbers)?),
    },
    Word {
        name: "write",
        count: Just(47),
        answer: |numbers, _| notation::answer_write(NO_MARKS, numbers),
    },
    Word {
        name: "write*",
        count: Just(48),
        answer: |numbers, _| {
            let (marks, numbers) = marked(numbers)?;
            notation::answer_write(marks, numbers)
        },
    },
    Word {
        name: "canonical",
        count: Just(9),
        answer: |numbers, most| canonical::answer_canonical(&plain(numbers)?, most),
    },
    Word {
        name: "block",
        count: Just(60),
        answer: |numbers, _| book::answer_block(NO_MARKS, numbers),
    },
    Word {
        name: "block*",
        count: Just(61),
        answer: |numbers, _| {
            let (marks, numbers) = marked(numbers)?;
            book::answer_block(marks, numbers)
        },
    },
    Word {
        name: "carry",
        count: AtLeast(117),
        answer: |numbers, most| plans::answer_carry([NO_MARKS; 2], numbers, most),
    },
    Word {
        name: "plan",
        count: Just(117),
        answer: |numbers, most| plans::answer_plan([NO_MARKS; 2], numbers, most),
    },
    Word {
        name: "carry*",
        count: AtLeast(119),
        answer: |numbers, most| {
            let (marks, numbers) = both_marked(numbers)?;
            plans::answer_carry(marks, numbers, most)
        },
    },
    Word {
        name: "plan*",
        count: Just(119),
        answer: |numbers, most| {
            let (marks, numbers) = both_marked(numbers)?;
            plans::answer_plan(marks, numbers, most)
        },
    },
    Word {
        name: "mma",
        count: Just(4),
        answer: |numbers, _| mma::answer_mma(&plain(numbers)?),
    },
    Word {
        name: "mma-holder",
        count: Just(4),
        answer: |numbers, _| mma::answer_holder(&plain(numbers)?),
    },
    Word {
        name: "mma-layout",
        count: Just(1),
        answer: |numbers, _| mma::answer_layout(&plain(numbers)?),
    },
];

/// A word after which a text comes in the place of numbers: all that follows
/// one space, of any bytes.
pub struct TextWord {
    pub name: &'static str,
    /// The answer to a text; none past the program's own limit.
    pub answer: fn(&[u8]) -> Option<Answer>,
}

/// The words with a text, which both programs answer.
pub const TEXT_WORDS: &[TextWord] = &[
    TextWord {
        name: "read",
        answer: notation::answer_read,
    },
    TextWord {
        name: "page",
        answer: book::answer_page,
    },
];

/// The words about values, whose bits only the C client moves.
pub const VALUE_WORDS: &[Word] = &[
    Word {
        name: "deal",
        count: Just(6),
        answer: |numbers, _| values::answer_deal(&plain(numbers)?),
    },
    Word {
        name: "collect",
        count: Just(7),
        answer: |numbers, _| values::answer_collect(&plain(numbers)?),
    },
    Word {
        name: "deal-f64",
        count: Just(6),
        answer: |numbers, _| values::answer_deal_f64(&plain(numbers)?),
    },
    Word {
        name: "collect-f64",
        count: Just(5),
        answer: |numbers, _| values::answer_collect_f64(&plain(numbers)?),
    },
];

/// The words whose lent table is printed whole for who asks for tables.
pub const TABLE_WORDS: &[Word] = &[
    Word {
        name: "verdict",
        count: Just(58),
        answer: |numbers, most| verdict::whole_verdict(NO_MARKS, numbers, most),
    },
    Word {
        name: "owner",
        count: Just(66),
        answer: |numbers, most| verdict::whole_owner(NO_MARKS, numbers, most),
    },
    Word {
        name: "verdict*",
        count: Just(59),
        answer: |numbers, most| {
            let (marks, numbers) = marked(numbers)?;
            verdict::whole_verdict(marks, numbers, most)
        },
    },
    Word {
        name: "owner*",
        count: Just(67),
        answer: |numbers, most| {
            let (marks, numbers) = marked(numbers)?;
            verdict::whole_owner(marks, numbers, most)
        },
    },
];

/// What each program answers; of two words with one name the first counts.
pub const DESK: &[&[Word]] = &[WORDS];
pub const CLIENT: &[&[Word]] = &[WORDS, VALUE_WORDS];
pub const TABLES: &[&[Word]] = &[TABLE_WORDS, WORDS];

/// For the tests: the numbers that the answers to the words about values can
/// have.
#[cfg(test)]
pub const VALUE_NUMBERS: &[(&str, &[u64])] = &[
    ("deal", &[0, 14]),
    ("collect", &[0, 14]),
    ("deal-f64", &[0, 14]),
    ("collect-f64", &[0, 14]),
];

/// For the tests: the numbers that a word's answers can have.
#[cfg(test)]
pub const NUMBERS: &[(&str, &[u64])] = &[
    ("swizzle", &[0, 6]),
    ("mode", &[0, 6]),
    ("fragment", &[0, 14]),
    ("holder", &[0, 14]),
    ("fields", &[0, 15]),
    ("descriptor", &[0, 13, 16]),
    ("mask", &[0, 11, 13, 15, 16]),
    ("place", &[0, 1, 2, 3, 4, 5, 6, 7, 9, 10, 11, 17]),
    ("verdict", &[0, 1, 2, 3, 4, 5, 6, 7, 8, 11, 17]),
    ("owner", &[0, 1, 2, 3, 4, 5, 6, 7, 8, 11, 12, 17]),
    ("stretch", &[0, 3, 4, 11, 12]),
    ("verdict*", &[0, 1, 2, 3, 4, 5, 6, 7, 8, 11, 17]),
    ("owner*", &[0, 1, 2, 3, 4, 5, 6, 7, 8, 11, 12, 17]),
    ("place*", &[0, 1, 2, 3, 4, 5, 6, 7, 9, 10, 11, 17]),
    ("bank", &[0, 6, 10]),
    ("write", &[0, 1, 2, 3, 11]),
    ("write*", &[0, 1, 2, 3, 11]),
    ("canonical", &[0, 2, 4, 5, 6, 7, 8, 11, 22]),
    ("read", &[0, 18]),
    ("block", &[0, 1, 2, 3, 4, 5, 6, 11, 20]),
    ("block*", &[0, 1, 2, 3, 4, 5, 6, 11, 20]),
    ("page", &[0, 1, 11, 19, 20]),
    ("carry", &[0, 1, 2, 3, 4, 5, 6, 7, 8, 9, 11, 17, 21]),
    ("plan", &[0, 1, 2, 3, 4, 5, 6, 7, 8, 9, 11, 17, 23]),
    ("carry*", &[0, 1, 2, 3, 4, 5, 6, 7, 8, 9, 11, 17, 21]),
    ("plan*", &[0, 1, 2, 3, 4, 5, 6, 7, 8, 9, 11, 17, 23]),
    ("mma", &[0, 14]),
    ("mma-holder", &[0, 14]),
    ("mma-layout", &[0, 14]),
];

#[cfg(test)]
mod tests {
    use crate::lines::says;

    /// A card of three iters of which the second stands still.
    const CARD: &str = "3 2 2 7 2 0 7 2 1 7 0 0 0 0 0 0 0 0 0 0 0 0 0 0 0 \
                        0 0 0 0 0 0 0 0 0 0 0 0 0 0 0 0 0 0 0 0 0 1 1 1 1 1 1 1 4 0 0 3";

    #[test]
    fn bits_of_marks() {
        let line = |marks: &str| format!("verdict* {marks} {CARD} 4");
        for (marks, wanted) in [
            ("0", "8 0 2 0 | 0"),
            ("1", "2 0 0 0 | 10000020"),
            ("2", "0 8 4 4 | 44"),
            ("3", "2 0 0 0 | 10000020"),
            ("4", "2 0 0 0 | 10000020"),
            ("248", "8 0 2 0 | 0"),
            ("250", "0 8 4 4 | 44"),
            ("255", "2 0 0 0 | 10000020"),
        ] {
            says(&line(marks), wanted);
        }
        for marks in [
            "256",
            "258",
            "4294967298",
            "18446744073709551615",
            "-2",
            "02",
            "+2",
        ] {
            says(&line(marks), "?");
        }
    }

    #[test]
    fn words_with_a_star() {
        says(&format!("verdict {CARD} 4"), "8 0 2 0 | 0");
        says(
            &format!("owner* 2 {CARD} 0 0 0 0 0 0 0 2 4"),
            "0 5 0 0 | 44",
        );
        says(
            &format!("place* 2 {CARD} 1 8 0 0 0 0 0 0 0 1 7 0 0 0 0 0 0 0 1"),
            "0 1 0 0 | 3",
        );
        says(
            &format!("place* 3 {CARD} 1 8 0 0 0 0 0 0 0 1 7 0 0 0 0 0 0 0 1"),
            "2 0 0 0 | 1000000",
        );
        for word in [
            "verdict",
            "verdict**",
            "*verdict",
            "verdict *",
            "VERDICT*",
            "write*",
            "*",
        ] {
            says(&format!("{word} 2 {CARD} 4"), "?");
        }
        says(&format!("verdict* {CARD} 4"), "?");
        says(&format!("stretch* 2 {CARD} 4"), "?");
    }
}
