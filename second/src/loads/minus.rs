//! Lines with a minus: before any number, of which only strides and offsets
//! may have one, and in spellings of which few are numbers.

use super::malformed::Question;
use super::random::Random;

/// What may stand in the place of a stride or an offset, and what may not.
const SPELLINGS: &[&str] = &[
    "-1",
    "-0",
    "-00",
    "-01",
    "-",
    "--1",
    "-+1",
    "+-1",
    "+1",
    "1-",
    "-1-",
    "- 1",
    "-1.0",
    "-0x1",
    "\u{2212}1",
    "-65536",
    "-65537",
    "65535",
    "65536",
    "-9223372036854775807",
    "-9223372036854775808",
    "-9223372036854775809",
    "-09223372036854775808",
    "-9999999999999999999",
    "-10000000000000000000",
    "-18446744073709551615",
    "-18446744073709551616",
    "-99999999999999999999",
    "9223372036854775807",
    "9223372036854775808",
    "18446744073709551615",
    "18446744073709551616",
];

/// So many numbers have a card before its lengths. Questions without a card
/// have fewer numbers.
const BEFORE_LENGTHS: usize = 46;

/// Where a card's strides and offsets stand.
fn signed_places() -> Vec<usize> {
    let shard = (2..=23).step_by(3);
    let replica = (27..=36).step_by(3);
    shard.chain(replica).chain(38..46).collect()
}

/// Where the cards of a question begin, after MARKS; for questions that have
/// one.
fn cards_at(word: &str) -> &'static [usize] {
    match word {
        "carry" | "plan" => &[0, 57],
        "carry*" | "plan*" => &[2, 59],
        _ if word.ends_with('*') => &[1],
        _ => &[0],
    }
}

/// The number with a minus; a 1 in the place of 0, since `-0` is no number
/// anywhere.
fn negated(number: &str) -> String {
    match number {
        "0" => "-1".to_string(),
        _ => format!("-{number}"),
    }
}

/// A minus before some number of a question, or some spelling in the place
/// of a number: of a stride or an offset, if it is a question about a card.
pub fn misspelt(random: &mut Random, question: &Question) -> Vec<u8> {
    let any = random.index(question.numbers.len());
    if random.once_in(2) {
        return question.with(any, &negated(&question.numbers[any]));
    }
    let place = match question.numbers.len() > BEFORE_LENGTHS {
        true => random.pick(&signed_places()) + random.pick(cards_at(question.word)),
        false => any,
    };
    question.with(place, random.pick(SPELLINGS))
}

#[cfg(test)]
mod tests {
    use super::*;
    use crate::layout::Card;
    use crate::lines::{answer_line, NO_QUESTION};
    use crate::loads::cards::tile_x;
    use crate::loads::signed::turn_some;
    use crate::verdict::MOST_ENTRIES;

    /// A question of each word that has neither strides nor offsets.
    const PLAIN: &[&str] = &[
        "swizzle 3 3 3 64",
        "mode 16 3",
        "fragment 5 5 6",
        "holder 5 1 3 4",
        "fields 847173709201408",
        "descriptor 64 1 1 1 1 1 1 1 1 1 2 3 32",
        "mask 128 16 847173709201408 2",
        "stretch 1 11 32 1 1 1 1 2 1 1 6 9 1 1 1 1 1 704",
        "bank 16 72",
        "canonical 1 1 16 2 2 256 512 512 512",
        "mma 37 3 31 7",
        "mma-holder 45 3 7 7",
        "mma-layout 1256",
    ];

    fn plain_questions() -> Vec<Question<'static>> {
        let question = |line: &&'static str| {
            let (word, numbers) = line.split_once(' ').unwrap_or((line, ""));
            Question::new(word, &Vec::from_iter(numbers.split(' ')))
        };
        PLAIN.iter().map(question).collect()
    }

    /// A question of each of a card's words on tile X, turned round, or on two
    /// of them, and where the cards begin.
    fn card_questions() -> [(Question<'static>, &'static [usize]); 14] {
        let mut card = tile_x();
        turn_some(&mut Random::new(0), &mut card, 1);
        let question = |word: &'static str, marks: &[i128], rest: &[i128]| {
            let own = match word.starts_with("write") {
                true => BEFORE_LENGTHS,
                false => Card::NUMBERS,
            };
            let numbers = [marks, &card.numbers()[..own], rest].concat();
            let at: &[usize] = if marks.is_empty() { &[0] } else { &[1] };
            (Question::new(word, &numbers), at)
        };
        let two = |word: &'static str, marks: &[i128], rest: &[i128]| {
            let card = &card.numbers()[..];
            let at: &[usize] = if marks.is_empty() { &[0, 57] } else { &[2, 59] };
            let numbers = [marks, card, card, rest].concat();
            (Question::new(word, &numbers), at)
        };
        let spot = [2, 8, 16, 1, 1, 1, 1, 1, 1, 2, 7, 15, 1, 1, 1, 1, 1, 1, 2];
        let asked = [0, 9, 31, 0, 0, 0, 0, 1, 704];
        [
            question("verdict", &[], &[704]),
            question("owner", &[], &asked),
            question("place", &[], &spot),
            question("verdict*", &[1], &[704]),
            question("owner*", &[1], &asked),
            question("place*", &[1], &spot),
            question("write", &[], &[100]),
            question("write*", &[1], &[100]),
            question("block", &[], &[1, 1, 512]),
            question("block*", &[1], &[1, 1, 512]),
            two("carry", &[], &[3, 5, 6, 7, 704, 705]),
            two("plan", &[], &[600, 704, 705]),
            two("carry*", &[1, 16], &[4, 5, 6, 7, 8, 704, 705]),
            two("plan*", &[16, 1], &[600, 704, 705]),
        ]
    }

    fn unknown(line: &[u8]) -> bool {
        answer_line(line, MOST_ENTRIES).as_deref() == Some(NO_QUESTION)
    }

    #[test]
    fn only_strides_and_offsets_may_be_below_zero() {
        for question in plain_questions() {
            assert!(!unknown(&question.bytes()));
            for at in 0..question.numbers.len() {
                assert!(unknown(&question.with(at, "-1")), "{} {at}", question.word);
            }
        }
        for (question, cards) in card_questions() {
            assert_eq!(cards, cards_at(question.word));
            assert!(!unknown(&question.bytes()));
            for at in 0..question.numbers.len() {
                let within = |card: &usize| at >= *card && signed_places().contains(&(at - card));
                let allowed = cards.iter().any(within);
                let line = question.with(at, "-1");
                assert_eq!(unknown(&line), !allowed, "{} {at}", question.word);
            }
        }
    }

    #[test]
    fn signs_stand_at_twelve_strides_and_eight_offsets() {
        let places: Vec<usize> = (0..100).filter(|at| Card::signed_at(*at)).collect();
        assert_eq!(places, signed_places());
        assert_eq!(places.last(), Some(&(BEFORE_LENGTHS - 1)));
    }

    #[test]
    fn these_spellings_are_numbers() {
        let [(question, _), ..] = card_questions();
        let past_the_count = |spelling: &&&str| !unknown(&question.with(23, spelling));
        let numbers: Vec<&&str> = SPELLINGS.iter().filter(past_the_count).collect();
        let wanted = [
            "-1",
            "-65536",
            "-65537",
            "65535",
            "65536",
            "-9223372036854775807",
            "-9223372036854775808",
            "9223372036854775807",
            "9223372036854775808",
            "18446744073709551615",
        ];
        assert_eq!(numbers, Vec::from_iter(&wanted));
    }
}
