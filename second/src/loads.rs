//! New lines: random ones over all the words, of one word, or of full size,
//! and lines over whole ranges. The lines that are kept are in `frozen`.

mod asked;
pub mod books;
mod canonical;
pub mod cards;
mod copies;
pub mod every;
mod full;
pub mod kinds;
mod larger;
mod limits;
mod malformed;
mod minus;
pub mod plans;
pub mod random;
pub mod reuse;
pub mod signed;
pub mod small;
pub mod texts;
pub mod values;

use crate::lines::Number;
use cards::random_card;
use copies::copied_card;
use malformed::{Question, LONG_KINDS, SHORT_KINDS};
use minus::misspelt;
use random::{seed_of, Random};
use reuse::{meeting_card, reused_card};
use signed::signed_card;

/// One line in so many is spoiled.
const SPOILED_ONE_IN: u64 = 6;

/// A word, and random numbers for a question of it.
type Maker = (&'static str, fn(&mut Random) -> Vec<Number>);

/// What random lines are made of; every word that both programs answer has a
/// maker.
const MAKERS: &[Maker] = &[
    ("swizzle", small::swizzle),
    ("mode", small::mode),
    ("fragment", small::fragment),
    ("holder", small::holder),
    ("fields", small::fields),
    ("descriptor", small::descriptor),
    ("mask", small::mask),
    ("place", |random| asked::place(random, random_card)),
    ("verdict", |random| asked::verdict(random, random_card)),
    ("owner", |random| asked::owner(random, random_card)),
    ("stretch", asked::stretch),
    ("place", signed::place),
    ("verdict", |random| asked::verdict(random, signed_card)),
    ("owner", |random| asked::owner(random, signed_card)),
    ("place", |random| asked::place(random, copied_card)),
    ("verdict", |random| asked::verdict(random, copied_card)),
    ("owner", |random| asked::owner(random, copied_card)),
    ("place", |random| asked::place(random, larger::card)),
    ("verdict", |random| asked::verdict(random, larger::card)),
    ("owner", |random| asked::owner(random, larger::card)),
    ("place*", |random| reuse::place(random, reused_card)),
    ("verdict*", |random| reuse::verdict(random, reused_card)),
    ("owner*", |random| reuse::owner(random, reused_card)),
    ("place*", |random| reuse::place(random, meeting_card)),
    ("verdict*", |random| reuse::verdict(random, meeting_card)),
    ("owner*", |random| reuse::owner(random, meeting_card)),
    ("bank", small::bank),
    ("write", texts::write),
    ("write*", texts::starred_write),
    ("canonical", canonical::canonical),
    ("canonical", canonical::canonical),
    ("block", books::block),
    ("block*", books::starred_block),
    ("carry", plans::carry),
    ("carry", plans::carry),
    ("plan", plans::plan),
    ("plan", plans::plan),
    ("carry*", plans::starred_carry),
    ("plan*", plans::starred_plan),
    ("mma", kinds::mma),
    ("mma-holder", kinds::holder),
    ("mma-layout", kinds::layout),
];

/// Questions about values, which only the client answers.
const VALUE_MAKERS: &[Maker] = &[
    ("deal", values::deal),
    ("collect", values::collect),
    ("deal-f64", values::deal_f64),
    ("collect-f64", values::collect_f64),
];

/// Questions of full size, which would slow the others down.
const LARGE: &[Maker] = &[
    ("verdict", full::verdict),
    ("owner", full::owner),
    ("verdict*", full::starred_verdict),
    ("owner*", full::starred_owner),
    ("canonical", canonical::full),
    ("carry", plans::full_carry),
    ("plan", plans::full_plan),
    ("carry*", plans::full_starred_carry),
    ("plan*", plans::full_starred_plan),
];

fn question(random: &mut Random, makers: &[Maker]) -> Question<'static> {
    let (word, numbers) = random.pick(makers);
    Question::new(word, &numbers(random))
}

/// A question, or now and then a line that looks like one.
fn line(random: &mut Random, makers: &[Maker]) -> Vec<u8> {
    let question = question(random, makers);
    if !random.once_in(SPOILED_ONE_IN) {
        return question.bytes();
    }
    match random.below(40) {
        0 => random.pick(LONG_KINDS)(random, &question),
        1..=9 => misspelt(random, &question),
        _ => random.pick(SHORT_KINDS)(random, &question),
    }
}

fn ended(mut line: Vec<u8>) -> Vec<u8> {
    line.push(b'\n');
    line
}

/// One random line in so many has a text in the place of numbers.
const TEXT_ONE_IN: u64 = 8;

/// The words with a text, and what makes their lines.
type TextMaker = (&'static str, fn(&mut Random) -> Vec<u8>);
const TEXT_MAKERS: &[TextMaker] = &[("read", texts::read_line), ("page", books::page_line)];

fn any_line(random: &mut Random) -> Vec<u8> {
    match random.once_in(TEXT_ONE_IN) {
        true => random.pick(TEXT_MAKERS).1(random),
        false => line(random, MAKERS),
    }
}

/// So many random lines; every one but the last ends in a line feed.
pub fn random_lines(seed: &[u8], count: u64) -> impl Iterator<Item = Vec<u8>> {
    let mut random = Random::new(seed_of(seed));
    (1..=count).map(move |at| {
        let line = any_line(&mut random);
        if at < count {
            ended(line)
        } else {
            line
        }
    })
}

/// What makes a line of one word; none where it is no word.
fn maker_of(word: &[u8]) -> Option<Box<dyn Fn(&mut Random) -> Vec<u8>>> {
    let mut texts = TEXT_MAKERS.iter();
    if let Some((_, make)) = texts.find(|maker| maker.0.as_bytes() == word) {
        return Some(Box::new(make));
    }
    let of_word = |maker: &&Maker| maker.0.as_bytes() == word;
    let all = MAKERS.iter().chain(VALUE_MAKERS);
    let makers: Vec<Maker> = all.filter(of_word).copied().collect();
    match makers.is_empty() {
        true => None,
        false => Some(Box::new(move |random| line(random, &makers))),
    }
}

/// So many random lines of one word; none where it is no word.
pub fn block(word: &[u8], seed: &[u8], count: u64) -> Option<impl Iterator<Item = Vec<u8>>> {
    let make = maker_of(word)?;
    let mut random = Random::new(seed_of(seed));
    Some((0..count).map(move |_| ended(make(&mut random))))
}

/// So many random inputs of `judge`, each spelt on a line.
pub fn judge_inputs(seed: &[u8], count: u64) -> impl Iterator<Item = Vec<u8>> {
    let mut random = Random::new(seed_of(seed));
    (0..count).map(move |_| ended(texts::judge_input(&mut random)))
}

/// So many random questions of full size.
pub fn large_block(seed: &[u8], count: u64) -> impl Iterator<Item = Vec<u8>> {
    let mut random = Random::new(seed_of(seed));
    (0..count).map(move |_| ended(question(&mut random, LARGE).bytes()))
}

/// So many random lines that ask for a plan; most are written one.
pub fn written_plans(seed: &[u8], count: u64) -> impl Iterator<Item = Vec<u8>> {
    let mut random = Random::new(seed_of(seed));
    (0..count).map(move |_| ended(plans::written_plan(&mut random).bytes()))
}

/// So many times a random line that is written a plan, and the line in which
/// the same plan is checked.
pub fn followed_plans(seed: &[u8], count: u64) -> impl Iterator<Item = Vec<u8>> {
    let mut random = Random::new(seed_of(seed));
    let both = (0..count).flat_map(move |_| plans::followed_plan(&mut random));
    both.map(|question| ended(question.bytes()))
}

/// Lines by hand and then so many random ones, about more cells than the
/// programs lend.
pub fn larger_lines(seed: &[u8], count: u64) -> impl Iterator<Item = Vec<u8>> {
    let mut random = Random::new(seed_of(seed));
    let drawn = (0..count).map(move |_| larger::question(&mut random));
    let all = larger::by_hand().into_iter().chain(drawn);
    all.map(|question| ended(question.bytes()))
}

#[cfg(test)]
mod tests {
    use super::*;
    use crate::lines::{answers, reached};
    use crate::verdict::MOST_ENTRIES;
    use crate::words::{NUMBERS, TEXT_WORDS, VALUE_NUMBERS, VALUE_WORDS, WORDS};

    fn lines(seed: &str, count: u64) -> Vec<Vec<u8>> {
        random_lines(seed.as_bytes(), count).collect()
    }

    #[test]
    fn random_lines_depend_on_the_seed_alone() {
        assert_eq!(lines("one", 500), lines("one", 500));
        assert_ne!(lines("one", 500), lines("two", 500));
        assert_eq!(lines("one", 400)[..399], lines("one", 500)[..399]);
        assert!(lines("one", 0).is_empty());
        assert_ne!(lines("one", 500)[499].last(), Some(&b'\n'));
    }

    #[test]
    fn random_lines_are_answered() {
        let input = lines("answered", 5_000).concat();
        assert!(answers(&input, MOST_ENTRIES).count() > 4_000);
    }

    #[test]
    fn blocks_have_their_lines_and_reach_every_number() {
        assert_eq!(NUMBERS.len(), WORDS.len() + TEXT_WORDS.len());
        assert_eq!(VALUE_NUMBERS.len(), VALUE_WORDS.len());
        for (word, numbers) in NUMBERS.iter().chain(VALUE_NUMBERS) {
            let lines: Vec<Vec<u8>> = block(word.as_bytes(), b"block", 2_000).unwrap().collect();
            assert!(lines.iter().all(|line| line.ends_with(b"\n")));
            assert_eq!(lines.len(), 2_000);
            let reached = reached(&lines.concat(), MOST_ENTRIES);
            assert_eq!(Vec::from_iter(reached.into_keys()), *numbers, "{word}");
        }
        assert!(block(b"hello", b"block", 1).is_none());
    }

    #[test]
    fn large_blocks_are_approved_and_refused() {
        let lines: Vec<Vec<u8>> = large_block(b"large", 60).collect();
        let reached = reached(&lines.concat(), MOST_ENTRIES);
        let often = |number| reached.get(number).copied().unwrap_or(0) > 1;
        assert!([0, 7, 8].iter().all(often), "{reached:?}");
    }

    #[test]
    fn larger_lines_reach_every_number() {
        let lines: Vec<Vec<u8>> = larger_lines(b"larger", 300).collect();
        let reached = reached(&lines.concat(), 65_536);
        assert_eq!(
            Vec::from_iter(reached.into_keys()),
            [0, 2, 3, 4, 5, 7, 8, 9, 11, 12, 17, 21, 23]
        );
    }
}
