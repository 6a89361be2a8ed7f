//! Lines about the further kinds of fragments: random ones, and each question
//! about each kind.

use super::random::Random;
use super::small::near;
use crate::lines::{whole, Number};

const LANES: u64 = 32;

/// A kind's matrices, warps, rows and columns, told from its name: A is m by
/// k, B is k by n, C is m by n. Like the limits, they are definitions of their
/// own beside those of the rules.
#[derive(Clone, Copy)]
struct Shape {
    matrices: u64,
    warps: u64,
    rows: u64,
    columns: u64,
}

/// Kinds of one shape: matrices, warps, rows, columns.
const SHAPES: &[(&[u64], [u64; 4])] = &[
    (&[15, 32], [1, 1, 4, 8]),
    (&[10, 17, 20, 34, 40, 41], [1, 1, 8, 8]),
    (&[18], [1, 1, 8, 16]),
    (&[25], [1, 1, 8, 32]),
    (&[14, 31], [1, 1, 16, 4]),
    (&[9, 11, 13, 16, 19, 22, 33, 36], [1, 1, 16, 8]),
    (&[12, 21, 35], [1, 1, 16, 16]),
    (&[23, 27], [1, 1, 16, 32]),
    (&[29], [1, 1, 16, 64]),
    (&[24, 26, 28], [1, 1, 32, 8]),
    (&[30], [1, 1, 64, 8]),
    (&[38], [1, 4, 64, 8]),
    (&[37], [1, 4, 64, 16]),
    (&[39], [1, 4, 64, 32]),
    (&[42, 43], [2, 1, 8, 8]),
    (&[44, 45], [4, 1, 8, 8]),
];

/// Where the kinds begin and end, or may end one day.
const EDGES: &[u64] = &[
    8, 9, 45, 46, 47, 64, 128, 256, 999, 1_000, 1_008, 1_256, 1_264,
];

impl Shape {
    /// The shape of a kind, or that of the accumulators with so many columns
    /// for a number that is none.
    fn of(kind: u64) -> Shape {
        let known = SHAPES.iter().find(|(kinds, _)| kinds.contains(&kind));
        let columns = kind.saturating_sub(1_000).clamp(8, 256);
        let [matrices, warps, rows, columns] = match known {
            Some((_, shape)) => *shape,
            None => [1, 4, 64, columns],
        };
        Shape {
            matrices,
            warps,
            rows,
            columns,
        }
    }

    /// All elements, dealt out to all lanes.
    fn registers(self) -> u64 {
        self.matrices * self.rows * self.columns / (self.warps * LANES)
    }
}

/// A further kind mostly, as often one with a number of its own as one of the
/// accumulators; now and then one of the first kinds, or what is none.
fn random_kind(random: &mut Random) -> u64 {
    match random.below(20) {
        0..=7 => random.between(9, 45),
        8..=15 => 1_000 + 8 * random.between(1, 32),
        16 => random.below(9),
        17 => 1_000 + random.below(300),
        18 => random.around_one_of(EDGES),
        _ => random.hostile(),
    }
}

pub fn mma(random: &mut Random) -> Vec<Number> {
    let kind = random_kind(random);
    let shape = Shape::of(kind);
    let warp = near(random, shape.warps);
    let lane = near(random, LANES);
    whole(&[kind, warp, lane, near(random, shape.registers())])
}

pub fn holder(random: &mut Random) -> Vec<Number> {
    let kind = random_kind(random);
    let shape = Shape::of(kind);
    let matrix = near(random, shape.matrices);
    let row = near(random, shape.rows);
    whole(&[kind, matrix, row, near(random, shape.columns)])
}

pub fn layout(random: &mut Random) -> Vec<Number> {
    whole(&[random_kind(random)])
}

/// The accumulators of which every element is asked for: the smallest and the
/// largest, a usual one, and one that is no power of two.
const WHOLE_ACCUMULATORS: &[u64] = &[1_008, 1_024, 1_064, 1_256];

/// Every line of these beginnings with three numbers up to one beyond each
/// edge.
fn every(begun: &str, [first, second, third]: [u64; 3]) -> String {
    let mut lines = String::new();
    for a in 0..=first {
        for b in 0..=second {
            for c in 0..=third {
                lines += &format!("{begun} {a} {b} {c}\n");
            }
        }
    }
    lines
}

/// Every question about a kind, both ways.
fn both_ways(kind: u64) -> String {
    let shape = Shape::of(kind);
    let held = [shape.warps, LANES, shape.registers()];
    let places = [shape.matrices, shape.rows, shape.columns];
    every(&format!("mma {kind}"), held) + &every(&format!("mma-holder {kind}"), places)
}

/// Every question about every kind, and one of each word about every number
/// around the kinds: so the other accumulators are asked for too.
pub fn all() -> Vec<u8> {
    let mut lines = String::new();
    for kind in (9..=45).chain(WHOLE_ACCUMULATORS.iter().copied()) {
        lines += &both_ways(kind);
    }
    for kind in (0..=130).chain(990..=1_270) {
        lines += &format!("mma {kind} 0 0 0\nmma-holder {kind} 0 0 0\nmma-layout {kind}\n");
    }
    lines.into_bytes()
}

#[cfg(test)]
mod tests {
    use super::*;
    use crate::lines::answers;
    use crate::verdict::MOST_ENTRIES;

    /// How many of the lines with this word are answered so.
    fn said(lines: &[u8], word: &str, beginning: &str) -> usize {
        let own = |line: &&[u8]| line.starts_with(format!("{word} ").as_bytes());
        let own: Vec<&[u8]> = lines.split(|byte| *byte == b'\n').filter(own).collect();
        let own = own.join(&b'\n');
        let begins = |text: &String| text.starts_with(beginning);
        answers(&own, MOST_ENTRIES).filter(begins).count()
    }

    #[test]
    fn every_element_is_asked_for_both_ways() {
        let lines = all();
        let elements = |kind: u64| {
            let shape = Shape::of(kind);
            (shape.matrices * shape.rows * shape.columns) as usize
        };
        let numbered: usize = (9..=45).map(elements).sum();
        let accumulators: usize = WHOLE_ACCUMULATORS.iter().copied().map(elements).sum();
        // Each kind has its first element asked for once more at the end.
        let wanted = numbered + accumulators + 37 + 32;
        assert_eq!(said(&lines, "mma", "0 "), wanted);
        assert_eq!(said(&lines, "mma-holder", "0 "), wanted);
        assert_eq!(said(&lines, "mma-layout", "0 0 0 0 | S[("), 37 + 32);
        assert_eq!(said(&lines, "mma-layout", "14 0 0 0 |\n"), 131 + 281 - 69);
    }

    #[test]
    fn random_questions_are_mostly_inside() {
        let mut random = Random::new(35);
        for (word, make) in [
            ("mma", mma as fn(&mut Random) -> Vec<Number>),
            ("mma-holder", holder),
            ("mma-layout", layout),
        ] {
            let mut lines = String::new();
            for _ in 0..400 {
                let numbers = Vec::from_iter(make(&mut random).iter().map(Number::to_string));
                lines += &format!("{word} {}\n", numbers.join(" "));
            }
            let inside = said(lines.as_bytes(), word, "0 ");
            assert!((200..380).contains(&inside), "{word} {inside}");
        }
    }
}
