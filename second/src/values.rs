//! Dealing a computation's matrix out to the lanes and collecting it from
//! them. Values are moved as bits, whatever they stand for.

use crate::fragment::{place, registers, LANES, OUTSIDE_FRAGMENT};
use crate::layout::Refusal;
use crate::lines::{digest, Answer};

/// The bits of a register of the first place before a question: 1.0 of either
/// size for what is dealt and collected, 2.0 for holdings.
const FIRST_SINGLE: u32 = 1_065_353_216;
const FIRST_DOUBLE: u64 = 4_607_182_418_800_017_408;
const FIRST_HELD: u64 = 4_611_686_018_427_387_904;

/// The bits of the first place of what is to be filled.
const FIRST_GIVEN: u32 = 1_000_000;

const SIDE: usize = 8;
const PLACES: u64 = 64;
const REGISTERS: u64 = 8;
const FIELDS: u64 = 4;

#[derive(Clone, Copy, Debug, PartialEq, Eq)]
enum Register {
    Empty,
    Single(u32),
    Double(u64),
}

impl Register {
    /// A register of a stated sort; none past the program's limits: the sort
    /// is at most 2, and the bits are no more than the sort has.
    fn stated(sort: u64, bits: u64) -> Option<Register> {
        match sort {
            0 => (bits == 0).then_some(Register::Empty),
            1 => u32::try_from(bits).ok().map(Register::Single),
            2 => Some(Register::Double(bits)),
            _ => None,
        }
    }

    /// What it counts in a digest.
    fn entry(&self) -> u128 {
        match self {
            Register::Empty => 0,
            Register::Single(bits) => 3 * u128::from(*bits) + 1,
            Register::Double(bits) => 3 * u128::from(*bits) + 2,
        }
    }

    /// Whether it is a single for kind 5, or a double for any other.
    fn of_sort(&self, kind: u64) -> bool {
        match self {
            Register::Empty => false,
            Register::Single(_) => kind == 5,
            Register::Double(_) => kind != 5,
        }
    }
}

/// Eight rows of eight.
type Tile = [[Register; SIDE]; SIDE];

/// The registers of all lanes, those past a kind's count too.
type Lanes = [[Register; REGISTERS as usize]; LANES as usize];

/// For each lane the bits of its A, its B and its two accumulators.
type Holdings = [[u64; FIELDS as usize]; LANES as usize];

/// A register of a matrix: its lane, its number there, and its place in a
/// tile.
struct Held {
    lane: usize,
    register: usize,
    row: usize,
    column: usize,
}

/// All registers of a computation's matrix, smallest lane first, then smallest
/// register; refusal 14 where the kinds that are dealt have no such matrix.
fn matrix(kind: u64, computation: u64) -> Result<Vec<Held>, Refusal> {
    let count = match kind {
        5..=8 => registers(kind).unwrap_or(0),
        _ => 0,
    };
    let all = (0..LANES).flat_map(|lane| (0..count).map(move |register| (lane, register)));
    let held = |(lane, register)| {
        let at = place(kind, lane, register)?;
        (at.computation == computation).then_some(Held {
            lane: lane as usize,
            register: register as usize,
            row: at.row as usize,
            column: at.column as usize,
        })
    };
    let matrix: Vec<Held> = all.filter_map(held).collect();
    match matrix.is_empty() {
        true => Err(Refusal::plain(OUTSIDE_FRAGMENT)),
        false => Ok(matrix),
    }
}

/// The same for the form with holdings, which kind 5 has not.
fn f64_matrix(kind: u64, computation: u64) -> Result<Vec<Held>, Refusal> {
    match kind {
        5 => Err(Refusal::plain(OUTSIDE_FRAGMENT)),
        _ => matrix(kind, computation),
    }
}

/// Refusal 14 with the first register of the matrix that is not of the kind's
/// sort where it is read.
fn judge(kind: u64, matrix: &[Held], read: impl Fn(&Held) -> Register) -> Result<(), Refusal> {
    match matrix.iter().find(|held| !read(held).of_sort(kind)) {
        None => Ok(()),
        Some(Held { lane, register, .. }) => Err(Refusal::with(
            OUTSIDE_FRAGMENT,
            *lane as u64,
            *register as u64,
        )),
    }
}

fn deal(kind: u64, computation: u64, tile: &Tile, lanes: &mut Lanes) -> Result<(), Refusal> {
    let matrix = matrix(kind, computation)?;
    judge(kind, &matrix, |held| tile[held.row][held.column])?;
    for held in matrix {
        lanes[held.lane][held.register] = tile[held.row][held.column];
    }
    Ok(())
}

fn collect(kind: u64, computation: u64, lanes: &Lanes, tile: &mut Tile) -> Result<(), Refusal> {
    let matrix = matrix(kind, computation)?;
    judge(kind, &matrix, |held| lanes[held.lane][held.register])?;
    for held in matrix {
        tile[held.row][held.column] = lanes[held.lane][held.register];
    }
    Ok(())
}

/// The field of a holding in which a register of this kind is.
fn field(kind: u64, register: usize) -> usize {
    match kind {
        6 => 0,
        7 => 1,
        _ => 2 + register,
    }
}

fn deal_f64(kind: u64, computation: u64, tile: &Tile, to: &mut Holdings) -> Result<(), Refusal> {
    let matrix = f64_matrix(kind, computation)?;
    judge(kind, &matrix, |held| tile[held.row][held.column])?;
    for held in matrix {
        if let Register::Double(bits) = tile[held.row][held.column] {
            to[held.lane][field(kind, held.register)] = bits;
        }
    }
    Ok(())
}

fn collect_f64(
    kind: u64,
    computation: u64,
    from: &Holdings,
    tile: &mut Tile,
) -> Result<(), Refusal> {
    for held in f64_matrix(kind, computation)? {
        let bits = from[held.lane][field(kind, held.register)];
        tile[held.row][held.column] = Register::Double(bits);
    }
    Ok(())
}

/// The kind's own sort, with bits by the number of the place.
fn own(kind: u64, at: u64) -> Register {
    match kind {
        5 => Register::Single(FIRST_SINGLE + at as u32),
        _ => Register::Double(FIRST_DOUBLE + at),
    }
}

/// What is to be filled, before the question: of sort `at` modulo 3.
fn given(at: u64) -> Register {
    let bits = FIRST_GIVEN + at as u32;
    match at % 3 {
        0 => Register::Empty,
        1 => Register::Single(bits),
        _ => Register::Double(bits.into()),
    }
}

/// A tile or the lanes with a register for each number of a place.
fn rows<const ROWS: usize>(of: impl Fn(u64) -> Register) -> [[Register; SIDE]; ROWS] {
    let at = |row: usize, column: usize| (SIDE * row + column) as u64;
    std::array::from_fn(|row| std::array::from_fn(|column| of(at(row, column))))
}

/// Registers of the kind's own sort, but for the one stated at a place, and an
/// empty one at another place.
fn stated_rows<const ROWS: usize>(
    kind: u64,
    stated: Option<u64>,
    register: Register,
    other: u64,
) -> [[Register; SIDE]; ROWS] {
    rows(|at| {
        if stated == Some(at) {
            register
        } else if other == at {
            Register::Empty
        } else {
            own(kind, at)
        }
    })
}

/// The holdings before the question.
fn held() -> Holdings {
    let bits = |lane: usize, field: usize| FIRST_HELD + 4 * lane as u64 + field as u64;
    std::array::from_fn(|lane| std::array::from_fn(|field| bits(lane, field)))
}

/// The place in a row-major table of so many rows and columns, if it has it.
fn inside(row: u64, rows: u64, column: u64, columns: u64) -> Option<u64> {
    (row < rows && column < columns).then(|| row * columns + column)
}

fn printed(result: Result<(), Refusal>, digest: u64) -> Answer {
    let (number, details) = match result {
        Ok(()) => (0, [0; 3]),
        Err(refusal) => (refusal.number, refusal.details),
    };
    Answer::beside(number, details, &[digest])
}

fn digest_of_rows(rows: &[[Register; SIDE]]) -> u64 {
    let entries: Vec<u128> = rows.iter().flatten().map(Register::entry).collect();
    digest(&entries)
}

/// Kind, computation, and the tile as it is before it is dealt out.
fn to_deal(numbers: &[u64]) -> Option<(u64, u64, Tile)> {
    let &[kind, computation, place, sort, bits, other] = numbers else {
        return None;
    };
    let stated = (place < PLACES).then_some(place);
    let tile = stated_rows(kind, stated, Register::stated(sort, bits)?, other);
    Some((kind, computation, tile))
}

pub fn answer_deal(numbers: &[u64]) -> Option<Answer> {
    let (kind, computation, tile) = to_deal(numbers)?;
    let mut lanes = rows(given);
    let result = deal(kind, computation, &tile, &mut lanes);
    Some(printed(result, digest_of_rows(&lanes)))
}

pub fn answer_deal_f64(numbers: &[u64]) -> Option<Answer> {
    let (kind, computation, tile) = to_deal(numbers)?;
    let mut holdings = held();
    let result = deal_f64(kind, computation, &tile, &mut holdings);
    Some(printed(result, digest(&holdings.concat())))
}

pub fn answer_collect(numbers: &[u64]) -> Option<Answer> {
    let &[kind, computation, lane, register, sort, bits, other] = numbers else {
        return None;
    };
    let stated = inside(lane, LANES, register, REGISTERS);
    let lanes = stated_rows(kind, stated, Register::stated(sort, bits)?, other);
    let mut tile = rows(given);
    let result = collect(kind, computation, &lanes, &mut tile);
    Some(printed(result, digest_of_rows(&tile)))
}

pub fn answer_collect_f64(numbers: &[u64]) -> Option<Answer> {
    let &[kind, computation, lane, field, bits] = numbers else {
        return None;
    };
    let mut holdings = held();
    if inside(lane, LANES, field, FIELDS).is_some() {
        holdings[lane as usize][field as usize] = bits;
    }
    let mut tile = rows(given);
    let result = collect_f64(kind, computation, &holdings, &mut tile);
    Some(printed(result, digest_of_rows(&tile)))
}

#[cfg(test)]
mod tests {
    use super::*;
    use crate::lines::{client_answer_line, client_says, says};
    use crate::verdict::MOST_ENTRIES;

    /// Kinds and their computations.
    const MATRICES: &[(u64, u64)] = &[(5, 0), (5, 1), (5, 2), (5, 3), (6, 0), (7, 0), (8, 0)];

    /// Quiet and signalling, of both signs, for either sort.
    const SINGLES: &[u32] = &[0x7f80_0001, 0x7fc0_0000, 0xffbf_ffff, 0xffff_ffff];
    const DOUBLES: &[u64] = &[
        0x7ff0_0000_0000_0001,
        0x7ff8_0000_0000_0000,
        0xfff7_ffff_ffff_ffff,
        u64::MAX,
    ];

    /// A tile of one sort, with not-a-numbers all over it.
    fn nan_tile(kind: u64) -> Tile {
        rows(|at| match kind {
            5 => Register::Single(SINGLES[at as usize % 4] ^ at as u32),
            _ => Register::Double(DOUBLES[at as usize % 4] ^ at),
        })
    }

    /// Rows and columns of the kind's matrix.
    fn sides(kind: u64) -> (usize, usize) {
        match kind {
            6 => (8, 4),
            7 => (4, 8),
            _ => (8, 8),
        }
    }

    #[test]
    fn collecting_what_was_dealt_gives_back_the_bits() {
        for &(kind, computation) in MATRICES {
            let tile = nan_tile(kind);
            let mut lanes: Lanes = rows(given);
            assert_eq!(deal(kind, computation, &tile, &mut lanes), Ok(()));
            let mut back: Tile = rows(given);
            assert_eq!(collect(kind, computation, &lanes, &mut back), Ok(()));
            only_the_matrix_moved(kind, &tile, &back);
        }
    }

    fn only_the_matrix_moved(kind: u64, tile: &Tile, back: &Tile) {
        let before: Tile = rows(given);
        let (height, width) = sides(kind);
        for row in 0..8 {
            for column in 0..8 {
                let moved = row < height && column < width;
                let wanted = if moved { tile } else { &before };
                assert_eq!(back[row][column], wanted[row][column]);
            }
        }
    }

    #[test]
    fn holdings_give_back_the_bits_too() {
        for kind in 6..=8 {
            let tile = nan_tile(kind);
            let mut holdings = held();
            assert_eq!(deal_f64(kind, 0, &tile, &mut holdings), Ok(()));
            let mut back: Tile = rows(given);
            assert_eq!(collect_f64(kind, 0, &holdings, &mut back), Ok(()));
            only_the_matrix_moved(kind, &tile, &back);
            for (lane, before) in held().iter().enumerate() {
                for other in (6..=8).filter(|other| *other != kind) {
                    let at = field(other, 0);
                    assert_eq!(holdings[lane][at], before[at]);
                }
            }
        }
    }

    #[test]
    fn other_lanes_and_registers_stay_as_given() {
        let before: Lanes = rows(given);
        for &(kind, computation) in MATRICES {
            let mut lanes = before;
            assert_eq!(deal(kind, computation, &nan_tile(kind), &mut lanes), Ok(()));
            let in_matrix = |lane: u64, register: u64| {
                place(kind, lane, register).is_some_and(|at| at.computation == computation)
            };
            let moved = |lane: &(u64, u64)| {
                let (lane, register) = *lane;
                lanes[lane as usize][register as usize] != before[lane as usize][register as usize]
            };
            let all = (0..32).flat_map(|lane| (0..8).map(move |register| (lane, register)));
            for at in all {
                assert_eq!(moved(&at), in_matrix(at.0, at.1), "{kind} {at:?}");
            }
        }
    }

    /// The digests as sums, without a register or a matrix.
    fn sum(entries: impl Iterator<Item = u128>) -> u64 {
        let weighed = (1..)
            .zip(entries)
            .map(|(weight, entry): (u128, u128)| weight * entry);
        (weighed.sum::<u128>() % 4_294_967_291) as u64
    }

    fn given_entries(count: u64) -> impl Iterator<Item = u128> {
        (0..u128::from(count)).map(|j| match j % 3 {
            0 => 0,
            sort => 3 * (1_000_000 + j) + sort,
        })
    }

    #[test]
    fn a_refusal_leaves_what_was_given() {
        let lanes = sum(given_entries(256));
        let tile = sum(given_entries(64));
        let held = sum((0..128).map(|j| 4_611_686_018_427_387_904 + j));
        for (line, details, digest) in [
            ("deal 4 0 64 0 0 64", "0 0 0", lanes),
            ("deal 5 4 64 0 0 64", "0 0 0", lanes),
            ("deal 6 1 64 0 0 64", "0 0 0", lanes),
            ("deal 9 0 0 0 0 1", "0 0 0", lanes),
            ("deal 5 0 0 0 0 64", "0 0 0", lanes),
            ("deal 5 1 0 2 5 64", "4 0 0", lanes),
            ("deal 8 0 63 1 5 64", "31 1 0", lanes),
            ("deal 5 3 63 0 0 62", "31 6 0", lanes),
            ("collect 5 1 32 0 0 0 160", "20 0 0", tile),
            ("collect 8 0 31 1 1 7 248", "31 0 0", tile),
            ("collect 4 0 32 0 0 0 256", "0 0 0", tile),
            ("deal-f64 5 0 64 0 0 64", "0 0 0", held),
            ("deal-f64 8 0 1 0 0 0", "0 0 0", held),
            ("deal-f64 8 0 1 0 0 64", "0 1 0", held),
            ("deal-f64 7 0 8 1 1 64", "1 0 0", held),
            ("collect-f64 5 0 0 0 0", "0 0 0", tile),
            ("collect-f64 6 1 0 0 0", "0 0 0", tile),
        ] {
            client_says(line, &format!("14 {details} | {digest}"));
        }
    }

    #[test]
    fn what_is_not_of_the_matrix_is_not_judged() {
        for line in [
            "deal 6 0 4 0 0 63",
            "deal 7 0 32 1 1 63",
            "deal-f64 6 0 4 1 9 63",
            "deal-f64 7 0 32 0 0 63",
            "collect 5 0 20 0 0 0 32",
            "collect 5 2 0 0 2 1 255",
            "collect 6 0 0 1 0 0 2",
            "collect 8 0 31 2 0 0 255",
        ] {
            let said = client_answer_line(line.as_bytes(), MOST_ENTRIES);
            assert!(said.is_some_and(|said| said.starts_with("0 0 0 0 | ")));
        }
    }

    #[test]
    fn digests_of_what_was_dealt_and_collected() {
        // A of .f64: the tile's first four columns, row by row, to lane 4 row + column.
        let lane = |lane: u128| 4_607_182_418_800_017_408 + 8 * (lane / 4) + lane % 4;
        let mut entries = Vec::from_iter(given_entries(256));
        (0..32).for_each(|at| entries[8 * at] = 3 * lane(at as u128) + 2);
        let dealt = sum(entries.into_iter());
        client_says("deal 6 0 64 0 0 64", &format!("0 0 0 0 | {dealt}"));
        let mut held: Vec<u128> = (0..128).map(|j| 4_611_686_018_427_387_904 + j).collect();
        (0..32).for_each(|at| held[4 * at] = lane(at as u128));
        held[4 * 5] = u128::from(u64::MAX);
        let dealt = sum(held.into_iter());
        let line = "deal-f64 6 0 9 2 18446744073709551615 64";
        client_says(line, &format!("0 0 0 0 | {dealt}"));
        let mut tile = Vec::from_iter(given_entries(64));
        for at in 0..32 {
            tile[8 * (at / 4) + at % 4] = 3 * (4_611_686_018_427_387_904 + 4 * at as u128) + 2;
        }
        tile[9] = 3 * 9_221_120_237_041_090_560 + 2;
        let collected = sum(tile.into_iter());
        let line = "collect-f64 6 0 5 0 9221120237041090560";
        client_says(line, &format!("0 0 0 0 | {collected}"));
    }

    #[test]
    fn limits_of_the_program() {
        for line in [
            "deal 5 0 0 3 0 64",
            "deal 5 0 0 0 1 64",
            "deal 5 0 0 1 4294967296 64",
            "deal 99 0 99 3 0 64",
            "collect 5 0 0 0 3 0 256",
            "collect 5 0 32 8 0 1 256",
            "deal-f64 6 0 0 1 4294967296 64",
            "collect-f64 6 0 0 0 0 0",
            "deal 5 0 0 1 -1 64",
        ] {
            client_says(line, "?");
        }
        for line in ["deal 5 0 0 1 4294967295 64", "collect-f64 6 0 0 0 0"] {
            says(line, "?");
            let said = client_answer_line(line.as_bytes(), MOST_ENTRIES);
            assert_ne!(said.as_deref(), Some("?"));
        }
    }
}
