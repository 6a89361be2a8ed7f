//! Random questions about canonical layouts: tiles that are packed or have
//! gaps, in a memory that just holds them, then tiles of which one number is a
//! little or very wrong.

use super::asked::table_length;
use super::limits::{BYTE_STRIDES, LARGEST_TABLE, LENT_TABLE, REPEATS, SIZES};
use super::random::Random;
use crate::lines::{whole, Number};

/// Tiles that are not of full size have no more elements than this, mostly.
const FEW: u64 = 4_096;

/// The bytes of a piece, which is what 128 bits hold.
const PIECE: u64 = 16;

const WIDTHS: &[u64] = &[4, 8, 16, 32, 64, 128];

/// A layout before a table is lent for it; LBO and SBO in bytes.
#[derive(Clone, Copy, Debug)]
pub struct Tile {
    pub major: u64,
    pub mode: u64,
    pub bits: u64,
    pub m: u64,
    pub k: u64,
    pub lbo: u64,
    pub sbo: u64,
    pub length_of_m: u64,
}

impl Tile {
    pub fn numbers(&self) -> [u64; 8] {
        [
            self.major,
            self.mode,
            self.bits,
            self.m,
            self.k,
            self.lbo,
            self.sbo,
            self.length_of_m,
        ]
    }

    /// The pieces of a row, or of a column, that a swizzle takes together.
    fn width(&self) -> u64 {
        1 << self.mode
    }

    fn lbo_is_used(&self) -> bool {
        self.major == 1 || self.mode == 0
    }

    /// How many patterns lie at LBO from each other, and how many at SBO.
    fn counts(&self) -> [u64; 2] {
        match (self.major, self.mode) {
            (0, 0) => [2 * self.k, self.m],
            (0, _) => [1, self.m],
            (_, 0) => [self.k, self.m],
            _ => [self.m, self.k],
        }
    }

    fn of_pieces(&self, pieces: u64) -> u64 {
        pieces * 128 / self.bits
    }

    fn elements(&self) -> u64 {
        let pieces = match self.major {
            0 => 16,
            _ => 8 * self.width(),
        };
        self.of_pieces(pieces * self.m * self.k)
    }

    /// The length of m that just holds the tile, in whole rows of the swizzle.
    /// For strides that are not spoiled.
    fn reached(&self) -> u64 {
        let pattern = match (self.major, self.mode) {
            (0, 0) => 8,
            (0, _) => 7 * self.width() + 2 * self.k,
            _ => 8 * self.width(),
        };
        let [lbos, sbos] = self.counts();
        let last = |count: u64, bytes: u64| match count {
            1 => 0,
            _ => (count - 1) * (bytes / PIECE),
        };
        let pieces = pattern + last(lbos, self.lbo) + last(sbos, self.sbo);
        self.of_pieces(pieces.next_multiple_of(self.width()))
    }
}

/// Major-ness, mode, bits, m and k that are permitted.
fn any_shape(random: &mut Random) -> Tile {
    Tile {
        major: random.below(2),
        mode: random.below(4),
        bits: random.pick(WIDTHS),
        m: random.between(1, REPEATS),
        k: random.between(1, REPEATS),
        lbo: 0,
        sbo: 0,
        length_of_m: 0,
    }
}

/// A shape that is wanted. K-major under a swizzle, rows wider than the
/// swizzle clash whatever the strides are: few of them are drawn.
fn shape(random: &mut Random, wanted: impl Fn(&Tile) -> bool) -> Tile {
    loop {
        let tile = any_shape(random);
        let clashes = !tile.lbo_is_used() && 2 * tile.k > tile.width();
        if wanted(&tile) && (!clashes || random.once_in(8)) {
            return tile;
        }
    }
}

fn small_shape(random: &mut Random) -> Tile {
    let most = match random.once_in(12) {
        true => LENT_TABLE,
        false => FEW,
    };
    shape(random, |tile| tile.elements() <= most)
}

/// What must not be looked at: an encoding, no stride at all, or anything.
fn unused(random: &mut Random) -> u64 {
    match random.below(4) {
        0 => random.pick(&[0, 1, PIECE]),
        1 => random.around(BYTE_STRIDES),
        _ => random.hostile(),
    }
}

/// Strides at which the patterns lie side by side or with gaps, LBO or SBO the
/// smaller one, and the length of m that just holds them.
fn lay_out(random: &mut Random, tile: &mut Tile, gaps: bool) {
    let pattern = 8 * PIECE * tile.width();
    let mut gap = || match random.below(6) {
        0 if gaps => PIECE * random.between(1, 9),
        1 if gaps => pattern,
        _ => 0,
    };
    let (inner, outer) = (pattern + gap(), gap());
    let [lbos, sbos] = tile.counts();
    if !tile.lbo_is_used() {
        (tile.lbo, tile.sbo) = (unused(random), inner);
    } else if random.once_in(2) {
        (tile.lbo, tile.sbo) = (inner, inner * lbos + outer);
    } else {
        (tile.lbo, tile.sbo) = (inner * sbos + outer, inner);
    }
    tile.length_of_m = tile.reached();
}

fn some_stride<'a>(random: &mut Random, tile: &'a mut Tile) -> &'a mut u64 {
    match tile.lbo_is_used() && random.once_in(2) {
        true => &mut tile.lbo,
        false => &mut tile.sbo,
    }
}

fn some_repeat<'a>(random: &mut Random, tile: &'a mut Tile) -> &'a mut u64 {
    match random.once_in(2) {
        true => &mut tile.m,
        false => &mut tile.k,
    }
}

/// Changes a number a little, so that the tile is just no longer, or just
/// still, one-to-one and inside.
fn nudge(random: &mut Random, tile: &mut Tile) {
    let (lbo, sbo) = (tile.lbo, tile.sbo);
    match random.below(16) {
        0 | 1 => *some_stride(random, tile) += PIECE,
        2 | 3 => {
            let stride = some_stride(random, tile);
            *stride = stride.saturating_sub(PIECE);
        }
        4 => *some_stride(random, tile) = 0,
        5 => *some_stride(random, tile) /= 2,
        6 if tile.lbo_is_used() => (tile.lbo, tile.sbo) = (sbo, lbo),
        7 => *some_repeat(random, tile) += 1,
        8 => {
            // The strides of a shorter tile then have no effect.
            *some_repeat(random, tile) = 1;
        }
        9 => tile.mode = random.below(4),
        10 => tile.major = 1 - tile.major,
        11 => tile.bits = random.pick(WIDTHS),
        12 => tile.length_of_m += random.below(3),
        13 => tile.length_of_m /= 2,
        _ => tile.length_of_m -= random.between(1, tile.of_pieces(1)),
    }
}

/// More elements than there may be, or just as many.
fn many(random: &mut Random) -> Tile {
    let wide = |tile: &Tile| tile.elements() >= LARGEST_TABLE;
    let mut tile = shape(random, wide);
    lay_out(random, &mut tile, true);
    tile.length_of_m = match random.below(3) {
        0 => tile.length_of_m,
        _ => random.pick(&[1, FEW, LENT_TABLE, LARGEST_TABLE]),
    };
    tile
}

/// A stride that is no byte stride, or hardly one.
fn wrong_stride(random: &mut Random, stride: u64) -> u64 {
    match random.below(8) {
        0 => stride.saturating_add(random.pick(&[1, 2, 4, 8, 15])),
        1 => stride.saturating_sub(random.pick(&[1, 8])),
        2 => BYTE_STRIDES - PIECE,
        3 => random.around(BYTE_STRIDES),
        4 => stride.saturating_add(BYTE_STRIDES),
        5 => stride.saturating_add(1 << random.between(32, 63)),
        _ => random.hostile(),
    }
}

/// Breaks, or just does not break, one limit.
fn spoil(random: &mut Random, tile: &mut Tile) {
    match random.below(16) {
        0 => tile.major = random.pick(&[2, 3, 1 << 32, (1 << 32) + 1, 1 << 63, u64::MAX]),
        1 => tile.mode = random.pick(&[4, 5, 7, 1 << 32, (1 << 32) + 3, u64::MAX]),
        2 => tile.bits = random.around_one_of(&[0, 2, 4, 6, 8, 16, 32, 64, 128, 256]),
        3 => tile.bits = random.hostile(),
        4 | 5 => *some_repeat(random, tile) = random.pick(&[0, 8, 9, 10, 16]),
        6 => *some_repeat(random, tile) = random.hostile(),
        7 | 8 => {
            let stride = some_stride(random, tile);
            *stride = wrong_stride(random, *stride);
        }
        9 => (tile.lbo, tile.sbo) = (random.hostile(), random.hostile()),
        10..=12 => {
            // In elements these lie on both sides of 65,536.
            let bits = random.pick(&[4, 8, 16, 32]);
            tile.bits = bits;
            *some_stride(random, tile) = (bits << 13) - PIECE * random.below(2);
        }
        13 => tile.length_of_m = random.around_one_of(SIZES),
        14 => tile.length_of_m = random.pick(&[0, 1, 1 << 32, (1 << 32) + 256, u64::MAX]),
        _ => *tile = many(random),
    }
}

pub fn canonical(random: &mut Random) -> Vec<Number> {
    let mut tile = small_shape(random);
    lay_out(random, &mut tile, true);
    match random.below(16) {
        0..=5 => {}
        6..=10 => nudge(random, &mut tile),
        11..=14 => spoil(random, &mut tile),
        _ => (0..3).for_each(|_| spoil(random, &mut tile)),
    }
    let length = table_length(random, tile.length_of_m.into());
    whole(&[&tile.numbers()[..], &[length]].concat())
}

/// A packed tile of full size; one in three is wrong.
pub fn full(random: &mut Random) -> Vec<Number> {
    let mut tile = shape(random, |tile| tile.elements() == LENT_TABLE);
    lay_out(random, &mut tile, false);
    if random.once_in(3) {
        nudge(random, &mut tile);
    }
    whole(&[&tile.numbers()[..], &[LENT_TABLE]].concat())
}

/// A tile of more elements than the programs lend entries, mostly in no more
/// cells than there may be.
pub fn larger_tile(random: &mut Random) -> Tile {
    let larger = LENT_TABLE + 1..=LARGEST_TABLE;
    let mut tile = shape(random, |tile| larger.contains(&tile.elements()));
    lay_out(random, &mut tile, false);
    if random.once_in(4) {
        nudge(random, &mut tile);
    }
    tile
}

#[cfg(test)]
mod tests {
    use super::*;
    use crate::canonical::answer_canonical;

    fn said(tile: &Tile, length: u64) -> u64 {
        let numbers = [&tile.numbers()[..], &[length]].concat();
        answer_canonical(&numbers, LARGEST_TABLE).map_or(99, |answer| answer.number)
    }

    #[test]
    fn tiles_that_are_laid_out_are_approved_and_just_fit() {
        let mut random = Random::new(30);
        let mut approved = 0;
        for at in 0..400 {
            let mut tile = small_shape(&mut random);
            lay_out(&mut random, &mut tile, at % 2 == 0);
            let clashes = !tile.lbo_is_used() && 2 * tile.k > tile.width();
            if tile.length_of_m > LARGEST_TABLE || clashes {
                continue;
            }
            assert_eq!(said(&tile, tile.length_of_m), 0, "{tile:?}");
            approved += 1;
            tile.length_of_m -= tile.of_pieces(tile.width());
            assert_ne!(said(&tile, LARGEST_TABLE), 0, "{tile:?}");
        }
        assert!(approved > 350, "{approved}");
    }

    #[test]
    fn full_tiles_are_full() {
        let mut random = Random::new(31);
        for _ in 0..100 {
            let mut tile = shape(&mut random, |tile| tile.elements() == LENT_TABLE);
            lay_out(&mut random, &mut tile, false);
            if tile.lbo_is_used() {
                assert_eq!(tile.length_of_m, LENT_TABLE);
            }
        }
    }
}
