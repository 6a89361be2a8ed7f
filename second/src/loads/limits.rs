//! The limits that random lines are drawn around.
//!
//! They are definitions of their own: the rules keep their constants to
//! themselves. Lines drawn around a rule's constant would follow it where it
//! is wrong, and where a request moves it they would no longer ask around the
//! old one. Here stand the limits that hold, and those that held before or
//! that a later request names, so that both sides of each are asked whichever
//! of them holds. A request that moves a limit adds a number here and takes
//! none away.

use crate::lines::Number;

/// Extents, lengths, elements and cells.
pub const SIZES: &[u64] = &[16_384, 65_536];

/// Copies of an element.
pub const COPIES: u64 = 64;

/// The number of an axis.
pub const AXIS: u64 = 7;

/// MARKS of the words with a star.
pub const MARKS: u64 = 255;

/// The swizzle's numbers; S is not below B either.
pub const MOST_M: u64 = 8;
pub const MOST_B: u64 = 4;
pub const MOST_S: u64 = 8;

/// The address of an element whose bank is asked for, as many as there are.
pub const ADDRESSES: u64 = 1 << 32;

/// The shift of a mask.
pub const SHIFTS: &[u64] = &[16, 32];

/// What the program lends to a placement, and to a verdict, owner or stretch.
pub const LENT_CELLS: u64 = 64;
pub const LENT_TABLE: u64 = 16_384;

/// What a caller of the library may have to lend.
pub const LARGEST_TABLE: u64 = 65_536;

/// The numbers of a plan that is checked, and what is lent to one that is
/// written, by the program and by a caller of the library.
pub const PLAN: u64 = 256;
pub const LENT_PLAN: u64 = 32_768;
pub const LARGEST_PLAN: u64 = 131_072;

/// m and k of a canonical layout, and what its byte strides are below.
pub const REPEATS: u64 = 8;
pub const BYTE_STRIDES: u64 = 262_144;

/// The bytes of a text that is read, and of what is lent to a writer.
pub const TEXT: u64 = 1_024;

/// The bytes of a block, of its note and of what is lent for it, and the seed
/// of a note.
pub const BLOCK: u64 = 512;
pub const NOTE: u64 = 292;
pub const LENT_BYTES: u64 = 1_024;
pub const SEED: u64 = 255;

/// The bytes of a line.
pub const LINE: usize = 4_096;

/// Strides and offsets at their limits, and far beyond them; the two limits
/// and their neighbours come more often.
pub const STRIDES: &[Number] = &[
    -65_536,
    65_535,
    -65_537,
    65_536,
    -65_536,
    65_535,
    -65_537,
    65_536,
    -65_535,
    65_534,
    -65_536,
    65_535,
    -(1 << 16) - (1 << 32),
    1 << 32,
    -(1 << 32),
    1 - (1 << 32),
    -(1 << 62),
    -(1 << 63),
    1 - (1 << 63),
    (1 << 63) - 1,
    1 << 63,
    (1 << 63) + 1,
    (1 << 64) - 65_536,
    (1 << 64) - 1,
];
