//! What is asked about a card: where an element goes, the verdict, who owns
//! a cell; and a stretch, which is asked about a space alone.

use super::cards::large_lengths;
use super::limits::{LENT_CELLS, LENT_TABLE, SIZES};
use super::random::Random;
use crate::layout::{whole_product, Card, Coordinates, Spot, AXES};
use crate::lines::{whole, Number};

type MakeCard = fn(&mut Random) -> Card;

/// The odd number whose product with this odd number is 1 modulo 2^64.
fn wrapped_inverse(odd: u64) -> u64 {
    // Each step doubles the number of right bits, of which odd itself has 3.
    (0..5).fold(odd, |inverse, _| {
        inverse.wrapping_mul(2u64.wrapping_sub(odd.wrapping_mul(inverse)))
    })
}

/// A shape of so many elements: its prime factors dealt out to dimensions.
pub fn random_sizes(random: &mut Random, elements: u64, dimensions: usize) -> [u64; 8] {
    let mut sizes = [0; 8].map(|_: u64| random.below(9));
    if random.once_in(8) {
        sizes = sizes.map(|_| random.hostile());
    }
    sizes[..dimensions].fill(1);
    let mut rest = elements.max(1);
    let mut factor = 2;
    while rest > 1 {
        let quotient = rest / factor;
        if quotient * factor == rest {
            rest = quotient;
            sizes[random.index(dimensions)] *= factor;
        } else {
            factor += 1;
        }
    }
    sizes
}

/// A shape that is not the elements', some of them only when wrapped.
fn spoil_shape(random: &mut Random, spot: &mut Spot, elements: u64) {
    let at = random.index(8);
    match random.below(7) {
        0 => spot.dimensions = random.pick(&[0, 1, 2, 7, 8, 9, 1 << 32, u64::MAX]),
        1 => spot.sizes[at] = random.around(spot.sizes[at]),
        2 => spot.sizes[at] = 0,
        3 => spot.sizes[at] = random.hostile(),
        4 => {
            let odd = random.next() | 1;
            spot.dimensions = 2;
            spot.sizes[0] = odd;
            spot.sizes[1] = wrapped_inverse(odd).wrapping_mul(elements);
        }
        5 => {
            spot.dimensions = 3;
            spot.sizes[0] = 1 << random.between(30, 63);
            spot.sizes[1] = 1 << random.between(30, 63);
            spot.sizes[2] = random.pick(&[0, 1, 2, elements]);
        }
        _ => {
            spot.dimensions = 1;
            spot.sizes[0] = elements + (1 << random.pick(&[16, 32, 48, 63]));
        }
    }
    if random.once_in(2) {
        spot.coordinates = spot.dimensions;
    }
}

fn spoil_coordinate(random: &mut Random, spot: &mut Spot) {
    let at = random.index(8);
    match random.below(4) {
        0 => spot.coordinates = random.pick(&[0, 1, 2, 7, 8, 9, u64::MAX]),
        1 => spot.values[at] = random.hostile(),
        _ => spot.values[at] = spot.sizes[at],
    }
}

/// A shape of this card's elements and a coordinate in it, mostly.
pub fn random_spot(random: &mut Random, card: &Card) -> Spot {
    let elements = card.elements().min(1 << 20) as u64;
    let dimensions = random.index(8) + 1;
    let sizes = random_sizes(random, elements, dimensions);
    let mut spot = Spot {
        dimensions: dimensions as u64,
        sizes,
        coordinates: dimensions as u64,
        values: sizes.map(|size| random.below(size)),
    };
    match random.below(12) {
        0 | 1 => spoil_shape(random, &mut spot, elements),
        2 => spoil_coordinate(random, &mut spot),
        3 if random.once_in(2) => spot.values[dimensions - 1] = sizes[dimensions - 1],
        _ => {}
    }
    spot
}

/// The numbers of a placement on this card, with room enough, mostly.
pub fn place_on(random: &mut Random, card: &Card, spot: &Spot) -> Vec<Number> {
    let copies = card.copies().min(LENT_CELLS.into()) as u64;
    let length = match random.below(12) {
        0..=5 => copies,
        6 | 7 => random.around(copies).min(LENT_CELLS),
        8 | 9 => (copies + random.below(4)).min(LENT_CELLS),
        10 => random.between(0, LENT_CELLS),
        _ => random.pick(&[0, 1, 63, 64, 64, 65, 66, 1 << 32, u64::MAX]),
    };
    [card.numbers(), whole(&spot.numbers()), whole(&[length])].concat()
}

pub fn place(random: &mut Random, make: MakeCard) -> Vec<Number> {
    let card = make(random);
    let spot = random_spot(random, &card);
    place_on(random, &card, &spot)
}

/// The length of a table for so many cells: enough, mostly.
pub fn table_length(random: &mut Random, cells: u128) -> u64 {
    let cells = cells.min(LENT_TABLE.into()) as u64;
    match random.below(16) {
        0..=8 => cells,
        9 | 10 => cells + random.below(5),
        11 | 12 => random.around(cells),
        13 => random.below(cells),
        14 => random.pick(&[0, 1, LENT_TABLE - 1, LENT_TABLE]),
        _ => random.pick(&[LENT_TABLE, LENT_TABLE + 1, 1 << 16, 1 << 32, u64::MAX]),
    }
}

/// Coordinates in a space, mostly inside it.
pub fn random_asked(random: &mut Random, space: &[u64; AXES]) -> Coordinates {
    let mut asked = space.map(|length| random.below(length));
    let at = random.index(AXES);
    match random.below(12) {
        0 => asked[at] = space[at],
        1 => asked[at] = random.hostile(),
        2 => asked = space.map(|length| length.saturating_sub(1)),
        _ => {}
    }
    asked
}

/// The numbers of a verdict on this card.
pub fn verdict_on(random: &mut Random, card: &Card) -> Vec<Number> {
    let length = table_length(random, card.cells());
    [card.numbers(), whole(&[length])].concat()
}

pub fn verdict(random: &mut Random, make: MakeCard) -> Vec<Number> {
    let card = make(random);
    verdict_on(random, &card)
}

/// The numbers of a question for an owner on this card.
pub fn owner_on(random: &mut Random, card: &Card) -> Vec<Number> {
    let asked = random_asked(random, &card.space);
    let length = table_length(random, card.cells());
    [card.numbers(), whole(&asked), whole(&[length])].concat()
}

pub fn owner(random: &mut Random, make: MakeCard) -> Vec<Number> {
    let card = make(random);
    owner_on(random, &card)
}

/// Lengths of a space: a few axes of some length, sometimes too many cells.
fn random_space(random: &mut Random) -> [u64; AXES] {
    let mut space = [1; AXES];
    let mut room = 1u64 << random.between(0, 16);
    for _ in 0..random.between(1, 8) {
        let length = random.between(1, room.min(40));
        space[random.index(AXES)] = length;
        room /= length;
    }
    let at = random.index(AXES);
    match random.below(20) {
        0 => space[at] = 0,
        1 => space[at] = random.around_one_of(SIZES),
        2 => space[at] = random.hostile(),
        3 => space = [random.pick(&[2, 3, 4, 16_384, 1 << 16]); AXES],
        4 => space = large_lengths(random),
        _ => {}
    }
    space
}

pub fn stretch(random: &mut Random) -> Vec<Number> {
    let space = random_space(random);
    let mut asked = random_asked(random, &space);
    let axis = match random.below(16) {
        0 => random.around(8),
        1 => random.hostile(),
        _ => random.below(8),
    };
    if random.once_in(2) {
        // Past the asked axis no coordinate is looked at.
        let past = (axis as usize).saturating_add(1).min(AXES);
        asked[past..].fill(random.hostile());
    }
    let length = table_length(random, whole_product(&space));
    whole(&[&space[..], &[axis], &asked, &[length]].concat())
}

#[cfg(test)]
mod tests {
    use super::*;

    #[test]
    fn inverses_are_inverses() {
        let mut random = Random::new(5);
        for _ in 0..1_000 {
            let odd = random.next() | 1;
            assert_eq!(odd.wrapping_mul(wrapped_inverse(odd)), 1);
        }
    }

    #[test]
    fn shapes_have_their_elements() {
        let mut random = Random::new(6);
        for elements in 1..500 {
            let dimensions = random.index(8) + 1;
            let sizes = random_sizes(&mut random, elements, dimensions);
            assert_eq!(sizes[..dimensions].iter().product::<u64>(), elements);
        }
    }
}
