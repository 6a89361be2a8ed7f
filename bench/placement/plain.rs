//! The placement of one element as one writes it in Rust without a thought of speed: the card's checks (../card.rs), the shape, the
//! coordinates, the memory's length, then the cells of all copies, with their coordinates divided out anew, in memory of its own: a
//! refusal writes nothing. Judging all copies first and making their cells in a second pass costs a tenth to a sixth more.
#![no_std]

#[path = "../card.rs"]
mod card;
use card::{product, Card};

#[panic_handler]
fn panic(_: &core::panic::PanicInfo) -> ! {
    loop {}
}

enum Answer {
    Copies(u64),
    Refused(u64),
    Idle { a: u64, b: u64 },
    Short { needed: u64 },
    Outside { flat: u64, axis: u64 },
}

/// The flat index of coordinates in a shape that comes to the elements, or the refusal: 9 for the shape, 10 for the coordinates.
fn flatten(shape: &[u64; 9], coordinates: &[u64; 9], elements: u64) -> Result<u64, u64> {
    let dimensions = shape[0];
    if dimensions < 1 || dimensions > 8 {
        return Err(9);
    }
    let sizes = &shape[1..=dimensions as usize];
    let whole = if sizes.contains(&0) {
        0
    } else {
        product(sizes.iter().copied())
    };
    if whole != elements {
        return Err(9);
    }
    if coordinates[0] != dimensions {
        return Err(10);
    }
    let mut flat = 0;
    for (&size, &at) in sizes.iter().zip(&coordinates[1..]) {
        if at >= size {
            return Err(10);
        }
        flat = flat * size + at;
    }
    Ok(flat)
}

fn place(card: &Card, shape: &[u64; 9], coordinates: &[u64; 9], memory: &mut [u32]) -> Answer {
    if let Some(number) = card.refusal() {
        return Answer::Refused(number);
    }
    let copies = card.copies();
    if let Some((a, b)) = card.idle(copies) {
        return Answer::Idle { a, b };
    }
    let flat = match flatten(shape, coordinates, card.elements()) {
        Ok(flat) => flat,
        Err(number) => return Answer::Refused(number),
    };
    if (memory.len() as u64) < copies {
        return Answer::Short { needed: copies };
    }
    let mut cells = [0; 64];
    let mut axis = 8;
    for copy in 0..copies {
        let p = card.coordinates(flat, copy);
        match card.outside(&p) {
            Some(a) => axis = axis.min(a),
            None => cells[copy as usize] = card.cell(&p) as u32,
        }
    }
    if axis < 8 {
        return Answer::Outside { flat, axis };
    }
    memory[..copies as usize].copy_from_slice(&cells[..copies as usize]);
    Answer::Copies(copies)
}

/// The question as urszovely_place takes it.
#[no_mangle]
pub unsafe extern "C" fn rust_place(
    card: &[u64; 57],
    marks: u64,
    shape: &[u64; 9],
    coordinates: &[u64; 9],
    memory: *mut u32,
    length: usize,
    answer: &mut [u64; 4],
) {
    let memory = core::slice::from_raw_parts_mut(memory, length);
    *answer = match place(&Card::of(card, marks), shape, coordinates, memory) {
        Answer::Copies(copies) => [0, copies, 0, 0],
        Answer::Refused(number) => [number, 0, 0, 0],
        Answer::Idle { a, b } => [17, a, b, 0],
        Answer::Short { needed } => [11, needed, 0, 0],
        Answer::Outside { flat, axis } => [7, flat, axis, 0],
    };
}
