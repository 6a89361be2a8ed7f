//! The verdict as one writes it in Rust without a thought of speed: the card's checks (../card.rs), the table's length, then two
//! passes over the elements, with the coordinates of every copy divided out anew. Each element claims for its leader, the smallest of
//! those that are one with it by their marks; without marks that is the element itself. Of the plain ways to write it that were
//! tried, this one runs the fewest instructions (../README.md): a function for the walk over the iters costs up to a fifth more.
#![no_std]

#[path = "../card.rs"]
mod card;
use card::Card;

#[panic_handler]
fn panic(_: &core::panic::PanicInfo) -> ! {
    loop {}
}

enum Answer {
    Approved {
        elements: u64,
        occupied: u64,
        cells: u64,
    },
    Refused(u64),
    Idle {
        a: u64,
        b: u64,
    },
    Short {
        needed: u64,
    },
    Outside {
        flat: u64,
        axis: u64,
    },
    Clash {
        x: u64,
        y: u64,
        cell: u64,
    },
}

/// The smallest element that is one with this one: its marked components are 0.
fn leader(card: &Card, flat: u64) -> u64 {
    let (mut rest, mut weight, mut leader) = (flat, 1, 0);
    for iter in card.shard().iter().rev() {
        if !iter.marked {
            leader += rest % iter.extent * weight;
        }
        rest /= iter.extent;
        weight *= iter.extent;
    }
    leader
}

/// The first element of which a copy lies outside the space, and the smallest axis on which one does.
fn first_outside(card: &Card, elements: u64, copies: u64) -> Option<(u64, u64)> {
    for flat in 0..elements {
        let mut axis = 8;
        for copy in 0..copies {
            if let Some(a) = card.outside(&card.coordinates(flat, copy)) {
                axis = axis.min(a);
            }
        }
        if axis < 8 {
            return Some((flat, axis));
        }
    }
    None
}

/// Claims the cells of every element in the cleared table.
fn claim_all(card: &Card, elements: u64, copies: u64, table: &mut [u32]) -> Answer {
    let marks = card.shard().iter().any(|iter| iter.marked);
    let mut occupied = 0;
    for y in 0..elements {
        let own = if marks { leader(card, y) } else { y } as u32 + 1;
        let mut clash: Option<(u64, u64)> = None;
        for copy in 0..copies {
            let cell = card.cell(&card.coordinates(y, copy));
            let entry = table[cell as usize];
            if entry == 0 {
                table[cell as usize] = own;
                occupied += 1;
            } else if entry != own {
                let this = (entry as u64 - 1, cell);
                clash = Some(clash.map_or(this, |least| least.min(this)));
            }
        }
        if let Some((x, cell)) = clash {
            table.fill(0);
            return Answer::Clash { x, y, cell };
        }
    }
    Answer::Approved {
        elements,
        occupied,
        cells: table.len() as u64,
    }
}

fn verdict(card: &Card, table: &mut [u32]) -> Answer {
    if let Some(number) = card.refusal() {
        return Answer::Refused(number);
    }
    let (elements, copies, cells) = (card.elements(), card.copies(), card.cells());
    if let Some((a, b)) = card.idle(copies) {
        return Answer::Idle { a, b };
    }
    if (table.len() as u64) < cells {
        return Answer::Short { needed: cells };
    }
    let table = &mut table[..cells as usize];
    table.fill(0);
    if let Some((flat, axis)) = first_outside(card, elements, copies) {
        return Answer::Outside { flat, axis };
    }
    claim_all(card, elements, copies, table)
}

/// The question as urszovely_verdict takes it.
#[no_mangle]
pub unsafe extern "C" fn rust_verdict(
    card: &[u64; 57],
    marks: u64,
    table: *mut u32,
    length: usize,
    answer: &mut [u64; 4],
) {
    let table = core::slice::from_raw_parts_mut(table, length);
    *answer = match verdict(&Card::of(card, marks), table) {
        Answer::Approved {
            elements,
            occupied,
            cells,
        } => [0, elements, occupied, cells],
        Answer::Refused(number) => [number, 0, 0, 0],
        Answer::Idle { a, b } => [17, a, b, 0],
        Answer::Short { needed } => [11, needed, 0, 0],
        Answer::Outside { flat, axis } => [7, flat, axis, 0],
        Answer::Clash { x, y, cell } => [8, x, y, cell],
    };
}
