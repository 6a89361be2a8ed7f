// Dealing and collecting in straightforward Rust, from document 02's request 1 and the table of fragments of document 01: all checks, then the
// move, both over the registers that a kind has; a tile's place goes to where the table says. A form over whole registers in the place of three
// arrays runs more instructions.
#![no_std]

#[panic_handler]
fn panic(_: &core::panic::PanicInfo) -> ! {
    loop {}
}

// The registers of a lane, by the kind.
fn registers(kind: u64) -> usize {
    match kind {
        5 => 8,
        8 => 2,
        _ => 1,
    }
}

// What register i of a lane holds: computation, and place 8 row + column.
fn place(kind: u64, lane: usize, i: usize) -> (u64, usize) {
    let (computation, row, column) = match kind {
        5 => {
            let h = if lane < 16 { 0 } else { 4 };
            (lane % 16 / 4, (lane & 1) + (i & 2) + h, (i & 4) + (lane & 2) + (i & 1))
        }
        6 => (0, lane / 4, lane % 4),
        7 => (0, lane % 4, lane / 4),
        _ => (0, lane / 4, 2 * (lane % 4) + i),
    };
    (computation as u64, 8 * row + column)
}

// Whether there is such a kind with values, at least `from`, and such a computation.
fn is_matrix(kind: u64, computation: u64, from: u64) -> bool {
    kind >= from && kind <= 8 && computation < if kind == 5 { 4 } else { 1 }
}

// The answer: 14 where there is no such matrix, or with the first register whose sort is wrong; else 0.
fn judge(kind: u64, computation: u64, from: u64, sort: impl Fn(usize, usize) -> u8) -> [u64; 4] {
    if !is_matrix(kind, computation, from) {
        return [14, 0, 0, 0];
    }
    let wanted = if kind == 5 { 1 } else { 2 };
    for lane in 0..32 {
        for i in 0..registers(kind) {
            let (c, p) = place(kind, lane, i);
            if c == computation && sort(8 * lane + i, p) != wanted {
                return [14, lane as u64, i as u64, 0];
            }
        }
    }
    [0; 4]
}

// Every register of the computation with its place.
fn each(kind: u64, computation: u64, mut go: impl FnMut(usize, usize, usize)) {
    for lane in 0..32 {
        for i in 0..registers(kind) {
            let (c, p) = place(kind, lane, i);
            if c == computation {
                go(lane, i, p);
            }
        }
    }
}

// The field of a holding that register i of an .f64 kind is.
fn field(kind: u64, i: usize) -> usize {
    match kind {
        6 => 0,
        7 => 1,
        _ => 2 + i,
    }
}

#[no_mangle]
pub extern "C" fn rust_deal(
    kind: u64,
    computation: u64,
    tile_sorts: &[u8; 64],
    tile_singles: &[f32; 64],
    tile_doubles: &[f64; 64],
    sorts: &mut [u8; 256],
    singles: &mut [f32; 256],
    doubles: &mut [f64; 256],
    answer: &mut [u64; 4],
) {
    *answer = judge(kind, computation, 5, |_, p| tile_sorts[p]);
    if answer[0] != 0 {
        return;
    }
    each(kind, computation, |lane, i, p| {
        let n = 8 * lane + i;
        sorts[n] = tile_sorts[p];
        if kind == 5 {
            singles[n] = tile_singles[p];
        } else {
            doubles[n] = tile_doubles[p];
        }
    });
}

#[no_mangle]
pub extern "C" fn rust_collect(
    kind: u64,
    computation: u64,
    lane_sorts: &[u8; 256],
    lane_singles: &[f32; 256],
    lane_doubles: &[f64; 256],
    sorts: &mut [u8; 64],
    singles: &mut [f32; 64],
    doubles: &mut [f64; 64],
    answer: &mut [u64; 4],
) {
    *answer = judge(kind, computation, 5, |n, _| lane_sorts[n]);
    if answer[0] != 0 {
        return;
    }
    each(kind, computation, |lane, i, p| {
        let n = 8 * lane + i;
        sorts[p] = lane_sorts[n];
        if kind == 5 {
            singles[p] = lane_singles[n];
        } else {
            doubles[p] = lane_doubles[n];
        }
    });
}

#[no_mangle]
pub extern "C" fn rust_deal_f64(
    kind: u64,
    computation: u64,
    tile_sorts: &[u8; 64],
    _tile_singles: &[f32; 64],
    tile_doubles: &[f64; 64],
    holdings: &mut [f64; 128],
    answer: &mut [u64; 4],
) {
    *answer = judge(kind, computation, 6, |_, p| tile_sorts[p]);
    if answer[0] != 0 {
        return;
    }
    each(kind, computation, |lane, i, p| holdings[4 * lane + field(kind, i)] = tile_doubles[p]);
}

#[no_mangle]
pub extern "C" fn rust_collect_f64(
    kind: u64,
    computation: u64,
    holdings: &[f64; 128],
    sorts: &mut [u8; 64],
    _singles: &mut [f32; 64],
    doubles: &mut [f64; 64],
    answer: &mut [u64; 4],
) {
    *answer = judge(kind, computation, 6, |_, _| 2);
    if answer[0] != 0 {
        return;
    }
    each(kind, computation, |lane, i, p| {
        sorts[p] = 2;
        doubles[p] = holdings[4 * lane + field(kind, i)];
    });
}
