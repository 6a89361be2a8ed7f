//! The zero-column mask as one writes it in Rust without a thought of speed: one column after the other is tested, and its bit set.
//! Sub-mask by sub-mask; with PLAIN=one_loop in one loop over all columns, which runs twice the instructions.
#![no_std]

#[panic_handler]
fn panic(_: &core::panic::PanicInfo) -> ! {
    loop {}
}

enum Answer {
    Generated { zeroed: u64, first_used: u64 },
    Refused(u64),
    Shifted { limit: u64 },
    Short { needed: u64 },
}

/// Calls `test` with the sub-mask and the column of each bit of the mask, in their order.
#[cfg(not(one_loop))]
#[inline]
fn each_column(sub_masks: u64, columns: u64, mut test: impl FnMut(u64, u64)) {
    for sub_mask in 0..sub_masks {
        for column in 0..columns {
            test(sub_mask, column);
        }
    }
}

/// The same in one loop, with a division for the sub-mask of each column.
#[cfg(one_loop)]
#[inline]
fn each_column(sub_masks: u64, columns: u64, mut test: impl FnMut(u64, u64)) {
    for p in 0..sub_masks * columns {
        test(p / columns, p % columns);
    }
}

fn generate_mask(m: u64, n: u64, descriptor: u64, mask: &mut [u8]) -> Answer {
    let field = |at: u64, bits: u64| (descriptor >> at) & ((1 << bits) - 1);
    let (sub_masks, limit) = match m {
        128 => (1, 32),
        64 => (2, 32),
        32 => (4, 16),
        _ => return Answer::Refused(13),
    };
    if n % 8 != 0 || n < 8 || n > 256 {
        return Answer::Refused(13);
    }
    if field(36, 3) != 0 || field(62, 2) != 0 {
        return Answer::Refused(15);
    }
    if field(56, 6) > limit {
        return Answer::Shifted { limit };
    }
    if (mask.len() as u64) < n / 8 {
        return Answer::Short { needed: n / 8 };
    }
    let columns = n / sub_masks;
    let (set, clear) = (field(40, 8) + 1, field(48, 8) + 1);
    let any = field(39, 1) == 1;
    let mut zeroed = 0;
    let mut first_used = n;
    mask[..n as usize / 8].fill(0);
    each_column(sub_masks, columns, |sub_mask, column| {
        let (start, set_first) = (field(8 * sub_mask, 8), field(32 + sub_mask, 1) == 1);
        let p = sub_mask * columns + column;
        let at = (start + column) % (set + clear);
        let is_set = if set_first { at < set } else { at >= clear };
        if any && is_set {
            mask[p as usize / 8] |= 1 << (p % 8);
            zeroed += 1;
        } else if first_used == n {
            first_used = p;
        }
    });
    Answer::Generated { zeroed, first_used }
}

/// The question as urszovely_mask takes it.
#[no_mangle]
pub unsafe extern "C" fn rust_mask(
    m: u64,
    n: u64,
    descriptor: u64,
    mask: *mut u8,
    length: usize,
    answer: &mut [u64; 4],
) {
    let mask = core::slice::from_raw_parts_mut(mask, length);
    *answer = match generate_mask(m, n, descriptor, mask) {
        Answer::Generated { zeroed, first_used } => [0, zeroed, first_used, 0],
        Answer::Refused(number) => [number, 0, 0, 0],
        Answer::Shifted { limit } => [16, limit, 0, 0],
        Answer::Short { needed } => [11, needed, 0, 0],
    };
}
