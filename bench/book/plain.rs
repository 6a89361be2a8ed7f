//! The check sums of the blocks of a layout book as one writes them in Rust without a thought of speed, and nothing else of reading
//! it. With sums of 64 bits in place of 32 it takes a fifth more.
#![no_std]

#[panic_handler]
fn panic(_: &core::panic::PanicInfo) -> ! {
    loop {}
}

fn check(block: &[u8]) -> u32 {
    let mut sum = 0;
    for (i, &byte) in block[..508].iter().enumerate() {
        sum += (i as u32 + 1) * byte as u32;
    }
    sum % 65521
}

/// How many blocks hold their check.
#[no_mangle]
pub unsafe extern "C" fn rust_checks(book: *const u8, length: usize) -> u64 {
    let book = core::slice::from_raw_parts(book, length);
    let mut right = 0;
    for block in book.chunks_exact(512) {
        let held = u32::from_le_bytes([block[508], block[509], block[510], block[511]]);
        right += (check(block) == held) as u64;
    }
    right
}
