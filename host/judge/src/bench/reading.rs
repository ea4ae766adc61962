//! The reading of both texts, and beside it splitting them into lines and fields.

use std::hint::black_box;

use reader::Reader;

use super::questions::CATALOG;
use super::sides::{Side, timed};

/// A question over sixteen probes.
const STATEMENT: &[u8] = include_bytes!("../../../../crates/read_texts/stdin");

/// The proved reading, into numbers that are lent.
pub fn read() -> Side {
    let mut reader = Reader::default();
    Box::new(move |count| {
        timed(count, || {
            black_box(reader.read(black_box(CATALOG), black_box(STATEMENT)));
        })
    })
}

/// Lines, then the fields of each.
pub fn split() -> Side {
    Box::new(|count| {
        timed(count, || {
            split_text(black_box(CATALOG));
            split_text(black_box(STATEMENT));
        })
    })
}

/// Where its loop happens to be placed makes up to a quarter of its time, so it has the place where it is fastest.
#[inline(never)]
fn split_text(text: &[u8]) {
    // SAFETY: it places the code behind it, 16 bytes past a multiple of 64, and does nothing.
    #[cfg(target_arch = "x86_64")]
    unsafe {
        std::arch::asm!(".p2align 6", ".nops 16", options(nomem, nostack, preserves_flags));
    }
    for line in text.split(|&b| b == b'\n') {
        for field in line.split(|&b| b == b'\t') {
            black_box(field);
        }
    }
}
