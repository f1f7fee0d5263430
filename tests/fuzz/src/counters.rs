//! What both fuzz targets share: the cells reached, told to the fuzzer as
//! counters of its own, and the ends of a run.

use fuzzed::seen::{Cell, CELLS};
use std::fmt::Display;
use std::sync::atomic::{AtomicU8, Ordering};
use std::sync::Once;

/// libFuzzer clears this section before each input, and keeps an input that
/// reaches a new cell. So the answers guide it, not only the edges.
#[used]
#[link_section = "__libfuzzer_extra_counters"]
static REACHED: [AtomicU8; CELLS] = [const { AtomicU8::new(0) }; CELLS];

static BEGUN: Once = Once::new();

extern "C" {
    fn atexit(handler: extern "C" fn()) -> i32;
}

pub fn note(cell: Cell) {
    REACHED[cell.index()].store(1, Ordering::Relaxed);
}

/// The input's bytes. At the end of the run the count is printed.
///
/// # Safety
/// So many bytes are lent, and longer than this call.
pub unsafe fn input<'a>(bytes: *const u8, length: usize, count: extern "C" fn()) -> &'a [u8] {
    BEGUN.call_once(|| {
        atexit(count);
    });
    match length {
        0 => &[],
        _ => std::slice::from_raw_parts(bytes, length),
    }
}

/// The fuzzer keeps the input at an abort.
pub fn differ(difference: &dyn Display) -> ! {
    eprintln!("DIFFERENCE\n{difference}");
    std::process::abort()
}
