//! The fuzz target of the C calls, for libFuzzer.

#![no_main]

mod counters;
#[path = "../../compare/src/library.rs"]
mod library;

use fuzzed::{calls, slices};
use second::rules::Rules;
use std::sync::atomic::{AtomicU64, Ordering};

static CALLS: AtomicU64 = AtomicU64::new(0);

extern "C" fn print_count() {
    println!("calls compared: {}", CALLS.load(Ordering::Relaxed));
}

/// # Safety
/// The fuzzer lends so many bytes.
#[no_mangle]
pub unsafe extern "C" fn LLVMFuzzerTestOneInput(bytes: *const u8, length: usize) -> i32 {
    let input = counters::input(bytes, length, print_count);
    match calls::play(input, library::call, Rules::AS_WRITTEN, &mut counters::note) {
        Ok(calls) => {
            CALLS.fetch_add(calls, Ordering::Relaxed);
            0
        }
        Err(difference) => counters::differ(&difference),
    }
}
