//! Says at which call the library halted or never came back.

use std::sync::atomic::{AtomicU64, Ordering};
use std::time::Duration;

static CALL_NUMBER: AtomicU64 = AtomicU64::new(0);

const SIGNALS: [i32; 5] = [4, 6, 7, 8, 11];
const PAUSE: Duration = Duration::from_secs(20);
const PAUSES: u32 = 3;

extern "C" {
    fn signal(number: i32, handler: extern "C" fn(i32)) -> usize;
    fn write(file: i32, bytes: *const u8, length: usize) -> isize;
    fn _exit(code: i32) -> !;
}

pub fn note_call(number: u64) {
    CALL_NUMBER.store(number, Ordering::Relaxed);
}

/// From now on a halt or an endless call ends the run with exit 1.
pub fn begin() {
    for number in SIGNALS {
        // The handler only reads the number, writes and leaves.
        unsafe { signal(number, halted) };
    }
    std::thread::spawn(wait_for_stillness);
}

extern "C" fn halted(_signal: i32) {
    leave(b"The program was halted during call number ");
}

fn wait_for_stillness() {
    let mut before = 0;
    let mut still = 0;
    while still < PAUSES {
        std::thread::sleep(PAUSE);
        let now = CALL_NUMBER.load(Ordering::Relaxed);
        still = if now == before { still + 1 } else { 0 };
        before = now;
    }
    leave(b"No end for a long time of call number ");
}

fn leave(text: &[u8]) -> ! {
    let mut digits = [0; 21];
    digits[20] = b'\n';
    let mut first = 20;
    let mut rest = CALL_NUMBER.load(Ordering::Relaxed);
    loop {
        first -= 1;
        digits[first] = b'0' + (rest % 10) as u8;
        rest /= 10;
        if rest == 0 {
            break;
        }
    }
    let digits = &digits[first..];
    unsafe {
        write(1, text.as_ptr(), text.len());
        write(1, digits.as_ptr(), digits.len());
        _exit(1)
    }
}
