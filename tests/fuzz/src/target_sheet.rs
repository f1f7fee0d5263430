//! The fuzz target of the run sheet program, for libFuzzer. The program's
//! own object is linked in; its main, and what it calls to open, read, write
//! and close files, have other names.

#![no_main]

mod counters;

use fuzzed::cards::{Card, MOST_READ};
use fuzzed::sheet::{self, Given, Wrote};
use std::ffi::{c_char, CStr};
use std::sync::atomic::{AtomicU64, Ordering};
use std::sync::{Mutex, MutexGuard, PoisonError};

static LINES: AtomicU64 = AtomicU64::new(0);

extern "C" fn print_count() {
    println!("lines compared: {}", LINES.load(Ordering::Relaxed));
}

/// The descriptor of the card.
const CARD: i32 = 3;
/// How Linux says in which way a file is opened.
const ACCESS: i32 = 3;
const READ_ONLY: i32 = 0;
/// The numbers of Linux for a missing file and for a directory.
const ENOENT: i32 = 2;
const EISDIR: i32 = 21;

/// The card while the program runs: opened once, before the standard input
/// is read, and closed by then.
#[derive(Clone, Copy, PartialEq, Eq)]
enum Stage {
    Unopened,
    Open,
    Closed,
}

/// The program's files while it runs.
struct Files {
    card: Card,
    stage: Stage,
    card_reads: Vec<Vec<u8>>,
    /// How much of the card was read.
    card_read: usize,
    reads: Vec<Vec<u8>>,
    most_written: usize,
    output: Vec<u8>,
    error: Vec<u8>,
    errno: i32,
    fault: Option<String>,
}

static FILES: Mutex<Files> = Mutex::new(Files {
    card: Card::Missing,
    stage: Stage::Unopened,
    card_reads: Vec::new(),
    card_read: 0,
    reads: Vec::new(),
    most_written: 0,
    output: Vec::new(),
    error: Vec::new(),
    errno: 0,
    fault: None,
});

fn files() -> MutexGuard<'static, Files> {
    FILES.lock().unwrap_or_else(PoisonError::into_inner)
}

impl Files {
    /// Notes a fault, the first of them, and fails.
    fn fails(&mut self, fault: &str) -> i32 {
        self.fault.get_or_insert(fault.to_string());
        -1
    }

    /// The rest of the next piece of the card or of the standard input, as
    /// much of it as there is room for.
    fn next(&mut self, of_card: bool, length: usize) -> Vec<u8> {
        let pieces = match of_card {
            true => &mut self.card_reads,
            false => &mut self.reads,
        };
        let Some(mut piece) = pieces.pop() else {
            return Vec::new();
        };
        let rest = piece.split_off(piece.len().min(length));
        if !rest.is_empty() {
            pieces.push(rest);
        }
        piece
    }

    fn read_card(&mut self, length: usize) -> Result<Vec<u8>, i32> {
        if self.stage != Stage::Open {
            return Err(self.fails("it reads a card that is not open"));
        }
        if self.card == Card::Directory {
            self.errno = EISDIR;
            return Err(-1);
        }
        let piece = self.next(true, length);
        self.card_read += piece.len();
        match self.card_read {
            0..=MOST_READ => Ok(piece),
            _ => Err(self.fails("it reads more than 4096 bytes of the card")),
        }
    }
}

extern "C" {
    fn run_sheet_main() -> i32;
}

/// # Safety
/// The path ends with a zero byte.
#[no_mangle]
pub unsafe extern "C" fn run_sheet_open(path: *const c_char, flags: i32) -> i32 {
    let mut files = files();
    if CStr::from_ptr(path) != c"card" || files.stage != Stage::Unopened {
        return files.fails("it opens another file than the card, or the card again");
    }
    if flags & ACCESS != READ_ONLY {
        return files.fails("it opens the card not only to read it");
    }
    if files.card == Card::Missing {
        files.stage = Stage::Closed;
        files.errno = ENOENT;
        return -1;
    }
    files.stage = Stage::Open;
    CARD
}

#[no_mangle]
pub extern "C" fn run_sheet_close(file: i32) -> i32 {
    let mut files = files();
    if file != CARD || files.stage != Stage::Open {
        return files.fails("it closes a file that is not open");
    }
    files.stage = Stage::Closed;
    0
}

#[no_mangle]
pub extern "C" fn run_sheet_errno() -> i32 {
    files().errno
}

/// One read is the next piece, as much of it as there is room for.
///
/// # Safety
/// The program lends so many bytes.
#[no_mangle]
pub unsafe extern "C" fn run_sheet_read(file: i32, to: *mut u8, length: usize) -> isize {
    let mut files = files();
    let piece = match (file, files.stage) {
        (CARD, _) => files.read_card(length),
        (0, Stage::Closed) => Ok(files.next(false, length)),
        _ => Err(files.fails("it reads its input before the card is closed, or another file")),
    };
    match piece {
        Ok(piece) => {
            std::slice::from_raw_parts_mut(to, piece.len()).copy_from_slice(&piece);
            piece.len() as isize
        }
        Err(status) => status as isize,
    }
}

/// # Safety
/// The program lends so many bytes.
#[no_mangle]
pub unsafe extern "C" fn run_sheet_write(file: i32, from: *const u8, length: usize) -> isize {
    let mut files = files();
    let taken = length.min(files.most_written);
    let bytes = std::slice::from_raw_parts(from, taken);
    match file {
        1 => files.output.extend_from_slice(bytes),
        2 => files.error.extend_from_slice(bytes),
        _ => return files.fails("it writes to another file") as isize,
    }
    taken as isize
}

/// The pieces, the last one first.
fn reversed(pieces: Vec<&[u8]>) -> Vec<Vec<u8>> {
    pieces.into_iter().rev().map(<[u8]>::to_vec).collect()
}

fn run(given: &Given) -> Result<Wrote, String> {
    let card_bytes = given.card.bytes().unwrap_or_default();
    *files() = Files {
        card: given.card.clone(),
        stage: Stage::Unopened,
        card_reads: reversed(given.cut(card_bytes)),
        card_read: 0,
        reads: reversed(given.reads()),
        most_written: given.most_written,
        output: Vec::new(),
        error: Vec::new(),
        errno: 0,
        fault: None,
    };
    // The program has no data of its own between two runs.
    let status = unsafe { run_sheet_main() };
    let mut files = files();
    match files.fault.take() {
        Some(fault) => Err(fault),
        None if status != 0 => Err(format!("it ended with {status}")),
        None => Ok(Wrote {
            output: std::mem::take(&mut files.output),
            error: std::mem::take(&mut files.error),
        }),
    }
}

/// # Safety
/// The fuzzer lends so many bytes.
#[no_mangle]
pub unsafe extern "C" fn LLVMFuzzerTestOneInput(bytes: *const u8, length: usize) -> i32 {
    let input = counters::input(bytes, length, print_count);
    match sheet::compare(input, &mut run, &mut counters::note) {
        Ok(output) => {
            let lines = second::sheet::lines(&output).count();
            LINES.fetch_add(lines as u64, Ordering::Relaxed);
            0
        }
        Err(difference) => counters::differ(&difference),
    }
}
