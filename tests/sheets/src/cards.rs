//! The card in the folder where the program is started, and what the program
//! must say of it on standard error.

use second::card;
use second::sheet::{lines, pitch};
use second::store::{Pitch, TABLE};
use std::fs::{self, File, OpenOptions};
use std::io::{self, Write};
use std::os::unix::fs::{symlink, DirBuilderExt, OpenOptionsExt, PermissionsExt};
use std::path::{Path, PathBuf};
use std::process::Command;
use std::sync::atomic::{AtomicU64, Ordering};
use std::thread::JoinHandle;
use std::time::Duration;

/// The program reads no more than this of a card.
pub const MOST_READ: usize = 4096;

// A number of Linux.
const O_NONBLOCK: i32 = 2048;

extern "C" {
    fn mkfifo(path: *const std::ffi::c_char, mode: u32) -> i32;
}

/// What stands under the name `card`.
#[derive(Clone, PartialEq, Eq, Debug)]
pub enum Card {
    File(Vec<u8>),
    /// A named pipe that gives these bytes in pieces.
    Pipe(Vec<u8>),
    Missing,
    LinkToNothing,
    LinkToItself,
    /// A file of a good table that only root may read.
    Forbidden,
    Directory,
    /// A file that opens, and whose every read fails.
    Failing,
}

impl Card {
    /// The bytes that can be read, if any can.
    pub fn bytes(&self) -> Option<&[u8]> {
        match self {
            Card::File(bytes) | Card::Pipe(bytes) => Some(bytes),
            _ => None,
        }
    }

    pub fn entries(&self) -> Vec<Pitch> {
        card::entries_if_any(self.bytes())
    }

    /// How the first line on standard error may begin. Each of these is true
    /// of the card. None if the card has 32 good lines.
    fn reasons(&self) -> Vec<String> {
        let reason = |text: &str| vec![format!("run_sheet: card{text}")];
        match self {
            Card::File(bytes) | Card::Pipe(bytes) => reasons_of(bytes),
            Card::Directory | Card::Failing => reason(" cannot be read: "),
            _ => reason(", looked for in the folder where run_sheet was started: "),
        }
    }

    /// Whether the standard error of a run that ended well is what is due.
    pub fn check_said(&self, error: &[u8]) -> Result<(), String> {
        const SECOND: &[u8] =
            b"run_sheet: without a first table each store line is refused with 40, or with a number that is tested before it";
        let said = || format!("it said on standard error: {}", error.escape_ascii());
        let reasons = self.reasons();
        let told: Vec<&[u8]> = lines(error).collect();
        let right = match told[..] {
            [] => reasons.is_empty(),
            [first, second] => {
                let begins = |reason: &String| first.starts_with(reason.as_bytes());
                reasons.iter().any(begins) && second == SECOND && error.ends_with(b"\n")
            }
            _ => false,
        };
        match right {
            true => Ok(()),
            false if reasons.is_empty() => Err(format!("{}; the card is good", said())),
            false => Err(format!("{}; due: {}", said(), reasons.join(" or "))),
        }
    }
}

fn reasons_of(bytes: &[u8]) -> Vec<String> {
    if bytes.len() >= MOST_READ {
        return vec!["run_sheet: card is too long: a first table is 32 lines".to_string()];
    }
    let count = lines(bytes).count();
    let bad = lines(bytes).position(|line| pitch(line).is_none());
    let bad = bad.map(|at| format!("run_sheet: card: line {} is no pitch", at + 1));
    let count = match count {
        TABLE => None,
        1 => Some("run_sheet: card has 1 line".to_string()),
        0..TABLE => Some(format!(
            "run_sheet: card has {count} lines, and a first table is 32"
        )),
        _ => Some("run_sheet: card has more than 32 lines, and a first table is 32".to_string()),
    };
    bad.into_iter().chain(count).collect()
}

/// Whether the tests are run as root, who may read every file.
pub fn is_root() -> bool {
    extern "C" {
        fn geteuid() -> u32;
    }
    // It reads a number of this process.
    unsafe { geteuid() == 0 }
}

/// A folder with a card. It does not outlive this.
pub struct Folder {
    path: PathBuf,
    card: Card,
}

impl Folder {
    pub fn with(card: &Card) -> Result<Folder, String> {
        static NUMBER: AtomicU64 = AtomicU64::new(0);
        let number = NUMBER.fetch_add(1, Ordering::Relaxed);
        let name = format!("sheets-{}-{number}", std::process::id());
        let folder = Folder {
            path: std::env::temp_dir().join(name),
            card: card.clone(),
        };
        let mut builder = fs::DirBuilder::new();
        let made = builder.mode(0o700).create(&folder.path);
        match made.and_then(|()| put(&folder.card_path(), card)) {
            Ok(()) => Ok(folder),
            Err(error) => Err(format!("no card {card:?}: {error}")),
        }
    }

    fn card_path(&self) -> PathBuf {
        self.path.join("card")
    }

    /// The program, started in this folder.
    pub fn command(&self, program: &Path) -> Command {
        let mut command = Command::new(program);
        command.current_dir(&self.path);
        command
    }

    /// Puts another card in place of this one, which is a file.
    pub fn exchange(&self, bytes: &[u8]) -> Result<(), String> {
        fs::write(self.card_path(), bytes).map_err(|error| error.to_string())
    }

    /// Feeds the card of one run, if it is a pipe.
    pub fn feed(&self) -> Option<Feeding> {
        let Card::Pipe(bytes) = &self.card else {
            return None;
        };
        let (path, bytes) = (self.card_path(), bytes.clone());
        let fed = path.clone();
        let thread = std::thread::spawn(move || drop(feed(&fed, &bytes)));
        Some(Feeding {
            path,
            thread: Some(thread),
        })
    }
}

impl Drop for Folder {
    fn drop(&mut self) {
        // What stays in the folder for temporary files harms nobody.
        let _ = fs::remove_dir_all(&self.path);
    }
}

fn put(path: &Path, card: &Card) -> io::Result<()> {
    match card {
        Card::File(bytes) => fs::write(path, bytes),
        Card::Pipe(_) => make_pipe(path),
        Card::Missing => Ok(()),
        Card::LinkToNothing => symlink("nothing", path),
        Card::LinkToItself => symlink("card", path),
        Card::Forbidden => {
            fs::write(path, card::feathered())?;
            fs::set_permissions(path, fs::Permissions::from_mode(0))
        }
        Card::Directory => fs::create_dir(path),
        // Nothing is mapped at the first address of a program.
        Card::Failing => symlink("/proc/self/mem", path),
    }
}

fn make_pipe(path: &Path) -> io::Result<()> {
    use std::os::unix::ffi::OsStrExt;
    let path = std::ffi::CString::new(path.as_os_str().as_bytes())?;
    // The path ends with a zero byte and lives until the call is over.
    match unsafe { mkfifo(path.as_ptr(), 0o600) } {
        0 => Ok(()),
        _ => Err(io::Error::last_os_error()),
    }
}

/// Waits until the program opens its end. It may close it early.
fn feed(path: &Path, bytes: &[u8]) -> io::Result<()> {
    let mut pipe = File::options().write(true).open(path)?;
    for piece in bytes.chunks(bytes.len() / 3 + 1) {
        pipe.write_all(piece)?;
        std::thread::sleep(Duration::from_millis(2));
    }
    Ok(())
}

/// A named pipe while it is fed.
pub struct Feeding {
    path: PathBuf,
    thread: Option<JoinHandle<()>>,
}

impl Drop for Feeding {
    fn drop(&mut self) {
        // If the program never opened its end, the thread still waits.
        let mut options = OpenOptions::new();
        let opened = options.read(true).custom_flags(O_NONBLOCK).open(&self.path);
        if let (Ok(_), Some(thread)) = (&opened, self.thread.take()) {
            let _ = thread.join();
        }
    }
}
