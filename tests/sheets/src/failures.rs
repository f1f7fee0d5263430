//! Outputs that cannot be written and an input that cannot be read: the
//! program must end.

use crate::cards::{Card, Folder};
use crate::program::Running;
use second::card;
use std::fs::{File, OpenOptions};
use std::io::{self, PipeWriter, Read, Write};
use std::os::unix::process::CommandExt;
use std::path::Path;
use std::process::{Command, Stdio};

const LINES: &[u8] = b"(store new 1 1 2 0)\n(enter 0)\n(look 0 0)\n";

// Numbers of Linux.
const SIGPIPE: i32 = 13;
const SIG_IGN: usize = 1;
const SIG_ERR: usize = usize::MAX;

extern "C" {
    fn signal(signum: i32, handler: usize) -> usize;
}

/// What comes to the standard input.
#[derive(Clone, Copy, PartialEq, Eq, Debug)]
enum Input {
    /// A few lines and the end, where a program ends even if it does not
    /// heed its failed writes. It must not try them for ever.
    Few,
    /// A few lines, and no end: the program ends at its write or not at all.
    FewAndOpen,
    /// Lines without end.
    Endless,
}

/// How the program starts with regard to SIGPIPE.
#[derive(Clone, Copy, PartialEq, Eq, Debug)]
pub enum Sigpipe {
    /// The first write to a closed pipe kills it, unless it sees to the
    /// signal itself, so it is not seen what it does when a write fails.
    /// `Command` starts every program so.
    Default,
    /// A write to a closed pipe fails with EPIPE.
    Ignored,
}

impl Sigpipe {
    /// Makes the command start its program so.
    pub fn of(self, command: &mut Command) {
        let ignore = || match unsafe { signal(SIGPIPE, SIG_IGN) } {
            SIG_ERR => Err(io::Error::last_os_error()),
            _ => Ok(()),
        };
        if self == Sigpipe::Ignored {
            // Safe because `signal` may be called between fork and exec.
            unsafe { command.pre_exec(ignore) };
        }
    }
}

/// Where the standard output goes.
#[derive(Clone, Copy, PartialEq, Eq, Debug)]
enum Output {
    /// A device that has no room.
    Full,
    /// A pipe that nobody reads any more.
    Closed(Sigpipe),
    /// A pipe that is closed after the first bytes.
    ClosedLater(Sigpipe),
}

/// Every failed write and the failed read; the number of them.
pub fn all(program: &Path) -> Result<u64, String> {
    let mut count = 0;
    for input in [Input::Few, Input::FewAndOpen, Input::Endless] {
        failed_write(program, input, Output::Full)?;
        count += 1;
    }
    for sigpipe in [Sigpipe::Default, Sigpipe::Ignored] {
        for input in [Input::Few, Input::FewAndOpen, Input::Endless] {
            failed_write(program, input, Output::Closed(sigpipe))?;
            count += 1;
        }
        failed_write(program, Input::Endless, Output::ClosedLater(sigpipe))?;
        count += 1;
    }
    failed_read(program)?;
    unsaid(program)?;
    Ok(count + 2)
}

fn failed_write(program: &Path, input: Input, output: Output) -> Result<(), String> {
    let told = |error: String| format!("{input:?} input, {output:?} output: {error}");
    play(program, input, output).map_err(told)
}

fn play(program: &Path, input: Input, output: Output) -> Result<(), String> {
    let folder = Folder::with(&Card::File(card::feathered()))?;
    let (stdin, feeds) = io::pipe().map_err(|error| error.to_string())?;
    let (stdout, reads) = output_of(output).map_err(|error| error.to_string())?;
    let mut command = folder.command(program);
    if let Output::Closed(sigpipe) | Output::ClosedLater(sigpipe) = output {
        sigpipe.of(&mut command);
    }
    let mut running = Running::start(command.stdin(stdin).stdout(stdout))?;
    drop(command);
    std::thread::scope(|scope| {
        let feeding = scope.spawn(move || feed(feeds, input));
        if let Some(mut reads) = reads {
            // Some bytes, whatever they are, and then nobody reads.
            let _ = reads.read(&mut [0; 10]);
        }
        let ended = running.ended();
        drop(running);
        drop(feeding.join());
        ended.map(|_| ())
    })
}

/// The standard output, and the pipe's other end if it is to be read.
fn output_of(output: Output) -> io::Result<(Stdio, Option<io::PipeReader>)> {
    if output == Output::Full {
        let full = OpenOptions::new().write(true).open("/dev/full")?;
        return Ok((full.into(), None));
    }
    let (reads, writes) = io::pipe()?;
    let reads = matches!(output, Output::ClosedLater(_)).then_some(reads);
    Ok((writes.into(), reads))
}

/// Feeds until the program has ended, and gives back a pipe to keep open.
fn feed(mut pipe: PipeWriter, input: Input) -> Option<PipeWriter> {
    let many = LINES.repeat(1000);
    match input {
        Input::Few | Input::FewAndOpen => drop(pipe.write_all(LINES)),
        Input::Endless => while pipe.write_all(&many).is_ok() {},
    }
    (input == Input::FewAndOpen).then_some(pipe)
}

/// What is to be said of a missing card cannot be said: the output stays.
fn unsaid(program: &Path) -> Result<(), String> {
    let folder = Folder::with(&Card::Missing)?;
    let full = OpenOptions::new().write(true).open("/dev/full");
    let full = full.map_err(|error| error.to_string())?;
    let (stdin, feeds) = io::pipe().map_err(|error| error.to_string())?;
    let mut command = folder.command(program);
    command.stdin(stdin).stdout(Stdio::piped()).stderr(full);
    let mut running = Running::start(&mut command)?;
    drop(feed(feeds, Input::Few));
    while running.output.more()? {}
    running.ended()?;
    match &running.output.bytes[..] {
        b"(1 refused 40)\n(2 refused 1)\n(3 refused 1)\n" => Ok(()),
        printed => Err(format!(
            "with a standard error that has no room it printed {}",
            printed.escape_ascii()
        )),
    }
}

/// A folder cannot be read as a file.
fn failed_read(program: &Path) -> Result<(), String> {
    let started_in = Folder::with(&Card::File(card::feathered()))?;
    let folder = File::open(std::env::temp_dir()).map_err(|error| error.to_string())?;
    let mut command = started_in.command(program);
    let mut running = Running::start(command.stdin(folder).stdout(Stdio::piped()))?;
    while running.output.more()? {}
    running.ended()?;
    match running.output.bytes.is_empty() {
        true => Ok(()),
        false => Err("it printed something for an input that it cannot read".to_string()),
    }
}
