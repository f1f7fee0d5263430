//! A person at a terminal: a line is sent only after the reply to the one
//! before was read.

use crate::cards::{Card, Folder};
use crate::compare::shown;
use crate::pieces::{Cut, Way};
use crate::program::{input, Feeder, Running};
use crate::writer::Written;
use second::card;
use second::random::Random;
use second::sheet::{lines, play};
use std::path::Path;
use std::process::Stdio;

/// Talks through a sheet and returns the number of turns. After the first
/// reply the card is exchanged, which the program has read by then.
pub fn talk(
    program: &Path,
    written: &Written,
    way: Way,
    random: &mut Random,
) -> Result<u64, String> {
    let folder = Folder::with(&written.card)?;
    let text = &written.text[..];
    let (stdin, mut feeder) = input(way, text).map_err(|error| error.to_string())?;
    let mut command = folder.command(program);
    let mut running = Running::start(command.stdin(stdin).stdout(Stdio::piped()))?;
    let due = play(&written.card.entries(), text);
    let mut dues = due.split_inclusive(|&byte| byte == b'\n');
    let (mut said, mut heard, mut turns) = (0, 0, 0);
    while said < text.len() {
        let turn = next_turn(&text[said..], random);
        send(&mut feeder, turn, random)?;
        said += turn.len();
        turns += 1;
        let ended = turn.iter().filter(|&&byte| byte == b'\n').count();
        heard += dues.by_ref().take(ended).map(<[u8]>::len).sum::<usize>();
        hear(&mut running, &due[..heard]).map_err(|fault| told(turn, &fault))?;
        if turns == 1 {
            folder.exchange(&card::feathered())?;
        }
    }
    feeder.end().map_err(|error| error.to_string())?;
    while running.output.more()? {}
    running.ended()?;
    hear(&mut running, &due)?;
    Ok(turns)
}

fn told(turn: &[u8], fault: &str) -> String {
    format!("in a talk, after {}: {fault}", shown(turn))
}

/// A line, or sometimes a few.
fn next_turn<'a>(rest: &'a [u8], random: &mut Random) -> &'a [u8] {
    let count = random.pick(&[1, 1, 1, 1, 1, 3]);
    let lines = rest.split_inclusive(|&byte| byte == b'\n').take(count);
    &rest[..lines.map(<[u8]>::len).sum()]
}

/// Sends a turn whole or in two pieces.
fn send(feeder: &mut Feeder, turn: &[u8], random: &mut Random) -> Result<(), String> {
    let at = match random.below(3) {
        0 => random.below(turn.len() as u64) as usize,
        _ => 0,
    };
    let (first, second) = turn.split_at(at);
    let pieces = [first, second].into_iter();
    for piece in pieces.filter(|piece| !piece.is_empty()) {
        feeder.send(piece).map_err(|error| error.to_string())?;
    }
    Ok(())
}

/// Waits until as much was printed as is due by now, and compares it.
fn hear(running: &mut Running, due: &[u8]) -> Result<(), String> {
    while running.output.bytes.len() < due.len() {
        if !running.output.more()? {
            return Err("it has ended".to_string());
        }
    }
    if running.output.bytes == due {
        return Ok(());
    }
    let end = |text: &[u8]| shown(&text[text.len().saturating_sub(100)..]);
    Err(format!(
        "it printed {}, not {}",
        end(&running.output.bytes),
        end(due)
    ))
}

/// What is to be said of a card is said before the program reads its input.
pub fn said_before_reading(program: &Path) -> Result<(), String> {
    for card in [Card::Missing, Card::File(b"90000\nx\n".to_vec())] {
        let folder = Folder::with(&card)?;
        let way = Way::Pipe(Cut::Whole);
        let (stdin, feeder) = input(way, b"").map_err(|error| error.to_string())?;
        let mut command = folder.command(program);
        command.stdin(stdin).stdout(Stdio::piped());
        let mut running = Running::start(command.stderr(Stdio::piped()))?;
        while lines(&running.error.bytes).count() < 2 || !running.error.bytes.ends_with(b"\n") {
            let told = |fault: String| format!("before its input is there: {fault}");
            if !running.error.more().map_err(told)? {
                return Err("it ended before its input was there".to_string());
            }
        }
        feeder.end().map_err(|error| error.to_string())?;
        while running.error.more()? {}
        running.ended()?;
        card.check_said(&running.error.bytes)?;
    }
    Ok(())
}
