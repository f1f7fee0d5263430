//! Compares the run sheet program with the second implementation.
//!
//! `sheets PROGRAM LINES SEED` gives it sheets of that many lines. With the
//! name of an alteration after that, one rule of the second implementation
//! is altered, and that must end in a difference; with the name
//! `alterations`, each of them. `sheets show SEED NUMBER` prints a sheet, and
//! `sheets card SEED NUMBER` the card beside it. `sheets reads` prints the lengths of its own reads.

mod altered;
mod card_shapes;
mod cards;
#[cfg(test)]
mod checks;
mod compare;
mod failures;
mod pieces;
mod program;
mod seen;
mod shapes;
mod talk;
mod writer;

use altered::Altered;
use compare::{Comparison, Difference, Heard};
use pieces::{Cut, Way, LARGEST};
use std::io::Write;
use std::path::Path;
use std::process::{Command, ExitCode};

/// Every datagram must be one read, and an empty one the end.
fn check_datagrams() -> Result<(), String> {
    let lengths = [1, 3, 80, 4096, LARGEST - 1, LARGEST, 2, LARGEST];
    let text = vec![b'x'; lengths.iter().sum()];
    let mut rest = &text[..];
    let mut pieces = Vec::new();
    for length in lengths {
        let (piece, after) = rest.split_at(length);
        pieces.push(piece);
        rest = after;
    }
    let this = std::env::current_exe().map_err(|error| error.to_string())?;
    let mut reads = Command::new(this);
    let ended = program::run(
        reads.arg("reads"),
        &text,
        Way::Datagrams(Cut::Whole),
        &pieces,
    );
    let due: String = lengths.iter().map(|length| format!("{length}\n")).collect();
    let printed = String::from_utf8_lossy(&ended.output);
    match ended.fault {
        None if printed == due + "0\n" => Ok(()),
        fault => Err(format!(
            "a datagram is not one read here: {printed} {fault:?}"
        )),
    }
}

/// The examples, and the random sheets as the program printed them.
fn hear(comparison: &mut Comparison, lines: u64) -> Result<Vec<Heard>, Box<Difference>> {
    comparison.examples()?;
    comparison.sheets(lines)
}

fn talk_through(program: &Path, seed: u64) -> Result<u64, String> {
    let mut turns = 0;
    for number in writer::TALK..writer::TALK + 6 {
        let written = writer::write(seed, number);
        let mut random = writer::random_of(!seed, number);
        let way = match number % 2 {
            0 => Way::Datagrams(Cut::Whole),
            _ => Way::Pipe(Cut::Whole),
        };
        turns += talk::talk(program, &written, way, &mut random)?;
    }
    Ok(turns)
}

fn differ(difference: &Difference) {
    print!("The program and the second implementation differ.\n{difference}");
    println!(
        "A sheet is printed by: sheets show SEED NUMBER; its card by: sheets card SEED NUMBER"
    );
}

fn compare(program: &Path, lines: u64, seed: u64) -> Result<(), String> {
    let mut comparison = Comparison::new(program, seed);
    if let Err(difference) = hear(&mut comparison, lines) {
        differ(&difference);
        return Err("not alike".to_string());
    }
    let turns = talk_through(program, seed)?;
    talk::said_before_reading(program)?;
    let failures = failures::all(program)?;
    let missing = comparison.seen.missing();
    if !missing.is_empty() {
        println!("No difference, but these were never seen:");
        missing.iter().for_each(|what| println!("- {what}"));
        return Err("too little seen".to_string());
    }
    println!("alike with seed {seed}: {}", comparison.seen);
    if cards::is_root() {
        println!("not tried, because root may read it: a card that may not be read");
    }
    println!("a talk of {turns} turns; ended after each of {failures} failed writes and reads");
    Ok(())
}

/// Every alteration must be found on sheets of this many lines.
fn try_alterations(program: &Path, lines: u64, seed: u64, all: &[Altered]) -> Result<(), String> {
    let mut comparison = Comparison::new(program, seed);
    let heard = hear(&mut comparison, lines).map_err(|difference| {
        differ(&difference);
        "not alike as written".to_string()
    })?;
    let mut lost = 0;
    for altered in all {
        let (name, text) = (altered.name(), altered.text());
        match altered.found(&heard) {
            Some(Difference {
                sheet, line_number, ..
            }) => {
                println!("found in {sheet}, line {line_number}: {name} ({text})");
            }
            None => {
                lost += 1;
                println!("NOT FOUND: {name} ({text})");
            }
        }
    }
    println!("{} alterations, {lost} not found", all.len());
    match lost {
        0 => Ok(()),
        _ => Err("an alteration was not found".to_string()),
    }
}

fn usage() -> Result<(), String> {
    eprintln!("usage: sheets PROGRAM LINES SEED [alterations | the name of one]");
    eprintln!("       sheets show SEED NUMBER");
    eprintln!("       sheets card SEED NUMBER");
    eprintln!("alterations:");
    for altered in Altered::all() {
        eprintln!("  {}: {}", altered.name(), altered.text());
    }
    Err("nothing was compared".to_string())
}

fn show(seed: u64, number: u64) -> Result<(), String> {
    let text = writer::write(seed, number).text;
    print(&text)
}

/// The card's bytes. One that has none is told by its name.
fn show_card(seed: u64, number: u64) -> Result<(), String> {
    let written = writer::write(seed, number);
    match written.card.bytes() {
        Some(bytes) => print(bytes),
        None => Err(format!("no bytes: {}", written.card_name)),
    }
}

fn print(bytes: &[u8]) -> Result<(), String> {
    std::io::stdout()
        .write_all(bytes)
        .map_err(|error| error.to_string())
}

fn obey(arguments: &[&str]) -> Result<(), String> {
    let number = |text: &str| {
        text.parse::<u64>()
            .map_err(|_| format!("no number: {text}"))
    };
    match *arguments {
        ["reads"] => program::print_reads().map_err(|error| error.to_string()),
        ["show", seed, sheet] => show(number(seed)?, number(sheet)?),
        ["card", seed, sheet] => show_card(number(seed)?, number(sheet)?),
        [program, lines, seed] => {
            check_datagrams()?;
            compare(Path::new(program), number(lines)?, number(seed)?)
        }
        [program, lines, seed, name] => {
            let all = match (name, Altered::by_name(name)) {
                ("alterations", _) => Altered::all(),
                (_, Some(altered)) => vec![altered],
                (_, None) => return usage(),
            };
            try_alterations(Path::new(program), number(lines)?, number(seed)?, &all)
        }
        _ => usage(),
    }
}

fn main() -> ExitCode {
    let arguments: Vec<String> = std::env::args().skip(1).collect();
    let arguments: Vec<&str> = arguments.iter().map(String::as_str).collect();
    match obey(&arguments) {
        Ok(()) => ExitCode::SUCCESS,
        Err(fault) => {
            println!("FAILED: {fault}");
            ExitCode::FAILURE
        }
    }
}
