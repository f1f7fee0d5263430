//! Replays the kept corpus: each input through the comparison of the fuzz
//! target, on the library and on the program. No difference may show, every
//! answer must be reached, and altered rules must be found.
//!
//! `replay PROGRAM CORPUS` does so. `replay choose calls FOLDER` and `replay
//! choose sheet FOLDER` print the names of few inputs that reach and find all
//! that the folder's do.

#[path = "../../compare/src/library.rs"]
mod library;

use fuzzed::cards::Folder;
use fuzzed::pieces::{Cut, Way};
use fuzzed::seen::{missing_of_calls, missing_of_sheets, Answer, Cell};
use fuzzed::sheet::{Given, Wrote};
use fuzzed::{calls, program, sheet, slices};
use second::misread;
use second::rules::{Alteration, Rules};
use second::sheet::{lines, play, play_by};
use std::collections::BTreeSet;
use std::path::Path;
use std::process::ExitCode;

/// An input of a corpus, by the name of its file.
struct Input {
    name: String,
    bytes: Vec<u8>,
}

fn inputs(folder: &Path) -> Result<Vec<Input>, String> {
    let said = |error: std::io::Error| format!("{}: {error}", folder.display());
    let mut inputs = Vec::new();
    for file in std::fs::read_dir(folder).map_err(said)? {
        let file = file.map_err(said)?;
        inputs.push(Input {
            name: file.file_name().to_string_lossy().into_owned(),
            bytes: std::fs::read(file.path()).map_err(said)?,
        });
    }
    inputs.sort_by(|a, b| a.name.cmp(&b.name));
    match inputs.len() {
        0 => Err(format!("{}: no corpus", folder.display())),
        _ => Ok(inputs),
    }
}

/// What an input has reached and found.
#[derive(Default)]
struct Reached {
    cells: BTreeSet<Cell>,
    altered: BTreeSet<String>,
    compared: u64,
}

impl Reached {
    fn add(&mut self, other: Reached) {
        self.cells.extend(other.cells);
        self.altered.extend(other.altered);
        self.compared += other.compared;
    }

    /// How much of this the other has not: alterations, answers, and cells.
    fn beyond(&self, other: &Reached) -> [usize; 3] {
        [
            self.altered.difference(&other.altered).count(),
            self.answers().difference(&other.answers()).count(),
            self.cells.difference(&other.cells).count(),
        ]
    }

    fn answers(&self) -> BTreeSet<Answer> {
        self.cells.iter().map(Cell::answer).collect()
    }
}

/// An input of calls, as written and with each rule altered.
fn of_calls(input: &Input) -> Result<Reached, String> {
    let mut reached = Reached::default();
    let mut seen = |cell| {
        reached.cells.insert(cell);
    };
    let played = calls::play(&input.bytes, library::call, Rules::AS_WRITTEN, &mut seen);
    reached.compared = played.map_err(|difference| format!("{}\n{difference}", input.name))?;
    for alteration in Alteration::all() {
        let rules = Rules::altered(alteration);
        if calls::play(&input.bytes, library::call, rules, &mut |_| {}).is_err() {
            reached.altered.insert(alteration.name());
        }
    }
    Ok(reached)
}

/// A sheet, as written and with each rule altered. Without a program the
/// second implementation stands in for it.
fn of_sheet(input: &Input, path: Option<&Path>) -> Result<Reached, String> {
    let mut reached = Reached::default();
    let given = Given::from_input(&input.bytes);
    let (table, text) = (given.card.entries(), given.text);
    let mut seen = |cell| {
        reached.cells.insert(cell);
    };
    let output = match path {
        Some(path) => {
            let mut run = |given: &Given| wrote(path, given);
            sheet::compare(&input.bytes, &mut run, &mut seen)
                .map_err(|difference| format!("{}\n{difference}", input.name))?
        }
        None => {
            sheet::note(&table, text, &mut seen);
            play(&table, text)
        }
    };
    reached.compared = lines(&output).count() as u64;
    let misread = misread::all();
    let misread = misread.filter(|reading| reading.play(given.card.bytes(), text) != output);
    reached
        .altered
        .extend(misread.map(|misreading| misreading.name.to_string()));
    let altered = Alteration::all().into_iter();
    let altered = altered.filter(|&a| play_by(Rules::altered(a), &table, text) != output);
    reached.altered.extend(altered.map(Alteration::name));
    Ok(reached)
}

/// What the program wrote beside the card; each read is one datagram.
fn wrote(path: &Path, given: &Given) -> Result<Wrote, String> {
    let folder = Folder::with(&given.card)?;
    let way = Way::Datagrams(Cut::Whole);
    let ended = program::run(&mut folder.command(path), given.text, way, &given.reads());
    match ended.fault {
        Some(fault) => Err(fault),
        None => Ok(Wrote {
            output: ended.output,
            error: ended.error,
        }),
    }
}

fn together(
    inputs: &[Input],
    of: impl Fn(&Input) -> Result<Reached, String>,
) -> Result<Reached, String> {
    let mut all = Reached::default();
    for input in inputs {
        all.add(of(input)?);
    }
    Ok(all)
}

/// Every answer must be reached, and at least so many alterations found.
fn enough(what: &str, missing: Vec<String>, found: usize, least: usize) -> Result<(), String> {
    if !missing.is_empty() {
        let missing = missing.join("\n- ");
        return Err(format!("the corpus of {what} never reaches\n- {missing}"));
    }
    if found < least {
        return Err(format!(
            "the corpus of {what} finds {found} alterations, not {least}"
        ));
    }
    Ok(())
}

/// How many alterations the kept corpus of sheets finds: all that can show on
/// a sheet of fewer than 65536 bytes.
const FOUND_BY_SHEETS: usize = 294;

fn replay(path: &Path, corpus: &Path) -> Result<(), String> {
    let given = inputs(&corpus.join("calls"))?;
    let all = together(&given, of_calls)?;
    let cells: Vec<Cell> = all.cells.into_iter().collect();
    let found = all.altered.len();
    enough(
        "calls",
        missing_of_calls(&cells),
        found,
        Alteration::all().len(),
    )?;
    println!(
        "alike: {} calls of {} inputs, {} answers by kind, call and place; {found} alterations found",
        all.compared, given.len(), cells.len()
    );
    let given = inputs(&corpus.join("sheet"))?;
    let all = together(&given, |input| of_sheet(input, Some(path)))?;
    let cells: Vec<Cell> = all.cells.into_iter().collect();
    let found = all.altered.len();
    enough("sheets", missing_of_sheets(&cells), found, FOUND_BY_SHEETS)?;
    println!(
        "alike: {} lines of {} sheets, {} answers by kind and call; {found} alterations found",
        all.compared,
        given.len(),
        cells.len()
    );
    Ok(())
}

/// Takes the input that adds most, again and again: alterations
/// before answers, and answers before places.
fn choose(folder: &Path, of: impl Fn(&Input) -> Result<Reached, String>) -> Result<(), String> {
    let mut rest = Vec::new();
    for input in inputs(folder)? {
        let reached = of(&input)?;
        rest.push((input, reached));
    }
    let mut all = Reached::default();
    loop {
        let best = (0..rest.len()).max_by_key(|&n| {
            let (input, reached): &(Input, Reached) = &rest[n];
            (reached.beyond(&all), std::cmp::Reverse(input.bytes.len()))
        });
        let Some(best) = best.filter(|&n| rest[n].1.beyond(&all) > [0; 3]) else {
            break;
        };
        let (input, reached) = rest.swap_remove(best);
        println!("{}", input.name);
        all.add(reached);
    }
    let names = misread::all().map(|misreading| misreading.name.to_string());
    let names = names.chain(Alteration::all().into_iter().map(Alteration::name));
    let lost: Vec<String> = names.filter(|name| !all.altered.contains(name)).collect();
    eprintln!(
        "{} cells, {} alterations; not found: {}",
        all.cells.len(),
        all.altered.len(),
        lost.join(" ")
    );
    Ok(())
}

fn obey(arguments: &[&str]) -> Result<(), String> {
    match *arguments {
        ["choose", "calls", folder] => choose(Path::new(folder), of_calls),
        ["choose", "sheet", folder] => choose(Path::new(folder), |input| of_sheet(input, None)),
        [program, corpus] => replay(Path::new(program), Path::new(corpus)),
        _ => Err("usage: replay PROGRAM CORPUS | replay choose calls|sheet FOLDER".to_string()),
    }
}

fn main() -> ExitCode {
    let arguments: Vec<String> = std::env::args().skip(1).collect();
    let arguments: Vec<&str> = arguments.iter().map(String::as_str).collect();
    match obey(&arguments) {
        Ok(()) => ExitCode::SUCCESS,
        Err(fault) => {
            println!("FAILED: {fault}");
            ExitCode::FAILURE
        }
    }
}
