//! The program beside the second implementation, output by output.

use crate::card_shapes::{CARD_SHAPES, FORBIDDEN};
use crate::cards::{is_root, Card, Folder};
use crate::pieces::{some_ways, Cut, Way, LARGEST};
use crate::program::{run, Ended};
use crate::seen::Seen;
use crate::writer::{
    self, CARDS, DEFERRING, HUGE_LINE, MANY_LINES, NO_LINES, ORDINARY, SIDE_BY_SIDE,
};
use second::examples;
use second::random::Random;
use second::sheet::{lines, play};
use std::fmt;
use std::path::{Path, PathBuf};

/// Ways for any text, however long.
const EVERY_WAY: [Way; 6] = [
    Way::Datagrams(Cut::Whole),
    Way::Datagrams(Cut::BeforeBrackets),
    Way::Datagrams(Cut::Near80),
    Way::Datagrams(Cut::UpTo(LARGEST as u64)),
    Way::Pipe(Cut::Whole),
    Way::File,
];

/// A text with what the program printed for it, and the bytes of the card
/// beside it, if it could be read.
pub struct Heard {
    pub name: String,
    pub card: Option<Vec<u8>>,
    pub text: Vec<u8>,
    pub output: Vec<u8>,
}

/// How often each shape of card has a sheet of its own.
const ROUNDS: usize = 3;

/// A sheet, the card beside it, and what is due.
struct Held<'a> {
    name: &'a str,
    card: &'a Card,
    text: &'a [u8],
    due: &'a [u8],
}

/// Where two outputs differ first.
pub struct Difference {
    pub sheet: String,
    pub line_number: usize,
    line: Vec<u8>,
    program: Option<Vec<u8>>,
    second: Option<Vec<u8>>,
    fault: Option<String>,
}

impl Difference {
    /// None if the program printed what is due and nothing else was wrong.
    pub fn of(sheet: &str, text: &[u8], ended: &Ended, due: &[u8]) -> Option<Difference> {
        if ended.output == due && ended.fault.is_none() {
            return None;
        }
        let mut printed = ended.output.split_inclusive(|&byte| byte == b'\n');
        let mut dues = due.split_inclusive(|&byte| byte == b'\n');
        let mut line_number = 0;
        let (program, second) = loop {
            line_number += 1;
            match (printed.next(), dues.next()) {
                (Some(line), Some(due)) if line == due => {}
                unlike => break unlike,
            }
        };
        Some(Difference {
            sheet: sheet.to_string(),
            line_number,
            line: lines(text)
                .nth(line_number - 1)
                .unwrap_or_default()
                .to_vec(),
            program: program.map(<[u8]>::to_vec),
            second: second.map(<[u8]>::to_vec),
            fault: ended.fault.clone(),
        })
    }
}

impl fmt::Display for Difference {
    fn fmt(&self, f: &mut fmt::Formatter<'_>) -> fmt::Result {
        writeln!(f, "sheet:    {}", self.sheet)?;
        if self.program == self.second {
            writeln!(f, "the outputs are alike")?;
        } else {
            writeln!(f, "line {}: {}", self.line_number, shown(&self.line))?;
            writeln!(f, "program:  {}", shown_or_nothing(&self.program))?;
            writeln!(f, "second:   {}", shown_or_nothing(&self.second))?;
        }
        match &self.fault {
            Some(fault) => writeln!(f, "program:  {fault}"),
            None => Ok(()),
        }
    }
}

fn shown_or_nothing(output: &Option<Vec<u8>>) -> String {
    output
        .as_ref()
        .map_or("nothing".to_string(), |line| shown(line))
}

/// The bytes as text, the middle left out if they are many.
pub fn shown(bytes: &[u8]) -> String {
    match bytes.len() {
        0..=200 => bytes.escape_ascii().to_string(),
        length => {
            let (first, last) = (&bytes[..100], &bytes[length - 60..]);
            let left_out = length - 160;
            format!(
                "{} [{left_out} bytes] {}",
                first.escape_ascii(),
                last.escape_ascii()
            )
        }
    }
}

/// The program, and what its sheets have shown.
pub struct Comparison {
    pub program: PathBuf,
    pub seed: u64,
    pub seen: Seen,
}

impl Comparison {
    pub fn new(program: &Path, seed: u64) -> Comparison {
        Comparison {
            program: program.to_path_buf(),
            seed,
            seen: Seen::default(),
        }
    }

    /// A sheet one way. The program must print what is due, and say of the
    /// card what is due.
    fn hold(
        &mut self,
        sheet: &Held,
        way: Way,
        random: &mut Random,
    ) -> Result<Vec<u8>, Box<Difference>> {
        let ended = match Folder::with(sheet.card) {
            Ok(folder) => self.run_in(&folder, sheet, way, random),
            Err(fault) => Ended {
                fault: Some(fault),
                ..Ended::default()
            },
        };
        let name = format!("{}, by {}", sheet.name, way.name());
        match Difference::of(&name, sheet.text, &ended, sheet.due) {
            None => Ok(ended.output),
            Some(difference) => Err(Box::new(difference)),
        }
    }

    fn run_in(&self, folder: &Folder, sheet: &Held, way: Way, random: &mut Random) -> Ended {
        let pieces = way.pieces(sheet.text, random);
        let feeding = folder.feed();
        let mut command = folder.command(&self.program);
        let mut ended = run(&mut command, sheet.text, way, &pieces);
        drop(feeding);
        if ended.fault.is_none() {
            ended.fault = sheet.card.check_said(&ended.error).err();
        }
        ended
    }

    /// The sheets worked out by hand, each in every way.
    pub fn examples(&mut self) -> Result<(), Box<Difference>> {
        let mut random = Random::from_seed(self.seed);
        for example in examples::all() {
            let card = example.card.clone().map_or(Card::Missing, Card::File);
            let sheet = Held {
                name: example.name,
                card: &card,
                text: &example.input,
                due: &example.output,
            };
            for way in EVERY_WAY {
                self.hold(&sheet, way, &mut random)?;
            }
            let table = example.entries();
            self.seen.note(&table, &example.input, &example.output);
        }
        Ok(())
    }

    /// The sheet of this number, each way that it goes.
    pub fn sheet(&mut self, number: u64) -> Result<Heard, Box<Difference>> {
        let written = writer::write(self.seed, number);
        let mut random = writer::random_of(!self.seed, number);
        let ways = match number {
            HUGE_LINE | MANY_LINES => EVERY_WAY.to_vec(),
            _ => some_ways(number, &written.text, &mut random),
        };
        self.seen.note_sheet(&written, &ways);
        let (card, text) = (written.card, written.text);
        let name = format!(
            "number {number} of seed {}, card {}",
            self.seed, written.card_name
        );
        let due = play(&card.entries(), &text);
        let sheet = Held {
            name: &name,
            card: &card,
            text: &text,
            due: &due,
        };
        let mut output = Vec::new();
        for way in ways {
            output = self.hold(&sheet, way, &mut random)?;
        }
        self.seen.note(&card.entries(), &text, &output);
        Ok(Heard {
            card: card.bytes().map(<[u8]>::to_vec),
            name,
            text,
            output,
        })
    }

    /// A sheet beside each shape of card. Root may read every file.
    fn cards(&mut self) -> Result<Vec<Heard>, Box<Difference>> {
        let tried = |shape: &usize| CARD_SHAPES[*shape].name != FORBIDDEN || !is_root();
        let shapes = (0..CARD_SHAPES.len()).filter(tried);
        let rounds = (0..ROUNDS).map(|round| round * CARD_SHAPES.len());
        let numbers = rounds.flat_map(|round| shapes.clone().map(move |shape| round + shape));
        numbers
            .map(|number| self.sheet(CARDS + number as u64))
            .collect()
    }

    /// A sheet beside each shape of card, ordinary sheets with so many lines
    /// in all, and the five others.
    pub fn sheets(&mut self, least: u64) -> Result<Vec<Heard>, Box<Difference>> {
        let mut heard = self.cards()?;
        let (mut number, mut count) = (ORDINARY, 0);
        while count < least {
            let sheet = self.sheet(number)?;
            count += lines(&sheet.text).count() as u64;
            number += 1;
            heard.push(sheet);
        }
        for number in [NO_LINES, HUGE_LINE, MANY_LINES, DEFERRING, SIDE_BY_SIDE] {
            heard.push(self.sheet(number)?);
        }
        Ok(heard)
    }
}
