//! What the sheets of a run have shown, and what they still lack.

use crate::card_shapes::{CARD_SHAPES, FORBIDDEN};
use crate::cards::is_root;
use crate::pieces::{Way, NAMES};
use crate::shapes::SHAPES;
use crate::writer::Written;
use second::call::{calls, calls_lacked_by, calls_of, Call, Name, Reply};
use second::crossing::{Crossing, End, CROSSINGS};
use second::rules::Rules;
use second::sheet::{lines, read, Sheet};
use second::store::{Kind, Pitch, KINDS};
use std::collections::BTreeMap;
use std::fmt;

/// Every word that the program can say of a line.
const WORDS: [&str; 18] = [
    "made", "at", "pitch", "left", "claimed", "written", "swapped", "synced", "raised", "shared",
    "waiting", "spent", "quiet", "returned", "freed", "picked", "refused", "unread",
];

/// Every refusal that a sheet can meet. The program lends as many entries as
/// are due, so that 5 stays out; 33 needs nearly 2^64 looks.
const REFUSALS: [u64; 20] = [
    1, 2, 3, 4, 6, 10, 11, 12, 13, 14, 20, 21, 30, 31, 32, 40, 41, 42, 43, 44,
];

/// Things that a run must show besides words, refusals, shapes and ways.
const OTHERS: [&str; 7] = [
    "a store of the same kind made again",
    "a store of another kind made after one",
    "a store of the same kind refused after one",
    "a store of another kind refused after one",
    "an unread line before a made store",
    "a sheet with its last newline",
    "a sheet without its last newline",
];

/// Sizes that a run must have made stores of, of every kind.
const SIZES: [&str; 2] = [
    "made with the smallest sizes",
    "made with the largest sizes",
];

/// Which of them these are.
fn sizes_name(kind: Kind, sizes: (u16, u16, u16)) -> Option<&'static str> {
    let most_readers = match kind {
        Kind::New | Kind::Old => 64,
        Kind::Rest => 16,
    };
    match sizes {
        (1, 1, 2) => Some(SIZES[0]),
        (readers, 16, 32) if readers == most_readers => Some(SIZES[1]),
        _ => None,
    }
}

/// Counts of what was seen, each by its name.
#[derive(Default)]
pub struct Seen {
    pub sheets: u64,
    pub lines: u64,
    counts: BTreeMap<String, u64>,
}

impl Seen {
    fn count(&self, what: &str) -> u64 {
        self.counts.get(what).copied().unwrap_or(0)
    }

    fn add(&mut self, what: String, times: u64) {
        *self.counts.entry(what).or_default() += times;
    }

    /// A written sheet and the ways that it went.
    pub fn note_sheet(&mut self, written: &Written, ways: &[Way]) {
        for (shape, &times) in SHAPES.iter().zip(&written.shapes) {
            self.add(shape_name(shape.name), times);
        }
        for way in ways {
            self.add(way_name(way.name()), 1);
        }
        self.add(card_name(written.card_name), 1);
        for &(kind, name) in &written.lacked {
            self.add(call_name(Some(kind), name, "unread"), 1);
        }
    }

    /// A text and what the program printed for it, beside a card of these
    /// entries.
    pub fn note(&mut self, table: &[Pitch], text: &[u8], output: &[u8]) {
        self.sheets += 1;
        let ended = if text.ends_with(b"\n") {
            OTHERS[5]
        } else {
            OTHERS[6]
        };
        self.add(ended.to_string(), 1);
        let mut sheet = Sheet::new(table, Rules::AS_WRITTEN);
        let mut end = None;
        for (line, printed) in lines(text).zip(lines(output)) {
            self.lines += 1;
            self.note_printed(printed);
            self.note_line(&mut sheet, &mut end, line);
        }
    }

    fn note_printed(&mut self, printed: &[u8]) {
        let printed = String::from_utf8_lossy(printed);
        let mut parts = printed.trim_end_matches(')').split(' ').skip(1);
        let word = parts.next().unwrap_or_default();
        self.add(word_name(word), 1);
        if word == "refused" {
            self.add(refusal_name(parts.next().unwrap_or_default()), 1);
        }
    }

    /// The end of the versions is that of the made store.
    fn note_line(&mut self, sheet: &mut Sheet, end: &mut Option<End>, line: &[u8]) {
        let before = sheet.kind();
        let (Some(call), Some(reply)) = (read(line), sheet.reply(line)) else {
            if before.is_none() {
                self.add(OTHERS[4].to_string(), 1);
            }
            return;
        };
        let mut kind = before;
        if let Call::Make { kind: number, .. } = call {
            kind = Kind::from_number(u64::from(number));
            self.note_store(before, kind, reply);
            self.note_sizes(kind, &call, reply);
            if reply == Reply::Made {
                *end = kind.map(End::fresh);
            }
        }
        let crossing = end.as_mut().and_then(|end| end.hear(&call, &reply));
        if let Some(crossing) = crossing {
            self.add(crossing_name(crossing), 1);
        }
        self.add(call_name(kind, call.name(), &answer_name(reply)), 1);
    }

    fn note_store(&mut self, before: Option<Kind>, kind: Option<Kind>, reply: Reply) {
        let other = usize::from(before != kind);
        let refused = usize::from(!reply.accepted());
        if before.is_some() {
            self.add(OTHERS[2 * refused + other].to_string(), 1);
        }
    }

    fn note_sizes(&mut self, kind: Option<Kind>, call: &Call, reply: Reply) {
        let Call::Make {
            readers,
            publishers,
            slots,
            ..
        } = *call
        else {
            return;
        };
        let sizes = (readers, publishers, slots);
        let name = kind.and_then(|kind| sizes_name(kind, sizes));
        if let (Some(name), Reply::Made) = (name, reply) {
            self.add(call_name(kind, Name::Store, name), 1);
        }
    }

    /// Each thing that a run must see and this one did not.
    pub fn missing(&self) -> Vec<String> {
        let mut needed: Vec<String> = WORDS.iter().map(|word| word_name(word)).collect();
        needed.extend(REFUSALS.iter().map(refusal_name));
        needed.extend(SHAPES.iter().map(|shape| shape_name(shape.name)));
        needed.extend(NAMES.iter().map(|way| way_name(way)));
        let cards = CARD_SHAPES.iter().map(|shape| shape.name);
        let tried = cards.filter(|&name| name != FORBIDDEN || !is_root());
        needed.extend(tried.map(card_name));
        needed.extend(OTHERS.iter().map(|other| other.to_string()));
        needed.extend(CROSSINGS.map(crossing_name));
        needed.extend(needed_of_calls());
        needed.retain(|what| self.count(what) == 0);
        needed
    }
}

impl fmt::Display for Seen {
    fn fmt(&self, f: &mut fmt::Formatter<'_>) -> fmt::Result {
        let unread = self.count(&word_name("unread"));
        write!(
            f,
            "{} sheets, {} lines, {unread} unread; ",
            self.sheets, self.lines
        )?;
        write!(f, "refused")?;
        for number in REFUSALS {
            write!(f, " {number}:{}", self.count(&refusal_name(number)))?;
        }
        write!(f, "; replies")?;
        for word in WORDS {
            write!(f, " {word}:{}", self.count(&word_name(word)))?;
        }
        Ok(())
    }
}

fn word_name(word: &str) -> String {
    format!("the reply {word}")
}

fn refusal_name(number: impl fmt::Display) -> String {
    format!("refusal {number}")
}

fn shape_name(shape: &str) -> String {
    format!("an unread line: {shape}")
}

fn card_name(card: &str) -> String {
    format!("a sheet beside a card: {card}")
}

fn way_name(way: &str) -> String {
    format!("a sheet by {way}")
}

fn crossing_name(crossing: Crossing) -> String {
    format!("old: {crossing}")
}

fn call_name(kind: Option<Kind>, call: Name, answer: &str) -> String {
    match kind {
        Some(kind) => format!("{kind} {call}: {answer}"),
        None => format!("{call} before a made store: {answer}"),
    }
}

/// The reply's word, or the refusal with its number.
fn answer_name(reply: Reply) -> String {
    let text = reply.to_string();
    match reply.accepted() {
        true => text.split(' ').next().unwrap_or_default().to_string(),
        false => text,
    }
}

/// Each answer that a call can get on a sheet, by kind.
fn needed_of_calls() -> Vec<String> {
    let mut needed = Vec::new();
    for name in calls() {
        needed.push(call_name(None, name, "refused 1"));
    }
    for kind in KINDS {
        let sizes = SIZES.iter();
        needed.extend(sizes.map(|name| call_name(Some(kind), Name::Store, name)));
        let lacked = calls_lacked_by(kind);
        needed.extend(lacked.map(|name| call_name(Some(kind), name, "unread")));
        for name in calls_of(kind).chain([Name::Store]) {
            let answers = answers(name, kind).split(", ");
            needed.extend(answers.map(|answer| call_name(Some(kind), name, answer)));
        }
    }
    needed
}

/// A made store is never spoiled on a sheet. Only one publisher at a time is
/// busy in an old store, so that its RAISE is never shared.
fn answers(name: Name, kind: Kind) -> &'static str {
    match (name, kind) {
        (Name::Store, Kind::New) => {
            "refused 2, refused 3, refused 4, refused 6, refused 40, refused 41, refused 42, made"
        }
        (Name::Store, Kind::Old | Kind::Rest) => {
            "refused 2, refused 3, refused 4, refused 40, refused 41, refused 42, made"
        }
        (Name::Enter, _) => "refused 10, refused 20, at",
        (Name::Look, _) => "refused 10, refused 13, refused 20, pitch",
        (Name::Leave, _) => "refused 10, refused 20, left",
        (Name::Claim, Kind::New | Kind::Rest) => {
            "refused 11, refused 12, refused 21, refused 30, claimed"
        }
        (Name::Claim, Kind::Old) => {
            "refused 11, refused 12, refused 21, refused 31, refused 30, claimed"
        }
        (Name::Write, _) => "refused 11, refused 14, refused 21, written",
        (Name::Swap, _) => "refused 11, refused 21, swapped",
        (Name::Sync, Kind::New | Kind::Rest) => "refused 11, refused 21, refused 32, synced",
        (Name::Sync, Kind::Old) => "refused 11, refused 21, synced",
        (Name::Raise, Kind::New | Kind::Rest) => "refused 11, refused 21, raised, shared",
        (Name::Raise, Kind::Old) => "refused 11, refused 21, raised",
        (Name::Walk, Kind::New | Kind::Rest) => "refused 11, refused 21, waiting, spent, returned",
        (Name::Walk, Kind::Old) => "refused 11, refused 21, waiting, spent, quiet, returned",
        (Name::Release, _) => "refused 11, refused 21, freed",
        (Name::Pick, _) => "refused 10, refused 20, picked",
        (Name::Checkpoint, _) => "refused 10, refused 20, at",
        (Name::Defer, _) => "refused 11, refused 21, refused 43, refused 44, at",
    }
}
