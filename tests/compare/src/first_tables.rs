//! Part 4: makings with a first table at a border of 40, 41 or 42, and all
//! else in order.

use crate::both::{Both, Stop};
use crate::lists::{first_version, some_sizes};
use crate::slices::MOST_TABLE;
use second::layout::WORDS;
use second::random::Random;
use second::store::{Kind, Pitch, KINDS, PITCH_HIGH, PITCH_LOW, STEP_MOST, TABLE};
use second::tables::{self, ENDS, NARROW, PAIRS};
use std::fmt;

/// What a run must show of first tables, of every kind.
#[derive(Clone, Copy, PartialEq, Eq, PartialOrd, Ord, Debug)]
pub enum Border {
    /// A table of this many entries, refused with 40.
    Length(usize),
    /// This pitch in this entry. Out of range it is the only one, and
    /// refused with 41; in range it is made.
    Entry(usize, Pitch),
    /// This step at this pair. A steep one is the only one, and refused with
    /// 42; another is made.
    Step(usize, i64),
    /// Entries 31 and 0 further apart than neighbours may be, and made.
    EndsApart,
    /// Steep and out of range, refused with 41.
    DoublyWrong,
    /// Of another length, steep and out of range, refused with 40.
    TriplyWrong,
}

const LENGTHS: [usize; 6] = [0, 1, 31, 33, 64, MOST_TABLE];
/// At the limit and above it, above that of hundredths, and such as look like
/// no step by 16 bits.
const STEPS: [Pitch; 8] = [
    STEP_MOST,
    STEP_MOST + 1,
    -STEP_MOST,
    -STEP_MOST - 1,
    1501,
    -1501,
    1 << 16,
    -1 << 16,
];

/// Every border.
pub fn borders() -> impl Iterator<Item = Border> {
    let lengths = LENGTHS.into_iter().map(Border::Length);
    let entry = |k| {
        let entries = ENDS.into_iter().chain(NARROW);
        entries.map(move |v| Border::Entry(k, v))
    };
    let step = |pair| {
        let steps = STEPS.into_iter().map(i64::from);
        steps.map(move |step| Border::Step(pair, step))
    };
    lengths
        .chain((0..TABLE).flat_map(entry))
        .chain((0..PAIRS).flat_map(step))
        .chain([Border::EndsApart, Border::DoublyWrong, Border::TriplyWrong])
}

fn in_range(entry: Pitch) -> bool {
    (PITCH_LOW..=PITCH_HIGH).contains(&entry)
}

/// Wider than a pitch, so that no difference overflows.
fn apart(one: Pitch, other: Pitch) -> i64 {
    i64::from(other) - i64::from(one)
}

fn step(table: &[Pitch], pair: usize) -> i64 {
    apart(table[pair], table[pair + 1])
}

fn steep(step: i64) -> bool {
    step.abs() > i64::from(STEP_MOST)
}

impl Border {
    /// The borders that a making with this table shows, which got this code.
    pub fn shown_by(table: &[Pitch], code: u64) -> Vec<Border> {
        let outside: Vec<usize> = (0..table.len()).filter(|&k| !in_range(table[k])).collect();
        let pairs = table.len().saturating_sub(1);
        let steeps: Vec<usize> = (0..pairs)
            .filter(|&pair| steep(step(table, pair)))
            .collect();
        match (code, &outside[..], &steeps[..]) {
            (40, [], []) => vec![Border::Length(table.len())],
            (40, [_, ..], [_, ..]) => vec![Border::Length(table.len()), Border::TriplyWrong],
            (40, ..) => vec![Border::Length(table.len())],
            (41, [k], _) if steeps.iter().all(|&pair| pair == *k || pair + 1 == *k) => {
                vec![Border::Entry(*k, table[*k])]
            }
            (41, [_, ..], [_, ..]) => vec![Border::DoublyWrong],
            (42, [], [pair]) => vec![Border::Step(*pair, step(table, *pair))],
            (100, [], []) => Border::shown_by_made(table),
            _ => Vec::new(),
        }
    }

    fn shown_by_made(table: &[Pitch]) -> Vec<Border> {
        let entries = (0..TABLE).map(|k| Border::Entry(k, table[k]));
        let steps = (0..PAIRS).map(|pair| Border::Step(pair, step(table, pair)));
        let ends = steep(apart(table[0], table[31])).then_some(Border::EndsApart);
        entries.chain(steps).chain(ends).collect()
    }

    /// A table at this border.
    fn table(self, random: &mut Random) -> Vec<Pitch> {
        match self {
            Border::Length(length) => tables::of_length(length, random),
            Border::Entry(k, entry) => tables::with_entry(k, entry, random),
            Border::Step(pair, step) => tables::with_step(pair, step as Pitch, random),
            Border::EndsApart => (0..TABLE as Pitch).map(|k| 3100 * k - 5000).collect(),
            Border::DoublyWrong => tables::doubly_wrong(random),
            Border::TriplyWrong => {
                let length = random.pick(&[2, 31, 33]);
                let mut table = tables::doubly_wrong(random);
                table.push(PITCH_LOW - 1);
                table.truncate(length);
                (table[0], table[1]) = (PITCH_LOW - 1, PITCH_HIGH);
                table
            }
        }
    }
}

impl fmt::Display for Border {
    fn fmt(&self, f: &mut fmt::Formatter<'_>) -> fmt::Result {
        match self {
            Border::Length(length) => write!(f, "a first table of {length} entries"),
            Border::Entry(k, entry) => write!(f, "a first table with {entry} in entry {k}"),
            Border::Step(pair, step) => write!(f, "a first table with a step of {step} at {pair}"),
            Border::EndsApart => write!(f, "a first table with entries 31 and 0 apart"),
            Border::DoublyWrong => write!(f, "a first table steep and out of range"),
            Border::TriplyWrong => write!(f, "a short or long first table, steep and out of range"),
        }
    }
}

/// Goes over every kind and border in turn.
#[derive(Default)]
pub struct FirstTables {
    borders: Vec<(Kind, Border)>,
}

impl FirstTables {
    /// One making, over a store that holds anything.
    pub fn play(&mut self, both: &mut Both, random: &mut Random) -> Result<(), Stop> {
        both.part = "a making with a first table at a border";
        if self.borders.is_empty() {
            let of_kind = |kind| borders().map(move |border| (kind, border));
            self.borders = KINDS.into_iter().flat_map(of_kind).collect();
        }
        let Some((kind, border)) = self.borders.pop() else {
            return Ok(());
        };
        both.set_table(&border.table(random));
        if border == Border::Length(0) && random.one_in(2) {
            both.set_null_table();
        }
        let sizes = some_sizes(kind, random);
        let version = first_version(kind, random);
        both.set_words(&[random.word(); WORDS]);
        both.set_entries(&vec![
            random.word() as Pitch;
            usize::from(sizes.slots) * TABLE
        ]);
        both.call(&sizes.making(kind, version)).map(|_| ())
    }
}
