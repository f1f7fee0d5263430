//! What a run has seen, and what it still lacks.

use crate::borders::{never_alone, TRIALS};
use crate::first_tables::{borders, Border};
use second::call::{calls, calls_lacked_by, calls_of, Call, Name, Numbers, Whom, NAMES};
use second::damage::{Clause, CLAUSES};
use second::events::{Event, Events};
use second::store::{Kind, Pitch, KINDS};
use std::collections::BTreeSet;

const CALLS: usize = NAMES.len();

/// A row for each kind, and the first for no kind.
const ROWS: usize = 1 + KINDS.len();

/// Slices and kinds that are wrong before all else.
#[derive(Clone, Copy, PartialEq, Eq, Debug)]
pub enum Unusual {
    StoreLength,
    NullStore,
    NullEntries,
    UnknownKind,
    /// A kind's number of the format before, in word 0 or in a making, and
    /// all else as it must be.
    NewBefore,
    OldBefore,
    /// As many words as there were before, and all else as it must be.
    WordsBefore,
    /// Lent to makings alone.
    NullTable,
}

impl Unusual {
    /// Whether a run must see this call with it.
    fn can_meet(self, name: Name) -> bool {
        match self {
            Unusual::StoreLength | Unusual::NullStore | Unusual::NullEntries => true,
            Unusual::UnknownKind | Unusual::WordsBefore => true,
            Unusual::NewBefore => name.of(Kind::New),
            Unusual::OldBefore => name.of(Kind::Old),
            Unusual::NullTable => name == Name::Store,
        }
    }
}

const UNUSUAL: [Unusual; 8] = [
    Unusual::StoreLength,
    Unusual::NullStore,
    Unusual::NullEntries,
    Unusual::UnknownKind,
    Unusual::NewBefore,
    Unusual::OldBefore,
    Unusual::WordsBefore,
    Unusual::NullTable,
];

/// Where the reader or publisher that a call names stands. In a rest store
/// it is a participant, with both places and the step of its checkpoint.
#[derive(Clone, Copy, PartialEq, Eq, Debug)]
pub struct Stand {
    pub place: u64,
    pub reader_place: u64,
    pub publisher_place: u64,
    pub step: u64,
    pub participants: u64,
    /// Whether the reader's two loaded versions differ.
    pub versions_differ: bool,
}

/// Where a participant is in its checkpoint.
const STEPS: [&str; 5] = [
    "outside a checkpoint",
    "at step 1",
    "at step 2",
    "at a step before the last",
    "at the last step",
];

impl Stand {
    /// Which of these steps the participant is at.
    fn steps(&self) -> [bool; STEPS.len()] {
        let (step, last) = (self.step, self.participants + 1);
        [
            step == 0,
            step == 1,
            step == 2,
            step > 2 && step < last,
            step == last,
        ]
    }
}

pub struct Seen {
    replies: Box<[[[u64; 128]; CALLS]; ROWS]>,
    /// The replies in lists from a fresh store.
    listed: Box<[[[u64; 128]; CALLS]; ROWS]>,
    /// A new store's ENTERs from 3 to 4 in such lists: with equal loaded
    /// versions, and with differing ones.
    fourth_steps: [u64; FOURTH_STEPS.len()],
    /// Calls that a kind lacks, where nothing else is wrong.
    lacked: [[u64; CALLS]; ROWS],
    places: Box<[[[u64; 39]; CALLS]; ROWS]>,
    /// The two places and the step of a rest store's participants.
    reader_places: [[u64; 6]; CALLS],
    publisher_places: [[u64; 36]; CALLS],
    steps: [[u64; STEPS.len()]; CALLS],
    events: Events,
    alone: Box<[[[u64; CALLS]; CLAUSES.len()]; ROWS]>,
    borders: Box<[[[u64; TRIALS]; CLAUSES.len()]; ROWS]>,
    unusual: [[u64; CALLS]; UNUSUAL.len()],
    makings: [[u64; MAKINGS.len()]; ROWS],
    tables: BTreeSet<(Kind, Border)>,
    pub lists: u64,
    pub returns: u64,
    pub swaps: u64,
    pub freed: u64,
    /// Lists of an old store with a return past the end.
    pub crossed: u64,
}

/// The fourth steps of entering that lists of a new store must have.
const FOURTH_STEPS: [&str; 2] = ["equal versions", "differing versions"];

/// Makings that a run must have begun a list with.
const MAKINGS: [&str; 7] = [
    "with first version 0",
    "with first version 1",
    "with the highest version",
    "with the highest version - 1",
    "with the highest version - 2",
    "with the largest sizes",
    "with the smallest sizes",
];

fn row(kind: Option<Kind>) -> usize {
    kind.map_or(0, |kind| 1 + kind as usize)
}

impl Seen {
    pub fn new() -> Seen {
        Seen {
            replies: Box::new([[[0; 128]; CALLS]; ROWS]),
            listed: Box::new([[[0; 128]; CALLS]; ROWS]),
            fourth_steps: [0; FOURTH_STEPS.len()],
            lacked: [[0; CALLS]; ROWS],
            places: Box::new([[[0; 39]; CALLS]; ROWS]),
            reader_places: [[0; 6]; CALLS],
            publisher_places: [[0; 36]; CALLS],
            steps: [[0; STEPS.len()]; CALLS],
            events: Events::new(),
            alone: Box::new([[[0; CALLS]; CLAUSES.len()]; ROWS]),
            borders: Box::new([[[0; TRIALS]; CLAUSES.len()]; ROWS]),
            unusual: [[0; CALLS]; UNUSUAL.len()],
            makings: [[0; MAKINGS.len()]; ROWS],
            tables: BTreeSet::new(),
            lists: 0,
            returns: 0,
            swaps: 0,
            freed: 0,
            crossed: 0,
        }
    }

    /// A call with its reply, and where it was made from.
    pub fn note(&mut self, kind: Option<Kind>, call: &Call, reply: &Numbers, stand: Option<Stand>) {
        let index = call.name().index();
        self.replies[row(kind)][index][reply.code as usize & 127] += 1;
        let Some(stand) = stand.filter(|_| reply.code != 1) else {
            return;
        };
        if let place @ 0..=38 = stand.place {
            self.places[row(kind)][index][place as usize] += 1;
        }
        if kind == Some(Kind::Rest) {
            self.reader_places[index][stand.reader_place.min(5) as usize] += 1;
            self.publisher_places[index][stand.publisher_place.min(35) as usize] += 1;
            for (count, at) in self.steps[index].iter_mut().zip(stand.steps()) {
                *count += u64::from(at);
            }
        }
    }

    /// A call of a list from a fresh store, the code that it got, and where
    /// it was made from.
    pub fn note_listed(&mut self, kind: Kind, call: &Call, code: u64, stand: Option<Stand>) {
        self.listed[row(Some(kind))][call.name().index()][code as usize & 127] += 1;
        let (Kind::New, Call::Enter { .. }, Some(stand)) = (kind, call, stand) else {
            return;
        };
        if stand.place == 3 && code == 101 {
            self.fourth_steps[usize::from(stand.versions_differ)] += 1;
        }
    }

    /// A call that the kind lacks, where nothing else is wrong.
    pub fn note_lacked(&mut self, kind: Kind, call: &Call) {
        self.lacked[row(Some(kind))][call.name().index()] += 1;
    }

    /// What a list of a rest or an old store has shown.
    pub fn note_events(&mut self, events: &Events) {
        self.events.extend(events);
    }

    /// A call on a store that is spoiled by this clause and no other.
    pub fn note_alone(&mut self, kind: Kind, clause: Clause, call: &Call) {
        self.alone[row(Some(kind))][clause as usize][call.name().index()] += 1;
    }

    /// A store at a border of this clause, spoiled by no other.
    pub fn note_border(&mut self, kind: Kind, clause: Clause, trial: usize) {
        self.borders[row(Some(kind))][clause as usize][trial] += 1;
    }

    /// A making with this first table, and the code that it got.
    pub fn note_table(&mut self, kind: Kind, table: &[Pitch], code: u64) {
        for border in Border::shown_by(table, code) {
            self.tables.insert((kind, border));
        }
    }

    pub fn note_unusual(&mut self, unusual: Unusual, call: &Call) {
        self.unusual[unusual as usize][call.name().index()] += 1;
    }

    /// An accepted making that begins a list.
    pub fn note_making(&mut self, kind: Kind, call: &Call) {
        let Call::Make {
            readers,
            publishers,
            slots,
            version,
            ..
        } = *call
        else {
            return;
        };
        let sizes = (readers, publishers, slots);
        let highest = kind.highest();
        let most_readers = match kind {
            Kind::New | Kind::Old => 64,
            Kind::Rest => 16,
        };
        let met = [
            version == 0,
            version == 1,
            version == highest,
            version == highest - 1,
            version == highest - 2,
            sizes == (most_readers, 16, 32),
            sizes == (1, 1, 2),
        ];
        for (count, met) in self.makings[row(Some(kind))].iter_mut().zip(met) {
            *count += u64::from(met);
        }
    }

    pub fn accepted(&self) -> u64 {
        self.replies
            .iter()
            .flatten()
            .map(|codes| codes[100..].iter().sum::<u64>())
            .sum()
    }

    pub fn refused(&self) -> u64 {
        self.replies
            .iter()
            .flatten()
            .map(|codes| codes[..100].iter().sum::<u64>())
            .sum()
    }

    /// Each thing that a run must see and this one did not.
    pub fn missing(&self) -> Vec<String> {
        let mut missing = Vec::new();
        for kind in KINDS {
            self.missing_replies(kind, &mut missing);
            self.missing_places(kind, &mut missing);
            self.missing_alone(kind, &mut missing);
            let unseen = borders().filter(|&border| !self.tables.contains(&(kind, border)));
            missing.extend(unseen.map(|border| format!("{kind} store: {border}")));
            for (making, count) in MAKINGS.iter().zip(self.makings[row(Some(kind))]) {
                if count == 0 {
                    missing.push(format!("{kind} store {making}"));
                }
            }
        }
        for (versions, count) in FOURTH_STEPS.iter().zip(self.fourth_steps) {
            if count == 0 {
                missing.push(format!(
                    "new enter, in a list: from place 3 with {versions}"
                ));
            }
        }
        let unseen = Event::all().filter(|event| !self.events.contains(event));
        missing.extend(unseen.map(|event| format!("{}, in a list: {event}", event.kind())));
        self.missing_of_rest(&mut missing);
        for unusual in UNUSUAL {
            for name in NAMES.into_iter().filter(|&name| unusual.can_meet(name)) {
                if self.unusual[unusual as usize][name.index()] == 0 {
                    missing.push(format!("{name} with {unusual:?}"));
                }
            }
        }
        missing
    }

    fn missing_replies(&self, kind: Kind, missing: &mut Vec<String>) {
        for name in NAMES {
            for &code in name.codes(kind) {
                if self.replies[row(Some(kind))][name.index()][code as usize] == 0 {
                    missing.push(format!("{kind} {name}: {}", answer(code)));
                }
            }
        }
        for name in calls_lacked_by(kind) {
            if self.lacked[row(Some(kind))][name.index()] == 0 {
                missing.push(format!("{kind} {name}: where it alone is wrong"));
            }
        }
    }

    fn missing_places(&self, kind: Kind, missing: &mut Vec<String>) {
        for name in calls_of(kind) {
            for place in places(name, kind) {
                if self.places[row(Some(kind))][name.index()][place] == 0 {
                    missing.push(format!("{kind} {name}: from place {place}"));
                }
            }
        }
    }

    /// What each call of a rest store must have got in lists, and where it must
    /// have been made from.
    fn missing_of_rest(&self, missing: &mut Vec<String>) {
        for name in calls() {
            let listed = &self.listed[row(Some(Kind::Rest))][name.index()];
            // No list spoils a store.
            let lacked = !name.of(Kind::Rest);
            let codes = name.codes(Kind::Rest).iter();
            for &code in codes.filter(|&&code| code != 1 || lacked) {
                if listed[code as usize] == 0 {
                    missing.push(format!("rest {name}, in a list: {}", answer(code)));
                }
            }
        }
        for name in calls_of(Kind::Rest) {
            let index = name.index();
            for place in [0, 5] {
                if self.reader_places[index][place] == 0 {
                    missing.push(format!("rest {name}: from reader place {place}"));
                }
            }
            for (place, count) in self.publisher_places[index].iter().enumerate() {
                if *count == 0 {
                    missing.push(format!("rest {name}: from publisher place {place}"));
                }
            }
            for (step, count) in STEPS.iter().zip(self.steps[index]) {
                if count == 0 {
                    missing.push(format!("rest {name}: {step}"));
                }
            }
        }
    }

    fn missing_alone(&self, kind: Kind, missing: &mut Vec<String>) {
        for clause in CLAUSES.into_iter().filter(|clause| clause.of(kind)) {
            for name in calls_of(kind) {
                if self.alone[row(Some(kind))][clause as usize][name.index()] == 0 {
                    missing.push(format!("{kind} {name}: spoiled by {clause:?} alone"));
                }
            }
            for trial in (0..TRIALS).filter(|&trial| !never_alone(clause, trial)) {
                if self.borders[row(Some(kind))][clause as usize][trial] == 0 {
                    missing.push(format!("{kind}: border {trial} of {clause:?}"));
                }
            }
        }
    }
}

fn answer(code: u64) -> String {
    let what = if code < 100 { "refusal" } else { "reply" };
    format!("{what} {code}")
}

/// The places that the reader or publisher of this call can be at.
fn places(name: Name, kind: Kind) -> Vec<usize> {
    match (name.whom(), kind) {
        (Whom::Nobody, _) => Vec::new(),
        (Whom::Reader, Kind::New) => (0..=5).collect(),
        (Whom::Reader, Kind::Old) => vec![0, 1, 4, 5],
        (Whom::Reader, Kind::Rest) => vec![0, 5],
        (Whom::Publisher, Kind::New) => (0..=38).filter(|&place| place != 36).collect(),
        (Whom::Publisher, Kind::Old) => (0..=38).collect(),
        (Whom::Publisher, Kind::Rest) => (0..=35).collect(),
    }
}
