//! What inputs have reached: which call of which kind, from which place, got
//! which answer.

use second::call::{calls, calls_lacked_by, calls_of, Name, NAMES};
use second::crossing::{Crossing, CROSSINGS};
use second::damage::CLAUSES;
use second::store::{Kind, KINDS};

/// Every code of a reply, and 0 for a line that was unread.
const CODES: [u64; 39] = [
    0, 1, 2, 3, 4, 5, 6, 10, 11, 12, 13, 14, 20, 21, 30, 31, 32, 33, 40, 41, 42, 43, 44, 100, 101,
    102, 103, 104, 105, 106, 107, 108, 109, 110, 111, 112, 113, 114, 115,
];
/// Where nobody stands whom the call names.
const BEYOND: usize = 39;
/// Behind the places: what shows the end of an old store's versions.
const PLACES: usize = BEYOND + 1 + CROSSINGS.len();

/// How many cells there are.
pub const CELLS: usize = (1 + KINDS.len()) * NAMES.len() * PLACES * CODES.len();

/// What was answered: the kind, the call and the code.
pub type Answer = (Option<Kind>, Name, u64);

/// One call and its answer.
#[derive(Clone, Copy, PartialEq, Eq, PartialOrd, Ord, Debug)]
pub struct Cell {
    kind: Option<Kind>,
    call: Name,
    place: usize,
    code: u64,
}

impl Cell {
    /// The place is that of the reader or publisher named, before the call,
    /// or where it stands in its checkpoint;
    /// with code 1, the number of the clause that spoils the store alone;
    /// with 40 the length of the first table, with 41 and 42 where it is
    /// refused.
    pub fn new(kind: Option<Kind>, call: Name, place: Option<u64>, code: u64) -> Cell {
        Cell {
            kind,
            call,
            place: place.map_or(BEYOND, |place| place.min(BEYOND as u64) as usize),
            code,
        }
    }

    /// A call of an old store's list that shows this of the end of the
    /// versions.
    pub fn crossing(crossing: Crossing) -> Cell {
        let (call, code) = match crossing {
            Crossing::Synced => (Name::Sync, 107),
            Crossing::Raised => (Name::Raise, 108),
            Crossing::Arrived => (Name::Enter, 101),
            Crossing::Looked => (Name::Look, 102),
            Crossing::Waited => (Name::Walk, 110),
            Crossing::Returned | Crossing::ReturnedAgain => (Name::Walk, 113),
        };
        Cell {
            kind: Some(Kind::Old),
            call,
            place: BEYOND + 1 + crossing as usize,
            code,
        }
    }

    /// An unread line, which is misshapen.
    pub fn unread() -> Cell {
        Cell::new(None, Name::Store, None, 0)
    }

    /// A line that is unread because the made store's kind lacks the call.
    pub fn lacked(kind: Kind, call: Name) -> Cell {
        Cell::new(Some(kind), call, None, 0)
    }

    /// The cell's number, below `CELLS`.
    pub fn index(&self) -> usize {
        let code = CODES.iter().position(|&code| code == self.code);
        let code = code.expect("every code is listed");
        let kind = self.kind.map_or(0, |kind| 1 + kind as usize);
        let row = kind * NAMES.len() + self.call.index();
        (row * PLACES + self.place) * CODES.len() + code
    }

    /// The cell without its place: kind, call and code.
    pub fn answer(&self) -> Answer {
        (self.kind, self.call, self.code)
    }
}

/// Each answer that the C calls can give and none of these cells has, what
/// none shows of the end of an old store's versions, and each clause that
/// alone spoils no store for one of the kind's calls.
pub fn missing_of_calls(cells: &[Cell]) -> Vec<String> {
    let mut missing = missing(cells, needed(|_, _| true));
    missing.extend(missing_crossings(cells));
    for kind in KINDS {
        for clause in CLAUSES.into_iter().filter(|clause| clause.of(kind)) {
            for name in calls_of(kind) {
                let cell = Cell::new(Some(kind), name, Some(clause as u64), 1);
                if !cells.contains(&cell) {
                    missing.push(format!("{kind}, {name}: spoiled by {clause:?} alone"));
                }
            }
        }
    }
    missing
}

/// Each answer that a sheet can meet and none of these cells has, and what
/// none shows of the end of an old store's versions. A sheet lends the entries
/// that are due and spoils no store; 33 needs nearly 2^64 looks, and one
/// publisher at a time never shares a raise.
pub fn missing_of_sheets(cells: &[Cell]) -> Vec<String> {
    let mut wanted = needed(|kind, code| match code {
        1 | 5 | 33 => false,
        109 => kind == Kind::New,
        _ => true,
    });
    wanted.extend(calls().map(|call| (None, call, 1)));
    wanted.push(Cell::unread().answer());
    for kind in KINDS {
        let lacked = calls_lacked_by(kind);
        wanted.extend(lacked.map(|call| Cell::lacked(kind, call).answer()));
    }
    let mut missing = missing(cells, wanted);
    missing.extend(missing_crossings(cells));
    missing
}

/// What no cell shows of the end of an old store's versions.
fn missing_crossings(cells: &[Cell]) -> impl Iterator<Item = String> + '_ {
    let unseen = |crossing: &Crossing| !cells.contains(&Cell::crossing(*crossing));
    let unseen = CROSSINGS.into_iter().filter(unseen);
    unseen.map(|crossing| format!("old: {crossing}"))
}

fn needed(can: fn(Kind, u64) -> bool) -> Vec<Answer> {
    let mut needed = Vec::new();
    for kind in KINDS {
        for call in NAMES {
            let codes = call.codes(kind).iter().copied();
            let met = codes.filter(|&code| can(kind, code));
            needed.extend(met.map(|code| (Some(kind), call, code)));
        }
    }
    needed
}

fn missing(cells: &[Cell], mut wanted: Vec<Answer>) -> Vec<String> {
    wanted.retain(|answer| !cells.iter().any(|cell| cell.answer() == *answer));
    let name = |(kind, call, code): Answer| {
        let kind = kind.map_or("no kind".to_string(), |kind| kind.to_string());
        format!("{kind}, {call}: {code}")
    };
    wanted.into_iter().map(name).collect()
}

#[cfg(test)]
mod tests {
    use super::*;

    /// What a kind adds is missing until some cell has it.
    #[test]
    fn answers_are_missing_until_they_are_reached() {
        let missing = missing_of_calls(&[]);
        let lacks = |what: &str| missing.iter().any(|line| line == what);
        assert!(lacks("rest, defer: 43") && lacks("rest, defer: 44") && lacks("rest, pick: 115"));
        assert!(lacks("rest, enter: 1") && lacks("old, pick: 1") && !lacks("old, pick: 20"));
        assert!(lacks("rest, checkpoint: spoiled by Step alone"));
        assert!(!lacks("rest, enter: spoiled by Step alone"));
        assert!(!lacks("rest, store: 6") && !lacks("rest, claim: 31"));
        assert!(lacks("new, store: 6") && !lacks("old, store: 6"));
        assert!(lacks("new, sync: 32") && !lacks("old, sync: 32"));
        assert!(lacks("new, sync: spoiled by MarkZero alone"));
        assert!(!lacks("old, sync: spoiled by MarkZero alone"));
        assert!(lacks("old: SYNC with the mark 0") && lacks("old: RAISE to 0"));
        let cell = Cell::new(Some(Kind::Rest), Name::Defer, Some(34), 43);
        assert_eq!(missing_of_calls(&[cell]).len() + 1, missing.len());
        let raised = Cell::crossing(Crossing::Raised);
        assert_eq!(missing_of_calls(&[raised]).len() + 2, missing.len());
        let sheets = missing_of_sheets(&[]);
        let lacks = |what: &str| sheets.iter().any(|line| line == what);
        assert!(lacks("rest, enter: 0") && lacks("new, defer: 0") && !lacks("rest, defer: 0"));
        assert!(lacks("rest, defer: 44") && lacks("no kind, pick: 1") && !lacks("rest, pick: 1"));
        assert!(lacks("old: a return with the mark 0"));
    }

    #[test]
    fn cells_have_numbers_of_their_own() {
        let mut indexes = std::collections::BTreeSet::new();
        for kind in KINDS.into_iter().map(Some).chain([None]) {
            for call in NAMES {
                for code in CODES {
                    let index = Cell::new(kind, call, Some(7), code).index();
                    assert!(index < CELLS && indexes.insert(index));
                }
            }
        }
        for crossing in CROSSINGS {
            let index = Cell::crossing(crossing).index();
            assert!(index < CELLS && indexes.insert(index));
        }
    }
}
