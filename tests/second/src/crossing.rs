//! How a list of an old store crosses the end of the versions, where 0 comes
//! after 2^64 - 1. It is told by calls and replies alone.

use crate::call::{Call, Reply};
use crate::store::Kind;
use std::fmt;

/// What one call of a list shows of it.
#[derive(Clone, Copy, PartialEq, Eq, PartialOrd, Ord, Debug)]
pub enum Crossing {
    Synced,
    Raised,
    Arrived,
    Looked,
    Waited,
    Returned,
    ReturnedAgain,
}

/// All of it.
pub const CROSSINGS: [Crossing; 7] = [
    Crossing::Synced,
    Crossing::Raised,
    Crossing::Arrived,
    Crossing::Looked,
    Crossing::Waited,
    Crossing::Returned,
    Crossing::ReturnedAgain,
];

impl fmt::Display for Crossing {
    fn fmt(&self, f: &mut fmt::Formatter<'_>) -> fmt::Result {
        f.write_str(match self {
            Crossing::Synced => "SYNC with the mark 0",
            Crossing::Raised => "RAISE to 0",
            Crossing::Arrived => "a reader that loaded before the RAISE to 0 and arrived after it",
            Crossing::Looked => "LOOK after the RAISE to 0 in a section opened before it",
            Crossing::Waited => "a wait after the RAISE to 0",
            Crossing::Returned => "a return with the mark 0",
            Crossing::ReturnedAgain => "a return after the one with the mark 0",
        })
    }
}

/// How far the publisher has come that crosses the end. An old store has one
/// at a time.
#[derive(Clone, Copy, PartialEq, Eq, Debug)]
enum Stage {
    Before,
    Synced,
    Raised,
    Returned,
}

/// The end of the versions in a list from a fresh store. Readers have a bit
/// each.
#[derive(Clone, Copy, Debug)]
pub struct End {
    kind: Kind,
    stage: Stage,
    /// Readers that have loaded the version and not arrived yet.
    loaded: u64,
    /// Readers in an open section.
    open: u64,
    /// Those of both that were so at the RAISE to 0, and are still.
    loaded_before: u64,
    open_before: u64,
}

impl End {
    /// The list begins with a made store of this kind.
    pub fn fresh(kind: Kind) -> End {
        End {
            kind,
            stage: Stage::Before,
            loaded: 0,
            open: 0,
            loaded_before: 0,
            open_before: 0,
        }
    }

    /// One call of the list with its reply.
    pub fn hear(&mut self, call: &Call, reply: &Reply) -> Option<Crossing> {
        if self.kind != Kind::Old || !reply.accepted() {
            return None;
        }
        match call.reader() {
            Some(r) => self.hear_reader(1 << (r % 64), call, reply),
            None => self.hear_publisher(call, reply),
        }
    }

    fn hear_reader(&mut self, bit: u64, call: &Call, reply: &Reply) -> Option<Crossing> {
        match (call, reply) {
            (Call::Enter { .. }, Reply::At(1)) => {
                self.loaded |= bit;
                None
            }
            (Call::Enter { .. }, Reply::At(4)) => {
                let late = self.loaded_before & bit != 0;
                self.open |= bit;
                self.loaded &= !bit;
                self.loaded_before &= !bit;
                late.then_some(Crossing::Arrived)
            }
            (Call::Leave { .. }, _) => {
                self.open &= !bit;
                self.open_before &= !bit;
                None
            }
            (Call::Look { .. }, _) => (self.open_before & bit != 0).then_some(Crossing::Looked),
            _ => None,
        }
    }

    fn hear_publisher(&mut self, call: &Call, reply: &Reply) -> Option<Crossing> {
        let (stage, shown) = match (self.stage, call, reply) {
            (Stage::Before, Call::Sync { .. }, Reply::Synced(0)) => {
                (Stage::Synced, Crossing::Synced)
            }
            (Stage::Synced, Call::Raise { .. }, Reply::Raised) => {
                (self.loaded_before, self.open_before) = (self.loaded, self.open);
                (Stage::Raised, Crossing::Raised)
            }
            (Stage::Raised, Call::Walk { .. }, Reply::Waiting(_)) => {
                (Stage::Raised, Crossing::Waited)
            }
            (Stage::Raised, Call::Walk { .. }, Reply::Returned { .. }) => {
                (Stage::Returned, Crossing::Returned)
            }
            (Stage::Returned, Call::Walk { .. }, Reply::Returned { .. }) => {
                (Stage::Returned, Crossing::ReturnedAgain)
            }
            _ => return None,
        };
        self.stage = stage;
        Some(shown)
    }
}
