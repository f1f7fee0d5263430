//! The calls with their arguments, and the replies.
//!
//! Both print as on document 01's run sheet.

use crate::store::{Kind, Pitch};
use std::fmt;

/// Which call: making, or one of the thirteen.
#[derive(Clone, Copy, PartialEq, Eq, PartialOrd, Ord, Debug)]
pub enum Name {
    Store,
    Enter,
    Look,
    Leave,
    Claim,
    Write,
    Swap,
    Sync,
    Raise,
    Walk,
    Release,
    Pick,
    Checkpoint,
    Defer,
}

/// Making, and after it the thirteen calls.
pub const NAMES: [Name; 14] = [
    Name::Store,
    Name::Enter,
    Name::Look,
    Name::Leave,
    Name::Claim,
    Name::Write,
    Name::Swap,
    Name::Sync,
    Name::Raise,
    Name::Walk,
    Name::Release,
    Name::Pick,
    Name::Checkpoint,
    Name::Defer,
];

/// The thirteen calls.
pub fn calls() -> impl Iterator<Item = Name> {
    NAMES.into_iter().skip(1)
}

/// The calls that a store of this kind has.
pub fn calls_of(kind: Kind) -> impl Iterator<Item = Name> {
    calls().filter(move |name| name.of(kind))
}

/// The calls that a store of this kind lacks.
pub fn calls_lacked_by(kind: Kind) -> impl Iterator<Item = Name> {
    calls().filter(move |name| !name.of(kind))
}

/// Whom a call names first.
#[derive(Clone, Copy, PartialEq, Eq, Debug)]
pub enum Whom {
    Nobody,
    Reader,
    Publisher,
}

impl Name {
    /// Its place in `NAMES`.
    pub const fn index(self) -> usize {
        self as usize
    }

    /// The word on the run sheet.
    pub const fn word(self) -> &'static str {
        match self {
            Name::Store => "store",
            Name::Enter => "enter",
            Name::Look => "look",
            Name::Leave => "leave",
            Name::Claim => "claim",
            Name::Write => "write",
            Name::Swap => "swap",
            Name::Sync => "sync",
            Name::Raise => "raise",
            Name::Walk => "walk",
            Name::Release => "release",
            Name::Pick => "pick",
            Name::Checkpoint => "checkpoint",
            Name::Defer => "defer",
        }
    }

    /// Whether a store of this kind has the call.
    pub fn of(self, kind: Kind) -> bool {
        let rest = match kind {
            Kind::New | Kind::Old => false,
            Kind::Rest => true,
        };
        match self {
            Name::Store | Name::Look | Name::Claim | Name::Write | Name::Swap => true,
            Name::Enter | Name::Leave => !rest,
            Name::Sync | Name::Raise | Name::Walk | Name::Release => !rest,
            Name::Pick | Name::Checkpoint | Name::Defer => rest,
        }
    }

    /// What it can reply on a store of this kind, by the number or code that C gets.
    pub fn codes(self, kind: Kind) -> &'static [u64] {
        if !self.of(kind) {
            return &[1];
        }
        match (self, kind) {
            (Name::Store, Kind::New) => &[2, 3, 4, 5, 6, 40, 41, 42, 100],
            (Name::Store, Kind::Old | Kind::Rest) => &[2, 3, 4, 5, 40, 41, 42, 100],
            (Name::Enter, _) => &[1, 10, 20, 101],
            (Name::Look, _) => &[1, 10, 13, 20, 102],
            (Name::Leave, _) => &[1, 10, 20, 103],
            (Name::Claim, Kind::New | Kind::Rest) => &[1, 11, 12, 21, 30, 104],
            (Name::Claim, Kind::Old) => &[1, 11, 12, 21, 31, 30, 104],
            (Name::Write, _) => &[1, 11, 14, 21, 105],
            (Name::Swap, _) => &[1, 11, 21, 106],
            (Name::Sync, Kind::New | Kind::Rest) => &[1, 11, 21, 32, 107],
            (Name::Sync, Kind::Old) => &[1, 11, 21, 107],
            (Name::Raise, _) => &[1, 11, 21, 108, 109],
            (Name::Walk, Kind::New | Kind::Rest) => &[1, 11, 21, 33, 110, 111, 113],
            (Name::Walk, Kind::Old) => &[1, 11, 21, 33, 110, 111, 112, 113],
            (Name::Release, _) => &[1, 11, 21, 114],
            (Name::Pick, _) => &[1, 10, 20, 115],
            (Name::Checkpoint, _) => &[1, 10, 20, 101],
            (Name::Defer, _) => &[1, 11, 21, 43, 44, 101],
        }
    }

    pub fn whom(self) -> Whom {
        match self {
            Name::Store => Whom::Nobody,
            Name::Enter | Name::Look | Name::Leave => Whom::Reader,
            Name::Pick | Name::Checkpoint => Whom::Reader,
            Name::Claim | Name::Write | Name::Swap | Name::Sync => Whom::Publisher,
            Name::Raise | Name::Walk | Name::Release | Name::Defer => Whom::Publisher,
        }
    }
}

impl fmt::Display for Name {
    fn fmt(&self, f: &mut fmt::Formatter<'_>) -> fmt::Result {
        f.write_str(self.word())
    }
}

/// Making and the thirteen calls. Arguments have the widths that C gives
/// them.
#[derive(Clone, Copy, PartialEq, Eq, Debug)]
pub enum Call {
    Make {
        kind: u16,
        readers: u16,
        publishers: u16,
        slots: u16,
        version: u64,
    },
    Enter {
        r: u16,
    },
    Look {
        r: u16,
        k: u16,
    },
    Leave {
        r: u16,
    },
    Claim {
        p: u16,
        s: u16,
    },
    Write {
        p: u16,
        v: Pitch,
    },
    Swap {
        p: u16,
    },
    Sync {
        p: u16,
    },
    Raise {
        p: u16,
    },
    Walk {
        p: u16,
        b: u16,
    },
    Release {
        p: u16,
    },
    Pick {
        r: u16,
    },
    Checkpoint {
        r: u16,
    },
    Defer {
        p: u16,
    },
}

impl Call {
    pub fn name(&self) -> Name {
        match self {
            Call::Make { .. } => Name::Store,
            Call::Enter { .. } => Name::Enter,
            Call::Look { .. } => Name::Look,
            Call::Leave { .. } => Name::Leave,
            Call::Claim { .. } => Name::Claim,
            Call::Write { .. } => Name::Write,
            Call::Swap { .. } => Name::Swap,
            Call::Sync { .. } => Name::Sync,
            Call::Raise { .. } => Name::Raise,
            Call::Walk { .. } => Name::Walk,
            Call::Release { .. } => Name::Release,
            Call::Pick { .. } => Name::Pick,
            Call::Checkpoint { .. } => Name::Checkpoint,
            Call::Defer { .. } => Name::Defer,
        }
    }

    /// The number of the reader or publisher that the call names.
    fn named(&self) -> Option<u16> {
        match *self {
            Call::Make { .. } => None,
            Call::Enter { r: n } | Call::Look { r: n, .. } | Call::Leave { r: n } => Some(n),
            Call::Pick { r: n } | Call::Checkpoint { r: n } => Some(n),
            Call::Claim { p: n, .. } | Call::Write { p: n, .. } | Call::Swap { p: n } => Some(n),
            Call::Sync { p: n } | Call::Raise { p: n } | Call::Walk { p: n, .. } => Some(n),
            Call::Release { p: n } | Call::Defer { p: n } => Some(n),
        }
    }

    /// The reader that the call names, if it is a reader's call.
    pub fn reader(&self) -> Option<u16> {
        let names_one = self.name().whom() == Whom::Reader;
        self.named().filter(|_| names_one)
    }

    /// The publisher that the call names, if it is a publisher's call.
    pub fn publisher(&self) -> Option<u16> {
        let names_one = self.name().whom() == Whom::Publisher;
        self.named().filter(|_| names_one)
    }
}

impl fmt::Display for Call {
    fn fmt(&self, f: &mut fmt::Formatter<'_>) -> fmt::Result {
        let name = self.name();
        match *self {
            Call::Make {
                kind,
                readers,
                publishers,
                slots,
                version,
            } => {
                write!(f, "({name} ")?;
                match Kind::from_number(u64::from(kind)) {
                    Some(kind) => write!(f, "{kind}")?,
                    None => write!(f, "kind-{kind}")?,
                }
                write!(f, " {readers} {publishers} {slots} {version})")
            }
            Call::Look { r, k } => write!(f, "({name} {r} {k})"),
            Call::Claim { p, s } => write!(f, "({name} {p} {s})"),
            Call::Write { p, v } => write!(f, "({name} {p} {v})"),
            Call::Walk { p, b } => write!(f, "({name} {p} {b})"),
            Call::Enter { r: n } | Call::Leave { r: n } => write!(f, "({name} {n})"),
            Call::Pick { r: n } | Call::Checkpoint { r: n } => write!(f, "({name} {n})"),
            Call::Swap { p: n } | Call::Sync { p: n } => write!(f, "({name} {n})"),
            Call::Raise { p: n } | Call::Release { p: n } => write!(f, "({name} {n})"),
            Call::Defer { p: n } => write!(f, "({name} {n})"),
        }
    }
}

/// A refusal's number, from document 01's table.
#[derive(Clone, Copy, PartialEq, Eq, Debug)]
pub struct Refusal(pub u64);

/// An accepted step's reply, or a refusal.
pub type Answer = Result<Reply, Refusal>;

/// The number of `Pitch` is wider than a pitch, since an altered rule may give
/// what is none.
#[derive(Clone, Copy, PartialEq, Eq, Debug)]
pub enum Reply {
    Refused(u64),
    Made,
    At(u64),
    Pitch(i64),
    Left,
    Claimed(u64),
    Written(u64),
    Swapped(u64),
    Synced(u64),
    Raised,
    Shared,
    Waiting(u64),
    Spent,
    Quiet,
    Returned { looks: u64, waits: u64 },
    Freed { slot: u64, releases: u64 },
    Picked(u64),
}

/// The three numbers of a reply in C.
#[derive(Clone, Copy, PartialEq, Eq, Debug)]
pub struct Numbers {
    pub code: u64,
    pub first: u64,
    pub second: u64,
}

impl From<Answer> for Reply {
    fn from(answer: Answer) -> Reply {
        match answer {
            Ok(reply) => reply,
            Err(Refusal(number)) => Reply::Refused(number),
        }
    }
}

impl Reply {
    pub fn accepted(&self) -> bool {
        !matches!(self, Reply::Refused(_))
    }

    /// The reply as C has it.
    pub fn numbers(&self) -> Numbers {
        let (code, first, second) = match *self {
            Reply::Refused(number) => (number, 0, 0),
            Reply::Made => (100, 0, 0),
            Reply::At(place) => (101, place, 0),
            Reply::Pitch(v) => (102, v as u64, 0),
            Reply::Left => (103, 0, 0),
            Reply::Claimed(slot) => (104, slot, 0),
            Reply::Written(n) => (105, n, 0),
            Reply::Swapped(slot) => (106, slot, 0),
            Reply::Synced(mark) => (107, mark, 0),
            Reply::Raised => (108, 0, 0),
            Reply::Shared => (109, 0, 0),
            Reply::Waiting(whom) => (110, whom, 0),
            Reply::Spent => (111, 0, 0),
            Reply::Quiet => (112, 0, 0),
            Reply::Returned { looks, waits } => (113, looks, waits),
            Reply::Freed { slot, releases } => (114, slot, releases),
            Reply::Picked(slot) => (115, slot, 0),
        };
        Numbers {
            code,
            first,
            second,
        }
    }

    /// The reply that has these numbers, or none.
    pub fn from_numbers(n: Numbers) -> Option<Reply> {
        let reply = match n.code {
            0..=99 => Reply::Refused(n.code),
            100 => Reply::Made,
            101 => Reply::At(n.first),
            102 => Reply::Pitch(Pitch::try_from(n.first as i64).ok()?.into()),
            103 => Reply::Left,
            104 => Reply::Claimed(n.first),
            105 => Reply::Written(n.first),
            106 => Reply::Swapped(n.first),
            107 => Reply::Synced(n.first),
            108 => Reply::Raised,
            109 => Reply::Shared,
            110 => Reply::Waiting(n.first),
            111 => Reply::Spent,
            112 => Reply::Quiet,
            113 => Reply::Returned {
                looks: n.first,
                waits: n.second,
            },
            114 => Reply::Freed {
                slot: n.first,
                releases: n.second,
            },
            115 => Reply::Picked(n.first),
            _ => return None,
        };
        (reply.numbers() == n).then_some(reply)
    }
}

impl fmt::Display for Reply {
    fn fmt(&self, f: &mut fmt::Formatter<'_>) -> fmt::Result {
        match self {
            Reply::Refused(number) => write!(f, "refused {number}"),
            Reply::Made => write!(f, "made"),
            Reply::At(place) => write!(f, "at {place}"),
            Reply::Pitch(v) => write!(f, "pitch {v}"),
            Reply::Left => write!(f, "left"),
            Reply::Claimed(slot) => write!(f, "claimed {slot}"),
            Reply::Written(n) => write!(f, "written {n}"),
            Reply::Swapped(slot) => write!(f, "swapped {slot}"),
            Reply::Synced(mark) => write!(f, "synced {mark}"),
            Reply::Raised => write!(f, "raised"),
            Reply::Shared => write!(f, "shared"),
            Reply::Waiting(whom) => write!(f, "waiting {whom}"),
            Reply::Spent => write!(f, "spent"),
            Reply::Quiet => write!(f, "quiet"),
            Reply::Returned { looks, waits } => write!(f, "returned {looks} {waits}"),
            Reply::Freed { slot, releases } => write!(f, "freed {slot} {releases}"),
            Reply::Picked(slot) => write!(f, "picked {slot}"),
        }
    }
}

impl fmt::Display for Numbers {
    fn fmt(&self, f: &mut fmt::Formatter<'_>) -> fmt::Result {
        match Reply::from_numbers(*self) {
            Some(reply) => write!(f, "{reply}"),
            None => write!(f, "no reply of document 01"),
        }?;
        write!(f, " [{} {} {}]", self.code, self.first, self.second)
    }
}
