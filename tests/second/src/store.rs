//! The numbers of a store, and how a call finds its way to its step.

use crate::call::{Answer, Call, Refusal, Reply, Whom};
use crate::rules::{Alteration, Rules};
use std::fmt;

pub const NOT_READING: u64 = u64::MAX;
/// A pitch, in thousandths of a degree, and its range.
pub type Pitch = i32;
pub const PITCH_LOW: Pitch = -5000;
pub const PITCH_HIGH: Pitch = 95_000;
pub const FEATHERED: Pitch = 90_000;
/// How many pitches are in range.
pub const PITCHES: u64 = (PITCH_HIGH - PITCH_LOW) as u64 + 1;
/// Pitches at the ends of the range, and at those of their bits.
pub const PITCH_ENDS: [Pitch; 8] = [
    PITCH_LOW - 2,
    PITCH_LOW - 1,
    PITCH_LOW,
    PITCH_HIGH,
    PITCH_HIGH + 1,
    PITCH_HIGH + 2,
    Pitch::MIN,
    Pitch::MAX,
];
/// The range and the highest step of the format before, in hundredths.
pub const LOW_BEFORE: Pitch = -500;
pub const HIGH_BEFORE: Pitch = 9500;
pub const STEP_BEFORE: Pitch = 1500;
/// Pitches about that range and about the ends of 16 bits, and such as look
/// like others when only 16 bits of them are kept.
pub const NARROW_ENDS: [Pitch; 16] = [
    -501, -500, 9500, 9501, 32_767, 32_768, -32_768, -32_769, 60_535, 60_536, 65_535, 65_536,
    74_536, 98_303, 131_072, -65_536,
];
pub const TABLE: usize = 32;
/// The most that two neighbours of a first table may differ.
pub const STEP_MOST: Pitch = 15_000;
pub const MOST_READERS: usize = 64;
pub const MOST_PUBLISHERS: usize = 16;
pub const MOST_SLOTS: usize = 32;
/// The last version that an old store had before request 5.
pub const OLD_LAST_BEFORE: u64 = (1 << 63) - 1;
/// The most slots that a participant of a rest store may have deferred.
pub const MOST_DEFERRED: usize = 8;

#[derive(Clone, Copy, PartialEq, Eq, PartialOrd, Ord, Debug)]
pub enum Kind {
    New,
    Old,
    Rest,
}

pub const KINDS: [Kind; 3] = [Kind::New, Kind::Old, Kind::Rest];

/// The format of words and entries, which a kind's number carries.
pub const FORMAT: u64 = 1;

impl Kind {
    /// The kind word.
    pub const fn number(self) -> u64 {
        self.number_in(FORMAT)
    }

    /// The kind word of the format before, if that had the kind.
    pub const fn number_before(self) -> Option<u64> {
        match self {
            Kind::New | Kind::Old => Some(self.number_in(FORMAT - 1)),
            Kind::Rest => None,
        }
    }

    const fn number_in(self, format: u64) -> u64 {
        let kind = match self {
            Kind::New => 1,
            Kind::Old => 2,
            Kind::Rest => 3,
        };
        16 * format + kind
    }

    pub fn from_number(number: u64) -> Option<Kind> {
        KINDS.into_iter().find(|kind| kind.number() == number)
    }

    pub fn from_number_before(number: u64) -> Option<Kind> {
        let before = |kind: &Kind| kind.number_before() == Some(number);
        KINDS.into_iter().find(before)
    }

    /// The last version. An old store has none: its versions and marks run
    /// modulo 2^64.
    pub fn last(self) -> Option<u64> {
        match self {
            Kind::New => Some(u64::MAX - 1),
            Kind::Old => None,
            Kind::Rest => Some(u64::MAX),
        }
    }

    /// The highest version that a store of this kind can have.
    pub fn highest(self) -> u64 {
        self.last().unwrap_or(u64::MAX)
    }
}

impl fmt::Display for Kind {
    fn fmt(&self, f: &mut fmt::Formatter<'_>) -> fmt::Result {
        f.write_str(match self {
            Kind::New => "new",
            Kind::Old => "old",
            Kind::Rest => "rest",
        })
    }
}

/// In a rest store the numbers are epochs: `first` is the loaded one,
/// `second` the least read, `published` the observed one.
#[derive(Clone, Copy, PartialEq, Eq, Debug, Default)]
pub struct Reader {
    pub place: u64,
    pub first: u64,
    pub second: u64,
    pub published: u64,
    pub picked: u64,
}

#[derive(Clone, Copy, PartialEq, Eq, Debug, Default)]
pub struct Walk {
    pub mark: u64,
    pub next: u64,
    pub looks: u64,
    pub waits: u64,
}

#[derive(Clone, Copy, PartialEq, Eq, Debug, Default)]
pub struct Publisher {
    pub place: u64,
    pub held: u64,
    pub walk: Walk,
}

/// A slot that a participant has deferred, and the mark queued with it.
#[derive(Clone, Copy, PartialEq, Eq, Debug, Default)]
pub struct Deferred {
    pub slot: u64,
    pub mark: u64,
}

/// What a participant of a rest store has besides the reader and the
/// publisher of its number.
#[derive(Clone, PartialEq, Eq, Debug)]
pub struct Participant {
    /// The step of its checkpoint, 0 outside one.
    pub step: u64,
    /// Its deferred slots, in the order in which they were queued.
    pub deferred: Vec<Deferred>,
    /// What stands in the room behind them, up to eight in all.
    pub behind: Vec<Deferred>,
    /// By how much a packed count is above eight.
    pub excess: u64,
}

impl Participant {
    /// A participant with this packed count and these eight pairs.
    pub fn packed(step: u64, count: u64, pairs: [Deferred; MOST_DEFERRED]) -> Participant {
        let known = count.min(MOST_DEFERRED as u64);
        let (deferred, behind) = pairs.split_at(known as usize);
        Participant {
            step,
            deferred: deferred.to_vec(),
            behind: behind.to_vec(),
            excess: count - known,
        }
    }

    pub fn fresh() -> Participant {
        Participant::packed(0, 0, [Deferred::default(); MOST_DEFERRED])
    }

    pub fn count(&self) -> u64 {
        self.deferred.len() as u64 + self.excess
    }
}

/// A store of any kind. The records beyond the sizes are kept, because a
/// packed store has them too; so are the participants of every kind.
#[derive(Clone, PartialEq, Eq, Debug)]
pub struct Store {
    pub kind: Kind,
    pub readers: u64,
    pub publishers: u64,
    pub slots: u64,
    pub current: u64,
    pub version: u64,
    pub releases: u64,
    pub indicators: [u64; 2],
    pub reader: [Reader; MOST_READERS],
    pub publisher: [Publisher; MOST_PUBLISHERS],
    pub participant: [Participant; MOST_PUBLISHERS],
}

impl Store {
    /// One of the thirteen calls on this store.
    pub fn call(&mut self, entries: &mut [Pitch], call: &Call, rules: Rules) -> Reply {
        Reply::from(self.answer(entries, call, rules))
    }

    fn answer(&mut self, entries: &mut [Pitch], call: &Call, rules: Rules) -> Answer {
        if !call.name().of(self.kind) {
            return self.lacked(call, rules);
        }
        if rules.has(Alteration::NameBeforeSpoiled) {
            self.names_exist(call)?;
        }
        if self.clauses(entries.len(), rules).any() {
            return Err(Refusal(1));
        }
        match *call {
            Call::Make { .. } => unreachable!("making has no store yet"),
            Call::Enter { r } => self.enter(r, rules),
            Call::Look { r, k } => self.look(entries, r, k, rules),
            Call::Leave { r } => self.leave(r, rules),
            Call::Claim { p, s } => self.claim(p, s, rules),
            Call::Write { p, v } => self.write(entries, p, v, rules),
            Call::Swap { p } => self.swap(p, rules),
            Call::Sync { p } => self.sync(p, rules),
            Call::Raise { p } => self.raise(p, rules),
            Call::Walk { p, b } => self.walk(p, b, rules),
            Call::Release { p } => self.release(p, rules),
            Call::Pick { r } => self.pick(r, rules),
            Call::Checkpoint { r } => self.checkpoint(r, rules),
            Call::Defer { p } => self.defer(p, rules),
        }
    }

    /// A call that the kind lacks gets 1 before all else.
    fn lacked(&mut self, call: &Call, rules: Rules) -> Answer {
        if rules.has(Alteration::LackedByName) {
            self.names_exist(call)?;
        }
        if rules.has(Alteration::LackedByTurn) {
            let reader = call.name().whom() == Whom::Reader;
            return Err(Refusal(if reader { 20 } else { 21 }));
        }
        if let (Call::Leave { r }, true) = (*call, rules.has(Alteration::RestLeaves)) {
            let r = self.reader_named(r)?;
            self.reader[r].place = 0;
            return Ok(Reply::Left);
        }
        if let (Call::Pick { r }, true) = (*call, rules.has(Alteration::OthersPick)) {
            return self.pick(r, rules);
        }
        Err(Refusal(1))
    }

    fn names_exist(&self, call: &Call) -> Result<(), Refusal> {
        if let Some(r) = call.reader() {
            self.reader_named(r)?;
        }
        if let Some(p) = call.publisher() {
            self.publisher_named(p)?;
        }
        Ok(())
    }

    /// The reader r, or refusal 10.
    pub fn reader_named(&self, r: u16) -> Result<usize, Refusal> {
        named(r, self.readers, MOST_READERS).ok_or(Refusal(10))
    }

    /// The publisher p, or refusal 11.
    pub fn publisher_named(&self, p: u16) -> Result<usize, Refusal> {
        named(p, self.publishers, MOST_PUBLISHERS).ok_or(Refusal(11))
    }

    /// The readers within the size.
    pub fn present_readers(&self) -> &[Reader] {
        &self.reader[..self.readers.min(MOST_READERS as u64) as usize]
    }

    /// The publishers within the size.
    pub fn present_publishers(&self) -> &[Publisher] {
        &self.publisher[..self.publishers.min(MOST_PUBLISHERS as u64) as usize]
    }

    /// The participants within the size.
    pub fn present_participants(&self) -> &[Participant] {
        &self.participant[..self.publishers.min(MOST_PUBLISHERS as u64) as usize]
    }
}

fn named(name: u16, count: u64, room: usize) -> Option<usize> {
    let n = usize::from(name);
    (u64::from(name) < count && n < room).then_some(n)
}

/// Where entry k of a slot is among the entries. An altered damage test can
/// let a slot through that is too large; there is no such entry then.
pub fn entry_index(slot: u64, k: u64, entries: &[Pitch]) -> Option<usize> {
    let index = slot.checked_mul(TABLE as u64)?.checked_add(k)?;
    usize::try_from(index).ok().filter(|&i| i < entries.len())
}
