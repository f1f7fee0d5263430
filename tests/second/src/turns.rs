//! Whose turn allows what: random calls, mostly allowed ones.

use crate::call::{calls, calls_of, Call, Name};
use crate::layout::{
    pair_at, publisher_at, reader_at, step_at, CURRENT, KIND, PUBLISHERS, READERS, SLOTS, WORDS,
};
use crate::random::Random;
use crate::store::{
    Kind, Pitch, MOST_DEFERRED, NARROW_ENDS, PITCHES, PITCH_ENDS, PITCH_HIGH, PITCH_LOW,
};

#[derive(Clone, Copy, PartialEq, Eq, Debug)]
pub enum Actor {
    Reader(u16),
    Publisher(u16),
}

/// How often a participant of a rest store comes to its rest point: one time
/// in so many turns in which it could begin a checkpoint.
#[derive(Clone, Copy, PartialEq, Eq, Debug)]
pub struct RestPoints(pub u64);

impl RestPoints {
    pub const OFTEN: RestPoints = RestPoints(4);
    /// So seldom that deferred slots are many.
    pub const SELDOM: RestPoints = RestPoints(4000);

    fn some(random: &mut Random) -> RestPoints {
        random.pick(&[
            RestPoints(2),
            RestPoints::OFTEN,
            RestPoints(20),
            RestPoints(400),
        ])
    }
}

/// Gives turns in bursts, as gusts and interrupts do.
pub struct Scheduler {
    actor: Actor,
    reader: u16,
    burst: u64,
    longest: u64,
    wrong: u64,
    readers_in_8: u64,
    rest_points: RestPoints,
    mode: Mode,
}

/// How the one is chosen who goes on.
#[derive(Clone, Copy, PartialEq, Eq, Debug)]
enum Mode {
    /// Anybody, for a burst.
    Bursts,
    /// Readers in turn, for a few steps, and often those who are furthest on.
    InTurn,
    /// Anybody, for one call; but a table is written at one go.
    OneByOne,
}

impl Scheduler {
    pub fn new(random: &mut Random) -> Scheduler {
        Scheduler {
            actor: Actor::Reader(0),
            reader: 0,
            burst: 0,
            longest: random.pick(&[1, 3, 12, 60]),
            wrong: random.pick(&[4, 8, 20]),
            readers_in_8: random.pick(&[1, 1, 2, 4, 6]),
            rest_points: RestPoints::some(random),
            mode: Mode::Bursts,
        }
    }

    /// Publishers get most turns, few calls are wrong, and checkpoints are
    /// rare.
    pub fn deferring(random: &mut Random) -> Scheduler {
        Scheduler {
            longest: random.pick(&[12, 60]),
            wrong: 400,
            readers_in_8: 1,
            rest_points: RestPoints::SELDOM,
            ..Scheduler::new(random)
        }
    }

    /// Checkpoints are many, and deferred slots are soon freed, however many
    /// participants there are.
    pub fn resting(random: &mut Random) -> Scheduler {
        Scheduler {
            longest: random.pick(&[20, 60]),
            wrong: 20,
            rest_points: RestPoints(2),
            mode: Mode::InTurn,
            ..Scheduler::new(random)
        }
    }

    /// Checkpoints and DEFERs of several participants go on side by side.
    pub fn side_by_side(random: &mut Random) -> Scheduler {
        Scheduler {
            wrong: 20,
            readers_in_8: 4,
            rest_points: RestPoints(2),
            mode: Mode::OneByOne,
            ..Scheduler::new(random)
        }
    }

    /// The next call on a store with these words.
    pub fn next(&mut self, words: &[u64; WORDS], random: &mut Random) -> Call {
        if self.burst == 0 {
            self.burst = 1 + random.below(self.longest);
            match self.mode {
                Mode::Bursts => self.actor = some_actor(words, self.readers_in_8, random),
                Mode::InTurn => self.next_in_turn(words, random),
                Mode::OneByOne => self.next_alone(words, random),
            }
        }
        self.burst -= 1;
        if random.one_in(self.wrong) {
            return any_call(words, random);
        }
        let call = in_turn(words, self.actor, self.rest_points, random);
        // Others often get a turn between the two DEFERs.
        if call.name() == Name::Defer && random.one_in(2) {
            self.burst = 0;
        }
        call
    }

    /// A publisher until its table is swapped in, or else anybody for one
    /// call. Whoever stands at 35 most often stays there for a while.
    fn next_alone(&mut self, words: &[u64; WORDS], random: &mut Random) {
        let place = |p: u16| words[publisher_at(usize::from(p.min(15)))];
        let publishers = words[PUBLISHERS].clamp(1, 16) as u16;
        let writing = (0..publishers).find(|&p| matches!(place(p), 1..=33));
        self.burst = 1;
        if let Some(p) = writing {
            self.actor = Actor::Publisher(p);
            return;
        }
        for _ in 0..4 {
            self.actor = some_actor(words, self.readers_in_8, random);
            let (Actor::Reader(n) | Actor::Publisher(n)) = self.actor;
            if place(n) != 35 || random.one_in(8) {
                break;
            }
        }
    }

    /// Somebody who is furthest on, for long, or the next reader, for a few
    /// steps.
    fn next_in_turn(&mut self, words: &[u64; WORDS], random: &mut Random) {
        if random.one_in(4) {
            self.actor = furthest_on(words, random);
            return;
        }
        self.reader = (self.reader + 1) % words[READERS].clamp(1, 64) as u16;
        self.actor = Actor::Reader(self.reader);
        self.burst = 1 + random.below(4);
    }
}

/// The publisher that is furthest on, or a participant that has deferred
/// slots, for a checkpoint.
fn furthest_on(words: &[u64; WORDS], random: &mut Random) -> Actor {
    let mut publishers = 0..words[PUBLISHERS].min(16) as u16;
    let place = |&p: &u16| words[publisher_at(usize::from(p))];
    let busy = publishers.clone().filter(|p| place(p) != 0);
    let deferring = |&p: &u16| words[step_at(usize::from(p)) + 1] != 0;
    match (busy.max_by_key(place), publishers.find(deferring)) {
        (Some(p), None) => Actor::Publisher(p),
        (Some(p), _) if random.one_in(2) => Actor::Publisher(p),
        (_, Some(r)) => Actor::Reader(r),
        (None, None) => Actor::Publisher(0),
    }
}

/// Some reader or publisher of this store. Mostly not a publisher that could
/// only be refused.
pub fn some_actor(words: &[u64; WORDS], readers_in_8: u64, random: &mut Random) -> Actor {
    if random.below(8) < readers_in_8 {
        return Actor::Reader(random.below(words[READERS].clamp(1, 64)) as u16);
    }
    let publishers = words[PUBLISHERS].clamp(1, 16);
    let mut p = random.below(publishers);
    for _ in 0..4 {
        if can_go_on(words, p as usize) {
            break;
        }
        p = random.below(publishers);
    }
    Actor::Publisher(p as u16)
}

/// Whether p is past its CLAIM or may make one.
fn can_go_on(words: &[u64; WORDS], p: usize) -> bool {
    let publishers = words[PUBLISHERS].min(16) as usize;
    let busy = (0..publishers)
        .filter(|&p| words[publisher_at(p)] != 0)
        .count() as u64;
    let room = match Kind::from_number(words[KIND]) {
        Some(Kind::Old) => busy == 0,
        Some(Kind::Rest) => some_seems_free(words),
        Some(Kind::New) | None => busy + 1 < words[SLOTS],
    };
    words[publisher_at(p)] != 0 || room
}

/// A call that the actor's place allows, or nearly.
pub fn in_turn(
    words: &[u64; WORDS],
    actor: Actor,
    rest_points: RestPoints,
    random: &mut Random,
) -> Call {
    let rest = Kind::from_number(words[KIND]) == Some(Kind::Rest);
    match actor {
        Actor::Reader(r) if rest => participant_reads(words, r, rest_points, random),
        Actor::Publisher(p) if rest => participant_publishes(words, p, rest_points, random),
        Actor::Reader(r) => reader_in_turn(words[reader_at(usize::from(r))], r, random),
        Actor::Publisher(p) => publisher_in_turn(words, p, random),
    }
}

fn reader_in_turn(place: u64, r: u16, random: &mut Random) -> Call {
    match place {
        4 if random.one_in(4) => Call::Leave { r },
        5 if random.one_in(3) => Call::Leave { r },
        5 => Call::Look {
            r,
            k: random.below(32) as u16,
        },
        _ => Call::Enter { r },
    }
}

fn publisher_in_turn(words: &[u64; WORDS], p: u16, random: &mut Random) -> Call {
    let old = Kind::from_number(words[KIND]) == Some(Kind::Old);
    match words[publisher_at(usize::from(p))] {
        0..=33 => fills_a_slot(words, p, random),
        34 => Call::Sync { p },
        35 if old => Call::Walk {
            p,
            b: budget(words, p, random),
        },
        35 | 36 => Call::Raise { p },
        37 => Call::Walk {
            p,
            b: budget(words, p, random),
        },
        _ => Call::Release { p },
    }
}

/// What a publisher below 34 does in every kind.
fn fills_a_slot(words: &[u64; WORDS], p: u16, random: &mut Random) -> Call {
    match words[publisher_at(usize::from(p))] {
        0 => Call::Claim {
            p,
            s: likely_slot(words, random),
        },
        1..=32 => Call::Write {
            p,
            v: pitch_in_range(random),
        },
        _ => Call::Swap { p },
    }
}

/// The numbers of a participant that say which of its calls are in turn.
struct Participant {
    reader_place: u64,
    publisher_place: u64,
    step: u64,
    deferred: u64,
}

impl Participant {
    fn of(words: &[u64; WORDS], n: u16) -> Participant {
        let p = usize::from(n.min(15));
        Participant {
            reader_place: words[reader_at(p)],
            publisher_place: words[publisher_at(p)],
            step: words[step_at(p)],
            deferred: words[step_at(p) + 1],
        }
    }
}

/// A blade loop's turn: it goes on with its checkpoint, or looks, or picks.
fn participant_reads(
    words: &[u64; WORDS],
    r: u16,
    rest_points: RestPoints,
    random: &mut Random,
) -> Call {
    let participant = Participant::of(words, r);
    match participant.reader_place {
        _ if participant.publisher_place == 35 => Call::Defer { p: r },
        _ if participant.step != 0 || random.one_in(rest_points.0) => Call::Checkpoint { r },
        5 if !random.one_in(6) => Call::Look {
            r,
            k: random.below(32) as u16,
        },
        _ => Call::Pick { r },
    }
}

/// A publisher's turn. Where it can only wait for slots, it most often goes
/// on with a checkpoint of its own.
fn participant_publishes(
    words: &[u64; WORDS],
    p: u16,
    rest_points: RestPoints,
    random: &mut Random,
) -> Call {
    let participant = Participant::of(words, p);
    let full = participant.deferred >= MOST_DEFERRED as u64;
    let waits = match participant.publisher_place {
        0 => !some_seems_free(words) && !random.one_in(4),
        34 => participant.step != 0 && !random.one_in(8) || full && random.one_in(10),
        _ => false,
    };
    match participant.publisher_place {
        _ if waits => Call::Checkpoint { r: p },
        34 if random.one_in(rest_points.0) => Call::Checkpoint { r: p },
        34 | 35 => Call::Defer { p },
        _ => fills_a_slot(words, p, random),
    }
}

/// Any call with any arguments, right ones and wrong ones. Some are calls
/// that the kind lacks.
pub fn any_call(words: &[u64; WORDS], random: &mut Random) -> Call {
    let known = Kind::from_number(words[KIND]).filter(|_| !random.one_in(4));
    let names: Vec<Name> = match known {
        Some(kind) => calls_of(kind).collect(),
        None => calls().collect(),
    };
    call_named(random.pick(&names), words, random)
}

/// The call of this name with any arguments.
pub fn call_named(name: Name, words: &[u64; WORDS], random: &mut Random) -> Call {
    let r = some_name(words[READERS], random);
    let p = some_name(words[PUBLISHERS], random);
    match name {
        Name::Store => unreachable!("making has arguments of its own"),
        Name::Enter => Call::Enter { r },
        Name::Look => Call::Look {
            r,
            k: some_entry(random),
        },
        Name::Leave => Call::Leave { r },
        Name::Claim => Call::Claim {
            p,
            s: some_slot(words, random),
        },
        Name::Write => Call::Write {
            p,
            v: some_pitch(random),
        },
        Name::Swap => Call::Swap { p },
        Name::Sync => Call::Sync { p },
        Name::Raise => Call::Raise { p },
        Name::Walk => Call::Walk {
            p,
            b: budget(words, p, random),
        },
        Name::Release => Call::Release { p },
        Name::Pick => Call::Pick { r },
        Name::Checkpoint => Call::Checkpoint { r },
        Name::Defer => Call::Defer { p },
    }
}

/// The call of this name by this number, with other arguments in range.
pub fn call_by(name: Name, n: u16, words: &[u64; WORDS], random: &mut Random) -> Call {
    match name {
        Name::Store => unreachable!("making has arguments of its own"),
        Name::Enter => Call::Enter { r: n },
        Name::Look => Call::Look {
            r: n,
            k: random.below(32) as u16,
        },
        Name::Leave => Call::Leave { r: n },
        Name::Claim => Call::Claim {
            p: n,
            s: likely_slot(words, random),
        },
        Name::Write => Call::Write {
            p: n,
            v: pitch_in_range(random),
        },
        Name::Swap => Call::Swap { p: n },
        Name::Sync => Call::Sync { p: n },
        Name::Raise => Call::Raise { p: n },
        Name::Walk => Call::Walk {
            p: n,
            b: budget(words, n, random),
        },
        Name::Release => Call::Release { p: n },
        Name::Pick => Call::Pick { r: n },
        Name::Checkpoint => Call::Checkpoint { r: n },
        Name::Defer => Call::Defer { p: n },
    }
}

/// A name within the count, or sometimes just or far beyond it.
fn some_name(count: u64, random: &mut Random) -> u16 {
    match random.below(16) {
        0 => count as u16,
        1 => random.pick(&[15, 16, 17, 63, 64, 65, 256, u16::MAX]),
        2 => (count as u16).wrapping_sub(1),
        _ => random.below(count.clamp(1, 64)) as u16,
    }
}

fn some_entry(random: &mut Random) -> u16 {
    match random.below(4) {
        0 => random.pick(&[0, 30, 31, 32, 33, 63, 64, 256, u16::MAX]),
        _ => random.below(32) as u16,
    }
}

fn some_slot(words: &[u64; WORDS], random: &mut Random) -> u16 {
    match random.below(4) {
        0 => random.pick(&[words[SLOTS] as u16, 31, 32, 33, 256, u16::MAX]),
        _ => random.below(words[SLOTS].clamp(1, 64)) as u16,
    }
}

/// Most often a free slot, if there is one.
fn likely_slot(words: &[u64; WORDS], random: &mut Random) -> u16 {
    let slots = words[SLOTS].clamp(1, 64);
    let first = random.below(slots);
    if random.one_in(8) {
        return first as u16;
    }
    let from_first = (0..slots).map(|n| (first + n) % slots);
    from_first
        .into_iter()
        .find(|&slot| seems_free(words, slot))
        .unwrap_or(first) as u16
}

fn seems_free(words: &[u64; WORDS], slot: u64) -> bool {
    let publishers = words[PUBLISHERS].min(16) as usize;
    let held = (0..publishers)
        .map(publisher_at)
        .any(|at| words[at] != 0 && words[at + 1] == slot);
    words[CURRENT] != slot && !held && !seems_deferred(words, slot)
}

fn seems_deferred(words: &[u64; WORDS], slot: u64) -> bool {
    if Kind::from_number(words[KIND]) != Some(Kind::Rest) {
        return false;
    }
    (0..words[PUBLISHERS].min(16) as usize).any(|p| {
        let count = words[step_at(p) + 1].min(MOST_DEFERRED as u64) as usize;
        (0..count).any(|i| words[pair_at(p, i)] == slot)
    })
}

fn some_seems_free(words: &[u64; WORDS]) -> bool {
    (0..words[SLOTS].min(32)).any(|slot| seems_free(words, slot))
}

fn pitch_in_range(random: &mut Random) -> Pitch {
    match random.below(16) {
        0 => random.pick(&[
            PITCH_LOW,
            PITCH_LOW + 1,
            -1,
            0,
            1,
            PITCH_HIGH - 1,
            PITCH_HIGH,
        ]),
        _ => random.below(PITCHES) as Pitch + PITCH_LOW,
    }
}

fn some_pitch(random: &mut Random) -> Pitch {
    match random.below(6) {
        0 | 1 => random.pick(&PITCH_ENDS),
        2 => random.pick(&NARROW_ENDS),
        3 => random.word() as Pitch,
        4 => pitch_in_range(random) + random.pick(&[1 << 16, -1 << 16]),
        _ => pitch_in_range(random),
    }
}

/// How many looks a WALK may make: none, a few, enough, as many as there
/// are, or just about as many as 2^64 - 1 leaves.
fn budget(words: &[u64; WORDS], p: u16, random: &mut Random) -> u16 {
    let at = publisher_at(usize::from(p.min(15)));
    let (next, looks) = (words[at + 3], words[at + 4]);
    let room = u64::MAX - looks;
    if room < 65_536 && !random.one_in(4) {
        return (room as u16)
            .wrapping_add(1)
            .wrapping_sub(random.below(3) as u16);
    }
    match random.below(8) {
        0 => 0,
        1 | 2 => 1,
        3 => 2,
        4 => {
            let rest = words[READERS].wrapping_sub(next) as u16;
            rest.wrapping_add(1).wrapping_sub(random.below(3) as u16)
        }
        5 => u16::MAX,
        6 => random.word() as u16,
        _ => random.below(66) as u16,
    }
}
