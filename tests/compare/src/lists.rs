//! Part 1: random lists of calls from a fresh store, with the shelf and
//! demand 3 checked after every call.

use crate::both::{Both, Stop};
use second::call::{Call, Reply};
use second::crossing::Crossing;
use second::demand3::Demand3;
use second::events::Event;
use second::layout::{KIND, PUBLISHERS, READERS, SLOTS, WORDS};
use second::making::Making;
use second::random::Random;
use second::store::{Kind, Pitch, KINDS, OLD_LAST_BEFORE, PITCH_LOW, STEP_MOST};
use second::tables;
use second::turns::Scheduler;

pub struct Sizes {
    pub readers: u16,
    pub publishers: u16,
    pub slots: u16,
}

impl Sizes {
    /// As many readers as publishers.
    pub fn equal(participants: u16, slots: u16) -> Sizes {
        Sizes {
            readers: participants,
            publishers: participants,
            slots,
        }
    }

    /// A making with these sizes.
    pub fn making(&self, kind: Kind, version: u64) -> Call {
        Call::Make {
            kind: kind.number() as u16,
            readers: self.readers,
            publishers: self.publishers,
            slots: self.slots,
            version,
        }
    }
}

/// Goes over the numbers of participants, and over the last epochs, in turn.
#[derive(Default)]
pub struct Lists {
    resting: u16,
    deferring: u16,
}

/// What a list is made of besides chance.
struct Plan {
    sizes: Sizes,
    version: u64,
    scheduler: Scheduler,
    calls: u64,
}

impl Lists {
    /// One list: some refused makings, an accepted one, and calls.
    pub fn play(&mut self, both: &mut Both, random: &mut Random) -> Result<(), Stop> {
        both.part = "a list from a fresh store";
        let kind = random.pick(&KINDS);
        lend_anything(both, random);
        for _ in 0..random.below(3) {
            try_making(both, random)?;
        }
        let plan = self.plan(kind, random);
        let mut demand3 = make(both, kind, &plan.sizes, plan.version, random)?;
        let played = play_calls(both, &mut demand3, plan, random);
        both.seen.lists += 1;
        both.seen.returns += demand3.returns();
        both.seen.swaps += demand3.swaps();
        both.seen.freed += demand3.freed();
        let crossed = Event::Crossed(Crossing::Returned);
        both.seen.crossed += u64::from(demand3.events().contains(&crossed));
        both.seen.note_events(demand3.events());
        played
    }

    /// Some lists of a rest store are for many deferred slots at the last
    /// epochs, and some for checkpoints among every number of participants.
    fn plan(&mut self, kind: Kind, random: &mut Random) -> Plan {
        let plan = Plan {
            sizes: some_sizes(kind, random),
            version: first_version(kind, random),
            scheduler: Scheduler::new(random),
            calls: random.pick(&[50, 400, 1500, 4000]),
        };
        match (kind, random.below(4)) {
            (Kind::Rest, 0) => self.deferring(plan, random),
            (Kind::Rest, 1) => self.resting(plan, random),
            (Kind::Rest, 2) => Plan {
                scheduler: Scheduler::side_by_side(random),
                ..plan
            },
            (Kind::New | Kind::Old | Kind::Rest, _) => plan,
        }
    }

    fn deferring(&mut self, plan: Plan, random: &mut Random) -> Plan {
        self.deferring += 1;
        let (participants, version) = match self.deferring % 5 {
            0 => (1, u64::MAX - 8),
            1 => (1, u64::MAX - 7),
            2 => (random.pick(&[1, 2]), 0),
            3 => (random.pick(&[1, 2]), u64::MAX - random.below(3)),
            _ => (random.pick(&[1, 2]), plan.version),
        };
        Plan {
            sizes: Sizes::equal(participants, 12 + random.below(21) as u16),
            version,
            scheduler: Scheduler::deferring(random),
            calls: 100 + 420 * u64::from(participants),
        }
    }

    fn resting(&mut self, plan: Plan, random: &mut Random) -> Plan {
        let participants = 1 + self.resting % 16;
        self.resting += 1;
        Plan {
            sizes: Sizes::equal(participants, plan.sizes.slots),
            version: plan.version.min(u64::MAX - 1000),
            scheduler: Scheduler::resting(random),
            calls: 300 + 120 * u64::from(participants),
        }
    }
}

/// Words and entries that hold anything, for a making to write over or to
/// leave.
fn lend_anything(both: &mut Both, random: &mut Random) {
    let mut words = [0; WORDS];
    words.fill_with(|| random.word());
    words[KIND] = kind_or_none(random);
    both.set_words(&words);
    let mut entries = [0; 1024];
    entries.fill_with(|| random.word() as Pitch);
    let slots = random.below(33) as usize;
    both.set_entries(&entries[..slots * 32]);
    both.set_table(&tables::any(random));
}

/// The number of a kind, or one that no kind has.
fn kind_or_none(random: &mut Random) -> u64 {
    let kind = random.pick(&KINDS);
    let before = kind.number_before().unwrap_or(3);
    random.pick(&[0, kind.number(), kind.number(), before, 4])
}

/// A making with one argument wrong, or with wrong ones in any mixture.
fn try_making(both: &mut Both, random: &mut Random) -> Result<(), Stop> {
    let call = match random.below(4) {
        0 => one_wrong(both, random),
        1 => late_version(both, random),
        _ => any_wrong(both, random),
    };
    both.call(&call).map(|_| ())
}

/// A making at a border of one refusal, with all else in order.
fn one_wrong(both: &mut Both, random: &mut Random) -> Call {
    let kind = random.pick(&KINDS);
    let Sizes {
        mut readers,
        mut publishers,
        mut slots,
    } = some_sizes(kind, random);
    let mut version = first_version(kind, random);
    let mut length = usize::from(slots) * 32;
    match random.below(5) {
        0 if kind == Kind::Rest => {
            readers = random.pick(&[0, 1, 16, 17, 64, 65]);
            publishers = readers;
        }
        0 => readers = random.pick(&[0, 1, 64, 65]),
        1 => publishers = random.pick(&[0, 1, 16, 17, readers + 1]),
        2 => {
            slots = random.pick(&[0, 1, 2, 32, 33]);
            length = usize::from(slots) * 32;
        }
        3 => length = random.pick(&[0, length - 1, length + 1, length + 32]),
        _ => version = version_border(kind, random),
    }
    both.set_entries(&vec![random.word() as Pitch; length]);
    both.set_table(&tables::good(random));
    Call::Make {
        kind: kind.number() as u16,
        readers,
        publishers,
        slots,
        version,
    }
}

/// The last version or one above it. An old store has none: there it is about
/// 2^63, where one was before, or the highest number.
fn version_border(kind: Kind, random: &mut Random) -> u64 {
    match kind {
        Kind::New | Kind::Rest => kind.highest().saturating_add(random.below(2)),
        Kind::Old => random.pick(&[OLD_LAST_BEFORE, OLD_LAST_BEFORE + 1, u64::MAX]),
    }
}

/// A new store's first version above the last, beside any first table.
fn late_version(both: &mut Both, random: &mut Random) -> Call {
    let sizes = some_sizes(Kind::New, random);
    let length = usize::from(sizes.slots) * 32;
    both.set_entries(&vec![random.word() as Pitch; length]);
    both.set_table(&tables::any(random));
    sizes.making(Kind::New, u64::MAX)
}

/// A making with wrong arguments and a wrong first table in any mixture. The
/// entries lent are mostly of a wrong length too.
fn any_wrong(both: &mut Both, random: &mut Random) -> Call {
    both.set_table(&tables::any(random));
    let kind = random.pick(&KINDS);
    let last = kind.highest();
    let slots = size(2, 32, random);
    if random.one_in(2) && slots <= 64 {
        let length = usize::from(slots) * 32;
        let length = if random.one_in(8) {
            length.saturating_sub(1)
        } else {
            length
        };
        both.set_entries(&vec![random.word() as Pitch; length]);
    }
    let readers = size(1, 64, random);
    let publishers = match random.one_in(3) {
        true => readers,
        false => size(1, 16, random),
    };
    Call::Make {
        kind: kind.number() as u16,
        readers,
        publishers,
        slots,
        version: match random.below(4) {
            0 => last.wrapping_add(1 + random.below(2)),
            1 => last - random.below(2),
            2 => u64::MAX,
            _ => random.anything(),
        },
    }
}

/// A making that is refused whatever is lent, in the middle of a list.
fn refused_making(random: &mut Random) -> Call {
    let kind = kind_or_none(random) as u16;
    let (readers, publishers, slots) = random.pick(&[
        (0, 1, 2),
        (65, 1, 2),
        (1, 0, 2),
        (1, 17, 2),
        (17, 17, 1),
        (1, 1, 1),
        (64, 16, 33),
        (16, 16, 33),
    ]);
    Call::Make {
        kind,
        readers,
        publishers,
        slots,
        version: random.anything(),
    }
}

/// A size within its range, or sometimes just or far outside.
fn size(least: u16, most: u16, random: &mut Random) -> u16 {
    match random.below(6) {
        0 => random.pick(&[least - 1, 0, most + 1, most + 2, 256 + least, u16::MAX]),
        1 => random.pick(&[least, most]),
        _ => least + random.below(u64::from(most - least + 1)) as u16,
    }
}

pub fn some_sizes(kind: Kind, random: &mut Random) -> Sizes {
    let equal = match kind {
        Kind::New | Kind::Old => false,
        Kind::Rest => true,
    };
    let most_readers = if equal { 16 } else { 64 };
    let (readers, publishers, slots) = match random.below(12) {
        0 => (most_readers, 16, 32),
        1 => (1, 1, 2),
        _ => {
            let any_readers = 1 + random.below(u64::from(most_readers)) as u16;
            let any_publishers = 1 + random.below(16) as u16;
            let any_slots = 2 + random.below(31) as u16;
            (
                random.pick(&[1, 2, 2, 3, 5, most_readers, any_readers]),
                random.pick(&[1, 2, 2, 3, 4, 16, any_publishers]),
                random.pick(&[2, 3, 3, 4, 6, 32, any_slots]),
            )
        }
    };
    Sizes {
        readers,
        publishers: if equal { readers } else { publishers },
        slots,
    }
}

pub fn first_version(kind: Kind, random: &mut Random) -> u64 {
    let last = match kind {
        Kind::New | Kind::Rest => kind.highest(),
        Kind::Old => return old_first_version(random),
    };
    match random.below(12) {
        0 => last,
        1 => last - 1,
        2 => last - 2,
        3 => last - random.below(20),
        4 => 1,
        5 => random.below(100),
        6 => random.word() % last,
        _ => 0,
    }
}

/// One time in eight within 3 of 2^64, and as often about 2^63.
fn old_first_version(random: &mut Random) -> u64 {
    match random.below(16) {
        0 | 1 => u64::MAX - random.below(3),
        2 | 3 => OLD_LAST_BEFORE - 1 + random.below(4),
        4 => u64::MAX - random.below(20),
        5 => 1,
        6 => random.below(100),
        7 => random.word(),
        _ => 0,
    }
}

fn make(
    both: &mut Both,
    kind: Kind,
    sizes: &Sizes,
    version: u64,
    random: &mut Random,
) -> Result<Demand3, Stop> {
    let lent = random.word() as Pitch;
    both.set_entries(&[lent; 1024][..usize::from(sizes.slots) * 32]);
    let first = tables::good(random);
    both.set_table(&first);
    let call = sizes.making(kind, version);
    both.call(&call)?;
    both.seen.note_making(kind, &call);
    let making = Making::of(&call).expect("a known kind");
    Ok(Demand3::fresh(&making, &first, both.rules()))
}

/// A making with the sizes of the store that is lent, refused for its first
/// table alone.
fn refused_table(both: &mut Both, random: &mut Random) -> Option<Call> {
    let words = both.words()?;
    let sizes = Sizes {
        readers: words[READERS] as u16,
        publishers: words[PUBLISHERS] as u16,
        slots: words[SLOTS] as u16,
    };
    let kind = Kind::from_number(words[KIND])?;
    let table = match random.below(3) {
        0 => tables::of_length(random.pick(&[0, 31, 33]), random),
        1 => tables::with_entry(random.below(32) as usize, PITCH_LOW - 1, random),
        _ => tables::with_step(random.below(31) as usize, -STEP_MOST - 1, random),
    };
    both.set_table(&table);
    Some(sizes.making(kind, random.below(100)))
}

fn play_calls(
    both: &mut Both,
    demand3: &mut Demand3,
    mut plan: Plan,
    random: &mut Random,
) -> Result<(), Stop> {
    let mut stuck = 0;
    for _ in 0..plan.calls {
        let Some(words) = both.words() else { break };
        let call = plan.scheduler.next(words, random);
        if random.one_in(200) {
            let refused = match random.one_in(2) {
                true => refused_table(both, random),
                false => Some(refused_making(random)),
            };
            refused.map_or(Ok(()), |making| both.call(&making).map(|_| ()))?;
        }
        let reply = both.listed(&call, demand3)?;
        // 32 and 43 are given for ever after.
        if matches!(reply, Reply::Refused(32 | 43)) {
            stuck += 1;
        }
        if stuck > 20 {
            break;
        }
    }
    Ok(())
}
