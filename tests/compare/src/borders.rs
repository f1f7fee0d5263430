//! Stores with one number at a border of the damage test.

use crate::both::MOST_ENTRIES;
use crate::undamaged::{
    count_indicators, put_participant, put_publisher, put_reader, undamaged, Case,
};
use second::damage::Clause;
use second::random::Random;
use second::rules::Rules;
use second::store::{Deferred, Kind, Publisher, Reader, Store, MOST_DEFERRED, NOT_READING};

/// How a border is tried: with eight numbers outside, with one inside, and
/// with one outside where it does not count.
const OUTSIDE: usize = 8;
const INSIDE: usize = OUTSIDE;
const ELSEWHERE: usize = OUTSIDE + 1;
pub const TRIALS: usize = OUTSIDE + 2;

impl Case {
    /// Spoiled by this clause alone outside the border, and else undamaged.
    pub fn as_meant(&self, clause: Clause, trial: usize) -> bool {
        let clauses = self.store.clauses(self.length, Rules::AS_WRITTEN);
        if trial < OUTSIDE {
            clauses.only(clause)
        } else {
            !clauses.any()
        }
    }
}

/// Slots that are none, or too many for the entries, are spoiled by another
/// clause too.
pub fn never_alone(clause: Clause, trial: usize) -> bool {
    clause == Clause::Slots && matches!(trial, 1 | 3 | 6 | 7)
}

/// A store for this clause and trial, tried again some times until no other
/// clause applies; and the name of the record touched.
pub fn border_case(kind: Kind, clause: Clause, trial: usize, random: &mut Random) -> (Case, u16) {
    let mut attempt = 0;
    loop {
        let (calm, tidy) = (attempt % 2 == 1, attempt % 4 > 1 || random.one_in(4));
        let mut case = undamaged(kind, calm, tidy, random);
        let name = put_at_border(&mut case, clause, trial, random);
        attempt += 1;
        if case.as_meant(clause, trial) || attempt == 40 {
            return (case, name as u16);
        }
    }
}

fn put_at_border(case: &mut Case, clause: Clause, trial: usize, random: &mut Random) -> usize {
    match clause {
        Clause::Publishers if case.store.kind == Kind::Rest => {
            participants_border(&mut case.store, trial);
        }
        Clause::Readers | Clause::Publishers => size_border(&mut case.store, clause, trial),
        Clause::Unequal => unequal_border(&mut case.store, trial),
        Clause::Slots => slots_border(case, trial),
        Clause::EntriesLength => length_border(case, trial),
        Clause::Current | Clause::Version => head_border(&mut case.store, clause, trial),
        Clause::Indicator0 => indicator_border(&mut case.store.indicators[0], trial),
        Clause::Indicator1 => indicator_border(&mut case.store.indicators[1], trial),
        Clause::ReaderPlace | Clause::Picked | Clause::Published => {
            return reader_border(&mut case.store, clause, trial, random);
        }
        Clause::PublisherPlace
        | Clause::Held
        | Clause::MarkZero
        | Clause::MarkAboveLast
        | Clause::WaitsAboveLooks
        | Clause::Next => return publisher_border(&mut case.store, clause, trial, random),
        Clause::Step | Clause::Count | Clause::EightAt35 | Clause::DeferredSlot => {
            return participant_border(&mut case.store, clause, trial, random);
        }
    }
    random.below(case.store.publishers.clamp(1, 16)) as usize
}

/// Eight numbers above a range that ends with `last`, the nearest first.
/// Some look like 0 or `last` when their upper bits are cut off.
fn above(last: u64) -> [u64; OUTSIDE] {
    let cut = |bit: u32| last.saturating_add(1 << bit);
    let zero = (1 << 32).max(last + 1);
    let next = last.saturating_add(2);
    [
        last + 1,
        next,
        cut(8),
        cut(16),
        cut(32),
        zero,
        cut(63),
        u64::MAX,
    ]
}

fn size_border(store: &mut Store, clause: Clause, trial: usize) {
    let (number, most) = match clause {
        Clause::Readers => (&mut store.readers, 64),
        _ => (&mut store.publishers, 16),
    };
    *number = match trial {
        0 => 0,
        INSIDE => *number,
        ELSEWHERE => most,
        n => above(most)[n - 1],
    };
}

/// Both sizes of a rest store, above the most publishers and within the
/// readers' range.
fn participants_border(store: &mut Store, trial: usize) {
    let outside = [17, 18, 19, 31, 32, 33, 63, 64];
    let participants = match trial {
        INSIDE => store.publishers,
        ELSEWHERE => 16,
        n => outside[n],
    };
    (store.readers, store.publishers) = (participants, participants);
}

/// One size of a rest store, in its own range and unlike the other.
fn unequal_border(store: &mut Store, trial: usize) {
    let n = store.publishers;
    let sizes = match trial {
        0 => (n + 1, n),
        1 => (if n == 1 { 3 } else { n - 1 }, n),
        2 => (n, if n == 16 { 15 } else { n + 1 }),
        3 => (n, if n == 1 { 2 } else { n - 1 }),
        4 => (64, n),
        5 => (if n == 1 { 2 } else { 1 }, n),
        6 => (n, if n == 16 { 1 } else { 16 }),
        7 => (n + 16, n),
        INSIDE => (n, n),
        _ => (1, 1),
    };
    (store.readers, store.publishers) = sizes;
}

/// The entries get the length that the slots ask for, if there is room.
fn slots_border(case: &mut Case, trial: usize) {
    // Times 32 the fourth is 64 when the upper bits are cut off.
    let outside = [1, 0, 33, (1 << 59) + 2, 34, 128, (1 << 32) + 2, u64::MAX];
    let slots = &mut case.store.slots;
    *slots = match trial {
        INSIDE => 2,
        ELSEWHERE => 32,
        n => outside[n],
    };
    case.length = slots.wrapping_mul(32).min(MOST_ENTRIES as u64) as usize;
    case.store.current = 0;
}

fn length_border(case: &mut Case, trial: usize) {
    let n = case.length;
    let outside = [n - 1, n + 1, n - 32, n + 32, 0, 1, 2 * n, n / 2];
    if trial < OUTSIDE {
        case.length = outside[trial];
    }
}

fn head_border(store: &mut Store, clause: Clause, trial: usize) {
    let (number, last) = match clause {
        Clause::Current => (&mut store.current, store.slots - 1),
        _ => (&mut store.version, store.kind.highest()),
    };
    *number = match trial {
        INSIDE => last,
        ELSEWHERE => 0,
        n => above(last)[n],
    };
}

fn indicator_border(number: &mut u64, trial: usize) {
    let count = *number;
    let cut = |bit: u32| count.wrapping_add(1 << bit);
    let other = u64::from(count == 0);
    let outside = [
        count + 1,
        count.wrapping_sub(1),
        cut(8),
        cut(16),
        cut(32),
        cut(63),
        other,
        u64::MAX,
    ];
    if trial < OUTSIDE {
        *number = outside[trial];
    }
}

/// A record within the size, most often the last one.
fn within(count: u64, random: &mut Random) -> usize {
    if random.one_in(2) {
        count as usize - 1
    } else {
        random.below(count) as usize
    }
}

fn reader_border(store: &mut Store, clause: Clause, trial: usize, random: &mut Random) -> usize {
    let r = within(store.readers, random);
    let beyond = store.readers as usize;
    let version = store.version;
    let counts = match clause {
        Clause::Picked => 5,
        Clause::Published => random.pick(&[2, 3]),
        _ if trial == INSIDE && store.kind == Kind::Rest => 5,
        _ if trial == INSIDE => random.pick(&[1, 4, 5]),
        _ => 0,
    };
    put_reader(store, r, counts, version, false, random);
    let (kind, slots) = (store.kind, store.slots);
    match trial {
        INSIDE if clause == Clause::Picked => store.reader[r].picked = slots - 1,
        INSIDE => {}
        ELSEWHERE if beyond < 64 && random.one_in(2) => {
            store.reader[beyond].place = counts;
            let n = random.below(OUTSIDE as u64) as usize;
            put_outside_reader(&mut store.reader[beyond], clause, n, kind, slots);
        }
        ELSEWHERE => {
            let place = match (clause, store.kind) {
                (Clause::Picked, Kind::New | Kind::Old) => random.pick(&[0, 1, 4]),
                _ => 0,
            };
            put_reader(store, r, place, version, false, random);
            if clause != Clause::ReaderPlace {
                put_outside_reader(&mut store.reader[r], clause, 0, kind, slots);
            }
        }
        n => {
            count_indicators(store);
            put_outside_reader(&mut store.reader[r], clause, n, kind, slots);
            return r;
        }
    }
    count_indicators(store);
    r
}

/// The number that the clause tests, outside its range.
fn put_outside_reader(reader: &mut Reader, clause: Clause, n: usize, kind: Kind, slots: u64) {
    match clause {
        Clause::Picked => reader.picked = above(slots - 1)[n],
        Clause::Published => reader.published = unlike(reader.first, reader.second, n),
        _ => {
            let nearest = match kind {
                Kind::New => [6, 7, 8, 9],
                Kind::Old => [6, 7, 2, 3],
                Kind::Rest => [6, 4, 1, 2],
            };
            let further = [65_541, (1 << 32) + 5, 1 << 63, u64::MAX];
            reader.place = [nearest, further].concat()[n];
        }
    }
}

fn unlike(first: u64, second: u64, n: usize) -> u64 {
    let numbers = [
        first.wrapping_add(1),
        first.wrapping_sub(1),
        first ^ 1 << 8,
        first ^ 1 << 16,
        first ^ 1 << 32,
        first ^ 1 << 63,
        if first == NOT_READING { 0 } else { NOT_READING },
        if second == first { !first } else { second },
    ];
    numbers[n]
}

fn publisher_border(store: &mut Store, clause: Clause, trial: usize, random: &mut Random) -> usize {
    let p = within(store.publishers, random);
    let beyond = store.publishers as usize;
    let place = counting_place(clause, store.kind, random);
    put_publisher(store, p, place, random);
    let bounds = Bounds::of(store);
    match trial {
        INSIDE => bounds.put_inside(&mut store.publisher[p], clause),
        ELSEWHERE if beyond < 16 && random.one_in(2) => {
            store.publisher[beyond].place = place;
            let n = random.below(OUTSIDE as u64) as usize;
            bounds.put_outside(&mut store.publisher[beyond], clause, n);
        }
        ELSEWHERE if clause == Clause::PublisherPlace => {}
        ELSEWHERE => {
            let place = idle_place(clause, random);
            put_publisher(store, p, place, random);
            bounds.put_outside(&mut store.publisher[p], clause, 0);
        }
        n => bounds.put_outside(&mut store.publisher[p], clause, n),
    }
    p
}

/// A place where the clause's number counts.
fn counting_place(clause: Clause, kind: Kind, random: &mut Random) -> u64 {
    match (clause, kind) {
        (Clause::PublisherPlace, _) => last_place(kind),
        (Clause::Held, Kind::New | Kind::Old) => random.pick(&[1, 2, 16, 32, 33, 34, 35, 37, 38]),
        (Clause::Held, Kind::Rest) => random.pick(&[1, 2, 16, 32, 33, 34, 35]),
        (Clause::Next, _) => random.pick(&[35, 37]),
        (_, Kind::Old) => random.pick(&[35, 36, 37, 38]),
        (_, Kind::New) => random.pick(&[35, 37, 38]),
        (_, Kind::Rest) => 35,
    }
}

/// The last place of a publisher.
fn last_place(kind: Kind) -> u64 {
    match kind {
        Kind::New | Kind::Old => 38,
        Kind::Rest => 35,
    }
}

/// A place where it does not.
fn idle_place(clause: Clause, random: &mut Random) -> u64 {
    match clause {
        Clause::Held => 0,
        Clause::Next => random.pick(&[0, 34, 38]),
        _ => random.pick(&[0, 1, 33, 34]),
    }
}

/// The ends of a publisher's ranges.
struct Bounds {
    kind: Kind,
    slots: u64,
    readers: u64,
}

impl Bounds {
    fn of(store: &Store) -> Bounds {
        Bounds {
            kind: store.kind,
            slots: store.slots,
            readers: store.readers,
        }
    }

    fn put_inside(&self, publisher: &mut Publisher, clause: Clause) {
        let walk = &mut publisher.walk;
        match clause {
            Clause::Held => publisher.held = self.slots - 1,
            Clause::MarkZero => walk.mark = 1,
            Clause::MarkAboveLast => walk.mark = self.kind.highest(),
            Clause::WaitsAboveLooks => walk.waits = walk.looks,
            Clause::Next => walk.next = self.readers - 1,
            _ => publisher.place = last_place(self.kind),
        }
    }

    fn put_outside(&self, publisher: &mut Publisher, clause: Clause, n: usize) {
        let walk = &mut publisher.walk;
        match clause {
            Clause::Held => publisher.held = above(self.slots - 1)[n],
            Clause::MarkZero => walk.mark = 0,
            Clause::MarkAboveLast => walk.mark = above(self.kind.highest())[n],
            Clause::WaitsAboveLooks => (walk.looks, walk.waits) = too_many_waits(n),
            Clause::Next => walk.next = above(self.readers - 1)[n],
            _ => {
                let nearest = match self.kind {
                    Kind::New => [39, 40, 36],
                    Kind::Old => [39, 40, 41],
                    Kind::Rest => [36, 37, 38],
                };
                let further = [255, 257, 65_537, (1 << 32) + 35, u64::MAX];
                publisher.place = [&nearest[..], &further].concat()[n];
            }
        }
    }
}

fn participant_border(
    store: &mut Store,
    clause: Clause,
    trial: usize,
    random: &mut Random,
) -> usize {
    let p = within(store.publishers, random);
    let beyond = store.publishers as usize;
    put_publisher(store, p, random.pick(&[0, 5, 33, 34]), random);
    if clause == Clause::EightAt35 {
        put_publisher(store, p, 35, random);
    }
    put_participant(store, p, false, random);
    match trial {
        INSIDE => put_inside_participant(store, p, clause, random),
        ELSEWHERE if beyond < 16 && random.one_in(2) => {
            store.publisher[beyond].place = store.publisher[p].place;
            let n = random.below(OUTSIDE as u64) as usize;
            put_outside_participant(store, beyond, clause, n);
        }
        ELSEWHERE => put_elsewhere_participant(store, p, clause, random),
        n => put_outside_participant(store, p, clause, n),
    }
    p
}

/// So many deferred slots, all of them slots of the store.
fn put_deferred(store: &mut Store, p: usize, count: usize) {
    let last = store.slots - 1;
    let participant = &mut store.participant[p];
    let known = participant.deferred.iter().chain(&participant.behind);
    let marks: Vec<u64> = known.map(|deferred| deferred.mark).collect();
    let pair = |n: usize| Deferred {
        slot: (n as u64 + 1).min(last),
        mark: marks.get(n).copied().unwrap_or(1),
    };
    participant.deferred = (0..count).map(pair).collect();
    participant.behind = (count..MOST_DEFERRED).map(pair).collect();
    participant.excess = 0;
}

/// The clause's number at the end of its range.
fn put_inside_participant(store: &mut Store, p: usize, clause: Clause, random: &mut Random) {
    let count = 1 + random.below(MOST_DEFERRED as u64) as usize;
    match clause {
        Clause::Step => store.participant[p].step = store.publishers + 1,
        Clause::Count => put_deferred(store, p, MOST_DEFERRED),
        Clause::EightAt35 => put_deferred(store, p, MOST_DEFERRED - 1),
        _ => {
            put_deferred(store, p, count);
            store.participant[p].deferred[count - 1].slot = store.slots - 1;
        }
    }
}

/// A number outside its range, where it does not count: a pair behind the
/// count, or eight deferred slots at another place than 35.
fn put_elsewhere_participant(store: &mut Store, p: usize, clause: Clause, random: &mut Random) {
    let count = random.below(MOST_DEFERRED as u64) as usize;
    match clause {
        Clause::Step => store.participant[p].step = 0,
        Clause::Count => put_deferred(store, p, 0),
        Clause::EightAt35 => {
            put_publisher(store, p, random.pick(&[0, 1, 33, 34]), random);
            put_deferred(store, p, MOST_DEFERRED);
        }
        _ => {
            put_deferred(store, p, count);
            store.participant[p].behind[0].slot = store.slots;
        }
    }
}

/// The number that the clause tests, outside its range. A slot too large
/// stands in each of the eight pairs in turn, the last one of the count.
fn put_outside_participant(store: &mut Store, p: usize, clause: Clause, n: usize) {
    match clause {
        Clause::Step => store.participant[p].step = above(store.publishers.min(16) + 1)[n],
        Clause::Count => {
            put_deferred(store, p, MOST_DEFERRED);
            let most = MOST_DEFERRED as u64;
            store.participant[p].excess = above(most)[n] - most;
        }
        Clause::EightAt35 => {
            put_deferred(store, p, MOST_DEFERRED);
            store.participant[p].deferred.rotate_left(n);
        }
        _ => {
            put_deferred(store, p, n + 1);
            store.participant[p].deferred[n].slot = above(store.slots - 1)[n];
        }
    }
}

/// Looks, and waits above them.
fn too_many_waits(n: usize) -> (u64, u64) {
    let half = 1 << 63;
    let pairs = [
        (0, 1),
        (5, 6),
        (u64::MAX - 1, u64::MAX),
        (0, u64::MAX),
        (half - 1, half),
        ((1 << 32) - 1, 1 << 32),
        (1 << 32, (1 << 32) + 1),
        (65_535, 65_536),
    ];
    pairs[n]
}
