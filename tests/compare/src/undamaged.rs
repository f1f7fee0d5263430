//! Stores that are undamaged, though no list may ever reach them.

use second::random::Random;
use second::store::{
    Deferred, Kind, Participant, Publisher, Reader, Store, Walk, MOST_DEFERRED, NOT_READING,
};

/// A store and the length of the entries lent beside it.
pub struct Case {
    pub store: Store,
    pub length: usize,
}

/// An undamaged store in any mixture of places. A calm one has nobody, or
/// one publisher, at a place other than 0. A tidy one has fresh records
/// beyond the sizes; otherwise these hold anything.
pub fn undamaged(kind: Kind, calm: bool, tidy: bool, random: &mut Random) -> Case {
    let (any_readers, any_publishers) = (1 + random.below(64), 1 + random.below(16));
    let any_slots = 2 + random.below(31);
    let slots = random.pick(&[2, 3, 5, 32, any_slots]);
    let publishers = random.pick(&[1, 2, 3, 16, any_publishers]);
    let readers = match kind {
        Kind::New | Kind::Old => random.pick(&[1, 2, 3, 64, any_readers]),
        Kind::Rest => publishers,
    };
    let mut store = Store {
        kind,
        readers,
        publishers,
        slots,
        current: up_to_end(slots, random),
        version: some_version(kind, random),
        releases: random.anything(),
        indicators: [random.anything(), random.anything()],
        reader: [Reader::default(); 64],
        publisher: [Publisher::default(); 16],
        participant: std::array::from_fn(|_| Participant::fresh()),
    };
    fill_publishers(&mut store, calm, tidy, random);
    fill_readers(&mut store, calm, tidy, random);
    fill_participants(&mut store, calm, tidy, random);
    count_indicators(&mut store);
    Case {
        length: slots as usize * 32,
        store,
    }
}

/// A number below n, often the first or the last.
fn up_to_end(n: u64, random: &mut Random) -> u64 {
    match random.below(3) {
        0 => 0,
        1 => n - 1,
        _ => random.below(n),
    }
}

fn some_version(kind: Kind, random: &mut Random) -> u64 {
    match random.below(6) {
        0 => random.below(4),
        1 => kind.highest() - random.below(4),
        2 => random.word() % kind.highest(),
        3 => random.anything().min(kind.highest()),
        _ => random.below(100),
    }
}

fn fill_publishers(store: &mut Store, calm: bool, tidy: bool, random: &mut Random) {
    let count = store.publishers as usize;
    let busy = random.below(store.publishers) as usize;
    for p in 0..16 {
        if p >= count {
            if !tidy {
                store.publisher[p] = any_publisher(random);
            }
            continue;
        }
        store.publisher[p] = any_publisher(random);
        let place = match random.below(4) {
            _ if calm && (p != busy || random.one_in(2)) => 0,
            0 => 0,
            1 => random.below(34),
            _ => late_place(store.kind, random),
        };
        put_publisher(store, p, place, random);
    }
}

/// A place from 34 on that the kind has.
fn late_place(kind: Kind, random: &mut Random) -> u64 {
    match kind {
        Kind::New => random.pick(&[34, 35, 35, 37, 37, 37, 37, 38]),
        Kind::Old => random.pick(&[34, 35, 35, 36, 37, 37, 37, 38]),
        Kind::Rest => random.pick(&[34, 35]),
    }
}

/// A record that holds anything, also what a damage test would find.
fn any_publisher(random: &mut Random) -> Publisher {
    Publisher {
        place: if random.one_in(2) {
            random.below(41)
        } else {
            random.anything()
        },
        held: if random.one_in(2) {
            random.below(32)
        } else {
            random.anything()
        },
        walk: Walk {
            mark: random.anything(),
            next: random.anything(),
            looks: random.anything(),
            waits: random.anything(),
        },
    }
}

/// Publisher p at this place, with numbers that are undamaged there.
pub fn put_publisher(store: &mut Store, p: usize, place: u64, random: &mut Random) {
    let (kind, version, readers, slots) = (store.kind, store.version, store.readers, store.slots);
    let publisher = &mut store.publisher[p];
    publisher.place = place;
    if place != 0 || random.one_in(2) {
        publisher.held = up_to_end(slots, random);
    }
    if (35..=38).contains(&place) {
        let walk = &mut publisher.walk;
        walk.mark = some_mark(kind, version, random);
        walk.looks = some_looks(random);
        walk.waits = match random.below(4) {
            0 => 0,
            1 => walk.looks,
            2 => walk.looks.saturating_sub(1),
            _ => random.anything().min(walk.looks),
        };
        if kind == Kind::New && matches!(place, 35 | 37) {
            walk.next = up_to_end(readers, random);
        }
    }
}

/// In an old store any number is a mark.
fn some_mark(kind: Kind, version: u64, random: &mut Random) -> u64 {
    let least = match kind {
        Kind::New | Kind::Rest => 1,
        Kind::Old => 0,
    };
    let mark = match random.below(6) {
        0 => least + random.below(3),
        1 => kind.highest() - random.below(3),
        2 => random.anything(),
        3 => version.saturating_add(1),
        _ => version.wrapping_sub(1).wrapping_add(random.below(4)),
    };
    mark.clamp(least, kind.highest())
}

fn some_looks(random: &mut Random) -> u64 {
    match random.below(6) {
        0 => u64::MAX - random.below(4),
        1 => u64::MAX - 65_537 + random.below(4),
        2 => u64::MAX - random.below(65_537),
        3 => random.anything(),
        _ => random.below(200),
    }
}

fn fill_readers(store: &mut Store, calm: bool, tidy: bool, random: &mut Random) {
    let count = store.readers as usize;
    let present = random.below(store.publishers) as usize;
    let mark = store.publisher[present].walk.mark;
    let mostly_out = random.one_in(2);
    for r in 0..64 {
        if r >= count {
            if !tidy {
                store.reader[r] = any_reader(random);
            }
            continue;
        }
        let place = match store.kind {
            _ if calm => 0,
            Kind::New => random.below(6),
            Kind::Old => random.pick(&[0, 1, 4, 5]),
            Kind::Rest => random.pick(&[0, 5]),
        };
        put_reader(store, r, place, mark, mostly_out, random);
    }
}

fn any_reader(random: &mut Random) -> Reader {
    Reader {
        place: if random.one_in(2) {
            random.below(8)
        } else {
            random.anything()
        },
        first: random.anything(),
        second: random.anything(),
        published: random.anything(),
        picked: random.anything(),
    }
}

/// Reader r at this place, with numbers that are undamaged there. Its
/// versions are near the version or near this mark.
pub fn put_reader(
    store: &mut Store,
    r: usize,
    place: u64,
    mark: u64,
    mostly_out: bool,
    random: &mut Random,
) {
    let (kind, slots, version) = (store.kind, store.slots, store.version);
    let mut near = || match random.below(8) {
        0 => version,
        1 => version.wrapping_sub(1),
        2 => random.anything(),
        3 => mark.wrapping_sub(1),
        4 => mark.wrapping_add(1),
        5 => NOT_READING,
        _ => mark,
    };
    let (first, second, published) = (near(), near(), near());
    let out = mostly_out && kind != Kind::Rest && !random.one_in(8);
    let reader = &mut store.reader[r];
    reader.place = place;
    reader.first = if out && kind == Kind::New {
        mark
    } else {
        first
    };
    reader.second = if random.one_in(3) { first } else { second };
    reader.published = if out { NOT_READING } else { published };
    if kind == Kind::New && matches!(place, 2 | 3) {
        reader.published = reader.first;
    }
    reader.picked = random.anything();
    if place == 5 || random.one_in(2) {
        reader.picked = up_to_end(slots, random);
    }
}

fn fill_participants(store: &mut Store, calm: bool, tidy: bool, random: &mut Random) {
    let tested = match store.kind {
        Kind::New | Kind::Old => 0,
        Kind::Rest => store.publishers as usize,
    };
    for p in 0..16 {
        if p < tested {
            put_participant(store, p, calm, random);
        } else if !tidy {
            store.participant[p] = any_participant(random);
        }
    }
}

/// A record that holds anything, also what a damage test would find.
fn any_participant(random: &mut Random) -> Participant {
    let step = random.pick(&[0, 1, 2, 3, 17, 18, 19]);
    let count = random.pick(&[0, 1, 7, 8, 9]);
    let (any_step, any_count) = (random.anything(), random.anything());
    let pairs = std::array::from_fn(|_| Deferred {
        slot: random.pick(&[0, 1, 2, 31, 32, u64::MAX]),
        mark: random.anything(),
    });
    let (step, count) = match random.below(3) {
        0 => (any_step, any_count),
        _ => (step, count),
    };
    Participant::packed(step, count, pairs)
}

/// Participant p with numbers that are undamaged at its places. Its marks are
/// near the epoch and near the observed epochs, in any order.
pub fn put_participant(store: &mut Store, p: usize, calm: bool, random: &mut Random) {
    let last = store.publishers + 1;
    let step = match random.below(4) {
        0 | 1 => 0,
        _ if calm => 0,
        2 => random.below(last + 1),
        _ => last,
    };
    let at_35 = store.publisher[p].place == 35;
    let most = MOST_DEFERRED as u64 - u64::from(at_35);
    let count = match random.below(4) {
        0 => 0,
        1 => most,
        _ => random.below(most + 1),
    };
    let deferred = |n: u64, random: &mut Random| Deferred {
        slot: match n < count {
            true => up_to_end(store.slots, random),
            false => random.pick(&[0, 1, store.slots - 1, store.slots, u64::MAX]),
        },
        mark: near_epochs(store, random),
    };
    let pairs = std::array::from_fn(|n| deferred(n as u64, random));
    store.participant[p] = Participant::packed(step, count, pairs);
}

/// A number about the epoch or an observed epoch, or any.
fn near_epochs(store: &Store, random: &mut Random) -> u64 {
    let r = random.below(store.readers.min(64)) as usize;
    let near = match random.below(8) {
        0 => return random.anything(),
        1 => store.version,
        _ => store.reader[r].published,
    };
    near.wrapping_add(random.below(3)).wrapping_sub(1)
}

/// An old store's indicators are those that its readers added to.
pub fn count_indicators(store: &mut Store) {
    if store.kind != Kind::Old {
        return;
    }
    store.indicators = [0, 0];
    for reader in &store.reader[..store.readers as usize] {
        if reader.place == 4 || reader.place == 5 {
            store.indicators[(reader.first & 1) as usize] += 1;
        }
    }
}
