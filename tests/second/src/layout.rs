//! The 713 words of a packed store, by the page that fixes them.

use crate::store::{
    Deferred, Kind, Participant, Publisher, Reader, Store, Walk, MOST_DEFERRED, MOST_PUBLISHERS,
    MOST_READERS,
};

pub const WORDS: usize = 713;
/// How many words a store had before there was a rest store.
pub const WORDS_BEFORE: usize = 425;
pub const HEAD: usize = 9;
pub const READER: usize = 5;
pub const PUBLISHER: usize = 6;
/// The step and the count of a participant, and a pair of slot and mark.
pub const COUNTS: usize = 2;
pub const PAIR: usize = 2;
/// All the pairs of a participant.
pub const PAIRS: usize = PAIR * MOST_DEFERRED;

pub const KIND: usize = 0;
pub const READERS: usize = 1;
pub const PUBLISHERS: usize = 2;
pub const SLOTS: usize = 3;
pub const CURRENT: usize = 4;
pub const VERSION: usize = 5;
pub const RELEASES: usize = 6;
pub const INDICATOR_0: usize = 7;
pub const INDICATOR_1: usize = 8;

const HEAD_NAMES: [&str; HEAD] = [
    "kind",
    "readers",
    "publishers",
    "slots",
    "current",
    "version",
    "releases",
    "indicator 0",
    "indicator 1",
];
const READER_NAMES: [&str; READER] = ["place", "first", "second", "published", "picked"];
const PUBLISHER_NAMES: [&str; PUBLISHER] = ["place", "held", "mark", "next", "looks", "waits"];

const COUNT_NAMES: [&str; COUNTS] = ["step", "count"];
const PAIR_NAMES: [&str; PAIR] = ["deferred slot", "deferred mark"];

/// The first word of reader r, which is its place.
pub fn reader_at(r: usize) -> usize {
    HEAD + READER * r
}

/// The first word of publisher p, which is its place.
pub fn publisher_at(p: usize) -> usize {
    HEAD + READER * MOST_READERS + PUBLISHER * p
}

/// The word of participant p's step; its count follows.
pub fn step_at(p: usize) -> usize {
    publisher_at(MOST_PUBLISHERS) + COUNTS * p
}

/// The word of the slot of participant p's pair i; its mark follows.
pub fn pair_at(p: usize, i: usize) -> usize {
    step_at(MOST_PUBLISHERS) + PAIRS * p + PAIR * i
}

/// The name of a word.
pub fn name(word: usize) -> String {
    if word < HEAD {
        HEAD_NAMES[word].to_string()
    } else if word < publisher_at(0) {
        let n = word - HEAD;
        format!("reader {} {}", n / READER, READER_NAMES[n % READER])
    } else if word < step_at(0) {
        let n = word - publisher_at(0);
        format!(
            "publisher {} {}",
            n / PUBLISHER,
            PUBLISHER_NAMES[n % PUBLISHER]
        )
    } else if word < pair_at(0, 0) {
        let n = word - step_at(0);
        format!("participant {} {}", n / COUNTS, COUNT_NAMES[n % COUNTS])
    } else if word < WORDS {
        let n = word - pair_at(0, 0);
        let (p, i) = (n / PAIRS, n % PAIRS / PAIR);
        format!("participant {p} {} {i}", PAIR_NAMES[n % PAIR])
    } else {
        "beyond the store".to_string()
    }
}

/// The store in these words; none if the kind is unknown.
pub fn unpack(words: &[u64; WORDS]) -> Option<Store> {
    Kind::from_number(words[KIND]).map(|kind| unpack_as(kind, words))
}

/// The store in these words, of this kind.
pub fn unpack_as(kind: Kind, words: &[u64; WORDS]) -> Store {
    let mut reader = [Reader::default(); MOST_READERS];
    for (record, w) in reader.iter_mut().zip(words[HEAD..].chunks_exact(READER)) {
        *record = Reader {
            place: w[0],
            first: w[1],
            second: w[2],
            published: w[3],
            picked: w[4],
        };
    }
    let mut publisher = [Publisher::default(); MOST_PUBLISHERS];
    for (record, w) in publisher
        .iter_mut()
        .zip(words[publisher_at(0)..].chunks_exact(PUBLISHER))
    {
        *record = unpack_publisher(w);
    }
    Store {
        kind,
        readers: words[READERS],
        publishers: words[PUBLISHERS],
        slots: words[SLOTS],
        current: words[CURRENT],
        version: words[VERSION],
        releases: words[RELEASES],
        indicators: [words[INDICATOR_0], words[INDICATOR_1]],
        reader,
        publisher,
        participant: std::array::from_fn(|p| unpack_participant(words, p)),
    }
}

fn unpack_publisher(w: &[u64]) -> Publisher {
    let walk = Walk {
        mark: w[2],
        next: w[3],
        looks: w[4],
        waits: w[5],
    };
    Publisher {
        place: w[0],
        held: w[1],
        walk,
    }
}

fn unpack_participant(words: &[u64; WORDS], p: usize) -> Participant {
    let pairs = std::array::from_fn(|i| Deferred {
        slot: words[pair_at(p, i)],
        mark: words[pair_at(p, i) + 1],
    });
    Participant::packed(words[step_at(p)], words[step_at(p) + 1], pairs)
}

/// Writes the store into all the words.
pub fn pack(store: &Store, words: &mut [u64; WORDS]) {
    words[KIND] = store.kind.number();
    words[READERS] = store.readers;
    words[PUBLISHERS] = store.publishers;
    words[SLOTS] = store.slots;
    words[CURRENT] = store.current;
    words[VERSION] = store.version;
    words[RELEASES] = store.releases;
    words[INDICATOR_0] = store.indicators[0];
    words[INDICATOR_1] = store.indicators[1];
    for (r, w) in store
        .reader
        .iter()
        .zip(words[HEAD..].chunks_exact_mut(READER))
    {
        w.copy_from_slice(&[r.place, r.first, r.second, r.published, r.picked]);
    }
    let first = publisher_at(0);
    for (p, w) in store
        .publisher
        .iter()
        .zip(words[first..].chunks_exact_mut(PUBLISHER))
    {
        let walk = &p.walk;
        w.copy_from_slice(&[
            p.place, p.held, walk.mark, walk.next, walk.looks, walk.waits,
        ]);
    }
    for (p, participant) in store.participant.iter().enumerate() {
        words[step_at(p)] = participant.step;
        words[step_at(p) + 1] = participant.count();
        let pairs = participant.deferred.iter().chain(&participant.behind);
        for (i, pair) in pairs.take(MOST_DEFERRED).enumerate() {
            words[pair_at(p, i)] = pair.slot;
            words[pair_at(p, i) + 1] = pair.mark;
        }
    }
}
