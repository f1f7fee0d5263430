//! Tests of the parts that the comparison leans on: the words, the replies'
//! numbers, the shelf and demand 3, and the alterations' names.

use crate::call::{calls, Call, Name, Numbers, Reply, NAMES};
use crate::crossing::{Crossing, End};
use crate::damage::{Clause, CLAUSES};
use crate::demand3::Demand3;
use crate::events::{Event, Events};
use crate::layout::{
    name, pack, pair_at, publisher_at, reader_at, step_at, unpack, KIND, WORDS, WORDS_BEFORE,
};
use crate::lent;
use crate::making::Making;
use crate::random::Random;
use crate::rules::{Alteration, Rules};
use crate::store::{Deferred, Kind, Pitch, Store, KINDS};
use crate::tables;
use crate::turns::{call_by, call_named, Scheduler};

const AS_WRITTEN: Rules = Rules::AS_WRITTEN;

/// The first table of these tests: 100, 101 and so on to 131.
fn first() -> [Pitch; 32] {
    std::array::from_fn(|k| 100 + k as Pitch)
}

fn making(kind: Kind, sizes: (u16, u16, u16), version: u64) -> Call {
    let (readers, publishers, slots) = sizes;
    Call::Make {
        kind: kind.number() as u16,
        readers,
        publishers,
        slots,
        version,
    }
}

fn made(kind: Kind, sizes: (u16, u16, u16), version: u64) -> ([u64; WORDS], Vec<Pitch>) {
    made_by(AS_WRITTEN, kind, sizes, version)
}

fn made_by(
    rules: Rules,
    kind: Kind,
    sizes: (u16, u16, u16),
    version: u64,
) -> ([u64; WORDS], Vec<Pitch>) {
    let mut words = [77; WORDS];
    let mut entries = vec![-3; usize::from(sizes.2) * 32];
    let make = making(kind, sizes, version);
    assert_eq!(
        lent::call(&mut words, &mut entries, &first(), &make, rules),
        Reply::Made
    );
    (words, entries)
}

/// One of the thirteen calls, to which no first table is lent.
fn gives(words: &mut [u64], entries: &mut [Pitch], call: Call) -> Reply {
    lent::call(words, entries, &[], &call, AS_WRITTEN)
}

/// What demand 3 hears of from a store of these sizes.
fn demand3(kind: Kind, sizes: (u16, u16, u16), rules: Rules) -> Demand3 {
    let making = Making::of(&making(kind, sizes, 0)).expect("a known kind");
    Demand3::fresh(&making, &first(), rules)
}

/// The example of the page on the words, call by call.
#[test]
fn words_are_those_of_the_page() {
    let (mut words, mut entries) = made(Kind::New, (1, 1, 2), 0);
    let mut due = [0; WORDS];
    (due[0], due[1], due[2], due[3]) = (17, 1, 1, 2);
    for word in (12..=327).step_by(5) {
        due[word] = u64::MAX;
    }
    assert_eq!(words, due);
    assert_eq!(entries, first().repeat(2));
    let enter = Call::Enter { r: 0 };
    let steps: [(Call, &[(usize, u64)]); 9] = [
        (enter, &[(9, 1), (10, 0)]),
        (enter, &[(9, 2), (12, 0)]),
        (enter, &[(9, 3), (11, 0)]),
        (enter, &[(9, 4)]),
        (enter, &[(9, 5), (13, 0)]),
        (Call::Look { r: 0, k: 31 }, &[]),
        (Call::Claim { p: 0, s: 0 }, &[]),
        (Call::Claim { p: 0, s: 1 }, &[(329, 1), (330, 1)]),
        (Call::Leave { r: 0 }, &[(9, 0), (12, u64::MAX)]),
    ];
    for (call, changes) in steps {
        gives(&mut words, &mut entries, call);
        for &(word, number) in changes {
            due[word] = number;
        }
        assert_eq!(words, due, "{call}");
        assert_eq!(entries, first().repeat(2), "{call}");
    }
}

#[test]
fn a_fresh_old_store_has_not_reading_in_every_record() {
    let (words, entries) = made(Kind::Old, (3, 16, 32), 5);
    let mut due = [0; WORDS];
    due[..6].copy_from_slice(&[18, 3, 16, 32, 0, 5]);
    for word in (12..=327).step_by(5) {
        due[word] = u64::MAX;
    }
    assert_eq!(words, due);
    assert_eq!(entries, first().repeat(32));
}

/// All 64 records of a fresh rest store have observed the first version.
#[test]
fn a_fresh_rest_store_has_observed_its_first_version() {
    let (words, entries) = made(Kind::Rest, (3, 3, 4), 5);
    let mut due = [0; WORDS];
    due[..6].copy_from_slice(&[19, 3, 3, 4, 0, 5]);
    for word in (12..=327).step_by(5) {
        due[word] = 5;
    }
    assert_eq!(words, due);
    assert_eq!(entries, first().repeat(4));
}

/// The calls of a rest store, word by word. Participant 1 publishes; the
/// first number of each change is its word.
#[test]
fn words_of_a_rest_store_are_those_of_the_page() {
    let (mut words, mut entries) = made(Kind::Rest, (2, 2, 3), 5);
    let mut due = words;
    let publishes = |n: u64| match n {
        0 => Call::Claim { p: 1, s: 2 },
        _ => Call::Write {
            p: 1,
            v: n as Pitch,
        },
    };
    for n in 0..=32 {
        gives(&mut words, &mut entries, publishes(n));
    }
    (due[335], due[336]) = (33, 2);
    assert_eq!(words, due);
    let (pick, checkpoint) = (Call::Pick { r: 1 }, Call::Checkpoint { r: 1 });
    let (swap, defer) = (Call::Swap { p: 1 }, Call::Defer { p: 1 });
    let steps: [(Call, u64, &[(usize, u64)]); 14] = [
        (pick, 0, &[(14, 5), (18, 0)]),
        (swap, 0, &[(335, 34), (336, 0), (4, 2)]),
        (pick, 2, &[(18, 2)]),
        (defer, 35, &[(335, 35), (337, 6), (5, 6), (14, 0)]),
        (defer, 0, &[(335, 0), (17, 6), (428, 1), (473, 0), (474, 6)]),
        (Call::Pick { r: 0 }, 2, &[(9, 5), (13, 2)]),
        (Call::Checkpoint { r: 0 }, 1, &[(9, 0), (10, 6), (425, 1)]),
        (checkpoint, 1, &[(15, 6), (427, 1)]),
        (checkpoint, 2, &[(427, 2)]),
        (checkpoint, 3, &[(427, 3), (16, 5)]),
        (checkpoint, 4, &[(427, 0)]),
        (Call::Checkpoint { r: 0 }, 2, &[(12, 6), (425, 2)]),
        (Call::Checkpoint { r: 0 }, 3, &[(11, 6), (425, 3)]),
        (Call::Checkpoint { r: 0 }, 4, &[(425, 0)]),
    ];
    for (call, number, changes) in steps {
        let reply = gives(&mut words, &mut entries, call).numbers();
        assert_eq!(reply.first, number, "{call}");
        for &(word, number) in changes {
            due[word] = number;
        }
        assert_eq!(words, due, "{call}");
    }
    // All have observed 6: the slot is freed, and its pair stays.
    for step in 1..=4 {
        let reply = gives(&mut words, &mut entries, checkpoint);
        assert_eq!(reply, Reply::At(step));
    }
    (due[16], due[428]) = (6, 0);
    assert_eq!(words, due);
}

/// A call that the kind lacks gets 1, and a store of 425 words too.
#[test]
fn calls_that_a_kind_lacks_get_1() {
    for kind in KINDS {
        let (words, entries) = made(kind, (2, 2, 3), 0);
        for name in calls() {
            let mut random = Random::from_seed(name.index() as u64);
            let call = call_by(name, 0, &words, &mut random);
            let (mut after, mut lent) = (words, entries.clone());
            let reply = gives(&mut after, &mut lent, call);
            assert_eq!(reply == Reply::Refused(1), !name.of(kind), "{kind} {call}");
            let before = &mut after[..WORDS_BEFORE];
            assert_eq!(gives(before, &mut lent, call), Reply::Refused(1), "{call}");
        }
    }
    let lacked = |kind| calls().filter(move |name| !name.of(kind));
    let of_rest = [Name::Pick, Name::Checkpoint, Name::Defer];
    let not_of_rest = [
        Name::Enter,
        Name::Leave,
        Name::Sync,
        Name::Raise,
        Name::Walk,
        Name::Release,
    ];
    assert!(lacked(Kind::New).eq(of_rest) && lacked(Kind::Old).eq(of_rest));
    assert!(lacked(Kind::Rest).eq(not_of_rest));
}

#[test]
fn names_stand_in_their_order() {
    for (index, name) in NAMES.into_iter().enumerate() {
        assert_eq!(name.index(), index);
    }
    let mut random = Random::from_seed(1);
    for name in calls() {
        let words = [0; WORDS];
        assert_eq!(call_named(name, &words, &mut random).name(), name);
        assert_eq!(call_by(name, 7, &words, &mut random).name(), name);
        let call = call_by(name, 7, &words, &mut random);
        assert_eq!(call.reader().xor(call.publisher()), Some(7), "{call}");
    }
}

/// A store packed in the format before, and a making by its numbers.
#[test]
fn kinds_of_the_format_before_are_unknown() {
    assert_eq!(KINDS.map(Kind::number), [17, 18, 19]);
    assert_eq!(KINDS.map(Kind::number_before), [Some(1), Some(2), None]);
    for kind in [Kind::New, Kind::Old] {
        let (mut words, mut entries) = made(kind, (1, 1, 2), 0);
        let number = kind.number_before().expect("a kind of the format before");
        words[KIND] = number;
        let (before, enter) = (words, Call::Enter { r: 0 });
        assert_eq!(gives(&mut words, &mut entries, enter), Reply::Refused(1));
        let make = Call::Make {
            kind: number as u16,
            readers: 1,
            publishers: 1,
            slots: 2,
            version: 0,
        };
        let mut by = |rules, call| lent::call(&mut words, &mut entries, &first(), &call, rules);
        assert_eq!(by(AS_WRITTEN, make), Reply::Refused(1));
        let (in_words, in_makings) = (
            Rules::altered(Alteration::KindsBeforeInWords),
            Rules::altered(Alteration::KindsBeforeInMakings),
        );
        assert_eq!(by(in_makings, enter), Reply::Refused(1));
        assert_eq!(by(in_words, make), Reply::Refused(1));
        assert_eq!(by(in_words, enter), Reply::At(1));
        assert_eq!(by(in_makings, make), Reply::Made);
        assert_ne!(words, before);
    }
}

/// An altered LOOK replies with what is no pitch.
#[test]
fn a_pitch_keeps_its_sign_and_its_width() {
    let (mut words, mut entries) = made(Kind::Old, (1, 1, 2), 0);
    (entries[0], entries[1]) = (-5000, 95_000);
    for _ in 0..3 {
        gives(&mut words, &mut entries, Call::Enter { r: 0 });
    }
    let mut looks = |rules, k| {
        let look = Call::Look { r: 0, k };
        let reply = lent::call(&mut words, &mut entries, &[], &look, rules);
        reply.numbers().first
    };
    assert_eq!(looks(AS_WRITTEN, 0), u64::MAX - 4999);
    assert_eq!(looks(AS_WRITTEN, 1), 95_000);
    let sign_lost = Rules::altered(Alteration::PitchSignLost);
    assert_eq!(looks(sign_lost, 0), (1 << 32) - 5000);
    let by_16_bits = Rules::altered(Alteration::PitchRepliedBy16Bits);
    assert_eq!(looks(by_16_bits, 1), 95_000 - 65_536);
}

#[test]
fn packing_undoes_unpacking_word_by_word() {
    let mut words = [0; WORDS];
    for (n, word) in words.iter_mut().enumerate() {
        *word = n as u64 * 1_000_003 + 1;
    }
    for kind in KINDS {
        words[KIND] = kind.number();
        let store = unpack(&words).expect("a known kind");
        let mut again = [0; WORDS];
        pack(&store, &mut again);
        assert_eq!(words, again);
        assert_eq!(store.reader[63].picked, words[328]);
        assert_eq!(store.publisher[15].walk.waits, words[424]);
        assert_eq!(store.publisher[0].walk.next, words[332]);
        assert_eq!(store.participant[15].step, words[455]);
        assert_eq!(store.participant[15].count(), words[456]);
        assert_eq!(store.participant[15].deferred[7].mark, words[712]);
    }
    words[KIND] = 3;
    assert!(unpack(&words).is_none());
}

/// A count says how many of the eight pairs are deferred slots.
#[test]
fn packed_counts_split_the_pairs() {
    let mut words = [0; WORDS];
    words[KIND] = Kind::Rest.number();
    for i in 0..8 {
        words[pair_at(2, i)] = 10 + i as u64;
        words[pair_at(2, i) + 1] = 20 + i as u64;
    }
    for (count, known) in [(0, 0), (3, 3), (8, 8), (9, 8), (u64::MAX, 8)] {
        words[step_at(2) + 1] = count;
        let store = unpack(&words).expect("a known kind");
        let participant = &store.participant[2];
        assert_eq!(
            (participant.deferred.len(), participant.count()),
            (known, count)
        );
        assert_eq!(participant.behind.len(), 8 - known);
        let mut again = [1; WORDS];
        pack(&store, &mut again);
        assert_eq!(words, again);
    }
}

#[test]
fn words_have_their_names() {
    assert_eq!(name(5), "version");
    assert_eq!(name(8), "indicator 1");
    assert_eq!(name(12), "reader 0 published");
    assert_eq!(name(328), "reader 63 picked");
    assert_eq!(name(329), "publisher 0 place");
    assert_eq!(name(424), "publisher 15 waits");
    assert_eq!((reader_at(1), publisher_at(1)), (14, 335));
    assert_eq!((step_at(0), step_at(15)), (425, 455));
    assert_eq!(
        (pair_at(0, 0), pair_at(3, 2), pair_at(15, 7)),
        (457, 509, 711)
    );
    assert_eq!(name(425), "participant 0 step");
    assert_eq!(name(456), "participant 15 count");
    assert_eq!(name(457), "participant 0 deferred slot 0");
    assert_eq!(name(510), "participant 3 deferred mark 2");
    assert_eq!(name(712), "participant 15 deferred mark 7");
    assert_eq!(name(713), "beyond the store");
}

#[test]
fn replies_and_numbers_agree() {
    let numbers = |code, first, second| Numbers {
        code,
        first,
        second,
    };
    let negative = Reply::Pitch(-1);
    assert_eq!(negative.numbers(), numbers(102, u64::MAX, 0));
    assert_eq!(
        Reply::from_numbers(numbers(102, u64::MAX, 0)),
        Some(negative)
    );
    let highest = numbers(102, 95_000, 0);
    assert_eq!(Reply::from_numbers(highest), Some(Reply::Pitch(95_000)));
    let lowest = numbers(102, u64::MAX - 4999, 0);
    assert_eq!(Reply::from_numbers(lowest), Some(Reply::Pitch(-5000)));
    assert_eq!(Reply::from_numbers(numbers(102, 1 << 31, 0)), None);
    let sign_lost = numbers(102, (1 << 32) - 5000, 0);
    assert_eq!(Reply::from_numbers(sign_lost), None);
    assert_eq!(Reply::from_numbers(numbers(30, 1, 0)), None);
    assert_eq!(Reply::from_numbers(numbers(116, 0, 0)), None);
    let picked = Reply::Picked(31);
    assert_eq!(picked.numbers(), numbers(115, 31, 0));
    assert_eq!(Reply::from_numbers(numbers(115, 31, 0)), Some(picked));
    assert_eq!(Reply::from_numbers(numbers(115, 31, 1)), None);
    let freed = Reply::Freed {
        slot: 3,
        releases: 9,
    };
    assert_eq!(freed.numbers(), numbers(114, 3, 9));
    assert_eq!(Reply::from_numbers(numbers(114, 3, 9)), Some(freed));
}

/// The rows of making, each with one call.
#[test]
fn makings_are_refused_in_the_order_of_the_rows() {
    let mut entries = vec![0; 64];
    let mut words = [5; WORDS];
    let mut refused = |sizes, version, table: &[Pitch]| {
        let make = making(Kind::New, sizes, version);
        lent::call(&mut words, &mut entries, table, &make, AS_WRITTEN)
    };
    let steep = tables::with_step(3, 15_001, &mut Random::from_seed(1));
    let good = (64, 16, 2);
    assert_eq!(refused((0, 0, 1), u64::MAX, &[]), Reply::Refused(2));
    assert_eq!(refused((64, 17, 33), u64::MAX, &[]), Reply::Refused(3));
    assert_eq!(refused((64, 16, 33), u64::MAX, &[]), Reply::Refused(4));
    assert_eq!(refused((64, 16, 3), u64::MAX, &[]), Reply::Refused(5));
    assert_eq!(refused(good, u64::MAX, &[]), Reply::Refused(6));
    assert_eq!(refused(good, u64::MAX, &[95_001; 31]), Reply::Refused(6));
    assert_eq!(refused(good, 0, &[]), Reply::Refused(40));
    assert_eq!(refused(good, 0, &[95_001; 31]), Reply::Refused(40));
    assert_eq!(refused(good, 0, &[95_001; 32]), Reply::Refused(41));
    assert_eq!(refused(good, 0, &steep), Reply::Refused(42));
    assert_eq!(refused(good, u64::MAX - 1, &first()), Reply::Made);
}

/// An old store has any first version, and 6 in no row.
#[test]
fn old_makings_take_every_first_version() {
    let mut entries = vec![0; 64];
    let mut words = [5; WORDS];
    for version in [0, (1 << 63) - 1, 1 << 63, u64::MAX - 1, u64::MAX] {
        let mut refused = |sizes, table: &[Pitch]| {
            let make = making(Kind::Old, sizes, version);
            lent::call(&mut words, &mut entries, table, &make, AS_WRITTEN)
        };
        assert_eq!(refused((64, 16, 3), &[]), Reply::Refused(5));
        assert_eq!(refused((64, 16, 2), &[]), Reply::Refused(40));
        assert_eq!(refused((64, 16, 2), &[95_001; 32]), Reply::Refused(41));
        assert_eq!(refused((64, 16, 2), &first()), Reply::Made);
        assert_eq!(words[5], version);
    }
}

/// A rest store has as many publishers as readers, up to 16.
#[test]
fn unequal_sizes_are_refused_in_their_row() {
    let mut entries = vec![0; 64];
    let mut words = [5; WORDS];
    let mut refused = |kind, sizes, table: &[Pitch]| {
        let make = making(kind, sizes, u64::MAX);
        lent::call(&mut words, &mut entries, table, &make, AS_WRITTEN)
    };
    assert_eq!(refused(Kind::Rest, (0, 1, 1), &[]), Reply::Refused(2));
    assert_eq!(refused(Kind::Rest, (65, 65, 1), &[]), Reply::Refused(2));
    assert_eq!(refused(Kind::Rest, (17, 17, 1), &[]), Reply::Refused(3));
    assert_eq!(refused(Kind::Rest, (3, 2, 1), &[]), Reply::Refused(3));
    assert_eq!(refused(Kind::Rest, (2, 3, 1), &[]), Reply::Refused(3));
    assert_eq!(refused(Kind::Rest, (3, 3, 1), &[]), Reply::Refused(4));
    assert_eq!(refused(Kind::Rest, (3, 3, 3), &[]), Reply::Refused(5));
    assert_eq!(refused(Kind::Rest, (3, 3, 2), &[]), Reply::Refused(40));
    assert_eq!(refused(Kind::Rest, (16, 16, 2), &first()), Reply::Made);
    assert_eq!(refused(Kind::New, (3, 2, 2), &[]), Reply::Refused(6));
}

fn refused_table(table: &[Pitch]) -> Reply {
    let (mut words, mut entries) = ([5; WORDS], vec![7; 96]);
    let make = making(Kind::New, (1, 1, 3), 0);
    let reply = lent::call(&mut words, &mut entries, table, &make, AS_WRITTEN);
    match reply {
        Reply::Made => assert_eq!(entries, table.repeat(3)),
        _ => assert_eq!((words, entries), ([5; WORDS], vec![7; 96])),
    }
    reply
}

/// 40, 41 and 42 at their borders.
#[test]
fn first_tables_are_refused_at_their_borders() {
    let made = Reply::Made;
    assert_eq!(refused_table(&[90_000; 32]), made);
    for length in [0, 1, 31, 33, 64, 96] {
        assert_eq!(refused_table(&vec![90_000; length]), Reply::Refused(40));
        assert_eq!(refused_table(&vec![95_001; length]), Reply::Refused(40));
    }
    for k in 0..32 {
        let with = |entry: Pitch, others: Pitch| {
            let mut table = [others; 32];
            table[k] = entry;
            refused_table(&table)
        };
        assert_eq!(with(-5000, 10_000), made, "entry {k}");
        assert_eq!(with(-5001, -5000), Reply::Refused(41), "entry {k}");
        assert_eq!(with(95_000, 80_000), made, "entry {k}");
        assert_eq!(with(95_001, 95_000), Reply::Refused(41), "entry {k}");
        assert_eq!(with(32_768, 32_767), made, "entry {k}");
        assert_eq!(with(131_072, 0), Reply::Refused(41), "entry {k}");
        assert_eq!(with(Pitch::MAX, -5000), Reply::Refused(41), "entry {k}");
        assert_eq!(with(Pitch::MIN, 95_000), Reply::Refused(41), "entry {k}");
    }
    for pair in 0..31 {
        let with = |one: Pitch, next: Pitch| {
            let mut table = [one; 32];
            table[pair + 1..].fill(next);
            refused_table(&table)
        };
        assert_eq!(with(-5000, 10_000), made, "pair {pair}");
        assert_eq!(with(-5000, 10_001), Reply::Refused(42), "pair {pair}");
        assert_eq!(with(95_000, 80_000), made, "pair {pair}");
        assert_eq!(with(95_000, 79_999), Reply::Refused(42), "pair {pair}");
        assert_eq!(with(0, 65_536), Reply::Refused(42), "pair {pair}");
        assert_eq!(with(95_000, -5000), Reply::Refused(42), "pair {pair}");
    }
}

/// Entries 31 and 0 are no neighbours, and every entry comes before a pair.
#[test]
fn first_tables_have_31_pairs_after_32_entries() {
    let rising: [Pitch; 32] = std::array::from_fn(|k| k as Pitch * 3000);
    assert_eq!(refused_table(&rising), Reply::Made);
    let falling: [Pitch; 32] = std::array::from_fn(|k| 93_000 - k as Pitch * 3000);
    assert_eq!(refused_table(&falling), Reply::Made);
    let mut both = rising;
    both[0] = 18_001;
    assert_eq!(refused_table(&both), Reply::Refused(42));
    both[31] = 95_001;
    assert_eq!(refused_table(&both), Reply::Refused(41));
    assert_eq!(refused_table(&both[..31]), Reply::Refused(40));
}

/// The traps of refusal order and of the ends, each with one call.
#[test]
fn refusals_come_in_the_order_of_the_table() {
    let (mut words, mut entries) = made(Kind::Old, (1, 2, 2), 0);
    let mut says = |call| gives(&mut words, &mut entries, call);
    assert_eq!(says(Call::Look { r: 1, k: 32 }), Reply::Refused(10));
    assert_eq!(says(Call::Look { r: 0, k: 32 }), Reply::Refused(13));
    assert_eq!(says(Call::Look { r: 0, k: 31 }), Reply::Refused(20));
    assert_eq!(says(Call::Claim { p: 2, s: 2 }), Reply::Refused(11));
    assert_eq!(says(Call::Claim { p: 0, s: 0 }), Reply::Refused(30));
    assert_eq!(says(Call::Claim { p: 0, s: 1 }), Reply::Claimed(1));
    assert_eq!(says(Call::Claim { p: 0, s: 2 }), Reply::Refused(12));
    assert_eq!(says(Call::Claim { p: 0, s: 1 }), Reply::Refused(21));
    assert_eq!(says(Call::Claim { p: 1, s: 0 }), Reply::Refused(31));
    assert_eq!(says(Call::Write { p: 1, v: -5001 }), Reply::Refused(14));
    assert_eq!(says(Call::Write { p: 1, v: -5000 }), Reply::Refused(21));
    words[1] = 0;
    let enter = Call::Enter { r: 9 };
    assert_eq!(gives(&mut words, &mut entries, enter), Reply::Refused(1));
    let shorter = &mut words[..WORDS - 1];
    assert_eq!(gives(shorter, &mut [], enter), Reply::Refused(1));
}

/// 33 looks at looks + b, also when an old walk would make one look only.
#[test]
fn sums_of_looks_end_at_the_highest_number() {
    for kind in [Kind::New, Kind::Old] {
        let (mut words, mut entries) = made(kind, (1, 1, 2), 7);
        let at = publisher_at(0);
        words[at..at + 6].copy_from_slice(&[37, 1, 7, 0, u64::MAX - 3, u64::MAX - 3]);
        let mut walk = |b| gives(&mut words, &mut entries, Call::Walk { p: 0, b });
        assert_eq!(walk(4), Reply::Refused(33));
        let returned = Reply::Returned {
            looks: u64::MAX - 2,
            waits: u64::MAX - 3,
        };
        assert_eq!(walk(3), returned);
    }
}

/// Each clause is found alone where it applies.
#[test]
fn clauses_are_told_apart() {
    let (words, _) = made(Kind::New, (2, 2, 2), 0);
    let fresh = unpack(&words).expect("a known kind");
    assert!(!fresh.clauses(64, AS_WRITTEN).any());
    assert!(fresh.clauses(63, AS_WRITTEN).only(Clause::EntriesLength));
    let damaged = |change: fn(&mut Store)| {
        let mut store = fresh.clone();
        change(&mut store);
        store.clauses(64, AS_WRITTEN)
    };
    assert!(damaged(|s| s.current = 2).only(Clause::Current));
    assert!(damaged(|s| s.version = u64::MAX).only(Clause::Version));
    assert!(damaged(|s| s.reader[1].place = 6).only(Clause::ReaderPlace));
    assert!(damaged(|s| s.reader[1].place = 2).only(Clause::Published));
    assert!(
        damaged(|s| (s.publisher[1].place, s.publisher[1].walk.mark) = (36, 1))
            .only(Clause::PublisherPlace)
    );
    assert!(damaged(|s| s.publisher[1].place = 38).only(Clause::MarkZero));
    assert!(!damaged(|s| s.reader[2].place = 6).any());
    assert!(!damaged(|s| s.indicators = [1, 1]).any());
    assert!(!damaged(|s| s.participant[0].step = 4).any());
    assert!(!damaged(|s| s.participant[0].excess = 9).any());
}

/// No version and no mark spoils an old store; what else does is as before.
#[test]
fn versions_and_marks_of_an_old_store_are_good() {
    let (words, _) = made(Kind::Old, (2, 2, 2), 0);
    let fresh = unpack(&words).expect("a known kind");
    let damaged = |rules, version, place, mark| {
        let mut store = fresh.clone();
        store.version = version;
        (store.publisher[1].place, store.publisher[1].walk.mark) = (place, mark);
        store.clauses(64, rules)
    };
    let numbers = [0, 1, (1 << 63) - 1, 1 << 63, u64::MAX - 1, u64::MAX];
    for version in numbers {
        for mark in numbers {
            for place in 34..=38 {
                assert!(!damaged(AS_WRITTEN, version, place, mark).any());
            }
        }
    }
    let altered =
        |alteration, version, mark| damaged(Rules::altered(alteration), version, 35, mark).any();
    for (alteration, version, mark) in [
        (Alteration::OldVersionSigned, 1 << 63, 1),
        (Alteration::OldVersionAsNew, u64::MAX, 1),
        (Alteration::OldMarkSigned, 1, 1 << 63),
        (Alteration::OldMarkZeroSpoiled, 1, 0),
    ] {
        assert!(altered(alteration, version, mark), "{}", alteration.name());
        assert!(!altered(alteration, (1 << 63) - 1, (1 << 63) - 1));
    }
    let mut waits = fresh.clone();
    (waits.publisher[1].place, waits.publisher[1].walk.waits) = (35, 1);
    assert!(waits.clauses(64, AS_WRITTEN).only(Clause::WaitsAboveLooks));
    for clause in [Clause::Version, Clause::MarkZero, Clause::MarkAboveLast] {
        assert!(clause.of(Kind::New) && !clause.of(Kind::Old), "{clause:?}");
    }
}

/// A slot deferred with this mark.
fn deferred(slot: u64, mark: u64) -> Deferred {
    Deferred { slot, mark }
}

/// The clauses of a rest store, each alone at its border.
#[test]
fn clauses_of_a_rest_store_are_told_apart() {
    let (words, _) = made(Kind::Rest, (2, 2, 2), u64::MAX);
    let fresh = unpack(&words).expect("a known kind");
    assert!(!fresh.clauses(64, AS_WRITTEN).any());
    let damaged = |change: fn(&mut Store)| {
        let mut store = fresh.clone();
        change(&mut store);
        store.clauses(64, AS_WRITTEN)
    };
    let at_35 = |s: &mut Store| (s.publisher[1].place, s.publisher[1].walk.mark) = (35, u64::MAX);
    let good = |change: fn(&mut Store)| !damaged(change).any();
    assert!(damaged(|s| s.readers = 1).only(Clause::Unequal));
    assert!(damaged(|s| s.publishers = 3).only(Clause::Unequal));
    assert!(damaged(|s| (s.readers, s.publishers) = (17, 17)).only(Clause::Publishers));
    assert!(damaged(|s| s.reader[1].place = 4).only(Clause::ReaderPlace));
    assert!(
        damaged(|s| (s.publisher[1].place, s.publisher[1].walk.mark) = (36, 1))
            .only(Clause::PublisherPlace)
    );
    assert!(damaged(|s| s.publisher[1].place = 35).only(Clause::MarkZero));
    assert!(good(|s| s.participant[1].step = 3));
    assert!(damaged(|s| s.participant[1].step = 4).only(Clause::Step));
    assert!(good(|s| s.participant[2].step = 4));
    assert!(good(|s| s.participant[1].deferred = vec![deferred(1, 0); 8]));
    assert!(damaged(|s| s.participant[1].excess = 9).only(Clause::Count));
    assert!(
        damaged(|s| s.participant[1].deferred = vec![deferred(2, 0)]).only(Clause::DeferredSlot)
    );
    assert!(good(|s| s.participant[1].behind = vec![deferred(2, 0)]));
    assert!(good(|s| s.reader[0].published = 0));
    let mut full = fresh.clone();
    at_35(&mut full);
    full.participant[1].deferred = vec![deferred(0, 0); 7];
    assert!(!full.clauses(64, AS_WRITTEN).any());
    full.participant[1].deferred.push(deferred(0, 0));
    assert!(full.clauses(64, AS_WRITTEN).only(Clause::EightAt35));
    full.publisher[1].place = 34;
    assert!(!full.clauses(64, AS_WRITTEN).any());
}

#[test]
fn alterations_have_names_of_their_own() {
    let all = Alteration::all();
    assert!(all.len() > 230, "{} alterations", all.len());
    for (n, &alteration) in all.iter().enumerate() {
        assert_eq!(Alteration::by_name(&alteration.name()), Some(alteration));
        assert!(all[..n]
            .iter()
            .all(|other| other.text() != alteration.text()));
    }
    assert_eq!(Alteration::HolderAt38Ignored.name(), "holder-at-38-ignored");
    assert_eq!(
        CLAUSES.len(),
        all.iter()
            .filter(|a| matches!(a, Alteration::Untested(_)))
            .count()
    );
}

/// What demand 3 says of a told list: each call with its reply.
fn told(kind: Kind, list: &[(Call, Reply)]) -> Result<(), String> {
    told_by(AS_WRITTEN, kind, list)
}

fn told_by(rules: Rules, kind: Kind, list: &[(Call, Reply)]) -> Result<(), String> {
    let mut demand3 = demand3(kind, (2, 2, 3), rules);
    list.iter()
        .try_for_each(|(call, reply)| demand3.hear(call, reply))
}

/// CLAIM, 32 WRITEs of v, SWAP and SYNC.
fn publication(p: u16, s: u16, v: Pitch, former: u64) -> Vec<(Call, Reply)> {
    let mut list = vec![(Call::Claim { p, s }, Reply::Claimed(u64::from(s)))];
    list.extend((1..=32).map(|n| (Call::Write { p, v }, Reply::Written(n))));
    list.push((Call::Swap { p }, Reply::Swapped(former)));
    list.push((Call::Sync { p }, Reply::Synced(1)));
    list
}

const OPENS: (Call, Reply) = (Call::Enter { r: 1 }, Reply::At(4));
const PICKS: (Call, Reply) = (Call::Enter { r: 1 }, Reply::At(5));
const LEAVES: (Call, Reply) = (Call::Leave { r: 1 }, Reply::Left);
const RETURNS: (Call, Reply) = (
    Call::Walk { p: 0, b: 9 },
    Reply::Returned { looks: 2, waits: 0 },
);
const FREES: (Call, Reply) = (
    Call::Release { p: 0 },
    Reply::Freed {
        slot: 0,
        releases: 1,
    },
);

fn looks(v: Pitch) -> (Call, Reply) {
    (Call::Look { r: 1, k: 3 }, Reply::Pitch(v.into()))
}

#[test]
fn the_shelf_knows_which_table_was_picked() {
    let list = |before: &[(Call, Reply)], after: &[(Call, Reply)]| {
        let published = publication(0, 1, 55, 0);
        told(Kind::New, &[before, &published[..], after].concat())
    };
    assert_eq!(list(&[OPENS, PICKS], &[looks(103)]), Ok(()));
    assert!(list(&[OPENS, PICKS], &[looks(90_000)]).is_err());
    assert!(list(&[OPENS, PICKS], &[looks(55)]).is_err());
    assert_eq!(list(&[OPENS], &[PICKS, looks(55)]), Ok(()));
    assert!(list(&[OPENS], &[PICKS, looks(103)]).is_err());
    assert!(list(&[OPENS], &[looks(103)]).is_err());
    let feathered = Rules::altered(Alteration::ShelfFeathered);
    let looked = |v| told_by(feathered, Kind::Old, &[OPENS, PICKS, looks(v)]);
    assert_eq!((looked(103).is_err(), looked(90_000)), (true, Ok(())));
}

#[test]
fn a_return_over_an_open_section_is_found() {
    let list = |before: &[(Call, Reply)], after: &[(Call, Reply)]| {
        let published = publication(0, 1, 55, 0);
        told(Kind::New, &[before, &published[..], after].concat())
    };
    assert!(list(&[OPENS], &[RETURNS]).is_err());
    assert_eq!(list(&[OPENS], &[LEAVES, RETURNS]), Ok(()));
    assert_eq!(list(&[OPENS], &[LEAVES, OPENS, RETURNS]), Ok(()));
    assert_eq!(list(&[], &[OPENS, RETURNS]), Ok(()));
    assert!(list(&[], &[RETURNS, RETURNS]).is_err());
    let looks_3 = (
        Call::Walk { p: 0, b: 9 },
        Reply::Returned { looks: 3, waits: 0 },
    );
    assert!(list(&[], &[looks_3]).is_err());
}

#[test]
fn slots_taken_twice_or_freed_early_are_found() {
    let claim = |p, s: u16| (Call::Claim { p, s }, Reply::Claimed(u64::from(s)));
    assert!(told(Kind::New, &[claim(0, 0)]).is_err());
    assert!(told(Kind::New, &[claim(0, 1), claim(1, 1)]).is_err());
    assert_eq!(told(Kind::New, &[claim(0, 1), claim(1, 2)]), Ok(()));
    assert!(told(Kind::New, &[claim(0, 3)]).is_err());
    let published = publication(0, 1, 55, 0);
    assert!(told(Kind::New, &[&published[..], &[claim(1, 0)]].concat()).is_err());
    assert_eq!(
        told(Kind::New, &[&published[..], &[FREES, claim(1, 0)]].concat()),
        Ok(())
    );
    let open = [OPENS, PICKS];
    assert!(told(Kind::New, &[&open[..], &published[..], &[FREES]].concat()).is_err());
    assert_eq!(
        told(
            Kind::New,
            &[&open[..], &published[..], &[LEAVES, FREES]].concat()
        ),
        Ok(())
    );
    assert!(told(Kind::New, &[(Call::Enter { r: 0 }, Reply::Refused(1))]).is_err());
    assert!(told(Kind::New, &[(Call::Enter { r: 2 }, Reply::At(1))]).is_err());
}

/// A store that records otherwise than the calls told is found.
#[test]
fn records_are_compared_with_what_was_told() {
    let (mut words, mut entries) = made(Kind::New, (2, 2, 3), 0);
    let mut demand3 = demand3(Kind::New, (2, 2, 3), AS_WRITTEN);
    let mut calls = vec![Call::Enter { r: 1 }; 5];
    calls.push(Call::Claim { p: 1, s: 2 });
    for call in calls {
        let reply = gives(&mut words, &mut entries, call);
        assert_eq!(demand3.hear(&call, &reply), Ok(()));
        assert_eq!(demand3.recorded(&words), Ok(()));
    }
    let wrong = [
        (4, 1),
        (reader_at(1), 4),
        (reader_at(1), 0),
        (reader_at(1) + 4, 1),
        (reader_at(0), 4),
        (publisher_at(1), 0),
        (publisher_at(1) + 1, 1),
        (publisher_at(0), 1),
    ];
    for (word, number) in wrong {
        let mut other = words;
        other[word] = number;
        assert!(demand3.recorded(&other).is_err(), "{}", name(word));
    }
}

/// A list of a rest store with 2 participants and 3 slots.
fn told_of_rest(list: &[(Call, Reply)]) -> Result<(), String> {
    told(Kind::Rest, list)
}

/// CLAIM, 32 WRITEs of v and SWAP.
fn swapped(p: u16, s: u16, v: Pitch, former: u64) -> Vec<(Call, Reply)> {
    let mut list = publication(p, s, v, former);
    list.pop();
    list
}

fn picks(r: u16, slot: u64) -> (Call, Reply) {
    (Call::Pick { r }, Reply::Picked(slot))
}

fn defers(p: u16) -> [(Call, Reply); 2] {
    [35, 0].map(|place| (Call::Defer { p }, Reply::At(place)))
}

/// These steps of a checkpoint.
fn steps(r: u16, steps: std::ops::RangeInclusive<u64>) -> Vec<(Call, Reply)> {
    let step = |step| (Call::Checkpoint { r }, Reply::At(step));
    steps.map(step).collect()
}

fn claims(p: u16, s: u16) -> (Call, Reply) {
    (Call::Claim { p, s }, Reply::Claimed(u64::from(s)))
}

/// Participant 0 publishes in slot 1 and defers slot 0.
fn defers_slot_0() -> Vec<(Call, Reply)> {
    [&swapped(0, 1, 55, 0)[..], &defers(0)].concat()
}

#[test]
fn the_shelf_hears_picks() {
    let looks = |v: Pitch| (Call::Look { r: 1, k: 3 }, Reply::Pitch(v.into()));
    let list = |before: &[(Call, Reply)], after: &[(Call, Reply)]| {
        told_of_rest(&[before, &swapped(0, 1, 55, 0), after].concat())
    };
    assert_eq!(list(&[picks(1, 0)], &[looks(103)]), Ok(()));
    assert!(list(&[picks(1, 0)], &[looks(55)]).is_err());
    assert_eq!(list(&[picks(1, 0)], &[picks(1, 1), looks(55)]), Ok(()));
    assert!(list(&[picks(1, 0)], &[picks(1, 1), looks(103)]).is_err());
    assert!(list(&[], &[picks(1, 0)]).is_err());
    assert!(list(&[], &[looks(55)]).is_err());
}

/// A slot is free from the checkpoint on that read of everybody a moment not
/// before its raise.
#[test]
fn moments_tell_when_a_slot_is_free() {
    let list = |after: &[(Call, Reply)]| told_of_rest(&[&defers_slot_0()[..], after].concat());
    let observes = steps(1, 1..=2);
    let whole = steps(0, 1..=4);
    assert!(list(&[claims(1, 0)]).is_err());
    assert!(list(&[&whole[..], &[claims(1, 0)]].concat()).is_err());
    assert!(list(&[&observes[..], &[claims(1, 0)]].concat()).is_err());
    let freed = [&observes[..], &whole].concat();
    assert_eq!(list(&[&freed[..], &[claims(1, 0)]].concat()), Ok(()));
    assert_eq!(list(&[&freed[..], &[claims(0, 0)]].concat()), Ok(()));
    // Read before it observed, and again after that.
    let early = [&steps(0, 1..=4)[..], &observes].concat();
    assert!(list(&[&early[..], &[claims(1, 0)]].concat()).is_err());
    let again = [&early[..], &whole, &[claims(1, 0)]].concat();
    assert_eq!(list(&again), Ok(()));
    let late = [&steps(0, 1..=3)[..], &observes, &steps(0, 4..=4)].concat();
    assert_eq!(list(&[&late[..], &[claims(1, 0)]].concat()), Ok(()));
}

/// The loaded moment counts, not that of the second step.
#[test]
fn moments_are_those_of_the_load() {
    let whole = steps(0, 1..=4);
    let loaded_before = [
        &steps(1, 1..=1)[..],
        &defers_slot_0(),
        &steps(1, 2..=2),
        &whole,
        &[claims(1, 0)],
    ];
    assert!(told_of_rest(&loaded_before.concat()).is_err());
    let loaded_after = [
        &swapped(0, 1, 55, 0)[..],
        &defers(0)[..1],
        &steps(1, 1..=2),
        &defers(0)[1..],
        &whole,
        &[claims(1, 0)],
    ];
    assert_eq!(told_of_rest(&loaded_after.concat()), Ok(()));
    let loaded_at_34 = [
        &swapped(0, 1, 55, 0)[..],
        &steps(1, 1..=2),
        &defers(0),
        &whole,
        &[claims(1, 0)],
    ];
    assert!(told_of_rest(&loaded_at_34.concat()).is_err());
}

/// A participant that defers observes the moment of its own raise.
#[test]
fn deferring_observes_its_raise() {
    let both = [&swapped(0, 1, 55, 0)[..], &swapped(1, 2, 66, 1)].concat();
    let list = |parts: &[&[(Call, Reply)]]| told_of_rest(&[&both[..], &parts.concat()].concat());
    let whole = |r| steps(r, 1..=4);
    let (zero, one) = (defers(0), defers(1));
    // Participant 1 raised later: it has observed the raise of participant 0.
    let later = [&zero[..], &one, &whole(0), &[claims(0, 0)]];
    assert_eq!(list(&later), Ok(()));
    let not_other = [&zero[..], &one, &whole(0), &[claims(0, 1)]];
    assert!(list(&not_other).is_err());
    let earlier = [&one[..1], &zero, &one[1..], &whole(0), &[claims(0, 0)]];
    assert!(list(&earlier).is_err());
    let unqueued = [&zero[..], &one[..1], &whole(0), &[claims(0, 0)]];
    assert!(list(&unqueued).is_err());
    assert!(list(&[&zero[1..]]).is_err() && list(&[&one[..1], &one[..1]]).is_err());
    assert!(list(&[&steps(0, 2..=2)]).is_err() && list(&[&steps(0, 1..=5)]).is_err());
}

/// A pick is dropped by CHECKPOINT's first step and by DEFER at 34.
#[test]
fn picks_are_kept_until_they_are_dropped() {
    let claim_of_picked = [picks(1, 0), claims(0, 0)];
    let fault = told_of_rest(&claim_of_picked).expect_err("a slot picked");
    assert_eq!(fault, "a CLAIM of slot 0, which reader 1 picked");
    let (mut words, mut entries) = made(Kind::Rest, (2, 2, 3), 0);
    let mut demand3 = demand3(Kind::Rest, (2, 2, 3), AS_WRITTEN);
    let picked = [&[picks(1, 0)][..], &defers_slot_0()].concat();
    for (call, due) in picked {
        assert_eq!(gives(&mut words, &mut entries, call), due);
        assert_eq!(demand3.hear(&call, &due), Ok(()));
    }
    let fault = "slot 0, picked by reader 1, is recorded free";
    for (word, number) in [(step_at(0) + 1, 0), (pair_at(0, 0), 2)] {
        let mut freed = words;
        freed[word] = number;
        assert_eq!(demand3.recorded(&freed), Err(fault.to_string()));
    }
    let drops = (Call::Checkpoint { r: 1 }, Reply::At(1));
    assert_eq!(demand3.hear(&drops.0, &drops.1), Ok(()));
    words[step_at(0) + 1] = 0;
    assert_ne!(demand3.recorded(&words), Err(fault.to_string()));
}

/// What a rest store records is compared with what was told.
#[test]
fn records_of_participants_are_compared() {
    let (mut words, mut entries) = made(Kind::Rest, (2, 2, 3), 0);
    let mut demand3 = demand3(Kind::Rest, (2, 2, 3), AS_WRITTEN);
    let mut list = vec![picks(1, 0).0, Call::Checkpoint { r: 1 }, picks(0, 0).0];
    list.extend(defers_slot_0().into_iter().map(|(call, _)| call));
    list.extend(steps(1, 2..=4).into_iter().map(|(call, _)| call));
    for call in list {
        let reply = gives(&mut words, &mut entries, call);
        assert!(reply.accepted(), "{call}");
        assert_eq!(demand3.hear(&call, &reply), Ok(()), "{call}");
        assert_eq!(demand3.recorded(&words), Ok(()), "{call}");
    }
    let wrong = [
        (reader_at(0), 5),
        (reader_at(1), 5),
        (step_at(0), 1),
        (step_at(1), 3),
        (step_at(0) + 1, 0),
        (step_at(0) + 1, 2),
        (step_at(1) + 1, 1),
        (pair_at(0, 0), 2),
        (publisher_at(0), 35),
    ];
    for (word, number) in wrong {
        let mut other = words;
        other[word] = number;
        assert!(demand3.recorded(&other).is_err(), "{}", name(word));
    }
    let mut behind = words;
    (behind[pair_at(0, 1)], behind[pair_at(0, 0) + 1]) = (9, 9);
    assert_eq!(demand3.recorded(&behind), Ok(()));
}

/// A call that the kind lacks gets 1, and nothing else does.
#[test]
fn demand_3_knows_what_a_kind_lacks() {
    let refused = |call, number| [(call, Reply::Refused(number))];
    let (enter, pick) = (Call::Enter { r: 0 }, Call::Pick { r: 0 });
    assert_eq!(told(Kind::Rest, &refused(enter, 1)), Ok(()));
    assert!(told(Kind::Rest, &refused(enter, 20)).is_err());
    assert!(told(Kind::Rest, &[(enter, Reply::At(1))]).is_err());
    assert!(told(Kind::Rest, &refused(pick, 1)).is_err());
    assert_eq!(told(Kind::Old, &refused(pick, 1)), Ok(()));
    assert!(told(Kind::Old, &[picks(0, 0)]).is_err());
}

/// In an old store no RAISE of a list is shared.
#[test]
fn a_shared_raise_of_an_old_store_is_found() {
    let list = |kind, reply| {
        let raise = [(Call::Raise { p: 0 }, reply)];
        told(kind, &[&publication(0, 1, 55, 0)[..], &raise].concat())
    };
    assert_eq!(list(Kind::Old, Reply::Raised), Ok(()));
    assert_eq!(list(Kind::Old, Reply::Refused(21)), Ok(()));
    assert!(list(Kind::Old, Reply::Shared).is_err());
    assert_eq!(list(Kind::New, Reply::Shared), Ok(()));
}

/// What a list shows of the end of the versions, each where it happens.
#[test]
fn crossings_are_told_apart() {
    let (sync, raise) = (Call::Sync { p: 0 }, Call::Raise { p: 0 });
    let (enter, walk) = (Call::Enter { r: 1 }, Call::Walk { p: 0, b: 1 });
    let look = (Call::Look { r: 1, k: 0 }, Reply::Pitch(0));
    let returned = (walk, Reply::Returned { looks: 2, waits: 0 });
    let list = [
        (sync, Reply::Synced(u64::MAX), None),
        (raise, Reply::Raised, None),
        (returned.0, returned.1, None),
        (enter, Reply::At(1), None),
        (sync, Reply::Refused(21), None),
        (sync, Reply::Synced(0), Some(Crossing::Synced)),
        (walk, Reply::Waiting(0), None),
        (walk, Reply::Quiet, None),
        (raise, Reply::Refused(21), None),
        (raise, Reply::Raised, Some(Crossing::Raised)),
        (enter, Reply::At(4), Some(Crossing::Arrived)),
        (look.0, look.1, None),
        (Call::Leave { r: 1 }, Reply::Left, None),
        (enter, Reply::At(1), None),
        (enter, Reply::At(4), None),
        (walk, Reply::Waiting(1), Some(Crossing::Waited)),
        (returned.0, returned.1, Some(Crossing::Returned)),
        (sync, Reply::Synced(1), None),
        (raise, Reply::Raised, None),
        (walk, Reply::Waiting(1), None),
        (returned.0, returned.1, Some(Crossing::ReturnedAgain)),
    ];
    for kind in KINDS {
        let mut end = End::fresh(kind);
        for (call, reply, due) in list {
            let due = due.filter(|_| kind == Kind::Old);
            assert_eq!(end.hear(&call, &reply), due, "{kind} {call}");
        }
    }
    let mut end = End::fresh(Kind::Old);
    let opened = [(enter, Reply::At(1)), (enter, Reply::At(4)), look];
    let crossed = [(sync, Reply::Synced(0)), (raise, Reply::Raised)];
    let shown: Vec<_> = [
        &opened[..],
        &crossed,
        &[look, (Call::Leave { r: 1 }, Reply::Left), look],
    ]
    .concat()
    .iter()
    .filter_map(|(call, reply)| end.hear(call, reply))
    .collect();
    let due = [Crossing::Synced, Crossing::Raised, Crossing::Looked];
    assert_eq!(shown, due);
}

/// What lists of a rest store show is seen where it happens.
#[test]
fn events_are_noted() {
    use Event as E;
    let seen = |list: &[(Call, Reply)], event| {
        let mut demand3 = demand3(Kind::Rest, (2, 2, 3), AS_WRITTEN);
        for (call, reply) in list {
            assert_eq!(demand3.hear(call, reply), Ok(()), "{call}");
        }
        demand3.events().contains(&event)
    };
    let observes = steps(1, 1..=2);
    let early = [&defers_slot_0()[..], &steps(0, 1..=4)].concat();
    assert!(!seen(&early, E::FreedAmong(2)));
    let read = [&defers_slot_0()[..], &steps(0, 1..=3), &observes].concat();
    let freed = [&read[..], &steps(0, 4..=4)].concat();
    assert!(seen(&freed, E::FreedAmong(2)) && !seen(&freed, E::FreedAmong(1)));
    assert!(!seen(&freed, E::FreedAfterTooEarly) && seen(&freed, E::TwoCheckpoints));
    let one_defers = [&swapped(1, 1, 55, 0)[..], &defers(1)].concat();
    let too_early = [
        &one_defers[..],
        &steps(1, 1..=3),
        &steps(0, 1..=2),
        &steps(1, 4..=4),
    ]
    .concat();
    assert!(!seen(&too_early, E::FreedAfterTooEarly));
    let next = [&too_early[..], &steps(1, 1..=4)].concat();
    assert!(seen(&next, E::FreedAfterTooEarly) && seen(&next, E::FreedAmong(2)));
    let refused = |call, number| (call, Reply::Refused(number));
    let (own, others) = (Call::Claim { p: 0, s: 0 }, Call::Claim { p: 1, s: 0 });
    let claims_own = [&defers_slot_0()[..], &[refused(own, 30)]].concat();
    assert!(seen(&claims_own, E::ClaimOfOwn) && !seen(&claims_own, E::ClaimOfAnothers));
    let claims_others = [&defers_slot_0()[..], &[refused(others, 30)]].concat();
    assert!(seen(&claims_others, E::ClaimOfAnothers) && !seen(&claims_others, E::ClaimOfOwn));
    let at_35 = [&swapped(0, 1, 55, 0)[..], &defers(0)[..1]].concat();
    let pick = refused(Call::Pick { r: 0 }, 20);
    let picks_at_35 = [&at_35[..], &[pick]].concat();
    assert!(seen(&picks_at_35, E::PickAt35) && !seen(&picks_at_35, E::PickInCheckpoint));
    let picks_inside = [&steps(0, 1..=1)[..], &[pick]].concat();
    assert!(seen(&picks_inside, E::PickInCheckpoint) && !seen(&picks_inside, E::PickAt35));
    let last = [
        &swapped(0, 1, 55, 0)[..],
        &[refused(Call::Defer { p: 0 }, 43)],
    ]
    .concat();
    assert!(seen(&last, E::LastEpochWithFewer) && !seen(&last, E::LastEpochWithSeven));
}

/// Sizes of the lists below. A rest store has as many readers as publishers.
fn some_sizes(kind: Kind, random: &mut Random) -> (u16, u16, u16) {
    match kind {
        Kind::New | Kind::Old => random.pick(&[(2, 2, 3), (1, 1, 2), (5, 3, 6)]),
        Kind::Rest => random.pick(&[(2, 2, 3), (1, 1, 2), (3, 3, 6), (2, 2, 12)]),
    }
}

/// A random list of 1000 calls on this implementation: its first fault of
/// demand 3.
fn fault_of_a_list(kind: Kind, rules: Rules, random: &mut Random) -> Option<String> {
    let sizes = some_sizes(kind, random);
    let version = match kind {
        Kind::New | Kind::Rest => random.below(3),
        Kind::Old => random.below(6).wrapping_sub(3),
    };
    let (mut words, mut entries) = made_by(rules, kind, sizes, version);
    let mut demand3 = demand3(kind, sizes, rules);
    let mut scheduler = Scheduler::new(random);
    for _ in 0..1000 {
        let call = scheduler.next(&words, random);
        let reply = lent::call(&mut words, &mut entries, &[], &call, rules);
        let kept = demand3
            .hear(&call, &reply)
            .and_then(|()| demand3.recorded(&words));
        if let Err(fault) = kept {
            return Some(fault);
        }
    }
    None
}

/// The faults of random lists with so many calls in all.
fn faults(kind: Kind, rules: Rules, calls: u64) -> impl Iterator<Item = String> {
    let mut random = Random::from_seed(3);
    (0..calls / 1000).filter_map(move |_| fault_of_a_list(kind, rules, &mut random))
}

#[test]
fn demand_3_holds_as_written() {
    for kind in KINDS {
        assert_eq!(faults(kind, AS_WRITTEN, 100_000).next(), None);
    }
}

/// Random lists show all that can happen in a rest store.
#[test]
fn random_lists_show_every_event() {
    let mut random = Random::from_seed(5);
    let mut events = Events::new();
    for round in 0..640 {
        let n = 1 + round as u16 / 4 % 16;
        let sizes = match round % 4 {
            0 => (1, 1, 12),
            1 => (2, 2, 14),
            _ => (n, n, random.pick(&[2, 3, 6, 32])),
        };
        let version = random.pick(&[0, u64::MAX - 8, u64::MAX - 7, u64::MAX - 3]);
        let (mut words, mut entries) = made(Kind::Rest, sizes, version);
        let mut demand3 = demand3(Kind::Rest, sizes, AS_WRITTEN);
        let mut scheduler = match round % 4 {
            0 | 1 => Scheduler::deferring(&mut random),
            2 => Scheduler::resting(&mut random),
            _ => Scheduler::new(&mut random),
        };
        for _ in 0..1500 {
            let call = scheduler.next(&words, &mut random);
            let reply = lent::call(&mut words, &mut entries, &[], &call, AS_WRITTEN);
            assert_eq!(demand3.hear(&call, &reply), Ok(()));
        }
        events.extend(demand3.events());
    }
    assert_eq!(unseen(Kind::Rest, &events), Vec::<String>::new());
}

/// The events of this kind that are not among these.
fn unseen(kind: Kind, events: &Events) -> Vec<String> {
    Event::all()
        .filter(|event| event.kind() == kind && !events.contains(event))
        .map(|event| event.to_string())
        .collect()
}

/// Random lists show all that can happen in an old store about 2^63 and at
/// the end of its versions.
#[test]
fn random_lists_cross_the_end() {
    let mut random = Random::from_seed(6);
    let mut events = Events::new();
    for _ in 0..60 {
        let sizes = some_sizes(Kind::Old, &mut random);
        let near = random.pick(&[1 << 63, 0]);
        let version = random.below(3).wrapping_add(near).wrapping_sub(3);
        let (mut words, mut entries) = made(Kind::Old, sizes, version);
        let mut demand3 = demand3(Kind::Old, sizes, AS_WRITTEN);
        let mut scheduler = Scheduler::new(&mut random);
        for _ in 0..1500 {
            let call = scheduler.next(&words, &mut random);
            let reply = lent::call(&mut words, &mut entries, &[], &call, AS_WRITTEN);
            assert_eq!(demand3.hear(&call, &reply), Ok(()));
            assert_eq!(demand3.recorded(&words), Ok(()));
        }
        events.extend(demand3.events());
    }
    assert_eq!(unseen(Kind::Old, &events), Vec::<String>::new());
}

/// Alterations that break demand 3 of a new store.
const BREAK_NEW: [Alteration; 16] = [
    Alteration::PassesBelowMark,
    Alteration::MarkIsVersion,
    Alteration::ReleasesAt37,
    Alteration::CurrentIsFree,
    Alteration::HolderAt34Ignored,
    Alteration::HolderAt38Ignored,
    Alteration::SwapKeepsHeld,
    Alteration::SwapsAt32,
    Alteration::PicksOnOpening,
    Alteration::LooksAtFour,
    Alteration::LooksAtCurrent,
    Alteration::WritesCurrent,
    Alteration::WaitNotALook,
    Alteration::SyncKeepsLooks,
    Alteration::WaitsNotCounted,
    Alteration::ShelfFeathered,
];

/// Alterations that break demand 3 of an old store, or spoil it, or share its
/// RAISE.
const BREAK_OLD: [Alteration; 17] = [
    Alteration::ReleasesAt37,
    Alteration::CurrentIsFree,
    Alteration::SwapKeepsHeld,
    Alteration::LooksAtCurrent,
    Alteration::WritesCurrent,
    Alteration::OldEntersTwo,
    Alteration::ArrivesByVersion,
    Alteration::DepartsByVersion,
    Alteration::WaitNotALook,
    Alteration::OldLooksAreB,
    Alteration::ShelfFeathered,
    Alteration::OldTakesSeveral,
    Alteration::OldMarkStops,
    Alteration::OldMarkModulo63,
    Alteration::OldMarkZeroSpoiled,
    Alteration::OldNoneBeforeZero,
    Alteration::OldVersionAsNew,
];

/// Alterations that break demand 3 of a rest store.
const BREAK_REST: [Alteration; 40] = [
    Alteration::CurrentIsFree,
    Alteration::HolderAt34Ignored,
    Alteration::SwapKeepsHeld,
    Alteration::SwapsAt32,
    Alteration::LooksAtCurrent,
    Alteration::WritesCurrent,
    Alteration::ShelfFeathered,
    Alteration::FreshObservedNotReading,
    Alteration::LackedByTurn,
    Alteration::RestLeaves,
    Alteration::DeferredIsFree,
    Alteration::OwnDeferredIsFree,
    Alteration::OthersDeferredIsFree,
    Alteration::ClaimsAt34,
    Alteration::PicksSlotZero,
    Alteration::PickKeepsFormer,
    Alteration::PickObserves,
    Alteration::PickRepliesPlace,
    Alteration::CheckpointKeepsPick,
    Alteration::ReadsOwnObserved,
    Alteration::ReadsLoaded,
    Alteration::LeastNotRestarted,
    Alteration::GreatestRead,
    Alteration::LastReadLeftOut,
    Alteration::FreesByLeastBefore,
    Alteration::FreesBelowLeast,
    Alteration::FreesEverything,
    Alteration::NeverFrees,
    Alteration::FreesFirstOnly,
    Alteration::FreesOfOthers,
    Alteration::FreedByExchange,
    Alteration::NinthDeferred,
    Alteration::EpochNotRaised,
    Alteration::MarkBeforeRaise,
    Alteration::DeferKeepsPick,
    Alteration::DeferKeepsObserved,
    Alteration::QueuesCurrent,
    Alteration::QueuesEpochOfNow,
    Alteration::QueuesAtFront,
    Alteration::CountNotRaised,
];

/// These alterations break demand 3, and random lists find it.
#[test]
fn demand_3_falls_under_altered_rules() {
    let altered = [
        (Kind::New, &BREAK_NEW[..]),
        (Kind::Old, &BREAK_OLD),
        (Kind::Rest, &BREAK_REST),
    ];
    for (kind, alterations) in altered {
        for &alteration in alterations {
            let fault = faults(kind, Rules::altered(alteration), 2_000_000).next();
            assert!(
                fault.is_some(),
                "{kind} {} keeps demand 3",
                alteration.name()
            );
        }
    }
}

/// These free a slot that somebody has picked, by what the store records.
#[test]
fn picked_slots_are_freed_under_altered_rules() {
    let early = [
        Alteration::FreshObservedNotReading,
        Alteration::ReadsOwnObserved,
        Alteration::GreatestRead,
        Alteration::LastReadLeftOut,
        Alteration::FreesEverything,
        Alteration::MarkBeforeRaise,
        Alteration::CountNotRaised,
        Alteration::QueuesCurrent,
    ];
    for alteration in early {
        let mut faults = faults(Kind::Rest, Rules::altered(alteration), 2_000_000);
        let freed = faults.any(|fault| fault.ends_with("is recorded free"));
        assert!(freed, "{}", alteration.name());
    }
}
