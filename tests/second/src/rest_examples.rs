//! Sheets of the rest store with their outputs, worked out by hand from
//! request 3 of document 02.

use crate::examples::{Example, Line, Table};

const SIZES: &[Line] = &[
    (b"(store rest 0 0 2 0)", "refused 2"),
    (b"(store rest 0 1 2 0)", "refused 2"),
    (b"(store rest 65 65 2 0)", "refused 2"),
    (b"(store rest 65 1 1 0)", "refused 2"),
    (b"(store rest 1 0 2 0)", "refused 3"),
    (b"(store rest 17 17 2 0)", "refused 3"),
    (b"(store rest 64 64 2 0)", "refused 3"),
    (b"(store rest 3 2 2 0)", "refused 3"),
    (b"(store rest 2 3 1 0)", "refused 3"),
    (b"(store rest 16 16 1 0)", "refused 4"),
    (b"(store rest 16 16 33 0)", "refused 4"),
    (b"(store rest 16 16 32 18446744073709551616)", "unread"),
    (b"(pick 0)", "refused 1"),
    (b"(store rest 16 16 32 18446744073709551615)", "made"),
    (b"(pick 15)", "picked 0"),
    (b"(pick 16)", "refused 10"),
    (b"(checkpoint 16)", "refused 10"),
    (b"(checkpoint 65535)", "refused 10"),
    (b"(defer 16)", "refused 11"),
    (b"(defer 15)", "refused 21"),
    (b"(look 15 31)", "pitch 90000"),
    (b"(look 15 32)", "refused 13"),
    (b"(look 14 31)", "refused 20"),
    (b"(store new 3 2 2 0)", "made"),
    (b"(store old 3 2 2 0)", "made"),
];

/// What a kind lacks is unread, by the store last made.
const LACKED: &[Line] = &[
    (b"(store rest 2 2 3 5)", "made"),
    (b"(enter 0)", "unread"),
    (b"(leave 0)", "unread"),
    (b"(sync 0)", "unread"),
    (b"(raise 0)", "unread"),
    (b"(walk 0 1)", "unread"),
    (b"(release 0)", "unread"),
    (b"(enter 2)", "unread"),
    (b"(walk 65535 65535)", "unread"),
    (b"(pick 1)", "picked 0"),
    (b"(leave 1)", "unread"),
    (b"(look 1 0)", "pitch 90000"),
    (b"(store new 0 1 2 0)", "refused 2"),
    (b"(enter 1)", "unread"),
    (b"(checkpoint 1)", "at 1"),
    (b"(store new 1 1 2 00)", "unread"),
    (b"(checkpoint 1)", "at 2"),
    (b"(store new 1 1 2 0)", "made"),
    (b"(pick 0)", "unread"),
    (b"(checkpoint 0)", "unread"),
    (b"(defer 0)", "unread"),
    (b"(pick 65535)", "unread"),
    (b"(enter 0)", "at 1"),
    (b"(store rest 1 2 2 0)", "refused 3"),
    (b"(pick 0)", "unread"),
    (b"(enter 0)", "at 2"),
    (b"(store old 1 1 2 0)", "made"),
    (b"(checkpoint 0)", "unread"),
    (b"(enter 0)", "at 1"),
    (b"(defer 0)", "unread"),
    (b"(enter 0)", "at 4"),
    (b"(pick 0)", "unread"),
    (b"(enter 0)", "at 5"),
    (b"(store rest 1 1 2 0)", "made"),
    (b"(enter 0)", "unread"),
    (b"(pick 0)", "picked 0"),
];

const BEFORE_PUBLISHING: &[Line] = &[
    (b"(store rest 2 2 3 0)", "made"),
    (b"(look 0 31)", "refused 20"),
    (b"(pick 0)", "picked 0"),
    (b"(pick 1)", "picked 0"),
    (b"(look 0 31)", "pitch 90000"),
    (b"(look 2 0)", "refused 10"),
    (b"(defer 0)", "refused 21"),
    (b"(claim 0 0)", "refused 30"),
];

/// Participant 0 has published in slot 1 and holds slot 0, which participant
/// 1 has picked.
const AFTER_PUBLISHING: &[Line] = &[
    (b"(claim 0 2)", "refused 21"),
    (b"(write 0 0)", "refused 21"),
    (b"(swap 0)", "refused 21"),
    (b"(look 0 0)", "pitch 90000"),
    (b"(pick 0)", "picked 1"),
    (b"(look 0 0)", "pitch 1000"),
    (b"(look 1 0)", "pitch 90000"),
    (b"(defer 0)", "at 35"),
    (b"(look 0 0)", "refused 20"),
    (b"(pick 0)", "refused 20"),
    (b"(checkpoint 0)", "refused 20"),
    (b"(claim 1 0)", "refused 30"),
    (b"(defer 0)", "at 0"),
    (b"(defer 0)", "refused 21"),
    (b"(claim 1 0)", "refused 30"),
    (b"(claim 0 0)", "refused 30"),
    (b"(pick 0)", "picked 1"),
    (b"(look 0 31)", "pitch 1000"),
    // Participant 1 has observed nothing since: slot 0 stays.
    (b"(checkpoint 0)", "at 1"),
    (b"(look 0 31)", "refused 20"),
    (b"(pick 0)", "refused 20"),
    (b"(defer 0)", "refused 21"),
    (b"(checkpoint 0)", "at 2"),
    (b"(checkpoint 0)", "at 3"),
    (b"(look 1 31)", "pitch 90000"),
    (b"(checkpoint 0)", "at 4"),
    (b"(claim 0 0)", "refused 30"),
    (b"(look 1 31)", "pitch 90000"),
    // It comes to its rest point. CLAIM goes on inside a checkpoint.
    (b"(checkpoint 1)", "at 1"),
    (b"(look 1 31)", "refused 20"),
    (b"(claim 1 2)", "claimed 2"),
    (b"(write 1 7)", "written 1"),
    (b"(checkpoint 1)", "at 2"),
    (b"(checkpoint 0)", "at 1"),
    (b"(checkpoint 0)", "at 2"),
    (b"(checkpoint 0)", "at 3"),
    (b"(claim 0 0)", "refused 30"),
    (b"(checkpoint 0)", "at 4"),
    (b"(claim 0 0)", "claimed 0"),
    (b"(checkpoint 1)", "at 3"),
    (b"(checkpoint 1)", "at 4"),
    (b"(pick 1)", "picked 1"),
    (b"(look 1 31)", "pitch 1000"),
];

/// Participant 2 reads participant 0 before that one observes its raise. The
/// slot stays, though all have observed the raise when the checkpoint ends.
const READ_TOO_EARLY: &[Line] = &[
    (b"(defer 2)", "at 35"),
    (b"(defer 2)", "at 0"),
    (b"(checkpoint 2)", "at 1"),
    (b"(checkpoint 2)", "at 2"),
    (b"(checkpoint 2)", "at 3"),
    (b"(checkpoint 0)", "at 1"),
    (b"(checkpoint 0)", "at 2"),
    (b"(checkpoint 1)", "at 1"),
    (b"(checkpoint 1)", "at 2"),
    (b"(checkpoint 2)", "at 4"),
    (b"(checkpoint 2)", "at 5"),
    (b"(claim 2 0)", "refused 30"),
    (b"(checkpoint 2)", "at 1"),
    (b"(checkpoint 2)", "at 2"),
    (b"(checkpoint 2)", "at 3"),
    (b"(checkpoint 2)", "at 4"),
    (b"(checkpoint 2)", "at 5"),
    (b"(claim 2 0)", "claimed 0"),
];

/// A raise after the load is not observed: slot 0 of participant 0 is freed,
/// and slot 1 of participant 1, which raised later, stays.
const RAISED_AFTER_LOADING: &[Line] = &[
    (b"(defer 0)", "at 35"),
    (b"(defer 0)", "at 0"),
    (b"(checkpoint 0)", "at 1"),
    (b"(pick 1)", "picked 2"),
    (b"(defer 1)", "at 35"),
    (b"(look 1 0)", "refused 20"),
    (b"(checkpoint 0)", "at 2"),
    (b"(defer 1)", "at 0"),
    (b"(checkpoint 1)", "at 1"),
    (b"(checkpoint 1)", "at 2"),
    (b"(checkpoint 1)", "at 3"),
    (b"(checkpoint 1)", "at 4"),
    (b"(claim 1 1)", "refused 30"),
    (b"(claim 1 0)", "refused 30"),
    (b"(checkpoint 0)", "at 3"),
    (b"(checkpoint 0)", "at 4"),
    (b"(claim 1 1)", "refused 30"),
    (b"(claim 1 0)", "claimed 0"),
];

/// DEFER twice, which frees nothing.
const DEFERS: &[Line] = &[(b"(defer 0)", "at 35"), (b"(defer 0)", "at 0")];

/// A store of one participant with eight slots deferred: 0 to 7. Slot 8 is
/// current; a ninth table, in slot 9, is swapped in.
fn eight_deferred(version: &str) -> Table {
    let store = format!("(store rest 1 1 10 {version})");
    let mut table = Table::default().says(store.as_bytes(), "made");
    for slot in 1..=8 {
        table = table.publishes(0, slot, 10 * slot as i64, slot - 1);
        table = table.say(DEFERS);
        let claim = format!("(claim 0 {})", slot - 1);
        table = table.says(claim.as_bytes(), "refused 30");
    }
    table.publishes(0, 9, 90, 8)
}

const A_NINTH: &[Line] = &[
    (b"(defer 0)", "refused 44"),
    (b"(pick 0)", "picked 9"),
    (b"(defer 0)", "refused 44"),
    (b"(look 0 0)", "pitch 90"),
    (b"(checkpoint 0)", "at 1"),
    (b"(checkpoint 0)", "at 2"),
    (b"(defer 0)", "refused 21"),
    (b"(checkpoint 0)", "at 3"),
    (b"(pick 0)", "picked 9"),
    (b"(defer 0)", "at 35"),
    (b"(look 0 0)", "refused 20"),
    (b"(defer 0)", "at 0"),
    (b"(claim 0 8)", "refused 30"),
    (b"(claim 0 9)", "refused 30"),
    (b"(claim 0 7)", "claimed 7"),
    (b"(checkpoint 0)", "at 1"),
    (b"(checkpoint 0)", "at 2"),
    (b"(checkpoint 0)", "at 3"),
];

/// The epoch is 2^64 - 1, and eight slots are deferred.
const THE_LAST_EPOCH: &[Line] = &[
    (b"(defer 0)", "refused 43"),
    (b"(checkpoint 0)", "at 1"),
    (b"(defer 0)", "refused 21"),
    (b"(checkpoint 0)", "at 2"),
    (b"(checkpoint 0)", "at 3"),
    (b"(pick 0)", "picked 9"),
    (b"(defer 0)", "refused 43"),
    (b"(look 0 31)", "pitch 90"),
    (b"(claim 0 3)", "refused 21"),
    (b"(store rest 1 1 2 18446744073709551614)", "made"),
];

fn publications() -> Vec<Example> {
    let fresh = Table::default;
    let one = fresh().say(BEFORE_PUBLISHING).publishes(0, 1, 1000, 0);
    let early = fresh().says(b"(store rest 3 3 2 7)", "made");
    let early = early.publishes(2, 1, -5000, 0).say(READ_TOO_EARLY);
    let raised = fresh().says(b"(store rest 2 2 3 0)", "made");
    let raised = raised.publishes(0, 1, 1, 0).publishes(1, 2, 2, 1);
    let last = eight_deferred("18446744073709551607").say(THE_LAST_EPOCH);
    let last = last.publishes(0, 1, 5, 0).say(DEFERS);
    let last = last.says(b"(claim 0 0)", "refused 30");
    vec![
        one.say(AFTER_PUBLISHING).named("a rest publication"),
        early.named("a slot read too early"),
        raised
            .say(RAISED_AFTER_LOADING)
            .named("a raise after the load"),
        eight_deferred("0").say(A_NINTH).named("a ninth slot"),
        last.named("the last epoch"),
    ]
}

/// Every example of the rest store.
pub fn all() -> Vec<Example> {
    let listed = |name, lines: &[Line]| Table::default().say(lines).named(name);
    let mut examples = vec![
        listed("sizes of rest stores", SIZES),
        listed("calls that a kind lacks", LACKED),
    ];
    examples.extend(publications());
    examples
}
