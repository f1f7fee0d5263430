//! Tests of the comparison itself: that it can find what it is for.

use crate::both::{Both, Stop};
use crate::first_tables::{borders, Border};
use crate::guarded::Guarded;
use crate::seen::{Seen, Stand};
use crate::slices::Side;
use second::call::{Call, Numbers, Reply};
use second::crossing::Crossing;
use second::demand3::Demand3;
use second::events::{Event, Events};
use second::layout::WORDS;
use second::making::Making;
use second::rules::{Alteration, Rules};
use second::store::{Kind, Pitch, TABLE};

const MAKE: Call = Call::Make {
    kind: Kind::New.number() as u16,
    readers: 2,
    publishers: 2,
    slots: 3,
    version: 0,
};

const FIRST: [Pitch; TABLE] = [12_000; TABLE];

fn lent(rules: Rules) -> Both {
    let mut both = Both::new(rules, 4, 100);
    both.part = "a test";
    both.set_words(&[9; WORDS]);
    both.set_entries(&[7; 96]);
    both.set_table(&FIRST);
    both
}

fn report<T>(result: Result<T, Stop>) -> String {
    match result {
        Ok(_) => "alike".to_string(),
        Err(Stop::Done) => "done".to_string(),
        Err(Stop::Differs(difference)) => difference.to_string(),
    }
}

#[test]
fn cells_outside_the_lent_slice_are_guarded() {
    let mut one = Guarded::with_room(10, 5u64);
    let mut other = Guarded::with_room(10, 5u64);
    one.set(&[1, 2, 3]);
    other.set(&[1, 2, 3]);
    assert!(one.first_unlike(&other).is_none());
    // The cells around the slice belong to the same vector.
    unsafe { *one.pointer().add(3) = 8 };
    assert_eq!(one.first_unlike(&other), Some((None, 8, 5)));
    unsafe { *one.pointer().sub(1) = 6 };
    assert_eq!(one.first_unlike(&other), Some((None, 6, 5)));
    one.set(&[1, 4, 3]);
    unsafe { *one.pointer().sub(1) = 5 };
    assert_eq!(one.first_unlike(&other), Some((Some(1), 4, 2)));
    one.set_null();
    assert!(one.pointer().is_null() && one.lent().is_empty());
}

/// A table that a call changed is no longer like the other side's.
#[test]
fn the_first_table_is_compared() {
    let (mut one, mut other) = (Side::with_room(9, 9), Side::with_room(9, 9));
    for side in [&mut one, &mut other] {
        side.table.set(&FIRST);
    }
    assert!(one.alike(&other));
    let lent = one.lent();
    assert_eq!(lent.table_length, TABLE);
    // The cells belong to the side, which alone knows of them.
    unsafe { *lent.table.cast_mut().add(31) = 0 };
    assert!(!one.alike(&other));
    assert_eq!(
        one.table.first_unlike(&other.table),
        Some((Some(31), 0, 12_000))
    );
    other.table.set_null();
    assert!(other.lent().table.is_null() && other.lent().table_length == 0);
}

#[test]
fn a_run_that_saw_nothing_lacks_every_number() {
    let missing = Seen::new().missing();
    let lacks = |what: &str| missing.iter().any(|line| line == what);
    let shared = [1, 10, 11, 12, 13, 14, 20, 21, 30];
    let of_kinds: [(&str, &[u64]); 3] =
        [("new", &[32, 33]), ("old", &[31, 33]), ("rest", &[43, 44])];
    for (kind, own) in of_kinds {
        for refusal in shared.iter().chain(own) {
            let line = |line: &&String| {
                line.starts_with(kind) && line.ends_with(&format!("refusal {refusal}"))
            };
            assert!(missing.iter().any(|l| line(&l)), "{kind} {refusal}");
        }
    }
    assert!(lacks("rest defer: refusal 43") && lacks("rest defer, in a list: refusal 44"));
    assert!(lacks("rest pick: reply 115") && lacks("new pick: refusal 1"));
    assert!(!lacks("rest store: refusal 6") && !lacks("rest claim: refusal 31"));
    assert!(lacks("rest enter: where it alone is wrong"));
    assert!(lacks("old defer: where it alone is wrong"));
    assert!(lacks("rest enter, in a list: refusal 1"));
    assert!(!lacks("rest pick, in a list: refusal 1"));
    assert!(lacks("rest pick: spoiled by EightAt35 alone"));
    assert!(!lacks("rest pick: spoiled by Readers alone"));
    assert!(!lacks("new pick: spoiled by Readers alone"));
    assert!(lacks("rest: border 9 of DeferredSlot"));
    assert!(lacks("rest checkpoint: from publisher place 35"));
    assert!(lacks("rest claim: at the last step"));
    assert!(lacks("rest, in a list: a slot freed among 16 participants"));
    assert!(lacks("rest, in a list: 43 with eight slots deferred"));
    assert!(lacks("rest store with the largest sizes"));
    assert!(lacks("pick with WordsBefore") && lacks("store with WordsBefore"));
    assert!(lacks("old claim: refusal 31") && !lacks("new claim: refusal 31"));
    assert!(lacks("old walk: reply 112") && !lacks("new walk: reply 112"));
    assert!(lacks("new store: refusal 6") && lacks("old store: reply 100"));
    assert!(lacks("new sync: refusal 32") && !lacks("old sync: refusal 32"));
    assert!(!lacks("old store: refusal 6") && lacks("old store with the highest version"));
    assert!(lacks("new look: spoiled by Version alone"));
    assert!(!lacks("old look: spoiled by Version alone"));
    assert!(lacks("rest look: spoiled by MarkZero alone"));
    assert!(!lacks("old look: spoiled by MarkZero alone"));
    assert!(lacks("old, in a list: SYNC with the mark 0"));
    assert!(lacks("old, in a list: RAISE to 0"));
    assert!(lacks("old, in a list: a return with the mark 0"));
    assert!(lacks("old, in a list: SYNC with the mark 2^63"));
    assert!(lacks("new store: refusal 40") && lacks("old store: refusal 42"));
    assert!(lacks("old store: a first table with -5001 in entry 31"));
    assert!(lacks("store with NullTable") && !lacks("enter with NullTable"));
    assert!(lacks("store with NewBefore") && lacks("walk with OldBefore"));
    assert!(!lacks("pick with NewBefore") && !lacks("defer with OldBefore"));
    assert!(lacks("old write: from place 36") && !lacks("new write: from place 36"));
}

#[test]
fn what_was_seen_is_not_missing() {
    let mut seen = Seen::new();
    let numbers = Numbers {
        code: 30,
        first: 0,
        second: 0,
    };
    let claim = Call::Claim { p: 0, s: 0 };
    let stand = Stand {
        place: 0,
        reader_place: 5,
        publisher_place: 0,
        step: 3,
        participants: 3,
        versions_differ: false,
    };
    seen.note(Some(Kind::New), &claim, &numbers, Some(stand));
    let missing = seen.missing();
    assert_eq!(Seen::new().missing().len(), missing.len() + 2);
    assert!(!missing.iter().any(|line| line == "new claim: refusal 30"));
    assert!(missing.iter().any(|line| line == "old claim: refusal 30"));
    seen.note(Some(Kind::Rest), &claim, &numbers, Some(stand));
    let now = seen.missing();
    assert_eq!(missing.len(), now.len() + 5);
    let gone = [
        "rest claim: refusal 30",
        "rest claim: from place 0",
        "rest claim: from reader place 5",
        "rest claim: from publisher place 0",
        "rest claim: at a step before the last",
    ];
    for what in gone {
        assert!(!now.iter().any(|line| line == what), "{what}");
    }
    seen.note_events(&Events::from([Event::TwoDefer]));
    seen.note_listed(Kind::Rest, &claim, 30, Some(stand));
    seen.note_lacked(Kind::Rest, &Call::Walk { p: 0, b: 0 });
    assert_eq!(now.len(), seen.missing().len() + 3);
    seen.note_events(&Events::from([Event::Crossed(Crossing::Raised)]));
    assert_eq!(now.len(), seen.missing().len() + 4);
}

/// A run must see the fourth step of entering in lists of a new store, with
/// equal and with differing versions.
#[test]
fn fourth_steps_are_told_apart() {
    let mut seen = Seen::new();
    let all = seen.missing().len();
    let stand = |place, versions_differ| Stand {
        place,
        reader_place: place,
        publisher_place: 0,
        step: 0,
        participants: 1,
        versions_differ,
    };
    let enter = Call::Enter { r: 0 };
    seen.note_listed(Kind::New, &enter, 101, Some(stand(2, true)));
    seen.note_listed(Kind::Old, &enter, 101, Some(stand(3, true)));
    seen.note_listed(Kind::New, &enter, 1, Some(stand(3, true)));
    seen.note_listed(Kind::New, &Call::Leave { r: 0 }, 20, Some(stand(3, true)));
    assert_eq!(all, seen.missing().len());
    seen.note_listed(Kind::New, &enter, 101, Some(stand(3, false)));
    let missing = seen.missing();
    assert_eq!(all, missing.len() + 1);
    assert!(missing.contains(&"new enter, in a list: from place 3 with differing versions".into()));
    seen.note_listed(Kind::New, &enter, 101, Some(stand(3, true)));
    assert_eq!(all, seen.missing().len() + 2);
}

/// A table shows the borders that it is at, and no refusal shows those of
/// another.
#[test]
fn first_tables_show_their_borders() {
    let shows = |table: &[Pitch], code, border| Border::shown_by(table, code).contains(&border);
    let with = |k: usize, entry| {
        let mut table = FIRST;
        table[k] = entry;
        table
    };
    assert!(shows(&[], 40, Border::Length(0)));
    assert!(shows(&with(31, -5001), 41, Border::Entry(31, -5001)));
    assert!(!shows(&with(31, -5001), 100, Border::Entry(31, -5001)));
    assert!(shows(&with(0, -3001), 42, Border::Step(0, 15_001)));
    assert!(shows(&with(31, 27_000), 100, Border::Step(30, 15_000)));
    assert!(!shows(&with(7, 90_000), 42, Border::Step(7, -78_000)));
    assert!(shows(&with(31, 77_536), 42, Border::Step(30, 65_536)));
    let widest = with(0, Pitch::MIN);
    assert!(shows(&widest, 41, Border::Entry(0, Pitch::MIN)));
    let (mut steep, mut short) = (with(2, -5001), with(2, -5001)[..31].to_vec());
    (steep[20], short[20]) = (90_000, 90_000);
    assert!(shows(&steep, 41, Border::DoublyWrong));
    assert!(shows(&short, 40, Border::TriplyWrong));
    assert_eq!(borders().count(), 6 + 12 * 32 + 8 * 31 + 3);
}

/// A kind's number of the format before is seen where it alone is wrong.
#[test]
fn kinds_before_are_seen_if_all_else_is_right() {
    for (kind, name) in [(Kind::New, "NewBefore"), (Kind::Old, "OldBefore")] {
        let number = kind.number_before().expect("a kind of the format before");
        let mut both = lent(Rules::AS_WRITTEN);
        let lacks = |both: &Both, call: &str| {
            let what = format!("{call} with {name}");
            both.seen.missing().contains(&what)
        };
        let make = |number: u64, readers| Call::Make {
            kind: number as u16,
            readers,
            publishers: 1,
            slots: 3,
            version: 0,
        };
        let enter = Call::Enter { r: 0 };
        assert_eq!(report(both.call(&make(number, 0))), "alike");
        assert!(lacks(&both, "store"));
        assert_eq!(report(both.call(&make(number, 1))), "alike");
        assert!(!lacks(&both, "store"));
        assert_eq!(report(both.call(&make(kind.number(), 1))), "alike");
        let mut words = *both.words().expect("a store");
        assert_eq!(report(both.call(&enter)), "alike");
        words[0] = number;
        both.set_words(&words);
        both.set_entries(&[7; 95]);
        assert_eq!(report(both.call(&enter)), "alike");
        assert!(lacks(&both, "enter"));
        both.set_entries(&[7; 96]);
        assert_eq!(report(both.call(&enter)), "alike");
        assert!(!lacks(&both, "enter") && lacks(&both, "leave"));
    }
}

/// As many words as before are seen where nothing else is wrong, and so is a
/// call that the kind lacks.
#[test]
fn lengths_and_lacked_calls_are_seen_if_all_else_is_right() {
    let mut both = lent(Rules::AS_WRITTEN);
    let lacks = |both: &Both, what: &str| both.seen.missing().iter().any(|line| line == what);
    assert_eq!(report(both.call(&MAKE)), "alike");
    let words = *both.words().expect("a store");
    let (enter, pick) = (Call::Enter { r: 0 }, Call::Pick { r: 0 });
    both.set_entries(&[7; 95]);
    assert_eq!(report(both.call(&pick)), "alike");
    both.set_entries(&[7; 96]);
    assert_eq!(report(both.call(&Call::Pick { r: 2 })), "alike");
    assert!(lacks(&both, "new pick: where it alone is wrong"));
    assert_eq!(report(both.call(&pick)), "alike");
    assert!(!lacks(&both, "new pick: where it alone is wrong"));
    both.set_words(&words[..424]);
    assert_eq!(report(both.call(&enter)), "alike");
    both.set_words(&words[..425]);
    assert_eq!(report(both.call(&pick)), "alike");
    assert!(lacks(&both, "enter with WordsBefore") && lacks(&both, "pick with WordsBefore"));
    assert_eq!(report(both.call(&enter)), "alike");
    assert!(!lacks(&both, "enter with WordsBefore"));
}

#[test]
fn a_difference_is_told_by_name() {
    let mut both = lent(Rules::altered(Alteration::FreshEntriesZero));
    let text = report(both.call(&MAKE));
    assert!(text.contains("new store, in a test"), "{text}");
    assert!(text.contains("seed:     4, call number 1"), "{text}");
    assert!(text.contains("(store new 2 2 3 0)"), "{text}");
    assert!(
        text.contains("entry 0, slot 0 entry 0: library 12000, second 0"),
        "{text}"
    );

    let mut both = lent(Rules::altered(Alteration::FreshNewPublishedZero));
    let text = report(both.call(&MAKE));
    assert!(
        text.contains("word 12, reader 0 published: library 18446744073709551615, second 0"),
        "{text}"
    );

    let mut both = lent(Rules::altered(Alteration::FreshObservedZero));
    let rest = Call::Make {
        kind: Kind::Rest.number() as u16,
        readers: 2,
        publishers: 2,
        slots: 3,
        version: 6,
    };
    let text = report(both.call(&rest));
    assert!(text.contains("rest store, in a test"), "{text}");
    assert!(
        text.contains("word 12, reader 0 published: library 6, second 0"),
        "{text}"
    );

    let mut both = lent(Rules::altered(Alteration::CurrentIsFree));
    assert_eq!(report(both.call(&MAKE)), "alike");
    let text = report(both.call(&Call::Claim { p: 1, s: 0 }));
    assert!(text.contains("library:  refused 30 [30 0 0]"), "{text}");
    assert!(text.contains("second:   claimed 0 [104 0 0]"), "{text}");
}

#[test]
fn a_list_is_held_against_demand_3() {
    let mut both = lent(Rules::AS_WRITTEN);
    assert_eq!(report(both.call(&MAKE)), "alike");
    let making = Making::of(&MAKE).expect("a known kind");
    let mut demand3 = Demand3::fresh(&making, &FIRST, Rules::AS_WRITTEN);
    let enter = Call::Enter { r: 0 };
    assert_eq!(report(both.listed(&enter, &mut demand3)), "alike");
    let untrue = demand3.hear(&Call::Claim { p: 1, s: 2 }, &Reply::Claimed(2));
    assert_eq!(untrue, Ok(()));
    let text = report(both.listed(&enter, &mut demand3));
    let fault = "demand 3: the calls told that publisher 1 holds Some(2)";
    assert!(text.contains(fault), "{text}");
}

/// A list of an old store across the end, heard as the library replies.
#[test]
fn a_list_across_the_end_is_heard() {
    let mut both = lent(Rules::AS_WRITTEN);
    let make = Call::Make {
        kind: Kind::Old.number() as u16,
        readers: 2,
        publishers: 2,
        slots: 3,
        version: u64::MAX,
    };
    assert_eq!(report(both.call(&make)), "alike");
    let making = Making::of(&make).expect("a known kind");
    let mut demand3 = Demand3::fresh(&making, &FIRST, Rules::AS_WRITTEN);
    let p = 1;
    let mut list = vec![Call::Claim { p, s: 2 }];
    list.extend([Call::Write { p, v: 0 }; 32]);
    list.extend([Call::Swap { p }, Call::Sync { p }]);
    list.extend([Call::Walk { p, b: 1 }, Call::Raise { p }]);
    list.push(Call::Walk { p, b: 1 });
    let mut shown = Vec::new();
    for call in list {
        assert_eq!(report(both.listed(&call, &mut demand3)), "alike");
        shown.extend(demand3.crossing());
    }
    let due = [Crossing::Synced, Crossing::Raised, Crossing::Returned];
    assert_eq!(shown, due);
}
