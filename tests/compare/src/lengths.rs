//! Part 3: slices of wrong lengths, null pointers of length 0 and unknown
//! kinds.

use crate::both::{Both, Stop, MOST_WORDS};
use second::call::{calls, Call};
use second::layout::{KIND, SLOTS, WORDS, WORDS_BEFORE};
use second::random::Random;
use second::rules::Rules;
use second::store::{Kind, Pitch, FEATHERED, KINDS, TABLE};
use second::tables;
use second::turns::{call_by, call_named, Scheduler};

const NEW: u64 = Kind::New.number();
const OLD: u64 = Kind::Old.number();
const REST: u64 = Kind::Rest.number();

/// Making and each of the thirteen calls with something wrong before all
/// else.
pub fn play(both: &mut Both, random: &mut Random) -> Result<(), Stop> {
    both.part = "wrong lengths and kinds";
    let kind = random.pick(&KINDS);
    let words = lived_in(kind, random);
    let entries = vec![random.word() as Pitch; words[SLOTS] as usize * 32];
    let wrong = random.below(5);
    let making = making(kind, &words, wrong == 3, random);
    lend(both, wrong, &words, &entries, random);
    both.call(&making)?;
    for name in calls() {
        lend(both, wrong, &words, &entries, random);
        let call = match random.one_in(4) {
            true => call_named(name, &words, random),
            false => call_by(name, 0, &words, random),
        };
        both.call(&call)?;
    }
    Ok(())
}

/// Lends the store and the entries with something wrong, and any first table.
fn lend(both: &mut Both, wrong: u64, words: &[u64; WORDS], entries: &[Pitch], random: &mut Random) {
    match wrong {
        0 | 1 => {
            lend_wrong_words(both, words, random);
            lend_some_entries(both, entries, random);
        }
        2 => {
            both.set_words(words);
            lend_wrong_entries(both, entries, random);
        }
        3 => {
            both.set_words(&with_unknown_kind(words, random));
            lend_some_entries(both, entries, random);
        }
        _ => {
            both.set_words(words);
            both.set_null_entries();
        }
    }
    both.set_table(&tables::any(random));
    if random.one_in(8) {
        both.set_null_table();
    }
}

/// A store after some calls.
fn lived_in(kind: Kind, random: &mut Random) -> [u64; WORDS] {
    let mut words = [0; WORDS];
    let slots = 2 + random.below(4) as u16;
    let mut entries = vec![0; usize::from(slots) * 32];
    let number = kind.number() as u16;
    let make = Call::Make {
        kind: number,
        readers: 2,
        publishers: 2,
        slots,
        version: 0,
    };
    let first = [FEATHERED; TABLE];
    second::lent::call(&mut words, &mut entries, &first, &make, Rules::AS_WRITTEN);
    let mut scheduler = Scheduler::new(random);
    for _ in 0..random.below(40) {
        let call = scheduler.next(&words, random);
        second::lent::call(&mut words, &mut entries, &first, &call, Rules::AS_WRITTEN);
    }
    words
}

fn making(kind: Kind, words: &[u64; WORDS], unknown: bool, random: &mut Random) -> Call {
    let kind = if unknown {
        let others = [255, 256, 256 + NEW, 256 + OLD, 32_768 + REST, 65_535];
        unknown_kind(&others, random) as u16
    } else {
        kind.number() as u16
    };
    let readers = random.pick(&[1, 1, 2, 64, 0]);
    Call::Make {
        kind,
        readers,
        publishers: 1,
        slots: words[SLOTS] as u16,
        version: 0,
    }
}

/// A whole store at the start or at the end of a slice of another length, or
/// as much of it as there is room for.
fn lend_wrong_words(both: &mut Both, words: &[u64; WORDS], random: &mut Random) {
    let any = random.below(MOST_WORDS as u64) as usize;
    let near = random.pick(&[WORDS - 1, WORDS + 1, WORDS + 2]);
    let before = random.pick(&[
        WORDS_BEFORE,
        WORDS_BEFORE,
        WORDS_BEFORE - 1,
        WORDS_BEFORE + 1,
    ]);
    let length = random.pick(&[0, 1, 9, near, near, before, 2 * WORDS, MOST_WORDS, any]);
    if length == 0 && random.one_in(2) {
        both.set_null_words();
        return;
    }
    let length = if length == WORDS { WORDS + 1 } else { length };
    let mut lent = vec![0; length];
    let copied = length.min(WORDS);
    if random.one_in(2) {
        lent[..copied].copy_from_slice(&words[..copied]);
    } else {
        lent[length - copied..].copy_from_slice(&words[..copied]);
    }
    both.set_words(&lent);
}

fn lend_some_entries(both: &mut Both, entries: &[Pitch], random: &mut Random) {
    match random.below(4) {
        0 => lend_wrong_entries(both, entries, random),
        1 => both.set_null_entries(),
        _ => both.set_entries(entries),
    }
}

fn lend_wrong_entries(both: &mut Both, entries: &[Pitch], random: &mut Random) {
    let n = entries.len();
    let length = random.pick(&[
        0,
        1,
        2,
        31,
        32,
        n - 1,
        n + 1,
        n - 32,
        n + 32,
        2 * n,
        1024,
        1056,
    ]);
    both.set_entries(&vec![entries[0]; length]);
}

fn with_unknown_kind(words: &[u64; WORDS], random: &mut Random) -> [u64; WORDS] {
    let mut words = *words;
    let kinds = [
        65_535,
        1 << 63,
        255,
        (1 << 8) + NEW,
        (1 << 8) + REST,
        (1 << 16) + NEW,
        (1 << 16) + OLD,
        (1 << 16) + REST,
        (1 << 32) + NEW,
        (1 << 32) + OLD,
        (1 << 32) + REST,
        (1 << 63) + NEW,
        (1 << 63) + OLD,
        (1 << 63) + REST,
        u64::MAX,
    ];
    words[KIND] = unknown_kind(&kinds, random);
    words
}

/// A number that no kind has: one of the format before, one near those of
/// this format or of the next, or one of these.
fn unknown_kind(others: &[u64], random: &mut Random) -> u64 {
    match random.below(4) {
        0 => random.pick(&KINDS).number_before().unwrap_or(3),
        1 => random.pick(&[0, 4, NEW - 1, REST + 1, 16 + NEW, 16 + OLD, 16 + REST]),
        _ => random.pick(others),
    }
}
