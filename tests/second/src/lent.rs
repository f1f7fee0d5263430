//! The calls over lent slices, as C makes them.

use crate::call::{Call, Refusal, Reply};
use crate::first_table;
use crate::layout::{pack, unpack_as, KIND, WORDS, WORDS_BEFORE};
use crate::making::{make, Making};
use crate::rules::{Alteration, Rules};
use crate::store::{Kind, Pitch};

/// Making, to which a first table is lent too, or one of the thirteen calls.
/// A refusal leaves every slice as lent.
pub fn call(
    words: &mut [u64],
    entries: &mut [Pitch],
    table: &[Pitch],
    call: &Call,
    rules: Rules,
) -> Reply {
    if words.len() == WORDS_BEFORE && rules.has(Alteration::WordsBeforeTaken) {
        let mut whole = [0; WORDS];
        whole[..WORDS_BEFORE].copy_from_slice(words);
        let reply = call_whole(&mut whole, entries, table, call, rules);
        words.copy_from_slice(&whole[..WORDS_BEFORE]);
        return reply;
    }
    match <&mut [u64; WORDS]>::try_from(words) {
        Ok(words) => call_whole(words, entries, table, call, rules),
        Err(_) => Reply::Refused(1),
    }
}

fn call_whole(
    words: &mut [u64; WORDS],
    entries: &mut [Pitch],
    table: &[Pitch],
    call: &Call,
    rules: Rules,
) -> Reply {
    if let Call::Make { .. } = call {
        return Reply::from(make_lent(words, entries, table, call, rules));
    }
    call_lent(words, entries, call, rules)
}

/// The kind of this number, also by its number of the format before if this
/// is so.
fn kind(number: u64, before: bool) -> Option<Kind> {
    let before = Kind::from_number_before(number).filter(|_| before);
    Kind::from_number(number).or(before)
}

fn make_lent(
    words: &mut [u64; WORDS],
    entries: &mut [Pitch],
    table: &[Pitch],
    call: &Call,
    rules: Rules,
) -> Result<Reply, Refusal> {
    if rules.has(Alteration::TableLengthBeforeKind) {
        first_table::refuse_length(table, rules)?;
    }
    let before = rules.has(Alteration::KindsBeforeInMakings);
    let making = Making::by(call, |number| kind(number, before)).ok_or(Refusal(1))?;
    match make(&making, entries, table, rules) {
        Ok(store) => {
            let before = *words;
            pack(&store, words);
            if rules.has(Alteration::MakingLeavesParticipants) {
                words[WORDS_BEFORE..].copy_from_slice(&before[WORDS_BEFORE..]);
            }
            Ok(Reply::Made)
        }
        Err(refusal) => {
            if rules.has(Alteration::RefusedMakingClears) {
                words.fill(0);
            }
            Err(refusal)
        }
    }
}

fn call_lent(words: &mut [u64; WORDS], entries: &mut [Pitch], call: &Call, rules: Rules) -> Reply {
    let before = rules.has(Alteration::KindsBeforeInWords);
    let Some(kind) = kind(words[KIND], before) else {
        return Reply::Refused(1);
    };
    let mut store = unpack_as(kind, words);
    let reply = store.call(entries, call, rules);
    if reply.accepted() {
        pack(&store, words);
    }
    reply
}
