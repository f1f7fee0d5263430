//! Making a store.

use crate::call::{Call, Refusal};
use crate::first_table;
use crate::rules::{Alteration, Rules};
use crate::store::{
    Kind, Participant, Pitch, Publisher, Reader, Store, MOST_PUBLISHERS, MOST_READERS, MOST_SLOTS,
    NOT_READING, OLD_LAST_BEFORE, TABLE,
};

/// What a making is given, besides the lent slices.
#[derive(Clone, Copy, PartialEq, Eq, Debug)]
pub struct Making {
    pub kind: Kind,
    pub readers: u16,
    pub publishers: u16,
    pub slots: u16,
    pub version: u64,
}

impl Making {
    /// The making that a call asks for; none if no kind has its number.
    pub fn of(call: &Call) -> Option<Making> {
        Making::by(call, Kind::from_number)
    }

    /// The making with the kind that this gives for its number.
    pub fn by(call: &Call, named: impl Fn(u64) -> Option<Kind>) -> Option<Making> {
        let Call::Make {
            kind,
            readers,
            publishers,
            slots,
            version,
        } = *call
        else {
            return None;
        };
        Some(Making {
            kind: named(u64::from(kind))?,
            readers,
            publishers,
            slots,
            version,
        })
    }
}

/// A fresh store, or a refusal that leaves the entries as lent. The first
/// table is lent to be read alone.
pub fn make(
    making: &Making,
    entries: &mut [Pitch],
    table: &[Pitch],
    rules: Rules,
) -> Result<Store, Refusal> {
    refuse(making, entries.len(), table, rules)?;
    first_table::fill(entries, table, rules);
    Ok(Store {
        kind: making.kind,
        readers: u64::from(making.readers),
        publishers: u64::from(making.publishers),
        slots: u64::from(making.slots),
        current: 0,
        version: making.version,
        releases: 0,
        indicators: [0, 0],
        reader: fresh_readers(making, rules),
        publisher: [Publisher::default(); MOST_PUBLISHERS],
        participant: std::array::from_fn(|_| Participant::fresh()),
    })
}

fn refuse(making: &Making, length: usize, table: &[Pitch], rules: Rules) -> Result<(), Refusal> {
    let late_version =
        first_version_limit(making.kind, rules).is_some_and(|limit| making.version > limit);
    let wrong_length = length != usize::from(making.slots) * TABLE;
    if rules.has(Alteration::MakingVersionFirst) && late_version {
        return Err(Refusal(6));
    }
    if rules.has(Alteration::MakingLengthFirst) && wrong_length {
        return Err(Refusal(5));
    }
    if rules.has(Alteration::TableLengthFirst) {
        first_table::refuse_length(table, rules)?;
    }
    refuse_sizes(making, rules)?;
    if wrong_length {
        return Err(Refusal(5));
    }
    if rules.has(Alteration::TableLengthBeforeVersion) {
        first_table::refuse_length(table, rules)?;
    }
    if late_version {
        return Err(Refusal(6));
    }
    first_table::refuse(table, rules)
}

fn refuse_sizes(making: &Making, rules: Rules) -> Result<(), Refusal> {
    let most_readers = if rules.has(Alteration::Making65Readers) {
        65
    } else {
        MOST_READERS
    };
    let fewest_slots = if rules.has(Alteration::MakingOneSlot) {
        1
    } else {
        2
    };
    if rules.has(Alteration::UnequalFirst) {
        refuse_unequal(making, rules)?;
    }
    if !(1..=most_readers).contains(&usize::from(making.readers)) {
        return Err(Refusal(2));
    }
    if !(1..=MOST_PUBLISHERS).contains(&usize::from(making.publishers)) {
        return Err(Refusal(3));
    }
    if !rules.has(Alteration::UnequalAfterSlots) {
        refuse_unequal(making, rules)?;
    }
    if !(fewest_slots..=MOST_SLOTS).contains(&usize::from(making.slots)) {
        return Err(Refusal(4));
    }
    refuse_unequal(making, rules)
}

/// 3 if a rest store has not as many publishers as readers.
fn refuse_unequal(making: &Making, rules: Rules) -> Result<(), Refusal> {
    let asks = match making.kind {
        Kind::New | Kind::Old => rules.has(Alteration::UnequalRefusedInAll),
        Kind::Rest => !rules.has(Alteration::UnequalMade),
    };
    match asks && making.readers != making.publishers {
        true => Err(Refusal(3)),
        false => Ok(()),
    }
}

/// The highest first version; none if there is no limit.
fn first_version_limit(kind: Kind, rules: Rules) -> Option<u64> {
    match kind {
        Kind::New if rules.has(Alteration::NewNever6) => None,
        Kind::Old if rules.has(Alteration::Old6AboveSigned) => Some(OLD_LAST_BEFORE),
        Kind::New | Kind::Old | Kind::Rest if rules.has(Alteration::MakingBelowLast) => {
            kind.last().map(|last| last - 1)
        }
        Kind::New | Kind::Old | Kind::Rest => kind.last(),
    }
}

/// All 64 records are fresh, whatever the number of readers. The first epoch
/// of a rest store is observed by all.
fn fresh_readers(making: &Making, rules: Rules) -> [Reader; MOST_READERS] {
    let published = match making.kind {
        Kind::New if rules.has(Alteration::FreshNewPublishedZero) => 0,
        Kind::Old if rules.has(Alteration::FreshOldPublishedZero) => 0,
        Kind::New | Kind::Old => NOT_READING,
        Kind::Rest if rules.has(Alteration::FreshObservedZero) => 0,
        Kind::Rest if rules.has(Alteration::FreshObservedNotReading) => NOT_READING,
        Kind::Rest => making.version,
    };
    let mut records = [Reader {
        published,
        ..Reader::default()
    }; MOST_READERS];
    if rules.has(Alteration::FreshWithinSizeOnly) {
        for record in records.iter_mut().skip(usize::from(making.readers)) {
            record.published = 0;
        }
    }
    records
}
