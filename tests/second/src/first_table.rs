//! The first table, lent to making: which one is refused, and how the
//! entries of a fresh store are filled with it.

use crate::call::Refusal;
use crate::rules::{Alteration, Rules};
use crate::store::{
    Pitch, FEATHERED, HIGH_BEFORE, LOW_BEFORE, PITCH_HIGH, PITCH_LOW, STEP_BEFORE, STEP_MOST, TABLE,
};
use std::borrow::Cow;

/// 40, 41 and 42, in this order: every entry is tested before any pair.
pub fn refuse(table: &[Pitch], rules: Rules) -> Result<(), Refusal> {
    if rules.has(Alteration::TablePitchFirst) {
        refuse_pitches(table, rules)?;
    }
    refuse_length(table, rules)?;
    let table = taken(table, rules);
    if rules.has(Alteration::TableStepFirst) {
        refuse_steps(&table, rules)?;
    }
    if rules.has(Alteration::TableTestedInTurn) {
        for end in 1..=TABLE {
            refuse_pitches(&table[..end], rules)?;
            refuse_steps(&table[..end], rules)?;
        }
    }
    refuse_pitches(&table, rules)?;
    refuse_steps(&table, rules)
}

/// 40 if the table has not 32 entries.
pub fn refuse_length(table: &[Pitch], rules: Rules) -> Result<(), Refusal> {
    match taken(table, rules).len() {
        TABLE => Ok(()),
        _ => Err(Refusal(40)),
    }
}

/// The table that is tested and filled in. It is the one lent.
fn taken(table: &[Pitch], rules: Rules) -> Cow<'_, [Pitch]> {
    match (table, table.len()) {
        (_, 33) if rules.has(Alteration::Table33Taken) => Cow::Borrowed(&table[..TABLE]),
        ([.., last], 31) if rules.has(Alteration::Table31Taken) => {
            Cow::Owned([table, &[*last]].concat())
        }
        ([], _) if rules.has(Alteration::EmptyTableTaken) => Cow::Owned(vec![FEATHERED; TABLE]),
        _ => Cow::Borrowed(table),
    }
}

/// 41 if an entry is out of range.
fn refuse_pitches(table: &[Pitch], rules: Rules) -> Result<(), Refusal> {
    let low = if rules.has(Alteration::TableFrom5001) {
        PITCH_LOW - 1
    } else if rules.has(Alteration::TableFrom500) {
        LOW_BEFORE
    } else {
        PITCH_LOW
    };
    let high = if rules.has(Alteration::TableTo94999) {
        PITCH_HIGH - 1
    } else if rules.has(Alteration::TableTo9500) {
        HIGH_BEFORE
    } else {
        PITCH_HIGH
    };
    let tested = match rules.has(Alteration::LastTablePitchUntested) {
        true => TABLE - 1,
        false => TABLE,
    };
    let narrow = rules.has(Alteration::TablePitchBy16Bits);
    let mut tested = narrowed_if(narrow, &table[..tested.min(table.len())]).into_iter();
    match tested.all(|entry| (low..=high).contains(&entry)) {
        true => Ok(()),
        false => Err(Refusal(41)),
    }
}

/// 42 if two neighbours differ by more than 15000.
fn refuse_steps(table: &[Pitch], rules: Rules) -> Result<(), Refusal> {
    let mut pairs: Vec<(Pitch, Pitch)> = table.windows(2).map(|pair| (pair[0], pair[1])).collect();
    if rules.has(Alteration::FirstPairUntested) && !pairs.is_empty() {
        pairs.remove(0);
    }
    if rules.has(Alteration::LastPairUntested) {
        pairs.truncate(TABLE - 2);
    }
    if let (true, [first, .., last]) = (rules.has(Alteration::PairAroundTested), table) {
        pairs.push((*last, *first));
    }
    match pairs.iter().any(|&(one, next)| steep(one, next, rules)) {
        true => Err(Refusal(42)),
        false => Ok(()),
    }
}

/// Wider than a pitch, so that no difference overflows.
fn steep(one: Pitch, next: Pitch, rules: Rules) -> bool {
    let step = match i64::from(next) - i64::from(one) {
        step if rules.has(Alteration::StepBy16Bits) => i64::from(step as i16),
        step => step,
    };
    let most = i64::from(if rules.has(Alteration::Step15000Refused) {
        STEP_MOST - 1
    } else if rules.has(Alteration::Step15001Taken) {
        STEP_MOST + 1
    } else if rules.has(Alteration::Step1501Refused) {
        STEP_BEFORE
    } else {
        STEP_MOST
    });
    if rules.has(Alteration::StepsUpOnly) {
        step > most
    } else if rules.has(Alteration::StepsDownOnly) {
        step < -most
    } else {
        step.abs() > most
    }
}

/// The entries, or the low 16 bits of each.
fn narrowed_if(narrow: bool, entries: &[Pitch]) -> Vec<Pitch> {
    let narrowed = |&entry: &Pitch| Pitch::from(entry as i16);
    match narrow {
        true => entries.iter().map(narrowed).collect(),
        false => entries.to_vec(),
    }
}

/// Fills each slot with the table, which is not refused.
pub fn fill(entries: &mut [Pitch], table: &[Pitch], rules: Rules) {
    let table = match taken(table, rules) {
        _ if rules.has(Alteration::FreshEntriesZero) => Cow::Owned(vec![0; TABLE]),
        _ if rules.has(Alteration::FreshFeathered) => Cow::Owned(vec![FEATHERED; TABLE]),
        table if rules.has(Alteration::FreshBy16Bits) => Cow::Owned(narrowed_if(true, &table)),
        table if rules.has(Alteration::FreshFirstEntry) => Cow::Owned(vec![table[0]; TABLE]),
        table => table,
    };
    let slots = entries.len() / TABLE;
    let filled = if rules.has(Alteration::FreshSlotZeroOnly) {
        1
    } else if rules.has(Alteration::FreshLastSlotLeft) {
        slots - 1
    } else {
        slots
    };
    for slot in entries.chunks_exact_mut(TABLE).take(filled) {
        slot.copy_from_slice(&table);
    }
}
