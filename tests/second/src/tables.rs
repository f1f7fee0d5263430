//! Random first tables: good ones, and ones at a border of a refusal.

use crate::random::Random;
use crate::store::{Pitch, FEATHERED, PITCHES, PITCH_HIGH, PITCH_LOW, STEP_MOST, TABLE};

/// How many pairs of neighbours a table has.
pub const PAIRS: usize = TABLE - 1;

/// A table that making takes.
pub fn good(random: &mut Random) -> Vec<Pitch> {
    match random.below(8) {
        0 => vec![FEATHERED; TABLE],
        1 => vec![any_in_range(random); TABLE],
        _ => {
            let (from, entry) = (random.below(TABLE as u64) as usize, any_in_range(random));
            around(from, entry, random)
        }
    }
}

/// A table of one step at the pair of this number, and good steps beside it.
/// Both entries of the pair are in range.
pub fn with_step(pair: usize, step: Pitch, random: &mut Random) -> Vec<Pitch> {
    let room = PITCHES - u64::from(step.unsigned_abs());
    let lower = PITCH_LOW + random.below(room) as Pitch;
    let one = if step < 0 { lower - step } else { lower };
    let before = around(pair, one, random);
    let after = around(pair + 1, one + step, random);
    [&before[..=pair], &after[pair + 1..]].concat()
}

/// A table with this entry at this place, and good steps beside it as far as
/// the range allows.
pub fn with_entry(place: usize, entry: Pitch, random: &mut Random) -> Vec<Pitch> {
    let mut table = around(place, entry.clamp(PITCH_LOW, PITCH_HIGH), random);
    table[place] = entry;
    table
}

/// A table of another length than 32, with anything in it.
pub fn of_length(length: usize, random: &mut Random) -> Vec<Pitch> {
    let mut table = good(random);
    while table.len() < length {
        table.extend_from_within(..);
    }
    table.truncate(length);
    if let (true, Some(last)) = (random.one_in(2), table.last_mut()) {
        *last = some_end(random);
    }
    table
}

/// A table that is refused for an entry and for a pair too, each anywhere.
pub fn doubly_wrong(random: &mut Random) -> Vec<Pitch> {
    let step = (STEP_MOST + 1) * random.pick(&[1, -1]);
    let mut table = with_step(random.below(PAIRS as u64) as usize, step, random);
    table[random.below(TABLE as u64) as usize] = some_end(random);
    table
}

/// Any table: most often a good one.
pub fn any(random: &mut Random) -> Vec<Pitch> {
    let pair = random.below(PAIRS as u64) as usize;
    let place = random.below(TABLE as u64) as usize;
    match random.below(16) {
        0 => of_length(random.pick(&[0, 1, 31, 33, 64]), random),
        1 => of_length(random.below(80) as usize, random),
        2 => with_entry(place, some_end(random), random),
        3 => {
            let step = random.pick(&[STEP_MOST, STEP_MOST + 1, 30_000, 1 << 16, 100_000]);
            let step = step * random.pick(&[1, -1]);
            with_step(pair, step, random)
        }
        4 => doubly_wrong(random),
        5 => (0..TABLE).map(|_| random.word() as Pitch).collect(),
        _ => good(random),
    }
}

fn any_in_range(random: &mut Random) -> Pitch {
    random.below(PITCHES) as Pitch + PITCH_LOW
}

/// Pitches just outside the range, just inside it, and far outside.
pub const ENDS: [Pitch; 6] = [
    PITCH_LOW - 1,
    PITCH_LOW,
    PITCH_HIGH,
    PITCH_HIGH + 1,
    Pitch::MIN,
    Pitch::MAX,
];

/// Pitches that hundredths or 16 bits would take for others, two of them out
/// of range.
pub const NARROW: [Pitch; 6] = [-501, 9501, 32_768, 65_536, 131_072, -65_536];

fn some_end(random: &mut Random) -> Pitch {
    random.pick(&ENDS)
}

/// A good table with this entry, which is in range, at this place.
fn around(place: usize, entry: Pitch, random: &mut Random) -> Vec<Pitch> {
    let most = random.pick(&[0, 1, 1000, 7000, STEP_MOST, STEP_MOST]);
    let mut next = |entry: Pitch| {
        let step = match random.below(4) {
            0 => most,
            1 => -most,
            _ => random.below(2 * most as u64 + 1) as Pitch - most,
        };
        (entry + step).clamp(PITCH_LOW, PITCH_HIGH)
    };
    let mut table = vec![entry; TABLE];
    for k in place + 1..TABLE {
        table[k] = next(table[k - 1]);
    }
    for k in (0..place).rev() {
        table[k] = next(table[k + 1]);
    }
    table
}

#[cfg(test)]
mod tests {
    use super::*;
    use crate::call::Refusal;
    use crate::first_table::refuse;
    use crate::rules::Rules;

    fn refused(table: &[Pitch]) -> Option<u64> {
        let refused = refuse(table, Rules::AS_WRITTEN);
        refused.err().map(|Refusal(number)| number)
    }

    #[test]
    fn tables_are_what_they_are_called() {
        let mut random = Random::from_seed(8);
        for round in 0..2000 {
            assert_eq!(refused(&good(&mut random)), None);
            for (step, due) in [
                (15_000, None),
                (-15_000, None),
                (15_001, Some(42)),
                (-15_001, Some(42)),
                (65_536, Some(42)),
                (-100_000, Some(42)),
            ] {
                let table = with_step(round % PAIRS, step, &mut random);
                let (one, next) = (table[round % PAIRS], table[round % PAIRS + 1]);
                assert_eq!(next - one, step);
                assert_eq!(refused(&table), due, "{table:?}");
            }
            for (entry, due) in [
                (-5001, Some(41)),
                (-5000, None),
                (95_000, None),
                (95_001, Some(41)),
                (65_536, None),
                (131_072, Some(41)),
            ] {
                let table = with_entry(round % TABLE, entry, &mut random);
                assert_eq!(table[round % TABLE], entry);
                assert_eq!(refused(&table), due, "{table:?}");
            }
            let length = round % 70;
            let other = (length != TABLE).then_some(40);
            assert!(other.is_none() || refused(&of_length(length, &mut random)) == other);
        }
        let wrong: Vec<_> = (0..200)
            .map(|_| refused(&doubly_wrong(&mut random)))
            .collect();
        assert!(wrong.contains(&Some(41)) && wrong.contains(&Some(42)));
    }
}
