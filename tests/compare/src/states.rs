//! Part 2: stores put together by hand. They are undamaged in any mixture of
//! places, or have some words changed, or one number at a border of the
//! damage test.

use crate::borders::{border_case, TRIALS};
use crate::both::{Both, Stop, MOST_ENTRIES};
use crate::undamaged::{undamaged, Case};
use second::call::calls;
use second::damage::{Clause, CLAUSES};
use second::layout::{pack, pair_at, publisher_at, reader_at, step_at, HEAD, WORDS};
use second::random::Random;
use second::rules::Rules;
use second::store::{Kind, Pitch, KINDS};
use second::turns::{any_call, call_by, call_named, in_turn, some_actor, RestPoints};

/// Goes over every kind, clause and trial in turn.
pub struct States {
    cell: usize,
    entries: Vec<Pitch>,
}

impl States {
    pub fn new(random: &mut Random) -> States {
        let mut entries = vec![0; MOST_ENTRIES];
        entries.fill_with(|| random.word() as Pitch);
        States { cell: 0, entries }
    }

    /// One store, with a list of calls or with each call once.
    pub fn play(&mut self, both: &mut Both, random: &mut Random) -> Result<(), Stop> {
        match random.below(5) {
            0 | 1 => {
                both.part = "a store put together by hand";
                self.play_undamaged(both, false, random)
            }
            2 => {
                both.part = "a store with some words changed";
                self.play_undamaged(both, true, random)
            }
            _ => {
                both.part = "a store with a number at a border";
                self.play_border(both, random)
            }
        }
    }

    fn play_undamaged(
        &mut self,
        both: &mut Both,
        changed: bool,
        random: &mut Random,
    ) -> Result<(), Stop> {
        let kind = random.pick(&KINDS);
        let (calm, tidy) = (random.one_in(4), random.one_in(4));
        let case = undamaged(kind, calm, tidy, random);
        lend(both, &case, &self.entries);
        if changed {
            change_words(both, random);
        }
        for _ in 0..12 {
            let Some(words) = both.words() else { break };
            let call = if random.one_in(3) {
                any_call(words, random)
            } else {
                let actor = some_actor(words, 3, random);
                in_turn(words, actor, RestPoints::OFTEN, random)
            };
            both.call(&call)?;
        }
        Ok(())
    }

    fn play_border(&mut self, both: &mut Both, random: &mut Random) -> Result<(), Stop> {
        let (kind, clause, trial) = self.next_cell();
        let (case, name) = border_case(kind, clause, trial, random);
        let alone = case
            .store
            .clauses(case.length, Rules::AS_WRITTEN)
            .only(clause);
        if case.as_meant(clause, trial) {
            both.seen.note_border(kind, clause, trial);
        }
        for call in calls() {
            lend(both, &case, &self.entries);
            let Some(words) = both.words() else { break };
            let call = match random.below(4) {
                0 => call_named(call, words, random),
                _ => call_by(call, name, words, random),
            };
            both.call(&call)?;
            if alone {
                both.seen.note_alone(kind, clause, &call);
            }
        }
        Ok(())
    }

    fn next_cell(&mut self) -> (Kind, Clause, usize) {
        loop {
            let cell = self.cell;
            self.cell += 1;
            let trial = cell % TRIALS;
            let clause = CLAUSES[cell / TRIALS % CLAUSES.len()];
            let kind = KINDS[cell / TRIALS / CLAUSES.len() % KINDS.len()];
            if clause.of(kind) {
                return (kind, clause, trial);
            }
        }
    }
}

/// Changes one to three words of the store that is lent, any of them.
fn change_words(both: &mut Both, random: &mut Random) {
    let Some(words) = both.words() else { return };
    let mut words = *words;
    for _ in 0..1 + random.below(3) {
        // The head and the first records count in every store.
        let word = match random.below(6) {
            0 => random.below(HEAD as u64) as usize,
            1 => reader_at(0) + random.below(10) as usize,
            2 => publisher_at(0) + random.below(12) as usize,
            3 => step_at(0) + random.below(4) as usize,
            4 => pair_at(random.below(2) as usize, 0) + random.below(16) as usize,
            _ => random.below(WORDS as u64) as usize,
        };
        let number = &mut words[word];
        *number = match random.below(4) {
            0 => number.wrapping_add(1),
            1 => number.wrapping_sub(1),
            2 => random.below(40),
            _ => random.anything(),
        };
    }
    both.set_words(&words);
}

fn lend(both: &mut Both, case: &Case, entries: &[Pitch]) {
    let mut words = [0; WORDS];
    pack(&case.store, &mut words);
    both.set_words(&words);
    both.set_entries(&entries[..case.length.min(MOST_ENTRIES)]);
}
