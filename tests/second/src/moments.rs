//! A rest store's participants as the calls tell them, by moments.
//!
//! A moment is the number of a call in its list, and the making is moment 0.
//! No epoch is counted here. Who observes the epoch of a moment has seen each
//! raise up to that moment, and none after it. So a checkpoint frees a slot
//! if it has read of every participant a moment not before the slot's own
//! raise, which is the DEFER that replied 35.

use crate::layout::{pair_at, step_at, WORDS};

pub type Moment = u64;

/// A deferred slot and the moment of its raise.
#[derive(Clone, Copy, Debug)]
struct Deferred {
    slot: u64,
    raise: Moment,
    /// It stayed at the last checkpoint, which had read some participant
    /// before that one observed a moment late enough.
    read_too_early: bool,
}

#[derive(Clone, Default)]
struct Participant {
    /// The step that its checkpoint has come to, 0 outside one.
    step: u64,
    /// The moment of its last CHECKPOINT that replied 1.
    loaded: Moment,
    /// The moment whose epoch it observed last.
    observed: Moment,
    /// The earliest of the observed moments that its checkpoint has read.
    earliest: Moment,
    /// The moment of its DEFER that replied 35, until it queues its slot.
    raise: Option<Moment>,
    deferred: Vec<Deferred>,
}

/// What a last CHECKPOINT did with its participant's deferred slots.
#[derive(Clone, PartialEq, Eq, Debug, Default)]
pub struct Freeing {
    pub freed: Vec<u64>,
    pub staying: Vec<u64>,
    /// Some slot was read too early at the checkpoint before, and is freed.
    pub after_too_early: bool,
}

#[derive(Clone)]
pub struct Moments {
    now: Moment,
    participants: Vec<Participant>,
}

impl Moments {
    pub fn fresh(participants: usize) -> Moments {
        Moments {
            now: 0,
            participants: vec![Participant::default(); participants],
        }
    }

    /// The next call of the list, accepted or refused.
    pub fn next_call(&mut self) {
        self.now += 1;
    }

    /// A CHECKPOINT that replied with this step. The last one tells which
    /// slots it freed.
    pub fn checkpoint(&mut self, r: usize, step: u64) -> Result<Option<Freeing>, String> {
        let now = self.now;
        let last = self.participants.len() as u64 + 2;
        let before = self.participants[r].step;
        if step != before + 1 {
            return Err(format!("CHECKPOINT replied {step} after {before}"));
        }
        self.participants[r].step = if step == last { 0 } else { step };
        match step {
            1 => self.participants[r].loaded = now,
            2 => self.participants[r].observed = self.participants[r].loaded,
            _ => self.read(r, step as usize - 3),
        }
        Ok((step == last).then(|| self.free(r)))
    }

    /// The first read begins a least of its own.
    fn read(&mut self, r: usize, whom: usize) {
        let read = self.participants[whom].observed;
        let reads = &mut self.participants[r];
        reads.earliest = match whom {
            0 => read,
            _ => reads.earliest.min(read),
        };
    }

    fn free(&mut self, r: usize) -> Freeing {
        let observed = self.participants.iter().map(|other| other.observed);
        let earliest_now = observed.min().unwrap_or(0);
        let participant = &mut self.participants[r];
        let earliest = participant.earliest;
        let mut freeing = Freeing::default();
        participant.deferred.retain_mut(|deferred| {
            if deferred.raise <= earliest {
                freeing.freed.push(deferred.slot);
                freeing.after_too_early |= deferred.read_too_early;
                return false;
            }
            freeing.staying.push(deferred.slot);
            deferred.read_too_early = deferred.raise <= earliest_now;
            true
        });
        freeing
    }

    /// A DEFER that replied 35.
    pub fn raise(&mut self, p: usize) -> Result<(), String> {
        let participant = &mut self.participants[p];
        match participant.raise.replace(self.now) {
            None => Ok(()),
            Some(_) => Err("two DEFERs in turn replied 35".to_string()),
        }
    }

    /// A DEFER that replied 0, by the participant that holds this slot.
    pub fn queue(&mut self, p: usize, slot: u64) -> Result<(), String> {
        let participant = &mut self.participants[p];
        let raise = participant.raise.take();
        let raise = raise.ok_or("a DEFER replied 0 without one that replied 35")?;
        participant.observed = raise;
        participant.deferred.push(Deferred {
            slot,
            raise,
            read_too_early: false,
        });
        Ok(())
    }

    /// The slots that p has deferred, in the order in which it did.
    pub fn deferred(&self, p: usize) -> impl Iterator<Item = u64> + '_ {
        let participant = self.participants.get(p).into_iter();
        participant
            .flat_map(|participant| &participant.deferred)
            .map(|deferred| deferred.slot)
    }

    /// The slots that anybody has deferred.
    pub fn all_deferred(&self) -> impl Iterator<Item = u64> + '_ {
        (0..self.participants.len()).flat_map(|p| self.deferred(p))
    }

    pub fn inside_checkpoint(&self, p: usize) -> bool {
        self.participants[p].step != 0
    }

    /// Whether p has raised the epoch and not yet queued its slot.
    pub fn raised(&self, p: usize) -> bool {
        self.participants[p].raise.is_some()
    }

    /// Whether another raised before p, and has not queued its slot.
    pub fn raised_before(&self, p: usize) -> bool {
        let mine = self.participants[p].raise;
        let mut others = self.participants.iter();
        others.any(|other| other.raise.is_some_and(|raise| Some(raise) < mine))
    }

    /// Whether anybody raised the epoch since p loaded it.
    pub fn raised_since_loaded(&self, p: usize) -> bool {
        let loaded = self.participants[p].loaded;
        let queued = |other: &Participant| other.deferred.iter().any(|d| d.raise > loaded);
        let mut others = self.participants.iter();
        others.any(|other| other.raise.is_some_and(|raise| raise > loaded) || queued(other))
    }

    /// The store records steps and deferred slots as the calls told them.
    pub fn recorded(&self, words: &[u64; WORDS]) -> Result<(), String> {
        for (p, participant) in self.participants.iter().enumerate() {
            let (step, count) = (words[step_at(p)], words[step_at(p) + 1]);
            if step != participant.step {
                let told = participant.step;
                return Err(format!("the calls told step {told} of participant {p}"));
            }
            let told: Vec<u64> = self.deferred(p).collect();
            let pairs = (0..told.len()).map(|i| words[pair_at(p, i)]);
            if count != told.len() as u64 || !pairs.eq(told.iter().copied()) {
                return Err(format!(
                    "the calls told that participant {p} deferred {told:?}"
                ));
            }
        }
        Ok(())
    }
}
