//! PICK, CHECKPOINT and DEFER, the rest store's own calls.
//!
//! A participant is the reader and the publisher of one number.

use crate::call::{Answer, Refusal, Reply};
use crate::rules::{Alteration, Rules};
use crate::store::{Deferred, Store, MOST_DEFERRED, MOST_PUBLISHERS};

impl Store {
    /// The place of r's publisher and the step of its checkpoint. An altered
    /// damage test can let a reader through that is no participant.
    fn turn_of(&self, r: usize) -> (u64, u64) {
        match r {
            0..MOST_PUBLISHERS => (self.publisher[r].place, self.participant[r].step),
            _ => (0, 0),
        }
    }

    pub fn pick(&mut self, r: u16, rules: Rules) -> Answer {
        let r = self.reader_named(r)?;
        let (place, step) = self.turn_of(r);
        let again = self.reader[r].place == 5;
        let refused = [
            step != 0 && !rules.has(Alteration::PicksInCheckpoint),
            place == 35 && !rules.has(Alteration::PicksAt35),
            again && rules.has(Alteration::PickRefusedAtFive),
        ];
        if refused.contains(&true) {
            return Err(Refusal(20));
        }
        let slot = if rules.has(Alteration::PicksSlotZero) {
            0
        } else if again && rules.has(Alteration::PickKeepsFormer) {
            self.reader[r].picked
        } else {
            self.current
        };
        let reader = &mut self.reader[r];
        reader.place = 5;
        reader.picked = slot;
        if rules.has(Alteration::PickObserves) {
            reader.published = self.version;
        }
        if rules.has(Alteration::PickRepliesPlace) {
            return Ok(Reply::At(5));
        }
        Ok(Reply::Picked(slot))
    }

    pub fn checkpoint(&mut self, r: u16, rules: Rules) -> Answer {
        let r = self.reader_named(r)?;
        let (place, before) = self.turn_of(r);
        if place == 35 && !rules.has(Alteration::CheckpointsAt35) {
            return Err(Refusal(20));
        }
        let step = before.wrapping_add(1);
        let last = self.readers + 2;
        match step {
            1 => self.load_epoch(r, rules),
            2 => self.observe(r, rules),
            _ => self.read_observed(r, step, rules),
        }
        if let Some(participant) = self.participant.get_mut(r) {
            participant.step = if step < last { step } else { 0 };
        }
        Ok(Reply::At(step))
    }

    /// The first step: the pick is dropped, and the epoch loaded.
    fn load_epoch(&mut self, r: usize, rules: Rules) {
        let reader = &mut self.reader[r];
        if !rules.has(Alteration::CheckpointKeepsPick) {
            reader.place = 0;
        }
        if rules.has(Alteration::CheckpointClearsPicked) {
            reader.picked = 0;
        }
        reader.first = self.version;
        if rules.has(Alteration::ObservesAtOnce) {
            reader.published = self.version;
        }
    }

    /// The second step: the loaded epoch is stored as observed.
    fn observe(&mut self, r: usize, rules: Rules) {
        let reader = &mut self.reader[r];
        reader.published = if rules.has(Alteration::ObservesEpochOfNow) {
            self.version
        } else {
            reader.first
        };
    }

    /// A later step reads one observed epoch; the last one frees too.
    fn read_observed(&mut self, r: usize, step: u64, rules: Rules) {
        let is_last = step >= self.readers + 2;
        let least_before = self.reader[r].second;
        if !(is_last && rules.has(Alteration::LastReadLeftOut)) {
            let read = self.observed_at(r, step, rules);
            let starts = step == 3 && !rules.has(Alteration::LeastNotRestarted);
            self.reader[r].second = if starts {
                read
            } else if rules.has(Alteration::GreatestRead) {
                least_before.max(read)
            } else {
                least_before.min(read)
            };
        }
        if is_last {
            let least = if rules.has(Alteration::FreesByLeastBefore) {
                least_before
            } else {
                self.reader[r].second
            };
            self.free_deferred(r, least, rules);
        }
    }

    /// The epoch that this step reads: participant 0's at step 3, and so on.
    fn observed_at(&self, r: usize, step: u64, rules: Rules) -> u64 {
        let whom = if rules.has(Alteration::ReadsOwnObserved) {
            r as u64
        } else if rules.has(Alteration::ReadsFromTheLast) {
            (self.readers + 2).saturating_sub(step)
        } else {
            step - 3
        };
        let reader = usize::try_from(whom).ok().and_then(|n| self.reader.get(n));
        reader.map_or(0, |reader| {
            if rules.has(Alteration::ReadsLoaded) {
                reader.first
            } else {
                reader.published
            }
        })
    }

    /// Frees r's deferred slots whose mark is at most the least epoch read.
    fn free_deferred(&mut self, r: usize, least: u64, rules: Rules) {
        let whose = match r {
            _ if rules.has(Alteration::FreesOfOthers) => 0..self.present_participants().len(),
            0..MOST_PUBLISHERS => r..r + 1,
            _ => 0..0,
        };
        for p in whose {
            let freed = self.free_of(p, least, rules);
            if rules.has(Alteration::CheckpointReleases) {
                self.releases = self.releases.wrapping_add(freed as u64);
            }
        }
    }

    /// The slots that stay move down in their order. What stands behind them
    /// is what stood there before. Hands back how many were freed.
    fn free_of(&mut self, p: usize, least: u64, rules: Rules) -> usize {
        let participant = &mut self.participant[p];
        let before = participant.deferred.clone();
        let stays = staying(&before, least, rules);
        let mut behind = before[stays.len()..].to_vec();
        behind.append(&mut participant.behind);
        if rules.has(Alteration::BehindCleared) {
            behind.fill(Deferred::default());
        }
        let freed = before.len() - stays.len();
        participant.deferred = stays;
        participant.behind = behind;
        freed
    }

    pub fn defer(&mut self, p: u16, rules: Rules) -> Answer {
        let p = self.publisher_named(p)?;
        if rules.has(Alteration::LastEpochBeforeTurn) {
            self.refuse_last_epoch(rules)?;
        }
        if rules.has(Alteration::EightBeforeTurn) {
            self.refuse_ninth(p, rules)?;
        }
        let inside = self.participant[p].step != 0;
        if inside && !rules.has(Alteration::DefersInCheckpoint) {
            return Err(Refusal(21));
        }
        match self.publisher[p].place {
            34 => self.raise_epoch(p, rules),
            35 => Ok(self.queue(p, rules)),
            33 if rules.has(Alteration::DefersAt33) => self.raise_epoch(p, rules),
            _ => Err(Refusal(21)),
        }
    }

    /// Refusal 43 if the epoch is the last number.
    fn refuse_last_epoch(&self, rules: Rules) -> Result<(), Refusal> {
        let early = self.version == u64::MAX - 1 && rules.has(Alteration::LastEpochEarly);
        if self.version != u64::MAX && !early || rules.has(Alteration::EpochWraps) {
            return Ok(());
        }
        Err(Refusal(match rules.has(Alteration::NumbersExchanged) {
            true => 44,
            false => 43,
        }))
    }

    /// Refusal 44 if p has deferred eight slots already.
    fn refuse_ninth(&self, p: usize, rules: Rules) -> Result<(), Refusal> {
        let most = match rules.has(Alteration::EighthRefused) {
            true => MOST_DEFERRED - 1,
            false => MOST_DEFERRED,
        };
        if self.participant[p].deferred.len() < most || rules.has(Alteration::NinthDeferred) {
            return Ok(());
        }
        Err(Refusal(match rules.has(Alteration::NumbersExchanged) {
            true => 43,
            false => 44,
        }))
    }

    /// From 34 to 35: the pick is dropped and the epoch raised by one. The
    /// raised value is kept as the mark.
    fn raise_epoch(&mut self, p: usize, rules: Rules) -> Answer {
        if rules.has(Alteration::EightBeforeLastEpoch) {
            self.refuse_ninth(p, rules)?;
        }
        self.refuse_last_epoch(rules)?;
        self.refuse_ninth(p, rules)?;
        let before = self.version;
        let raised = before.wrapping_add(1);
        if !rules.has(Alteration::EpochNotRaised) {
            self.version = raised;
        }
        if !rules.has(Alteration::DeferKeepsPick) {
            self.reader[p].place = 0;
        }
        if rules.has(Alteration::DeferObservesAtOnce) {
            self.reader[p].published = raised;
        }
        let publisher = &mut self.publisher[p];
        publisher.walk.mark = if rules.has(Alteration::MarkBeforeRaise) {
            before
        } else {
            raised
        };
        publisher.place = 35;
        Ok(Reply::At(35))
    }

    /// From 35 to 0: the mark is observed, and the slot queued with it.
    fn queue(&mut self, p: usize, rules: Rules) -> Reply {
        let publisher = &mut self.publisher[p];
        let mark = publisher.walk.mark;
        publisher.place = 0;
        let mut queued = Deferred {
            slot: publisher.held,
            mark,
        };
        if rules.has(Alteration::DeferClearsHeld) {
            publisher.held = 0;
        }
        if rules.has(Alteration::QueuesCurrent) {
            queued.slot = self.current;
        }
        if rules.has(Alteration::QueuesEpochOfNow) {
            queued.mark = self.version;
        }
        if rules.has(Alteration::DeferObservesEpochOfNow) {
            self.reader[p].published = self.version;
        } else if !rules.has(Alteration::DeferKeepsObserved) {
            self.reader[p].published = mark;
        }
        let participant = &mut self.participant[p];
        if rules.has(Alteration::CountNotRaised) {
            if let Some(first) = participant.behind.first_mut() {
                *first = queued;
            }
            return Reply::At(0);
        }
        let front = rules.has(Alteration::QueuesAtFront);
        let at = if front { 0 } else { participant.deferred.len() };
        participant.deferred.insert(at, queued);
        participant.behind.drain(..1.min(participant.behind.len()));
        Reply::At(0)
    }

    /// Whether some participant has deferred this slot. The one named asks.
    pub fn is_deferred(&self, slot: u64, asks: usize, rules: Rules) -> bool {
        let all = match rules.has(Alteration::DeferredBeyondSizes) {
            true => &self.participant[..],
            false => self.present_participants(),
        };
        let counts = |p: usize| match p == asks {
            true => !rules.has(Alteration::OwnDeferredIsFree),
            false => !rules.has(Alteration::OthersDeferredIsFree),
        };
        let mut counted = all.iter().enumerate().filter(|(p, _)| counts(*p));
        counted.any(|(_, participant)| {
            let behind = match rules.has(Alteration::BehindCountsAsHeld) {
                true => &participant.behind[..],
                false => &[],
            };
            let mut known = participant.deferred.iter().chain(behind);
            known.any(|deferred| deferred.slot == slot)
        })
    }
}

/// The deferred slots that stay.
fn staying(deferred: &[Deferred], least: u64, rules: Rules) -> Vec<Deferred> {
    let may_go = |deferred: &Deferred| {
        if rules.has(Alteration::FreesBelowLeast) {
            deferred.mark < least
        } else {
            deferred.mark <= least || rules.has(Alteration::FreesEverything)
        }
    };
    let mut stays = deferred.to_vec();
    if rules.has(Alteration::NeverFrees) {
        return stays;
    }
    if rules.has(Alteration::FreesFirstOnly) {
        if let Some(first) = stays.iter().position(may_go) {
            stays.remove(first);
        }
        return stays;
    }
    if rules.has(Alteration::FreesFrontOnly) {
        let kept = stays.iter().position(|deferred| !may_go(deferred));
        return stays.split_off(kept.unwrap_or(stays.len()));
    }
    if rules.has(Alteration::FreedByExchange) {
        while let Some(at) = stays.iter().position(may_go) {
            stays.swap_remove(at);
        }
        return stays;
    }
    stays.retain(|deferred| !may_go(deferred));
    stays
}
