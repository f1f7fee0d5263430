//! CLAIM, WRITE, SWAP, SYNC, RAISE and RELEASE.

use crate::call::{Answer, Refusal, Reply};
use crate::rules::{Alteration, Rules};
use crate::store::{
    entry_index, Kind, Pitch, Publisher, Store, HIGH_BEFORE, LOW_BEFORE, OLD_LAST_BEFORE,
    PITCH_HIGH, PITCH_LOW,
};

/// Whether WRITE takes this pitch.
fn in_range(v: Pitch, rules: Rules) -> bool {
    let lowest = if rules.has(Alteration::PitchFrom5001) {
        PITCH_LOW - 1
    } else if rules.has(Alteration::PitchFrom500) {
        LOW_BEFORE
    } else {
        PITCH_LOW
    };
    let highest = if rules.has(Alteration::PitchTo94999) {
        PITCH_HIGH - 1
    } else if rules.has(Alteration::PitchTo9500) {
        HIGH_BEFORE
    } else {
        PITCH_HIGH
    };
    let tested = match rules.has(Alteration::PitchTestedBy16Bits) {
        true => Pitch::from(v as i16),
        false => v,
    };
    (lowest..=highest).contains(&tested)
}

impl Store {
    /// Refusal 21 if p is at any other place than this.
    fn turn(&self, p: usize, place: u64) -> Result<(), Refusal> {
        if self.publisher[p].place == place {
            Ok(())
        } else {
            Err(Refusal(21))
        }
    }

    pub fn claim(&mut self, p: u16, s: u16, rules: Rules) -> Answer {
        let p = self.publisher_named(p)?;
        let slot = u64::from(s);
        if rules.has(Alteration::TurnBeforeSlot) {
            self.turn(p, 0)?;
        }
        if slot >= self.slots {
            return Err(Refusal(12));
        }
        if self.turn(p, 0).is_err() {
            if !(self.kind == Kind::Rest && rules.has(Alteration::ClaimsAt34)) {
                return Err(Refusal(21));
            }
            self.turn(p, 34)?;
        }
        self.stop_in_checkpoint(p, rules)?;
        if rules.has(Alteration::Claim30First) && !self.free(slot, p, rules) {
            return Err(Refusal(30));
        }
        if self.refuses_others(rules) && self.other_busy(p) {
            return Err(Refusal(31));
        }
        if !self.free(slot, p, rules) {
            return Err(Refusal(30));
        }
        self.publisher[p].place = 1;
        self.publisher[p].held = slot;
        Ok(Reply::Claimed(slot))
    }

    fn refuses_others(&self, rules: Rules) -> bool {
        match self.kind {
            Kind::New => rules.has(Alteration::NewRefusesBusy),
            Kind::Old => !rules.has(Alteration::OldTakesSeveral),
            Kind::Rest => rules.has(Alteration::RestRefusesBusy),
        }
    }

    /// As written, CLAIM, WRITE and SWAP go on inside a checkpoint.
    fn stop_in_checkpoint(&self, p: usize, rules: Rules) -> Result<(), Refusal> {
        let inside = self.kind == Kind::Rest && self.participant[p].step != 0;
        match inside && rules.has(Alteration::StopsInCheckpoint) {
            true => Err(Refusal(21)),
            false => Ok(()),
        }
    }

    fn other_busy(&self, p: usize) -> bool {
        let mut publishers = self.present_publishers().iter().enumerate();
        publishers.any(|(n, other)| n != p && other.place != 0)
    }

    /// Not current, held by no publisher at a place other than 0, and in a
    /// rest store deferred by nobody. Publisher p asks.
    fn free(&self, slot: u64, p: usize, rules: Rules) -> bool {
        let counts = |publisher: &Publisher| match publisher.place {
            0 => rules.has(Alteration::HeldAtZeroCounts),
            34 => !rules.has(Alteration::HolderAt34Ignored),
            38 => !rules.has(Alteration::HolderAt38Ignored),
            _ => true,
        };
        let publishers = if rules.has(Alteration::HoldersBeyondSizes) {
            &self.publisher[..]
        } else {
            self.present_publishers()
        };
        let held = publishers
            .iter()
            .any(|publisher| counts(publisher) && publisher.held == slot);
        let current = slot == self.current && !rules.has(Alteration::CurrentIsFree);
        let deferred = match self.kind {
            Kind::New | Kind::Old => false,
            Kind::Rest if rules.has(Alteration::DeferredIsFree) => false,
            Kind::Rest => self.is_deferred(slot, p, rules),
        };
        !current && !held && !deferred
    }

    pub fn write(&mut self, entries: &mut [Pitch], p: u16, v: Pitch, rules: Rules) -> Answer {
        let p = self.publisher_named(p)?;
        let at_turn = matches!(self.publisher[p].place, 1..=32);
        if rules.has(Alteration::TurnBeforePitch) && !at_turn {
            return Err(Refusal(21));
        }
        if !in_range(v, rules) {
            return Err(Refusal(14));
        }
        if !at_turn {
            return Err(Refusal(21));
        }
        self.stop_in_checkpoint(p, rules)?;
        let slot = if rules.has(Alteration::WritesCurrent) {
            self.current
        } else {
            self.publisher[p].held
        };
        let publisher = &mut self.publisher[p];
        if let Some(index) = entry_index(slot, publisher.place - 1, entries) {
            entries[index] = match rules.has(Alteration::PitchWrittenBy16Bits) {
                true => Pitch::from(v as i16),
                false => v,
            };
        }
        let written = publisher.place;
        publisher.place += 1;
        if rules.has(Alteration::WrittenBefore) {
            return Ok(Reply::Written(written - 1));
        }
        Ok(Reply::Written(written))
    }

    pub fn swap(&mut self, p: u16, rules: Rules) -> Answer {
        let p = self.publisher_named(p)?;
        if self.turn(p, 33).is_err() {
            if !rules.has(Alteration::SwapsAt32) {
                return Err(Refusal(21));
            }
            self.turn(p, 32)?;
        }
        self.stop_in_checkpoint(p, rules)?;
        let former = self.current;
        let publisher = &mut self.publisher[p];
        publisher.place = 34;
        self.current = publisher.held;
        if !rules.has(Alteration::SwapKeepsHeld) {
            publisher.held = former;
        }
        if rules.has(Alteration::SwapRepliesOwn) {
            return Ok(Reply::Swapped(self.current));
        }
        Ok(Reply::Swapped(former))
    }

    pub fn sync(&mut self, p: u16, rules: Rules) -> Answer {
        let p = self.publisher_named(p)?;
        if rules.has(Alteration::LastBeforeTurn) && self.at_last(rules) {
            return Err(Refusal(32));
        }
        self.turn(p, 34)?;
        if self.at_last(rules) && !rules.has(Alteration::SyncAtLast) {
            return Err(Refusal(32));
        }
        let mark = self.next_mark(rules);
        let publisher = &mut self.publisher[p];
        publisher.place = 35;
        let walk = &mut publisher.walk;
        walk.mark = mark;
        if !(self.kind == Kind::Old && rules.has(Alteration::OldSyncKeepsNext)) {
            walk.next = 0;
        }
        if !rules.has(Alteration::SyncKeepsLooks) {
            walk.looks = 0;
        }
        if !rules.has(Alteration::SyncKeepsWaits) {
            walk.waits = 0;
        }
        Ok(Reply::Synced(walk.mark))
    }

    /// Whether the version is the last. An old store has no last version.
    fn at_last(&self, rules: Rules) -> bool {
        let last = match self.kind {
            Kind::Old if rules.has(Alteration::Old32AtSigned) => Some(OLD_LAST_BEFORE),
            Kind::Old if rules.has(Alteration::Old32AtEnd) => Some(u64::MAX),
            Kind::New | Kind::Old | Kind::Rest => self.kind.last(),
        };
        last == Some(self.version)
    }

    /// The version + 1, modulo 2^64.
    fn next_mark(&self, rules: Rules) -> u64 {
        let old = self.kind == Kind::Old;
        if rules.has(Alteration::MarkIsVersion) {
            return self.version;
        }
        if old && rules.has(Alteration::OldMarkStops) {
            return self.version.saturating_add(1);
        }
        let mark = self.version.wrapping_add(1);
        match old && rules.has(Alteration::OldMarkModulo63) {
            true => mark % (1 << 63),
            false => mark,
        }
    }

    /// The mark - 1, modulo 2^64.
    fn one_before(&self, mark: u64, rules: Rules) -> u64 {
        match self.kind == Kind::Old && rules.has(Alteration::OldNoneBeforeZero) {
            true => mark.saturating_sub(1),
            false => mark.wrapping_sub(1),
        }
    }

    pub fn raise(&mut self, p: u16, rules: Rules) -> Answer {
        let p = self.publisher_named(p)?;
        let place = match self.kind {
            Kind::New => 35,
            Kind::Old if rules.has(Alteration::OldRaisesAt35) => 35,
            Kind::Old => 36,
            Kind::Rest => unreachable!("a rest store has no RAISE"),
        };
        self.turn(p, place)?;
        let mark = self.publisher[p].walk.mark;
        let before = if rules.has(Alteration::RaiseComparesMark) {
            mark
        } else {
            self.one_before(mark, rules)
        };
        let behind = self.version < mark && rules.has(Alteration::RaisesWhenBehind);
        if self.version == before || behind {
            self.version = mark;
            self.publisher[p].place = 37;
            return Ok(Reply::Raised);
        }
        if !rules.has(Alteration::SharedStays) {
            self.publisher[p].place = 37;
        }
        Ok(Reply::Shared)
    }

    pub fn release(&mut self, p: u16, rules: Rules) -> Answer {
        let p = self.publisher_named(p)?;
        if self.turn(p, 38).is_err() {
            if !rules.has(Alteration::ReleasesAt37) {
                return Err(Refusal(21));
            }
            self.turn(p, 37)?;
        }
        self.releases = if rules.has(Alteration::ReleasesSaturate) {
            self.releases.saturating_add(1)
        } else {
            self.releases.wrapping_add(1)
        };
        let publisher = &mut self.publisher[p];
        let slot = publisher.held;
        publisher.place = 0;
        if rules.has(Alteration::ReleaseClearsHeld) {
            publisher.held = 0;
        }
        Ok(Reply::Freed {
            slot,
            releases: self.releases,
        })
    }
}
