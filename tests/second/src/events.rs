//! What can happen in a list of a rest store, and in one of an old store that
//! comes past 2^63 - 1 or crosses the end. It is told by calls and replies.
//! The lists of a run must show all of it.

use crate::call::{Call, Reply};
use crate::crossing::{Crossing, CROSSINGS};
use crate::demand3::Demand3;
use crate::moments::Freeing;
use crate::store::{Kind, MOST_DEFERRED, MOST_PUBLISHERS, OLD_LAST_BEFORE};
use std::collections::BTreeSet;
use std::fmt;

macro_rules! events {
    ($($name:ident $text:literal)*) => {
        #[derive(Clone, Copy, PartialEq, Eq, PartialOrd, Ord, Debug)]
        pub enum Event {
            /// An old store's list that crosses the end.
            Crossed(Crossing),
            /// An old store's SYNC above the last version of before.
            SyncedAboveSigned,
            /// A slot freed in a store of so many participants.
            FreedAmong(usize),
            $(#[doc = $text] $name,)*
        }

        const LISTED: &[(Event, &str)] = &[
            $((Event::$name, $text),)*
        ];
    };
}

events! {
    PickedAnother "PICK of another slot than the one picked and not dropped"
    CheckpointDrops "a pick dropped by CHECKPOINT"
    DeferDrops "a pick dropped by DEFER"
    PickInCheckpoint "PICK refused inside a checkpoint"
    PickAt35 "PICK refused at 35"
    CheckpointAt35 "CHECKPOINT refused at 35"
    DeferInCheckpoint "DEFER at 34 refused inside a checkpoint"
    ClaimInCheckpoint "CLAIM accepted inside a checkpoint"
    WriteInCheckpoint "WRITE accepted inside a checkpoint"
    SwapInCheckpoint "SWAP accepted inside a checkpoint"
    ClaimAt34 "CLAIM of a free slot refused at 34"
    ClaimOfOwn "CLAIM refused of a slot that the same participant has deferred"
    ClaimOfAnothers "CLAIM refused of a slot that another has deferred"
    ClaimOfFreed "CLAIM accepted of a slot that a checkpoint has freed"
    LookInDeferred "LOOK in a slot that somebody has deferred"
    FreedSeveral "several slots freed by one checkpoint"
    FreedSome "a slot freed by a checkpoint at which another stays"
    FreedAfterTooEarly "a slot read too early at one checkpoint and freed by the next"
    StayedForPick "a slot that stays while somebody has it picked"
    TwoDefer "deferred slots of two participants at once"
    TwoCheckpoints "a checkpoint that ends inside another's"
    RaisedSinceLoaded "an epoch observed after another raised it again"
    QueuedOutOfTurn "a slot queued before one that was raised earlier"
    Eight "eight slots deferred by one participant"
    LastEpochWithFewer "43 with fewer than seven slots deferred"
    LastEpochWithSeven "43 with seven slots deferred"
    LastEpochWithEight "43 with eight slots deferred"
    Ninth "44"
}

impl Event {
    pub fn all() -> impl Iterator<Item = Event> {
        let crossings = CROSSINGS.into_iter().map(Event::Crossed);
        let among = (1..=MOST_PUBLISHERS).map(Event::FreedAmong);
        let listed = LISTED.iter().map(|entry| entry.0);
        let of_old = crossings.chain([Event::SyncedAboveSigned]);
        of_old.chain(among).chain(listed)
    }

    /// The kind of store whose lists must show it.
    pub fn kind(self) -> Kind {
        match self {
            Event::Crossed(_) | Event::SyncedAboveSigned => Kind::Old,
            _ => Kind::Rest,
        }
    }
}

impl fmt::Display for Event {
    fn fmt(&self, f: &mut fmt::Formatter<'_>) -> fmt::Result {
        match self {
            Event::Crossed(crossing) => return write!(f, "{crossing}"),
            Event::SyncedAboveSigned => return write!(f, "SYNC with the mark 2^63"),
            Event::FreedAmong(participants) => {
                return write!(f, "a slot freed among {participants} participants");
            }
            _ => {}
        }
        let listed = LISTED.iter().find(|entry| entry.0 == *self);
        f.write_str(listed.expect("every event is listed").1)
    }
}

/// The events that were seen.
pub type Events = BTreeSet<Event>;

impl Demand3 {
    /// Notes what this call shows, which is not yet heard.
    pub(crate) fn note_events(&mut self, call: &Call, reply: &Reply) {
        self.crossing = None;
        if !self.knows(call) {
            return;
        }
        match self.kind {
            Kind::New => {}
            Kind::Old => self.note_old(call, reply),
            Kind::Rest => self.note_rest(call, reply),
        }
    }

    fn note_old(&mut self, call: &Call, reply: &Reply) {
        self.crossing = self.end.hear(call, reply);
        self.events.extend(self.crossing.map(Event::Crossed));
        let above = *reply == Reply::Synced(OLD_LAST_BEFORE + 1);
        self.note(Event::SyncedAboveSigned, above);
    }

    fn note_rest(&mut self, call: &Call, reply: &Reply) {
        match (*call, reply.accepted()) {
            (Call::Look { r, .. }, true) => {
                let pick = self.sections[usize::from(r)].pick;
                let deferred = self.moments.all_deferred().any(|slot| Some(slot) == pick);
                self.note(Event::LookInDeferred, deferred);
            }
            (Call::Pick { r }, accepted) => self.note_pick(usize::from(r), accepted),
            (Call::Checkpoint { r }, _) => self.note_checkpoint(usize::from(r), reply),
            (Call::Claim { p, s }, _) => self.note_claim(usize::from(p), u64::from(s), reply),
            (Call::Write { p, .. }, true) => {
                let inside = self.moments.inside_checkpoint(usize::from(p));
                self.note(Event::WriteInCheckpoint, inside);
            }
            (Call::Swap { p }, true) => {
                let inside = self.moments.inside_checkpoint(usize::from(p));
                self.note(Event::SwapInCheckpoint, inside);
            }
            (Call::Defer { p }, _) => self.note_defer(usize::from(p), reply),
            (Call::Look { .. } | Call::Write { .. } | Call::Swap { .. }, false) => {}
            (Call::Make { .. } | Call::Enter { .. } | Call::Leave { .. }, _) => {}
            (Call::Sync { .. } | Call::Raise { .. }, _) => {}
            (Call::Walk { .. } | Call::Release { .. }, _) => {}
        }
    }

    fn note(&mut self, event: Event, happened: bool) {
        if happened {
            self.events.insert(event);
        }
    }

    fn note_pick(&mut self, r: usize, accepted: bool) {
        let (inside, raised) = (self.moments.inside_checkpoint(r), self.moments.raised(r));
        let another = self.sections[r]
            .pick
            .is_some_and(|pick| pick != self.current);
        self.note(Event::PickedAnother, accepted && another);
        self.note(Event::PickInCheckpoint, !accepted && inside && !raised);
        self.note(Event::PickAt35, !accepted && raised && !inside);
    }

    fn note_checkpoint(&mut self, r: usize, reply: &Reply) {
        let picked = self.sections[r].pick.is_some();
        let raised = self.moments.raised(r);
        self.note(Event::CheckpointDrops, *reply == Reply::At(1) && picked);
        self.note(Event::CheckpointAt35, !reply.accepted() && raised);
        let raised_since = self.moments.raised_since_loaded(r);
        self.note(
            Event::RaisedSinceLoaded,
            *reply == Reply::At(2) && raised_since,
        );
    }

    /// A last CHECKPOINT, after it was heard.
    pub(crate) fn note_freeing(&mut self, r: usize, freeing: &Freeing) {
        let Freeing { freed, staying, .. } = freeing;
        let participants = self.readers as usize;
        self.note(Event::FreedAmong(participants), !freed.is_empty());
        self.note(Event::FreedSeveral, freed.len() > 1);
        self.note(Event::FreedSome, !freed.is_empty() && !staying.is_empty());
        self.note(Event::FreedAfterTooEarly, freeing.after_too_early);
        let picked = |slot: &u64| self.picked_by(*slot).is_some();
        self.note(Event::StayedForPick, staying.iter().any(picked));
        let others = (0..participants).filter(|&other| other != r);
        let inside = others.filter(|&other| self.moments.inside_checkpoint(other));
        let inside = inside.count() > 0;
        self.note(Event::TwoCheckpoints, inside);
        self.freed_slots.extend(freed);
    }

    fn note_claim(&mut self, p: usize, s: u64, reply: &Reply) {
        let own = self.moments.deferred(p).any(|slot| slot == s);
        let deferred = self.moments.all_deferred().any(|slot| slot == s);
        let inside = self.moments.inside_checkpoint(p);
        let swapped = self.holders[p].former.is_some() && !self.moments.raised(p);
        let free = s < self.slots && self.told_slots().all(|slot| slot != s);
        let refused = *reply == Reply::Refused(30);
        let again = self.freed_slots.contains(&s);
        self.note(Event::ClaimInCheckpoint, reply.accepted() && inside);
        self.note(Event::ClaimOfFreed, reply.accepted() && again);
        self.note(
            Event::ClaimAt34,
            *reply == Reply::Refused(21) && swapped && free,
        );
        self.note(Event::ClaimOfOwn, refused && own);
        self.note(Event::ClaimOfAnothers, refused && deferred && !own);
    }

    fn note_defer(&mut self, p: usize, reply: &Reply) {
        let picked = self.sections[p].pick.is_some();
        let inside = self.moments.inside_checkpoint(p);
        let swapped = self.holders[p].former.is_some();
        let deferred = self.moments.deferred(p).count();
        let before = self.moments.raised_before(p);
        self.note(Event::DeferDrops, *reply == Reply::At(35) && picked);
        self.note(
            Event::DeferInCheckpoint,
            *reply == Reply::Refused(21) && inside && swapped,
        );
        let last = *reply == Reply::Refused(43);
        self.note(Event::LastEpochWithFewer, last && deferred < 7);
        self.note(Event::LastEpochWithSeven, last && deferred == 7);
        self.note(Event::LastEpochWithEight, last && deferred == 8);
        self.note(Event::Ninth, *reply == Reply::Refused(44));
        let queued = *reply == Reply::At(0);
        self.note(Event::QueuedOutOfTurn, queued && before);
        self.note(Event::Eight, queued && deferred + 1 == MOST_DEFERRED);
        let mut others = (0..self.readers as usize).filter(|&other| other != p);
        let another = others.any(|other| self.moments.deferred(other).count() > 0);
        self.note(Event::TwoDefer, queued && another);
    }
}
