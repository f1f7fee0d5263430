//! Demand 3 over a list of calls from a fresh store.
//!
//! Sections, picks, synchronises and slots are told by the calls and their
//! replies alone. The store's words are then compared with what was told.
//! Any list cut short is a list too, so this may be asked after every call.
//! A rest store has no sections: there a pick is open from its PICK until the
//! CHECKPOINT or DEFER that drops it.

use crate::call::{Call, Reply};
use crate::crossing::{Crossing, End};
use crate::events::Events;
use crate::layout::{pair_at, publisher_at, reader_at, step_at, CURRENT, WORDS};
use crate::making::Making;
use crate::moments::Moments;
use crate::rules::Rules;
use crate::shelf::Shelf;
use crate::store::{Kind, Pitch, MOST_DEFERRED, MOST_PUBLISHERS, MOST_READERS};
use std::collections::BTreeSet;

/// A section has a serial number, so that a later one of the same reader is
/// not taken for it.
#[derive(Clone, Copy, Default)]
pub(crate) struct Section {
    serial: u64,
    open: bool,
    pub(crate) pick: Option<u64>,
}

/// The slots that a publisher holds, besides the deferred ones.
#[derive(Clone, Default)]
pub(crate) struct Holder {
    last_claim: Option<u64>,
    claimed: Option<u64>,
    pub(crate) former: Option<u64>,
    /// The sections open at the last SYNC that has not returned yet.
    open_at_sync: Option<Vec<(usize, u64)>>,
}

pub struct Demand3 {
    pub(crate) kind: Kind,
    pub(crate) readers: u64,
    publishers: u64,
    pub(crate) slots: u64,
    shelf: Shelf,
    pub(crate) current: u64,
    pub(crate) sections: [Section; MOST_READERS],
    pub(crate) holders: Vec<Holder>,
    /// The participants, if it is a rest store.
    pub(crate) moments: Moments,
    /// The end of the versions, if it is an old store, and what the last call
    /// showed of it.
    pub(crate) end: End,
    pub(crate) crossing: Option<Crossing>,
    pub(crate) events: Events,
    /// Slots that a checkpoint has freed.
    pub(crate) freed_slots: BTreeSet<u64>,
    returns: u64,
    swaps: u64,
    freed: u64,
}

impl Demand3 {
    /// The list begins after this making was accepted with this first table.
    pub fn fresh(making: &Making, first: &[Pitch], rules: Rules) -> Demand3 {
        Demand3 {
            kind: making.kind,
            readers: u64::from(making.readers),
            publishers: u64::from(making.publishers),
            slots: u64::from(making.slots),
            shelf: Shelf::fresh(first, rules),
            current: 0,
            sections: [Section::default(); MOST_READERS],
            holders: vec![Holder::default(); MOST_PUBLISHERS],
            moments: Moments::fresh(match making.kind {
                Kind::New | Kind::Old => 0,
                Kind::Rest => usize::from(making.readers),
            }),
            end: End::fresh(making.kind),
            crossing: None,
            events: Events::new(),
            freed_slots: BTreeSet::new(),
            returns: 0,
            swaps: 0,
            freed: 0,
        }
    }

    /// Synchronises that returned.
    pub fn returns(&self) -> u64 {
        self.returns
    }

    /// Tables swapped in.
    pub fn swaps(&self) -> u64 {
        self.swaps
    }

    /// Deferred slots freed by checkpoints.
    pub fn freed(&self) -> u64 {
        self.freed
    }

    /// What the list has shown of a rest store, or of an old one.
    pub fn events(&self) -> &Events {
        &self.events
    }

    /// What the last call has shown of the end of an old store's versions.
    pub fn crossing(&self) -> Option<Crossing> {
        self.crossing
    }

    /// One call of the list with its reply. Refused ones move nothing.
    pub fn hear(&mut self, call: &Call, reply: &Reply) -> Result<(), String> {
        self.moments.next_call();
        let has_call = call.name().of(self.kind);
        if has_call && *reply == Reply::Refused(1) {
            return Err("a list spoiled the store".to_string());
        }
        if !has_call && *reply != Reply::Refused(1) {
            return Err("a call that the kind lacks did not get 1".to_string());
        }
        self.note_events(call, reply);
        if !reply.accepted() {
            return Ok(());
        }
        if !self.knows(call) {
            return Err("a call was accepted for a name that does not exist".to_string());
        }
        self.shelf.hear(call, reply)?;
        self.hear_accepted(call, reply)?;
        self.slots_apart()?;
        self.picks_kept()
    }

    /// Whether the reader or publisher that the call names exists.
    pub(crate) fn knows(&self, call: &Call) -> bool {
        let reader = call.reader().map_or(true, |r| u64::from(r) < self.readers);
        let publisher = call
            .publisher()
            .map_or(true, |p| u64::from(p) < self.publishers);
        reader && publisher
    }

    fn hear_accepted(&mut self, call: &Call, reply: &Reply) -> Result<(), String> {
        match *call {
            Call::Enter { r } => self.hear_enter(usize::from(r), reply),
            Call::Leave { r } => self.drop_pick(usize::from(r)),
            Call::Claim { p, s } => self.hear_claim(usize::from(p), u64::from(s))?,
            Call::Swap { p } => self.hear_swap(usize::from(p))?,
            Call::Sync { p } => {
                self.holders[usize::from(p)].open_at_sync = Some(self.open_sections());
            }
            Call::Raise { .. } => self.hear_raise(reply)?,
            Call::Walk { p, .. } => self.hear_walk(usize::from(p), reply)?,
            Call::Release { p } => self.holders[usize::from(p)].former = None,
            Call::Pick { r } => self.hear_pick(usize::from(r), reply)?,
            Call::Checkpoint { r } => self.hear_checkpoint(usize::from(r), reply)?,
            Call::Defer { p } => self.hear_defer(usize::from(p), reply)?,
            Call::Make { .. } | Call::Look { .. } | Call::Write { .. } => {}
        }
        Ok(())
    }

    fn hear_enter(&mut self, r: usize, reply: &Reply) {
        let section = &mut self.sections[r];
        if *reply == Reply::At(4) {
            section.serial += 1;
            section.open = true;
            section.pick = None;
        }
        if *reply == Reply::At(5) {
            section.pick = Some(self.current);
        }
    }

    /// The section is left, or the pick dropped.
    fn drop_pick(&mut self, r: usize) {
        self.sections[r].open = false;
        self.sections[r].pick = None;
    }

    /// PICK takes the slot that is current.
    fn hear_pick(&mut self, r: usize, reply: &Reply) -> Result<(), String> {
        if *reply != Reply::Picked(self.current) {
            return Err(format!("PICK took no slot {}", self.current));
        }
        self.sections[r].open = true;
        self.sections[r].pick = Some(self.current);
        Ok(())
    }

    fn hear_checkpoint(&mut self, r: usize, reply: &Reply) -> Result<(), String> {
        let Reply::At(step) = *reply else {
            return Err("CHECKPOINT replied without a step".to_string());
        };
        if step == 1 {
            self.drop_pick(r);
        }
        if let Some(freeing) = self.moments.checkpoint(r, step)? {
            self.freed += freeing.freed.len() as u64;
            self.note_freeing(r, &freeing);
        }
        Ok(())
    }

    /// From the DEFER that replies 0 on, the former slot is a deferred one.
    fn hear_defer(&mut self, p: usize, reply: &Reply) -> Result<(), String> {
        if *reply == Reply::At(35) {
            self.drop_pick(p);
            return self.moments.raise(p);
        }
        if *reply != Reply::At(0) {
            return Err("DEFER replied neither 35 nor 0".to_string());
        }
        let former = self.holders[p].former.take();
        self.moments.queue(p, former.ok_or("DEFER without a SWAP")?)
    }

    fn hear_claim(&mut self, p: usize, slot: u64) -> Result<(), String> {
        if let Some(r) = self.picked_by(slot) {
            return Err(format!("a CLAIM of slot {slot}, which reader {r} picked"));
        }
        self.holders[p].last_claim = Some(slot);
        self.holders[p].claimed = Some(slot);
        Ok(())
    }

    fn hear_swap(&mut self, p: usize) -> Result<(), String> {
        let holder = &mut self.holders[p];
        holder.claimed = None;
        holder.former = Some(self.current);
        self.current = holder.last_claim.ok_or("SWAP without a CLAIM")?;
        self.swaps += 1;
        Ok(())
    }

    /// In an old store nobody else raises the version between a publisher's
    /// SYNC and its RAISE, so that no RAISE is shared.
    fn hear_raise(&self, reply: &Reply) -> Result<(), String> {
        if self.kind == Kind::Old && *reply != Reply::Raised {
            return Err("a RAISE of an old store was shared".to_string());
        }
        Ok(())
    }

    fn hear_walk(&mut self, p: usize, reply: &Reply) -> Result<(), String> {
        if let Reply::Returned { looks, waits } = *reply {
            self.hear_return(p, looks, waits)?;
        }
        Ok(())
    }

    /// A reader that has picked this slot, and neither left nor dropped it.
    pub(crate) fn picked_by(&self, slot: u64) -> Option<usize> {
        let mut sections = self.sections.iter();
        sections.position(|section| section.open && section.pick == Some(slot))
    }

    fn open_sections(&self) -> Vec<(usize, u64)> {
        let open = self
            .sections
            .iter()
            .enumerate()
            .filter(|(_, section)| section.open);
        open.map(|(r, section)| (r, section.serial)).collect()
    }

    /// A return comes after every section open at its SYNC was left.
    fn hear_return(&mut self, p: usize, looks: u64, waits: u64) -> Result<(), String> {
        let open = self.holders[p]
            .open_at_sync
            .take()
            .ok_or("a return without a SYNC")?;
        self.returns += 1;
        for (r, serial) in open {
            let section = &self.sections[r];
            if section.open && section.serial == serial {
                return Err(format!("a return over the open section of reader {r}"));
            }
        }
        let least = match self.kind {
            Kind::New => self.readers,
            Kind::Old => 2,
            Kind::Rest => return Err("a return of a rest store".to_string()),
        };
        if looks.checked_sub(waits) != Some(least) {
            return Err(format!("a return with looks other than {least} + waits"));
        }
        Ok(())
    }

    /// The current slot and the held ones, deferred ones among them.
    pub(crate) fn told_slots(&self) -> impl Iterator<Item = u64> + '_ {
        let held = self
            .holders
            .iter()
            .flat_map(|holder| [holder.claimed, holder.former]);
        let taken = std::iter::once(self.current).chain(held.flatten());
        taken.chain(self.moments.all_deferred())
    }

    /// No slot is current and held, or held twice.
    fn slots_apart(&self) -> Result<(), String> {
        let mut taken = 0u64;
        for slot in self.told_slots() {
            if slot >= self.slots {
                return Err(format!("there is no slot {slot}"));
            }
            if taken & 1 << slot != 0 {
                return Err(format!("slot {slot} is held twice, or current and held"));
            }
            taken |= 1 << slot;
        }
        Ok(())
    }

    /// No slot picked in an open section, or picked and not dropped, is free.
    fn picks_kept(&self) -> Result<(), String> {
        let taken = self
            .told_slots()
            .fold(0u64, |taken, slot| taken | 1 << slot);
        for (r, section) in self.sections.iter().enumerate() {
            if let (true, Some(pick)) = (section.open, section.pick) {
                if taken & 1 << pick == 0 {
                    return Err(format!("slot {pick}, picked by reader {r}, is free"));
                }
            }
        }
        Ok(())
    }

    /// No slot that is picked is free by what the store records, whatever
    /// the calls told of deferred slots.
    fn picks_recorded(&self, words: &[u64; WORDS]) -> Result<(), String> {
        for (r, section) in self.sections.iter().enumerate() {
            let pick = section.pick.filter(|_| section.open);
            if let Some(pick) = pick.filter(|&pick| !self.taken_in(words, pick)) {
                return Err(format!(
                    "slot {pick}, picked by reader {r}, is recorded free"
                ));
            }
        }
        Ok(())
    }

    /// Whether the store records this slot as current or held.
    fn taken_in(&self, words: &[u64; WORDS], slot: u64) -> bool {
        let holds = |p: usize| {
            let at = publisher_at(p);
            let held = words[at] != 0 && words[at + 1] == slot;
            let count = match self.kind {
                Kind::New | Kind::Old => 0,
                Kind::Rest => words[step_at(p) + 1].min(MOST_DEFERRED as u64),
            };
            held || (0..count as usize).any(|i| words[pair_at(p, i)] == slot)
        };
        words[CURRENT] == slot || (0..self.publishers as usize).any(holds)
    }

    /// The store records the slots as the calls told them.
    pub fn recorded(&self, words: &[u64; WORDS]) -> Result<(), String> {
        self.picks_recorded(words)?;
        if words[CURRENT] != self.current {
            return Err(format!(
                "the calls told that slot {} is current",
                self.current
            ));
        }
        for (p, holder) in self.holders.iter().enumerate() {
            let place = words[publisher_at(p)];
            let recorded = (place != 0).then_some(words[publisher_at(p) + 1]);
            let told = match (holder.claimed, holder.former) {
                (Some(_), Some(_)) => return Err(format!("publisher {p} holds two slots")),
                (claimed, former) => claimed.or(former),
            };
            if recorded != told {
                return Err(format!("the calls told that publisher {p} holds {told:?}"));
            }
        }
        for (r, section) in self.sections.iter().enumerate() {
            let place = words[reader_at(r)];
            let recorded = (place == 5).then_some(words[reader_at(r) + 4]);
            if recorded != section.pick {
                return Err(format!(
                    "the calls told that reader {r} picked {:?}",
                    section.pick
                ));
            }
            if section.open != matches!(place, 4 | 5) {
                return Err(format!(
                    "the calls told open = {} of reader {r}",
                    section.open
                ));
            }
        }
        self.moments.recorded(words)
    }
}
