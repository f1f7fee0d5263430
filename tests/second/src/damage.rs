//! When a store is spoiled. Each clause of document 01, and of request 3, is
//! one `Clause`. Of an old store no version and no mark is spoiled.

use crate::rules::{Alteration, Rules};
use crate::store::{Kind, Publisher, Reader, Store, MOST_DEFERRED, OLD_LAST_BEFORE, TABLE};

#[derive(Clone, Copy, PartialEq, Eq, Debug)]
pub enum Clause {
    Readers,
    Publishers,
    Slots,
    EntriesLength,
    Current,
    Version,
    ReaderPlace,
    Picked,
    PublisherPlace,
    Held,
    MarkZero,
    MarkAboveLast,
    WaitsAboveLooks,
    Next,
    Published,
    Indicator0,
    Indicator1,
    /// A rest store with readers and publishers of different numbers.
    Unequal,
    /// A checkpoint's step above participants + 1.
    Step,
    /// More than eight deferred slots.
    Count,
    /// Eight deferred slots of a participant at 35.
    EightAt35,
    /// A deferred slot too large.
    DeferredSlot,
}

pub const CLAUSES: [Clause; 22] = [
    Clause::Readers,
    Clause::Publishers,
    Clause::Slots,
    Clause::EntriesLength,
    Clause::Current,
    Clause::Version,
    Clause::ReaderPlace,
    Clause::Picked,
    Clause::PublisherPlace,
    Clause::Held,
    Clause::MarkZero,
    Clause::MarkAboveLast,
    Clause::WaitsAboveLooks,
    Clause::Next,
    Clause::Published,
    Clause::Indicator0,
    Clause::Indicator1,
    Clause::Unequal,
    Clause::Step,
    Clause::Count,
    Clause::EightAt35,
    Clause::DeferredSlot,
];

impl Clause {
    /// Whether this clause can spoil a store of this kind by itself. In a rest
    /// store readers out of range are publishers out of range too, or unequal.
    pub fn of(self, kind: Kind) -> bool {
        match self {
            Clause::Publishers | Clause::Slots | Clause::EntriesLength | Clause::Current => true,
            Clause::ReaderPlace | Clause::Picked | Clause::PublisherPlace => true,
            Clause::Held | Clause::WaitsAboveLooks => true,
            Clause::Readers => match kind {
                Kind::New | Kind::Old => true,
                Kind::Rest => false,
            },
            Clause::MarkZero => match kind {
                Kind::New | Kind::Rest => true,
                Kind::Old => false,
            },
            Clause::Version | Clause::MarkAboveLast => kind == Kind::New,
            Clause::Next | Clause::Published => kind == Kind::New,
            Clause::Indicator0 | Clause::Indicator1 => kind == Kind::Old,
            Clause::Unequal | Clause::Step | Clause::Count => kind == Kind::Rest,
            Clause::EightAt35 | Clause::DeferredSlot => kind == Kind::Rest,
        }
    }
}

/// The clauses that apply to a store.
#[derive(Clone, Copy, PartialEq, Eq, Debug, Default)]
pub struct Clauses(u32);

impl Clauses {
    fn note(&mut self, clause: Clause, applies: bool, rules: Rules) {
        if applies && !rules.has(Alteration::Untested(clause)) {
            self.0 |= 1 << clause as u32;
        }
    }

    /// Whether the store is spoiled.
    pub fn any(self) -> bool {
        self.0 != 0
    }

    /// Whether this clause applies and no other.
    pub fn only(self, clause: Clause) -> bool {
        self.0 == 1 << clause as u32
    }
}

impl Store {
    /// All the clauses that apply, with entries of this length lent beside.
    pub fn clauses(&self, entries_length: usize, rules: Rules) -> Clauses {
        let mut found = Clauses::default();
        self.test_head(entries_length, &mut found, rules);
        let all = rules.has(Alteration::SpoiledBeyondSizes);
        let readers = if all {
            &self.reader[..]
        } else {
            self.present_readers()
        };
        for reader in readers {
            self.test_reader(reader, &mut found, rules);
        }
        let publishers = if all {
            &self.publisher[..]
        } else {
            self.present_publishers()
        };
        for publisher in publishers {
            self.test_publisher(publisher, &mut found, rules);
        }
        self.test_indicators(&mut found, rules);
        self.test_participants(&mut found, rules);
        found
    }

    fn test_head(&self, entries_length: usize, found: &mut Clauses, rules: Rules) {
        found.note(Clause::Readers, !(1..=64).contains(&self.readers), rules);
        found.note(
            Clause::Publishers,
            !(1..=16).contains(&self.publishers),
            rules,
        );
        found.note(Clause::Slots, !(2..=32).contains(&self.slots), rules);
        found.note(
            Clause::EntriesLength,
            self.wrong_length(entries_length, rules),
            rules,
        );
        found.note(Clause::Current, self.current >= self.slots, rules);
        let last = match self.kind {
            Kind::Old if rules.has(Alteration::OldVersionSigned) => Some(OLD_LAST_BEFORE),
            Kind::Old if rules.has(Alteration::OldVersionAsNew) => Kind::New.last(),
            Kind::New | Kind::Old | Kind::Rest => self.kind.last(),
        };
        let too_large = last.is_some_and(|last| self.version > last);
        found.note(Clause::Version, too_large, rules);
        let unequal = self.kind == Kind::Rest && self.readers != self.publishers;
        found.note(Clause::Unequal, unequal, rules);
    }

    fn wrong_length(&self, entries_length: usize, rules: Rules) -> bool {
        let length = entries_length as u128;
        let due = u128::from(self.slots) * TABLE as u128;
        if rules.has(Alteration::LongerEntriesPass) {
            length < due
        } else {
            length != due
        }
    }

    fn test_reader(&self, reader: &Reader, found: &mut Clauses, rules: Rules) {
        let place_exists = match self.kind {
            Kind::New => matches!(reader.place, 0..=5),
            Kind::Old if rules.has(Alteration::OldPlaceTwo) => {
                matches!(reader.place, 0 | 1 | 2 | 4 | 5)
            }
            Kind::Old => matches!(reader.place, 0 | 1 | 4 | 5),
            Kind::Rest if rules.has(Alteration::RestReaderAtFour) => {
                matches!(reader.place, 0 | 4 | 5)
            }
            Kind::Rest => matches!(reader.place, 0 | 5),
        };
        found.note(Clause::ReaderPlace, !place_exists, rules);
        let has_picked = reader.place == 5 || rules.has(Alteration::PickedAlwaysTested);
        found.note(
            Clause::Picked,
            has_picked && reader.picked >= self.slots,
            rules,
        );
        let has_published = match reader.place {
            2 | 3 => true,
            4 => rules.has(Alteration::PublishedTestedAtFour),
            _ => false,
        };
        let unlike = reader.published != reader.first;
        let applies = self.kind == Kind::New && has_published && unlike;
        let ahead = self.kind == Kind::Rest && reader.published > self.version;
        let ahead = ahead && rules.has(Alteration::ObservedAheadSpoiled);
        found.note(Clause::Published, applies || ahead, rules);
    }

    fn test_publisher(&self, publisher: &Publisher, found: &mut Clauses, rules: Rules) {
        let place = publisher.place;
        let walk = &publisher.walk;
        let place_exists = self.has_publisher_place(place, rules);
        found.note(Clause::PublisherPlace, !place_exists, rules);
        let holds = place != 0 || rules.has(Alteration::HeldAlwaysTested);
        found.note(Clause::Held, holds && publisher.held >= self.slots, rules);
        let from = if rules.has(Alteration::WalkTestedAt34) {
            34
        } else {
            35
        };
        let synced = (from..=38).contains(&place);
        let (least, most) = self.marks(rules);
        found.note(Clause::MarkZero, synced && walk.mark < least, rules);
        found.note(Clause::MarkAboveLast, synced && walk.mark > most, rules);
        found.note(
            Clause::WaitsAboveLooks,
            synced && walk.waits > walk.looks,
            rules,
        );
        let walks =
            matches!(place, 35 | 37) || (place == 38 && rules.has(Alteration::NextTestedAt38));
        let has_next = match self.kind {
            Kind::New => true,
            Kind::Old => false,
            Kind::Rest => rules.has(Alteration::RestNextTested),
        };
        let applies = has_next && walks && walk.next >= self.readers;
        found.note(Clause::Next, applies, rules);
    }

    /// The least and the highest mark. Of an old store every number is a mark.
    fn marks(&self, rules: Rules) -> (u64, u64) {
        let least = match self.kind {
            Kind::New | Kind::Rest => 1,
            Kind::Old => u64::from(rules.has(Alteration::OldMarkZeroSpoiled)),
        };
        let most = match self.kind {
            Kind::New if rules.has(Alteration::MarkPastLast) => self.kind.highest() + 1,
            Kind::Old if rules.has(Alteration::OldMarkSigned) => OLD_LAST_BEFORE,
            Kind::Rest if rules.has(Alteration::RestMarkBelowLast) => self.kind.highest() - 1,
            Kind::New | Kind::Old | Kind::Rest => self.kind.highest(),
        };
        (least, most)
    }

    fn has_publisher_place(&self, place: u64, rules: Rules) -> bool {
        match self.kind {
            Kind::New if rules.has(Alteration::NewPlace36) => place <= 38,
            Kind::New => place <= 38 && place != 36,
            Kind::Old => place <= 38,
            Kind::Rest if rules.has(Alteration::RestPlace36) => place <= 36,
            Kind::Rest => place <= 35,
        }
    }

    fn test_indicators(&self, found: &mut Clauses, rules: Rules) {
        let tested = match self.kind {
            Kind::New => rules.has(Alteration::NewIndicatorsTested),
            Kind::Old => true,
            Kind::Rest => rules.has(Alteration::RestIndicatorsTested),
        };
        if !tested {
            return;
        }
        let unlike = |parity: usize| self.indicators[parity] != self.readers_at(parity);
        found.note(Clause::Indicator0, unlike(0), rules);
        found.note(Clause::Indicator1, unlike(1), rules);
    }

    /// Steps, counts and deferred slots. Marks and epochs have no range.
    fn test_participants(&self, found: &mut Clauses, rules: Rules) {
        let tested = match self.kind {
            Kind::New | Kind::Old => rules.has(Alteration::ParticipantsTestedInAll),
            Kind::Rest => true,
        };
        let present = match rules.has(Alteration::SpoiledBeyondSizes) {
            true => self.participant.len(),
            false => self.present_participants().len(),
        };
        for p in (0..present).filter(|_| tested) {
            self.test_step(p, found, rules);
            self.test_deferred(p, found, rules);
        }
    }

    fn test_step(&self, p: usize, found: &mut Clauses, rules: Rules) {
        let last = if rules.has(Alteration::StepPastEnd) {
            self.publishers.saturating_add(2)
        } else if rules.has(Alteration::StepBelowEnd) {
            self.publishers
        } else {
            self.publishers.saturating_add(1)
        };
        found.note(Clause::Step, self.participant[p].step > last, rules);
    }

    fn test_deferred(&self, p: usize, found: &mut Clauses, rules: Rules) {
        let participant = &self.participant[p];
        let most = MOST_DEFERRED as u64;
        found.note(Clause::Count, participant.count() > most, rules);
        let at_35 = self.publisher[p].place == 35 || rules.has(Alteration::EightSpoiledElsewhere);
        let eight = participant.count() == most;
        found.note(Clause::EightAt35, at_35 && eight, rules);
        let behind = match rules.has(Alteration::BehindTested) {
            true => &participant.behind[..],
            false => &[],
        };
        for deferred in participant.deferred.iter().chain(behind) {
            let unmarked = deferred.mark == 0 && rules.has(Alteration::QueuedMarkTested);
            let too_large = deferred.slot >= self.slots;
            found.note(Clause::DeferredSlot, too_large || unmarked, rules);
        }
    }

    /// The number of readers at 4 or 5 whose loaded version has this parity.
    fn readers_at(&self, parity: usize) -> u64 {
        let added =
            |reader: &&Reader| matches!(reader.place, 4 | 5) && reader.first % 2 == parity as u64;
        self.present_readers().iter().filter(added).count() as u64
    }
}
