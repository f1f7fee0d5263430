//! One rule of the second implementation altered, of the sheet or of the
//! calls on it.

use crate::compare::{Difference, Heard};
use crate::program::Ended;
use second::card;
use second::misread::{self, Misreading};
use second::rules::{Alteration, Rules};
use second::sheet::play_by;

#[derive(Clone, Copy)]
pub enum Altered {
    Sheet(&'static Misreading),
    Call(Alteration),
}

impl Altered {
    /// Every alteration that can show on a sheet.
    pub fn all() -> Vec<Altered> {
        let calls = Alteration::all().into_iter().filter(|&a| shows(a));
        misread::all()
            .map(Altered::Sheet)
            .chain(calls.map(Altered::Call))
            .collect()
    }

    pub fn by_name(name: &str) -> Option<Altered> {
        Altered::all().into_iter().find(|a| a.name() == name)
    }

    pub fn name(self) -> String {
        match self {
            Altered::Sheet(misreading) => misreading.name.to_string(),
            Altered::Call(alteration) => alteration.name(),
        }
    }

    pub fn text(self) -> String {
        match self {
            Altered::Sheet(misreading) => misreading.text.to_string(),
            Altered::Call(alteration) => alteration.text(),
        }
    }

    fn play(self, card: Option<&[u8]>, text: &[u8]) -> Vec<u8> {
        match self {
            Altered::Sheet(misreading) => misreading.play(card, text),
            Altered::Call(alteration) => {
                let table = card::entries_if_any(card);
                play_by(Rules::altered(alteration), &table, text)
            }
        }
    }

    /// The first difference from what the program printed.
    pub fn found(self, heard: &[Heard]) -> Option<Difference> {
        heard.iter().find_map(|sheet| {
            let ended = Ended {
                output: sheet.output.clone(),
                ..Ended::default()
            };
            let played = self.play(sheet.card.as_deref(), &sheet.text);
            Difference::of(&sheet.name, &sheet.text, &ended, &played)
        })
    }
}

/// Whether an alteration of the calls can show on a sheet.
fn shows(alteration: Alteration) -> bool {
    use Alteration as A;
    let hidden = match alteration {
        // No sheet spoils a store or lends entries of a wrong length.
        A::Untested(_) | A::NameBeforeSpoiled => true,
        A::OldPlaceTwo | A::NewPlace36 | A::MarkPastLast => true,
        A::PickedAlwaysTested | A::HeldAlwaysTested => true,
        A::LongerEntriesPass | A::MakingLengthFirst => true,
        // A slot other than 0 is written whole before anybody looks at it.
        A::FreshSlotZeroOnly | A::FreshLastSlotLeft => true,
        // The sheet has no shelf, and no kind by its number.
        A::ShelfFeathered | A::TableLengthBeforeKind => true,
        A::KindsBeforeInWords | A::KindsBeforeInMakings => true,
        // Words lent by C, and numbers beyond the sizes.
        A::RefusedMakingClears | A::FreshWithinSizeOnly => true,
        A::SpoiledBeyondSizes | A::HoldersBeyondSizes => true,
        A::WordsBeforeTaken | A::MakingLeavesParticipants | A::DeferredBeyondSizes => true,
        // A call that the kind lacks is unread.
        A::LackedByTurn | A::LackedByName | A::RestLeaves | A::OthersPick => true,
        // Numbers that no call looks at.
        A::FreshOldPublishedZero | A::OldSyncKeepsNext | A::ReleaseClearsHeld => true,
        // From a fresh store the version is never below mark - 1.
        A::RaisesWhenBehind => true,
        // Nearly 2^64 looks or releases.
        A::LooksBeforeTurn | A::OldAsksOneLook => true,
        A::SumBelowHighest | A::SumNotTested | A::ReleasesSaturate => true,
        _ => hidden_of_rest(alteration),
    };
    !hidden
}

/// Whether an alteration of the rest store never shows on a sheet.
fn hidden_of_rest(alteration: Alteration) -> bool {
    use Alteration as A;
    match alteration {
        A::RestReaderAtFour | A::RestPlace36 | A::StepPastEnd => true,
        // What these test, a list of calls leaves at 0.
        A::RestNextTested | A::ParticipantsTestedInAll => true,
        // Behind the count stand slots of the store, and every queued mark
        // is above 0. No epoch is observed before it is raised.
        A::BehindTested | A::QueuedMarkTested | A::ObservedAheadSpoiled => true,
        // Numbers that no call looks at.
        A::CheckpointClearsPicked | A::BehindCleared | A::CheckpointReleases => true,
        A::DeferClearsHeld => true,
        // From a fresh store the first marks are above 0 and above the first
        // epoch, and deferred slots are queued by rising marks.
        A::FreshObservedZero | A::FreesFrontOnly | A::FreedByExchange => true,
        A::QueuesAtFront => true,
        _ => false,
    }
}
