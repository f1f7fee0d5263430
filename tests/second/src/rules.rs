//! The rules, with at most one of them altered.
//!
//! Each alteration is a mistake that somebody could make. A comparison that
//! does not find it has a hole.

use crate::damage::{Clause, CLAUSES};

macro_rules! alterations {
    ($($name:ident $text:literal)*) => {
        /// One altered rule.
        #[derive(Clone, Copy, PartialEq, Eq, Debug)]
        pub enum Alteration {
            /// This clause of the damage test is missing.
            Untested(Clause),
            $(#[doc = $text] $name,)*
        }

        const LISTED: &[(Alteration, &str, &str)] = &[
            $((Alteration::$name, stringify!($name), $text),)*
        ];
    };
}

alterations! {
    // Making.
    MakingVersionFirst "making tests 6 before the sizes"
    MakingLengthFirst "making tests 5 before the sizes"
    Making65Readers "making takes 65 readers"
    MakingOneSlot "making takes 1 slot"
    MakingBelowLast "making refuses the last version"
    NewNever6 "6 is missing"
    Old6AboveSigned "6 is given for an old store's first version above 2^63 - 1"
    RefusedMakingClears "a refused making clears the words"
    FreshEntriesZero "fresh entries are 0"
    FreshFeathered "fresh entries are 90000, whatever the first table says"
    FreshBy16Bits "fresh entries are the low 16 bits of the first table's"
    FreshFirstEntry "every fresh entry is the first table's first"
    FreshSlotZeroOnly "only slot 0 is filled with the first table"
    FreshLastSlotLeft "the last slot is not filled with the first table"
    ShelfFeathered "the plain shelf's first table is 90000 everywhere"
    FreshNewPublishedZero "a fresh new store's published versions are 0"
    FreshOldPublishedZero "a fresh old store's published versions are 0"
    FreshWithinSizeOnly "published versions are fresh only within the size"
    KindsBeforeInMakings "making takes the kind numbers of the format before, 1 and 2"
    WordsBeforeTaken "425 words, as many as there were before, are taken for a store"
    UnequalMade "making takes a rest store with unequal sizes"
    UnequalFirst "3 for unequal sizes is tested before 2"
    UnequalAfterSlots "3 for unequal sizes is tested after 4"
    UnequalRefusedInAll "unequal sizes of a new or old store get 3"
    FreshObservedZero "a fresh rest store's observed epochs are 0"
    FreshObservedNotReading "a fresh rest store's observed epochs are 2^64 - 1"
    MakingLeavesParticipants "making leaves steps, counts and pairs as lent"
    // The first table.
    TableLengthBeforeKind "40 is tested before an unknown kind"
    TableLengthFirst "40 is tested before the sizes"
    TableLengthBeforeVersion "40 is tested before 6"
    TablePitchFirst "41 is tested before 40"
    TableStepFirst "42 is tested before 41"
    TableTestedInTurn "42 is tested of two entries before 41 is of the next"
    Table33Taken "a first table of 33 entries is taken, without its last"
    Table31Taken "a first table of 31 entries is taken, its last one twice"
    EmptyTableTaken "no entries are taken for 32 times 90000"
    TableFrom5001 "a first table may have -5001"
    TableTo94999 "a first table may not have 95000"
    TableFrom500 "a first table may not have less than -500"
    TableTo9500 "a first table may not have more than 9500"
    TablePitchBy16Bits "41 is tested of the low 16 bits of an entry"
    LastTablePitchUntested "41 leaves out entry 31"
    Step15000Refused "a step of 15000 gets 42"
    Step15001Taken "a step of 15001 is taken"
    Step1501Refused "a step of more than 1500 gets 42"
    StepBy16Bits "42 is tested of the low 16 bits of a step"
    StepsUpOnly "42 is given for steps upwards only"
    StepsDownOnly "42 is given for steps downwards only"
    FirstPairUntested "42 leaves out entries 0 and 1"
    LastPairUntested "42 leaves out entries 30 and 31"
    PairAroundTested "42 is given for entries 31 and 0 too"
    // The damage test.
    KindsBeforeInWords "the kind numbers of the format before, 1 and 2, pass in word 0"
    NameBeforeSpoiled "10 and 11 are tested before 1"
    OldVersionSigned "an old store's version above 2^63 - 1 is spoiled"
    OldVersionAsNew "an old store's version above 2^64 - 2 is spoiled"
    LongerEntriesPass "longer entries pass the damage test"
    OldPlaceTwo "an old reader may be at place 2"
    NewPlace36 "a new publisher may be at place 36"
    PickedAlwaysTested "the picked slot is tested at every place"
    PublishedTestedAtFour "the published version is tested at place 4 too"
    HeldAlwaysTested "the held slot is tested at place 0 too"
    WalkTestedAt34 "the mark and the waits are tested at 34 too"
    MarkPastLast "a new store's mark may be one above the last version"
    OldMarkZeroSpoiled "an old store's mark of 0 is spoiled"
    OldMarkSigned "an old store's mark above 2^63 - 1 is spoiled"
    NextTestedAt38 "next is tested at 38 too"
    NewIndicatorsTested "a new store's indicators are tested"
    SpoiledBeyondSizes "records beyond the sizes are tested"
    RestReaderAtFour "a rest reader may be at place 4"
    RestPlace36 "a rest publisher may be at place 36"
    RestMarkBelowLast "a rest publisher's mark may not be 2^64 - 1"
    RestNextTested "a rest publisher's next is tested at 35"
    RestIndicatorsTested "a rest store's indicators are tested"
    ObservedAheadSpoiled "an observed epoch above the epoch is spoiled"
    StepPastEnd "a checkpoint's step may be participants + 2"
    StepBelowEnd "a checkpoint's step may not be participants + 1"
    EightSpoiledElsewhere "eight deferred slots are spoiled at every place"
    BehindTested "the pairs behind the count are tested"
    QueuedMarkTested "a queued mark of 0 is spoiled"
    ParticipantsTestedInAll "a new or old store's steps, counts and pairs are tested"
    // Readers.
    SecondNotPublished "the second version is never published"
    ThirdLoadPublished "from 3 to 4 the version of now is published"
    PicksOnOpening "a new reader picks when it goes to 4"
    OldEntersTwo "an old ENTER goes from 1 to 2"
    ArrivesByVersion "an old reader arrives by the version of now"
    DepartsByVersion "an old reader departs by the version of now"
    LooksAtFour "LOOK is allowed at 4"
    LooksAtCurrent "LOOK reads the current slot"
    LookSaysFeathered "LOOK always says 90000"
    PitchRepliedBy16Bits "LOOK replies with the low 16 bits of a pitch"
    PitchSignLost "LOOK replies with a negative pitch modulo 2^32"
    Entry31Refused "entry 31 is refused"
    TurnBeforeEntry "LOOK tests 20 before 13"
    LeavesAtFiveOnly "LEAVE is refused at 4"
    LeavesAtThree "LEAVE is allowed at 3"
    LeaveKeepsPublished "LEAVE does not publish NOT_READING"
    // Publishers.
    TurnBeforeSlot "CLAIM tests 21 before 12"
    TurnBeforePitch "WRITE tests 21 before 14"
    Claim30First "CLAIM tests 30 before 31"
    NewRefusesBusy "a new store gives 31"
    OldTakesSeveral "an old store never gives 31"
    HeldAtZeroCounts "a slot number left at place 0 counts as held"
    HolderAt34Ignored "CLAIM ignores a holder at 34"
    HolderAt38Ignored "CLAIM ignores a holder at 38"
    HoldersBeyondSizes "CLAIM counts holders beyond the sizes"
    CurrentIsFree "CLAIM takes the current slot"
    PitchFrom5001 "WRITE accepts -5001"
    PitchTo94999 "WRITE refuses 95000"
    PitchFrom500 "WRITE refuses less than -500"
    PitchTo9500 "WRITE refuses more than 9500"
    PitchTestedBy16Bits "14 is tested of the low 16 bits of a pitch"
    PitchWrittenBy16Bits "WRITE stores the low 16 bits of a pitch"
    WritesCurrent "WRITE stores in the current slot"
    WrittenBefore "WRITE replies with the number written before"
    SwapsAt32 "SWAP is allowed with 31 written"
    SwapKeepsHeld "SWAP keeps its own slot held"
    SwapRepliesOwn "SWAP replies with its own slot"
    SyncAtLast "SYNC is allowed at the last version"
    LastBeforeTurn "SYNC tests 32 before 21"
    Old32AtSigned "32 is given at an old store's version 2^63 - 1"
    Old32AtEnd "32 is given at an old store's version 2^64 - 1"
    MarkIsVersion "the mark is the version"
    OldMarkStops "an old store's mark stops at 2^64 - 1"
    OldMarkModulo63 "an old store's mark is modulo 2^63"
    SyncKeepsLooks "SYNC leaves looks"
    SyncKeepsWaits "SYNC leaves waits"
    OldSyncKeepsNext "an old SYNC leaves next"
    OldRaisesAt35 "an old RAISE is allowed at 35"
    RaiseComparesMark "RAISE compares the version with mark, not mark - 1"
    RaisesWhenBehind "RAISE raises from any version below mark"
    OldNoneBeforeZero "an old RAISE takes 0 for one before the mark 0"
    SharedStays "a shared RAISE stays at its place"
    ReleasesAt37 "RELEASE is allowed at 37"
    ReleasesSaturate "releases stop at 2^64 - 1"
    ReleaseClearsHeld "RELEASE sets the held slot to 0"
    // Calls that the kind lacks.
    LackedByTurn "a call that the kind lacks gets 20 or 21"
    LackedByName "a call that the kind lacks gets 10 or 11 for a wrong name"
    RestLeaves "a rest store has LEAVE, which drops the pick"
    OthersPick "a new or old store has PICK"
    // CLAIM, WRITE and SWAP of a rest store.
    DeferredIsFree "CLAIM takes deferred slots"
    OwnDeferredIsFree "CLAIM takes the publisher's own deferred slots"
    OthersDeferredIsFree "CLAIM takes the deferred slots of others"
    BehindCountsAsHeld "CLAIM counts the pairs behind the count"
    DeferredBeyondSizes "CLAIM counts the deferred slots beyond the sizes"
    RestRefusesBusy "a rest store gives 31"
    ClaimsAt34 "a rest store's CLAIM is allowed at 34"
    StopsInCheckpoint "CLAIM, WRITE and SWAP get 21 inside a checkpoint"
    // PICK.
    PicksSlotZero "PICK picks slot 0"
    PickKeepsFormer "PICK at 5 keeps the slot picked before"
    PickRefusedAtFive "PICK is refused at 5"
    PicksInCheckpoint "PICK is allowed inside a checkpoint"
    PicksAt35 "PICK is allowed at 35"
    PickObserves "PICK observes the epoch"
    PickRepliesPlace "PICK replies with the place"
    // CHECKPOINT.
    CheckpointsAt35 "CHECKPOINT is allowed at 35"
    CheckpointKeepsPick "CHECKPOINT 1 keeps the pick"
    CheckpointClearsPicked "CHECKPOINT 1 sets the picked slot to 0"
    ObservesAtOnce "CHECKPOINT 1 stores the epoch as observed"
    ObservesEpochOfNow "CHECKPOINT 2 observes the epoch of now"
    ReadsOwnObserved "CHECKPOINT reads its own observed epoch each time"
    ReadsLoaded "CHECKPOINT reads loaded epochs"
    ReadsFromTheLast "CHECKPOINT reads from the last participant down"
    LeastNotRestarted "the first read goes on with the least of before"
    GreatestRead "CHECKPOINT keeps the greatest epoch read"
    LastReadLeftOut "the last CHECKPOINT reads nothing"
    FreesByLeastBefore "the last CHECKPOINT frees by the least before its read"
    FreesBelowLeast "only marks below the least are freed"
    FreesEverything "every deferred slot is freed"
    NeverFrees "no deferred slot is freed"
    FreesFirstOnly "one slot is freed at a time"
    FreesFrontOnly "slots behind one that stays are not freed"
    FreesOfOthers "the slots of other participants are freed too"
    FreedByExchange "the last slot takes the place of one that is freed"
    BehindCleared "the pairs behind the count are cleared"
    CheckpointReleases "a freed slot adds one to releases"
    // DEFER.
    DefersAt33 "DEFER is allowed at 33"
    DefersInCheckpoint "DEFER is allowed inside a checkpoint"
    LastEpochBeforeTurn "DEFER tests 43 before 21"
    EightBeforeTurn "DEFER tests 44 before 21"
    EightBeforeLastEpoch "DEFER tests 44 before 43"
    NumbersExchanged "43 and 44 are exchanged"
    EpochWraps "43 is missing"
    LastEpochEarly "43 is given at 2^64 - 2 too"
    NinthDeferred "44 is missing"
    EighthRefused "44 is given with seven deferred slots too"
    EpochNotRaised "DEFER does not raise the epoch"
    MarkBeforeRaise "the mark is the epoch before the raise"
    DeferKeepsPick "DEFER at 34 keeps the pick"
    DeferObservesAtOnce "DEFER at 34 observes its mark"
    DeferKeepsObserved "DEFER at 35 does not observe its mark"
    DeferObservesEpochOfNow "DEFER at 35 observes the epoch of now"
    QueuesCurrent "DEFER queues the current slot"
    QueuesEpochOfNow "DEFER queues the slot with the epoch of now"
    QueuesAtFront "DEFER queues the slot before the others"
    CountNotRaised "DEFER at 35 leaves the count"
    DeferClearsHeld "DEFER at 35 sets the held slot to 0"
    // The walk.
    NewWalksAt35 "a new WALK is allowed at 35"
    LooksBeforeTurn "WALK tests 33 before 21"
    OldAsksOneLook "an old WALK tests 33 with one look"
    SumBelowHighest "33 is given at 2^64 - 1 too"
    SumNotTested "33 is missing"
    WalksAllRecords "a walk goes over all 64 records"
    ZeroLooksOnce "WALK with b = 0 makes a look"
    WaitNotALook "a look that does not pass is not counted"
    WaitsNotCounted "waits does not rise"
    WaitStartsAgain "a wait sends next back to 0"
    SpentAtCount "spent is tested before returned"
    SpentKeepsNext "spent leaves next"
    PassesAboveMark "a walk passes only versions above mark"
    PassesBelowMark "a walk passes mark - 1"
    PassesOutOnly "a walk passes only NOT_READING"
    OldWrongIndicator "the indicators are looked at in the wrong order"
    OldLooksAreB "an old WALK counts b looks"
    QuietSkips36 "quiet goes to 37"
}

impl Alteration {
    /// Every alteration.
    pub fn all() -> Vec<Alteration> {
        let untested = CLAUSES.iter().map(|&clause| Alteration::Untested(clause));
        LISTED.iter().map(|entry| entry.0).chain(untested).collect()
    }

    /// The alteration's name, in small letters with hyphens.
    pub fn name(self) -> String {
        match self {
            Alteration::Untested(clause) => hyphened(&format!("{clause:?}Untested")),
            _ => hyphened(self.listed().1),
        }
    }

    /// What is altered.
    pub fn text(self) -> String {
        match self {
            Alteration::Untested(clause) => {
                let clause = hyphened(&format!("{clause:?}")).replace('-', " ");
                format!("the damage test leaves out: {clause}")
            }
            _ => self.listed().2.to_string(),
        }
    }

    pub fn by_name(name: &str) -> Option<Alteration> {
        Alteration::all()
            .into_iter()
            .find(|alteration| alteration.name() == name)
    }

    fn listed(self) -> &'static (Alteration, &'static str, &'static str) {
        LISTED
            .iter()
            .find(|entry| entry.0 == self)
            .expect("every alteration is listed")
    }
}

/// `HolderAt38Ignored` becomes `holder-at-38-ignored`.
fn hyphened(name: &str) -> String {
    let mut out = String::new();
    let mut before = '-';
    for c in name.chars() {
        let starts = c.is_ascii_uppercase() || (c.is_ascii_digit() && !before.is_ascii_digit());
        if starts && !out.is_empty() {
            out.push('-');
        }
        out.push(c.to_ascii_lowercase());
        before = c;
    }
    out
}

/// The rules of documents 01 and 02, with at most one altered.
#[derive(Clone, Copy, PartialEq, Eq, Debug)]
pub struct Rules(Option<Alteration>);

impl Rules {
    pub const AS_WRITTEN: Rules = Rules(None);

    pub fn altered(alteration: Alteration) -> Rules {
        Rules(Some(alteration))
    }

    pub fn has(self, alteration: Alteration) -> bool {
        self.0 == Some(alteration)
    }
}
