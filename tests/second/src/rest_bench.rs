//! Short lists of a rest store, worked out by hand from request 3. Each must
//! stand as written, and must fall under a rule altered against it.

use crate::bench::{all_fall, all_stand, Listed, Play};
use crate::call::Call;
use crate::layout::{pair_at, publisher_at, reader_at, step_at, RELEASES, VERSION};
use crate::rules::{Alteration, Rules};
use crate::store::Kind;

impl Play {
    fn rest(rules: Rules, participants: u16, slots: u16, version: u64) -> Play {
        let sizes = (participants, participants, slots);
        Play::fresh(rules, Kind::Rest, sizes, version)
    }

    /// CHECKPOINT r, with these steps as replies.
    fn steps(&mut self, r: u16, steps: std::ops::RangeInclusive<u64>) {
        for step in steps {
            self.says(Call::Checkpoint { r }, &format!("at {step}"));
        }
    }

    /// Both DEFERs.
    fn defers(&mut self, p: u16) {
        self.says(Call::Defer { p }, "at 35");
        self.says(Call::Defer { p }, "at 0");
    }

    /// From CLAIM to the second DEFER, which queues the former slot.
    fn publishes(&mut self, p: u16, s: u16, former: u16) {
        self.swaps(p, s, 1000 + 10 * i32::from(s), former);
        self.defers(p);
    }

    fn words_are(&mut self, due: &[(usize, u64)]) {
        for &(word, number) in due {
            let text = format!("word {word} is {}, not {number}", self.words[word]);
            self.note(self.words[word] == number, &text);
        }
    }
}

fn one_participant(rules: Rules) -> Vec<String> {
    let mut play = Play::rest(rules, 1, 2, 0);
    play.publishes(0, 1, 0);
    play.words_are(&[(VERSION, 1), (RELEASES, 0), (reader_at(0) + 3, 1)]);
    play.says(Call::Claim { p: 0, s: 0 }, "refused 30");
    play.steps(0, 1..=3);
    play.words_are(&[(RELEASES, 0), (step_at(0), 0), (reader_at(0) + 2, 1)]);
    play.says(Call::Claim { p: 0, s: 0 }, "claimed 0");
    play.wrong
}

fn picks(rules: Rules) -> Vec<String> {
    let mut play = Play::rest(rules, 1, 3, 0);
    play.says(Call::Look { r: 0, k: 0 }, "refused 20");
    play.says(Call::Pick { r: 0 }, "picked 0");
    play.swaps(0, 2, 700, 0);
    play.says(Call::Look { r: 0, k: 0 }, "pitch 90000");
    play.says(Call::Pick { r: 0 }, "picked 2");
    play.says(Call::Look { r: 0, k: 31 }, "pitch 700");
    play.says(Call::Defer { p: 0 }, "at 35");
    play.says(Call::Look { r: 0, k: 31 }, "refused 20");
    play.says(Call::Defer { p: 0 }, "at 0");
    play.says(Call::Pick { r: 0 }, "picked 2");
    play.steps(0, 1..=1);
    play.says(Call::Look { r: 0, k: 31 }, "refused 20");
    play.words_are(&[(reader_at(0), 0), (reader_at(0) + 4, 2)]);
    play.wrong
}

fn turns(rules: Rules) -> Vec<String> {
    let mut play = Play::rest(rules, 1, 4, 0);
    play.steps(0, 1..=1);
    play.says(Call::Pick { r: 0 }, "refused 20");
    play.says(Call::Look { r: 0, k: 0 }, "refused 20");
    play.says(Call::Defer { p: 0 }, "refused 21");
    play.writes(0, 1, 32, 5);
    play.says(Call::Defer { p: 0 }, "refused 21");
    play.steps(0, 2..=3);
    play.says(Call::Defer { p: 0 }, "refused 21");
    play.steps(0, 1..=2);
    play.says(Call::Swap { p: 0 }, "swapped 0");
    play.says(Call::Defer { p: 0 }, "refused 21");
    play.steps(0, 3..=3);
    play.says(Call::Claim { p: 0, s: 2 }, "refused 21");
    play.says(Call::Defer { p: 0 }, "at 35");
    play.says(Call::Pick { r: 0 }, "refused 20");
    play.says(Call::Checkpoint { r: 0 }, "refused 20");
    play.says(Call::Claim { p: 0, s: 2 }, "refused 21");
    play.says(Call::Defer { p: 0 }, "at 0");
    play.says(Call::Defer { p: 0 }, "refused 21");
    play.says(Call::Claim { p: 0, s: 2 }, "claimed 2");
    play.wrong
}

/// Participant 0 publishes; participant 1 has picked the former table and
/// comes to its rest point late.
fn everyone_observes(rules: Rules) -> Vec<String> {
    let mut play = Play::rest(rules, 2, 3, 5);
    play.says(Call::Pick { r: 1 }, "picked 0");
    play.publishes(0, 1, 0);
    play.steps(0, 1..=4);
    play.words_are(&[(reader_at(0) + 2, 5), (step_at(0) + 1, 1)]);
    play.says(Call::Claim { p: 1, s: 0 }, "refused 30");
    play.says(Call::Look { r: 1, k: 7 }, "pitch 90000");
    play.says(Call::Pick { r: 1 }, "picked 1");
    play.steps(0, 1..=4);
    play.says(Call::Claim { p: 1, s: 0 }, "refused 30");
    play.steps(1, 1..=1);
    play.steps(0, 1..=4);
    play.words_are(&[(reader_at(1) + 1, 6), (reader_at(1) + 3, 5)]);
    play.says(Call::Claim { p: 1, s: 0 }, "refused 30");
    play.steps(1, 2..=2);
    play.steps(0, 1..=4);
    play.says(Call::Claim { p: 1, s: 0 }, "claimed 0");
    play.wrong
}

/// Participant 1 reads participant 0 before that one observes the raise.
fn read_too_early(rules: Rules) -> Vec<String> {
    let mut play = Play::rest(rules, 2, 2, 0);
    play.publishes(1, 1, 0);
    play.steps(1, 1..=3);
    play.steps(0, 1..=2);
    play.steps(1, 4..=4);
    play.says(Call::Claim { p: 0, s: 0 }, "refused 30");
    play.steps(1, 1..=4);
    play.says(Call::Claim { p: 0, s: 0 }, "claimed 0");
    play.wrong
}

/// Participant 1 raises between the load and the store of participant 0.
fn raised_between(rules: Rules) -> Vec<String> {
    let mut play = Play::rest(rules, 2, 4, 0);
    play.swaps(0, 1, 1, 0);
    play.swaps(1, 2, 2, 1);
    play.steps(1, 1..=1);
    play.says(Call::Defer { p: 0 }, "at 35");
    play.words_are(&[(VERSION, 1), (reader_at(0) + 3, 0)]);
    play.steps(1, 2..=4);
    play.says(Call::Defer { p: 1 }, "at 35");
    play.words_are(&[(VERSION, 2), (reader_at(1) + 3, 0)]);
    play.says(Call::Defer { p: 0 }, "at 0");
    play.words_are(&[(reader_at(0) + 3, 1), (pair_at(0, 0) + 1, 1)]);
    play.says(Call::Defer { p: 1 }, "at 0");
    play.words_are(&[(reader_at(1) + 3, 2), (pair_at(1, 0) + 1, 2)]);
    play.steps(0, 1..=4);
    play.says(Call::Claim { p: 0, s: 1 }, "refused 30");
    play.says(Call::Claim { p: 0, s: 0 }, "claimed 0");
    play.wrong
}

/// Of four deferred slots two are freed. The others move down.
fn some_stay(rules: Rules) -> Vec<String> {
    let mut play = Play::rest(rules, 2, 6, 0);
    play.publishes(0, 1, 0);
    play.publishes(0, 2, 1);
    play.steps(1, 1..=2);
    play.publishes(0, 3, 2);
    play.publishes(0, 4, 3);
    play.words_are(&[(step_at(0) + 1, 4), (pair_at(0, 3), 3)]);
    play.steps(0, 1..=4);
    play.words_are(&[(step_at(0) + 1, 2), (RELEASES, 0)]);
    let pairs = [(2, 3), (3, 4), (2, 3), (3, 4)];
    for (i, (slot, mark)) in pairs.into_iter().enumerate() {
        play.words_are(&[(pair_at(0, i), slot), (pair_at(0, i) + 1, mark)]);
    }
    play.words_are(&[(publisher_at(0) + 1, 3)]);
    play.says(Call::Claim { p: 0, s: 3 }, "refused 30");
    play.says(Call::Claim { p: 0, s: 0 }, "claimed 0");
    play.wrong
}

/// A checkpoint frees slots of its own participant alone.
fn own_slots_alone(rules: Rules) -> Vec<String> {
    let mut play = Play::rest(rules, 2, 4, 0);
    play.publishes(0, 1, 0);
    play.publishes(1, 2, 1);
    play.steps(0, 1..=2);
    play.steps(1, 1..=4);
    play.says(Call::Claim { p: 1, s: 0 }, "refused 30");
    play.says(Call::Claim { p: 1, s: 1 }, "claimed 1");
    play.wrong
}

/// Eight slots are deferred, and no ninth.
fn eight(rules: Rules) -> Vec<String> {
    let mut play = Play::rest(rules, 1, 10, 0);
    for slot in 1..=8 {
        play.publishes(0, slot, slot - 1);
    }
    play.says(Call::Defer { p: 0 }, "refused 21");
    play.swaps(0, 9, 9, 8);
    play.says(Call::Defer { p: 0 }, "refused 44");
    play.words_are(&[(VERSION, 8)]);
    play.steps(0, 1..=3);
    play.says(Call::Defer { p: 0 }, "at 35");
    play.wrong
}

/// From 2^64 - 9 eight raises lead to the last epoch. 43 is tested first.
fn last_epoch(rules: Rules) -> Vec<String> {
    let mut play = Play::rest(rules, 1, 10, u64::MAX - 8);
    for slot in 1..=8 {
        play.publishes(0, slot, slot - 1);
    }
    play.words_are(&[(VERSION, u64::MAX)]);
    play.says(Call::Defer { p: 0 }, "refused 21");
    play.swaps(0, 9, 9, 8);
    play.says(Call::Defer { p: 0 }, "refused 43");
    play.steps(0, 1..=3);
    play.says(Call::Defer { p: 0 }, "refused 43");
    let mut late = Play::rest(rules, 1, 2, u64::MAX);
    late.swaps(0, 1, 1, 0);
    late.says(Call::Defer { p: 0 }, "refused 43");
    play.wrong.append(&mut late.wrong);
    play.wrong
}

use Alteration as A;

const LISTS: [Listed; 10] = [
    (
        "one participant",
        one_participant,
        &[
            A::NeverFrees,
            A::FreesBelowLeast,
            A::LastReadLeftOut,
            A::FreesByLeastBefore,
            A::LeastNotRestarted,
            A::EpochNotRaised,
            A::MarkBeforeRaise,
            A::CountNotRaised,
            A::QueuesCurrent,
            A::DeferKeepsObserved,
            A::DeferredIsFree,
            A::OwnDeferredIsFree,
            A::CheckpointReleases,
        ],
    ),
    (
        "picks",
        picks,
        &[
            A::PicksSlotZero,
            A::PickKeepsFormer,
            A::PickRefusedAtFive,
            A::PickRepliesPlace,
            A::LooksAtCurrent,
            A::DeferKeepsPick,
            A::CheckpointKeepsPick,
            A::CheckpointClearsPicked,
        ],
    ),
    (
        "turns",
        turns,
        &[
            A::PicksInCheckpoint,
            A::DefersInCheckpoint,
            A::DefersAt33,
            A::StopsInCheckpoint,
            A::ClaimsAt34,
            A::PicksAt35,
            A::CheckpointsAt35,
        ],
    ),
    (
        "everyone observes",
        everyone_observes,
        &[
            A::ReadsOwnObserved,
            A::ReadsLoaded,
            A::GreatestRead,
            A::LastReadLeftOut,
            A::FreesByLeastBefore,
            A::FreesEverything,
            A::PickObserves,
            A::ObservesAtOnce,
            A::OthersDeferredIsFree,
            A::FreshObservedZero,
            A::FreshObservedNotReading,
        ],
    ),
    (
        "read too early",
        read_too_early,
        &[A::ReadsFromTheLast, A::LeastNotRestarted],
    ),
    (
        "raised between",
        raised_between,
        &[
            A::ObservesEpochOfNow,
            A::QueuesEpochOfNow,
            A::DeferObservesAtOnce,
            A::DeferObservesEpochOfNow,
            A::DeferKeepsObserved,
            A::MarkBeforeRaise,
            A::RestRefusesBusy,
        ],
    ),
    (
        "some stay",
        some_stay,
        &[
            A::FreedByExchange,
            A::BehindCleared,
            A::QueuesAtFront,
            A::FreesFirstOnly,
            A::BehindCountsAsHeld,
            A::DeferClearsHeld,
        ],
    ),
    ("own slots alone", own_slots_alone, &[A::FreesOfOthers]),
    (
        "eight",
        eight,
        &[
            A::NinthDeferred,
            A::EighthRefused,
            A::NumbersExchanged,
            A::EightBeforeTurn,
            A::EightSpoiledElsewhere,
        ],
    ),
    (
        "last epoch",
        last_epoch,
        &[
            A::EpochWraps,
            A::LastEpochEarly,
            A::LastEpochBeforeTurn,
            A::EightBeforeLastEpoch,
            A::NumbersExchanged,
            A::RestMarkBelowLast,
        ],
    ),
];

#[test]
fn lists_stand_as_written() {
    all_stand(&LISTS);
}

#[test]
fn lists_fall_under_altered_rules() {
    all_fall(&LISTS);
}
