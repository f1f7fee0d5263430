//! Short lists of an old store about 2^63 and across the end of its versions,
//! worked out by hand from request 5. Each must stand as written, and must
//! fall under a rule altered against it.

use crate::bench::{all_fall, all_stand, Listed, Play};
use crate::call::Call;
use crate::layout::{publisher_at, INDICATOR_0, INDICATOR_1, RELEASES, VERSION};
use crate::rules::{Alteration, Rules};
use crate::store::Kind;

const END: u64 = u64::MAX;

impl Play {
    fn old(rules: Rules, readers: u16, slots: u16, version: u64) -> Play {
        Play::fresh(rules, Kind::Old, (readers, 1, slots), version)
    }

    /// From CLAIM to RAISE, with this mark.
    fn raises(&mut self, s: u16, v: i32, former: u16, mark: u64) {
        self.swaps(0, s, v, former);
        self.says(Call::Sync { p: 0 }, &format!("synced {mark}"));
        self.says(Call::Walk { p: 0, b: 1 }, "quiet");
        self.says(Call::Raise { p: 0 }, "raised");
        self.note(self.words[VERSION] == mark, "the version is not the mark");
    }

    /// A whole publication that nobody holds up.
    fn publishes_alone(&mut self, s: u16, v: i32, former: u16, mark: u64) {
        self.raises(s, v, former, mark);
        self.says(Call::Walk { p: 0, b: 1 }, "returned 2 0");
        let releases = self.words[RELEASES] + 1;
        let freed = format!("freed {former} {releases}");
        self.says(Call::Release { p: 0 }, &freed);
    }
}

/// From 2^64 - 2 to 1.
fn past_the_end(rules: Rules) -> Vec<String> {
    let mut play = Play::old(rules, 1, 2, END - 1);
    play.publishes_alone(1, 100, 0, END);
    play.publishes_alone(0, 200, 1, 0);
    play.publishes_alone(1, 300, 0, 1);
    play.enters(0, &[1, 4, 5]);
    play.says(Call::Look { r: 0, k: 31 }, "pitch 300");
    play.wrong
}

/// The version 2^64 - 1 is odd, and the mark 0 is even.
fn sections_across_the_end(rules: Rules) -> Vec<String> {
    let mut play = Play::old(rules, 2, 3, END);
    play.enters(0, &[1, 4, 5]);
    play.enters(1, &[1]);
    let indicators = |play: &Play| (play.words[INDICATOR_0], play.words[INDICATOR_1]);
    play.note(indicators(&play) == (0, 1), "it did not arrive at 1");
    play.raises(1, 100, 0, 0);
    play.says(Call::Walk { p: 0, b: 1 }, "waiting 1");
    play.enters(1, &[4, 5]);
    play.note(indicators(&play) == (0, 2), "it did not arrive at 1");
    play.says(Call::Look { r: 0, k: 3 }, "pitch 90000");
    play.says(Call::Look { r: 1, k: 3 }, "pitch 100");
    play.says(Call::Leave { r: 0 }, "left");
    play.says(Call::Walk { p: 0, b: 1 }, "waiting 1");
    play.says(Call::Leave { r: 1 }, "left");
    play.enters(0, &[1, 4]);
    play.note(indicators(&play) == (1, 0), "it did not arrive at 0");
    play.says(Call::Walk { p: 0, b: 1 }, "returned 4 2");
    play.says(Call::Release { p: 0 }, "freed 0 1");
    play.swaps(0, 0, 200, 1);
    play.says(Call::Sync { p: 0 }, "synced 1");
    play.says(Call::Walk { p: 0, b: 1 }, "quiet");
    play.says(Call::Raise { p: 0 }, "raised");
    play.says(Call::Walk { p: 0, b: 1 }, "waiting 0");
    play.wrong
}

/// A reader that loaded 2^64 - 2 and arrives after a whole publication, as in
/// P5.
fn late_arrival(rules: Rules) -> Vec<String> {
    let mut play = Play::old(rules, 1, 3, END - 1);
    play.enters(0, &[1]);
    play.publishes_alone(1, 100, 0, END);
    play.enters(0, &[4]);
    play.swaps(0, 2, 200, 1);
    play.says(Call::Sync { p: 0 }, "synced 0");
    play.says(Call::Walk { p: 0, b: 1 }, "waiting 0");
    play.wrong
}

/// Where the versions ended before.
fn about_the_middle(rules: Rules) -> Vec<String> {
    let mut play = Play::old(rules, 1, 2, (1 << 63) - 1);
    play.publishes_alone(1, 100, 0, 1 << 63);
    play.publishes_alone(0, 200, 1, (1 << 63) + 1);
    let mut above = Play::old(rules, 1, 2, 1 << 63);
    above.publishes_alone(1, 100, 0, (1 << 63) + 1);
    play.wrong.append(&mut above.wrong);
    play.wrong
}

/// The last versions of before and of a new store, and the highest number.
fn any_first_version(rules: Rules) -> Vec<String> {
    let mut wrong = Vec::new();
    for version in [0, (1 << 63) - 1, 1 << 63, END - 2, END - 1, END] {
        let mut play = Play::old(rules, 1, 2, version);
        play.enters(0, &[1, 4, 5]);
        let odd = (version % 2) as usize;
        play.note(play.words[INDICATOR_0 + odd] == 1, "another indicator");
        wrong.append(&mut play.wrong);
    }
    wrong
}

/// RAISE in stores put together by hand, some of which no list reaches.
fn raises_by_hand(rules: Rules) -> Vec<String> {
    let mut wrong = Vec::new();
    for (version, mark, due) in [
        (END, 0, "raised"),
        (0, 0, "shared"),
        (END - 1, 0, "shared"),
        (END - 1, END, "raised"),
        (0, 1, "raised"),
        (0, END, "shared"),
    ] {
        let mut play = Play::fresh(rules, Kind::Old, (1, 2, 3), version);
        play.no_list();
        play.words[publisher_at(1)..][..3].copy_from_slice(&[36, 1, mark]);
        play.says(Call::Raise { p: 1 }, due);
        let after = if due == "raised" { mark } else { version };
        play.note(play.words[VERSION] == after, "another version");
        wrong.append(&mut play.wrong);
    }
    wrong
}

use Alteration as A;

const LISTS: [Listed; 6] = [
    (
        "past the end",
        past_the_end,
        &[
            A::OldMarkStops,
            A::OldMarkZeroSpoiled,
            A::OldNoneBeforeZero,
            A::Old32AtEnd,
            A::OldVersionAsNew,
            A::OldVersionSigned,
            A::OldMarkSigned,
            A::OldMarkModulo63,
            A::Old6AboveSigned,
            A::MarkIsVersion,
        ],
    ),
    (
        "sections across the end",
        sections_across_the_end,
        &[A::ArrivesByVersion, A::OldWrongIndicator],
    ),
    (
        "late arrival",
        late_arrival,
        &[A::ArrivesByVersion, A::OldMarkStops, A::Old32AtEnd],
    ),
    (
        "about the middle",
        about_the_middle,
        &[
            A::Old32AtSigned,
            A::OldVersionSigned,
            A::OldMarkSigned,
            A::OldMarkModulo63,
            A::Old6AboveSigned,
        ],
    ),
    (
        "any first version",
        any_first_version,
        &[A::Old6AboveSigned, A::OldVersionSigned, A::OldVersionAsNew],
    ),
    (
        "raises by hand",
        raises_by_hand,
        &[
            A::OldNoneBeforeZero,
            A::OldMarkZeroSpoiled,
            A::RaisesWhenBehind,
            A::RaiseComparesMark,
        ],
    ),
];

#[test]
fn lists_stand_as_written() {
    all_stand(&LISTS);
}

#[test]
fn lists_fall_under_altered_rules() {
    all_fall(&LISTS);
}
