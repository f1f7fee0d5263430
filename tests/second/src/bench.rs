//! Document 01's bench examples P1 to P12 and its run sheet, played on this
//! implementation. Each must stand as written, and must fall under a rule
//! altered against it.

use crate::call::Call;
use crate::demand3::Demand3;
use crate::layout::WORDS;
use crate::lent;
use crate::making::Making;
use crate::rules::{Alteration, Rules};
use crate::store::{Kind, Pitch};

/// The first table of every example.
const FIRST: [Pitch; 32] = [90_000; 32];

/// A store being played, with everything that went otherwise than told.
pub struct Play {
    rules: Rules,
    pub words: [u64; WORDS],
    entries: Vec<Pitch>,
    lines: Vec<String>,
    pub wrong: Vec<String>,
    demand3: Option<Demand3>,
}

impl Play {
    pub fn fresh(rules: Rules, kind: Kind, sizes: (u16, u16, u16), version: u64) -> Play {
        let (readers, publishers, slots) = sizes;
        let mut play = Play {
            rules,
            words: [0; WORDS],
            entries: vec![-7; usize::from(slots) * 32],
            lines: Vec::new(),
            wrong: Vec::new(),
            demand3: None,
        };
        let kind_number = kind.number() as u16;
        let make = Call::Make {
            kind: kind_number,
            readers,
            publishers,
            slots,
            version,
        };
        play.says(make, "made");
        let making = Making::of(&make).expect("a known kind");
        play.demand3 = Some(Demand3::fresh(&making, &FIRST, rules));
        play
    }

    /// Makes the call and notes if the reply is not this one.
    pub fn says(&mut self, call: Call, due: &str) {
        let (words, entries) = (&mut self.words, &mut self.entries);
        let reply = lent::call(words, entries, &FIRST, &call, self.rules);
        self.lines
            .push(format!("({} {reply})", self.lines.len() + 1));
        self.note(
            reply.to_string() == due,
            &format!("{call} gave {reply}, not {due}"),
        );
        if let Some(demand3) = &mut self.demand3 {
            let kept = demand3
                .hear(&call, &reply)
                .and_then(|()| demand3.recorded(&self.words));
            if let Err(fault) = kept {
                self.wrong.push(format!("{call}: {fault}"));
            }
        }
    }

    pub fn note(&mut self, right: bool, text: &str) {
        if !right {
            self.wrong.push(text.to_string());
        }
    }

    /// The store is put together by hand from here on: no list is heard.
    pub fn no_list(&mut self) {
        self.demand3 = None;
    }

    /// ENTER r until these places have been said.
    pub fn enters(&mut self, r: u16, places: &[u64]) {
        for place in places {
            self.says(Call::Enter { r }, &format!("at {place}"));
        }
    }

    /// CLAIM and the first n WRITEs of the pitch v.
    pub fn writes(&mut self, p: u16, s: u16, n: u64, v: Pitch) {
        self.says(Call::Claim { p, s }, &format!("claimed {s}"));
        for written in 1..=n {
            self.says(Call::Write { p, v }, &format!("written {written}"));
        }
    }

    /// From CLAIM to SWAP, which hands out the former slot.
    pub fn swaps(&mut self, p: u16, s: u16, v: Pitch, former: u16) {
        self.writes(p, s, 32, v);
        self.says(Call::Swap { p }, &format!("swapped {former}"));
    }
}

const P1_INPUT: &str = "(store new 1 1 2 0)
(enter 0)
(enter 0)
(enter 0)
(enter 0)
(enter 0)
(look 0 31)
(claim 0 0)
(claim 0 1)
(leave 0)
";
const P1_OUTPUT: &str = "(1 made)
(2 at 1)
(3 at 2)
(4 at 3)
(5 at 4)
(6 at 5)
(7 pitch 90000)
(8 refused 30)
(9 claimed 1)
(10 left)
";

fn p1_calls() -> Vec<Call> {
    let mut calls = vec![Call::Make {
        kind: Kind::New.number() as u16,
        readers: 1,
        publishers: 1,
        slots: 2,
        version: 0,
    }];
    calls.extend([Call::Enter { r: 0 }; 5]);
    calls.push(Call::Look { r: 0, k: 31 });
    calls.push(Call::Claim { p: 0, s: 0 });
    calls.push(Call::Claim { p: 0, s: 1 });
    calls.push(Call::Leave { r: 0 });
    calls
}

fn p1(rules: Rules) -> Vec<String> {
    let mut words = [0; WORDS];
    let mut entries = vec![0; 64];
    let mut printed = String::new();
    for (n, call) in p1_calls().iter().enumerate() {
        let reply = lent::call(&mut words, &mut entries, &FIRST, call, rules);
        printed.push_str(&format!("({} {reply})\n", n + 1));
    }
    let differs = |(due, line): &(&str, &str)| due != line;
    let lines = P1_OUTPUT.lines().zip(printed.lines());
    let mut wrong: Vec<String> = lines
        .filter(differs)
        .map(|(_, line)| line.to_string())
        .collect();
    if printed.len() != P1_OUTPUT.len() {
        wrong.push("another length".to_string());
    }
    wrong
}

fn p2(rules: Rules) -> Vec<String> {
    let mut play = Play::fresh(rules, Kind::New, (1, 2, 3), 0);
    play.swaps(0, 1, 100, 0);
    play.swaps(1, 2, 200, 1);
    play.says(Call::Sync { p: 0 }, "synced 1");
    play.says(Call::Sync { p: 1 }, "synced 1");
    play.says(Call::Raise { p: 0 }, "raised");
    play.says(Call::Raise { p: 1 }, "shared");
    play.note(play.words[5] == 1, "the version is not 1");
    play.says(Call::Walk { p: 1, b: 1 }, "returned 1 0");
    play.wrong
}

fn p3(rules: Rules) -> Vec<String> {
    let mut play = Play::fresh(rules, Kind::New, (2, 1, 2), 0);
    play.enters(1, &[1, 2, 3, 4]);
    play.swaps(0, 1, 100, 0);
    play.says(Call::Sync { p: 0 }, "synced 1");
    play.says(Call::Raise { p: 0 }, "raised");
    play.says(Call::Walk { p: 0, b: 10 }, "waiting 1");
    play.says(Call::Leave { r: 1 }, "left");
    play.says(Call::Walk { p: 0, b: 10 }, "returned 3 1");
    play.says(Call::Release { p: 0 }, "freed 0 1");
    play.wrong
}

fn p4(rules: Rules) -> Vec<String> {
    let mut play = Play::fresh(rules, Kind::New, (1, 1, 2), 0);
    play.enters(0, &[1, 2]);
    play.swaps(0, 1, 12_345, 0);
    play.says(Call::Sync { p: 0 }, "synced 1");
    play.says(Call::Raise { p: 0 }, "raised");
    play.enters(0, &[3, 4]);
    play.says(Call::Walk { p: 0, b: 1 }, "returned 1 0");
    play.enters(0, &[5]);
    play.says(Call::Look { r: 0, k: 17 }, "pitch 12345");
    play.wrong
}

fn p5(rules: Rules) -> Vec<String> {
    let mut play = Play::fresh(rules, Kind::Old, (1, 1, 3), 0);
    play.enters(0, &[1]);
    play.swaps(0, 1, 100, 0);
    play.says(Call::Sync { p: 0 }, "synced 1");
    play.says(Call::Walk { p: 0, b: 1 }, "quiet");
    play.says(Call::Raise { p: 0 }, "raised");
    play.says(Call::Walk { p: 0, b: 1 }, "returned 2 0");
    play.says(Call::Release { p: 0 }, "freed 0 1");
    play.enters(0, &[4]);
    play.note(
        play.words[7] == 1 && play.words[8] == 0,
        "it did not arrive at indicator 0",
    );
    play.swaps(0, 2, 200, 1);
    play.says(Call::Sync { p: 0 }, "synced 2");
    play.says(Call::Walk { p: 0, b: 1 }, "waiting 0");
    play.wrong
}

fn p6(rules: Rules) -> Vec<String> {
    let mut wrong = Vec::new();
    for kind in [Kind::New, Kind::Old] {
        let mut play = Play::fresh(rules, kind, (1, 1, 2), 0);
        play.swaps(0, 1, 100, 0);
        play.says(Call::Sync { p: 0 }, "synced 1");
        if kind == Kind::Old {
            play.says(Call::Walk { p: 0, b: 1 }, "quiet");
        }
        play.says(Call::Raise { p: 0 }, "raised");
        let (words, entries) = (play.words, play.entries.clone());
        play.says(Call::Walk { p: 0, b: 0 }, "spent");
        play.note(
            words == play.words && entries == play.entries,
            "something changed",
        );
        wrong.append(&mut play.wrong);
    }
    wrong
}

fn p7(rules: Rules) -> Vec<String> {
    let mut play = Play::fresh(rules, Kind::New, (3, 1, 2), 0);
    play.swaps(0, 1, 100, 0);
    play.says(Call::Sync { p: 0 }, "synced 1");
    play.says(Call::Raise { p: 0 }, "raised");
    play.says(Call::Walk { p: 0, b: 2 }, "spent");
    play.says(Call::Walk { p: 0, b: 1 }, "returned 3 0");
    play.wrong
}

fn p8(rules: Rules) -> Vec<String> {
    let mut late = Play::fresh(rules, Kind::New, (1, 1, 2), u64::MAX - 1);
    late.swaps(0, 1, 100, 0);
    late.says(Call::Sync { p: 0 }, "refused 32");
    let mut early = Play::fresh(rules, Kind::New, (1, 1, 2), u64::MAX - 2);
    early.swaps(0, 1, 100, 0);
    early.says(Call::Sync { p: 0 }, "synced 18446744073709551614");
    late.wrong.append(&mut early.wrong);
    late.wrong
}

fn p9(rules: Rules) -> Vec<String> {
    let mut play = Play::fresh(rules, Kind::New, (1, 1, 2), 0);
    play.says(Call::Claim { p: 0, s: 1 }, "claimed 1");
    play.says(Call::Write { p: 0, v: -5000 }, "written 1");
    play.says(Call::Write { p: 0, v: -5001 }, "refused 14");
    play.says(Call::Write { p: 0, v: 95_000 }, "written 2");
    play.says(Call::Write { p: 0, v: 95_001 }, "refused 14");
    play.note(
        play.entries[32..35] == [-5000, 95_000, 90_000],
        "the entries are others",
    );
    play.wrong
}

fn p10(rules: Rules) -> Vec<String> {
    let mut play = Play::fresh(rules, Kind::New, (1, 1, 2), 0);
    play.writes(0, 1, 31, 100);
    play.says(Call::Swap { p: 0 }, "refused 21");
    play.says(Call::Write { p: 0, v: 100 }, "written 32");
    play.says(Call::Write { p: 0, v: 100 }, "refused 21");
    play.wrong
}

fn p11(rules: Rules) -> Vec<String> {
    let mut new = Play::fresh(rules, Kind::New, (1, 2, 3), 0);
    new.enters(0, &[1, 2, 3, 4]);
    new.swaps(0, 1, 100, 0);
    new.says(Call::Sync { p: 0 }, "synced 1");
    new.says(Call::Raise { p: 0 }, "raised");
    new.says(Call::Walk { p: 0, b: 5 }, "waiting 0");
    new.says(Call::Claim { p: 1, s: 2 }, "claimed 2");
    let mut old = Play::fresh(rules, Kind::Old, (1, 2, 3), 0);
    old.enters(0, &[1, 4]);
    old.swaps(0, 1, 100, 0);
    old.says(Call::Sync { p: 0 }, "synced 1");
    old.says(Call::Walk { p: 0, b: 5 }, "quiet");
    old.says(Call::Raise { p: 0 }, "raised");
    old.says(Call::Walk { p: 0, b: 5 }, "waiting 0");
    old.says(Call::Claim { p: 1, s: 2 }, "refused 31");
    new.wrong.append(&mut old.wrong);
    new.wrong
}

fn p12(rules: Rules) -> Vec<String> {
    let mut play = Play::fresh(rules, Kind::New, (1, 1, 2), 0);
    play.enters(0, &[1, 2, 3]);
    play.says(Call::Leave { r: 0 }, "refused 20");
    play.enters(0, &[4]);
    play.says(Call::Leave { r: 0 }, "left");
    play.wrong
}

pub type Example = fn(Rules) -> Vec<String>;

const EXAMPLES: [(&str, Example); 12] = [
    ("P1", p1),
    ("P2", p2),
    ("P3", p3),
    ("P4", p4),
    ("P5", p5),
    ("P6", p6),
    ("P7", p7),
    ("P8", p8),
    ("P9", p9),
    ("P10", p10),
    ("P11", p11),
    ("P12", p12),
];

#[test]
fn examples_stand_as_written() {
    for (name, example) in EXAMPLES {
        assert_eq!(example(Rules::AS_WRITTEN), Vec::<String>::new(), "{name}");
    }
}

/// Each example falls under each of the rules altered against it.
#[test]
fn examples_fall_under_altered_rules() {
    use Alteration as A;
    let against: [(&str, Example, &[A]); 12] = [
        (
            "P1",
            p1,
            &[
                A::FreshEntriesZero,
                A::FreshBy16Bits,
                A::PitchRepliedBy16Bits,
                A::TableTo9500,
                A::Entry31Refused,
                A::CurrentIsFree,
            ],
        ),
        (
            "P2",
            p2,
            &[
                A::RaiseComparesMark,
                A::MarkIsVersion,
                A::SharedStays,
                A::NewRefusesBusy,
            ],
        ),
        (
            "P3",
            p3,
            &[
                A::FreshNewPublishedZero,
                A::WaitNotALook,
                A::WaitsNotCounted,
                A::PassesBelowMark,
                A::LeaveKeepsPublished,
                A::WaitStartsAgain,
            ],
        ),
        (
            "P4",
            p4,
            &[
                A::PassesAboveMark,
                A::SecondNotPublished,
                A::PassesOutOnly,
                A::LookSaysFeathered,
            ],
        ),
        (
            "P5",
            p5,
            &[
                A::ArrivesByVersion,
                A::OldWrongIndicator,
                A::QuietSkips36,
                A::OldEntersTwo,
            ],
        ),
        ("P6", p6, &[A::ZeroLooksOnce]),
        (
            "P7",
            p7,
            &[A::SpentAtCount, A::SpentKeepsNext, A::FreshNewPublishedZero],
        ),
        ("P8", p8, &[A::SyncAtLast, A::MakingBelowLast]),
        (
            "P9",
            p9,
            &[
                A::PitchFrom5001,
                A::PitchTo94999,
                A::PitchFrom500,
                A::PitchTo9500,
                A::PitchTestedBy16Bits,
                A::PitchWrittenBy16Bits,
                A::WrittenBefore,
                A::WritesCurrent,
            ],
        ),
        ("P10", p10, &[A::SwapsAt32]),
        ("P11", p11, &[A::OldTakesSeveral, A::NewRefusesBusy]),
        ("P12", p12, &[A::LeavesAtThree, A::LeavesAtFiveOnly]),
    ];
    for (name, example, alterations) in against {
        falls(name, example, alterations);
    }
}

/// The example stands under none of these alterations.
pub fn falls(name: &str, example: Example, alterations: &[Alteration]) {
    for &alteration in alterations {
        let wrong = example(Rules::altered(alteration));
        assert!(
            !wrong.is_empty(),
            "{name} stands with {}",
            alteration.name()
        );
    }
}

/// An example with its name, and what it falls under.
pub type Listed = (&'static str, Example, &'static [Alteration]);

pub fn all_stand(examples: &[Listed]) {
    for (name, example, _) in examples {
        assert_eq!(example(Rules::AS_WRITTEN), Vec::<String>::new(), "{name}");
    }
}

pub fn all_fall(examples: &[Listed]) {
    for (name, example, alterations) in examples {
        falls(name, *example, alterations);
    }
}

/// Calls and replies print as on the sheet.
#[test]
fn the_sheet_prints_as_in_document_01() {
    let input: String = p1_calls().iter().map(|call| format!("{call}\n")).collect();
    assert_eq!(input, P1_INPUT);
    assert_eq!(p1(Rules::AS_WRITTEN), Vec::<String>::new());
    let play = {
        let mut play = Play::fresh(Rules::AS_WRITTEN, Kind::New, (1, 1, 2), 0);
        play.enters(0, &[1, 2, 3, 4, 5]);
        play.says(Call::Look { r: 0, k: 31 }, "pitch 90000");
        play.says(Call::Claim { p: 0, s: 0 }, "refused 30");
        play.says(Call::Claim { p: 0, s: 1 }, "claimed 1");
        play.says(Call::Leave { r: 0 }, "left");
        play
    };
    assert_eq!(play.lines.join("\n") + "\n", P1_OUTPUT);
    assert_eq!(play.wrong, Vec::<String>::new());
}
