//! Tests of the comparison itself: that it can find what it is for.

use crate::altered::Altered;
use crate::card_shapes::{CARD_SHAPES, GOOD};
use crate::cards::{Card, Folder};
use crate::compare::{shown, Difference, Heard};
use crate::failures::Sigpipe;
use crate::pieces::{some_ways, Cut, Way, LARGEST};
use crate::program::Ended;
use crate::seen::Seen;
use crate::shapes::SHAPES;
use crate::writer::{
    random_of, write, DEFERRING, HUGE_LINE, MANY_LINES, NO_LINES, ORDINARY, SIDE_BY_SIDE,
};
use second::card;
use second::random::Random;
use second::sheet::{lines, read};
use second::store::{Pitch, FEATHERED, TABLE};
use std::os::unix::process::ExitStatusExt;
use std::process::Command;

const FIRST: [Pitch; TABLE] = [FEATHERED; TABLE];

/// The whole sheet beside the feathered card.
fn play(text: &[u8]) -> Vec<u8> {
    second::sheet::play(&FIRST, text)
}

fn difference(text: &[u8], output: &[u8], fault: Option<&str>) -> Option<String> {
    let ended = Ended {
        output: output.to_vec(),
        fault: fault.map(str::to_string),
        ..Ended::default()
    };
    Difference::of("a test", text, &ended, &play(text)).map(|found| found.to_string())
}

#[test]
fn a_difference_is_told_with_its_line() {
    let text = b"(store new 1 1 2 0)\n(enter 0)\n\xff";
    let due = b"(1 made)\n(2 at 1)\n(3 unread)\n";
    assert_eq!(difference(text, due, None), None);
    let told = difference(text, b"(1 made)\n(2 at 2)\n(3 unread)\n", None).expect("unlike");
    assert!(
        told.contains("sheet:    a test\nline 2: (enter 0)\n"),
        "{told}"
    );
    assert!(
        told.contains("program:  (2 at 2)\\n\nsecond:   (2 at 1)\\n\n"),
        "{told}"
    );
    let told = difference(text, b"(1 made)\n(2 at 1)\n", None).expect("unlike");
    assert!(
        told.contains("line 3: \\xff\nprogram:  nothing\n"),
        "{told}"
    );
    let told = difference(text, &[&due[..], b"\n"].concat(), None).expect("unlike");
    assert!(
        told.contains("program:  \\n\nsecond:   nothing\n"),
        "{told}"
    );
    let told = difference(text, &due[..due.len() - 1], None).expect("unlike");
    assert!(
        told.contains("program:  (3 unread)\nsecond:   (3 unread)\\n\n"),
        "{told}"
    );
    let told = difference(text, due, Some("it does not end")).expect("a fault");
    assert!(
        told.contains("the outputs are alike\nprogram:  it does not end\n"),
        "{told}"
    );
}

#[test]
fn long_lines_are_shown_in_part() {
    assert_eq!(shown(b"(enter\t0)\xff"), "(enter\\t0)\\xff");
    let told = shown(&[b'x'; 1000]);
    assert!(told.len() < 200 && told.contains(" [840 bytes] "), "{told}");
}

#[test]
fn a_run_that_saw_nothing_lacks_everything() {
    let missing = Seen::default().missing();
    let lacks = |what: &str| missing.iter().any(|line| line == what);
    assert!(lacks("the reply unread") && lacks("the reply quiet"));
    assert!(lacks("refusal 1") && !lacks("refusal 5") && !lacks("refusal 33"));
    assert!(lacks("old claim: refused 31") && !lacks("new claim: refused 31"));
    assert!(lacks("new sync: refused 32") && !lacks("old sync: refused 32"));
    assert!(lacks("new store: refused 6") && !lacks("old store: refused 6"));
    assert!(lacks("old: SYNC with the mark 0") && lacks("old: RAISE to 0"));
    assert!(lacks("old: a return after the one with the mark 0"));
    assert!(lacks("new raise: shared") && !lacks("old raise: shared"));
    assert!(lacks("walk before a made store: refused 1"));
    assert!(lacks("defer before a made store: refused 1"));
    assert!(lacks("rest defer: refused 43") && lacks("rest pick: picked"));
    assert!(lacks("rest enter: unread") && lacks("old pick: unread"));
    assert!(!lacks("rest pick: unread") && !lacks("rest store: refused 6"));
    assert!(lacks("refusal 44") && lacks("the reply picked"));
    assert!(lacks("rest store: made with the largest sizes"));
    assert!(lacks("an unread line: -0") && lacks("a sheet by a file"));
    assert!(lacks("old store: refused 41") && lacks("a sheet beside a card: 33 lines"));
}

#[test]
fn what_was_seen_is_not_missing() {
    let mut seen = Seen::default();
    let text = b"(enter 0)\n(store old 1 1 2 0)\n(store new 0 1 2 0)\n(enter 1)\n-";
    seen.note(&FIRST, text, &play(text));
    let missing = seen.missing();
    let found = [
        "refusal 1",
        "refusal 2",
        "refusal 10",
        "the reply made",
        "the reply refused",
        "the reply unread",
        "enter before a made store: refused 1",
        "old store: made",
        "old store: made with the smallest sizes",
        "new store: refused 2",
        "old enter: refused 10",
        "a store of another kind refused after one",
        "a sheet without its last newline",
    ];
    for what in found {
        assert!(!missing.iter().any(|line| line == what), "{what}");
        let nothing = Seen::default().missing();
        assert!(nothing.iter().any(|line| line == what), "{what}");
    }
    assert_eq!(missing.len() + found.len(), Seen::default().missing().len());
    assert_eq!((seen.sheets, seen.lines), (1, 5));
}

/// What a sheet shows of the end of an old store's versions. Another store
/// begins anew, a refused one does not.
#[test]
fn crossings_are_seen() {
    let lacks = |store: &str, between: &str| {
        let publishes = "(write 0 1)\n".repeat(32) + "(swap 0)\n(sync 0)\n(walk 0 1)\n";
        let ends = "(raise 0)\n(walk 0 1)\n(release 0)\n";
        let text = format!("{store}(claim 0 1)\n{publishes}{between}{ends}");
        let mut seen = Seen::default();
        seen.note(&FIRST, text.as_bytes(), &play(text.as_bytes()));
        let missing = seen.missing();
        [
            "old: SYNC with the mark 0",
            "old: RAISE to 0",
            "old: a return with the mark 0",
        ]
        .map(|what| missing.iter().any(|line| line == what))
    };
    let old = "(store old 1 1 2 18446744073709551615)\n";
    assert_eq!(lacks(old, ""), [false; 3]);
    assert_eq!(lacks(old, "(store new 0 1 2 0)\n"), [false; 3]);
    assert_eq!(lacks(old, "(store old 1 1 2 0)\n"), [false, true, true]);
    assert_eq!(
        lacks("(store old 1 1 2 18446744073709551614)\n", ""),
        [true; 3]
    );
    assert_eq!(
        lacks("(store new 1 1 2 18446744073709551614)\n", ""),
        [true; 3]
    );
}

#[test]
fn sheets_come_from_their_seeds() {
    for number in [HUGE_LINE, ORDINARY, ORDINARY + 7] {
        assert_eq!(write(5, number).text, write(5, number).text);
        assert_ne!(write(5, number).text, write(6, number).text);
    }
    assert!(write(5, NO_LINES).text.is_empty());
    let deferring = play(&write(5, DEFERRING).text);
    for refusal in [&b"refused 43)"[..], b"refused 44)"] {
        assert!(lines(&deferring).any(|line| line.ends_with(refusal)));
    }
    let side_by_side = play(&write(5, SIDE_BY_SIDE).text);
    assert!(lines(&side_by_side).any(|line| line.ends_with(b"at 35)")));
    assert!(lines(&write(5, HUGE_LINE).text).any(|line| line.len() > 300_000));
    let many = write(5, MANY_LINES).text;
    assert!(lines(&many).count() > 65_536);
    assert!(play(&many[..LARGEST]).len() > 2 * LARGEST);
}

#[test]
fn every_shape_is_unread_or_was_a_number_of_chance() {
    let mut random = Random::from_seed(2);
    for shape in SHAPES {
        let all = [&b"(look 0 7)"[..], b"(write 1 -20)", b"(store old 1 1 2 5)"];
        let mut unread = 0;
        for _ in 0..100 {
            let line = shape.of(random.pick(&all), &mut random);
            unread += u64::from(read(&line).is_none());
        }
        let least = match shape.name {
            "a number at a border" | "a number too wide" => 20,
            "a byte changed" | "a byte doubled" | "two bytes exchanged" => 20,
            "a byte dropped" | "a byte inserted" | "a minus" => 20,
            _ => 100,
        };
        assert!(unread >= least, "{}: {unread} of 100 unread", shape.name);
    }
}

#[test]
fn pieces_are_the_text_and_never_too_long() {
    for number in [HUGE_LINE, NO_LINES, ORDINARY, ORDINARY + 1] {
        let text = write(1, number).text;
        let mut random = random_of(1, number);
        let cuts = [
            Cut::Whole,
            Cut::UpTo(20),
            Cut::UpTo(1 << 40),
            Cut::BeforeNewlines,
            Cut::AfterNewlines,
            Cut::BeforeBrackets,
            Cut::Near80,
        ];
        for cut in cuts {
            let pieces = Way::Datagrams(cut).pieces(&text, &mut random);
            assert_eq!(pieces.concat(), text, "{cut:?}");
            assert!(pieces
                .iter()
                .all(|piece| (1..=LARGEST).contains(&piece.len())));
        }
    }
    let text = b"(a)\n(b)\n\n";
    let mut random = Random::from_seed(1);
    let mut pieces = |cut| Way::Pipe(cut).pieces(text, &mut random);
    assert_eq!(pieces(Cut::Bytes).len(), 9);
    assert_eq!(
        pieces(Cut::BeforeNewlines),
        [&b"(a)"[..], b"\n(b)", b"\n", b"\n"]
    );
    assert_eq!(pieces(Cut::AfterNewlines), [&b"(a)\n"[..], b"(b)\n", b"\n"]);
    assert_eq!(pieces(Cut::BeforeBrackets), [&b"(a)\n"[..], b"(b)\n\n"]);
}

#[test]
fn small_texts_often_go_byte_by_byte() {
    let mut random = Random::from_seed(1);
    let mut by_bytes = |text: &[u8]| {
        let ways = (0..100).flat_map(|number| some_ways(number, text, &mut random));
        ways.filter(|&way| way == Way::Datagrams(Cut::Bytes))
            .count()
    };
    assert!(by_bytes(&[b'x'; 100]) > 20);
    assert_eq!(by_bytes(&[b'x'; 100_000]), 0);
}

/// An alteration is found where it shows, and not where it doesn't.
#[test]
fn alterations_are_found_in_what_was_heard() {
    let heard = |text: &[u8]| Heard {
        name: "a test".to_string(),
        card: Some(card::feathered()),
        text: text.to_vec(),
        output: play(text),
    };
    let sheets = [
        heard(b"(enter 0)\n"),
        heard(b"(store new 1 1 2 0)\n(enter 00)\n"),
    ];
    let found = |name| Altered::by_name(name).expect("its name").found(&sheets);
    let zeros = found("leading-zeros").expect("it shows");
    assert_eq!((zeros.line_number, zeros.sheet), (2, "a test".to_string()));
    assert!(found("leading-zeros-in-pitches").is_none());
    assert!(found("current-is-free").is_none());
    assert!(found("card-line-after-last").is_some());
    assert!(found("card-plus").is_none());
}

/// What making says of the table of each shape of card.
fn made_with(card: &Card) -> String {
    let output = second::sheet::play(&card.entries(), b"(store new 1 1 2 0)\n");
    String::from_utf8(output).expect("printed text")
}

#[test]
fn cards_are_what_they_are_called() {
    let mut random = Random::from_seed(9);
    for _ in 0..100 {
        for (n, shape) in CARD_SHAPES.iter().enumerate() {
            let card = shape.card(&mut random);
            let due = match shape.name {
                // By chance these are good.
                "a byte changed" | "random bytes on a line" => continue,
                _ if n < GOOD => "(1 made)\n",
                "an entry out of range"
                | "an entry at an end of 32 bits"
                | "an entry of -32768 or -32769"
                | "an entry in range by 16 bits"
                | "steep, and after it out of range" => "(1 refused 41)\n",
                "a step of 15001" | "a step of 2^16" => "(1 refused 42)\n",
                "steep and out of range" => {
                    assert!(matches!(
                        &made_with(&card)[..],
                        "(1 refused 41)\n" | "(1 refused 42)\n"
                    ));
                    continue;
                }
                _ => "(1 refused 40)\n",
            };
            assert_eq!(made_with(&card), due, "{}: {card:?}", shape.name);
        }
    }
    let bytes = |name: &str, random: &mut Random| {
        let shape = CARD_SHAPES.iter().find(|shape| shape.name == name);
        let card = shape.expect("its name").card(random);
        card.bytes().map(<[u8]>::len)
    };
    assert_eq!(bytes("4095 bytes", &mut random), Some(4095));
    assert_eq!(bytes("4096 bytes", &mut random), Some(4096));
    assert_eq!(bytes("missing", &mut random), None);
}

#[test]
fn what_is_said_of_a_card_is_compared() {
    const SECOND: &str = "run_sheet: without a first table each store line is refused with 40, or with a number that is tested before it\n";
    let says = |card: &Card, first: &str| {
        let error = format!("run_sheet: card{first}\n{SECOND}");
        card.check_said(error.as_bytes()).is_ok()
    };
    let file = |text: &[u8]| Card::File(text.to_vec());
    let good = file(&card::feathered());
    assert!(good.check_said(b"").is_ok() && good.check_said(b"\n").is_err());
    assert!(!says(&good, " has 31 lines, and a first table is 32"));
    let missing = ", looked for in the folder where run_sheet was started: No such file";
    assert!(says(&Card::Missing, missing) && !says(&Card::Directory, missing));
    assert!(Card::Missing.check_said(b"").is_err());
    let short = file(&card::feathered()[6..]);
    assert!(says(&short, " has 31 lines, and a first table is 32"));
    assert!(!says(&short, " has 30 lines, and a first table is 32"));
    assert!(!says(
        &short,
        " has more than 32 lines, and a first table is 32"
    ));
    let bad = file(&[&card::feathered()[6..], b"x"].concat());
    assert!(says(&bad, ": line 32 is no pitch") && !says(&bad, ": line 31 is no pitch"));
    let long = file(&card::feathered().repeat(22));
    assert!(says(&long, " is too long: a first table is 32 lines"));
    let first = "run_sheet: card: line 32 is no pitch\n";
    for error in [first.to_string(), format!("{first}{SECOND}{SECOND}")] {
        assert!(bad.check_said(error.as_bytes()).is_err());
    }
}

/// A program started in the folder finds the card; a pipe gives all its
/// bytes, and waits for nobody.
#[test]
fn folders_have_their_cards() {
    let cat = |card: &Card| {
        let folder = Folder::with(card).expect("a folder");
        let feeding = folder.feed();
        let mut command = folder.command("cat".as_ref());
        let output = command.arg("card").output().expect("cat");
        drop(feeding);
        output.status.success().then_some(output.stdout)
    };
    let bytes = card::feathered();
    assert_eq!(cat(&Card::File(bytes.clone())), Some(bytes.clone()));
    assert_eq!(cat(&Card::Pipe(bytes.clone())), Some(bytes.clone()));
    for card in [Card::Missing, Card::LinkToNothing, Card::LinkToItself] {
        assert_eq!(cat(&card), None, "{card:?}");
    }
    assert_eq!((cat(&Card::Directory), cat(&Card::Failing)), (None, None));
    let folder = Folder::with(&Card::Pipe(bytes)).expect("a folder");
    drop(folder.feed());
}

#[test]
fn a_program_starts_with_sigpipe_as_told() {
    for (sigpipe, due) in [(Sigpipe::Default, Some(13)), (Sigpipe::Ignored, None)] {
        let mut command = Command::new("sh");
        command.args(["-c", "kill -PIPE $$; exit 7"]);
        sigpipe.of(&mut command);
        let status = command.status().expect("a shell");
        assert_eq!(status.signal(), due, "{sigpipe:?}");
        assert_eq!(status.code(), due.is_none().then_some(7), "{sigpipe:?}");
    }
}
