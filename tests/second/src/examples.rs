//! Whole sheets with their outputs, worked out by hand from document 01.
//! The card beside them is that of a feathered blade; the examples of cards
//! have their own. Those of the rest store stand by themselves.

use crate::card;
use crate::card_examples;
use crate::rest_examples;
use crate::store::Pitch;

/// A sheet, the card beside it, which may be missing, and what must be
/// printed for it.
pub struct Example {
    pub name: &'static str,
    pub card: Option<Vec<u8>>,
    pub input: Vec<u8>,
    pub output: Vec<u8>,
}

impl Example {
    /// The card's entries.
    pub fn entries(&self) -> Vec<Pitch> {
        card::entries_if_any(self.card.as_deref())
    }
}

/// A line without its newline, and what is said of it after its number.
pub type Line = (&'static [u8], &'static str);

const P1_INPUT: &[u8] = b"(store new 1 1 2 0)
(enter 0)
(enter 0)
(enter 0)
(enter 0)
(enter 0)
(look 0 31)
(claim 0 0)
(claim 0 1)
(leave 0)
";
const P1_OUTPUT: &[u8] = b"(1 made)
(2 at 1)
(3 at 2)
(4 at 3)
(5 at 4)
(6 at 5)
(7 pitch 90000)
(8 refused 30)
(9 claimed 1)
(10 left)
";

/// Inputs and outputs in full.
const IN_FULL: &[(&str, &[u8], &[u8])] = &[
    ("P1", P1_INPUT, P1_OUTPUT),
    ("an empty input", b"", b""),
    ("a newline alone", b"\n", b"(1 unread)\n"),
    ("two newlines", b"\n\n", b"(1 unread)\n(2 unread)\n"),
    ("one byte", b"(", b"(1 unread)\n"),
    ("a call without newline", b"(enter 0)", b"(1 refused 1)\n"),
    (
        "a last line without its newline",
        b"(store old 1 1 2 0)\n(enter 0)",
        b"(1 made)\n(2 at 1)\n",
    ),
    (
        "an unread last line without its newline",
        b"(store old 1 1 2 0)\n(enter 0",
        b"(1 made)\n(2 unread)\n",
    ),
    (
        "empty lines",
        b"\n(store new 1 1 2 0)\n\n\n(enter 0)\n\n",
        b"(1 unread)\n(2 made)\n(3 unread)\n(4 unread)\n(5 at 1)\n(6 unread)\n",
    ),
    (
        "carriage returns",
        b"(store new 1 1 2 0)\r\n(enter 0)\r\n\r\n\r(enter 0)\n",
        b"(1 unread)\n(2 unread)\n(3 unread)\n(4 unread)\n",
    ),
];

/// Unread whatever came before.
const MISSHAPEN: &[&[u8]] = &[
    b"enter 0",
    b"(enter 0",
    b"enter 0)",
    b"((enter 0))",
    b"((enter 0)",
    b"(enter 0))",
    b"(enter (0))",
    b"[enter 0]",
    b")enter 0(",
    b"(enter 0)(enter 0)",
    b"(enter 0) (enter 0)",
    b"(enter 0)x",
    b"x(enter 0)",
    b"()",
    b"(",
    b")",
    b"( )",
    b" ",
    b"",
    b"(enter)",
    b"(enter )",
    b"(enter 0 )",
    b"( enter 0)",
    b" (enter 0)",
    b"(enter 0) ",
    b"(enter  0)",
    b"(look 0  0)",
    b"(enter\t0)",
    b"\t(enter 0)",
    b"(enter 0)\t",
    b"(enter\x0b0)",
    b"(enter\x0c0)",
    b"(enter 0)\r",
    b"(enter 0\r)",
    b"(enter\r0)",
    b"\r",
    b"(enter 0)\0",
    b"(enter 0\0)",
    b"(enter\x000)",
    b"\0(enter 0)",
    b"\0",
    b"(\xe5nter 0)",
    b"(enter \xb0)",
    b"\xa8enter 0)",
    b"(enter 0)\xff",
    b"(enter\xc2\xa00)",
    b"\xef\xbb\xbf(enter 0)",
    b"(ENTER 0)",
    b"(Enter 0)",
    b"(ente 0)",
    b"(enters 0)",
    b"(enter0)",
    b"(0 enter)",
    b"( 0)",
    b"(0)",
    b"(quit)",
    b"(quit 0)",
    b"(new 0)",
    b"(enter 0 0)",
    b"(look 0)",
    b"(look 0 0 0)",
    b"(look 0 )",
    b"(leave 0 0)",
    b"(claim 0)",
    b"(claim 0 1 1)",
    b"(write 0)",
    b"(write 0 0 0)",
    b"(swap 0 0)",
    b"(sync)",
    b"(raise 0 0)",
    b"(walk 0)",
    b"(walk 0 0 0)",
    b"(release)",
    b"(pick)",
    b"(pick 0 0)",
    b"(pick -0)",
    b"(picks 0)",
    b"(picked 0)",
    b"(Pick 0)",
    b"(checkpoint)",
    b"(checkpoint 0 0)",
    b"(checkpoin 0)",
    b"(checkpoints 0)",
    b"(check point 0)",
    b"(defer)",
    b"(defer 0 1)",
    b"(defers 0)",
    b"(DEFER 0)",
    b"(enter zero)",
    b"(enter 0x)",
    b"(enter 0x0)",
    b"(enter 0.)",
    b"(enter 0,)",
    b"(enter 0,0)",
    b"(enter '0')",
    b"(look 0 1e1)",
    b"(look 0 1_0)",
    b"(enter 0);",
    b"; (enter 0)",
    b"(1 at 1)",
];

/// Unread: numbers that are no plain decimals.
const NO_NUMBERS: &[&[u8]] = &[
    b"(enter 00)",
    b"(enter 000)",
    b"(enter 01)",
    b"(look 00 0)",
    b"(look 0 031)",
    b"(claim 0 01)",
    b"(walk 0 00)",
    b"(enter -0)",
    b"(enter -1)",
    b"(enter --0)",
    b"(enter -)",
    b"(enter 0-)",
    b"(enter +0)",
    b"(enter +1)",
    b"(enter +)",
    b"(look 0 -1)",
    b"(claim -0 1)",
    b"(walk 0 -1)",
    b"(write 0 -0)",
    b"(write 0 00)",
    b"(write 0 -00)",
    b"(write 0 01)",
    b"(write 0 -01)",
    b"(write 0 +1)",
    b"(write 0 +0)",
    b"(write 0 --1)",
    b"(write 0 -+1)",
    b"(write 0 -)",
    b"(write 0 1-)",
    b"(write 0 - 1)",
    b"(write -0 1)",
    b"(write -1 1)",
    b"(write 00 1)",
];

/// `store` lines that are unread.
const NO_STORES: &[&[u8]] = &[
    b"(store)",
    b"(store new)",
    b"(store new 1 1 2)",
    b"(store new 1 1 2 0 0)",
    b"(store 1 1 2 0)",
    b"(store  1 1 2 0)",
    b"(store 1 1 1 2 0)",
    b"(store 17 1 1 2 0)",
    b"(store 18 1 1 2 0)",
    b"(store 19 1 1 2 0)",
    b"(store 1 new 1 2 0)",
    b"(store NEW 1 1 2 0)",
    b"(store mid 1 1 2 0)",
    b"(store ne 1 1 2 0)",
    b"(store newer 1 1 2 0)",
    b"(store newold 1 1 2 0)",
    b"(store res 1 1 2 0)",
    b"(store rests 1 1 2 0)",
    b"(store REST 1 1 2 0)",
    b"(store rest 1 1 2)",
    b"(store rest 1 2 0)",
    b"(store rest 1 1 2 0 0)",
    b"(rest 1 1 2 0)",
    b"(STORE new 1 1 2 0)",
    b"(stor new 1 1 2 0)",
    b"(stores new 1 1 2 0)",
    b"(new 1 1 2 0)",
    b"(store new 01 1 2 0)",
    b"(store new 1 01 2 0)",
    b"(store new 1 1 02 0)",
    b"(store new 1 1 2 00)",
    b"(store new 1 1 2 01)",
    b"(store new 1 1 2 -0)",
    b"(store new 1 1 2 -1)",
    b"(store new 1 1 2 +0)",
    b"(store new -1 1 2 0)",
    b"(store new +1 1 2 0)",
    b"(store new 65536 1 2 0)",
    b"(store new 65537 1 2 0)",
    b"(store new 1 65536 2 0)",
    b"(store new 1 1 65536 0)",
    b"(store new 1 1 2 18446744073709551616)",
    b"(store old 1 1 2 18446744073709551616)",
    b"(store old 1 1 2 -9223372036854775808)",
    b"(store new 1 1 2 340282366920938463463374607431768211456)",
    b"store new 1 1 2 0",
];

const BEFORE_A_MADE_STORE: &[Line] = &[
    (b"(enter 0)", "refused 1"),
    (b"(enter 65535)", "refused 1"),
    (b"(enter 65536)", "unread"),
    (b"(look 0 32)", "refused 1"),
    (b"(leave 0)", "refused 1"),
    (b"(claim 0 1)", "refused 1"),
    (b"(write 0 95001)", "refused 1"),
    (b"(write 0 2147483647)", "refused 1"),
    (b"(write 0 2147483648)", "unread"),
    (b"(write 0 -0)", "unread"),
    (b"(swap 0)", "refused 1"),
    (b"(sync 0)", "refused 1"),
    (b"(raise 0)", "refused 1"),
    (b"(walk 0 0)", "refused 1"),
    (b"(release 0)", "refused 1"),
    (b"(pick 0)", "refused 1"),
    (b"(checkpoint 65535)", "refused 1"),
    (b"(defer 0)", "refused 1"),
    (b"(defer 65536)", "unread"),
    (b"(store rest 1 2 2 0)", "refused 3"),
    (b"(pick 0)", "refused 1"),
    (b"(enter 0)", "refused 1"),
    (b"(store new 0 1 2 0)", "refused 2"),
    (b"(enter 0)", "refused 1"),
    (b"(store new 1 1 2 00)", "unread"),
    (b"(enter 0)", "refused 1"),
    (b"(store new 1 1 2 0)", "made"),
    (b"(enter 0)", "at 1"),
];

const WIDTHS: &[Line] = &[
    (b"(store new 1 1 2 0)", "made"),
    (b"(enter 65535)", "refused 10"),
    (b"(enter 65536)", "unread"),
    (b"(enter 4294967296)", "unread"),
    (b"(enter 18446744073709551616)", "unread"),
    (b"(enter 99999999999999999999999999999999)", "unread"),
    (b"(look 65535 65535)", "refused 10"),
    (b"(look 65536 0)", "unread"),
    (b"(look 0 65535)", "refused 13"),
    (b"(look 0 65536)", "unread"),
    (b"(leave 65535)", "refused 10"),
    (b"(leave 65536)", "unread"),
    (b"(claim 65535 1)", "refused 11"),
    (b"(claim 65536 1)", "unread"),
    (b"(claim 0 65535)", "refused 12"),
    (b"(claim 0 65537)", "unread"),
    (b"(write 65535 0)", "refused 11"),
    (b"(write 65536 0)", "unread"),
    (b"(write 0 2147483647)", "refused 14"),
    (b"(write 0 2147483648)", "unread"),
    (b"(write 0 4294967295)", "unread"),
    (b"(write 0 4294967296)", "unread"),
    (b"(write 0 4294976296)", "unread"),
    (b"(write 0 -2147483648)", "refused 14"),
    (b"(write 0 -2147483649)", "unread"),
    (b"(write 0 -4294967296)", "unread"),
    (b"(write 0 32767)", "refused 21"),
    (b"(write 0 32768)", "refused 21"),
    (b"(write 0 65536)", "refused 21"),
    (b"(write 0 -32769)", "refused 14"),
    (b"(write 0 131072)", "refused 14"),
    (b"(write 0 95000)", "refused 21"),
    (b"(write 0 -5000)", "refused 21"),
    (b"(swap 65535)", "refused 11"),
    (b"(swap 65536)", "unread"),
    (b"(sync 65535)", "refused 11"),
    (b"(sync 65536)", "unread"),
    (b"(raise 65535)", "refused 11"),
    (b"(raise 65536)", "unread"),
    (b"(walk 65535 0)", "refused 11"),
    (b"(walk 65536 0)", "unread"),
    (b"(walk 0 65535)", "refused 21"),
    (b"(walk 0 65536)", "unread"),
    (b"(release 65535)", "refused 11"),
    (b"(release 65536)", "unread"),
    (b"(enter 0)", "at 1"),
];

const WIDTHS_OF_STORES: &[Line] = &[
    (b"(store new 65535 65535 65535 0)", "refused 2"),
    (b"(store new 64 65535 65535 0)", "refused 3"),
    (b"(store new 64 16 65535 0)", "refused 4"),
    (b"(store new 64 16 32 18446744073709551615)", "refused 6"),
    (b"(store new 64 16 32 18446744073709551616)", "unread"),
    (b"(enter 63)", "refused 1"),
    (b"(store new 64 16 32 18446744073709551614)", "made"),
    (b"(enter 63)", "at 1"),
    (b"(store new 64 16 32 18446744073709551615)", "refused 6"),
    (b"(enter 63)", "at 2"),
    (b"(store old 64 16 32 18446744073709551616)", "unread"),
    (b"(enter 63)", "at 3"),
    (b"(store old 64 16 32 18446744073709551615)", "made"),
    (b"(enter 63)", "at 1"),
    (b"(store old 64 16 32 9223372036854775808)", "made"),
    (b"(enter 63)", "at 1"),
    (b"(store old 64 16 32 9223372036854775807)", "made"),
    (b"(enter 63)", "at 1"),
    (b"(enter 63)", "at 4"),
];

const REFUSED_STORES: &[Line] = &[
    (b"(store new 1 1 2 0)", "made"),
    (b"(enter 0)", "at 1"),
    (b"(store new 0 1 2 0)", "refused 2"),
    (b"(enter 0)", "at 2"),
    (b"(store old 1 0 2 0)", "refused 3"),
    (b"(enter 0)", "at 3"),
    (b"(store old 1 1 1 0)", "refused 4"),
    (b"(claim 0 1)", "claimed 1"),
    (b"(enter 0)", "at 4"),
    (b"(store new 1 1 2 18446744073709551615)", "refused 6"),
    (b"(write 0 -5000)", "written 1"),
    (b"(enter 0)", "at 5"),
    (b"(store new 65 1 2 0)", "refused 2"),
    (b"(look 0 31)", "pitch 90000"),
    (b"(store old 1 1 2 0)", "made"),
    (b"(leave 0)", "refused 20"),
    (b"(enter 0)", "at 1"),
    (b"(store new 1 17 2 0)", "refused 3"),
    (b"(enter 0)", "at 4"),
    (b"(store old 1 1 33 0)", "refused 4"),
    (b"(enter 0)", "at 5"),
    (b"(store new 1 1 0 0)", "refused 4"),
    (b"(leave 0)", "left"),
];

const STORES_AGAIN: &[Line] = &[
    (b"(store new 1 1 2 0)", "made"),
    (b"(enter 0)", "at 1"),
    (b"(claim 0 1)", "claimed 1"),
    (b"(store new 1 1 2 0)", "made"),
    (b"(enter 0)", "at 1"),
    (b"(claim 0 1)", "claimed 1"),
    (b"(store old 2 1 2 0)", "made"),
    (b"(enter 1)", "at 1"),
    (b"(enter 1)", "at 4"),
    (b"(store new 1 1 2 0)", "made"),
    (b"(enter 1)", "refused 10"),
    (b"(enter 0)", "at 1"),
    (b"(enter 0)", "at 2"),
];

const UNREAD_LINES_MAKE_NO_CALL: &[Line] = &[
    (b"(store new 1 1 2 0)", "made"),
    (b"(enter 0)x", "unread"),
    (b"(enter 0)", "at 1"),
    (b"(enter 0 0)", "unread"),
    (b"(enter 0)\r", "unread"),
    (b"(enter 0)", "at 2"),
    (b"(store old 1 1 2 00)", "unread"),
    (b"(enter 00)", "unread"),
    (b"(enter 0)", "at 3"),
    (b"(store new 1 1 2 0 )", "unread"),
    (b"(enter 65536)", "unread"),
    (b"(enter 0)", "at 4"),
    (b"(leave 0 )", "unread"),
    (b"(claim 0 1) ", "unread"),
    (b"(claim 0 1)", "claimed 1"),
    (b"(write 0 -0)", "unread"),
    (b"(write 0  5)", "unread"),
    (b"(write 0 0)", "written 1"),
    (b"(enter 0)", "at 5"),
];

const NEW_BEFORE: &[Line] = &[
    (b"(store new 2 2 3 0)", "made"),
    (b"(enter 1)", "at 1"),
    (b"(enter 1)", "at 2"),
    (b"(enter 1)", "at 3"),
    (b"(leave 1)", "refused 20"),
    (b"(enter 1)", "at 4"),
    (b"(look 1 31)", "refused 20"),
];

const NEW_AFTER: &[Line] = &[
    (b"(sync 0)", "synced 1"),
    (b"(walk 0 1)", "refused 21"),
    (b"(sync 1)", "synced 1"),
    (b"(raise 0)", "raised"),
    (b"(raise 1)", "shared"),
    (b"(claim 0 0)", "refused 21"),
    (b"(walk 0 0)", "spent"),
    (b"(walk 0 1)", "spent"),
    (b"(walk 0 5)", "waiting 1"),
    (b"(enter 1)", "at 5"),
    (b"(store new 0 1 2 0)", "refused 2"),
    (b"(look 1 31)", "pitch -5000"),
    (b"(look 1 32)", "refused 13"),
    (b"(walk 0 256)", "waiting 1"),
    (b"(leave 1)", "left"),
    (b"(walk 0 9)", "returned 4 2"),
    (b"(release 0)", "freed 0 1"),
    (b"(walk 1 2)", "returned 2 0"),
    (b"(claim 0 1)", "refused 30"),
    (b"(claim 0 0)", "claimed 0"),
    (b"(release 1)", "freed 1 2"),
];

const OLD_BEFORE: &[Line] = &[
    (b"(store old 1 2 2 0)", "made"),
    (b"(enter 0)", "at 1"),
    (b"(enter 0)", "at 4"),
    (b"(enter 0)", "at 5"),
    (b"(enter 0)", "refused 20"),
    (b"(claim 1 0)", "refused 30"),
];

const OLD_AFTER: &[Line] = &[
    (b"(write 0 1)", "refused 21"),
    (b"(claim 1 1)", "refused 31"),
    (b"(look 0 0)", "pitch 90000"),
    (b"(sync 0)", "synced 1"),
    (b"(raise 0)", "refused 21"),
    (b"(walk 0 0)", "spent"),
    (b"(walk 0 9)", "quiet"),
    (b"(walk 0 1)", "refused 21"),
    (b"(raise 0)", "raised"),
    (b"(walk 0 1)", "waiting 0"),
    (b"(leave 0)", "left"),
    (b"(walk 0 65535)", "returned 3 1"),
    (b"(release 0)", "freed 0 1"),
    (b"(enter 0)", "at 1"),
    (b"(enter 0)", "at 4"),
    (b"(enter 0)", "at 5"),
    (b"(look 0 31)", "pitch 95000"),
];

/// A sheet being put together.
#[derive(Default)]
pub struct Table {
    lines: u64,
    input: Vec<u8>,
    output: Vec<u8>,
}

impl Table {
    pub fn says(mut self, line: &[u8], reply: &str) -> Table {
        self.lines += 1;
        self.input.extend_from_slice(line);
        self.input.push(b'\n');
        let printed = format!("({} {reply})\n", self.lines);
        self.output.extend_from_slice(printed.as_bytes());
        self
    }

    pub fn say(self, lines: &[Line]) -> Table {
        lines
            .iter()
            .fold(self, |table, (line, reply)| table.says(line, reply))
    }

    pub fn unread(self, lines: &[&[u8]]) -> Table {
        lines
            .iter()
            .fold(self, |table, line| table.says(line, "unread"))
    }

    /// CLAIM, 32 WRITEs of v and SWAP, which hands out the former slot.
    pub fn publishes(self, p: u64, s: u64, v: i64, former: u64) -> Table {
        let claim = format!("(claim {p} {s})");
        let mut table = self.says(claim.as_bytes(), &format!("claimed {s}"));
        for written in 1..=32 {
            let write = format!("(write {p} {v})");
            table = table.says(write.as_bytes(), &format!("written {written}"));
        }
        let swap = format!("(swap {p})");
        table.says(swap.as_bytes(), &format!("swapped {former}"))
    }

    pub fn named(self, name: &'static str) -> Example {
        self.beside(name, Some(card::feathered()))
    }

    /// The sheet beside this card.
    pub fn beside(self, name: &'static str, card: Option<Vec<u8>>) -> Example {
        Example {
            name,
            card,
            input: self.input,
            output: self.output,
        }
    }
}

/// Lines of 80 bytes, of 81 and of very many are unread, as one line each.
fn long_lines() -> Example {
    let mut table = Table::default().says(b"(store new 1 1 2 0)", "made");
    for length in [
        79, 80, 81, 82, 160, 161, 4096, 65_535, 65_536, 65_537, 300_000,
    ] {
        let zeros = [b"(enter ".to_vec(), vec![b'0'; length - 8], b")".to_vec()].concat();
        let spaces = [b"(enter 0)".to_vec(), vec![b' '; length - 9]].concat();
        let before = [vec![b'x'; length - 9], b"(enter 0)".to_vec()].concat();
        table = table.unread(&[&zeros, &spaces, &before]);
    }
    let after_80 = [vec![b'('; 80], b"(enter 0)".to_vec()].concat();
    table = table.unread(&[&after_80]).says(b"(enter 0)", "at 1");
    table.named("long lines")
}

/// A new store from one version below the last to the last, and a fresh store
/// after it.
fn last_version() -> Example {
    let mut table = Table::default().says(b"(store new 1 1 2 18446744073709551613)", "made");
    table = table.publishes(0, 1, 1, 0).say(&[
        (b"(sync 0)", "synced 18446744073709551614"),
        (b"(raise 0)", "raised"),
        (b"(walk 0 1)", "returned 1 0"),
        (b"(release 0)", "freed 0 1"),
    ]);
    table = table.publishes(0, 0, -1, 1).say(&[
        (b"(sync 0)", "refused 32"),
        (b"(store new 1 1 2 0)", "made"),
    ]);
    for place in 1..=5 {
        table = table.says(b"(enter 0)", &format!("at {place}"));
    }
    table
        .says(b"(look 0 31)", "pitch 90000")
        .named("the last new version")
}

/// An old store from this version over the mark to the next. A section that is
/// open at the RAISE holds up the return, and a reader that loaded before it
/// arrives after it.
fn past_version(name: &'static str, version: u64, mark: u64, next: u64) -> Example {
    let (of_version, of_mark) = (version % 2, mark % 2);
    let store = format!("(store old 2 1 2 {version})");
    let waiting = format!("waiting {of_version}");
    let mut table = Table::default().says(store.as_bytes(), "made").say(&[
        (b"(enter 0)", "at 1"),
        (b"(enter 0)", "at 4"),
        (b"(enter 0)", "at 5"),
        (b"(enter 1)", "at 1"),
    ]);
    table = table.publishes(0, 1, 7, 0);
    table = table.says(b"(sync 0)", &format!("synced {mark}")).say(&[
        (b"(walk 0 1)", "quiet"),
        (b"(raise 0)", "raised"),
        (b"(look 0 31)", "pitch 90000"),
    ]);
    table = table.says(b"(walk 0 1)", &waiting).say(&[
        (b"(leave 0)", "left"),
        (b"(enter 1)", "at 4"),
        (b"(enter 1)", "at 5"),
        (b"(look 1 0)", "pitch 7"),
    ]);
    table = table.says(b"(walk 0 9)", &waiting).say(&[
        (b"(enter 0)", "at 1"),
        (b"(leave 1)", "left"),
        (b"(enter 0)", "at 4"),
        (b"(walk 0 1)", "returned 4 2"),
        (b"(release 0)", "freed 0 1"),
    ]);
    table = table.publishes(0, 0, -7, 1);
    table = table.says(b"(sync 0)", &format!("synced {next}"));
    table = table.say(&[(b"(walk 0 1)", "quiet"), (b"(raise 0)", "raised")]);
    table = table.says(b"(walk 0 1)", &format!("waiting {of_mark}"));
    table
        .say(&[(b"(leave 0)", "left"), (b"(walk 0 1)", "returned 3 1")])
        .named(name)
}

/// Pitches that a WRITE takes, and such as it refuses.
const TAKEN: [i64; 8] = [-5000, 95_000, 32_767, 32_768, 9501, -501, 65_536, 74_536];
const REFUSED: [i64; 8] = [
    -5001,
    95_001,
    -32_768,
    -32_769,
    131_072,
    -65_536,
    2_147_483_647,
    -2_147_483_648,
];

/// A table of pitches at all ends, each looked at after it was swapped in.
fn pitches() -> Example {
    let mut table = Table::default().say(&[
        (b"(store old 1 1 2 0)", "made"),
        (b"(claim 0 1)", "claimed 1"),
    ]);
    for written in 1..=32 {
        let n = (written - 1) % 8;
        let (refused, taken) = (REFUSED[n], TAKEN[n]);
        table = table.says(format!("(write 0 {refused})").as_bytes(), "refused 14");
        let reply = format!("written {written}");
        table = table.says(format!("(write 0 {taken})").as_bytes(), &reply);
    }
    table = table.say(&[
        (b"(write 0 95001)", "refused 14"),
        (b"(write 0 95000)", "refused 21"),
        (b"(swap 0)", "swapped 0"),
        (b"(enter 0)", "at 1"),
        (b"(enter 0)", "at 4"),
        (b"(enter 0)", "at 5"),
    ]);
    for k in 0..32 {
        let reply = format!("pitch {}", TAKEN[k % 8]);
        table = table.says(format!("(look 0 {k})").as_bytes(), &reply);
    }
    table.named("pitches at all ends")
}

/// Sheets of lines by themselves.
fn by_lines() -> Vec<Example> {
    let listed = |name, lines: &[Line]| Table::default().say(lines).named(name);
    vec![
        listed("before a made store", BEFORE_A_MADE_STORE),
        listed("widths", WIDTHS),
        listed("widths of stores", WIDTHS_OF_STORES),
        listed("refused stores", REFUSED_STORES),
        listed("stores again", STORES_AGAIN),
        listed("no call", UNREAD_LINES_MAKE_NO_CALL),
    ]
}

/// Sheets of unread lines, with calls at the end that show what was made.
fn by_unread_lines() -> Vec<Example> {
    let fresh = Table::default;
    let made = || fresh().says(b"(store new 1 1 2 0)", "made");
    let misshapen = made().unread(MISSHAPEN).says(b"(enter 0)", "at 1");
    let numbers = made().says(b"(claim 0 1)", "claimed 1").unread(NO_NUMBERS);
    let numbers = numbers.says(b"(write 0 0)", "written 1");
    let numbers = numbers.says(b"(write 0 -1)", "written 2");
    let stores = fresh().unread(NO_STORES).says(b"(enter 0)", "refused 1");
    vec![
        misshapen.named("misshapen lines"),
        numbers.named("numbers"),
        stores.named("unread stores"),
        long_lines(),
    ]
}

/// Whole publications of the new and the old store.
fn publications() -> Vec<Example> {
    let new = Table::default().say(NEW_BEFORE);
    let new = new.publishes(0, 1, 1000, 0).publishes(1, 2, -5000, 1);
    let old = Table::default().say(OLD_BEFORE).publishes(0, 1, 95_000, 0);
    vec![
        new.say(NEW_AFTER).named("a new publication"),
        old.say(OLD_AFTER).named("an old publication"),
        pitches(),
        last_version(),
        past_version("past the end of an old store", u64::MAX, 0, 1),
        past_version("to the end of an old store", u64::MAX - 1, u64::MAX, 0),
        past_version("past 2^63", (1 << 63) - 1, 1 << 63, (1 << 63) + 1),
    ]
}

/// Every example.
pub fn all() -> Vec<Example> {
    let in_full = |&(name, input, output): &(&'static str, &[u8], &[u8])| Example {
        name,
        card: Some(card::feathered()),
        input: input.to_vec(),
        output: output.to_vec(),
    };
    let mut examples: Vec<Example> = IN_FULL.iter().map(in_full).collect();
    examples.extend(by_lines());
    examples.extend(by_unread_lines());
    examples.extend(publications());
    examples.extend(rest_examples::all());
    examples.extend(card_examples::all());
    examples
}
