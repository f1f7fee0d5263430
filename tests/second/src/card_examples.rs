//! Cards, each with what a sheet prints beside it, worked out by hand from
//! requests 1, 2, 3 and 5 of document 02.

use crate::card;
use crate::examples::{Example, Line, Table};
use crate::store::{Pitch, FEATHERED, PITCH_LOW, TABLE};

/// What is refused before 40, whatever the card, and lines that make no call.
const BEFORE: &[Line] = &[
    (b"(store new 0 1 2 0)", "refused 2"),
    (b"(store old 65 17 33 9223372036854775808)", "refused 2"),
    (b"(store new 64 17 33 0)", "refused 3"),
    (b"(store old 64 16 33 0)", "refused 4"),
    (b"(store new 1 1 2 18446744073709551615)", "refused 6"),
    (b"(store rest 65 64 33 0)", "refused 2"),
    (b"(store rest 17 17 33 0)", "refused 3"),
    (b"(store rest 2 3 33 0)", "refused 3"),
    (b"(store rest 16 16 33 0)", "refused 4"),
    (b"(store new 1 1 2 -0)", "unread"),
    (b"(enter 0)", "refused 1"),
];

/// A sheet beside a card that is refused with this number.
fn refused(name: &'static str, card: Option<Vec<u8>>, number: u64) -> Example {
    let due = format!("refused {number}");
    let mut table = Table::default().say(BEFORE);
    for store in [
        "(store new 1 1 2 0)",
        "(store old 64 16 32 7)",
        "(store old 1 1 2 18446744073709551615)",
        "(store rest 16 16 32 18446744073709551615)",
    ] {
        table = table.says(store.as_bytes(), &due);
        table = table.says(b"(enter 0)", "refused 1");
        table = table.says(b"(pick 0)", "refused 1");
    }
    table.beside(name, card)
}

/// A sheet beside a card of these entries, in every kind of store.
fn made(name: &'static str, card: Vec<u8>, entries: &[Pitch]) -> Example {
    let mut table = Table::default().say(BEFORE);
    for (store, places) in [
        ("(store new 1 1 2 0)", &[1, 2, 3, 4, 5][..]),
        ("(store old 1 1 32 0)", &[1, 4, 5]),
        ("(store rest 1 1 2 0)", &[]),
    ] {
        table = table.says(store.as_bytes(), "made");
        for place in places {
            table = table.says(b"(enter 0)", &format!("at {place}"));
        }
        if places.is_empty() {
            table = table.says(b"(pick 0)", "picked 0");
        }
        for (k, entry) in entries.iter().enumerate() {
            let look = format!("(look 0 {k})");
            table = table.says(look.as_bytes(), &format!("pitch {entry}"));
        }
    }
    table.beside(name, Some(card))
}

/// The feathered card with these bytes in place of its line k.
fn with_line(k: usize, line: &[u8]) -> Vec<u8> {
    let feathered = b"90000\n".to_vec();
    let mut lines = vec![feathered; TABLE];
    lines[k] = line.to_vec();
    lines.concat()
}

/// The feathered table with this entry in place of entry k.
fn with_entry(k: usize, entry: Pitch) -> [Pitch; TABLE] {
    let mut entries = [FEATHERED; TABLE];
    entries[k] = entry;
    entries
}

/// The lowest table, with this entry in place of entry k.
fn low_with_entry(k: usize, entry: Pitch) -> [Pitch; TABLE] {
    let mut entries = [PITCH_LOW; TABLE];
    entries[k] = entry;
    entries
}

/// 0, 15000, 0, 15000 and so on, to 15000 in entry 31.
fn saw() -> [Pitch; TABLE] {
    std::array::from_fn(|k| if k % 2 == 0 { 0 } else { 15_000 })
}

/// A stall-regulated blade: from -40 down to -5000.
fn stall() -> [Pitch; TABLE] {
    std::array::from_fn(|k| -(k as Pitch * 160) - 40)
}

/// 32767, 32768, 32767 and so on: about the end of 16 bits.
fn about_16_bits() -> [Pitch; TABLE] {
    std::array::from_fn(|k| 32_767 + k as Pitch % 2)
}

fn good_cards() -> Vec<Example> {
    let feathered = [FEATHERED; TABLE];
    let without_newline = card::feathered()[..191].to_vec();
    let ends: [Pitch; TABLE] = std::array::from_fn(|k| k.min(20) as Pitch * 5000 - 5000);
    vec![
        made("32 lines", card::feathered(), &feathered),
        made("no last newline", without_newline, &feathered),
        made("a stall blade", card::of(&stall()), &stall()),
        made("steps of 15000", card::of(&saw()), &saw()),
        made("from -5000 to 95000", card::of(&ends), &ends),
        made(
            "about 16 bits",
            b"32767\n32768\n".repeat(16),
            &about_16_bits(),
        ),
        made("32 times 65536", b"65536\n".repeat(32), &[65_536; TABLE]),
        made("32 times 9501", b"9501\n".repeat(32), &[9501; TABLE]),
        made(
            "entry 0 by 15000",
            with_line(0, b"75000\n"),
            &with_entry(0, 75_000),
        ),
        made(
            "entry 31 by 15000",
            with_line(31, b"75000\n"),
            &with_entry(31, 75_000),
        ),
        made(
            "95000 last",
            with_line(31, b"95000"),
            &with_entry(31, 95_000),
        ),
    ]
}

/// Cards that count as no entries.
fn bad_lines() -> Vec<Example> {
    let none = |name, card| refused(name, Some(card), 40);
    let crlf = b"90000\r\n".repeat(TABLE);
    vec![
        none("carriage returns", crlf),
        none("one carriage return", with_line(31, b"90000\r")),
        none(
            "a blank last line",
            [card::feathered(), b"\n".to_vec()].concat(),
        ),
        none("a blank first line", with_line(0, b"\n90000\n")),
        none("a blank line inside", with_line(16, b"\n90000\n")),
        none("a blank line for an entry", with_line(31, b"\n")),
        none("2147483648", with_line(31, b"2147483648\n")),
        none("-2147483649", with_line(0, b"-2147483649\n")),
        none("2^32 + 90000", with_line(3, b"4295057296\n")),
        none("90000 - 2^32", with_line(3, b"-4294877296\n")),
        none("-0", with_line(5, b"-0\n")),
        none("-0 among zeros", b"-0\n".repeat(TABLE)),
        none("a plus", with_line(5, b"+90000\n")),
        none("a leading zero", with_line(31, b"090000\n")),
        none("a space before", with_line(0, b" 90000\n")),
        none("a space after", with_line(7, b"90000 \n")),
        none("two on a line", with_line(7, b"90000 90000\n")),
        none("a zero byte", with_line(7, b"90000\0\n")),
        none("a minus alone", with_line(30, b"-\n")),
        none("a word", with_line(30, b"feathered\n")),
        none("brackets", with_line(30, b"(90000)\n")),
        none("32 good lines and a bad one", with_line(31, b"90000\nx")),
    ]
}

fn wrong_counts() -> Vec<Example> {
    let lines = |count: usize| Some(b"90000\n".repeat(count));
    let steep = Some(card::of(&[&with_entry(1, 74_999)[..], &[95_001]].concat()));
    let outside = Some(card::of(&with_entry(3, 95_001)[..31]));
    vec![
        refused("no card", None, 40),
        refused("an empty card", Some(Vec::new()), 40),
        refused("one line", lines(1), 40),
        refused("31 lines", lines(31), 40),
        refused("33 lines", lines(33), 40),
        refused("64 lines", lines(64), 40),
        refused("4095 bytes", Some(b"9000\n".repeat(819)), 40),
        refused("4096 bytes", Some(b"900\n".repeat(1024)), 40),
        refused("6000 bytes", lines(1000), 40),
        refused("31 lines, one out of range", outside, 40),
        refused("33 lines, steep and out of range", steep, 40),
    ]
}

fn out_of_range_or_steep() -> Vec<Example> {
    let refused = |name, entries: &[Pitch], number| refused(name, Some(card::of(entries)), number);
    let mut last_then_steep = with_entry(0, 74_999);
    last_then_steep[31] = 95_001;
    let mut up = saw();
    (up[17], up[18]) = (-1, 15_000);
    vec![
        refused("95001", &with_entry(31, 95_001), 41),
        refused("-5001", &[-5001; TABLE], 41),
        refused("-5001 first", &low_with_entry(0, -5001), 41),
        refused("2147483647", &with_entry(0, 2_147_483_647), 41),
        refused("-2147483648", &with_entry(12, -2_147_483_648), 41),
        refused("-32769", &with_entry(12, -32_769), 41),
        refused("2^17", &[131_072; TABLE], 41),
        refused("steep, and at the end out of range", &last_then_steep, 41),
        refused("15001 up at the first pair", &with_entry(0, 74_999), 42),
        refused("15001 down at the last pair", &with_entry(31, 74_999), 42),
        refused("15001 down and up inside", &with_entry(9, 74_999), 42),
        refused("15001 up inside", &up, 42),
        refused("2^16 up", &low_with_entry(31, 60_536), 42),
        refused("from end to end", &low_with_entry(31, 95_000), 42),
    ]
}

/// Every example of a card.
pub fn all() -> Vec<Example> {
    let parts = [
        good_cards(),
        bad_lines(),
        wrong_counts(),
        out_of_range_or_steep(),
    ];
    parts.into_iter().flatten().collect()
}
