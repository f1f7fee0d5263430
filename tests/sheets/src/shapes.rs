//! Misshapen lines, made from a line that is well shaped.

use second::edits::{joined, parts};
use second::random::Random;
use second::store::Kind;

/// A way to misshape a line. A few of them leave some lines well shaped.
pub struct Shape {
    pub name: &'static str,
    make: fn(&[u8], &mut Random) -> Vec<u8>,
}

impl Shape {
    /// The line, misshapen. The line is a call as it prints.
    pub fn of(&self, line: &[u8], random: &mut Random) -> Vec<u8> {
        (self.make)(line, random)
    }
}

const fn shape(name: &'static str, make: fn(&[u8], &mut Random) -> Vec<u8>) -> Shape {
    Shape { name, make }
}

#[rustfmt::skip]
pub const SHAPES: &[Shape] = &[
    // Bytes.
    shape("a byte changed", byte_changed),
    shape("a byte dropped", byte_dropped),
    shape("a byte doubled", byte_doubled),
    shape("a byte inserted", byte_inserted),
    shape("two bytes exchanged", bytes_exchanged),
    shape("a zero byte inside", |line, random| inserted(line, 0, random)),
    shape("a zero byte after", |line, _| [line, b"\0"].concat()),
    shape("a byte above 127", byte_above_127),
    shape("a newline inside", |line, random| inserted(line, b'\n', random)),
    shape("a carriage return inside", |line, random| inserted(line, b'\r', random)),
    shape("a carriage return after", |line, _| [line, b"\r"].concat()),
    shape("random bytes", |_, random| random_bytes(random)),
    shape("an empty line", |_, _| Vec::new()),
    // Spaces.
    shape("two spaces", |line, random| at_a_space(line, b"  ", random)),
    shape("a tab", |line, random| at_a_space(line, b"\t", random)),
    shape("no space", |line, random| at_a_space(line, b"", random)),
    shape("a space before", |line, _| [b" ", line].concat()),
    shape("a space after", |line, _| [line, b" "].concat()),
    shape("a space after the opening bracket", |line, _| [b"( ", bare(line), b")"].concat()),
    shape("a space before the closing bracket", |line, _| [b"(", bare(line), b" )"].concat()),
    // Brackets.
    shape("no brackets", |line, _| bare(line).to_vec()),
    shape("no opening bracket", |line, _| [bare(line), b")"].concat()),
    shape("no closing bracket", |line, _| [b"(", bare(line)].concat()),
    shape("nested brackets", |line, _| [b"(", line, b")"].concat()),
    shape("square brackets", |line, _| [b"[", bare(line), b"]"].concat()),
    shape("text after", |line, random| [line, some_text(random)].concat()),
    shape("text before", |line, random| [some_text(random), line].concat()),
    // Words.
    shape("capitals", |line, _| line.to_ascii_uppercase()),
    shape("another word", |line, random| with_word(line, |_| some_word(random))),
    shape("a shorter word", |line, _| with_word(line, |word| word[..word.len() - 1].to_vec())),
    shape("a longer word", |line, _| with_word(line, |word| [word, b"s"].concat())),
    shape("another kind", another_kind),
    shape("an argument missing", argument_missing),
    shape("an argument more", |line, _| [b"(", bare(line), b" 0)"].concat()),
    // Numbers.
    shape("leading zeros", |line, random| with_argument(line, random, leading_zeros)),
    shape("-0", |line, random| with_argument(line, random, |_, _| b"-0".to_vec())),
    shape("a minus", |line, random| with_argument(line, random, |n, _| [b"-", n].concat())),
    shape("a plus", |line, random| with_argument(line, random, |n, _| [b"+", n].concat())),
    shape("a number too wide", |line, random| with_argument(line, random, too_wide)),
    shape("a number at a border", |line, random| with_argument(line, random, at_border)),
    shape("another form of number", |line, random| with_argument(line, random, another_form)),
    // Lengths.
    shape("about 80 bytes", |line, random| stretched(line, 76 + random.below(10), random)),
    shape("many bytes", |line, random| stretched(line, 90 + random.below(5000), random)),
];

/// The line without its brackets.
fn bare(line: &[u8]) -> &[u8] {
    &line[1..line.len() - 1]
}

fn some_place(line: &[u8], random: &mut Random) -> usize {
    random.below(line.len() as u64) as usize
}

/// Any byte but a newline, most often one that could belong to a line.
pub fn any_byte(random: &mut Random) -> u8 {
    match random.below(4) {
        0 => match random.word() as u8 {
            b'\n' => 0,
            byte => byte,
        },
        1 => random.pick(b"() -+.\t\r\0"),
        2 => random.pick(b"0123456789"),
        _ => random.pick(b"acdeilmnoprstvwy"),
    }
}

fn byte_changed(line: &[u8], random: &mut Random) -> Vec<u8> {
    let mut changed = line.to_vec();
    changed[some_place(line, random)] = any_byte(random);
    changed
}

fn byte_dropped(line: &[u8], random: &mut Random) -> Vec<u8> {
    let mut dropped = line.to_vec();
    dropped.remove(some_place(line, random));
    dropped
}

fn byte_doubled(line: &[u8], random: &mut Random) -> Vec<u8> {
    let at = some_place(line, random);
    [&line[..=at], &line[at..]].concat()
}

fn byte_inserted(line: &[u8], random: &mut Random) -> Vec<u8> {
    let byte = any_byte(random);
    inserted(line, byte, random)
}

fn inserted(line: &[u8], byte: u8, random: &mut Random) -> Vec<u8> {
    let mut inserted = line.to_vec();
    inserted.insert(some_place(line, random), byte);
    inserted
}

fn bytes_exchanged(line: &[u8], random: &mut Random) -> Vec<u8> {
    let mut exchanged = line.to_vec();
    exchanged.swap(some_place(line, random), some_place(line, random));
    exchanged
}

fn byte_above_127(line: &[u8], random: &mut Random) -> Vec<u8> {
    let mut above = line.to_vec();
    above[some_place(line, random)] |= 128;
    above
}

fn random_bytes(random: &mut Random) -> Vec<u8> {
    let length = 1 + random.below(60);
    (0..length).map(|_| any_byte(random)).collect()
}

/// The line with other bytes in place of one of its spaces.
fn at_a_space(line: &[u8], bytes: &[u8], random: &mut Random) -> Vec<u8> {
    let spaces: Vec<usize> = (0..line.len()).filter(|&at| line[at] == b' ').collect();
    let at = random.pick(&spaces);
    [&line[..at], bytes, &line[at + 1..]].concat()
}

fn some_text(random: &mut Random) -> &'static [u8] {
    random.pick(&[
        &b"x"[..],
        b"(enter 0)",
        b" (enter 0)",
        b";",
        b"1",
        b")",
        b"(",
        b"\xff",
    ])
}

fn with_word(line: &[u8], change: impl FnOnce(&[u8]) -> Vec<u8>) -> Vec<u8> {
    let mut parts = parts(line).expect("a call has brackets");
    parts[0] = change(&parts[0]);
    joined(&parts)
}

fn some_word(random: &mut Random) -> Vec<u8> {
    let words = [
        &b""[..],
        b"0",
        b"new",
        b"quit",
        b"unread",
        b"refused",
        b"synced",
        b"arm",
    ];
    random.pick(&words).to_vec()
}

fn another_kind(_: &[u8], random: &mut Random) -> Vec<u8> {
    let new = Kind::New.number().to_string();
    let old = Kind::Old.number().to_string();
    let rest = Kind::Rest.number().to_string();
    let kinds = [
        &b""[..],
        b"0",
        b"1",
        b"2",
        new.as_bytes(),
        old.as_bytes(),
        rest.as_bytes(),
        b"New",
        b"OLD",
        b"Rest",
        b"res",
        b"rests",
        b"ne",
        b"newer",
        b"mid",
    ];
    [&b"(store "[..], random.pick(&kinds), b" 1 1 2 0)"].concat()
}

fn argument_missing(line: &[u8], random: &mut Random) -> Vec<u8> {
    let mut parts = parts(line).expect("a call has brackets");
    parts.remove(1 + random.below(parts.len() as u64 - 1) as usize);
    joined(&parts)
}

/// The line with one of its arguments changed, most often a number.
fn with_argument(
    line: &[u8],
    random: &mut Random,
    change: fn(&[u8], &mut Random) -> Vec<u8>,
) -> Vec<u8> {
    let mut parts = parts(line).expect("a call has brackets");
    let arguments = parts.len() as u64 - 1;
    let argument = &mut parts[1 + random.below(arguments) as usize];
    *argument = change(argument, random);
    joined(&parts)
}

fn leading_zeros(argument: &[u8], random: &mut Random) -> Vec<u8> {
    let zeros = random.pick(&[&b"0"[..], b"00", b"0000000000"]);
    match argument.strip_prefix(b"-") {
        Some(digits) => [b"-", zeros, digits].concat(),
        None => [zeros, argument].concat(),
    }
}

/// A number too wide for 16, 32 or 64 bits, often the argument modulo 2^16,
/// 2^32 or 2^64. Some of them are pitches.
fn too_wide(argument: &[u8], random: &mut Random) -> Vec<u8> {
    let text = std::str::from_utf8(argument).unwrap_or_default();
    let number: i128 = text.parse().unwrap_or(0);
    let wide = match random.below(5) {
        0 => number + random.pick(&[1 << 16, 1 << 32, 1 << 64]),
        1 => number - random.pick(&[1 << 16, 1 << 32, 1 << 64]),
        2 => random.pick(&[65_536, 65_537, 131_072, 99_999, 1 << 64, (1 << 64) + 1]),
        3 => random.pick(&[1 << 31, (-1 << 31) - 1, 1 << 32, (1 << 32) + 9000, -1 << 32]),
        _ => random.pick(&[32_768, -32_769, -65_536, 10 << 64, 1 << 100, i128::MAX]),
    };
    wide.to_string().into_bytes()
}

/// A number at the end of some width or range.
fn at_border(_: &[u8], random: &mut Random) -> Vec<u8> {
    let borders = [
        "0",
        "1",
        "-1",
        "31",
        "32",
        "63",
        "64",
        "-5000",
        "-5001",
        "95000",
        "95001",
        "-501",
        "9501",
        "32767",
        "32768",
        "-32767",
        "-32768",
        "-32769",
        "65534",
        "65535",
        "65536",
        "2147483647",
        "2147483648",
        "-2147483647",
        "-2147483648",
        "-2147483649",
        "4294967295",
        "4294967296",
        "9223372036854775807",
        "9223372036854775808",
        "18446744073709551614",
        "18446744073709551615",
        "18446744073709551616",
    ];
    random.pick(&borders).as_bytes().to_vec()
}

fn another_form(argument: &[u8], random: &mut Random) -> Vec<u8> {
    let before: &[u8] = random.pick(&[&b""[..], b"0x", b"--", b"'", b" ", b".", b"("]);
    let after: &[u8] = random.pick(&[&b"."[..], b".0", b"e0", b"_0", b",", b"h", b"-", b")"]);
    [before, argument, after].concat()
}

/// A line of about this length: zeros before the first argument, or other
/// bytes before or after the line, or the line again and again.
fn stretched(line: &[u8], length: u64, random: &mut Random) -> Vec<u8> {
    let more = (length as usize).saturating_sub(line.len());
    let space = line.iter().position(|&byte| byte == b' ').unwrap_or(0);
    match random.below(8) {
        0 => [&line[..=space], &vec![b'0'; more], &line[space + 1..]].concat(),
        1 => [&line[..=space], &vec![b' '; more], &line[space + 1..]].concat(),
        2 => [line, &vec![b' '; more]].concat(),
        3 => [&vec![b'('; 80 * (more / 80).max(1)], line].concat(),
        4 => [&vec![random.pick(b"x 0"); more], line].concat(),
        5 => [line, &vec![b'x'; more], line].concat(),
        6 => line.repeat(1 + more / line.len()),
        _ => (0..length).map(|_| any_byte(random)).collect(),
    }
}
