//! Random cards, good ones and unusable ones.

use crate::cards::{Card, MOST_READ};
use crate::shapes::any_byte;
use second::card;
use second::random::Random;
use second::store::{Pitch, PITCH_HIGH, PITCH_LOW, STEP_MOST, TABLE};
use second::tables;

/// A way to make a card.
pub struct CardShape {
    pub name: &'static str,
    make: fn(&mut Random) -> Card,
}

impl CardShape {
    pub fn card(&self, random: &mut Random) -> Card {
        (self.make)(random)
    }
}

const fn shape(name: &'static str, make: fn(&mut Random) -> Card) -> CardShape {
    CardShape { name, make }
}

/// So many of the shapes, from the first on, are of cards with 32 good lines
/// whose table is taken.
pub const GOOD: usize = 6;

#[rustfmt::skip]
pub const CARD_SHAPES: &[CardShape] = &[
    // Taken.
    shape("good", |random| file(good(random))),
    shape("good, without its last newline", |random| file(unfinished(good(random)))),
    shape("feathered", |_| file(card::feathered())),
    shape("good, by a pipe", |random| Card::Pipe(good(random))),
    shape("a step of 15000", |random| of(&with_step(STEP_MOST, random))),
    shape("an entry about the end of 16 bits", |random| of(&with_entry(&[32_767, 32_768, 65_535, 65_536], random))),
    // No bytes.
    shape("missing", |_| Card::Missing),
    shape("a link to nothing", |_| Card::LinkToNothing),
    shape("a link to itself", |_| Card::LinkToItself),
    shape("a directory", |_| Card::Directory),
    shape("a file whose reads fail", |_| Card::Failing),
    shape(FORBIDDEN, |_| Card::Forbidden),
    // Counts of lines.
    shape("empty", |_| file(Vec::new())),
    shape("empty, by a pipe", |_| Card::Pipe(Vec::new())),
    shape("1 line", |random| of(&tables::good(random)[..1])),
    shape("31 lines", |random| of(&tables::good(random)[..TABLE - 1])),
    shape("31 lines and no last newline", |random| file(without_last_line(good(random)))),
    shape("33 lines", |random| file([good(random), b"0\n".to_vec()].concat())),
    shape("33 lines, by a pipe", |random| Card::Pipe([good(random), b"0".to_vec()].concat())),
    shape("64 lines", |random| file(good(random).repeat(2))),
    shape("31 lines, one out of range", |random| of(&short_and_out_of_range(random))),
    // Bad lines.
    shape("a newline alone", |_| file(b"\n".to_vec())),
    shape("a blank last line", |random| file([good(random), b"\n".to_vec()].concat())),
    shape("a blank first line", |random| file([b"\n".to_vec(), good(random)].concat())),
    shape("a blank line more", |random| with_line(random, |line, _| [b"\n", line].concat())),
    shape("a blank line for a pitch", |random| with_line(random, |_, _| Vec::new())),
    shape("carriage returns", |random| file(with_returns(good(random)))),
    shape("a carriage return", |random| with_line(random, |line, _| [line, b"\r"].concat())),
    shape("a plus", |random| with_line(random, |line, _| [b"+", line].concat())),
    shape("a leading zero", |random| with_line(random, |line, _| [b"0", line].concat())),
    shape("a leading zero after the minus", |random| with_line(random, |_, _| b"-01".to_vec())),
    shape("-0", |random| with_line(random, |_, _| b"-0".to_vec())),
    shape("32 times -0", |_| file(b"-0\n".repeat(TABLE))),
    shape("32 times +0", |_| file(b"+0\n".repeat(TABLE))),
    shape("32 times 00", |_| file(b"00\n".repeat(TABLE))),
    shape("a minus alone", |random| with_line(random, |_, _| b"-".to_vec())),
    shape("a space before", |random| with_line(random, |line, _| [b" ", line].concat())),
    shape("a space after", |random| with_line(random, |line, _| [line, b" "].concat())),
    shape("a space alone", |random| with_line(random, |_, _| b" ".to_vec())),
    shape("two on a line", |random| with_line(random, |line, _| [line, b" ", line].concat())),
    shape("a zero byte after", |random| with_line(random, |line, _| [line, b"\0"].concat())),
    shape("a zero byte for a newline", zero_for_newline),
    shape("a byte above 127", |random| with_line(random, |line, _| [line, b"\xa0"].concat())),
    shape("a letter", |random| with_line(random, |line, _| [line, b"x"].concat())),
    shape("brackets", |random| with_line(random, |line, _| [b"(", line, b")"].concat())),
    shape("random bytes on a line", |random| with_line(random, |_, random| some_bytes(random, 9))),
    shape("random bytes", |random| file(some_bytes(random, 300))),
    shape("a long line", |random| with_line(random, |line, _| line.repeat(100))),
    shape("a byte changed", byte_changed),
    shape("a last line after 32", |random| file([good(random), b"x".to_vec()].concat())),
    // Numbers too wide.
    shape("2147483648", |random| with_line(random, |_, _| b"2147483648".to_vec())),
    shape("-2147483649", |random| with_line(random, |_, _| b"-2147483649".to_vec())),
    shape("2^32 + 9000", |random| with_line(random, |_, _| b"4294976296".to_vec())),
    shape("2^32 above a pitch", |random| with_line(random, |line, _| plus(line, 1 << 32))),
    shape("2^32 below a pitch", |random| with_line(random, |line, _| plus(line, -1 << 32))),
    shape("2^64 above a pitch", |random| with_line(random, |line, _| plus(line, 1 << 64))),
    // 41 and 42.
    shape("an entry out of range", out_of_range),
    shape("an entry at an end of 32 bits", |random| of(&with_entry(&[Pitch::MIN, Pitch::MAX], random))),
    shape("an entry of -32768 or -32769", |random| of(&with_entry(&[-32_768, -32_769], random))),
    shape("an entry in range by 16 bits", |random| of(&with_entry(&[131_072, -65_536, 98_303], random))),
    shape("a step of 15001", |random| of(&with_step(STEP_MOST + 1, random))),
    shape("a step of 2^16", |random| of(&with_step(1 << 16, random))),
    shape("steep and out of range", |random| of(&tables::doubly_wrong(random))),
    shape("steep, and after it out of range", |random| of(&steep_then_out_of_range(random))),
    // Long ones.
    shape("4095 bytes", |random| file(lines_of(MOST_READ - 1, random))),
    shape("4096 bytes", |random| file(lines_of(MOST_READ, random))),
    shape("4097 bytes", |random| file(lines_of(MOST_READ + 1, random))),
    shape("32 good lines and 4096 bytes", |random| {
        file([good(random), vec![b'\n'; MOST_READ]].concat())
    }),
    shape("32 good lines of 4096 bytes", |random| file(ended_with_a_good_table(random))),
    shape("100000 bytes", |random| file(lines_of(100_000, random))),
    shape("4096 bytes by a pipe", |random| Card::Pipe(lines_of(MOST_READ, random))),
];

/// The shape that root cannot try.
pub const FORBIDDEN: &str = "a file that may not be read";

fn file(bytes: Vec<u8>) -> Card {
    Card::File(bytes)
}

fn of(entries: &[Pitch]) -> Card {
    file(card::of(entries))
}

fn good(random: &mut Random) -> Vec<u8> {
    card::of(&tables::good(random))
}

fn unfinished(mut bytes: Vec<u8>) -> Vec<u8> {
    bytes.pop();
    bytes
}

fn without_last_line(bytes: Vec<u8>) -> Vec<u8> {
    let bytes = unfinished(bytes);
    let newline = bytes.iter().rposition(|&byte| byte == b'\n');
    bytes[..newline.unwrap_or(0)].to_vec()
}

/// A good card with one of its lines changed, in any place.
fn with_line(random: &mut Random, change: fn(&[u8], &mut Random) -> Vec<u8>) -> Card {
    let any = random.below(TABLE as u64) as usize;
    let k = random.pick(&[0, 1, 15, 30, 31, any]);
    let card = good(random);
    let mut lines: Vec<Vec<u8>> = second::sheet::lines(&card).map(<[u8]>::to_vec).collect();
    lines[k] = change(&lines[k], random);
    let mut bytes = lines.join(&b'\n');
    if random.one_in(2) {
        bytes.push(b'\n');
    }
    file(bytes)
}

fn with_returns(bytes: Vec<u8>) -> Vec<u8> {
    let lines = second::sheet::lines(&bytes).map(|line| [line, b"\r\n"].concat());
    lines.flatten().collect()
}

fn zero_for_newline(random: &mut Random) -> Card {
    let mut bytes = good(random);
    let newlines = bytes.iter().enumerate().filter(|(_, &byte)| byte == b'\n');
    let newlines: Vec<usize> = newlines.map(|(at, _)| at).collect();
    bytes[random.pick(&newlines)] = 0;
    file(bytes)
}

fn some_bytes(random: &mut Random, most: u64) -> Vec<u8> {
    (0..1 + random.below(most))
        .map(|_| any_byte(random))
        .collect()
}

fn byte_changed(random: &mut Random) -> Card {
    let mut bytes = good(random);
    let at = random.below(bytes.len() as u64) as usize;
    let any = any_byte(random);
    bytes[at] = random.pick(&[b'0', b'9', b'-', b'\n', any]);
    file(bytes)
}

/// The number of a line, so much higher.
fn plus(line: &[u8], more: i128) -> Vec<u8> {
    let text = String::from_utf8_lossy(line);
    let number: i128 = text.parse().unwrap_or(0);
    (number + more).to_string().into_bytes()
}

fn with_step(step: Pitch, random: &mut Random) -> Vec<Pitch> {
    let any = random.below(31) as usize;
    let pair = random.pick(&[0, 30, any]);
    tables::with_step(pair, step * random.pick(&[1, -1]), random)
}

fn with_entry(entries: &[Pitch], random: &mut Random) -> Vec<Pitch> {
    let any = random.below(32) as usize;
    let place = random.pick(&[0, 31, any]);
    tables::with_entry(place, random.pick(entries), random)
}

const OUTSIDE: [Pitch; 2] = [PITCH_LOW - 1, PITCH_HIGH + 1];

fn out_of_range(random: &mut Random) -> Card {
    of(&with_entry(&OUTSIDE, random))
}

fn short_and_out_of_range(random: &mut Random) -> Vec<Pitch> {
    let place = random.below(TABLE as u64 - 1) as usize;
    let mut table = tables::with_entry(place, random.pick(&OUTSIDE), random);
    table.pop();
    table
}

fn steep_then_out_of_range(random: &mut Random) -> Vec<Pitch> {
    let step = (STEP_MOST + 1) * random.pick(&[1, -1]);
    let mut table = tables::with_step(random.below(15) as usize, step, random);
    table[16 + random.below(16) as usize] = random.pick(&OUTSIDE);
    table
}

/// Good lines of so many bytes in all.
fn lines_of(length: usize, random: &mut Random) -> Vec<u8> {
    let mut bytes = Vec::new();
    while bytes.len() < length {
        bytes.extend(good(random));
    }
    bytes.truncate(length - 2);
    while bytes.last().is_some_and(|&byte| byte != b'\n') {
        bytes.pop();
    }
    let rest = length - bytes.len();
    bytes.extend(std::iter::repeat_n(b'1', rest - 1));
    bytes.push(b'\n');
    bytes
}

/// A good table in the last of the first 4096 bytes, after spaces.
fn ended_with_a_good_table(random: &mut Random) -> Vec<u8> {
    let table = good(random);
    [vec![b' '; MOST_READ - table.len()], table].concat()
}
