//! The changes that the alterations of the sheet make to cards, texts,
//! lines, arguments, calls and printed lines.

use crate::call::{Call, Reply, NAMES};
use crate::card::entries_if_any;
use crate::sheet::{lines, pitch, printed, LONGEST};
use crate::store::{Kind, Pitch, FEATHERED, KINDS, PITCH_HIGH, PITCH_LOW, TABLE};

/// What an argument is.
#[derive(Clone, Copy, PartialEq, Eq, Debug)]
pub enum Role {
    Kind,
    Number,
    Version,
    Pitch,
}

/// An argument that nobody reads.
const UNREADABLE: &[u8] = b"?";

// Cards.

/// The card's entries, with each line changed before it is read.
pub fn card_with_lines(card: Option<&[u8]>, change: fn(&[u8]) -> Vec<u8>) -> Vec<Pitch> {
    let entries = lines(card.unwrap_or_default()).map(|line| pitch(&change(line)));
    entries.collect::<Option<Vec<Pitch>>>().unwrap_or_default()
}

/// The entries of a card with a bad line are those of a feathered one.
pub fn feathered_if_bad(card: Option<&[u8]>) -> Vec<Pitch> {
    let bad = lines(card.unwrap_or_default()).any(|line| pitch(line).is_none());
    match bad {
        true => vec![FEATHERED; TABLE],
        false => entries_if_any(card),
    }
}

pub fn feathered_if_empty(card: Option<&[u8]>) -> Vec<Pitch> {
    match card {
        Some([]) => vec![FEATHERED; TABLE],
        _ => entries_if_any(card),
    }
}

pub fn good_lines(card: Option<&[u8]>) -> Vec<Pitch> {
    lines(card.unwrap_or_default()).filter_map(pitch).collect()
}

pub fn before_bad_line(card: Option<&[u8]>) -> Vec<Pitch> {
    lines(card.unwrap_or_default()).map_while(pitch).collect()
}

pub fn zero_if_bad(line: &[u8]) -> Vec<u8> {
    match pitch(line) {
        Some(_) => line.to_vec(),
        None => b"0".to_vec(),
    }
}

/// Blank lines are left out, everywhere or at the end alone.
pub fn without_blank(card: Option<&[u8]>, at_end: bool) -> Vec<Pitch> {
    let mut kept: Vec<&[u8]> = lines(card.unwrap_or_default()).collect();
    while let Some([]) = kept.last() {
        kept.pop();
    }
    kept.retain(|line| at_end || !line.is_empty());
    let entries: Option<Vec<Pitch>> = kept.into_iter().map(pitch).collect();
    entries.unwrap_or_default()
}

pub fn first_32(card: Option<&[u8]>) -> Vec<Pitch> {
    let first = lines(card.unwrap_or_default()).take(TABLE).map(pitch);
    first.collect::<Option<Vec<Pitch>>>().unwrap_or_default()
}

pub fn filled_to_32(card: Option<&[u8]>) -> Vec<Pitch> {
    let mut entries = entries_if_any(card);
    if let Some(&last) = entries.last() {
        entries.resize(entries.len().max(TABLE), last);
    }
    entries
}

/// After a last newline there is one more line, which is empty.
pub fn line_after_last(card: Option<&[u8]>) -> Vec<Pitch> {
    match card {
        Some(bytes) if bytes.ends_with(b"\n") => Vec::new(),
        _ => entries_if_any(card),
    }
}

// Texts.

/// The text with another text put at its end, if this is so.
pub fn ended(text: &[u8], so: bool, end: &[u8]) -> Vec<u8> {
    let end: &[u8] = if so { end } else { b"" };
    [text, end].concat()
}

pub fn exchanged(text: &[u8], from: u8, to: u8) -> Vec<u8> {
    let exchange = |&byte: &u8| if byte == from { to } else { byte };
    text.iter().map(exchange).collect()
}

pub fn cut_at_80(text: &[u8]) -> Vec<u8> {
    let cut = |line: &[u8]| match line {
        [] => b"\n".to_vec(),
        _ => cut_after_each(line, LONGEST),
    };
    lines(text).flat_map(cut).collect()
}

pub fn cut_at_65536(text: &[u8]) -> Vec<u8> {
    match text.len() {
        0..=65_536 => text.to_vec(),
        _ => cut_after_each(text, 65_536),
    }
}

fn cut_after_each(text: &[u8], length: usize) -> Vec<u8> {
    let pieces = text.chunks(length);
    pieces.flat_map(|piece| [piece, b"\n"].concat()).collect()
}

/// The text up to its last newline.
pub fn without_the_unfinished(text: &[u8]) -> Vec<u8> {
    let newline = text.iter().rposition(|&byte| byte == b'\n');
    text[..newline.map_or(0, |at| at + 1)].to_vec()
}

pub fn newline_as_in(text: &[u8], mut output: Vec<u8>) -> Vec<u8> {
    if !text.ends_with(b"\n") {
        output.pop();
    }
    output
}

// Lines.

/// What stands before the first such byte.
pub fn before(line: &[u8], byte: u8) -> Vec<u8> {
    let mut parts = line.split(|&other| other == byte);
    parts.next().unwrap_or_default().to_vec()
}

pub fn without(line: &[u8], byte: u8) -> Vec<u8> {
    let others = line.iter().filter(|&&other| other != byte);
    others.copied().collect()
}

pub fn single_spaces(line: &[u8]) -> Vec<u8> {
    let mut single = line.to_vec();
    single.dedup_by(|one, other| *one == b' ' && *other == b' ');
    single
}

pub fn after_spaces(line: &[u8]) -> Vec<u8> {
    let start = line.iter().position(|&byte| byte != b' ');
    line[start.unwrap_or(line.len())..].to_vec()
}

pub fn before_spaces(line: &[u8]) -> Vec<u8> {
    let end = line.iter().rposition(|&byte| byte != b' ');
    line[..end.map_or(0, |at| at + 1)].to_vec()
}

pub fn after_bracket(line: &[u8]) -> Vec<u8> {
    match line.strip_prefix(b"(") {
        Some(rest) => opened(&after_spaces(rest), true),
        None => line.to_vec(),
    }
}

pub fn before_bracket(line: &[u8]) -> Vec<u8> {
    match line.strip_suffix(b")") {
        Some(rest) => ended(&before_spaces(rest), true, b")"),
        None => line.to_vec(),
    }
}

/// The line with an opening bracket put before it, if this is so.
pub fn opened(line: &[u8], so: bool) -> Vec<u8> {
    let start: &[u8] = if so { b"(" } else { b"" };
    [start, line].concat()
}

pub fn bracketed_if_bare(line: &[u8]) -> Vec<u8> {
    match line.starts_with(b"(") || line.ends_with(b")") {
        true => line.to_vec(),
        false => [b"(", line, b")"].concat(),
    }
}

pub fn unnested(line: &[u8]) -> Vec<u8> {
    let inner = inside(line).filter(|inner| inside(inner).is_some());
    inner.unwrap_or(line).to_vec()
}

pub fn to_first_bracket(line: &[u8]) -> Vec<u8> {
    let end = line.iter().position(|&byte| byte == b')');
    line[..end.map_or(line.len(), |at| at + 1)].to_vec()
}

pub fn from_last_bracket(line: &[u8]) -> Vec<u8> {
    let start = line.iter().rposition(|&byte| byte == b'(');
    line[start.unwrap_or(0)..].to_vec()
}

fn inside(line: &[u8]) -> Option<&[u8]> {
    line.strip_prefix(b"(")?.strip_suffix(b")")
}

/// The word and the arguments of a line in brackets.
pub fn parts(line: &[u8]) -> Option<Vec<Vec<u8>>> {
    let parts = inside(line)?.split(|&byte| byte == b' ');
    Some(parts.map(<[u8]>::to_vec).collect())
}

/// The line in brackets with this word and these arguments.
pub fn joined(parts: &[Vec<u8>]) -> Vec<u8> {
    [b"(", &parts.join(&b' ')[..], b")"].concat()
}

pub fn with_word(line: &[u8], change: fn(&[u8]) -> Vec<u8>) -> Vec<u8> {
    let Some(mut parts) = parts(line) else {
        return line.to_vec();
    };
    parts[0] = change(&parts[0]);
    joined(&parts)
}

/// The first of the calls whose name begins with this word.
pub fn completed(word: &[u8]) -> Vec<u8> {
    let mut words = NAMES.iter().map(|name| name.word().as_bytes());
    let whole = words.find(|name| !word.is_empty() && name.starts_with(word));
    whole.unwrap_or(word).to_vec()
}

/// The call whose name this word begins with.
pub fn shortened(word: &[u8]) -> Vec<u8> {
    let mut words = NAMES.iter().map(|name| name.word().as_bytes());
    let begins = words.find(|name| word.starts_with(name));
    begins.unwrap_or(word).to_vec()
}

/// The line with arguments too many dropped, or with 0 for missing ones.
pub fn with_count(line: &[u8], fill: bool) -> Vec<u8> {
    let Some(mut parts) = parts(line) else {
        return line.to_vec();
    };
    let count = match &parts[0][..] {
        b"store" => 6,
        b"look" | b"claim" | b"write" | b"walk" => 3,
        _ => 2,
    };
    if fill {
        while parts.len() < count {
            parts.push(b"0".to_vec());
        }
    } else {
        parts.truncate(count);
    }
    joined(&parts)
}

// Arguments.

fn role(word: &[u8], place: usize) -> Role {
    match (word, place) {
        (b"store", 1) => Role::Kind,
        (b"store", 5) => Role::Version,
        (b"write", 2) => Role::Pitch,
        _ => Role::Number,
    }
}

/// The line with each argument of these roles changed.
pub fn with_arguments(line: &[u8], roles: &[Role], change: fn(&[u8]) -> Vec<u8>) -> Vec<u8> {
    let Some(mut parts) = parts(line) else {
        return line.to_vec();
    };
    let word = parts[0].clone();
    for (place, argument) in parts.iter_mut().enumerate().skip(1) {
        if roles.contains(&role(&word, place)) {
            *argument = change(argument);
        }
    }
    joined(&parts)
}

pub fn without_plus(text: &[u8]) -> Vec<u8> {
    text.strip_prefix(b"+").unwrap_or(text).to_vec()
}

pub fn known_kind(text: &[u8]) -> Vec<u8> {
    let known = KINDS.iter().any(|kind| kind.to_string().as_bytes() == text);
    if known { text } else { b"new" }.to_vec()
}

/// The kind rest is unread.
pub fn not_rest(text: &[u8]) -> Vec<u8> {
    unread_at(text, b"rest")
}

pub fn numbered_kind(text: &[u8]) -> Vec<u8> {
    let number = |kind: &Kind| kind.number().to_string();
    match KINDS.iter().find(|kind| number(kind).as_bytes() == text) {
        Some(kind) => kind.to_string().into_bytes(),
        None => text.to_vec(),
    }
}

pub fn without_zeros(text: &[u8]) -> Vec<u8> {
    let (sign, mut digits) = match text.strip_prefix(b"-") {
        Some(digits) => (&b"-"[..], digits),
        None => (&b""[..], text),
    };
    while let [b'0', b'0'..=b'9', ..] = digits {
        digits = &digits[1..];
    }
    [sign, digits].concat()
}

pub fn plain_zero(text: &[u8]) -> Vec<u8> {
    match text {
        b"-0" => b"0".to_vec(),
        _ => text.to_vec(),
    }
}

/// The number, if it is a decimal without leading zeros and not too long.
fn number(text: &[u8]) -> Option<i128> {
    let digits = text.strip_prefix(b"-").unwrap_or(text);
    let plain = digits.iter().all(u8::is_ascii_digit);
    let zeros = digits.len() > 1 && digits.starts_with(b"0");
    let number = std::str::from_utf8(text).ok()?.parse().ok()?;
    (plain && !zeros && text != b"-0").then_some(number)
}

fn with_number(text: &[u8], change: impl Fn(i128) -> Option<i128>) -> Vec<u8> {
    let changed = number(text).map(change);
    match changed {
        Some(Some(number)) => number.to_string().into_bytes(),
        Some(None) => UNREADABLE.to_vec(),
        None => text.to_vec(),
    }
}

pub fn modulo_16(text: &[u8]) -> Vec<u8> {
    with_number(text, |n| {
        Some(if n < 0 { n.rem_euclid(1 << 16) } else { n })
    })
}

pub fn modulo_64(text: &[u8]) -> Vec<u8> {
    with_number(text, |n| {
        Some(if n < 0 { n.rem_euclid(1 << 64) } else { n })
    })
}

pub fn unsigned_modulo_16(text: &[u8]) -> Vec<u8> {
    with_number(text, |n| Some(if n > 0 { n % (1 << 16) } else { n }))
}

pub fn unsigned_modulo_64(text: &[u8]) -> Vec<u8> {
    with_number(text, |n| Some(if n > 0 { n % (1 << 64) } else { n }))
}

pub fn signed_modulo_16(text: &[u8]) -> Vec<u8> {
    with_number(text, |n| Some(i128::from(n as i16)))
}

pub fn signed_modulo_32(text: &[u8]) -> Vec<u8> {
    with_number(text, |n| Some(i128::from(n as Pitch)))
}

pub fn widest_pitch(text: &[u8]) -> Vec<u8> {
    with_number(text, |n| {
        Some(n.clamp(Pitch::MIN.into(), Pitch::MAX.into()))
    })
}

pub fn at_most(text: &[u8], most: i128) -> Vec<u8> {
    with_number(text, |n| Some(n.min(most)))
}

pub fn unread_above(text: &[u8], most: i128) -> Vec<u8> {
    with_number(text, |n| (n <= most).then_some(n))
}

pub fn unread_at(text: &[u8], at: &[u8]) -> Vec<u8> {
    let unread = if text == at { UNREADABLE } else { text };
    unread.to_vec()
}

pub fn unread_beyond_16(text: &[u8]) -> Vec<u8> {
    with_number(text, |n| i16::try_from(n).is_ok().then_some(n))
}

pub fn unread_outside(text: &[u8]) -> Vec<u8> {
    with_number(text, |n| {
        (PITCH_LOW.into()..=PITCH_HIGH.into())
            .contains(&n)
            .then_some(n)
    })
}

// Calls.

pub fn other_kind(mut call: Call) -> Call {
    if let Call::Make { kind, .. } = &mut call {
        let other = match Kind::from_number(u64::from(*kind)) {
            Some(Kind::New) => Kind::Old,
            Some(Kind::Old) => Kind::New,
            Some(Kind::Rest) | None => return call,
        };
        *kind = other.number() as u16;
    }
    call
}

pub fn sizes_exchanged(mut call: Call) -> Call {
    if let Call::Make {
        readers,
        publishers,
        ..
    } = &mut call
    {
        std::mem::swap(readers, publishers);
    }
    call
}

pub fn look_exchanged(call: Call) -> Call {
    match call {
        Call::Look { r, k } => Call::Look { r: k, k: r },
        _ => call,
    }
}

pub fn claim_exchanged(call: Call) -> Call {
    match call {
        Call::Claim { p, s } => Call::Claim { p: s, s: p },
        _ => call,
    }
}

pub fn walk_exchanged(call: Call) -> Call {
    match call {
        Call::Walk { p, b } => Call::Walk { p: b, b: p },
        _ => call,
    }
}

pub fn write_exchanged(call: Call) -> Call {
    match call {
        Call::Write { p, v } => Call::Write {
            p: v as u16,
            v: p as Pitch,
        },
        _ => call,
    }
}

pub fn walk_by_8_bits(call: Call) -> Call {
    match call {
        Call::Walk { p, b } => Call::Walk { p, b: b % 256 },
        _ => call,
    }
}

// Printed lines.

pub fn nothing_if_unread(n: u64, reply: Option<Reply>) -> String {
    match reply {
        Some(_) => printed(n, reply),
        None => String::new(),
    }
}

/// The printed line with one word in place of the other.
pub fn exchanged_words(n: u64, reply: Option<Reply>, one: &str, other: &str) -> String {
    let line = printed(n, reply);
    let word = |word: &str| format!(" {word}");
    if line.contains(&word(one)) {
        line.replace(&word(one), &word(other))
    } else {
        line.replace(&word(other), &word(one))
    }
}

pub fn waits_first(n: u64, reply: Option<Reply>) -> String {
    match reply {
        Some(Reply::Returned { looks, waits }) => format!("({n} returned {waits} {looks})\n"),
        _ => printed(n, reply),
    }
}

pub fn releases_first(n: u64, reply: Option<Reply>) -> String {
    match reply {
        Some(Reply::Freed { slot, releases }) => format!("({n} freed {releases} {slot})\n"),
        _ => printed(n, reply),
    }
}

pub fn pitch_unsigned(n: u64, reply: Option<Reply>) -> String {
    match reply {
        Some(Reply::Pitch(v)) => format!("({n} pitch {})\n", v as u32),
        _ => printed(n, reply),
    }
}

pub fn pitch_by_16_bits(n: u64, reply: Option<Reply>) -> String {
    match reply {
        Some(Reply::Pitch(v)) => format!("({n} pitch {})\n", v as i16),
        _ => printed(n, reply),
    }
}

pub fn picked_alone(n: u64, reply: Option<Reply>) -> String {
    if let Some(Reply::Picked(_)) = reply {
        return format!("({n} picked)\n");
    }
    printed(n, reply)
}

pub fn mark_signed(n: u64, reply: Option<Reply>) -> String {
    match reply {
        Some(Reply::Synced(mark)) => format!("({n} synced {})\n", mark as i64),
        _ => printed(n, reply),
    }
}
