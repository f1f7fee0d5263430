//! The sheet with one of its rules altered.
//!
//! Each alteration is a mistake that somebody could make. A comparison that
//! does not find it has a hole. The reading itself stays plain: an altered
//! sheet changes what goes into it or comes out of it. That a line of 81
//! bytes is unread cannot be altered: no well shaped line is that long.

use crate::call::{Call, Reply};
use crate::card::{self, entries_if_any};
use crate::edits::{self, Role};
use crate::rules::Rules;
use crate::sheet::{lines, play_by, printed, read, Sheet, LONGEST};
use crate::store::{self, Kind, FEATHERED};
use Role::{Number, Pitch, Version};
use Step::{Argument, Card, CardLine, Line, Output, Print, Skip, Text};

/// Where an alteration takes hold.
enum Step {
    /// Another way from the card, if there is one, to its entries.
    Card(fn(Option<&[u8]>) -> Vec<store::Pitch>),
    /// A line of the card is changed before it is read.
    CardLine(fn(&[u8]) -> Vec<u8>),
    /// The text is changed before it is taken into lines.
    Text(fn(&[u8]) -> Vec<u8>),
    /// A line is changed before it is read.
    Line(fn(&[u8]) -> Vec<u8>),
    /// Each argument of these roles is changed before it is read.
    Argument(&'static [Role], fn(&[u8]) -> Vec<u8>),
    /// A call is changed before it is made.
    Call(fn(Call) -> Call),
    /// Another way to reply to a line.
    Reply(fn(&mut Sheet, &[u8]) -> Option<Reply>),
    /// Such lines are neither counted nor answered.
    Skip(fn(&[u8], Option<Reply>) -> bool),
    /// Another printed line.
    Print(fn(u64, Option<Reply>) -> String),
    /// The output, with the text it is for, is changed at the end.
    Output(fn(&[u8], Vec<u8>) -> Vec<u8>),
}

/// One altered rule of the sheet.
pub struct Misreading {
    pub name: &'static str,
    pub text: &'static str,
    step: Step,
}

const fn altered(name: &'static str, text: &'static str, step: Step) -> Misreading {
    Misreading { name, text, step }
}

#[rustfmt::skip]
const CARDS: &[Misreading] = &[
    altered("card-missing-feathered", "a missing card counts as feathered",
        Card(|card| card::entries(card.unwrap_or(&card::feathered())))),
    altered("card-missing-zero", "a missing card counts as 32 times 0",
        Card(|card| card.map_or(vec![0; store::TABLE], card::entries))),
    altered("card-unusable-feathered", "a card with a bad line counts as feathered",
        Card(edits::feathered_if_bad)),
    altered("card-empty-feathered", "an empty card counts as feathered",
        Card(edits::feathered_if_empty)),
    altered("card-bad-line-skipped", "a bad line of the card is skipped",
        Card(edits::good_lines)),
    altered("card-bad-line-is-0", "a bad line of the card is read as 0",
        CardLine(edits::zero_if_bad)),
    altered("card-ends-at-bad-line", "a card keeps the entries before a bad line",
        Card(edits::before_bad_line)),
    altered("card-blank-skipped", "a blank line of the card is read as nothing",
        Card(|card| edits::without_blank(card, false))),
    altered("card-blank-end-skipped", "blank lines at the end of the card are read as nothing",
        Card(|card| edits::without_blank(card, true))),
    altered("card-cut-to-32", "a card of more than 32 lines is cut to 32", Card(edits::first_32)),
    altered("card-filled-to-32", "a card of fewer lines is filled up with its last",
        Card(edits::filled_to_32)),
    altered("card-last-dropped", "a last line of the card without its newline is dropped",
        Card(|card| entries_if_any(card.map(edits::without_the_unfinished).as_deref()))),
    altered("card-line-after-last", "after a last newline the card has one more line",
        Card(edits::line_after_last)),
    altered("card-return", "a carriage return may end a line of the card",
        CardLine(|line| line.strip_suffix(b"\r").unwrap_or(line).to_vec())),
    altered("card-plus", "a plus may stand on a card", CardLine(edits::without_plus)),
    altered("card-leading-zeros", "leading zeros may stand on a card",
        CardLine(edits::without_zeros)),
    altered("card-minus-zero", "-0 may stand on a card", CardLine(edits::plain_zero)),
    altered("card-space-before", "spaces may stand before a pitch on a card",
        CardLine(edits::after_spaces)),
    altered("card-space-after", "spaces may stand after a pitch on a card",
        CardLine(edits::before_spaces)),
    altered("card-text-after", "what follows a pitch on a card is dropped",
        CardLine(|line| edits::before(line, b' '))),
    altered("card-zero-byte-ends", "what follows a zero byte is dropped on a card",
        CardLine(|line| edits::before(line, 0))),
    altered("card-wide-wraps", "entries of a card too wide are taken modulo 2^32",
        CardLine(edits::signed_modulo_32)),
    altered("card-wide-ends", "entries of a card too wide are taken as the widest",
        CardLine(edits::widest_pitch)),
    altered("card-by-16-bits", "entries of a card end at 32767 and -32768",
        CardLine(edits::unread_beyond_16)),
    altered("card-wraps-at-16-bits", "entries of a card are taken modulo 2^16",
        CardLine(edits::signed_modulo_16)),
    altered("card-outside-bad", "a pitch out of range is a bad line of the card",
        CardLine(edits::unread_outside)),
    altered("card-reversed", "the card begins with entry 31",
        Card(|card| entries_if_any(card).into_iter().rev().collect())),
    altered("without-card-unread", "without entries a store is unread",
        Step::Reply(without_card_unread)),
];

#[rustfmt::skip]
const LINES: &[Misreading] = &[
    altered("number-from-0", "line numbers start at 0", Print(|n, reply| printed(n - 1, reply))),
    altered("number-below-256", "line numbers start again after 255",
        Print(|n, reply| printed(n % 256, reply))),
    altered("number-below-65536", "line numbers start again after 65535",
        Print(|n, reply| printed(n % 65_536, reply))),
    altered("unread-skipped", "an unread line is not counted", Skip(|_, reply| reply.is_none())),
    altered("unread-silent", "an unread line prints nothing", Print(edits::nothing_if_unread)),
    altered("unread-is-1", "unread is printed as refused 1",
        Print(|n, reply| printed(n, reply.or(Some(Reply::Refused(1)))))),
    altered("empty-skipped", "an empty line is skipped", Skip(|line, _| line.is_empty())),
    altered("long-skipped", "a line over 80 bytes is skipped",
        Skip(|line, _| line.len() > LONGEST)),
    altered("long-cut", "a line over 80 bytes is several lines", Text(edits::cut_at_80)),
    altered("cut-at-65536", "a line ends after each 65536 bytes of the input",
        Text(edits::cut_at_65536)),
    altered("last-dropped", "a last line without its newline is dropped",
        Text(edits::without_the_unfinished)),
    altered("last-newline-missing", "the last reply lacks its newline if the last line does",
        Output(edits::newline_as_in)),
    altered("line-after-last", "after a last newline there is one more line",
        Text(|text| edits::ended(text, text.ends_with(b"\n"), b"\n"))),
    altered("empty-input-is-a-line", "an empty input is one empty line",
        Text(|text| edits::ended(text, text.is_empty(), b"\n"))),
    altered("return-ends", "a carriage return ends a line",
        Text(|text| edits::exchanged(text, b'\r', b'\n'))),
    altered("return-dropped", "a carriage return before the newline is dropped",
        Line(|line| line.strip_suffix(b"\r").unwrap_or(line).to_vec())),
    altered("zero-byte-ends-line", "a zero byte ends a line",
        Text(|text| edits::exchanged(text, 0, b'\n'))),
    altered("zero-byte-ends-call", "what follows a zero byte is dropped",
        Line(|line| edits::before(line, 0))),
    altered("zero-byte-dropped", "zero bytes are dropped", Line(|line| edits::without(line, 0))),
    altered("high-bit-dropped", "bytes have 7 bits",
        Line(|line| line.iter().map(|byte| byte & 127).collect())),
];

#[rustfmt::skip]
const SHAPES: &[Misreading] = &[
    altered("two-spaces", "several spaces may stand between", Line(edits::single_spaces)),
    altered("tab", "a tab may stand between", Line(|line| edits::exchanged(line, b'\t', b' '))),
    altered("space-before", "spaces may stand before the call", Line(edits::after_spaces)),
    altered("space-after", "spaces may stand after the call", Line(edits::before_spaces)),
    altered("space-after-bracket", "spaces may stand after the opening bracket",
        Line(edits::after_bracket)),
    altered("space-before-bracket", "spaces may stand before the closing bracket",
        Line(edits::before_bracket)),
    altered("no-brackets", "both brackets may be missing", Line(edits::bracketed_if_bare)),
    altered("no-opening", "the opening bracket may be missing",
        Line(|line| edits::opened(line, !line.starts_with(b"(")))),
    altered("no-closing", "the closing bracket may be missing",
        Line(|line| edits::ended(line, !line.ends_with(b")"), b")"))),
    altered("nested", "brackets may be doubled", Line(edits::unnested)),
    altered("square", "brackets may be square",
        Line(|line| edits::exchanged(&edits::exchanged(line, b'[', b'('), b']', b')'))),
    altered("text-after", "what follows the first closing bracket is dropped",
        Line(edits::to_first_bracket)),
    altered("text-before", "what precedes the last opening bracket is dropped",
        Line(edits::from_last_bracket)),
    altered("capitals", "capitals are read as small letters",
        Line(|line| line.to_ascii_lowercase())),
    altered("shorter-word", "a word may be cut short",
        Line(|line| edits::with_word(line, edits::completed))),
    altered("longer-word", "a word may go on after its end",
        Line(|line| edits::with_word(line, edits::shortened))),
    altered("more-arguments", "arguments too many are dropped",
        Line(|line| edits::with_count(line, false))),
    altered("fewer-arguments", "missing arguments are 0",
        Line(|line| edits::with_count(line, true))),
    altered("any-kind", "any other kind is taken for new",
        Argument(&[Role::Kind], edits::known_kind)),
    altered("kind-by-number", "kinds may be numbers",
        Argument(&[Role::Kind], edits::numbered_kind)),
    altered("rest-unread", "rest is no kind", Argument(&[Role::Kind], edits::not_rest)),
];

#[rustfmt::skip]
const NUMBERS: &[Misreading] = &[
    altered("leading-zeros", "arguments of 16 bits may have leading zeros",
        Argument(&[Number], edits::without_zeros)),
    altered("leading-zeros-in-pitches", "pitches may have leading zeros",
        Argument(&[Pitch], edits::without_zeros)),
    altered("leading-zeros-in-versions", "versions may have leading zeros",
        Argument(&[Version], edits::without_zeros)),
    altered("minus-zero", "-0 is a pitch", Argument(&[Pitch], edits::plain_zero)),
    altered("minus-zero-elsewhere", "-0 is a number", Argument(&[Number], edits::plain_zero)),
    altered("minus-zero-version", "-0 is a version", Argument(&[Version], edits::plain_zero)),
    altered("minus-elsewhere", "a minus may stand before arguments of 16 bits",
        Argument(&[Number], edits::modulo_16)),
    altered("minus-version", "a minus may stand before a version",
        Argument(&[Version], edits::modulo_64)),
    altered("plus", "a plus may stand before a number",
        Argument(&[Number, Version, Pitch], edits::without_plus)),
    altered("wide-wraps", "arguments too wide are taken modulo 2^16",
        Argument(&[Number], edits::unsigned_modulo_16)),
    altered("wide-ends", "arguments too wide are taken as 65535",
        Argument(&[Number], |text| edits::at_most(text, 65_535))),
    altered("wide-pitch-wraps", "pitches too wide are taken modulo 2^32",
        Argument(&[Pitch], edits::signed_modulo_32)),
    altered("wide-pitch-ends", "pitches too wide are taken as the widest",
        Argument(&[Pitch], edits::widest_pitch)),
    altered("pitch-by-16-bits", "pitches end at 32767 and -32768",
        Argument(&[Pitch], edits::unread_beyond_16)),
    altered("pitch-wraps-at-16-bits", "pitches are taken modulo 2^16",
        Argument(&[Pitch], edits::signed_modulo_16)),
    altered("wide-version-wraps", "versions too wide are taken modulo 2^64",
        Argument(&[Version], edits::unsigned_modulo_64)),
    altered("wide-version-ends", "versions too wide are taken as 2^64 - 1",
        Argument(&[Version], |text| edits::at_most(text, u64::MAX.into()))),
    altered("signed", "arguments of 16 bits end at 32767",
        Argument(&[Number], |text| edits::unread_above(text, 32_767))),
    altered("highest-unread", "65535 is too wide",
        Argument(&[Number], |text| edits::unread_above(text, 65_534))),
    altered("signed-version", "versions end at 2^63 - 1",
        Argument(&[Version], |text| edits::unread_above(text, i64::MAX.into()))),
    altered("highest-version-unread", "version 2^64 - 1 is too wide",
        Argument(&[Version], |text| edits::unread_above(text, (u64::MAX - 1).into()))),
    altered("lowest-pitch-unread", "pitch -2147483648 is too wide",
        Argument(&[Pitch], |text| edits::unread_at(text, b"-2147483648"))),
    altered("highest-pitch-unread", "pitch 2147483647 is too wide",
        Argument(&[Pitch], |text| edits::unread_at(text, b"2147483647"))),
    altered("pitch-outside-unread", "a pitch out of range is unread",
        Argument(&[Pitch], edits::unread_outside)),
];

#[rustfmt::skip]
const CALLS: &[Misreading] = &[
    altered("kinds-exchanged", "new and old are exchanged", Step::Call(edits::other_kind)),
    altered("sizes-exchanged", "store takes publishers before readers",
        Step::Call(edits::sizes_exchanged)),
    altered("look-exchanged", "look takes the entry first", Step::Call(edits::look_exchanged)),
    altered("claim-exchanged", "claim takes the slot first", Step::Call(edits::claim_exchanged)),
    altered("walk-exchanged", "walk takes the looks first", Step::Call(edits::walk_exchanged)),
    altered("write-exchanged", "write takes the pitch first", Step::Call(edits::write_exchanged)),
    altered("walk-by-8-bits", "walk takes its looks modulo 256", Step::Call(edits::walk_by_8_bits)),
    altered("refused-forgets", "a refused store forgets the one before",
        Step::Reply(refused_forgets)),
    altered("refused-takes-kind", "a refused store gives its kind to the one before",
        Step::Reply(refused_takes_kind)),
    altered("refused-feathers", "a refused store feathers the one before",
        Step::Reply(refused_feathers)),
    altered("first-store-stays", "the store made first stays", Step::Reply(first_store_stays)),
    altered("readers-stay", "readers stay when a store is made again", Step::Reply(readers_stay)),
    altered("publishers-stay", "publishers stay when a store is made again",
        Step::Reply(publishers_stay)),
    altered("entries-stay", "entries stay when a store is made again", Step::Reply(entries_stay)),
    altered("unread-calls", "an unread line makes the call that it nearly asks for",
        Step::Reply(unread_calls)),
    altered("unread-forgets", "an unread line forgets the store", Step::Reply(unread_forgets)),
    altered("before-made-unread", "before a made store calls are unread",
        Step::Reply(before_made_unread)),
    altered("before-made-is-1", "before a made store every line but a store gets 1",
        Step::Reply(before_made_is_1)),
    altered("before-made-names", "before a made store names are refused with 10 and 11",
        Step::Reply(before_made_names)),
    altered("before-made-lacks", "before a made store pick, checkpoint and defer are unread",
        Step::Reply(before_made_lacks)),
    altered("lacked-is-1", "a call that the made store's kind lacks gets 1",
        Step::Reply(lacked_is_1)),
    altered("lacked-is-turn", "a call that the made store's kind lacks gets 20 or 21",
        Step::Reply(lacked_is_turn)),
    altered("enter-is-pick", "enter is read as pick if the kind lacks it",
        Step::Reply(enter_is_pick)),
    altered("pick-is-enter", "pick is read as enter if the kind lacks it",
        Step::Reply(pick_is_enter)),
];

#[rustfmt::skip]
const REPLIES: &[Misreading] = &[
    altered("raised-is-shared", "raised and shared are exchanged",
        Print(|n, reply| edits::exchanged_words(n, reply, "raised", "shared"))),
    altered("quiet-is-spent", "quiet and spent are exchanged",
        Print(|n, reply| edits::exchanged_words(n, reply, "quiet", "spent"))),
    altered("claimed-is-swapped", "claimed and swapped are exchanged",
        Print(|n, reply| edits::exchanged_words(n, reply, "claimed", "swapped"))),
    altered("at-is-written", "at and written are exchanged",
        Print(|n, reply| edits::exchanged_words(n, reply, "at", "written"))),
    altered("left-is-made", "left and made are exchanged",
        Print(|n, reply| edits::exchanged_words(n, reply, "left", "made"))),
    altered("waiting-is-synced", "waiting and synced are exchanged",
        Print(|n, reply| edits::exchanged_words(n, reply, "waiting", "synced"))),
    altered("returned-is-freed", "returned and freed are exchanged",
        Print(|n, reply| edits::exchanged_words(n, reply, "returned", "freed"))),
    altered("pitch-is-refused", "pitch and refused are exchanged",
        Print(|n, reply| edits::exchanged_words(n, reply, "pitch", "refused"))),
    altered("picked-is-claimed", "picked and claimed are exchanged",
        Print(|n, reply| edits::exchanged_words(n, reply, "picked", "claimed"))),
    altered("picked-without-slot", "picked is printed without its slot",
        Print(edits::picked_alone)),
    altered("waits-first", "returned gives waits before looks", Print(edits::waits_first)),
    altered("releases-first", "freed gives releases before the slot", Print(edits::releases_first)),
    altered("pitch-unsigned", "a negative pitch is printed modulo 2^32",
        Print(edits::pitch_unsigned)),
    altered("pitch-printed-by-16-bits", "the low 16 bits of a pitch are printed",
        Print(edits::pitch_by_16_bits)),
    altered("mark-signed", "a mark is printed as a signed number", Print(edits::mark_signed)),
];

/// Every alteration of the sheet.
pub fn all() -> impl Iterator<Item = &'static Misreading> {
    [CARDS, LINES, SHAPES, NUMBERS, CALLS, REPLIES]
        .into_iter()
        .flatten()
}

impl Misreading {
    pub fn by_name(name: &str) -> Option<&'static Misreading> {
        all().find(|misreading| misreading.name == name)
    }

    /// The whole sheet beside this card, if there is one, with this rule
    /// altered.
    pub fn play(&self, card: Option<&[u8]>, text: &[u8]) -> Vec<u8> {
        let table = match self.step {
            Card(read) => read(card),
            CardLine(change) => edits::card_with_lines(card, change),
            _ => entries_if_any(card),
        };
        match self.step {
            Text(change) => play_by(Rules::AS_WRITTEN, &table, &change(text)),
            Output(change) => change(text, play_by(Rules::AS_WRITTEN, &table, text)),
            _ => self.play_lines(&table, text),
        }
    }

    fn play_lines(&self, table: &[store::Pitch], text: &[u8]) -> Vec<u8> {
        let mut sheet = Sheet::new(table, Rules::AS_WRITTEN);
        let mut output = Vec::new();
        let mut n = 0;
        for line in lines(text) {
            let reply = self.reply(&mut sheet, line);
            if matches!(self.step, Skip(skips) if skips(line, reply)) {
                continue;
            }
            n += 1;
            let line = match self.step {
                Print(print) => print(n, reply),
                _ => printed(n, reply),
            };
            output.extend_from_slice(line.as_bytes());
        }
        output
    }

    fn reply(&self, sheet: &mut Sheet, line: &[u8]) -> Option<Reply> {
        match self.step {
            Line(change) => sheet.reply(&change(line)),
            Argument(roles, change) => sheet.reply(&edits::with_arguments(line, roles, change)),
            Step::Call(change) => sheet.read(line).map(|call| sheet.call(&change(call))),
            Step::Reply(reply) => reply(sheet, line),
            _ => sheet.reply(line),
        }
    }
}

fn without_card_unread(sheet: &mut Sheet, line: &[u8]) -> Option<Reply> {
    let reply = sheet.reply(line);
    reply.filter(|&reply| reply != Reply::Refused(40))
}

fn is_refused_store(line: &[u8], reply: Option<Reply>) -> bool {
    let store = matches!(read(line), Some(Call::Make { .. }));
    store && reply.is_some_and(|reply| !reply.accepted())
}

fn refused_forgets(sheet: &mut Sheet, line: &[u8]) -> Option<Reply> {
    let reply = sheet.reply(line);
    if is_refused_store(line, reply) {
        sheet.made = None;
    }
    reply
}

fn refused_takes_kind(sheet: &mut Sheet, line: &[u8]) -> Option<Reply> {
    let reply = sheet.reply(line);
    if let (Some(Call::Make { kind, .. }), Some(made)) = (read(line), &mut sheet.made) {
        made.store.kind = Kind::from_number(u64::from(kind))?;
    }
    reply
}

fn refused_feathers(sheet: &mut Sheet, line: &[u8]) -> Option<Reply> {
    let reply = sheet.reply(line);
    if let (true, Some(made)) = (is_refused_store(line, reply), &mut sheet.made) {
        made.entries.fill(FEATHERED);
    }
    reply
}

fn first_store_stays(sheet: &mut Sheet, line: &[u8]) -> Option<Reply> {
    let before = sheet.made.clone();
    let reply = sheet.reply(line);
    if let (Some(Reply::Made), Some(_)) = (reply, &before) {
        sheet.made = before;
    }
    reply
}

fn readers_stay(sheet: &mut Sheet, line: &[u8]) -> Option<Reply> {
    let before = sheet.made.clone();
    let reply = sheet.reply(line);
    if let (Some(Reply::Made), Some(before), Some(made)) = (reply, before, &mut sheet.made) {
        made.store.reader = before.store.reader;
    }
    reply
}

fn publishers_stay(sheet: &mut Sheet, line: &[u8]) -> Option<Reply> {
    let before = sheet.made.clone();
    let reply = sheet.reply(line);
    if let (Some(Reply::Made), Some(before), Some(made)) = (reply, before, &mut sheet.made) {
        made.store.publisher = before.store.publisher;
    }
    reply
}

fn entries_stay(sheet: &mut Sheet, line: &[u8]) -> Option<Reply> {
    let before = sheet.made.clone();
    let reply = sheet.reply(line);
    if let (Some(Reply::Made), Some(before), Some(made)) = (reply, before, &mut sheet.made) {
        for (entry, stays) in made.entries.iter_mut().zip(before.entries) {
            *entry = stays;
        }
    }
    reply
}

fn unread_calls(sheet: &mut Sheet, line: &[u8]) -> Option<Reply> {
    let reply = sheet.reply(line);
    if reply.is_none() {
        let nearly = edits::single_spaces(&edits::to_first_bracket(line));
        sheet.reply(&edits::with_count(&nearly, false));
    }
    reply
}

fn unread_forgets(sheet: &mut Sheet, line: &[u8]) -> Option<Reply> {
    let reply = sheet.reply(line);
    if reply.is_none() {
        sheet.made = None;
    }
    reply
}

fn before_made_unread(sheet: &mut Sheet, line: &[u8]) -> Option<Reply> {
    sheet
        .reply(line)
        .filter(|&reply| reply != Reply::Refused(1))
}

fn before_made_is_1(sheet: &mut Sheet, line: &[u8]) -> Option<Reply> {
    let before = sheet.made.is_none().then_some(Reply::Refused(1));
    sheet.reply(line).or(before)
}

fn before_made_names(sheet: &mut Sheet, line: &[u8]) -> Option<Reply> {
    let reply = sheet.reply(line)?;
    match (reply, read(line)?.reader()) {
        (Reply::Refused(1), Some(_)) => Some(Reply::Refused(10)),
        (Reply::Refused(1), None) => Some(Reply::Refused(11)),
        _ => Some(reply),
    }
}

fn before_made_lacks(sheet: &mut Sheet, line: &[u8]) -> Option<Reply> {
    let call = sheet.read(line)?;
    let of_others = call.name().of(Kind::New) || call.name().of(Kind::Old);
    (of_others || sheet.made.is_some()).then(|| sheet.call(&call))
}

/// The reply to a line, and this one to a call that the kind lacks.
fn reply_or(sheet: &mut Sheet, line: &[u8], reply: fn(&Call) -> u64) -> Option<Reply> {
    let lacked = read(line).filter(|call| sheet.lacks(call));
    match lacked {
        Some(call) => Some(Reply::Refused(reply(&call))),
        None => sheet.reply(line),
    }
}

fn lacked_is_1(sheet: &mut Sheet, line: &[u8]) -> Option<Reply> {
    reply_or(sheet, line, |_| 1)
}

fn lacked_is_turn(sheet: &mut Sheet, line: &[u8]) -> Option<Reply> {
    reply_or(sheet, line, |call| match call.reader() {
        Some(_) => 20,
        None => 21,
    })
}

fn enter_is_pick(sheet: &mut Sheet, line: &[u8]) -> Option<Reply> {
    let call = read(line)?;
    if let (Call::Enter { r }, true) = (call, sheet.lacks(&call)) {
        return Some(sheet.call(&Call::Pick { r }));
    }
    sheet.reply(line)
}

fn pick_is_enter(sheet: &mut Sheet, line: &[u8]) -> Option<Reply> {
    let call = read(line)?;
    if let (Call::Pick { r }, true) = (call, sheet.lacks(&call)) {
        return Some(sheet.call(&Call::Enter { r }));
    }
    sheet.reply(line)
}

#[cfg(test)]
mod tests {
    use super::*;
    use crate::examples::{self, Example};
    use crate::rules::Alteration;
    use crate::sheet::play;

    /// The examples, and a text of more than 65535 lines.
    fn texts() -> Vec<Example> {
        let mut texts = examples::all();
        texts.push(Example {
            name: "many lines",
            card: Some(card::feathered()),
            input: vec![b'\n'; 65_540],
            output: Vec::new(),
        });
        texts
    }

    /// Each alteration is seen on some sheet.
    #[test]
    fn no_alteration_is_idle() {
        let texts = texts();
        let played = |text: &Example| play(&text.entries(), &text.input);
        let outputs: Vec<Vec<u8>> = texts.iter().map(played).collect();
        for misreading in all() {
            let mut both = texts.iter().zip(&outputs);
            let found = both.any(|(text, output)| {
                misreading.play(text.card.as_deref(), &text.input) != *output
            });
            assert!(found, "{}", misreading.name);
        }
    }

    #[test]
    fn alterations_have_names_and_texts_of_their_own() {
        let listed: Vec<&Misreading> = all().collect();
        assert!(listed.len() > 110, "{} alterations", listed.len());
        for (n, misreading) in listed.iter().enumerate() {
            let alike = |other: &&Misreading| {
                other.name == misreading.name || other.text == misreading.text
            };
            assert!(!listed[..n].iter().any(alike), "{}", misreading.name);
            assert!(Alteration::by_name(misreading.name).is_none());
        }
    }

    /// An alteration alters nothing that its rule does not name.
    #[test]
    fn alterations_alter_one_rule() {
        let p1 = &examples::all()[0];
        let played = |misreading: &Misreading| {
            let output = misreading.play(p1.card.as_deref(), &p1.input);
            String::from_utf8(output).expect("printed text")
        };
        let due = String::from_utf8_lossy(&p1.output);
        for shape in LINES[3..].iter().chain(SHAPES).chain(NUMBERS) {
            let line_after_last = shape.name == "line-after-last";
            let more = if line_after_last { "(11 unread)\n" } else { "" };
            assert_eq!(played(shape), format!("{due}{more}"), "{}", shape.name);
        }
        // These alter what every card, or every pitch above 32767, says.
        let met = |card: &&Misreading| {
            card.name == "card-line-after-last" || card.name.ends_with("16-bits")
        };
        for card in CARDS.iter().filter(|card| !met(card)) {
            assert_eq!(played(card), due, "{}", card.name);
        }
    }
}
