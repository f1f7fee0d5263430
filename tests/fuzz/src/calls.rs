//! Surface A: an input as words, lengths and calls, on the library and on
//! the second implementation.

use crate::bytes::{Bytes, Form, Step, MOST_WORDS};
use crate::seen::Cell;
use crate::slices::{Lent, Side};
use second::call::{Call, Name, Numbers, Reply, Whom};
use second::damage::{Clause, CLAUSES};
use second::demand3::Demand3;
use second::layout::{
    self, pair_at, publisher_at, reader_at, step_at, COUNTS, INDICATOR_0, INDICATOR_1, KIND, PAIRS,
    PUBLISHER, PUBLISHERS, READER, READERS, SLOTS, WORDS,
};
use second::lent;
use second::making::Making;
use second::rules::Rules;
use second::store::{Kind, Pitch, FEATHERED, PITCH_HIGH, PITCH_LOW, STEP_MOST, TABLE};
use std::fmt;

/// The library: the lent slices and a call.
pub type Library = unsafe fn(Lent, &Call) -> Numbers;

/// In an input that begins so, the step `LEND_TABLE` lends a first table.
/// Without it every making is lent 32 times 90000.
const CARD: &[u8] = b"card";
/// The same, and its pitches are given in thousandths.
const WIDE: &[u8] = b"wide";
/// The same, with three kinds, thirteen calls and all the words.
const REST: &[u8] = b"rest";
const LEND_TABLE: u8 = 255;

/// What follows the marker, with its form, and whether first tables are lent.
fn marked(input: &[u8]) -> (Bytes<'_>, bool) {
    let markers = [
        (CARD, Form::Hundredths),
        (WIDE, Form::Thousandths),
        (REST, Form::ThreeKinds),
    ];
    for (marker, form) in markers {
        if let Some(rest) = input.strip_prefix(marker) {
            return (Bytes::new(rest, form), true);
        }
    }
    (Bytes::new(input, Form::Hundredths), false)
}

const MOST_ENTRIES: usize = 1100;
/// An input makes no more calls than this.
const MOST_CALLS: u64 = 3000;

fn fresh_side() -> Side {
    let mut side = Side::with_room(MOST_WORDS, MOST_ENTRIES);
    side.words.set(&[0; WORDS]);
    side.entries.set(&[0; 64]);
    side.table.set(&[FEATHERED; TABLE]);
    side
}

/// An input while it is played.
struct Played<'a> {
    bytes: Bytes<'a>,
    library: Side,
    second: Side,
    call_library: Library,
    rules: Rules,
    /// The words as they were when they last had their length.
    words: [u64; WORDS],
    /// A list from a fresh store, as long as nothing else touches it.
    list: Option<Demand3>,
    /// How often the next call is made.
    times: u16,
    calls: u64,
}

/// Plays an input on both sides. After each call, replies, words, entries
/// and guards must be alike; a list must keep demand 3. Tells the cells, and
/// how many calls were compared.
pub fn play(
    input: &[u8],
    call_library: Library,
    rules: Rules,
    seen: &mut dyn FnMut(Cell),
) -> Result<u64, Difference> {
    let (bytes, lends_tables) = marked(input);
    let mut played = Played {
        bytes,
        library: fresh_side(),
        second: fresh_side(),
        call_library,
        rules,
        words: [0; WORDS],
        list: None,
        times: 1,
        calls: 0,
    };
    while let Some(step) = played.bytes.next() {
        match step {
            LEND_TABLE if lends_tables => played.lend_table(),
            _ => played.step(played.bytes.form.step(step), seen)?,
        }
        if played.calls >= MOST_CALLS {
            break;
        }
    }
    Ok(played.calls)
}

impl Played<'_> {
    fn step(&mut self, step: Step, seen: &mut dyn FnMut(Cell)) -> Result<(), Difference> {
        match step {
            Step::Make => {
                let making = self.making();
                self.call(&making, seen)?;
            }
            Step::Call(name) => {
                let call = self.ask(name);
                self.call_times(call, seen)?;
            }
            Step::Times => self.times = 1 + u16::from(self.bytes.byte() % 64),
            Step::ReaderInTurn => self.reader_in_turn(seen)?,
            Step::PublisherInTurn => self.publisher_in_turn(seen)?,
            Step::EachCall => self.each_call(seen)?,
            Step::PutWord => self.put_word(),
            Step::PutReader => self.put_reader(),
            Step::PutPublisher => self.put_publisher(),
            Step::PutParticipant => self.put_participant(),
            Step::CountIndicators => self.count_indicators(),
            Step::LendWords => self.lend_words(),
            Step::LendEntries => self.lend_entries(),
        }
        Ok(())
    }

    /// A making; three times in four beside entries of the length due.
    fn making(&mut self) -> Call {
        let form = self.bytes.form;
        let kind = match self.bytes.byte() {
            byte @ 0..=199 => form.kind(byte).number() as u16,
            byte @ 200..=249 => form.kind_number(u64::from(byte) - 200) as u16,
            _ => form.kind_number(u64::from(self.bytes.wide())) as u16,
        };
        let readers = self.bytes.within(1, 64);
        let publishers = self.bytes.within(1, 16);
        let slots = self.bytes.within(2, 31);
        let version = self.bytes.number(&self.words);
        let due = usize::from(slots) * 32;
        let flag = self.bytes.byte();
        if flag < 192 && due <= MOST_ENTRIES {
            self.list = None;
            let lent = self.bytes.form.moved(0, Pitch::from(flag));
            self.set_entries(&vec![lent; due]);
        }
        Call::Make {
            kind,
            readers,
            publishers,
            slots,
            version,
        }
    }

    /// A size in these words, within its range.
    fn size(&self, word: usize, most: u64) -> u16 {
        self.words[word].clamp(1, most) as u16
    }

    /// The call of this name with arguments from the input.
    fn ask(&mut self, name: Name) -> Call {
        let (readers, publishers) = (self.size(READERS, 64), self.size(PUBLISHERS, 16));
        let slots = self.size(SLOTS, 32);
        let bytes = &mut self.bytes;
        let n = bytes.within(
            0,
            match name.whom() {
                Whom::Reader => readers,
                Whom::Publisher | Whom::Nobody => publishers,
            },
        );
        match name {
            Name::Store => unreachable!("making is a step of its own"),
            Name::Enter => Call::Enter { r: n },
            Name::Look => Call::Look {
                r: n,
                k: bytes.within(0, 32),
            },
            Name::Leave => Call::Leave { r: n },
            Name::Claim => Call::Claim {
                p: n,
                s: bytes.within(0, slots),
            },
            Name::Write => Call::Write {
                p: n,
                v: bytes.pitch(),
            },
            Name::Swap => Call::Swap { p: n },
            Name::Sync => Call::Sync { p: n },
            Name::Raise => Call::Raise { p: n },
            Name::Walk => Call::Walk {
                p: n,
                b: bytes.within(0, readers + 2),
            },
            Name::Release => Call::Release { p: n },
            Name::Pick => Call::Pick { r: n },
            Name::Checkpoint => Call::Checkpoint { r: n },
            Name::Defer => Call::Defer { p: n },
        }
    }

    /// The call as often as was asked for. A repeated WRITE goes up by one of
    /// its units each time, so that the entries of a table differ.
    fn call_times(&mut self, mut call: Call, seen: &mut dyn FnMut(Cell)) -> Result<(), Difference> {
        for _ in 0..std::mem::replace(&mut self.times, 1) {
            self.call(&call, seen)?;
            if let Call::Write { v, .. } = &mut call {
                *v = self.bytes.form.moved(*v, 1);
            }
        }
        Ok(())
    }

    /// The call of this name by this number, with arguments in range.
    fn in_range(&self, name: Name, n: u16, wide: u16) -> Call {
        let readers = self.size(READERS, 64);
        let (r, p) = (n % readers, n % self.size(PUBLISHERS, 16));
        match name {
            Name::Store => unreachable!("making is a step of its own"),
            Name::Enter => Call::Enter { r },
            Name::Look => Call::Look {
                r,
                k: wide / 2 % 32,
            },
            Name::Leave => Call::Leave { r },
            Name::Claim => Call::Claim {
                p,
                s: wide % self.size(SLOTS, 32),
            },
            Name::Write => Call::Write {
                p,
                v: self.bytes.form.in_range(wide),
            },
            Name::Swap => Call::Swap { p },
            Name::Sync => Call::Sync { p },
            Name::Raise => Call::Raise { p },
            Name::Walk => Call::Walk {
                p,
                b: wide % (readers + 2),
            },
            Name::Release => Call::Release { p },
            Name::Pick => Call::Pick { r },
            Name::Checkpoint => Call::Checkpoint { r },
            Name::Defer => Call::Defer { p },
        }
    }

    fn kind(&self) -> Option<Kind> {
        Kind::from_number(self.words[KIND])
    }

    /// The call that this reader's place allows, as often as was asked for.
    fn reader_in_turn(&mut self, seen: &mut dyn FnMut(Cell)) -> Result<(), Difference> {
        let (n, wide) = (u16::from(self.bytes.byte()), self.bytes.wide());
        let r = usize::from(n % self.size(READERS, 64));
        for _ in 0..std::mem::replace(&mut self.times, 1) {
            let name = match (self.kind(), self.words[reader_at(r)]) {
                (Some(Kind::Rest), place) => self.participant_reads(r, place, wide),
                (_, 4) if wide % 8 == 0 => Name::Leave,
                (_, 5) if wide % 2 == 0 => Name::Leave,
                (_, 5) => Name::Look,
                _ => Name::Enter,
            };
            self.call(&self.in_range(name, n, wide), seen)?;
        }
        Ok(())
    }

    /// What a rest store's participant does as a reader.
    fn participant_reads(&self, r: usize, place: u64, wide: u16) -> Name {
        let p = r.min(15);
        match (self.words[step_at(p)], place) {
            _ if self.words[publisher_at(p)] == 35 => Name::Defer,
            (1.., _) => Name::Checkpoint,
            (0, 5) if wide % 4 > 1 => Name::Look,
            (0, _) if wide % 2 == 0 => Name::Checkpoint,
            (0, _) => Name::Pick,
        }
    }

    /// The call that this publisher's place allows, likewise. The entries of
    /// a table differ.
    fn publisher_in_turn(&mut self, seen: &mut dyn FnMut(Cell)) -> Result<(), Difference> {
        let (n, wide) = (u16::from(self.bytes.byte()), self.bytes.wide());
        let p = usize::from(n % self.size(PUBLISHERS, 16));
        for time in 0..std::mem::replace(&mut self.times, 1) {
            let name = match (self.words[publisher_at(p)], self.kind()) {
                (0, _) => Name::Claim,
                (1..=32, _) => Name::Write,
                (33, _) => Name::Swap,
                (34.., Some(Kind::Rest)) if self.words[step_at(p)] != 0 => Name::Checkpoint,
                (34.., Some(Kind::Rest)) => Name::Defer,
                (34, _) => Name::Sync,
                (37, _) | (35, Some(Kind::Old)) => Name::Walk,
                (35 | 36, _) => Name::Raise,
                _ => Name::Release,
            };
            let wide = wide.wrapping_add(if name == Name::Write { time } else { 0 });
            self.call(&self.in_range(name, n, wide), seen)?;
        }
        Ok(())
    }

    /// Each of the form's calls on the same store.
    fn each_call(&mut self, seen: &mut dyn FnMut(Cell)) -> Result<(), Difference> {
        self.list = None;
        let (n, wide) = (u16::from(self.bytes.byte()), self.bytes.wide());
        let (words, entries) = (self.words, self.library.entries.lent().to_vec());
        for name in self.bytes.form.calls() {
            if self.call(&self.in_range(name, n, wide), seen)?.accepted() {
                self.words = words;
                self.set_words(WORDS);
                self.set_entries(&entries);
            }
        }
        Ok(())
    }

    fn put_word(&mut self) {
        let number = self.bytes.wide();
        self.put_numbers(self.bytes.form.word(number), 1);
    }

    fn put_reader(&mut self) {
        let r = usize::from(self.bytes.byte() % 64);
        self.put_numbers(reader_at(r), READER);
    }

    fn put_publisher(&mut self) {
        let p = usize::from(self.bytes.byte() % 16);
        self.put_numbers(publisher_at(p), PUBLISHER);
    }

    /// A step and a count, and so many of the pairs as a byte says.
    fn put_participant(&mut self) {
        let p = usize::from(self.bytes.byte() % 16);
        let pairs = usize::from(self.bytes.byte()) % (PAIRS + 1);
        self.put_numbers(step_at(p), COUNTS);
        self.put_numbers(pair_at(p, 0), pairs);
    }

    /// So many numbers from this word on.
    fn put_numbers(&mut self, at: usize, count: usize) {
        self.list = None;
        for word in at..at + count {
            let number = self.bytes.number(&self.words);
            self.words[word] = match word {
                KIND => self.bytes.form.kind_number(number),
                _ => number,
            };
        }
        self.set_words(WORDS);
    }

    /// Both indicators as the readers have them.
    fn count_indicators(&mut self) {
        self.list = None;
        let readers = self.words[READERS].min(64) as usize;
        (self.words[INDICATOR_0], self.words[INDICATOR_1]) = (0, 0);
        for at in (0..readers).map(reader_at) {
            if matches!(self.words[at], 4 | 5) {
                let odd = (self.words[at + 1] % 2) as usize;
                self.words[INDICATOR_0 + odd] += 1;
            }
        }
        self.set_words(WORDS);
    }

    /// The words at a length: a likely one, none with a null pointer, or any.
    fn lend_words(&mut self) {
        self.list = None;
        let form = self.bytes.form;
        match self.bytes.byte() {
            byte @ 0..=199 => self.set_words(form.likely_length(byte)),
            200..=219 => {
                self.library.words.set_null();
                self.second.words.set_null();
            }
            _ => {
                let number = self.bytes.wide();
                self.set_words(form.any_length(number));
            }
        }
    }

    /// Entries at a length: the one due, near it, none with a null pointer,
    /// or any.
    fn lend_entries(&mut self) {
        self.list = None;
        let due = self.words[SLOTS].min(32) as usize * 32;
        let length = match self.bytes.byte() {
            0..=99 => due,
            100..=119 => due + 1,
            120..=139 => due.saturating_sub(1),
            140..=159 => due + 32,
            160..=179 => 0,
            180..=199 => {
                self.library.entries.set_null();
                self.second.entries.set_null();
                return;
            }
            _ => usize::from(self.bytes.wide()) % (MOST_ENTRIES + 1),
        };
        let mut entries = self.library.entries.lent().to_vec();
        entries.resize(length, self.bytes.pitch());
        self.set_entries(&entries);
    }

    /// A first table: another one, the one before with one entry or all from
    /// one on changed, of another length, or none with a null pointer.
    fn lend_table(&mut self) {
        let mut table = self.second.table.lent().to_vec();
        match self.bytes.byte() % 8 {
            0 => table = vec![self.bytes.pitch(); TABLE],
            1 => table = (0..TABLE).map(|_| self.bytes.pitch()).collect(),
            2 => table = self.stepped(),
            3 => self.set_entry(&mut table),
            4 => self.move_entries(&mut table, 1),
            5 => self.move_entries(&mut table, usize::MAX),
            6 => {
                let last = table.last().copied().unwrap_or(FEATHERED);
                table.resize(usize::from(self.bytes.byte() % 81), last);
            }
            _ => {
                self.library.table.set_null();
                self.second.table.set_null();
                return;
            }
        }
        self.library.table.set(&table);
        self.second.table.set(&table);
    }

    /// A table by its first entry and its 31 steps.
    fn stepped(&mut self) -> Vec<Pitch> {
        let mut entry = self.bytes.pitch();
        let mut table = vec![entry];
        while table.len() < TABLE {
            let step = Pitch::from(self.bytes.byte() as i8) * 120;
            entry = entry.saturating_add(step).clamp(PITCH_LOW, PITCH_HIGH);
            table.push(entry);
        }
        table
    }

    /// The entries from some place on.
    fn from_place<'b>(&mut self, table: &'b mut [Pitch]) -> &'b mut [Pitch] {
        let place = usize::from(self.bytes.byte()) % table.len().max(1);
        &mut table[place..]
    }

    fn set_entry(&mut self, table: &mut [Pitch]) {
        if let Some(entry) = self.from_place(table).first_mut() {
            *entry = self.bytes.pitch();
        }
    }

    /// Moves at most so many entries by the same.
    fn move_entries(&mut self, table: &mut [Pitch], most: usize) {
        let entries = self.from_place(table);
        if entries.is_empty() {
            return;
        }
        let (form, by) = (self.bytes.form, self.bytes.move_by());
        for entry in entries.iter_mut().take(most) {
            *entry = form.moved(*entry, by);
        }
    }

    /// Lends the words at this length, cut off or followed by zeros.
    fn set_words(&mut self, length: usize) {
        let mut words = self.words.to_vec();
        words.resize(length, 0);
        self.library.words.set(&words);
        self.second.words.set(&words);
    }

    fn set_entries(&mut self, entries: &[Pitch]) {
        self.library.entries.set(entries);
        self.second.entries.set(entries);
    }

    /// The call on both sides, and the comparison.
    fn call(&mut self, call: &Call, seen: &mut dyn FnMut(Cell)) -> Result<Reply, Difference> {
        self.calls += 1;
        let kind = self.kind_called(call);
        let place = self.place_called(kind, call);
        // The guarded cells are lent for the time of the call.
        let numbers = unsafe { (self.call_library)(self.library.lent(), call) };
        let side = &mut self.second;
        let (words, entries) = (side.words.lent_mut(), side.entries.lent_mut());
        let reply = lent::call(words, entries, side.table.lent(), call, self.rules);
        let alike = numbers == reply.numbers() && self.library.alike(&self.second);
        if !alike {
            return Err(self.difference(call, numbers, reply, None));
        }
        if let Ok(words) = self.library.words.lent().try_into() {
            self.words = words;
        }
        let from = match numbers.code {
            1 => self.clause_alone(),
            40..=42 => table_place(self.second.table.lent(), numbers.code),
            _ => place,
        };
        seen(Cell::new(kind, call.name(), from, numbers.code));
        let kept = self.keep_list(call, reply);
        let crossing = self.list.as_ref().and_then(Demand3::crossing);
        if let Some(crossing) = crossing {
            seen(Cell::crossing(crossing));
        }
        match kept {
            Ok(()) => Ok(reply),
            Err(fault) => Err(self.difference(call, numbers, reply, Some(fault))),
        }
    }

    /// Demand 3, if this is a list from a fresh store.
    fn keep_list(&mut self, call: &Call, reply: Reply) -> Result<(), String> {
        if let Call::Make { .. } = call {
            if let (Reply::Made, Some(making)) = (reply, Making::of(call)) {
                let first = self.second.table.lent();
                self.list = Some(Demand3::fresh(&making, first, self.rules));
            }
            return Ok(());
        }
        match &mut self.list {
            Some(list) => {
                list.hear(call, &reply)?;
                list.recorded(&self.words)
            }
            None => Ok(()),
        }
    }

    fn lent_words(&self) -> Option<&[u64; WORDS]> {
        self.library.words.lent().try_into().ok()
    }

    /// The kind given to a making, or the kind in word 0.
    fn kind_called(&self, call: &Call) -> Option<Kind> {
        let words = self.lent_words()?;
        if let Call::Make { kind, .. } = call {
            return Kind::from_number(u64::from(*kind));
        }
        Kind::from_number(words[KIND])
    }

    /// The place, before the call, of the reader or publisher that it names.
    /// For a rest store's own calls it says where a participant stands.
    fn place_called(&self, kind: Option<Kind>, call: &Call) -> Option<u64> {
        let words = self.lent_words()?;
        let within = |n: u16, size: usize, most: u64| u64::from(n) < words[size].min(most);
        let reader = call.reader().filter(|&r| within(r, READERS, 64));
        let publisher = call.publisher().filter(|&p| within(p, PUBLISHERS, 16));
        let n = usize::from(reader.or(publisher)?);
        let place = match reader {
            Some(_) => words[reader_at(n)],
            None => words[publisher_at(n)],
        };
        if kind != Some(Kind::Rest) || n > 15 {
            return Some(place);
        }
        let (step, at_35) = (words[step_at(n)].min(18), words[publisher_at(n)] == 35);
        Some(match call.name() {
            Name::Checkpoint if at_35 => 35,
            Name::Checkpoint => step,
            Name::Pick if at_35 => 35,
            Name::Pick | Name::Look if step != 0 => 6 + step,
            Name::Defer | Name::Claim if step != 0 => 36 + u64::from(place == 34),
            Name::Store | Name::Look | Name::Claim | Name::Write | Name::Swap => place,
            Name::Enter | Name::Leave | Name::Sync | Name::Raise | Name::Walk => place,
            Name::Release | Name::Pick | Name::Defer => place,
        })
    }

    /// The clause that spoils the store by itself.
    fn clause_alone(&self) -> Option<u64> {
        let store = layout::unpack(self.lent_words()?)?;
        let clauses = store.clauses(self.library.entries.lent().len(), Rules::AS_WRITTEN);
        let alone = |&clause: &Clause| clauses.only(clause);
        CLAUSES.into_iter().find(alone).map(|clause| clause as u64)
    }

    fn difference(
        &self,
        call: &Call,
        library: Numbers,
        second: Reply,
        fault: Option<String>,
    ) -> Difference {
        let (words, entries) = (&self.library.words, &self.library.entries);
        Difference {
            call_number: self.calls,
            call: *call,
            table: match call {
                Call::Make { .. } => Some(self.second.table.lent().to_vec()),
                _ => None,
            },
            lengths: (words.lent().len(), entries.lent().len()),
            library,
            second: second.numbers(),
            word: words.first_unlike(&self.second.words),
            entry: entries.first_unlike(&self.second.entries),
            table_entry: self.library.table.first_unlike(&self.second.table),
            fault,
        }
    }
}

/// Where a first table is refused with this code: its length, or the first
/// entry or pair that is refused.
fn table_place(table: &[Pitch], code: u64) -> Option<u64> {
    let outside = |entry: &Pitch| !(PITCH_LOW..=PITCH_HIGH).contains(entry);
    let steep = |pair: &[Pitch]| pair[0].abs_diff(pair[1]) > STEP_MOST as u32;
    let place = match code {
        40 => Some(table.len()),
        41 => table.iter().position(outside),
        _ => table.windows(2).position(steep),
    };
    place.map(|place| place as u64)
}

/// Where the two sides differ: the library's number first.
pub struct Difference {
    call_number: u64,
    call: Call,
    /// The first table lent to a making.
    table: Option<Vec<Pitch>>,
    lengths: (usize, usize),
    library: Numbers,
    second: Numbers,
    word: Option<(Option<usize>, u64, u64)>,
    entry: Option<(Option<usize>, Pitch, Pitch)>,
    table_entry: Option<(Option<usize>, Pitch, Pitch)>,
    fault: Option<String>,
}

impl fmt::Display for Difference {
    fn fmt(&self, f: &mut fmt::Formatter<'_>) -> fmt::Result {
        let (words, entries) = self.lengths;
        writeln!(
            f,
            "call {}: {}, {words} words and {entries} entries lent",
            self.call_number, self.call
        )?;
        if let Some(table) = &self.table {
            writeln!(f, "table:    {table:?}")?;
        }
        writeln!(f, "library:  {}", self.library)?;
        writeln!(f, "second:   {}", self.second)?;
        if let Some((number, library, second)) = self.word {
            let name = number.map_or("in a guard".to_string(), layout::name);
            writeln!(f, "word, {name}: library {library}, second {second}")?;
        }
        if let Some((number, library, second)) = self.entry {
            let name = number.map_or("in a guard".to_string(), |n| n.to_string());
            writeln!(f, "entry, {name}: library {library}, second {second}")?;
        }
        if let Some((number, library, lent)) = self.table_entry {
            let name = number.map_or("in a guard".to_string(), |n| n.to_string());
            writeln!(
                f,
                "first table, {name}: library left {library}, lent {lent}"
            )?;
        }
        match &self.fault {
            Some(fault) => writeln!(f, "demand 3: {fault}"),
            None => Ok(()),
        }
    }
}

#[cfg(test)]
mod tests {
    use super::*;

    #[test]
    fn a_marker_gives_the_form_and_the_tables() {
        let marks = |input| {
            let (mut bytes, lends_tables) = marked(input);
            (bytes.form, lends_tables, bytes.next())
        };
        assert_eq!(marks(b"card7"), (Form::Hundredths, true, Some(b'7')));
        assert_eq!(marks(b"wide7"), (Form::Thousandths, true, Some(b'7')));
        assert_eq!(marks(b"rest7"), (Form::ThreeKinds, true, Some(b'7')));
        assert_eq!(marks(b"7wide"), (Form::Hundredths, false, Some(b'7')));
    }
}
