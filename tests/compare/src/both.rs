//! One call on both sides, the library and the second implementation, and
//! the comparison after it.

use crate::library;
use crate::seen::{Seen, Stand, Unusual};
use crate::slices::Side;
use crate::watch;
use second::call::{Call, Name, Numbers, Reply};
use second::demand3::Demand3;
use second::layout::{
    self, publisher_at, reader_at, step_at, KIND, PUBLISHERS, READERS, WORDS, WORDS_BEFORE,
};
use second::lent;
use second::rules::Rules;
use second::store::{Kind, Pitch};
use std::fmt;

pub const MOST_WORDS: usize = 2048;
pub const MOST_ENTRIES: usize = 4096;

/// Why a run stops.
pub enum Stop {
    /// All the calls were made.
    Done,
    /// The two sides differ, or demand 3 fell.
    Differs(Box<Difference>),
}

impl From<Difference> for Stop {
    fn from(difference: Difference) -> Stop {
        Stop::Differs(Box::new(difference))
    }
}

pub struct Both {
    library: Side,
    second: Side,
    rules: Rules,
    seed: u64,
    calls: u64,
    limit: u64,
    shown: u64,
    pub part: &'static str,
    pub seen: Seen,
}

impl Both {
    pub fn new(rules: Rules, seed: u64, limit: u64) -> Both {
        Both {
            library: Side::with_room(MOST_WORDS, MOST_ENTRIES),
            second: Side::with_room(MOST_WORDS, MOST_ENTRIES),
            rules,
            seed,
            calls: 0,
            limit,
            shown: 0,
            part: "",
            seen: Seen::new(),
        }
    }

    /// Prints this many of the last calls, with the library's replies.
    pub fn show_last(&mut self, shown: u64) {
        self.shown = shown;
    }

    pub fn calls(&self) -> u64 {
        self.calls
    }

    /// Lends these words on both sides.
    pub fn set_words(&mut self, words: &[u64]) {
        self.library.words.set(words);
        self.second.words.set(words);
    }

    /// Lends these entries on both sides.
    pub fn set_entries(&mut self, entries: &[Pitch]) {
        self.library.entries.set(entries);
        self.second.entries.set(entries);
    }

    /// Lends this first table on both sides.
    pub fn set_table(&mut self, table: &[Pitch]) {
        self.library.table.set(table);
        self.second.table.set(table);
    }

    pub fn set_null_words(&mut self) {
        self.library.words.set_null();
        self.second.words.set_null();
    }

    pub fn set_null_entries(&mut self) {
        self.library.entries.set_null();
        self.second.entries.set_null();
    }

    pub fn set_null_table(&mut self) {
        self.library.table.set_null();
        self.second.table.set_null();
    }

    pub fn rules(&self) -> Rules {
        self.rules
    }

    /// The library's words, if they are as many as a store has.
    pub fn words(&self) -> Option<&[u64; WORDS]> {
        self.library.words.lent().try_into().ok()
    }

    /// The call on both sides. The reply is the library's.
    pub fn call(&mut self, call: &Call) -> Result<Reply, Stop> {
        if self.calls == self.limit {
            return Err(Stop::Done);
        }
        self.calls += 1;
        watch::note_call(self.calls);
        let show = self.limit - self.calls < self.shown;
        if show {
            println!("{} in {}: {call}", self.calls, self.part);
        }
        let kind = self.kind_called(call);
        let stand = self.stand_called(call);
        let numbers = self.call_library(call);
        if show {
            println!("{}: {numbers}", self.calls);
        }
        let side = &mut self.second;
        let (words, entries) = (side.words.lent_mut(), side.entries.lent_mut());
        let reply = lent::call(words, entries, side.table.lent(), call, self.rules);
        if numbers != reply.numbers() || !self.library.alike(&self.second) {
            return Err(self.difference(call, kind, numbers, reply).into());
        }
        self.seen.note(kind, call, &numbers, stand);
        if let (Call::Make { .. }, Some(kind)) = (call, kind) {
            self.seen
                .note_table(kind, self.second.table.lent(), numbers.code);
        }
        self.note_unusual(call, kind);
        Ok(reply)
    }

    /// The call as part of a list from a fresh store.
    pub fn listed(&mut self, call: &Call, demand3: &mut Demand3) -> Result<Reply, Stop> {
        let kind = self.kind_called(call);
        let stand = self.stand_called(call);
        let reply = self.call(call)?;
        let mut kept = demand3.hear(call, &reply);
        if let (Ok(()), Some(words)) = (&kept, self.words()) {
            kept = demand3.recorded(words);
        }
        if let Err(fault) = kept {
            let mut difference = self.difference(call, kind, reply.numbers(), reply);
            difference.fault = Some(fault);
            return Err(difference.into());
        }
        if let Some(kind) = kind {
            self.seen
                .note_listed(kind, call, reply.numbers().code, stand);
        }
        Ok(reply)
    }

    fn call_library(&mut self, call: &Call) -> Numbers {
        // The guarded cells are lent for the time of the call.
        unsafe { library::call(self.library.lent(), call) }
    }

    /// The kind's number given to a making, or that in word 0.
    fn number_called(&self, call: &Call) -> Option<u64> {
        let words = self.words()?;
        match call {
            Call::Make { kind, .. } => Some(u64::from(*kind)),
            _ => Some(words[KIND]),
        }
    }

    fn kind_called(&self, call: &Call) -> Option<Kind> {
        self.number_called(call).and_then(Kind::from_number)
    }

    /// Where the reader or publisher that the call names stood before it.
    fn stand_called(&self, call: &Call) -> Option<Stand> {
        let words = self.words()?;
        let within = |n: u16, size: usize, most: u64| u64::from(n) < words[size].min(most);
        if let Some(r) = call.reader().filter(|&r| within(r, READERS, 64)) {
            return Some(stand(
                words,
                usize::from(r),
                words[reader_at(usize::from(r))],
            ));
        }
        let p = call.publisher().filter(|&p| within(p, PUBLISHERS, 16))?;
        let place = words[publisher_at(usize::from(p))];
        Some(stand(words, usize::from(p), place))
    }

    fn note_unusual(&mut self, call: &Call, kind: Option<Kind>) {
        if let (Call::Make { .. }, true) = (call, self.library.table.is_null()) {
            self.seen.note_unusual(Unusual::NullTable, call);
        }
        let words = &self.library.words;
        if words.is_null() {
            self.seen.note_unusual(Unusual::NullStore, call);
        } else if words.lent().len() != WORDS {
            self.seen.note_unusual(Unusual::StoreLength, call);
            self.note_words_before(call);
        } else if kind.is_none() {
            self.seen.note_unusual(Unusual::UnknownKind, call);
            self.note_before(call);
        } else if self.library.entries.is_null() {
            self.seen.note_unusual(Unusual::NullEntries, call);
        } else if let Some(kind) = kind.filter(|&kind| !call.name().of(kind)) {
            self.note_lacked(kind, call);
        }
    }

    /// Notes a call that the kind lacks if nothing else is wrong: neither is
    /// the store damaged, nor does the name not exist.
    fn note_lacked(&mut self, kind: Kind, call: &Call) {
        let entries = self.second.entries.lent().len();
        let store = self.words().and_then(layout::unpack);
        let damaged = store.is_none_or(|store| store.clauses(entries, Rules::AS_WRITTEN).any());
        if !damaged && self.stand_called(call).is_some() {
            self.seen.note_lacked(kind, call);
        }
    }

    /// Notes as many words as there were before if all else is right: with
    /// the others at 0 behind them the making is accepted, and another call
    /// does not get 1. The refused call left all as lent.
    fn note_words_before(&mut self, call: &Call) {
        let side = &self.second;
        if side.words.lent().len() != WORDS_BEFORE {
            return;
        }
        let (mut words, mut entries) = (side.words.lent().to_vec(), side.entries.lent().to_vec());
        words.resize(WORDS, 0);
        let table = side.table.lent();
        let reply = lent::call(&mut words, &mut entries, table, call, Rules::AS_WRITTEN);
        if right(call, reply) {
            self.seen.note_unusual(Unusual::WordsBefore, call);
        }
    }

    /// Notes a kind's number of the format before if all else is right: with
    /// the number of today the making is accepted, and another call does not
    /// get 1. The refused call left all as lent.
    fn note_before(&mut self, call: &Call) {
        let number = self.number_called(call);
        let Some(kind) = number.and_then(Kind::from_number_before) else {
            return;
        };
        let side = &self.second;
        let (mut words, mut entries) = (side.words.lent().to_vec(), side.entries.lent().to_vec());
        let mut today = *call;
        if let Call::Make { kind: number, .. } = &mut today {
            *number = kind.number() as u16;
        } else {
            words[KIND] = kind.number();
        }
        let table = side.table.lent();
        let reply = lent::call(&mut words, &mut entries, table, &today, Rules::AS_WRITTEN);
        let unusual = match kind {
            Kind::New => Unusual::NewBefore,
            Kind::Old => Unusual::OldBefore,
            Kind::Rest => return,
        };
        if right(call, reply) {
            self.seen.note_unusual(unusual, call);
        }
    }

    fn difference(
        &self,
        call: &Call,
        kind: Option<Kind>,
        library: Numbers,
        second: Reply,
    ) -> Difference {
        Difference {
            part: self.part,
            kind,
            seed: self.seed,
            call_number: self.calls,
            call: *call,
            store_length: self.library.words.lent().len(),
            entries_length: self.library.entries.lent().len(),
            table: match call {
                Call::Make { .. } => Some(self.second.table.lent().to_vec()),
                _ => None,
            },
            library,
            second: second.numbers(),
            word: self.library.words.first_unlike(&self.second.words),
            entry: self.library.entries.first_unlike(&self.second.entries),
            table_entry: self.library.table.first_unlike(&self.second.table),
            fault: None,
        }
    }
}

/// Whether a making was accepted, or another call did not get 1.
fn right(call: &Call, reply: Reply) -> bool {
    match call.name() == Name::Store {
        true => reply == Reply::Made,
        false => reply != Reply::Refused(1),
    }
}

/// Where the reader or publisher n stands, whose place this is. Participants
/// are 16 at most.
fn stand(words: &[u64; WORDS], n: usize, place: u64) -> Stand {
    let p = n.min(15);
    let [first, second] = [1, 2].map(|i| words[reader_at(n) + i]);
    Stand {
        place,
        reader_place: words[reader_at(n)],
        publisher_place: words[publisher_at(p)],
        step: words[step_at(p)],
        participants: words[READERS],
        versions_differ: first != second,
    }
}

/// Where the two sides differ: the library's number first.
pub struct Difference {
    part: &'static str,
    kind: Option<Kind>,
    seed: u64,
    pub call_number: u64,
    call: Call,
    store_length: usize,
    entries_length: usize,
    /// The first table lent to a making.
    table: Option<Vec<Pitch>>,
    library: Numbers,
    second: Numbers,
    word: Option<(Option<usize>, u64, u64)>,
    entry: Option<(Option<usize>, Pitch, Pitch)>,
    table_entry: Option<(Option<usize>, Pitch, Pitch)>,
    fault: Option<String>,
}

impl fmt::Display for Difference {
    fn fmt(&self, f: &mut fmt::Formatter<'_>) -> fmt::Result {
        match self.kind {
            Some(kind) => writeln!(f, "kind:     {kind} store, in {}", self.part)?,
            None => writeln!(f, "kind:     unknown or no store, in {}", self.part)?,
        }
        writeln!(
            f,
            "seed:     {}, call number {}",
            self.seed, self.call_number
        )?;
        let (words, entries) = (self.store_length, self.entries_length);
        writeln!(
            f,
            "call:     {}, {words} words and {entries} entries lent",
            self.call
        )?;
        if let Some(table) = &self.table {
            writeln!(f, "table:    {table:?}")?;
        }
        writeln!(f, "library:  {}", self.library)?;
        writeln!(f, "second:   {}", self.second)?;
        self.write_cells(f)?;
        match &self.fault {
            Some(fault) => writeln!(f, "demand 3: {fault}"),
            None => Ok(()),
        }
    }
}

impl Difference {
    /// The first word and the first entries that differ.
    fn write_cells(&self, f: &mut fmt::Formatter<'_>) -> fmt::Result {
        if let Some((number, library, second)) = self.word {
            match number {
                Some(n) => write!(f, "word {n}, {}:", layout::name(n))?,
                None => write!(f, "a word outside the lent store:")?,
            }
            writeln!(f, " library {library}, second {second}")?;
        }
        if let Some((number, library, second)) = self.entry {
            match number {
                Some(n) => write!(f, "entry {n}, slot {} entry {}:", n / 32, n % 32)?,
                None => write!(f, "an entry outside the lent entries:")?,
            }
            writeln!(f, " library {library}, second {second}")?;
        }
        if let Some((number, library, lent)) = self.table_entry {
            match number {
                Some(n) => write!(f, "entry {n} of the first table:")?,
                None => write!(f, "an entry outside the first table:")?,
            }
            writeln!(f, " library left {library}, lent {lent}")?;
        }
        Ok(())
    }
}
