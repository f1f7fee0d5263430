//! Random sheets. The same seed and number give the same sheet.

use crate::card_shapes::{CARD_SHAPES, FORBIDDEN, GOOD};
use crate::cards::Card;
use crate::shapes::{any_byte, SHAPES};
use second::call::{calls, calls_lacked_by, calls_of, Call, Name, Reply, Whom};
use second::layout::{pack, publisher_at, step_at, PUBLISHERS, WORDS};
use second::random::Random;
use second::rules::Rules;
use second::sheet::{read, Sheet};
use second::store::{Kind, KINDS, OLD_LAST_BEFORE};
use second::turns::{call_by, call_named, in_turn, Actor, RestPoints, Scheduler};

/// The sheet with a line of several hundred thousand bytes.
pub const HUGE_LINE: u64 = 0;
/// The sheet of more than 65536 lines, most of them empty.
pub const MANY_LINES: u64 = 1;
/// The sheet of no lines.
pub const NO_LINES: u64 = 2;
/// The sheet of rest stores with many deferred slots, to the last epoch.
pub const DEFERRING: u64 = 3;
/// The sheet of rest stores with DEFERs and checkpoints side by side.
pub const SIDE_BY_SIDE: u64 = 4;
/// From here on the sheets are ordinary.
pub const ORDINARY: u64 = 5;
/// From here on each sheet has the next shape of card.
pub const CARDS: u64 = 1 << 39;
/// From here on the sheets are short enough to be talked through.
pub const TALK: u64 = 1 << 40;

/// How often 32 or 43 may be the reply before another store is made.
const PATIENCE: u64 = 10;

/// A sheet with the card beside it, how often each shape of unread line is in
/// it, and the calls in it that the made store's kind lacks.
pub struct Written {
    pub card: Card,
    /// The name of the card's shape.
    pub card_name: &'static str,
    pub text: Vec<u8>,
    pub shapes: Vec<u64>,
    pub lacked: Vec<(Kind, Name)>,
}

/// The random numbers of this sheet.
pub fn random_of(seed: u64, number: u64) -> Random {
    let mut mixed = Random::from_seed(seed);
    Random::from_seed(mixed.word() ^ Random::from_seed(number).word())
}

/// The sheet of this number.
pub fn write(seed: u64, number: u64) -> Written {
    let mut random = random_of(seed, number);
    let shape = card_shape(number, &mut random);
    let mut writer = Writer::new(shape, &mut random);
    match number {
        HUGE_LINE => writer.huge_line(),
        MANY_LINES => writer.many_lines(),
        NO_LINES => {}
        DEFERRING => writer.deferring(),
        SIDE_BY_SIDE => writer.side_by_side(),
        TALK.. => writer.calls(400),
        CARDS.. => writer.stores(),
        _ if shape >= GOOD => writer.stores(),
        _ => writer.ordinary(),
    }
    writer.written()
}

/// The shape of the card beside the sheet of this number.
fn card_shape(number: u64, random: &mut Random) -> usize {
    match number {
        CARDS..TALK => (number - CARDS) as usize % CARD_SHAPES.len(),
        ORDINARY..CARDS if random.one_in(8) => any_shape(random),
        // A talk exchanges the card, which is a file then.
        TALK.. => 0,
        _ => random.below(GOOD as u64) as usize,
    }
}

/// Any shape of card that root can try too.
fn any_shape(random: &mut Random) -> usize {
    let shape = random.below(CARD_SHAPES.len() as u64) as usize;
    match CARD_SHAPES[shape].name {
        FORBIDDEN => 0,
        _ => shape,
    }
}

struct Writer<'a> {
    random: &'a mut Random,
    sheet: Sheet,
    scheduler: Scheduler,
    /// Misshapen lines in a thousand.
    misshapen: u64,
    /// Whether publishers often go on side by side.
    together: bool,
    /// How often this store has refused with 32 or 43.
    at_the_last: u64,
    written: Written,
}

impl<'a> Writer<'a> {
    fn new(shape: usize, random: &'a mut Random) -> Writer<'a> {
        let card = CARD_SHAPES[shape].card(random);
        let sheet = Sheet::new(&card.entries(), Rules::AS_WRITTEN);
        let scheduler = Scheduler::new(random);
        let misshapen = random.pick(&[0, 10, 60, 150, 400]);
        let together = random.one_in(2);
        let written = Written {
            card,
            card_name: CARD_SHAPES[shape].name,
            text: Vec::new(),
            shapes: vec![0; SHAPES.len()],
            lacked: Vec::new(),
        };
        Writer {
            random,
            sheet,
            scheduler,
            misshapen,
            together,
            at_the_last: 0,
            written,
        }
    }

    /// The sheet, half of the time without its last newline.
    fn written(mut self) -> Written {
        if self.random.one_in(2) {
            self.written.text.pop();
        }
        self.written
    }

    /// Adds these bytes and a newline, and plays them here too.
    fn add(&mut self, bytes: &[u8]) {
        for line in bytes.split(|&byte| byte == b'\n') {
            let reply = self.sheet.reply(line);
            let last = matches!(reply, Some(Reply::Refused(32 | 43)));
            self.at_the_last += u64::from(last);
        }
        self.written.text.extend_from_slice(bytes);
        self.written.text.push(b'\n');
    }

    fn ordinary(&mut self) {
        if self.random.one_in(3) {
            for _ in 0..self.random.below(20) {
                self.before_a_made_store();
            }
        }
        let lines = self.random.pick(&[2, 30, 200, 600, 1500, 2500]);
        self.calls(lines);
    }

    /// Many `store` lines, refused and perhaps accepted, and after each a
    /// few calls that look at the first table.
    fn stores(&mut self) {
        for _ in 0..6 {
            self.before_a_made_store();
            self.refused_store();
            self.store();
            match self.sheet.kind() {
                Some(Kind::Rest) => self.add(b"(pick 0)"),
                Some(Kind::New | Kind::Old) | None => {
                    for _ in 0..5 {
                        self.add(b"(enter 0)");
                    }
                }
            }
            for _ in 0..4 {
                let k = self.random.below(32);
                self.add(format!("(look 0 {k})").as_bytes());
            }
            self.line();
        }
    }

    /// A made store, and this many lines after it.
    fn calls(&mut self, lines: u64) {
        self.store();
        for _ in 0..lines {
            self.line();
        }
    }

    /// Calls before and after a line of several hundred thousand bytes.
    fn huge_line(&mut self) {
        self.calls(50);
        let call = self.next_call();
        let length = 300_000 + self.random.below(300_000);
        let mut huge: Vec<u8> = (0..length).map(|_| any_byte(self.random)).collect();
        huge.extend_from_slice(call.to_string().as_bytes());
        self.add(&huge);
        for _ in 0..500 {
            self.line();
        }
    }

    /// Few bytes to read, and many to print.
    fn many_lines(&mut self) {
        self.store();
        for _ in 0..70_000 {
            match self.random.below(4) {
                0 => self.line(),
                _ => self.add(b""),
            }
        }
    }

    /// Eight deferred slots, or seven at the last epoch, with DEFERs between
    /// that are mostly out of turn.
    fn deferring(&mut self) {
        for version in [0, u64::MAX - 8, u64::MAX - 7] {
            let store = rest_store(1, 12, version);
            self.add(store.to_string().as_bytes());
            self.scheduler = Scheduler::deferring(self.random);
            for _ in 0..30 {
                self.only_calls(20);
                self.add(b"(defer 0)");
            }
        }
    }

    fn side_by_side(&mut self) {
        for _ in 0..8 {
            let store = small_rest_store(self.random);
            self.add(store.to_string().as_bytes());
            self.scheduler = Scheduler::side_by_side(self.random);
            self.only_calls(600);
        }
    }

    /// So many calls by the scheduler.
    fn only_calls(&mut self, lines: u64) {
        for _ in 0..lines {
            let call = self.scheduler.next(&self.words(), self.random);
            self.add(call.to_string().as_bytes());
        }
    }

    fn before_a_made_store(&mut self) {
        match self.random.below(6) {
            0 => self.refused_store(),
            1 => self.misshapen(),
            _ => {
                let call = self.next_call();
                self.add(call.to_string().as_bytes());
            }
        }
    }

    fn line(&mut self) {
        if self.at_the_last > PATIENCE {
            return self.store();
        }
        match self.random.below(1000) {
            0..=5 => self.refused_store(),
            6..=8 => self.store(),
            9..=20 => self.lacked(),
            n if n < 21 + self.misshapen => self.misshapen(),
            _ => {
                let call = self.next_call();
                self.add(call.to_string().as_bytes());
            }
        }
    }

    /// A call that suits the store as it is now, or nearly.
    fn next_call(&mut self) -> Call {
        let words = self.words();
        if self.random.one_in(20) {
            if let Some(call) = self.beside_the_rules(&words) {
                return call;
            }
        }
        match furthest_behind(&words) {
            Some(p) if self.together && self.random.one_in(2) => {
                in_turn(&words, Actor::Publisher(p), RestPoints::SELDOM, self.random)
            }
            _ => self.scheduler.next(&words, self.random),
        }
    }

    /// A call that the made store's kind lacks, if there is one. Its line is
    /// unread.
    fn lacked(&mut self) {
        let kind = self.sheet.kind();
        let names: Vec<Name> = match kind {
            Some(kind) => calls_lacked_by(kind).collect(),
            None => calls().collect(),
        };
        let words = self.words();
        let name = self.random.pick(&names);
        let call = call_named(name, &words, self.random);
        if let Some(kind) = kind {
            self.written.lacked.push((kind, name));
        }
        self.add(call.to_string().as_bytes());
    }

    /// The words of the made store, or zeros.
    fn words(&self) -> [u64; WORDS] {
        let mut words = [0; WORDS];
        if let Some(made) = &self.sheet.made {
            pack(&made.store, &mut words);
        }
        words
    }

    /// A call by or beside the publisher that is furthest on, that its place
    /// most often doesn't allow.
    fn beside_the_rules(&mut self, words: &[u64; WORDS]) -> Option<Call> {
        let kind = self.sheet.kind()?;
        let p = furthest_on(words)?;
        let held = words[publisher_at(usize::from(p)) + 1] as u16;
        let b = self.random.pick(&[256, 512, 32_768, 65_280]);
        let rest = kind == Kind::Rest;
        match self.random.below(4) {
            0 => idle(words).map(|p| Call::Claim { p, s: held }),
            1 if rest => Some(self.of_participant(p, words)),
            1 => Some(Call::Walk { p, b }),
            _ => {
                let publishers = |name: &Name| name.whom() == Whom::Publisher;
                let names: Vec<Name> = calls_of(kind).filter(publishers).collect();
                let name = self.random.pick(&names);
                Some(call_by(name, p, words, self.random))
            }
        }
    }

    /// PICK, LOOK or CHECKPOINT of the participant that is furthest on, or of
    /// one inside a checkpoint.
    fn of_participant(&mut self, p: u16, words: &[u64; WORDS]) -> Call {
        let inside = (0..words[PUBLISHERS] as u16).find(|&p| words[step_at(usize::from(p))] != 0);
        let r = inside.filter(|_| self.random.one_in(2)).unwrap_or(p);
        match self.random.below(3) {
            0 => Call::Pick { r },
            1 => Call::Checkpoint { r },
            _ => Call::Defer { p: r },
        }
    }

    fn store(&mut self) {
        let kind = self.random.pick(&KINDS);
        let mut store = some_store(kind, self.random);
        self.scheduler = match (kind, self.random.below(4)) {
            (Kind::Rest, 0) => {
                let slots = self.random.pick(&[10, 20]);
                store = rest_store(1, slots, u64::MAX - self.random.below(10));
                Scheduler::deferring(self.random)
            }
            (Kind::Rest, 1) => {
                store = small_rest_store(self.random);
                Scheduler::side_by_side(self.random)
            }
            (Kind::Rest, 2) => Scheduler::resting(self.random),
            (Kind::New | Kind::Old | Kind::Rest, _) => Scheduler::new(self.random),
        };
        self.add(store.to_string().as_bytes());
        self.at_the_last = 0;
    }

    /// A `store` with one or two of its arguments out of range.
    fn refused_store(&mut self) {
        let kind = self.random.pick(&KINDS);
        let mut store = some_store(kind, self.random);
        for _ in 0..1 + self.random.below(2) {
            out_of_range(kind, &mut store, self.random);
        }
        self.add(store.to_string().as_bytes());
    }

    /// A misshapen line, made from a call or from a `store`.
    fn misshapen(&mut self) {
        let call = match self.random.below(6) {
            0 => {
                let kind = self.random.pick(&KINDS);
                some_store(kind, self.random)
            }
            _ => self.next_call(),
        };
        let shape = self.random.below(SHAPES.len() as u64) as usize;
        let line = SHAPES[shape].of(call.to_string().as_bytes(), self.random);
        let unread = |line: &[u8]| read(line).is_none();
        let all_unread = line.split(|&byte| byte == b'\n').all(unread);
        self.written.shapes[shape] += u64::from(all_unread);
        self.add(&line);
    }
}

fn place(words: &[u64; WORDS], p: u16) -> u64 {
    words[publisher_at(usize::from(p))]
}

fn busy(words: &[u64; WORDS]) -> impl Iterator<Item = u16> + '_ {
    (0..words[PUBLISHERS] as u16).filter(|&p| place(words, p) != 0)
}

/// The busy publisher with the most steps before it.
fn furthest_behind(words: &[u64; WORDS]) -> Option<u16> {
    busy(words).min_by_key(|&p| place(words, p))
}

/// The busy publisher with the fewest steps before it.
fn furthest_on(words: &[u64; WORDS]) -> Option<u16> {
    busy(words).max_by_key(|&p| place(words, p))
}

fn idle(words: &[u64; WORDS]) -> Option<u16> {
    (0..words[PUBLISHERS] as u16).find(|&p| place(words, p) == 0)
}

/// An accepted making.
fn some_store(kind: Kind, random: &mut Random) -> Call {
    let equal = match kind {
        Kind::New | Kind::Old => false,
        Kind::Rest => true,
    };
    let most_readers = if equal { 16 } else { 64 };
    let any_readers = 1 + random.below(u64::from(most_readers)) as u16;
    let any_publishers = 1 + random.below(16) as u16;
    let any_slots = 2 + random.below(31) as u16;
    let (readers, publishers, slots) = match random.below(10) {
        0 => (most_readers, 16, 32),
        1 => (1, 1, 2),
        _ => (
            random.pick(&[1, 2, 2, 3, 5, any_readers]),
            random.pick(&[1, 2, 2, 3, 4, any_publishers]),
            random.pick(&[2, 3, 3, 4, 6, any_slots]),
        ),
    };
    Call::Make {
        kind: kind.number() as u16,
        readers,
        publishers: if equal { readers } else { publishers },
        slots,
        version: first_version(kind, random),
    }
}

fn rest_store(participants: u16, slots: u16, version: u64) -> Call {
    Call::Make {
        kind: Kind::Rest.number() as u16,
        readers: participants,
        publishers: participants,
        slots,
        version,
    }
}

/// A rest store in which few slots are soon deferred, freed and claimed
/// again.
fn small_rest_store(random: &mut Random) -> Call {
    let participants = random.pick(&[2, 2, 3, 4]);
    let slots = random.pick(&[2, 3, 4, 5]);
    rest_store(participants, slots, random.below(100))
}

fn first_version(kind: Kind, random: &mut Random) -> u64 {
    let last = match kind {
        Kind::New | Kind::Rest => kind.highest(),
        Kind::Old => return old_first_version(random),
    };
    match random.below(10) {
        0 => last,
        1 => last - 1,
        2 => last - random.below(8),
        3 => random.below(100),
        4 => random.word() % last,
        _ => 0,
    }
}

/// One time in eight within 3 of 2^64, and as often about 2^63.
fn old_first_version(random: &mut Random) -> u64 {
    match random.below(16) {
        0 | 1 => u64::MAX - random.below(3),
        2 | 3 => OLD_LAST_BEFORE - 1 + random.below(4),
        4 => u64::MAX - random.below(8),
        5 | 6 => random.below(100),
        7 => random.word(),
        _ => 0,
    }
}

/// Puts one of the arguments out of its range. No first version of an old or a
/// rest store is; the sizes of a rest store are put apart.
fn out_of_range(kind: Kind, store: &mut Call, random: &mut Random) {
    let Call::Make {
        readers,
        publishers,
        slots,
        version,
        ..
    } = store
    else {
        return;
    };
    match (kind, random.below(4)) {
        (Kind::Rest, 0) => {
            *readers = random.pick(&[0, 17, 64, 65, 65_535]);
            *publishers = *readers;
        }
        (_, 0) => *readers = random.pick(&[0, 65, 66, 256, 65_535]),
        (_, 1) => *publishers = random.pick(&[0, 17, 18, 256, 65_535]),
        (_, 2) => *slots = random.pick(&[0, 1, 33, 34, 256, 65_535]),
        (Kind::Rest, _) => *publishers = random.pick(&[*readers + 1, 1, 2, 16]),
        (Kind::Old, _) => *slots = random.pick(&[0, 1, 33]),
        (Kind::New, _) => *version = u64::MAX,
    }
}
