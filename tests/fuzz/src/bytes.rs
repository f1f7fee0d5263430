//! An input taken apart from its start. Where a fuzzer changes a byte, one
//! number changes; most bytes give numbers that are in range or near its end.

use second::call::Name;
use second::layout::{publisher_at, VERSION, WORDS, WORDS_BEFORE};
use second::store::{Kind, Pitch, KINDS, NARROW_ENDS, PITCHES, PITCH_ENDS, PITCH_LOW};

/// How an input gives its pitches, its kinds, its steps and its words.
#[derive(Clone, Copy, PartialEq, Eq, Debug)]
pub enum Form {
    /// Pitches in hundredths of 16 bits, as inputs kept from before do. Ten
    /// times as many thousandths are lent.
    Hundredths,
    /// Pitches in thousandths of 32 bits. Like the form before, it has two
    /// kinds, ten calls and 425 words.
    Thousandths,
    /// The same with three kinds, thirteen calls and 713 words.
    ThreeKinds,
}

/// What a byte of an input asks for.
#[derive(Clone, Copy, PartialEq, Eq, Debug)]
pub enum Step {
    Make,
    Call(Name),
    /// How often the next call is made.
    Times,
    PutWord,
    PutReader,
    PutPublisher,
    PutParticipant,
    CountIndicators,
    LendWords,
    LendEntries,
    /// The call that a reader's, or a publisher's, place allows.
    ReaderInTurn,
    PublisherInTurn,
    /// Each of the calls on the same store.
    EachCall,
}

const STEPS: [Step; 25] = [
    Step::Make,
    Step::Call(Name::Enter),
    Step::Call(Name::Look),
    Step::Call(Name::Leave),
    Step::Call(Name::Claim),
    Step::Call(Name::Write),
    Step::Call(Name::Swap),
    Step::Call(Name::Sync),
    Step::Call(Name::Raise),
    Step::Call(Name::Walk),
    Step::Call(Name::Release),
    Step::Call(Name::Pick),
    Step::Call(Name::Checkpoint),
    Step::Call(Name::Defer),
    Step::Times,
    Step::PutWord,
    Step::PutReader,
    Step::PutPublisher,
    Step::PutParticipant,
    Step::CountIndicators,
    Step::LendWords,
    Step::LendEntries,
    Step::ReaderInTurn,
    Step::PublisherInTurn,
    Step::EachCall,
];

/// The steps of the first two forms: all but those of rest.
const STEPS_BEFORE: [Step; 21] = steps_before();

const fn steps_before() -> [Step; 21] {
    let mut steps = [Step::Make; 21];
    let (mut from, mut to) = (0, 0);
    while from < STEPS.len() {
        let of_rest = matches!(
            STEPS[from],
            Step::Call(Name::Pick | Name::Checkpoint | Name::Defer) | Step::PutParticipant
        );
        if !of_rest {
            steps[to] = STEPS[from];
            to += 1;
        }
        from += 1;
    }
    assert!(to == steps.len());
    steps
}

/// No store that is lent has more words than this. In the first two forms
/// none has more than 900.
pub const MOST_WORDS: usize = 1500;
const MOST_WORDS_BEFORE: usize = 900;

/// Lengths at which words are lent, the right one first.
const LENGTHS_BEFORE: [usize; 8] = [WORDS, 0, 1, 9, WORDS - 1, WORDS + 1, 850, MOST_WORDS_BEFORE];
const LENGTHS: [usize; 8] = [
    WORDS,
    0,
    1,
    WORDS_BEFORE,
    WORDS - 1,
    WORDS + 1,
    2 * WORDS,
    MOST_WORDS,
];

/// Hundredths in thousandths.
fn tenfold(hundredths: i16) -> Pitch {
    10 * Pitch::from(hundredths)
}

impl Form {
    /// A pitch moved by so many of its units, around the end of its width.
    pub fn moved(self, pitch: Pitch, by: Pitch) -> Pitch {
        match self {
            Form::Hundredths => tenfold(((pitch / 10) as i16).wrapping_add(by as i16)),
            Form::Thousandths | Form::ThreeKinds => pitch.wrapping_add(by),
        }
    }

    /// A pitch in range. The highest number gives the highest thousandths.
    pub fn in_range(self, number: u16) -> Pitch {
        let thousandths = match self {
            Form::Hundredths => u64::from(number) % (PITCHES / 10 + 1) * 10,
            Form::Thousandths | Form::ThreeKinds => {
                u64::from(number) * (PITCHES - 1) / u64::from(u16::MAX)
            }
        };
        thousandths as Pitch + PITCH_LOW
    }

    fn steps(self) -> &'static [Step] {
        match self {
            Form::Hundredths | Form::Thousandths => &STEPS_BEFORE,
            Form::ThreeKinds => &STEPS,
        }
    }

    /// The step that a byte asks for.
    pub fn step(self, byte: u8) -> Step {
        let steps = self.steps();
        steps[usize::from(byte) % steps.len()]
    }

    /// The calls that steps ask for.
    pub fn calls(self) -> impl Iterator<Item = Name> {
        self.steps().iter().filter_map(|step| match step {
            Step::Call(name) => Some(*name),
            _ => None,
        })
    }

    /// The kind that a byte gives.
    pub fn kind(self, byte: u8) -> Kind {
        let kinds = match self {
            Form::Hundredths | Form::Thousandths => &[Kind::New, Kind::Old][..],
            Form::ThreeKinds => &KINDS,
        };
        kinds[usize::from(byte) % kinds.len()]
    }

    /// In the first two forms a kind's number means the kind whatever the
    /// format: 1 and 2 stand for the numbers of today, and those for 1 and 2,
    /// which no kind has any more. 19, which no kind had, stands for 3.
    pub fn kind_number(self, number: u64) -> u64 {
        let before = |kind: Kind| kind.number_before().unwrap_or(3);
        let exchanged = |kind: Kind| match number {
            n if Some(n) == kind.number_before() => Some(kind.number()),
            n if n == kind.number() => Some(before(kind)),
            _ => None,
        };
        match self {
            Form::Hundredths | Form::Thousandths => {
                KINDS.into_iter().find_map(exchanged).unwrap_or(number)
            }
            Form::ThreeKinds => number,
        }
    }

    /// The word that a number gives.
    pub fn word(self, number: u16) -> usize {
        match self {
            Form::Hundredths | Form::Thousandths => usize::from(number) % WORDS_BEFORE,
            Form::ThreeKinds => usize::from(number) % WORDS,
        }
    }

    /// A likely length of the words.
    pub fn likely_length(self, byte: u8) -> usize {
        match self {
            Form::Hundredths | Form::Thousandths => LENGTHS_BEFORE[usize::from(byte % 8)],
            Form::ThreeKinds => LENGTHS[usize::from(byte % 8)],
        }
    }

    /// Any length of the words. In the first two forms 425 stands for the
    /// right length of today, and that for 425, which is right no more.
    pub fn any_length(self, number: u16) -> usize {
        match self {
            Form::Hundredths | Form::Thousandths => {
                match usize::from(number) % (MOST_WORDS_BEFORE + 1) {
                    WORDS_BEFORE => WORDS,
                    WORDS => WORDS_BEFORE,
                    length => length,
                }
            }
            Form::ThreeKinds => usize::from(number) % (MOST_WORDS + 1),
        }
    }
}

/// What is left of an input, and its form.
pub struct Bytes<'a> {
    rest: &'a [u8],
    pub form: Form,
}

impl<'a> Bytes<'a> {
    pub fn new(input: &'a [u8], form: Form) -> Bytes<'a> {
        Bytes { rest: input, form }
    }

    /// The next byte, or none at the end.
    pub fn next(&mut self) -> Option<u8> {
        let (&first, rest) = self.rest.split_first()?;
        self.rest = rest;
        Some(first)
    }

    /// The next byte; 0 after the end.
    pub fn byte(&mut self) -> u8 {
        self.next().unwrap_or(0)
    }

    pub fn wide(&mut self) -> u16 {
        u16::from_le_bytes([self.byte(), self.byte()])
    }

    fn word(&mut self) -> u64 {
        u64::from_le_bytes(std::array::from_fn(|_| self.byte()))
    }

    /// Half of the bytes give a number from least on, of so many; the others
    /// any small number or any number at all.
    pub fn within(&mut self, least: u16, count: u16) -> u16 {
        match self.byte() {
            byte @ 0..=127 => least + u16::from(byte) % count,
            byte @ 128..=249 => u16::from(byte) - 128,
            _ => self.wide(),
        }
    }

    /// A pitch in range, near its ends, or any.
    pub fn pitch(&mut self) -> Pitch {
        match self.form {
            Form::Hundredths => tenfold(self.hundredths()),
            Form::Thousandths | Form::ThreeKinds => self.thousandths(),
        }
    }

    fn hundredths(&mut self) -> i16 {
        const ENDS: [i16; 8] = [-502, -501, -500, 9500, 9501, 9502, i16::MIN, i16::MAX];
        match self.byte() {
            byte @ 0..=239 => i16::from(byte) * 41 - 500,
            byte @ 240..=247 => ENDS[usize::from(byte) - 240],
            _ => self.wide() as i16,
        }
    }

    fn thousandths(&mut self) -> Pitch {
        match self.byte() {
            byte @ 0..=199 => Pitch::from(byte) * 501 + PITCH_LOW,
            byte @ 200..=215 => NARROW_ENDS[usize::from(byte) - 200],
            byte @ 216..=231 => PITCH_ENDS[usize::from(byte) % 8],
            _ => self.whole(),
        }
    }

    fn whole(&mut self) -> Pitch {
        Pitch::from_le_bytes(std::array::from_fn(|_| self.byte()))
    }

    /// By how many of its units a pitch is moved.
    pub fn move_by(&mut self) -> Pitch {
        match self.form {
            Form::Hundredths => Pitch::from(self.wide() as i16),
            Form::Thousandths | Form::ThreeKinds => self.whole(),
        }
    }

    /// A number of 64 bits: small, at an end of a range, near the version or
    /// a publisher's mark in these words, or any.
    pub fn number(&mut self, words: &[u64; WORDS]) -> u64 {
        let byte = self.byte();
        let step = u64::from(byte % 8);
        match byte {
            0..=199 => u64::from(byte),
            200..=207 => u64::MAX - step,
            208..=215 => (1 << 63) - 4 + step,
            216..=223 => u64::MAX - 65_539 + step,
            224..=231 => words[VERSION].wrapping_sub(4).wrapping_add(step),
            232..=239 => {
                let mark = words[publisher_at(usize::from(self.byte() % 16)) + 2];
                mark.wrapping_sub(4).wrapping_add(step)
            }
            _ => self.word(),
        }
    }
}

#[cfg(test)]
mod tests {
    use super::*;
    use second::call::{calls, NAMES};
    use Form::{Hundredths, Thousandths, ThreeKinds};

    fn pitch(form: Form, input: &[u8]) -> Pitch {
        Bytes::new(input, form).pitch()
    }

    /// 95 degrees are 95 degrees, and a kind is that kind.
    #[test]
    fn inputs_kept_from_before_mean_what_they_meant() {
        for byte in 0..=239 {
            let due = 10 * (41 * Pitch::from(byte) - 500);
            assert_eq!(pitch(Hundredths, &[byte]), due);
        }
        let ends = [-5020, -5010, -5000, 95_000, 95_010, 95_020];
        for (byte, due) in (240..).zip(ends) {
            assert_eq!(pitch(Hundredths, &[byte]), due);
        }
        assert_eq!(pitch(Hundredths, &[246]), -327_680);
        assert_eq!(pitch(Hundredths, &[248, 0x1c, 0x25, 9]), 95_000);
        assert_eq!(pitch(Hundredths, &[255, 0x0c, 0xfe, 9]), -5000);
        assert_eq!(Hundredths.moved(95_000, 1), 95_010);
        assert_eq!(Hundredths.moved(327_670, 1), -327_680);
        let in_range = [0, 10_000, 10_001].map(|number| Hundredths.in_range(number));
        assert_eq!(in_range, [-5000, 95_000, -5000]);
        let by = Bytes::new(&[0xff, 0xff, 9, 9], Hundredths).move_by();
        assert_eq!(Hundredths.moved(90_000, by), 89_990);
        for form in [Hundredths, Thousandths] {
            let numbers = [0, 1, 2, 3, 4, 16, 17, 18, 19, 33, u64::MAX];
            let kinds = numbers.map(|number| form.kind_number(number));
            assert_eq!(kinds, [0, 17, 18, 3, 4, 16, 1, 2, 3, 33, u64::MAX]);
            assert_eq!((form.kind(198), form.kind(199)), (Kind::New, Kind::Old));
            assert_eq!((form.word(424), form.word(425)), (424, 0));
            let lengths = [0, 425, 713, 900, 901].map(|number| form.any_length(number));
            assert_eq!(lengths, [0, 713, 425, 900, 0]);
            assert_eq!(form.likely_length(8), 713);
            let ten: Vec<Name> = NAMES[1..=10].to_vec();
            assert_eq!(form.calls().collect::<Vec<_>>(), ten);
            assert_eq!((form.step(0), form.step(20)), (Step::Make, Step::EachCall));
            assert_eq!(form.step(21), Step::Make);
            assert_eq!(form.step(10), Step::Call(Name::Release));
            assert_eq!((form.step(11), form.step(12)), (Step::Times, Step::PutWord));
            assert_eq!(form.step(31), Step::Call(Name::Release));
        }
    }

    #[test]
    fn three_kinds_have_thirteen_calls() {
        let form = ThreeKinds;
        assert!(form.calls().eq(calls()));
        let kinds = [0, 1, 2, 3].map(|byte| form.kind(byte));
        assert_eq!(kinds, [Kind::New, Kind::Old, Kind::Rest, Kind::New]);
        let numbers = [1, 3, 17, 19].map(|number| form.kind_number(number));
        assert_eq!(numbers, [1, 3, 17, 19]);
        assert_eq!((form.word(712), form.word(713)), (712, 0));
        assert_eq!((form.any_length(425), form.any_length(1500)), (425, 1500));
        assert_eq!((form.likely_length(0), form.likely_length(3)), (713, 425));
        assert_eq!(form.step(21), Step::LendEntries);
        assert_eq!(Thousandths.step(20), Step::EachCall);
        assert_eq!(Thousandths.step(11), Step::Times);
        assert_eq!(pitch(form, &[0]), pitch(Thousandths, &[0]));
        assert_eq!(form.moved(Pitch::MAX, 1), Pitch::MIN);
    }

    #[test]
    fn thousandths_have_32_bits() {
        let by_byte: Vec<Pitch> = (0..=231).map(|byte| pitch(Thousandths, &[byte])).collect();
        for end in PITCH_ENDS.into_iter().chain(NARROW_ENDS) {
            assert!(by_byte.contains(&end), "{end}");
        }
        for any in [0, -1, 15_001, Pitch::MIN, Pitch::MAX] {
            let input = [&[232][..], &any.to_le_bytes()].concat();
            assert_eq!(pitch(Thousandths, &input), any);
            let by = Bytes::new(&any.to_le_bytes(), Thousandths).move_by();
            assert_eq!(Thousandths.moved(0, by), any);
        }
        assert_eq!(Thousandths.moved(Pitch::MAX, 1), Pitch::MIN);
        let in_range = [0, u16::MAX].map(|number| Thousandths.in_range(number));
        assert_eq!(in_range, [-5000, 95_000]);
    }
}
