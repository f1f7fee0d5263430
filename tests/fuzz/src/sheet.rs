//! Surface B: an input as a run sheet and its cut into reads, on the program
//! and on the second implementation.

use crate::cards::Card;
use crate::pieces::LARGEST;
use crate::seen::Cell;
use second::call::{Call, Reply};
use second::card;
use second::crossing::End;
use second::rules::Rules;
use second::sheet::{lines, play, read, Sheet};
use second::store::{Kind, Pitch};
use std::fmt;

/// An input that begins so has a card of its own. Without it the card is the
/// feathered one.
const CARD: &[u8] = b"card";
/// Ends the bytes of a card.
const CARD_END: u8 = 255;

/// An input: the card, three lengths that the reads have in turn, the most
/// bytes that a write takes, and the text. A length of 0, or one that is
/// missing, stands for the longest.
pub struct Given<'a> {
    pub card: Card,
    lengths: [usize; 3],
    pub most_written: usize,
    pub text: &'a [u8],
}

/// A card and what follows it. After the marker stands how often its bytes
/// are repeated, or 0 for a missing card, or 255 for a directory.
fn card_and_rest(input: &[u8]) -> (Card, &[u8]) {
    match input.strip_prefix(CARD) {
        None => (Card::File(card::feathered()), input),
        Some([]) => (Card::Missing, &[]),
        Some([0, rest @ ..]) => (Card::Missing, rest),
        Some([255, rest @ ..]) => (Card::Directory, rest),
        Some([times, rest @ ..]) => {
            let end = rest.iter().position(|&byte| byte == CARD_END);
            let (bytes, rest) = rest.split_at(end.unwrap_or(rest.len()));
            let card = Card::File(bytes.repeat(usize::from(*times)));
            (card, rest.get(1..).unwrap_or_default())
        }
    }
}

impl<'a> Given<'a> {
    pub fn from_input(input: &'a [u8]) -> Given<'a> {
        let (card, input) = card_and_rest(input);
        let (head, text) = input.split_at(input.len().min(4));
        let length = |n| match head.get(n) {
            None | Some(0) => LARGEST,
            Some(&byte) => usize::from(byte),
        };
        Given {
            card,
            lengths: [length(0), length(1), length(2)],
            most_written: length(3),
            text,
        }
    }

    /// The bytes of each read of the standard input.
    pub fn reads(&self) -> Vec<&'a [u8]> {
        self.cut(self.text)
    }

    /// The bytes cut into reads of these lengths in turn.
    pub fn cut<'b>(&self, bytes: &'b [u8]) -> Vec<&'b [u8]> {
        let mut reads = Vec::new();
        let mut rest = bytes;
        for length in self.lengths.into_iter().cycle() {
            if rest.is_empty() {
                break;
            }
            let (one, after) = rest.split_at(length.min(rest.len()));
            reads.push(one);
            rest = after;
        }
        reads
    }
}

/// What a program wrote to its standard output and error.
pub struct Wrote {
    pub output: Vec<u8>,
    pub error: Vec<u8>,
}

/// The program: what it wrote, or what was wrong besides.
pub type Program<'a> = dyn FnMut(&Given) -> Result<Wrote, String> + 'a;

/// Plays an input on both sides; the outputs must be alike byte by byte, and
/// of the card must be said what is due. Tells the cells, and the output.
pub fn compare(
    input: &[u8],
    program: &mut Program,
    seen: &mut dyn FnMut(Cell),
) -> Result<Vec<u8>, Difference> {
    let given = Given::from_input(input);
    let table = given.card.entries();
    let due = play(&table, given.text);
    let (printed, fault) = match program(&given) {
        Ok(wrote) => (wrote.output, given.card.check_said(&wrote.error).err()),
        Err(fault) => (Vec::new(), Some(fault)),
    };
    if fault.is_some() || printed != due {
        return Err(Difference::of(given.text, &printed, &due, fault));
    }
    note(&table, given.text, seen);
    Ok(printed)
}

/// The answers on a sheet. What is printed is alike, so that the second
/// implementation's are the program's too.
pub fn note(table: &[Pitch], text: &[u8], seen: &mut dyn FnMut(Cell)) {
    let mut sheet = Sheet::new(table, Rules::AS_WRITTEN);
    let mut end = None;
    for line in lines(text) {
        let before = sheet.kind();
        let Some(call) = read(line) else {
            seen(Cell::unread());
            continue;
        };
        let mut kind = before;
        if let Call::Make { kind: number, .. } = call {
            kind = Kind::from_number(u64::from(number));
        }
        match (sheet.reply(line), kind) {
            (Some(reply), _) => {
                let code = reply.numbers().code;
                seen(Cell::new(kind, call.name(), None, code));
                if reply == Reply::Made {
                    end = kind.map(End::fresh);
                }
                let crossing = end.as_mut().and_then(|end| end.hear(&call, &reply));
                crossing
                    .into_iter()
                    .map(Cell::crossing)
                    .for_each(&mut *seen);
            }
            (None, Some(kind)) => seen(Cell::lacked(kind, call.name())),
            (None, None) => unreachable!("before a made store every call is read"),
        }
    }
}

/// Where two outputs differ first.
pub struct Difference {
    line_number: usize,
    line: String,
    program: String,
    second: String,
    fault: Option<String>,
}

impl Difference {
    fn of(text: &[u8], printed: &[u8], due: &[u8], fault: Option<String>) -> Difference {
        let nth = |bytes, n| {
            lines(bytes)
                .nth(n)
                .map(|line| line.escape_ascii().to_string())
        };
        let most = lines(due).count().max(lines(printed).count());
        let at = (0..most).find(|&n| nth(printed, n) != nth(due, n));
        let at = at.unwrap_or(most);
        let shown = |bytes| nth(bytes, at).unwrap_or("nothing".to_string());
        Difference {
            line_number: at + 1,
            line: shown(text),
            program: shown(printed),
            second: shown(due),
            fault,
        }
    }
}

impl fmt::Display for Difference {
    fn fmt(&self, f: &mut fmt::Formatter<'_>) -> fmt::Result {
        if let Some(fault) = &self.fault {
            return writeln!(f, "program:  {fault}");
        }
        writeln!(f, "line {}: {}", self.line_number, self.line)?;
        writeln!(f, "program:  {}", self.program)?;
        writeln!(f, "second:   {}", self.second)
    }
}
