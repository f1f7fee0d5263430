//! The run sheet: a text in, a printed line for each of its lines out.

use crate::call::{Call, Name, Reply, NAMES};
use crate::making::{make, Making};
use crate::rules::Rules;
use crate::store::{Kind, Pitch, Store, KINDS, TABLE};

/// A line of more bytes than this, without its newline, is unread.
pub const LONGEST: usize = 80;

/// The lines of a text, without their newlines. The last may lack its
/// newline; after a last newline there is no further line.
pub fn lines(text: &[u8]) -> impl Iterator<Item = &[u8]> {
    text.split_inclusive(|&byte| byte == b'\n')
        .map(|line| line.strip_suffix(b"\n").unwrap_or(line))
}

/// The call that a line asks for; none if the line is misshapen. Whether the
/// made store's kind has the call is not asked here.
pub fn read(line: &[u8]) -> Option<Call> {
    if line.len() > LONGEST {
        return None;
    }
    let inside = line.strip_prefix(b"(")?.strip_suffix(b")")?;
    let parts: Vec<&[u8]> = inside.split(|&byte| byte == b' ').collect();
    let (word, arguments) = parts.split_first()?;
    let named = |name: &Name| name.word().as_bytes() == *word;
    read_named(NAMES.into_iter().find(named)?, arguments)
}

/// The call of this name with these arguments.
fn read_named(name: Name, arguments: &[&[u8]]) -> Option<Call> {
    let one = || match arguments {
        [n] => argument(n),
        _ => None,
    };
    let two = || match arguments {
        [n, second] => Some((argument(n)?, argument(second)?)),
        _ => None,
    };
    Some(match name {
        Name::Store => read_store(arguments)?,
        Name::Enter => Call::Enter { r: one()? },
        Name::Look => two().map(|(r, k)| Call::Look { r, k })?,
        Name::Leave => Call::Leave { r: one()? },
        Name::Claim => two().map(|(p, s)| Call::Claim { p, s })?,
        Name::Write => read_write(arguments)?,
        Name::Swap => Call::Swap { p: one()? },
        Name::Sync => Call::Sync { p: one()? },
        Name::Raise => Call::Raise { p: one()? },
        Name::Walk => two().map(|(p, b)| Call::Walk { p, b })?,
        Name::Release => Call::Release { p: one()? },
        Name::Pick => Call::Pick { r: one()? },
        Name::Checkpoint => Call::Checkpoint { r: one()? },
        Name::Defer => Call::Defer { p: one()? },
    })
}

fn read_store(arguments: &[&[u8]]) -> Option<Call> {
    let [kind, readers, publishers, slots, version] = arguments else {
        return None;
    };
    let word = |named: &Kind| named.to_string().as_bytes() == *kind;
    Some(Call::Make {
        kind: KINDS.into_iter().find(word)?.number() as u16,
        readers: argument(readers)?,
        publishers: argument(publishers)?,
        slots: argument(slots)?,
        version: decimal(version)?,
    })
}

fn read_write(arguments: &[&[u8]]) -> Option<Call> {
    let [p, v] = arguments else {
        return None;
    };
    Some(Call::Write {
        p: argument(p)?,
        v: pitch(v)?,
    })
}

/// A plain decimal of 64 bits without leading zeros.
fn decimal(digits: &[u8]) -> Option<u64> {
    match digits {
        [] | [b'0', _, ..] => None,
        _ => digits.iter().try_fold(0u64, |number, digit| {
            let unit = digit.is_ascii_digit().then(|| u64::from(digit - b'0'))?;
            number.checked_mul(10)?.checked_add(unit)
        }),
    }
}

/// A plain decimal of 16 bits, unsigned.
fn argument(digits: &[u8]) -> Option<u16> {
    u16::try_from(decimal(digits)?).ok()
}

/// A plain decimal of 32 bits, signed, with a minus if it is negative.
pub fn pitch(text: &[u8]) -> Option<Pitch> {
    let Some(digits) = text.strip_prefix(b"-") else {
        return Pitch::try_from(decimal(text)?).ok();
    };
    match i64::try_from(decimal(digits)?).ok()? {
        0 => None,
        below_zero => Pitch::try_from(-below_zero).ok(),
    }
}

/// A made store with the entries lent beside it.
#[derive(Clone)]
pub struct Made {
    pub store: Store,
    pub entries: Vec<Pitch>,
}

/// What a sheet has come to: the store last made, if there is one. Each
/// making is lent the card's entries.
pub struct Sheet {
    pub made: Option<Made>,
    table: Vec<Pitch>,
    rules: Rules,
}

impl Sheet {
    pub fn new(table: &[Pitch], rules: Rules) -> Sheet {
        Sheet {
            made: None,
            table: table.to_vec(),
            rules,
        }
    }

    /// The kind of the made store.
    pub fn kind(&self) -> Option<Kind> {
        self.made.as_ref().map(|made| made.store.kind)
    }

    /// The call that a line asks for; none if it is unread. A call that the
    /// made store's kind lacks is unread.
    pub fn read(&self, line: &[u8]) -> Option<Call> {
        read(line).filter(|call| !self.lacks(call))
    }

    /// Whether there is a made store whose kind lacks the call. Every kind
    /// has making.
    pub fn lacks(&self, call: &Call) -> bool {
        self.kind().is_some_and(|kind| !call.name().of(kind))
    }

    /// The reply to a line; none if it is unread, and then no call is made.
    pub fn reply(&mut self, line: &[u8]) -> Option<Reply> {
        let call = self.read(line)?;
        Some(self.call(&call))
    }

    /// A call. Before a made store all but making get 1.
    pub fn call(&mut self, call: &Call) -> Reply {
        if let Call::Make { .. } = call {
            return self.make(call);
        }
        match &mut self.made {
            Some(made) => made.store.call(&mut made.entries, call, self.rules),
            None => Reply::Refused(1),
        }
    }

    /// Lends exactly slots x 32 entries. If refused, the store before stays.
    fn make(&mut self, call: &Call) -> Reply {
        let making = Making::of(call).expect("the sheet knows this kind");
        let mut entries = vec![0; usize::from(making.slots) * TABLE];
        match make(&making, &mut entries, &self.table, self.rules) {
            Ok(store) => {
                self.made = Some(Made { store, entries });
                Reply::Made
            }
            Err(refusal) => Reply::Refused(refusal.0),
        }
    }
}

/// The printed line, with its newline, for line number n.
pub fn printed(n: u64, reply: Option<Reply>) -> String {
    match reply {
        Some(reply) => format!("({n} {reply})\n"),
        None => format!("({n} unread)\n"),
    }
}

/// The whole sheet with this first table, and with the rules of the calls as
/// given.
pub fn play_by(rules: Rules, table: &[Pitch], text: &[u8]) -> Vec<u8> {
    let mut sheet = Sheet::new(table, rules);
    let mut output = Vec::new();
    for (n, line) in (1..).zip(lines(text)) {
        output.extend_from_slice(printed(n, sheet.reply(line)).as_bytes());
    }
    output
}

/// The whole sheet with this first table, as the documents have it.
pub fn play(table: &[Pitch], text: &[u8]) -> Vec<u8> {
    play_by(Rules::AS_WRITTEN, table, text)
}

#[cfg(test)]
mod tests {
    use super::*;
    use crate::call::calls;
    use crate::examples;
    use crate::store::{PITCH_HIGH, PITCH_LOW};

    #[test]
    fn examples_print_as_worked_out_by_hand() {
        for example in examples::all() {
            let output = play(&example.entries(), &example.input);
            let printed = String::from_utf8_lossy(&output);
            let due = String::from_utf8_lossy(&example.output);
            for (line, due) in printed.lines().zip(due.lines()) {
                assert_eq!(line, due, "in {}", example.name);
            }
            assert_eq!(output, example.output, "in {}", example.name);
        }
    }

    /// Calls print as on the sheet, so that reading what they print gives
    /// them back.
    #[test]
    fn every_call_is_read_as_it_prints() {
        let make = |kind: Kind, version| Call::Make {
            kind: kind.number() as u16,
            readers: 64,
            publishers: 0,
            slots: u16::MAX,
            version,
        };
        let mut calls = vec![make(Kind::New, 0), make(Kind::Old, u64::MAX)];
        calls.push(make(Kind::Rest, 1));
        for n in [0, 1, 9, 10, 65_535] {
            calls.extend([Call::Enter { r: n }, Call::Look { r: n, k: 31 }]);
            calls.extend([Call::Leave { r: n }, Call::Claim { p: 2, s: n }]);
            calls.extend([Call::Swap { p: n }, Call::Sync { p: n }]);
            calls.extend([Call::Raise { p: n }, Call::Walk { p: 3, b: n }]);
            calls.extend([Call::Release { p: n }, Call::Pick { r: n }]);
            calls.extend([Call::Checkpoint { r: n }, Call::Defer { p: n }]);
        }
        for v in [Pitch::MIN, PITCH_LOW, -1, 0, 1, PITCH_HIGH, Pitch::MAX] {
            calls.push(Call::Write { p: 4, v });
        }
        for name in NAMES {
            assert!(calls.iter().any(|call| call.name() == name), "{name}");
        }
        for call in calls {
            assert_eq!(read(call.to_string().as_bytes()), Some(call), "{call}");
        }
    }

    /// No line of more than 51 bytes is well shaped.
    #[test]
    fn the_longest_call_has_51_bytes() {
        let line = b"(store rest 65535 65535 65535 18446744073709551615)";
        assert_eq!(line.len(), 51);
        assert!(read(line).is_some());
    }

    /// What the made store's kind lacks is unread; before there is one, every
    /// call is read.
    #[test]
    fn calls_are_unread_by_kind() {
        for kind in KINDS {
            let mut sheet = Sheet::new(&[90_000; TABLE], Rules::AS_WRITTEN);
            for name in calls() {
                let line = call_line(name);
                assert_eq!(sheet.reply(line.as_bytes()), Some(Reply::Refused(1)));
            }
            let store = format!("(store {kind} 1 1 2 0)");
            assert_eq!(sheet.reply(store.as_bytes()), Some(Reply::Made));
            for name in calls() {
                let unread = sheet.read(call_line(name).as_bytes()).is_none();
                assert_eq!(unread, !name.of(kind), "{kind} {name}");
            }
        }
    }

    /// A well shaped line of this name.
    fn call_line(name: Name) -> String {
        let arguments = ["0", "0 0"];
        let lines = arguments.map(|arguments| format!("({name} {arguments})"));
        let shaped = lines
            .into_iter()
            .find(|line| read(line.as_bytes()).is_some());
        shaped.expect("one or two arguments")
    }

    #[test]
    fn widths_end_where_document_01_says() {
        assert_eq!(argument(b"65535"), Some(65_535));
        assert_eq!(argument(b"65536"), None);
        assert_eq!(decimal(b"18446744073709551615"), Some(u64::MAX));
        assert_eq!(decimal(b"18446744073709551616"), None);
        assert_eq!(decimal(b"28446744073709551615"), None);
        assert_eq!(decimal(b"100000000000000000000"), None);
        assert_eq!(pitch(b"32768"), Some(32_768));
        assert_eq!(pitch(b"-32769"), Some(-32_769));
        assert_eq!(pitch(b"2147483647"), Some(2_147_483_647));
        assert_eq!(pitch(b"2147483648"), None);
        assert_eq!(pitch(b"-2147483648"), Some(-2_147_483_648));
        assert_eq!(pitch(b"-2147483649"), None);
        assert_eq!(pitch(b"4294967296"), None);
        assert_eq!(pitch(b"4294976296"), None);
        assert_eq!(pitch(b"-18446744073709551615"), None);
        assert_eq!(pitch(b"9223372036854775808"), None);
        assert_eq!((pitch(b"0"), pitch(b"-0")), (Some(0), None));
    }

    #[test]
    fn lines_are_the_bytes_between_newlines() {
        let of = |text| lines(text).collect::<Vec<&[u8]>>();
        assert!(of(b"").is_empty());
        assert_eq!(of(b"\n"), [b""]);
        assert_eq!(of(b"a"), [b"a"]);
        assert_eq!(of(b"a\n"), [b"a"]);
        assert_eq!(of(b"a\r\nb"), [&b"a\r"[..], b"b"]);
        assert_eq!(of(b"\n\na"), [&b""[..], b"", b"a"]);
        assert_eq!(of(b"a\n\n"), [&b"a"[..], b""]);
    }
}
