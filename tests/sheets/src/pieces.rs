//! The ways a text comes to the program, and where it is cut.

use second::random::Random;

/// The most bytes of a piece: what the program takes with one read.
pub const LARGEST: usize = 65_536;

/// A text of more bytes than this is not given byte by byte.
const FEW_BYTES: usize = 6_000;

#[derive(Clone, Copy, PartialEq, Eq, Debug)]
pub enum Cut {
    Whole,
    Bytes,
    UpTo(u64),
    BeforeNewlines,
    AfterNewlines,
    BeforeBrackets,
    Near80,
}

/// A datagram is one read, however the program is scheduled. Of a pipe or a
/// file a read takes as much as there is.
#[derive(Clone, Copy, PartialEq, Eq, Debug)]
pub enum Way {
    Datagrams(Cut),
    Pipe(Cut),
    File,
}

/// The names of all ways.
pub const NAMES: [&str; 9] = [
    "datagrams, whole",
    "datagrams, byte by byte",
    "datagrams, cut anywhere",
    "datagrams, cut before newlines",
    "datagrams, cut after newlines",
    "datagrams, cut before brackets",
    "datagrams, cut near the 80th byte of a line",
    "a pipe",
    "a file",
];

impl Way {
    /// The way's index among the names.
    pub fn index(self) -> usize {
        match self {
            Way::Datagrams(Cut::Whole) => 0,
            Way::Datagrams(Cut::Bytes) => 1,
            Way::Datagrams(Cut::UpTo(_)) => 2,
            Way::Datagrams(Cut::BeforeNewlines) => 3,
            Way::Datagrams(Cut::AfterNewlines) => 4,
            Way::Datagrams(Cut::BeforeBrackets) => 5,
            Way::Datagrams(Cut::Near80) => 6,
            Way::Pipe(_) => 7,
            Way::File => 8,
        }
    }

    pub fn name(self) -> &'static str {
        NAMES[self.index()]
    }

    /// The pieces of a text that goes this way.
    pub fn pieces<'a>(self, text: &'a [u8], random: &mut Random) -> Vec<&'a [u8]> {
        match self {
            Way::Datagrams(cut) | Way::Pipe(cut) => pieces(cut, text, random),
            Way::File => Vec::new(),
        }
    }
}

/// The ways that the sheet of this number goes: by datagrams, and often
/// other ways too.
pub fn some_ways(number: u64, text: &[u8], random: &mut Random) -> Vec<Way> {
    let mut ways = vec![Way::Datagrams(cut_of(number, random))];
    if text.len() <= FEW_BYTES && random.one_in(2) {
        ways.push(Way::Datagrams(Cut::Bytes));
    }
    match number % 5 {
        0 => ways.push(Way::Pipe(cut_of(number / 5, random))),
        1 => ways.push(Way::File),
        _ => {}
    }
    ways
}

fn cut_of(number: u64, random: &mut Random) -> Cut {
    match number % 9 {
        0 => Cut::Whole,
        1 => Cut::BeforeNewlines,
        2 => Cut::AfterNewlines,
        3 | 4 => Cut::BeforeBrackets,
        5 => Cut::Near80,
        _ => Cut::UpTo(random.pick(&[3, 20, 100, 1_000, 20_000, LARGEST as u64])),
    }
}

fn pieces<'a>(cut: Cut, text: &'a [u8], random: &mut Random) -> Vec<&'a [u8]> {
    match cut {
        Cut::Whole => text.chunks(LARGEST).collect(),
        Cut::Bytes => text.chunks(1).collect(),
        Cut::UpTo(most) => cut_anywhere(text, most, random),
        Cut::BeforeNewlines => cut_before(text, b'\n'),
        Cut::BeforeBrackets => cut_before(text, b'('),
        Cut::AfterNewlines => by_lines(text)
            .flat_map(|line| line.chunks(LARGEST))
            .collect(),
        Cut::Near80 => {
            let near_80 = |line| cut_near_80(line, 79 + random.below(4) as usize);
            by_lines(text).flat_map(near_80).collect()
        }
    }
}

fn cut_anywhere<'a>(text: &'a [u8], most: u64, random: &mut Random) -> Vec<&'a [u8]> {
    let mut pieces = Vec::new();
    let mut rest = text;
    while !rest.is_empty() {
        let length = 1 + random.below(most.min(LARGEST as u64)) as usize;
        let (piece, after) = rest.split_at(length.min(rest.len()));
        pieces.push(piece);
        rest = after;
    }
    pieces
}

fn by_lines(text: &[u8]) -> impl Iterator<Item = &[u8]> {
    text.split_inclusive(|&byte| byte == b'\n')
}

/// A line in two, so many bytes in the first of them.
fn cut_near_80(line: &[u8], length: usize) -> Vec<&[u8]> {
    let (first, rest) = line.split_at(length.min(line.len()));
    [first].into_iter().chain(rest.chunks(LARGEST)).collect()
}

fn cut_before(text: &[u8], byte: u8) -> Vec<&[u8]> {
    let mut pieces = Vec::new();
    let mut start = 0;
    for at in 1..=text.len() {
        if at == text.len() || text[at] == byte {
            pieces.extend(text[start..at].chunks(LARGEST));
            start = at;
        }
    }
    pieces
}
