//! The card: the first table as the bytes of a file, one decimal a line.

use crate::sheet::{lines, pitch};
use crate::store::{Pitch, FEATHERED, TABLE};

/// The card's entries. A line that is no pitch, or one that is too wide,
/// makes it a card of no entries.
pub fn entries(bytes: &[u8]) -> Vec<Pitch> {
    let entries: Option<Vec<Pitch>> = lines(bytes).map(pitch).collect();
    entries.unwrap_or_default()
}

/// The entries of the card if there is one. A missing card has none.
pub fn entries_if_any(card: Option<&[u8]>) -> Vec<Pitch> {
    card.map(entries).unwrap_or_default()
}

/// The card of these entries.
pub fn of(entries: &[Pitch]) -> Vec<u8> {
    let lines = entries.iter().map(|entry| format!("{entry}\n"));
    lines.collect::<String>().into_bytes()
}

/// The card of a feathered blade, 32 times 90000.
pub fn feathered() -> Vec<u8> {
    of(&[FEATHERED; TABLE])
}

#[cfg(test)]
mod tests {
    use super::*;

    #[test]
    fn a_card_has_a_pitch_a_line() {
        assert_eq!(entries(b""), []);
        assert_eq!(entries(b"90000"), [90_000]);
        assert_eq!(entries(b"90000\n"), [90_000]);
        assert_eq!(entries(b"-5000\n0\n95001"), [-5000, 0, 95_001]);
        assert_eq!(entries(b"-32769\n32768\n"), [-32_769, 32_768]);
        let ends = [-2_147_483_648, 2_147_483_647];
        assert_eq!(entries(b"-2147483648\n2147483647\n"), ends);
        assert_eq!(entries(&feathered()), [90_000; 32]);
        assert_eq!(feathered().len(), 192);
    }

    #[test]
    fn good_lines_have_at_most_384_bytes() {
        assert_eq!(of(&[Pitch::MIN; TABLE]).len(), 384);
        assert_eq!(entries(&of(&[Pitch::MIN; TABLE])), [Pitch::MIN; TABLE]);
    }

    #[test]
    fn one_bad_line_leaves_no_entries() {
        let bad: [&[u8]; 23] = [
            b"\n",
            b"90000\n\n",
            b"\n90000\n",
            b"90000\n\n90000\n",
            b"90000\r\n",
            b"90000\r",
            b" 90000\n",
            b"90000 \n",
            b"90000 90000\n",
            b"+90000\n",
            b"090000\n",
            b"00\n",
            b"-0\n",
            b"-\n",
            b"2147483648\n",
            b"-2147483649\n",
            b"4295057296\n",
            b"90.000\n",
            b"(90000)\n",
            b"9e4\n",
            b"90000\0\n",
            b"\xef\xbb\xbf90000\n",
            b"18446744073709641616\n",
        ];
        for bytes in bad {
            assert_eq!(entries(bytes), [], "{}", bytes.escape_ascii());
            let after = [&feathered(), bytes].concat();
            assert_eq!(entries(&after), [], "{}", bytes.escape_ascii());
        }
    }

    #[test]
    fn a_missing_card_has_no_entries() {
        assert_eq!(entries_if_any(None), []);
        assert_eq!(entries_if_any(Some(b"1\n2")), [1, 2]);
    }
}
