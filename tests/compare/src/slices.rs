//! The slices that one side of the comparison lends, with their guards.

use crate::guarded::Guarded;
use second::store::Pitch;

/// The slices as C lends them. A null pointer has length 0. The first table
/// is lent to making alone.
#[derive(Clone, Copy)]
pub struct Lent {
    pub words: *mut u64,
    pub words_length: usize,
    pub entries: *mut Pitch,
    pub entries_length: usize,
    pub table: *const Pitch,
    pub table_length: usize,
}

/// No first table that is lent has more entries than this.
pub const MOST_TABLE: usize = 256;

pub struct Side {
    pub words: Guarded<u64>,
    pub entries: Guarded<Pitch>,
    pub table: Guarded<Pitch>,
}

impl Side {
    pub fn with_room(words: usize, entries: usize) -> Side {
        Side {
            words: Guarded::with_room(words, 0xa5a5_a5a5_a5a5_a5a5),
            entries: Guarded::with_room(entries, 0x5a5a_5a5a),
            table: Guarded::with_room(MOST_TABLE, 0x3c3c_3c3c),
        }
    }

    pub fn lent(&mut self) -> Lent {
        Lent {
            words_length: self.words.lent().len(),
            words: self.words.pointer(),
            entries_length: self.entries.lent().len(),
            entries: self.entries.pointer(),
            table_length: self.table.lent().len(),
            table: self.table.pointer(),
        }
    }

    /// Whether all cells are like the other's, those of the guards too.
    pub fn alike(&self, other: &Side) -> bool {
        self.words.whole() == other.words.whole()
            && self.entries.whole() == other.entries.whole()
            && self.table.whole() == other.table.whole()
    }
}
