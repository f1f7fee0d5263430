//! The plain shelf: one table, a note per reader, a draft per publisher.
//!
//! It sees calls and replies and none of the store's numbers.

use crate::call::{Call, Reply};
use crate::rules::{Alteration, Rules};
use crate::store::{Pitch, FEATHERED, MOST_PUBLISHERS, MOST_READERS, TABLE};

pub struct Shelf {
    table: Vec<Pitch>,
    notes: Vec<Option<Vec<Pitch>>>,
    drafts: Vec<Vec<Pitch>>,
}

impl Shelf {
    /// The shelf starts with the table lent to the making.
    pub fn fresh(first: &[Pitch], rules: Rules) -> Shelf {
        Shelf {
            table: match rules.has(Alteration::ShelfFeathered) {
                true => vec![FEATHERED; TABLE],
                false => first.to_vec(),
            },
            notes: vec![None; MOST_READERS],
            drafts: vec![Vec::new(); MOST_PUBLISHERS],
        }
    }

    /// Moves by an accepted call. For a LOOK it says what the pitch should
    /// have been if the reply gives another.
    pub fn hear(&mut self, call: &Call, reply: &Reply) -> Result<(), String> {
        if !reply.accepted() {
            return Ok(());
        }
        match *call {
            Call::Claim { p, .. } => self.drafts[usize::from(p)].clear(),
            Call::Write { p, v } => self.drafts[usize::from(p)].push(v),
            Call::Swap { p } => self.table.clone_from(&self.drafts[usize::from(p)]),
            Call::Enter { r } if *reply == Reply::At(5) => self.fill_note(usize::from(r)),
            Call::Pick { r } => self.fill_note(usize::from(r)),
            Call::Look { r, k } => {
                let note = self.notes[usize::from(r)].as_ref();
                let due = note.and_then(|note| note.get(usize::from(k)).copied());
                if due.map(|v| Reply::Pitch(v.into())) != Some(*reply) {
                    return Err(format!("the shelf gives {due:?} for this LOOK"));
                }
            }
            Call::Make { .. } | Call::Enter { .. } | Call::Leave { .. } => {}
            Call::Sync { .. } | Call::Raise { .. } | Call::Walk { .. } => {}
            Call::Release { .. } | Call::Checkpoint { .. } | Call::Defer { .. } => {}
        }
        Ok(())
    }

    fn fill_note(&mut self, r: usize) {
        self.notes[r]
            .get_or_insert_with(Vec::new)
            .clone_from(&self.table);
    }
}
