//! WALK: up to b looks, and the four numbers of the publisher named.

use crate::call::{Answer, Refusal, Reply};
use crate::rules::{Alteration, Rules};
use crate::store::{Kind, Store, MOST_READERS, NOT_READING};

impl Store {
    pub fn walk(&mut self, p: u16, b: u16, rules: Rules) -> Answer {
        let p = self.publisher_named(p)?;
        if rules.has(Alteration::LooksBeforeTurn) {
            self.refuse_looks(p, b, rules)?;
        }
        let at_turn = match (self.kind, self.publisher[p].place) {
            (_, 37) | (Kind::Old, 35) => true,
            (Kind::New, 35) => rules.has(Alteration::NewWalksAt35),
            _ => false,
        };
        if !at_turn {
            return Err(Refusal(21));
        }
        self.refuse_looks(p, b, rules)?;
        match self.kind {
            Kind::New => Ok(self.walk_new(p, b, rules)),
            Kind::Old => Ok(self.walk_old(p, b, rules)),
            Kind::Rest => unreachable!("a rest store has no WALK"),
        }
    }

    /// Refusal 33 if looks + b is above 2^64 - 1.
    fn refuse_looks(&self, p: usize, b: u16, rules: Rules) -> Result<(), Refusal> {
        let mut asked = u64::from(b);
        if rules.has(Alteration::OldAsksOneLook) && self.kind == Kind::Old {
            asked = asked.min(1);
        }
        let sum = u128::from(self.publisher[p].walk.looks) + u128::from(asked);
        let highest = if rules.has(Alteration::SumBelowHighest) {
            u128::from(u64::MAX) - 1
        } else {
            u128::from(u64::MAX)
        };
        if sum > highest && !rules.has(Alteration::SumNotTested) {
            return Err(Refusal(33));
        }
        Ok(())
    }

    fn walk_new(&mut self, p: usize, b: u16, rules: Rules) -> Reply {
        let count = if rules.has(Alteration::WalksAllRecords) {
            MOST_READERS as u64
        } else {
            self.readers
        };
        let mut walk = self.publisher[p].walk;
        let mut place = self.publisher[p].place;
        let mut reply = Reply::Spent;
        let most = if rules.has(Alteration::ZeroLooksOnce) {
            b.max(1)
        } else {
            b
        };
        for made in 1..=most {
            let passes = self.passes(walk.next, walk.mark, rules);
            if passes || !rules.has(Alteration::WaitNotALook) {
                walk.looks = walk.looks.wrapping_add(1);
            }
            if !passes {
                if !rules.has(Alteration::WaitsNotCounted) {
                    walk.waits = walk.waits.wrapping_add(1);
                }
                reply = Reply::Waiting(walk.next);
                if rules.has(Alteration::WaitStartsAgain) {
                    walk.next = 0;
                }
                break;
            }
            walk.next = walk.next.wrapping_add(1);
            if rules.has(Alteration::SpentAtCount) && made == most {
                break;
            }
            if walk.next == count {
                place = 38;
                reply = Reply::Returned {
                    looks: walk.looks,
                    waits: walk.waits,
                };
                break;
            }
        }
        if reply == Reply::Spent && rules.has(Alteration::SpentKeepsNext) {
            walk.next = self.publisher[p].walk.next;
        }
        self.publisher[p].walk = walk;
        self.publisher[p].place = place;
        reply
    }

    /// A look at this reader: is its published version at least the mark?
    fn passes(&self, reader: u64, mark: u64, rules: Rules) -> bool {
        let record = self.reader.get(reader as usize);
        let published = record.map_or(NOT_READING, |reader| reader.published);
        if rules.has(Alteration::PassesAboveMark) {
            return published > mark;
        }
        if rules.has(Alteration::PassesBelowMark) {
            return published >= mark.wrapping_sub(1);
        }
        if rules.has(Alteration::PassesOutOnly) {
            return published == NOT_READING;
        }
        published >= mark
    }

    fn walk_old(&mut self, p: usize, b: u16, rules: Rules) -> Reply {
        if b == 0 && !rules.has(Alteration::ZeroLooksOnce) {
            return Reply::Spent;
        }
        let publisher = &mut self.publisher[p];
        let walk = &mut publisher.walk;
        let mut indicator = walk.mark % 2;
        if publisher.place == 37 {
            indicator = 1 - indicator;
        }
        if rules.has(Alteration::OldWrongIndicator) {
            indicator = 1 - indicator;
        }
        let empty = self.indicators[indicator as usize] == 0;
        if empty || !rules.has(Alteration::WaitNotALook) {
            let looks = if rules.has(Alteration::OldLooksAreB) {
                u64::from(b)
            } else {
                1
            };
            walk.looks = walk.looks.wrapping_add(looks);
        }
        if !empty {
            if !rules.has(Alteration::WaitsNotCounted) {
                walk.waits = walk.waits.wrapping_add(1);
            }
            return Reply::Waiting(indicator);
        }
        if publisher.place == 35 {
            publisher.place = if rules.has(Alteration::QuietSkips36) {
                37
            } else {
                36
            };
            return Reply::Quiet;
        }
        publisher.place = 38;
        Reply::Returned {
            looks: walk.looks,
            waits: walk.waits,
        }
    }
}
