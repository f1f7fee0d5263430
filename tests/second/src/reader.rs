//! ENTER, LOOK and LEAVE.

use crate::call::{Answer, Refusal, Reply};
use crate::rules::{Alteration, Rules};
use crate::store::{entry_index, Kind, Pitch, Store, FEATHERED, NOT_READING};

fn parity(version: u64) -> usize {
    (version % 2) as usize
}

impl Store {
    pub fn enter(&mut self, r: u16, rules: Rules) -> Answer {
        let r = self.reader_named(r)?;
        match self.kind {
            Kind::New => self.enter_new(r, rules),
            Kind::Old => self.enter_old(r, rules),
            Kind::Rest => unreachable!("a rest store has no ENTER"),
        }
    }

    fn enter_new(&mut self, r: usize, rules: Rules) -> Answer {
        let reader = &mut self.reader[r];
        match reader.place {
            0 => reader.first = self.version,
            1 => reader.published = reader.first,
            2 => reader.second = self.version,
            3 => {
                let again = if rules.has(Alteration::ThirdLoadPublished) {
                    self.version
                } else {
                    reader.second
                };
                if reader.first != again && !rules.has(Alteration::SecondNotPublished) {
                    reader.published = again;
                }
                if rules.has(Alteration::PicksOnOpening) {
                    reader.picked = self.current;
                }
            }
            4 => {
                if !rules.has(Alteration::PicksOnOpening) {
                    reader.picked = self.current;
                }
            }
            _ => return Err(Refusal(20)),
        }
        reader.place += 1;
        Ok(Reply::At(reader.place))
    }

    fn enter_old(&mut self, r: usize, rules: Rules) -> Answer {
        let reader = &mut self.reader[r];
        reader.place = match reader.place {
            0 => {
                reader.first = self.version;
                1
            }
            1 => {
                let loaded = if rules.has(Alteration::ArrivesByVersion) {
                    self.version
                } else {
                    reader.first
                };
                let indicator = &mut self.indicators[parity(loaded)];
                *indicator = indicator.wrapping_add(1);
                if rules.has(Alteration::OldEntersTwo) {
                    2
                } else {
                    4
                }
            }
            4 => {
                reader.picked = self.current;
                5
            }
            _ => return Err(Refusal(20)),
        };
        Ok(Reply::At(reader.place))
    }

    pub fn look(&self, entries: &[Pitch], r: u16, k: u16, rules: Rules) -> Answer {
        let r = self.reader_named(r)?;
        let reader = &self.reader[r];
        let at_turn = match reader.place {
            5 => true,
            4 => rules.has(Alteration::LooksAtFour),
            _ => false,
        };
        if rules.has(Alteration::TurnBeforeEntry) && !at_turn {
            return Err(Refusal(20));
        }
        let highest = if rules.has(Alteration::Entry31Refused) {
            30
        } else {
            31
        };
        if k > highest {
            return Err(Refusal(13));
        }
        if !at_turn {
            return Err(Refusal(20));
        }
        let slot = if rules.has(Alteration::LooksAtCurrent) {
            self.current
        } else {
            reader.picked
        };
        let index = entry_index(slot, u64::from(k), entries);
        let pitch = index.map_or(0, |i| entries[i]);
        let number = if rules.has(Alteration::LookSaysFeathered) {
            i64::from(FEATHERED)
        } else if rules.has(Alteration::PitchRepliedBy16Bits) {
            i64::from(pitch as i16)
        } else if rules.has(Alteration::PitchSignLost) {
            i64::from(pitch as u32)
        } else {
            i64::from(pitch)
        };
        Ok(Reply::Pitch(number))
    }

    pub fn leave(&mut self, r: u16, rules: Rules) -> Answer {
        let r = self.reader_named(r)?;
        let reader = &mut self.reader[r];
        match reader.place {
            5 => {}
            4 if !rules.has(Alteration::LeavesAtFiveOnly) => {}
            3 if rules.has(Alteration::LeavesAtThree) => {}
            _ => return Err(Refusal(20)),
        }
        reader.place = 0;
        match self.kind {
            Kind::New => {
                if !rules.has(Alteration::LeaveKeepsPublished) {
                    reader.published = NOT_READING;
                }
            }
            Kind::Old => {
                let loaded = if rules.has(Alteration::DepartsByVersion) {
                    self.version
                } else {
                    reader.first
                };
                let indicator = &mut self.indicators[parity(loaded)];
                *indicator = indicator.wrapping_sub(1);
            }
            Kind::Rest => unreachable!("a rest store has no LEAVE"),
        }
        Ok(Reply::Left)
    }
}
