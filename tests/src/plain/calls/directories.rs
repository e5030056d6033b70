//! go, hold, register, drop.

use super::questions::lent;
use super::state::State;
use super::{Answer, Outcome};
use crate::layout::{C_LIST, KIND, NEXT, OBJECT, OPERATIONS, RIGHTS, SOURCE, SUBDIRECTORY, VIA};
use crate::plain::closing::drop_row;

const HOLD: u32 = 1;
const REGISTER: u32 = 4;

impl State<'_> {
    pub fn go(&mut self, caller: u32, e: u32) -> Outcome {
        let active = match e {
            0 => self.record(caller)[0],
            _ => {
                let slot = self.held(caller, e)?;
                if self.t[KIND + slot] != SUBDIRECTORY {
                    return Err(8);
                }
                self.t[OBJECT + slot]
            }
        };
        self.record(caller)[1..].copy_from_slice(&[active, e]);
        Ok(Answer::Done)
    }

    pub fn hold(&mut self, caller: u32, s: u32) -> Outcome {
        let (active, through) = (self.record(caller)[1], self.record(caller)[2]);
        let slot = self.row_in(active, s)?;
        if self.t[RIGHTS + slot] & HOLD == 0 {
            return Err(9);
        }
        let through = match through {
            0 => None,
            number => self.find(number),
        };
        let subdirectory = self.t[KIND + slot] == SUBDIRECTORY;
        if subdirectory && through.is_some_and(|slot| lent(&self.t[..], slot)) {
            return Err(12);
        }
        let source = slot as u32 + 1;
        let via = through.map_or(0, |slot| slot as u32 + 1);
        self.copy(slot, C_LIST + caller, source, via)
    }

    pub fn register(&mut self, caller: u32, e: u32) -> Outcome {
        let slot = self.held(caller, e)?;
        if self.is_end(slot) {
            return Err(8);
        }
        if self.t[RIGHTS + slot] & REGISTER == 0 {
            return Err(9);
        }
        if lent(&self.t[..], slot) {
            return Err(12);
        }
        let active = self.record(caller)[1];
        self.copy(slot, active, self.t[SOURCE + slot], 0)
    }

    /// A copy of the row in another place, with these sources, or 15, 16, 18.
    fn copy(&mut self, slot: usize, place: u32, source: u32, via: u32) -> Outcome {
        let depth = self.depth_over(source, via)?;
        self.rows_left(1)?;
        let number = self.numbers_left(1)?;
        let word = |column: usize| self.t[column + slot];
        let (kind, object, operation) = (word(KIND), word(OBJECT), word(OPERATIONS));
        let rights = word(RIGHTS);
        self.append([
            number, kind, object, operation, rights, place, source, via, depth, 0,
        ]);
        self.t[NEXT] = number + 1;
        Ok(Answer::Made(number))
    }

    pub fn drop(&mut self, caller: u32, e: u32) -> Outcome {
        let slot = self.held(caller, e)?;
        if self.is_end(slot) {
            return Err(8);
        }
        if self.is_source(slot) || self.record(caller)[2] == e {
            return Err(13);
        }
        drop_row(self.t, self.p, e);
        Ok(Answer::Done)
    }

    /// Whether a row comes from that one; it would be a newer one.
    fn is_source(&self, slot: usize) -> bool {
        let word = slot as u32 + 1;
        [SOURCE, VIA]
            .iter()
            .any(|column| self.t[column + slot..column + self.rows].contains(&word))
    }
}
