//! What the calls share: look-ups, room for new rows, new rows.

use super::{Records, Words};
use crate::layout::{
    CLIENT, C_LIST, DEPTH, ITEMS, KIND, LAST_NUMBER, NEXT, NUMBER, PLACE, Q_ITEMS, Q_NUMBER,
    Q_PORT, REQUESTS, ROWS, SERVER,
};
use crate::RowFields;

const DEEPEST: u32 = 12;

/// The lent words, with how many slots are in use.
pub struct State<'a> {
    pub t: &'a mut Words,
    pub p: &'a mut Records,
    pub rows: usize,
    pub requests: usize,
}

impl<'a> State<'a> {
    /// Numbers rise and 0 follows, so the slots in use are found by halves.
    pub fn of(t: &'a mut Words, p: &'a mut Records) -> State<'a> {
        let used = |numbers: &[u32]| numbers.partition_point(|number| *number != 0);
        State {
            rows: used(&t[NUMBER..NUMBER + ROWS]),
            requests: used(&t[Q_NUMBER..Q_NUMBER + REQUESTS]),
            t,
            p,
        }
    }

    pub fn find(&self, number: u32) -> Option<usize> {
        self.t[NUMBER..NUMBER + self.rows]
            .binary_search(&number)
            .ok()
    }

    pub fn find_request(&self, number: u32) -> Option<usize> {
        let numbers = &self.t[Q_NUMBER..Q_NUMBER + self.requests];
        numbers.binary_search(&number).ok()
    }

    /// The row, in that place, or 7.
    pub fn row_in(&self, place: u32, number: u32) -> Result<usize, u32> {
        let slot = self
            .find(number)
            .filter(|slot| self.t[PLACE + slot] == place);
        slot.ok_or(7)
    }

    /// The row, in the caller's c-list, or 7.
    pub fn held(&self, caller: u32, number: u32) -> Result<usize, u32> {
        self.row_in(C_LIST + caller, number)
    }

    /// Prime node, active node, the row gone through.
    pub fn record(&mut self, process: u32) -> &mut [u32] {
        let at = 3 * (process as usize - 1);
        &mut self.p[at..at + 3]
    }

    pub fn is_end(&self, slot: usize) -> bool {
        matches!(self.t[KIND + slot], CLIENT | SERVER)
    }

    /// The open request on a port.
    pub fn open_on(&self, port: u32) -> Option<usize> {
        let ports = &self.t[Q_PORT..Q_PORT + self.requests];
        ports.iter().position(|other| *other == port)
    }

    pub fn items(&self, request: usize) -> [u32; ITEMS] {
        std::array::from_fn(|k| self.t[Q_ITEMS + k * REQUESTS + request])
    }

    /// The depth of a row from these sources, words of slots plus 1, or 15.
    pub fn depth_over(&self, source: u32, via: u32) -> Result<u32, u32> {
        let depth = |word: u32| match word as usize {
            0 => 0,
            word => self.t[DEPTH + word - 1],
        };
        match depth(source).max(depth(via)) {
            depth if depth < DEEPEST => Ok(depth + 1),
            _ => Err(15),
        }
    }

    /// 16 for want of rows.
    pub fn rows_left(&self, wanted: usize) -> Result<(), u32> {
        (self.rows + wanted <= ROWS).then_some(()).ok_or(16)
    }

    /// The next number, or 18 for want of so many.
    pub fn numbers_left(&self, wanted: u32) -> Result<u32, u32> {
        let next = self.t[NEXT];
        (wanted <= LAST_NUMBER + 1 - next).then_some(next).ok_or(18)
    }

    pub fn append(&mut self, row: RowFields) {
        for (column, word) in row.into_iter().enumerate() {
            self.t[column * ROWS + self.rows] = word;
        }
        self.rows += 1;
    }
}
