//! ask and fetch.

use super::state::State;
use super::{Answer, Item, Outcome};
use crate::layout::{
    CLIENT, C_LIST, ITEMS, KIND, NEXT, OBJECT, OPERATIONS, PLACE, Q_FETCHED, Q_NUMBER, REQUESTS,
    RIGHTS, SYSTEM,
};

const TRANSFER: u32 = 2;

/// An item with the slot of its row.
#[derive(Clone, Copy)]
struct Lent {
    slot: usize,
    rights: u32,
    number: u32,
    is_end: bool,
}

impl State<'_> {
    pub fn ask(&mut self, caller: u32, client: u32, items: &[Item; ITEMS]) -> Outcome {
        let port = self.held(caller, client)?;
        let mut lent = [None; ITEMS];
        for (lent, item) in lent.iter_mut().zip(items).filter(|(_, item)| item.row != 0) {
            let slot = self.held(caller, item.row)?;
            *lent = Some(Lent {
                slot,
                rights: item.rights,
                number: item.row,
                is_end: self.is_end(slot),
            });
        }
        if self.t[KIND + port] != CLIENT {
            return Err(8);
        }
        let all = lent.iter().flatten();
        if all.clone().any(|item| !self.may_lend(item)) {
            return Err(9);
        }
        if self.open_on(client).is_some() || all.clone().any(|item| self.busy(item, client)) {
            return Err(10);
        }
        let via = port as u32 + 1;
        let copies = all.filter(|item| !item.is_end);
        for item in copies.clone() {
            self.depth_over(item.slot as u32 + 1, via)?;
        }
        let copies = copies.count();
        self.rows_left(copies)?;
        if self.requests == REQUESTS {
            return Err(17);
        }
        let number = self.numbers_left(1 + copies as u32)?;
        self.lend(caller, client, via, number, &lent)
    }

    /// A copied row needs transfer, and all rights lent are the row's.
    fn may_lend(&self, item: &Lent) -> bool {
        let rights = self.t[RIGHTS + item.slot];
        (item.is_end || rights & TRANSFER != 0) && item.rights & !rights == 0
    }

    /// An end of that port, or of one with an open request.
    fn busy(&self, item: &Lent, client: u32) -> bool {
        let port = self.t[OBJECT + item.slot];
        item.is_end && (port == client || self.open_on(port).is_some())
    }

    /// The request with its list: ends go to the system, copies are made there.
    fn lend(
        &mut self,
        caller: u32,
        client: u32,
        via: u32,
        number: u32,
        lent: &[Option<Lent>; ITEMS],
    ) -> Outcome {
        let mut next = number + 1;
        let mut listed = [0; ITEMS];
        for (listed, item) in listed.iter_mut().zip(lent.iter().flatten()) {
            if item.is_end {
                self.t[PLACE + item.slot] = SYSTEM;
                *listed = item.number;
                continue;
            }
            let source = item.slot as u32 + 1;
            let depth = self.depth_over(source, via)?;
            let word = |column: usize| self.t[column + item.slot];
            let (kind, object, operation) = (word(KIND), word(OBJECT), word(OPERATIONS));
            self.append([
                next,
                kind,
                object,
                operation,
                item.rights,
                SYSTEM,
                source,
                via,
                depth,
                number,
            ]);
            *listed = next;
            next += 1;
        }
        let [a, b, c, d] = listed;
        let request = [number, client, caller, 0, a, b, c, d];
        for (column, word) in request.into_iter().enumerate() {
            self.t[Q_NUMBER + column * REQUESTS + self.requests] = word;
        }
        self.t[NEXT] = next;
        Ok(Answer::Made(number))
    }

    pub fn fetch(&mut self, caller: u32, v: u32) -> Outcome {
        let request = self.asked(caller, v)?;
        if self.t[Q_FETCHED + request] != 0 {
            return Err(11);
        }
        let items = self.items(request);
        for item in items.into_iter().filter(|item| *item != 0) {
            if let Some(slot) = self.find(item) {
                self.t[PLACE + slot] = C_LIST + caller;
            }
        }
        self.t[Q_FETCHED + request] = 1;
        Ok(Answer::Fetched(self.t[Q_NUMBER + request], items))
    }
}
