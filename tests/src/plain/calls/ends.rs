//! The end of a loan: answer, revoke; and the questions comes, chain and comesall.

use super::questions;
use super::state::State;
use super::{Answer, Outcome, Pair};
use crate::call_words::{LONGEST_CHAIN, NO, NOT_TOLD, YES};
use crate::layout::{
    C_LIST, ITEMS, KIND, OBJECT, PAIRS, PLACE, Q_ASKER, Q_FETCHED, Q_ITEMS, Q_NUMBER, REQUESTS,
    ROWS, SERVER,
};
use crate::plain::closing::close_request;
use crate::PairMarks;

impl State<'_> {
    /// The request open on the port of a server end of the caller, or 7, 8, 11.
    pub fn asked(&self, caller: u32, v: u32) -> Result<usize, u32> {
        let slot = self.held(caller, v)?;
        if self.t[KIND + slot] != SERVER {
            return Err(8);
        }
        self.open_on(self.t[OBJECT + slot]).ok_or(11)
    }

    fn close_at(&mut self, request: usize) -> Outcome {
        let number = self.t[Q_NUMBER + request];
        close_request(self.t, self.p, number);
        Ok(Answer::Done)
    }

    /// With 1 the request is served, with 0 it is declined, which needs no more.
    pub fn answer(&mut self, caller: u32, v: u32, served: bool) -> Outcome {
        let request = self.asked(caller, v)?;
        if served {
            self.may_serve(caller, request)?;
        }
        self.close_at(request)
    }

    /// 10, 11 or 14 for a request that cannot be served: an end of it is busy, it is not fetched,
    /// an end of it is elsewhere or lent on.
    fn may_serve(&self, caller: u32, request: usize) -> Result<(), u32> {
        let items = self.items(request);
        let rows = items.iter().filter(|item| **item != 0);
        let rows = rows.filter_map(|item| self.find(*item));
        let ends = rows.filter(|slot| self.is_end(*slot));
        if ends
            .clone()
            .any(|slot| self.open_on(self.t[OBJECT + slot]).is_some())
        {
            return Err(10);
        }
        if self.t[Q_FETCHED + request] == 0 {
            return Err(11);
        }
        for slot in ends {
            let here = self.t[PLACE + slot] == C_LIST + caller;
            if !here || self.lists_after(request, self.t[slot]) {
                return Err(14);
            }
        }
        Ok(())
    }

    /// Whether a newer request lists the row.
    fn lists_after(&self, request: usize, number: u32) -> bool {
        (0..ITEMS).any(|k| {
            let items = Q_ITEMS + k * REQUESTS;
            self.t[items + request + 1..items + self.requests].contains(&number)
        })
    }

    pub fn revoke(&mut self, caller: u32, q: u32) -> Outcome {
        let request = self.find_request(q);
        let own = request.filter(|request| self.t[Q_ASKER + request] == caller);
        self.close_at(own.ok_or(7u32)?)
    }

    pub fn comes(&self, e: u32, q: u32) -> Outcome {
        let slot = self.find(e).ok_or(7u32)?;
        self.find_request(q).ok_or(7u32)?;
        Ok(Answer::Told(questions::comes(&self.t[..], slot, q)))
    }

    pub fn chain(&self, e: u32) -> Outcome {
        let slot = self.find(e).ok_or(7u32)?;
        let mut rows = [0; LONGEST_CHAIN];
        questions::chain_of(self.t, slot, &mut rows);
        Ok(Answer::Chained(rows))
    }

    pub fn comes_all(&self, pairs: &[Pair; PAIRS]) -> Outcome {
        let requests = pairs.map(|pair| pair.request);
        let mut marks = [0; ROWS + 1];
        questions::mark_rows(self.t, self.rows, &requests, &mut marks);
        let told = std::array::from_fn(|k| self.told(&marks, k, pairs[k]));
        Ok(Answer::ToldAll(told))
    }

    /// What is told of pair k by the marks of the rows; 0 where there is none.
    fn told(&self, marks: &PairMarks, k: usize, pair: Pair) -> u32 {
        if pair.row == 0 {
            return 0;
        }
        let request = self.find_request(pair.request);
        match (self.find(pair.row), request) {
            (Some(slot), Some(_)) if marks[slot + 1] >> k & 1 == 1 => YES,
            (Some(_), Some(_)) => NO,
            _ => NOT_TOLD,
        }
    }
}
