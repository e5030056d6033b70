//! port, close.

use super::questions::on_loan;
use super::state::State;
use super::{Answer, Outcome};
use crate::layout::{CLIENT, C_LIST, KIND, NEXT, OBJECT, OPERATION, SERVER};
use crate::plain::closing::close_port;

impl State<'_> {
    pub fn port(&mut self, caller: u32, e: u32) -> Outcome {
        let slot = self.held(caller, e)?;
        if self.t[KIND + slot] != OPERATION {
            return Err(8);
        }
        let source = slot as u32 + 1;
        let depth = self.depth_over(source, 0)?;
        self.rows_left(2)?;
        let port = self.numbers_left(2)?;
        let manager = self.t[OBJECT + slot];
        let (client, server) = (C_LIST + caller, C_LIST + manager);
        self.append([port, CLIENT, port, 0, 0, client, source, 0, depth, 0]);
        self.append([port + 1, SERVER, port, 0, 0, server, source, 0, depth, 0]);
        self.t[NEXT] = port + 2;
        Ok(Answer::Made(port))
    }

    pub fn close(&mut self, caller: u32, c: u32) -> Outcome {
        let slot = self.held(caller, c)?;
        if self.t[KIND + slot] != CLIENT {
            return Err(8);
        }
        if on_loan(self.t, c) {
            return Err(12);
        }
        close_port(self.t, self.p, c);
        Ok(Answer::Done)
    }
}
