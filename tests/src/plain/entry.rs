//! The two entry points in plain Rust: bytes in, bytes out, words of any content.

use super::call_line::read_call;
use super::calls::{made, Records, Words};
use super::opening::{clear, read_opening};
use super::printed::Printed;
use super::sound;
use crate::entry::REPLY_BYTES;
use crate::layout::{NEXT, TABLES_WORDS};

/// Opens the tables with a text. The length of the reply, 0 if there is no room for one.
#[inline(never)]
pub fn open(t: &mut [u32], p: &mut [u32], text: &[u8], reply: &mut [u8]) -> usize {
    if reply.len() < REPLY_BYTES {
        return 0;
    }
    let printed = Printed::on(reply);
    if let (Ok(t), Ok(p)) = (
        <&mut Words>::try_from(&mut *t),
        <&mut Records>::try_from(&mut *p),
    ) {
        clear(t, p);
        return match read_opening(t, p, text) {
            Ok(()) => printed.outcome(&Ok(super::calls::Answer::Done)),
            Err((refusal, line)) => {
                clear(t, p);
                printed.refused_at(refusal, line)
            }
        };
    }
    t.fill(0);
    p.fill(0);
    if t.len() == TABLES_WORDS {
        t[NEXT] = 1;
    }
    printed.refused_at(1, 0)
}

/// Makes the call of a line. The length of the reply, 0 if there is no room for one.
#[inline(never)]
pub fn call(t: &mut [u32], p: &mut [u32], line: &[u8], reply: &mut [u8]) -> usize {
    if reply.len() < REPLY_BYTES {
        return 0;
    }
    let printed = Printed::on(reply);
    if !sound(t, p) {
        return printed.outcome(&Err(1));
    }
    let (Ok(t), Ok(p)) = (<&mut Words>::try_from(t), <&mut Records>::try_from(p)) else {
        return printed.outcome(&Err(1));
    };
    match read_call(line, p) {
        Ok(call) => printed.outcome(&made(t, p, &call)),
        Err(refusal) => printed.outcome(&Err(refusal)),
    }
}
