//! The thirteen calls in plain Rust, in place over the words of sound tables.

mod directories;
mod ends;
mod loans;
mod ports;
mod state;

use super::questions;
use crate::call_words::{
    said, AnswerWords, CallWords, CHAIN, CHAINED, COMES, DONE, FETCHED, LONGEST_CHAIN, MADE,
    REFUSED, TOLD, TOLD_ALL,
};
use crate::layout::{ITEMS, PAIRS, PROCESS_WORDS, TABLES_WORDS};
use state::State;

/// The lent runs, of the right lengths.
pub type Words = [u32; TABLES_WORDS];
pub type Records = [u32; PROCESS_WORDS];

/// An item of an ask; row 0 is none.
#[derive(Clone, Copy, Default)]
pub struct Item {
    pub row: u32,
    pub rights: u32,
}

/// A pair of a comesall; row 0 is none.
#[derive(Clone, Copy, Default)]
pub struct Pair {
    pub row: u32,
    pub request: u32,
}

/// A call: the caller, then the number it is about, and of answer whether its last number is 1;
/// comes, chain and comesall have no caller.
#[derive(Clone, Copy)]
pub enum Call {
    Go(u32, u32),
    Hold(u32, u32),
    Register(u32, u32),
    Drop(u32, u32),
    Port(u32, u32),
    Close(u32, u32),
    Ask(u32, u32, [Item; ITEMS]),
    Fetch(u32, u32),
    Answer(u32, u32, bool),
    Revoke(u32, u32),
    Comes(u32, u32),
    Chain(u32),
    ComesAll([Pair; PAIRS]),
}

pub enum Answer {
    Done,
    Made(u32),
    /// The request, and its items, 0 for one that is not listed.
    Fetched(u32, [u32; ITEMS]),
    Told(bool),
    /// The rows of a chain, 0 after them.
    Chained([u32; LONGEST_CHAIN]),
    /// What is told of each pair, 0 after them.
    ToldAll([u32; PAIRS]),
}

/// The answer, or the refusal's number.
pub type Outcome = Result<Answer, u32>;

/// The call of these words, made in place. Where a length or the caller does
/// not fit, nothing changes.
#[inline(never)]
pub fn perform(t: &mut [u32], p: &mut [u32], call: &CallWords, answer: &mut AnswerWords) {
    let (Ok(t), Ok(p)) = (<&mut Words>::try_from(t), <&mut Records>::try_from(p)) else {
        return;
    };
    if call[0] < COMES && !(1..=64).contains(&call[1]) {
        return;
    }
    *answer = answer_words(&made(t, p, &call_of(call)));
}

/// The call of a listed process on sound tables.
pub fn made(t: &mut Words, p: &mut Records, call: &Call) -> Outcome {
    let mut state = State::of(t, p);
    match *call {
        Call::Go(p, e) => state.go(p, e),
        Call::Hold(p, s) => state.hold(p, s),
        Call::Register(p, e) => state.register(p, e),
        Call::Drop(p, e) => state.drop(p, e),
        Call::Port(p, e) => state.port(p, e),
        Call::Close(p, c) => state.close(p, c),
        Call::Ask(p, c, ref items) => state.ask(p, c, items),
        Call::Fetch(p, v) => state.fetch(p, v),
        Call::Answer(p, v, served) => state.answer(p, v, served),
        Call::Revoke(p, q) => state.revoke(p, q),
        Call::Comes(e, q) => state.comes(e, q),
        Call::Chain(e) => state.chain(e),
        Call::ComesAll(ref pairs) => state.comes_all(pairs),
    }
}

fn call_of(words: &CallWords) -> Call {
    let [code, p, e, last, ..] = *words;
    match code {
        0 => Call::Go(p, e),
        1 => Call::Hold(p, e),
        2 => Call::Register(p, e),
        3 => Call::Drop(p, e),
        4 => Call::Port(p, e),
        5 => Call::Close(p, e),
        6 => {
            let item = |k: usize| Item {
                row: words[3 + 2 * k],
                rights: words[4 + 2 * k],
            };
            Call::Ask(p, e, std::array::from_fn(item))
        }
        7 => Call::Fetch(p, e),
        8 => Call::Answer(p, e, last == 1),
        9 => Call::Revoke(p, e),
        COMES => Call::Comes(p, e),
        CHAIN => Call::Chain(p),
        _ => {
            let pair = |k: usize| Pair {
                row: words[1 + k],
                request: words[1 + PAIRS + k],
            };
            Call::ComesAll(std::array::from_fn(pair))
        }
    }
}

fn answer_words(outcome: &Outcome) -> AnswerWords {
    match *outcome {
        Ok(Answer::Done) => said(DONE, []),
        Ok(Answer::Made(number)) => said(MADE, [number]),
        Ok(Answer::Fetched(request, [a, b, c, d])) => said(FETCHED, [request, a, b, c, d]),
        Ok(Answer::Told(yes)) => said(TOLD, [u32::from(yes)]),
        Ok(Answer::Chained(rows)) => said(CHAINED, rows),
        Ok(Answer::ToldAll(told)) => said(TOLD_ALL, told),
        Err(refusal) => said(REFUSED, [refusal]),
    }
}
