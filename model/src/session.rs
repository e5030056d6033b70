//! One session: an opening, then calls, as the program `tablet` runs them.

use crate::answer::Answer;
use crate::call::read_call;
use crate::effects::perform;
use crate::form::split_lines;
use crate::opening::{open_tables, read_opening};
use crate::refusals::refusal;
use crate::sound::sound;
use crate::tables::Tables;

/// (rules K6, K7) Reads an opening: the tables, the answer and the bytes read. A
/// refused opening leaves empty tables.
pub fn open(text: &[u8]) -> (Tables, Answer, usize) {
    match read_opening(text) {
        Ok(opening) => (open_tables(&opening), Answer::ok(0), opening.bytes),
        Err((k, line)) => (Tables::empty(), Answer::NoAt(k, line), text.len()),
    }
}

/// (rules F9, K5) One call on tables of any content. A refused one leaves them.
pub fn call(tables: &mut Tables, line: &[u8]) -> Answer {
    if !sound(tables) {
        return Answer::No(1);
    }
    call_sound(tables, line)
}

/// One call on tables that are known to be sound.
pub fn call_sound(tables: &mut Tables, line: &[u8]) -> Answer {
    let Some(call) = read_call(line) else {
        return Answer::No(2);
    };
    if let Some(k) = refusal(tables, &call) {
        return Answer::No(k);
    }
    let mut after = tables.clone();
    match perform(&mut after, &call) {
        Some(answer) => {
            *tables = after;
            answer
        }
        None => Answer::No(1),
    }
}

/// A session under way: the tables and the lines not yet read.
pub struct Session<'a> {
    pub tables: Tables,
    pub opening: Answer,
    lines: Vec<&'a [u8]>,
    at: usize,
}

impl<'a> Session<'a> {
    /// (rule K9) After a refused opening nothing more is read.
    pub fn begin(input: &'a [u8]) -> Session<'a> {
        let (tables, opening, bytes) = open(input);
        let rest = input.get(bytes..).unwrap_or(&[]);
        Session {
            tables,
            opening,
            lines: split_lines(rest).collect(),
            at: 0,
        }
    }

    /// Runs the next line; none when there is no more.
    pub fn step(&mut self) -> Option<(&'a [u8], Answer)> {
        let line = *self.lines.get(self.at)?;
        self.at += 1;
        Some((line, call(&mut self.tables, line)))
    }
}

/// (rule K9) The program `tablet`: one line for the opening, then one a call.
pub fn run_session(input: &[u8]) -> Vec<u8> {
    let mut session = Session::begin(input);
    let mut output = session.opening.print();
    while let Some((_, answer)) = session.step() {
        output.extend(answer.print());
    }
    output
}

/// The answers with the tables after each, as the files `.dump` have them.
pub fn dump_session(input: &[u8]) -> Vec<u8> {
    let mut session = Session::begin(input);
    let mut output = session.opening.print();
    output.extend(dump(&session.tables));
    while let Some((_, answer)) = session.step() {
        output.extend(answer.print());
        output.extend(dump(&session.tables));
    }
    output
}

fn dump(tables: &Tables) -> Vec<u8> {
    (tables.print() + ".\n").into_bytes()
}
