//! A session played by the proved kernel: the opening, then line after line, with the state before and after each.

use crate::change::change;
use crate::opening::{refused, Refused};
use crate::sound::{unsound, Fault};
use std::collections::BTreeMap;
use tablet::{Answer, Refusal, State, Tables, Words};

/// Rows and requests that have gone, and the call that took them.
pub type Gone = BTreeMap<u32, usize>;

/// How a session begins.
pub enum Start {
    Open(Session),
    /// The opening was refused; the second is where, by this program's own reading.
    Refused(Refusal, Option<Refused>),
    /// The words handed in are not sound: every call answers refusal 1. The lines are those of the input.
    Unsound(Option<Fault>, Vec<Vec<u8>>),
}

/// A session under way.
pub struct Session {
    tables: Tables<'static>,
    state: State,
    lines: std::vec::IntoIter<Vec<u8>>,
    calls: usize,
    gone: Gone,
    opening: Vec<u8>,
}

/// One call: its number from 1, its line, its answer, the state before and after.
pub struct Step {
    pub call: usize,
    pub line: Vec<u8>,
    pub answer: Answer,
    pub before: State,
    pub after: State,
}

/// (rule K9) Opens by the front of the input, through its first line `(open)`; the other lines are calls.
pub fn open(input: &[u8]) -> Start {
    let mut text = input.split_inclusive(|&b| b == b'\n');
    let mut length = 0;
    for line in text.by_ref() {
        length += line.len();
        if line == b"(open)\n" {
            break;
        }
    }
    let opening = input.get(..length).unwrap_or(input);
    match Tables::open(opening) {
        Ok(tables) => begin(tables, text.map(<[u8]>::to_vec).collect(), opening),
        Err(refusal) => Start::Refused(refusal, refused(opening)),
    }
}

/// Begins with words handed in; all lines of the input are calls.
pub fn resume(words: Words, input: &[u8]) -> Start {
    let lines = input.split_inclusive(|&b| b == b'\n');
    let lines = lines.map(<[u8]>::to_vec).collect();
    match Tables::from_words(words) {
        Ok(tables) => begin(tables, lines, b""),
        Err(words) => Start::Unsound(unsound(&words.tables, &words.processes), lines),
    }
}

fn begin(tables: Tables<'static>, lines: Vec<Vec<u8>>, opening: &[u8]) -> Start {
    let state = tables.state();
    let lines = lines.into_iter();
    Start::Open(Session {
        tables,
        state,
        lines,
        calls: 0,
        gone: Gone::new(),
        opening: opening.to_vec(),
    })
}

impl Session {
    /// The state after the calls made so far.
    pub fn state(&self) -> &State {
        &self.state
    }

    /// (rule G2) The holders' page after the calls made so far, as the kernel writes it.
    pub fn holders(&self) -> String {
        self.tables.page()
    }

    /// The calls made so far.
    pub fn calls(&self) -> usize {
        self.calls
    }

    /// What has gone so far.
    pub fn gone(&self) -> &Gone {
        &self.gone
    }

    /// The opening text; empty if it began with words handed in.
    pub fn opening(&self) -> &[u8] {
        &self.opening
    }

    /// Makes the next call of the input.
    pub fn step(&mut self) -> Option<Step> {
        let line = self.lines.next()?;
        let answer = self.tables.call(&line);
        let after = self.tables.state();
        let before = std::mem::replace(&mut self.state, after.clone());
        self.calls += 1;
        let change = change(&before, &after);
        let rows = change.removed.iter().map(|r| r.number);
        let requests = change.closed.iter().map(|q| q.number);
        self.gone
            .extend(rows.chain(requests).map(|n| (n, self.calls)));
        Some(Step {
            call: self.calls,
            line,
            answer,
            before,
            after,
        })
    }

    /// What a line would be answered and leave, on a copy of the words.
    pub fn tried(&self, line: &[u8]) -> Step {
        let mut copy = self.tables.clone();
        let answer = copy.call(line);
        Step {
            call: self.calls + 1,
            line: line.to_vec(),
            answer,
            before: self.state.clone(),
            after: copy.state(),
        }
    }
}
