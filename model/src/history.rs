//! The history of demand 3: what the opening text, the call lines and their
//! answers note, and the moments before and after. It reads no table.

use crate::call::{read_call, Call, Item, Word};
use crate::form::{read_line, Part};
use crate::limits::LAST_NUMBER;
use crate::moment::Moment;
use crate::notes::{NotedRequest, NotedRow, Notes};
use crate::opening::{read_opening, Form};
use std::collections::BTreeMap;

#[derive(Clone, Debug, Default)]
pub struct History {
    pub notes: Notes,
    /// (rule H2) Each process's last accepted `go`.
    last_go: BTreeMap<u32, u32>,
    pub now: Moment,
    /// The moment before the last noted call, and the request it revoked.
    pub before: Moment,
    pub revoked: Option<u32>,
}

/// The first number of an accepted answer; none for a refusal, and for an answer with a `-`, which only
/// a comesall has.
fn accepted_number(answer: &[u8]) -> Option<u32> {
    let parts = read_line(answer)?;
    match parts.as_slice() {
        [Part::Word(b"ok"), Part::Number(n), ..] if *n <= LAST_NUMBER => Some(*n),
        _ => None,
    }
}

impl History {
    /// (rule H1) At first the rows of the text, numbered as there.
    pub fn begin(text: &[u8], answer: &[u8]) -> History {
        History::begin_at(0, text, answer)
    }

    /// The same where the rows of the text have numbers raised by so much.
    pub fn begin_at(raised: u32, text: &[u8], answer: &[u8]) -> History {
        let mut history = History::default();
        let (Some(_), Ok(opening)) = (accepted_number(answer), read_opening(text)) else {
            return history;
        };
        let entries = opening.forms.iter().map(|form| match form {
            Form::Node { entries, .. } => entries.len(),
            _ => 0,
        });
        for number in 1..=entries.sum::<usize>() as u32 {
            let row = NotedRow::default();
            history.notes.rows.insert(raised + number, row);
        }
        history.now = Moment::after(&history.notes, &Moment::default(), None);
        history
    }

    /// (rule H1) Feeds one line and its answer. Refused lines, `fetch`, `comes`, `chain` and `comesall`
    /// add nothing.
    pub fn note(&mut self, line: &[u8], answer: &[u8]) {
        self.revoked = None;
        let (Some(call), Some(n)) = (read_call(line), accepted_number(answer)) else {
            return;
        };
        let asked = matches!(call, Call::Ask { .. }).then_some(n);
        match call {
            Call::One {
                caller,
                word,
                number,
            } => self.note_word(caller, word, number, n),
            Call::Ask {
                caller,
                client,
                items,
            } => self.note_ask(caller, client, &items, n),
            Call::Answer { end, .. } => self.note_answered(end),
            Call::Comes { .. } | Call::Chain { .. } | Call::ComesAll { .. } => return,
        }
        self.before = std::mem::take(&mut self.now);
        self.now = Moment::after(&self.notes, &self.before, asked);
    }

    fn note_word(&mut self, p: u32, word: Word, number: u32, answer: u32) {
        match word {
            Word::Go => drop(self.last_go.insert(p, number)),
            Word::Hold => self.note_hold(p, number, answer),
            Word::Register => self.note_register(number, answer),
            Word::Drop => drop(self.notes.dropped.insert(number)),
            Word::Port => self.note_port(number, answer),
            Word::Close => drop(self.notes.closed_ports.insert(number)),
            Word::Fetch => {}
            Word::Revoke => {
                self.notes.closed_requests.insert(number);
                self.revoked = Some(number);
            }
        }
    }

    /// (rule H2) Row n with source s, and e too if p's last `go` was `go e` and e
    /// stands.
    fn note_hold(&mut self, p: u32, s: u32, n: u32) {
        let last = self.last_go.get(&p).copied();
        let through = last.filter(|e| *e != 0 && self.now.standing.contains(e));
        let sources = [Some(s), through].into_iter().flatten().collect();
        let row = NotedRow {
            sources,
            ..NotedRow::default()
        };
        self.notes.rows.insert(n, row);
    }

    /// (rule H2) Row n with the first source of e.
    fn note_register(&mut self, e: u32, n: u32) {
        let sources = self.notes.rows.get(&e).map(|r| r.sources.as_slice());
        let first = sources.and_then(|s| s.first()).copied();
        let row = NotedRow {
            sources: first.into_iter().collect(),
            ..NotedRow::default()
        };
        self.notes.rows.insert(n, row);
    }

    /// (rule H2) Port n, its ends n and n + 1 with source e.
    fn note_port(&mut self, e: u32, n: u32) {
        let end = NotedRow {
            sources: vec![e],
            bears: None,
            end_of: Some(n),
        };
        self.notes.ports.insert(n, e);
        self.notes.rows.insert(n, end.clone());
        self.notes.rows.insert(n + 1, end);
    }

    /// (rule H2) For the other items copies v + 1 and on, bearing v, with sources
    /// their row and c.
    fn note_ask(&mut self, lender: u32, port: u32, items: &[Item], v: u32) {
        let rows = items.iter().map(|i| i.row);
        let (ends, others): (Vec<u32>, Vec<u32>) = rows.partition(|row| self.notes.is_end(*row));
        for (row, number) in others.into_iter().zip(v + 1..=u32::MAX) {
            let copy = NotedRow {
                sources: vec![row, port],
                bears: Some(v),
                end_of: None,
            };
            self.notes.rows.insert(number, copy);
        }
        let request = NotedRequest { lender, port, ends };
        self.notes.requests.insert(v, request);
    }

    /// (rule H2) `answer v x`: the request that is open on port v - 1 is closed.
    fn note_answered(&mut self, v: u32) {
        let port = v.saturating_sub(1);
        let on_port = |q: &&u32| self.notes.requests.get(q).is_some_and(|r| r.port == port);
        let open = self.now.open_requests.iter().find(on_port).copied();
        self.notes.closed_requests.extend(open);
    }
}
