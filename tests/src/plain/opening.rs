//! The opening text, read into the lent words.

use super::calls::{Records, Words};
use super::forms::{Entry, Forms, Refused, NODES, PROCESSES};
use crate::layout::{NEXT, OPERATION, ROWS};

/// The rows so far, which nodes and processes are given, and on which line each is first named.
struct Opening<'a> {
    t: &'a mut Words,
    p: &'a mut Records,
    rows: usize,
    line: u32,
    node_given: [bool; NODES as usize + 1],
    node_named: [u32; NODES as usize + 1],
    process_named: [u32; PROCESSES as usize + 1],
}

/// Empty tables, with next number 1.
pub fn clear(t: &mut Words, p: &mut Records) {
    t.fill(0);
    p.fill(0);
    t[NEXT] = 1;
}

/// Reads a text into empty tables; after a refusal they are to be cleared.
pub fn read_opening(t: &mut Words, p: &mut Records, text: &[u8]) -> Result<(), Refused> {
    let mut opening = Opening {
        t,
        p,
        rows: 0,
        line: 0,
        node_given: [false; NODES as usize + 1],
        node_named: [0; NODES as usize + 1],
        process_named: [0; PROCESSES as usize + 1],
    };
    for line in text.split_inclusive(|byte| *byte == b'\n') {
        opening.line += 1;
        let at = opening.line;
        match opening.form(line) {
            Ok(true) => return opening.all_given(),
            Ok(false) => {}
            Err(refusal) => return Err((refusal, at)),
        }
    }
    Err((2, opening.line + 1))
}

impl Forms for Opening<'_> {
    fn node(&mut self, node: u32, entries: Option<&[Entry]>) -> Result<(), u32> {
        if std::mem::replace(&mut self.node_given[node as usize], true) {
            return Err(4);
        }
        for entry in entries.ok_or(6u32)? {
            self.entry(node, entry);
        }
        Ok(())
    }

    fn process(&mut self, process: u32, prime: u32) -> Result<(), u32> {
        let record = &mut self.p[3 * (process as usize - 1)..][..3];
        if record[0] != 0 {
            return Err(4);
        }
        record.copy_from_slice(&[prime, prime, 0]);
        name(&mut self.node_named, prime, self.line);
        Ok(())
    }
}

impl Opening<'_> {
    /// A row of the text has no source and depth 1.
    fn entry(&mut self, node: u32, &[kind, object, operation, rights]: &Entry) {
        match kind {
            OPERATION => name(&mut self.process_named, object, self.line),
            _ => name(&mut self.node_named, object, self.line),
        }
        let number = self.t[NEXT];
        let row = [number, kind, object, operation, rights, node, 0, 0, 1, 0];
        for (column, word) in row.into_iter().enumerate() {
            self.t[column * ROWS + self.rows] = word;
        }
        self.rows += 1;
        self.t[NEXT] = number + 1;
    }

    /// 5 at the first line that names what is not given.
    fn all_given(&self) -> Result<(), Refused> {
        let nodes = self.node_named.iter().zip(&self.node_given);
        let nodes = nodes.filter(|(line, given)| **line != 0 && !**given);
        let records = self.p.chunks_exact(3);
        let processes = self.process_named[1..].iter().zip(records);
        let processes = processes.filter(|(line, record)| **line != 0 && record[0] == 0);
        let lines = nodes.map(|(line, _)| *line);
        match lines.chain(processes.map(|(line, _)| *line)).min() {
            None => Ok(()),
            Some(line) => Err((5, line)),
        }
    }
}

/// The first line that names a number is kept.
fn name(lines: &mut [u32], number: u32, line: u32) {
    let first = &mut lines[number as usize];
    if *first == 0 {
        *first = line;
    }
}
