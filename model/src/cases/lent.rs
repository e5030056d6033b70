//! What a case lends, or finds afterwards: tables as `dump` writes them, the lengths of the
//! two runs, and single words.

use crate::tables::Tables;
use crate::words::{encode, PROCESS_WORDS, TABLES_WORDS};

/// One of the two runs of words.
#[derive(Clone, Copy, PartialEq, Eq, Debug)]
pub enum Run {
    Tables,
    Records,
}

/// A change of the words that the tables stand for.
#[derive(Clone, Copy, PartialEq, Eq, Debug)]
pub enum Change {
    /// The run has so many words: the last are cut off, or words 0 come after them.
    Length(Run, usize),
    /// One word.
    Word(Run, usize, u32),
}

#[derive(Clone, PartialEq, Eq, Debug)]
pub struct Lent {
    pub tables: Tables,
    pub changes: Vec<Change>,
    /// Whether a row or request of a number that is there takes its place.
    pub replaces: bool,
}

impl Lent {
    pub fn of(tables: Tables) -> Lent {
        Lent {
            tables,
            changes: Vec::new(),
            replaces: false,
        }
    }

    /// The two runs; none where the tables have no words (a source that is no row).
    pub fn words(&self) -> Option<(Vec<u32>, Vec<u32>)> {
        let (mut tables, mut records) = encode(&self.tables)?;
        for change in &self.changes {
            match *change {
                Change::Length(Run::Tables, length) => tables.resize(length, 0),
                Change::Length(Run::Records, length) => records.resize(length, 0),
                Change::Word(Run::Tables, at, word) => *tables.get_mut(at)? = word,
                Change::Word(Run::Records, at, word) => *records.get_mut(at)? = word,
            }
        }
        Some((tables, records))
    }

    /// Adds a line of a case; none if it is no such line.
    pub fn add(&mut self, line: &str) -> Option<()> {
        if let Some(change) = read_change(line) {
            self.changes.push(change);
            return Some(());
        }
        if let Some(number) = line.strip_prefix("gone ") {
            let number: u32 = number.parse().ok()?;
            self.tables.rows.retain(|r| r.number != number);
            self.tables.requests.retain(|q| q.number != number);
            return Some(());
        }
        self.tables.add_line(line)?;
        // An item 0 is a position whose item is not there.
        self.tables.requests.iter_mut().for_each(|q| q.strike(0));
        if self.replaces && line.starts_with('R') {
            take_place(&mut self.tables.rows, |r| r.number);
        }
        if self.replaces && line.starts_with('Q') {
            take_place(&mut self.tables.requests, |q| q.number);
        }
        Some(())
    }
}

/// The last of the list takes the place of an earlier one with its number.
fn take_place<T: Copy>(list: &mut Vec<T>, number: impl Fn(&T) -> u32) {
    let Some((last, earlier)) = list.split_last_mut() else {
        return;
    };
    if let Some(old) = earlier.iter_mut().find(|old| number(old) == number(last)) {
        *old = *last;
        list.pop();
    }
}

/// `tables: 11264 words`, `records: 193 words`, `tables[4096] = 7`, `records[3] = 2`.
fn read_change(line: &str) -> Option<Change> {
    let (run, rest) = match (line.strip_prefix("tables"), line.strip_prefix("records")) {
        (Some(rest), _) => (Run::Tables, rest),
        (_, Some(rest)) => (Run::Records, rest),
        _ => return None,
    };
    if let Some(length) = rest.strip_prefix(": ") {
        return Some(Change::Length(
            run,
            length.strip_suffix(" words")?.parse().ok()?,
        ));
    }
    let (at, word) = rest.strip_prefix('[')?.split_once("] = ")?;
    Some(Change::Word(run, at.parse().ok()?, word.parse().ok()?))
}

/// Words of any content, for openings.
pub fn any_words() -> (Vec<u32>, Vec<u32>) {
    (vec![3; TABLES_WORDS], vec![3; PROCESS_WORDS])
}
