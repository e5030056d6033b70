//! The tables that are measured: a line of registered rows, a chain of loans,
//! and random calls until there are so many rows. The seed is fixed.

use crate::measure::Size;
use model::limits::{ALL_RIGHTS, REQUESTS, ROWS};
use model::random::{lines, Profile, Rng};
use model::session::call_sound;
use model::tables::{Kind, Place, Process, Request, Row, Tables};
use model::words::encode;

/// 10, 100 and 1,024 rows; the last tables are full.
pub const SIZES: [usize; 3] = [10, 100, 1024];

/// Sound tables, also as words, with the slots that the questions ask about.
pub struct Benched {
    pub tables: Tables,
    pub words: Vec<u32>,
    pub processes: Vec<u32>,
    pub rows: usize,
    pub requests: usize,
    /// A row of depth 1, the last of a line of rows, the last of a chain of loans.
    pub first: usize,
    pub line: usize,
    pub loan: usize,
    /// A client end that no request lists.
    pub end: usize,
}

impl Benched {
    pub fn size(&self) -> Size {
        Size {
            rows: self.rows,
            requests: self.requests,
        }
    }
}

pub fn tables(rows: usize) -> Benched {
    let mut tables = Tables::empty();
    for process in 1..=8 {
        tables.set_process(process, Process::in_prime_node(1));
    }
    let (deepest, loans) = if rows < 20 { (4, 1) } else { (12, 5) };
    let line = registered(&mut tables, deepest);
    let loan = lent_on(&mut tables, loans);
    fill(&mut tables, rows);
    assert!(model::sound(&tables), "sound tables");
    assert_eq!(tables.rows.len(), rows);
    if rows == ROWS {
        assert_eq!(tables.requests.len(), REQUESTS);
    }
    let listed = |r: &Row| tables.requests.iter().any(|q| q.lists(r.number));
    let mut slots = tables.rows.iter();
    let end = slots.position(|r| r.kind == Kind::Client && !listed(r));
    let end = end.expect("an end that is not on loan");
    let (words, processes) = encode(&tables).expect("they fit");
    Benched {
        rows,
        requests: tables.requests.len(),
        tables,
        words,
        processes,
        first: 0,
        line,
        loan,
        end,
    }
}

/// Adds a row and says its number.
fn add(tables: &mut Tables, row: Row) -> u32 {
    let number = tables.next;
    tables.next += 1;
    tables.rows.push(Row { number, ..row });
    number
}

fn operation(place: Place, source: u32, depth: u32) -> Row {
    Row {
        number: 0,
        kind: Kind::Operation,
        object: 1,
        operation: 0,
        rights: ALL_RIGHTS,
        place,
        source,
        via: 0,
        depth,
        request: 0,
    }
}

/// A row in node 1 and rows registered from it, each from the one before. The
/// slot of the last.
fn registered(tables: &mut Tables, depth: u32) -> usize {
    let mut source = 0;
    for depth in 1..=depth {
        source = add(tables, operation(Place::Node(1), source, depth));
    }
    tables.rows.len() - 1
}

/// A held row, lent from process to process so many times, each time over a
/// port made of the copy before. The slot of the last copy.
fn lent_on(tables: &mut Tables, times: u32) -> usize {
    let mut depth = 2;
    let mut lenders_row = add(tables, operation(Place::CList(1), 1, depth));
    for lender in 1..=times {
        let port = tables.next;
        for (kind, process) in [(Kind::Client, lender), (Kind::Server, 1)] {
            let end = operation(Place::CList(process), lenders_row, depth + 1);
            let end = Row {
                kind,
                object: port,
                rights: 0,
                ..end
            };
            add(tables, end);
        }
        let request = tables.next;
        tables.next += 1;
        depth += 2;
        let copy = operation(Place::CList(lender + 1), lenders_row, depth);
        lenders_row = add(
            tables,
            Row {
                via: port,
                request,
                ..copy
            },
        );
        tables.requests.push(Request {
            number: request,
            port,
            asker: lender,
            fetched: 1,
            items: [Some(lenders_row), None, None, None],
        });
    }
    tables.rows.len() - 1
}

/// Random calls until there are so many rows; full tables also have all
/// requests. A call that removes a row, or goes past the number, is not made.
fn fill(tables: &mut Tables, rows: usize) {
    let mut rng = Rng::new(1);
    let requests = if rows == ROWS { REQUESTS } else { 0 };
    while tables.rows.len() < rows || tables.requests.len() < requests {
        let line = lines::line(&mut rng, Profile::Full, tables);
        let before = tables.clone();
        call_sound(tables, &line);
        let fewer = tables.rows.len() < before.rows.len();
        if fewer || tables.rows.len() > rows || tables.requests.len() < before.requests.len() {
            *tables = before;
        }
    }
}
