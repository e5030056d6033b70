//! Demand 3: the tables hold what the history says, after every call.

use crate::history::History;
use crate::tables::{Kind, Place, Row, Tables};
use std::collections::BTreeSet;

/// Checks the tables after the last call that the history was fed. Asked
/// after every call it is the claim about the whole list.
pub fn demand3(history: &History, tables: &Tables) -> Result<(), String> {
    exactly_the_rows(history, tables)?;
    two_ends(history, tables)?;
    match history.revoked {
        Some(q) => revoked(history, tables, q),
        None => Ok(()),
    }
}

fn numbers(tables: &Tables) -> BTreeSet<u32> {
    tables.rows.iter().map(|r| r.number).collect()
}

/// Part 1: the rows of the tables are exactly the rows that stand.
fn exactly_the_rows(history: &History, tables: &Tables) -> Result<(), String> {
    let rows = numbers(tables);
    let once = rows.len() == tables.rows.len();
    if once && rows == history.now.standing {
        return Ok(());
    }
    let more = rows.difference(&history.now.standing);
    let less = history.now.standing.difference(&rows);
    let (more, less): (Vec<_>, Vec<_>) = (more.collect(), less.collect());
    Err(format!("rows: {more:?} too many, {less:?} missing"))
}

/// Part 2: a port that is not closed has two ends, each with one holder.
fn two_ends(history: &History, tables: &Tables) -> Result<(), String> {
    for port in &history.now.open_ports {
        let ends = tables.rows.iter().filter(|r| r.port() == Some(*port));
        let ends: Vec<&Row> = ends.collect();
        let pair = match ends.as_slice() {
            [c, s] => is_end(c, *port, Kind::Client) && is_end(s, port + 1, Kind::Server),
            _ => false,
        };
        if !pair {
            return Err(format!("ends of port {port}: {ends:?}"));
        }
    }
    let open = |r: &Row| r.port().is_none_or(|c| history.now.open_ports.contains(&c));
    match tables.rows.iter().find(|r| !open(r)) {
        Some(row) => Err(format!("end of a closed port: {row:?}")),
        None => Ok(()),
    }
}

/// The end of that number and kind, with one process or the system.
fn is_end(row: &Row, number: u32, kind: Kind) -> bool {
    let holder = matches!(row.place, Place::CList(_) | Place::System);
    row.number == number && row.kind == kind && holder
}

/// Part 3: after a revoke exactly what came from the request has vanished, and
/// each surviving end that a request so closed had on loan is with the lender
/// of the oldest such request.
fn revoked(history: &History, tables: &Tables, q: u32) -> Result<(), String> {
    let rows = numbers(tables);
    let stood = &history.before.standing;
    let vanished: BTreeSet<u32> = stood.difference(&rows).copied().collect();
    let from = history.notes.rows_from(stood, q);
    if vanished != from {
        return Err(format!(
            "revoke {q}: {vanished:?} vanished, {from:?} came from it"
        ));
    }
    let ends = rows.iter().filter(|r| history.notes.is_end(**r));
    for end in ends {
        returned(history, tables, *end)?;
    }
    Ok(())
}

fn returned(history: &History, tables: &Tables, end: u32) -> Result<(), String> {
    let was_open = &history.before.open_requests;
    let closed = was_open.difference(&history.now.open_requests);
    let mut lending = closed.filter(|v| history.before.loans.contains(&(**v, end)));
    let oldest = lending.next().and_then(|v| history.notes.requests.get(v));
    let Some(lender) = oldest.map(|r| r.lender) else {
        return Ok(());
    };
    match tables.row(end) {
        Some(row) if row.in_c_list_of(lender) => Ok(()),
        row => Err(format!("end {end} is not with {lender}: {row:?}")),
    }
}
