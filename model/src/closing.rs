//! Closing a request or a port, by the rules of the manual's chapter 5.

use crate::relations::{request_on, rows_from};
use crate::tables::{Place, Process, Row, Tables};
use std::collections::BTreeSet;

/// (rule C7) What one closing removes and closes. The lists count as they stood
/// when the call came, so nothing is altered before both are known.
#[derive(Default)]
struct Closing {
    removed: BTreeSet<u32>,
    closed: BTreeSet<u32>,
}

/// Answer and revoke: the request is closed.
pub fn close_request(tables: &mut Tables, request: u32) {
    let closing = Closing {
        closed: BTreeSet::from([request]),
        ..Closing::default()
    };
    finish(tables, closing);
}

/// (rule C2) Closing a port removes both ends and closes its request.
pub fn close_port(tables: &mut Tables, port: u32) {
    let mut closing = Closing::default();
    destroy_port(tables, port, &mut closing);
    finish(tables, closing);
}

fn finish(tables: &mut Tables, mut closing: Closing) {
    remove_until_nothing_more(tables, &mut closing);
    let returned = returned_ends(tables, &closing);
    for end in &returned {
        give_back(tables, end);
    }
    to_prime_nodes(tables, &closing.removed);
    tables.rows.retain(|r| !closing.removed.contains(&r.number));
    tables
        .requests
        .retain(|q| !closing.closed.contains(&q.number));
    leave_lists(tables, &closing.removed);
}

/// (rules C1, C3) Every row that comes from a closed request is removed; a port
/// whose ends are removed has ended, and the request open on it closes too, until
/// a round removes nothing.
fn remove_until_nothing_more(tables: &Tables, closing: &mut Closing) {
    loop {
        let before = (closing.removed.len(), closing.closed.len());
        closing.removed.extend(rows_from(tables, &closing.closed));
        for port in ports_of(tables, &closing.removed) {
            destroy_port(tables, port, closing);
        }
        if before == (closing.removed.len(), closing.closed.len()) {
            return;
        }
    }
}

/// The ports that have an end among the rows given.
fn ports_of(tables: &Tables, rows: &BTreeSet<u32>) -> BTreeSet<u32> {
    let removed = tables.rows.iter().filter(|r| rows.contains(&r.number));
    removed.filter_map(Row::port).collect()
}

fn destroy_port(tables: &Tables, port: u32, closing: &mut Closing) {
    let ends = tables.rows.iter().filter(|r| r.port() == Some(port));
    closing.removed.extend(ends.map(|r| r.number));
    closing
        .closed
        .extend(request_on(tables, port).map(|q| q.number));
}

/// An end that comes back: to whom, and the oldest closed request that lists it.
struct Returned {
    end: u32,
    to: u32,
    oldest: u32,
}

/// (rule C5) An end that is not removed, listed by requests that close, goes to
/// the asker of the oldest of them.
fn returned_ends(tables: &Tables, closing: &Closing) -> Vec<Returned> {
    let surviving = tables.rows.iter().filter(|r| survives(r, closing));
    let returned = surviving.filter_map(|r| {
        let closed = tables
            .requests
            .iter()
            .filter(|q| closing.closed.contains(&q.number));
        let listing = closed.filter(|q| q.lists(r.number));
        let oldest = listing.min_by_key(|q| q.number)?;
        Some(Returned {
            end: r.number,
            to: oldest.asker,
            oldest: oldest.number,
        })
    });
    returned.collect()
}

fn survives(row: &Row, closing: &Closing) -> bool {
    row.is_end() && !closing.removed.contains(&row.number)
}

/// (rule C6) And leaves the list of every newer request.
fn give_back(tables: &mut Tables, returned: &Returned) {
    tables.set_place(returned.end, Place::CList(returned.to));
    let newer = |number: u32| number > returned.oldest;
    for request in tables.requests.iter_mut().filter(|q| newer(q.number)) {
        request.strike(returned.end);
    }
}

/// (rule C8) A process that went to its active node through a removed row is in
/// its prime node.
fn to_prime_nodes(tables: &mut Tables, removed: &BTreeSet<u32>) {
    let gone_through = |p: &&mut Process| removed.contains(&p.through);
    for record in tables.processes.iter_mut().filter(gone_through) {
        *record = Process::in_prime_node(record.prime);
    }
}

/// (rules C4, drop-ok) A removed or dropped row leaves every list.
pub fn leave_lists(tables: &mut Tables, removed: &BTreeSet<u32>) {
    for request in &mut tables.requests {
        for &row in removed {
            request.strike(row);
        }
    }
}
