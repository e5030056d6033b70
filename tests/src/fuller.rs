//! Sound tables made fuller: rows in a node, ports with a request each, deep rows, numbers given.

use model::limits::{ALL_RIGHTS, DEEPEST, LAST_NUMBER, REQUESTS, ROWS};
use model::random::shifted::room;
use model::tables::{Kind, Place, Request, Row};
use model::Tables;

/// Adds a row with the next number, which it says.
fn add(tables: &mut Tables, row: Row) -> u32 {
    let number = tables.next;
    tables.next += 1;
    tables.rows.push(Row { number, ..row });
    number
}

/// The oldest operation that a process holds, with its holder.
fn held_operation(tables: &Tables) -> Option<(u32, Row)> {
    let shallow = |r: &&Row| r.kind == Kind::Operation && r.request == 0 && r.depth < DEEPEST;
    let mut rows = tables.rows.iter().filter(shallow);
    rows.find_map(|row| match row.place {
        Place::CList(process) => Some((process, *row)),
        _ => None,
    })
}

/// The first listed process.
fn a_process(tables: &Tables) -> u32 {
    (1..).find(|p| tables.listed(*p)).expect("a process")
}

/// An operation of that process, as the text's rows are.
fn operation(manager: u32, node: u32) -> Row {
    Row {
        number: 0,
        kind: Kind::Operation,
        object: manager,
        operation: 0,
        rights: ALL_RIGHTS,
        place: Place::Node(node),
        source: 0,
        via: 0,
        depth: 1,
        request: 0,
    }
}

/// Rows in node 1 until there are so many, or the numbers run out.
pub fn with_rows(mut tables: Tables, rows: usize) -> Tables {
    let row = operation(a_process(&tables), 1);
    while tables.rows.len() < rows && room(&tables) > 0 {
        add(&mut tables, row);
    }
    tables
}

/// A row in a process's active node, others registered from it down to the
/// greatest depth, each held; and a port from each that is not too deep.
pub fn with_deep_rows(mut tables: Tables) -> Tables {
    let process = a_process(&tables);
    let active = tables.process(process).map_or(1, |record| record.active);
    let rows = 4 * DEEPEST as usize;
    if tables.rows.len() + rows > ROWS || room(&tables) < rows as u32 {
        return tables;
    }
    let mut source = 0;
    for depth in 1..=DEEPEST {
        let in_node = operation(process, active);
        source = add(
            &mut tables,
            Row {
                source,
                depth,
                ..in_node
            },
        );
        if depth < DEEPEST {
            let (place, depth) = (Place::CList(process), depth + 1);
            add(
                &mut tables,
                Row {
                    place,
                    source,
                    depth,
                    ..in_node
                },
            );
        }
        if depth + 1 < DEEPEST {
            let from = tables.rows.last().copied().expect("the held row");
            add_port(&mut tables, process, &from);
        }
    }
    tables
}

/// Both ends of a port from an operation that a process holds.
fn add_port(tables: &mut Tables, process: u32, from: &Row) -> u32 {
    let port = tables.next;
    for (kind, holder) in [(Kind::Client, process), (Kind::Server, from.object)] {
        let end = Row {
            kind,
            object: port,
            operation: 0,
            rights: 0,
            place: Place::CList(holder),
            source: from.number,
            via: 0,
            depth: from.depth + 1,
            ..*from
        };
        add(tables, end);
    }
    port
}

/// Ports from one operation, with a request without items each, until there
/// are so many requests. Tables in which no process holds an operation stay.
pub fn with_requests(mut tables: Tables, requests: usize) -> Tables {
    let Some((asker, operation)) = held_operation(&tables) else {
        return tables;
    };
    while tables.requests.len() < requests.min(REQUESTS) && room(&tables) >= 3 {
        let port = add_port(&mut tables, asker, &operation);
        tables.requests.push(Request {
            number: tables.next,
            port,
            asker,
            fetched: 0,
            items: [None; 4],
        });
        tables.next += 1;
    }
    tables
}

/// So many numbers are left; the others are given.
pub fn with_numbers_left(mut tables: Tables, left: u32) -> Tables {
    tables.next = tables.next.max(LAST_NUMBER + 1 - left);
    tables
}
