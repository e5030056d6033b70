//! What an accepted call does to sound tables, and what it answers.

use crate::answer::Answer;
use crate::call::{Call, Item, Word};
use crate::closing::{close_port, close_request, leave_lists};
use crate::limits::ITEMS;
use crate::relations::{comes_from, first_chain, pair_values, request_on};
use crate::tables::{Kind, Place, Process, Request, Row, Tables};
use std::collections::BTreeSet;

/// Carries out a call that no refusal applies to. None cannot come for such a
/// call: it stands for a row or request that is not there.
pub fn perform(tables: &mut Tables, call: &Call) -> Option<Answer> {
    match call {
        Call::One {
            caller,
            word,
            number,
        } => one_number(tables, *caller, *word, *number),
        Call::Ask {
            caller,
            client,
            items,
        } => ask(tables, *caller, *client, items),
        Call::Answer { end, .. } => answer_request(tables, *end),
        Call::Comes { row, request } => Some(Answer::ok(comes_from(tables, *row, *request).into())),
        Call::Chain { row } => Some(Answer::Ok(first_chain(tables, *row))),
        Call::ComesAll { pairs } => Some(Answer::Values(pair_values(tables, pairs))),
    }
}

fn one_number(tables: &mut Tables, caller: u32, word: Word, number: u32) -> Option<Answer> {
    match word {
        Word::Go => go(tables, caller, number),
        Word::Hold => hold(tables, caller, number),
        Word::Register => register(tables, caller, number),
        Word::Drop => drop_row(tables, number),
        Word::Port => port(tables, caller, number),
        Word::Close => {
            close_port(tables, number);
            done()
        }
        Word::Fetch => fetch(tables, caller, number),
        Word::Revoke => {
            close_request(tables, number);
            done()
        }
    }
}

/// `(ok 0)`: no new number.
fn done() -> Option<Answer> {
    Some(Answer::ok(0))
}

/// (rule R5) The next number of the counter, given once.
fn take_number(tables: &mut Tables) -> u32 {
    let number = tables.next;
    tables.next += 1;
    number
}

/// A new row at the end of the tables: its number from the counter, its depth
/// from its sources, the other fields as given.
fn append(tables: &mut Tables, mut row: Row) -> u32 {
    let sources = row.sources().filter_map(|s| tables.row(s));
    row.depth = 1 + sources.map(|s| s.depth).max().unwrap_or(0);
    row.number = take_number(tables);
    tables.rows.push(row);
    row.number
}

/// (rule go-ok) The node that e names becomes active; with 0 the prime node.
fn go(tables: &mut Tables, caller: u32, e: u32) -> Option<Answer> {
    let prime = tables.process(caller)?.prime;
    let active = match e {
        0 => prime,
        _ => tables.row(e)?.object,
    };
    let record = Process {
        prime,
        active,
        through: e,
    };
    tables.set_process(caller, record);
    done()
}

/// (rules R7, hold-ok) A row of the active node, copied to the c-list with its
/// rights.
fn hold(tables: &mut Tables, caller: u32, s: u32) -> Option<Answer> {
    let directory = *tables.row(s)?;
    let through = tables.process(caller)?.through;
    let row = Row {
        place: Place::CList(caller),
        source: s,
        via: through,
        ..directory
    };
    Some(Answer::ok(append(tables, row)))
}

/// (rules R8, register-ok) A copy of e, with its rights, in the active node; its
/// one source is the first source of e.
fn register(tables: &mut Tables, caller: u32, e: u32) -> Option<Answer> {
    let held = *tables.row(e)?;
    let row = Row {
        place: Place::Node(tables.process(caller)?.active),
        source: held.source,
        via: 0,
        ..held
    };
    Some(Answer::ok(append(tables, row)))
}

/// (rule drop-ok) The row goes.
fn drop_row(tables: &mut Tables, e: u32) -> Option<Answer> {
    tables.rows.retain(|r| r.number != e);
    leave_lists(tables, &BTreeSet::from([e]));
    done()
}

/// (rules R9, port-ok) Two ends from operation e: the client end to the caller,
/// the server end to the manager.
fn port(tables: &mut Tables, caller: u32, e: u32) -> Option<Answer> {
    let operation = *tables.row(e)?;
    let client = Row {
        kind: Kind::Client,
        object: tables.next,
        operation: 0,
        rights: 0,
        place: Place::CList(caller),
        source: e,
        via: 0,
        request: 0,
        ..operation
    };
    let server = Row {
        kind: Kind::Server,
        place: Place::CList(operation.object),
        ..client
    };
    let number = append(tables, client);
    append(tables, server);
    Some(Answer::ok(number))
}

/// (rules ask-ok-1, ask-ok-2, ask-ok-3, ask-ok-4) The request takes a number, then
/// each copy in order; operations and subdirectories are copied, ends move; all
/// lie with the system until they are fetched.
fn ask(tables: &mut Tables, caller: u32, client: u32, items: &[Item]) -> Option<Answer> {
    let number = take_number(tables);
    let mut listed = [None; ITEMS];
    for (lent, item) in listed.iter_mut().zip(items) {
        *lent = Some(lend(tables, number, client, item)?);
    }
    tables.requests.push(Request {
        number,
        port: client,
        asker: caller,
        fetched: 0,
        items: listed,
    });
    Some(Answer::ok(number))
}

/// (rules R10, L6) The row that goes to the system for an item: the end itself, or
/// a copy from the lender's row and the port that it was lent over.
fn lend(tables: &mut Tables, request: u32, client: u32, item: &Item) -> Option<u32> {
    let lenders = *tables.row(item.row)?;
    if lenders.is_end() {
        tables.set_place(item.row, Place::System);
        return Some(item.row);
    }
    let copy = Row {
        rights: item.rights,
        place: Place::System,
        source: item.row,
        via: client,
        request,
        ..lenders
    };
    Some(append(tables, copy))
}

/// (rule fetch-ok) The items come to the caller; the answer is the request's
/// number, then the items still listed, in the order asked.
fn fetch(tables: &mut Tables, caller: u32, v: u32) -> Option<Answer> {
    let port = tables.row(v)?.object;
    let request = tables.requests.iter_mut().find(|q| q.port == port)?;
    request.fetched = 1;
    let mut numbers = vec![request.number];
    numbers.extend(request.listed());
    for &item in &numbers[1..] {
        tables.set_place(item, Place::CList(caller));
    }
    Some(Answer::Ok(numbers))
}

/// (rule answer-ok) The request is closed, with either last number.
fn answer_request(tables: &mut Tables, v: u32) -> Option<Answer> {
    let port = tables.row(v)?.object;
    let request = request_on(tables, port)?.number;
    close_request(tables, request);
    done()
}
