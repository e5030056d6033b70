//! The refusals: for every call a list of (number, test), the lowest that
//! applies is the answer.

use crate::call::{Call, Item, Word};
use crate::limits::*;
use crate::relations::{lent, listed_ends, on_loan, request_on};
use crate::tables::{Kind, Place, Request, Row, Tables};
use std::collections::BTreeSet;

/// A refusal's number and whether it applies.
pub type Tests = Vec<(u32, bool)>;

/// (rules F8, F10) The lowest number that applies, over all items.
pub fn lowest(tests: &Tests) -> Option<u32> {
    let applying = tests.iter().filter(|(_, applies)| *applies);
    applying.map(|(number, _)| *number).min()
}

/// The answer's number if the call is refused on these sound tables.
pub fn refusal(tables: &Tables, call: &Call) -> Option<u32> {
    lowest(&tests(tables, call))
}

/// All refusals that a call of good form may have, and whether each applies.
pub fn tests(tables: &Tables, call: &Call) -> Tests {
    let mut tests = input_tests(tables, call);
    tests.extend(state_tests(tables, call));
    tests
}

/// What decides the answer, by the rule's name: the one ground of the lowest number that
/// applies (`hold-12`, or `answer-14b` for the second of two), or that none does
/// (`hold-ok`). None if two grounds of that number apply.
pub fn decided_by(tables: &Tables, call: &Call) -> Option<String> {
    let tests = tests(tables, call);
    let word = call.word();
    let Some(k) = lowest(&tests) else {
        return Some(format!("{word}-ok"));
    };
    let grounds = tests.iter().filter(|(number, _)| *number == k);
    let count = grounds.clone().count();
    let mut applying = grounds.zip('a'..).filter(|((_, applies), _)| *applies);
    match (applying.next(), applying.next()) {
        (Some(_), None) if count == 1 => Some(format!("{word}-{k}")),
        (Some((_, letter)), None) => Some(format!("{word}-{k}{letter}")),
        _ => None,
    }
}

/// Refused for the input, 3 to 6 (docs/MANUAL.md, chapter 3).
fn input_tests(tables: &Tables, call: &Call) -> Tests {
    vec![
        (3, out_of_range(call)),
        (4, item_named_twice(call.items())),
        (5, call.caller().is_some_and(|p| !tables.listed(p))),
        (6, too_many(call)),
    ]
}

/// (rules F7, X5, X15) Items of an ask, or pairs of a comesall.
fn too_many(call: &Call) -> bool {
    call.items().len() > ITEMS || call.pairs().len() > PAIRS
}

/// (rule F4) Rows and requests are 1 to 4,294,967,294, but for `go 0`; the last number of
/// `answer` is 0 or 1.
fn out_of_range(call: &Call) -> bool {
    let caller = |p: u32| (1..=PROCESSES).contains(&p);
    let number = |n: u32| (1..=LAST_NUMBER).contains(&n);
    let in_range = match call {
        Call::One {
            caller: p,
            word,
            number: n,
        } => caller(*p) && (number(*n) || (*word == Word::Go && *n == 0)),
        Call::Ask {
            caller: p,
            client,
            items,
        } => {
            let item = |i: &Item| number(i.row) && i.rights <= ALL_RIGHTS;
            caller(*p) && number(*client) && items.iter().all(item)
        }
        Call::Answer {
            caller: p,
            end,
            last,
        } => caller(*p) && number(*end) && *last <= 1,
        Call::Comes { row, request } => number(*row) && number(*request),
        Call::Chain { row } => number(*row),
        Call::ComesAll { pairs } => pairs.iter().all(|p| number(p.row) && number(p.request)),
    };
    !in_range
}

/// (rule F5) One row twice among the items, whatever the rights.
fn item_named_twice(items: &[Item]) -> bool {
    let rows: BTreeSet<u32> = items.iter().map(|i| i.row).collect();
    rows.len() < items.len()
}

/// Refused for the state, 7 to 18 (docs/MANUAL.md, chapter 4).
fn state_tests(tables: &Tables, call: &Call) -> Tests {
    match call {
        Call::One {
            caller,
            word,
            number,
        } => one_number(tables, *caller, *word, *number),
        Call::Ask {
            caller,
            client,
            items,
        } => ask(tables, *caller, *client, items),
        Call::Answer { caller, end, last } => answer(tables, *caller, *end, *last),
        Call::Comes { row, request } => comes(tables, *row, *request),
        Call::Chain { row } => chain(tables, *row),
        // (rule comesall-ok-2) A pair of which `comes` is 7 has the value `-`.
        Call::ComesAll { .. } => Vec::new(),
    }
}

fn one_number(tables: &Tables, caller: u32, word: Word, number: u32) -> Tests {
    let test = match word {
        Word::Go => go,
        Word::Hold => hold,
        Word::Register => register,
        Word::Drop => drop_row,
        Word::Port => port,
        Word::Close => close,
        Word::Fetch => fetch,
        Word::Revoke => revoke,
    };
    test(tables, caller, number)
}

/// (rule F11) A look-up finds the row, in the caller's c-list, or yields 7.
fn look_up(tables: &Tables, caller: u32, number: u32) -> Option<&Row> {
    tables.row(number).filter(|r| r.in_c_list_of(caller))
}

/// (rule X7) 16: too few rows are free.
fn rows_short(tables: &Tables, wanted: usize) -> bool {
    tables.rows.len() + wanted > ROWS
}

/// (rule X9) 18: too few numbers are left.
fn numbers_short(tables: &Tables, wanted: usize) -> bool {
    let left = (LAST_NUMBER + 1).saturating_sub(tables.next);
    wanted > left as usize
}

/// (rule X6) 15: depth 13, for a row with these sources.
fn too_deep(sources: &[Option<&Row>]) -> bool {
    let depths = sources.iter().flatten().map(|r| r.depth);
    depths.max().is_some_and(|greatest| greatest >= DEEPEST)
}

fn go(tables: &Tables, caller: u32, e: u32) -> Tests {
    let row = look_up(tables, caller, e);
    vec![
        (7, e != 0 && row.is_none()),
        (8, row.is_some_and(|r| r.kind != Kind::Subdirectory)),
    ]
}

fn hold(tables: &Tables, caller: u32, s: u32) -> Tests {
    let record = tables.process(caller);
    let active = record.map(|p| Place::Node(p.active));
    let row = tables.row(s).filter(|r| Some(r.place) == active);
    let through = record.and_then(|p| tables.row(p.through));
    let subdirectory = row.is_some_and(|r| r.kind == Kind::Subdirectory);
    let through_lent = through.is_some_and(|d| lent(tables, d.number));
    vec![
        (7, row.is_none()),
        (9, row.is_some_and(|r| !r.permits(HOLD))),
        (12, subdirectory && through_lent),
        (15, too_deep(&[row, through])),
        (16, rows_short(tables, 1)),
        (18, numbers_short(tables, 1)),
    ]
}

fn register(tables: &Tables, caller: u32, e: u32) -> Tests {
    let row = look_up(tables, caller, e);
    let directory = row.and_then(|r| tables.row(r.source));
    vec![
        (7, row.is_none()),
        (8, row.is_some_and(Row::is_end)),
        (9, row.is_some_and(|r| !r.permits(REGISTER))),
        (12, row.is_some_and(|r| lent(tables, r.number))),
        (15, too_deep(&[directory])),
        (16, rows_short(tables, 1)),
        (18, numbers_short(tables, 1)),
    ]
}

fn drop_row(tables: &Tables, caller: u32, e: u32) -> Tests {
    let row = look_up(tables, caller, e);
    let is_source = tables.rows.iter().any(|r| r.comes_directly_from(e));
    let went_through = tables.process(caller).is_some_and(|p| p.through == e);
    vec![
        (7, row.is_none()),
        (8, row.is_some_and(Row::is_end)),
        (13, is_source),
        (13, went_through),
    ]
}

fn port(tables: &Tables, caller: u32, e: u32) -> Tests {
    let row = look_up(tables, caller, e);
    vec![
        (7, row.is_none()),
        (8, row.is_some_and(|r| r.kind != Kind::Operation)),
        (15, too_deep(&[row])),
        (16, rows_short(tables, 2)),
        (18, numbers_short(tables, 2)),
    ]
}

fn close(tables: &Tables, caller: u32, c: u32) -> Tests {
    let row = look_up(tables, caller, c);
    vec![
        (7, row.is_none()),
        (8, row.is_some_and(|r| r.kind != Kind::Client)),
        (12, row.is_some_and(|r| on_loan(tables, r))),
    ]
}

fn ask(tables: &Tables, caller: u32, c: u32, items: &[Item]) -> Tests {
    let client = look_up(tables, caller, c);
    let found = items
        .iter()
        .filter_map(|i| Some((look_up(tables, caller, i.row)?, i)));
    let rows: Vec<(&Row, &Item)> = found.collect();
    let copied = rows.iter().filter(|(r, _)| !r.is_end()).count();
    let copy_too_deep = |r: &Row| !r.is_end() && too_deep(&[Some(r), client]);
    vec![
        (7, client.is_none() || rows.len() < items.len()),
        (8, client.is_some_and(|r| r.kind != Kind::Client)),
        (9, rows.iter().any(|(r, i)| !lendable(r, i.rights))),
        (10, request_on(tables, c).is_some()),
        (10, rows.iter().any(|(r, _)| r.port() == Some(c))),
        (10, rows.iter().any(|(r, _)| port_busy(tables, r))),
        (15, rows.iter().any(|(r, _)| copy_too_deep(r))),
        (16, rows_short(tables, copied)),
        (17, tables.requests.len() >= REQUESTS),
        (18, numbers_short(tables, 1 + copied)),
    ]
}

/// (rules ask-9a, ask-9b) A copied item lacks transfer, or the rights lent are not
/// within the row's. An end has rights 0 and needs no transfer.
fn lendable(row: &Row, rights: u32) -> bool {
    let transfer = row.is_end() || row.permits(TRANSFER);
    transfer && row.permits(rights)
}

/// (rules ask-10c, answer-10) An end of a port with an open request.
fn port_busy(tables: &Tables, row: &Row) -> bool {
    row.port()
        .is_some_and(|port| request_on(tables, port).is_some())
}

/// The request open on the port of a server end.
fn server<'a>(tables: &'a Tables, row: Option<&Row>) -> Option<&'a Request> {
    let end = row.filter(|r| r.kind == Kind::Server)?;
    request_on(tables, end.object)
}

fn fetch(tables: &Tables, caller: u32, v: u32) -> Tests {
    let row = look_up(tables, caller, v);
    let request = server(tables, row);
    vec![
        (7, row.is_none()),
        (8, row.is_some_and(|r| r.kind != Kind::Server)),
        (11, request.is_none_or(|q| q.fetched != 0)),
    ]
}

/// Both last numbers want an open request; 1 wants it fetched too, and its ends here and at rest.
fn answer(tables: &Tables, caller: u32, v: u32, last: u32) -> Tests {
    let served = last == 1;
    let row = look_up(tables, caller, v);
    let request = server(tables, row);
    let ends: Vec<&Row> = request
        .iter()
        .flat_map(|q| listed_ends(tables, q))
        .collect();
    let not_here = |r: &&Row| !r.in_c_list_of(caller);
    let newer = request.is_some_and(|q| lent_on(tables, q, &ends));
    vec![
        (7, row.is_none()),
        (8, row.is_some_and(|r| r.kind != Kind::Server)),
        (10, served && ends.iter().any(|r| port_busy(tables, r))),
        (11, request.is_none()),
        (11, served && request.is_some_and(|q| q.fetched != 1)),
        (14, served && ends.iter().any(not_here)),
        (14, served && newer),
    ]
}

/// (rule answer-14b) Listed by a newer request.
fn lent_on(tables: &Tables, request: &Request, ends: &[&Row]) -> bool {
    let mut newer = tables.requests.iter().filter(|q| q.number > request.number);
    newer.any(|q| ends.iter().any(|r| q.lists(r.number)))
}

fn revoke(tables: &Tables, caller: u32, q: u32) -> Tests {
    let own = tables.request(q).is_some_and(|r| r.asker == caller);
    vec![(7, !own)]
}

fn comes(tables: &Tables, row: u32, request: u32) -> Tests {
    vec![
        (7, tables.row(row).is_none()),
        (7, tables.request(request).is_none()),
    ]
}

/// (rule chain-7) The row may be in any place.
fn chain(tables: &Tables, row: u32) -> Tests {
    vec![(7, tables.row(row).is_none())]
}
