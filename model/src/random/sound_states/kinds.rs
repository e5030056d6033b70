//! The kinds of rows, ends and requests that sound tables have, as names.

use crate::relations::{lent, request_on};
use crate::tables::{Place, Request, Row, Tables};
use std::collections::BTreeSet;

/// The names of all kinds that are in the tables.
pub fn kinds(t: &Tables) -> BTreeSet<String> {
    let rows = t.rows.iter().flat_map(|r| row_kinds(t, r));
    let requests = t.requests.iter().flat_map(|q| request_kinds(t, q));
    let mut found: BTreeSet<String> = rows.chain(requests).collect();
    let through = t.processes.iter().filter(|p| p.through != 0);
    for row in through.filter_map(|p| t.row(p.through)) {
        found.insert(format!("process through {}", origin(t, row)));
    }
    found
}

/// (rule S13) Which of the five it is.
fn five(row: &Row) -> &'static str {
    match (row.in_node(), row.is_end(), row.request != 0) {
        (true, _, _) if row.source == 0 => "an opening row",
        (true, _, _) => "a registered row",
        (_, true, _) => "an end",
        (_, _, true) => "a lent copy",
        _ => "a held row",
    }
}

/// Which of the five, and whether it is lent though it bears no request.
fn origin(t: &Tables, row: &Row) -> String {
    let lent = row.request == 0 && !row.is_end() && lent(t, row.number);
    match lent {
        true => format!("{} that is lent", five(row)),
        false => five(row).to_string(),
    }
}

fn row_kinds(t: &Tables, row: &Row) -> Vec<String> {
    let what = five(row);
    let mut found = vec![format!("{what}, {:?}", row.kind)];
    if let Some(source) = t.row(row.source) {
        found.push(format!("{what} from {}", origin(t, source)));
        if source.place == Place::System {
            found.push(format!("{what} from a row with the system"));
        }
    }
    match (row.is_end(), row.request, t.row(row.via)) {
        (true, _, _) => found.extend(end_kinds(t, row)),
        (_, 0, Some(via)) => {
            let whose = match (via.place == row.place, via.in_node()) {
                (true, _) => "of the same c-list",
                (_, true) => "of a node",
                _ => "of another place",
            };
            found.push(format!("{what} through {}, {whose}", origin(t, via)));
        }
        (_, 0, None) if row.source == 0 => found.extend(newer_opening(t, row)),
        (_, 0, None) => {}
        (_, request, _) => found.extend(copy_kinds(t, row, request)),
    }
    found
}

fn newer_opening(t: &Tables, row: &Row) -> Option<String> {
    let older = t.rows.iter().take_while(|r| r.number < row.number);
    let mut made = older.filter(|r| r.source != 0);
    made.next()
        .map(|_| "an opening row newer than a row that was made".to_string())
}

fn copy_kinds(t: &Tables, row: &Row, request: u32) -> Vec<String> {
    let mut found = Vec::new();
    let asker = t.request(request).map_or(0, |q| q.asker);
    let Some(source) = t.row(row.source) else {
        return found;
    };
    if source.number > request {
        found.push("a lent copy of a row newer than its request".to_string());
    }
    if !source.in_c_list_of(asker) {
        found.push("a lent copy of a row that its asker has not".to_string());
    }
    if row.number - request > 4 {
        found.push("a lent copy much newer than its request".to_string());
    }
    found
}

/// By how many requests it is listed, and where it is.
fn end_kinds(t: &Tables, row: &Row) -> Vec<String> {
    let listing: Vec<&Request> = t.requests.iter().filter(|q| q.lists(row.number)).collect();
    let mut found = vec![format!("an end in {} lists", listing.len().min(4))];
    if listing.iter().any(|q| q.port == row.object) {
        found.push("an end listed by the request on its own port".to_string());
    }
    if !listing.is_empty() && request_on(t, row.object).is_some() {
        found.push("an end on loan whose port has an open request".to_string());
    }
    let source = t.row(row.source).map(|s| s.place);
    if listing.is_empty() && source != Some(row.place) {
        found.push("an end on no loan that is not where its operation is".to_string());
    }
    found
}

fn request_kinds(t: &Tables, q: &Request) -> Vec<String> {
    let count = q.listed().count();
    let mut found = vec![
        format!("a request of {count} items"),
        format!("a request with the mark {}", q.fetched),
    ];
    let first_gap = q.items.iter().position(Option::is_none);
    if first_gap.is_some_and(|gap| q.items[gap..].iter().any(Option::is_some)) {
        found.push("a request with an item that left the list".to_string());
    }
    let client = t.row(q.port).map(|c| c.place);
    if client == Some(Place::System) {
        found.push("a request on a port whose client end is with the system".to_string());
    }
    if client != Some(Place::CList(q.asker)) {
        found.push("a request whose asker has not its client end".to_string());
    }
    found
}
