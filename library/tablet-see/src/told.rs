//! A call told in sentences: what was made, moved, lent, brought back or removed, or why it was refused.

use crate::call::{read_call, Call};
use crate::change::{change, Change};
use crate::ground::ground;
use crate::questions::answered;
use crate::session::{Gone, Step};
use crate::wording::*;
use tablet::{Answer, Kind, Place, Record, Refusal, Request, Row, State};

/// What a call did, or why it was refused, one sentence each.
pub fn told(step: &Step, gone: &Gone) -> Vec<String> {
    let lines = match &step.answer {
        Answer::No(refusal) => vec![
            refused(step, *refusal, gone),
            refusal.remedy().trim_end_matches('.').to_string(),
        ],
        Answer::Ok(values) => answered(step, values, gone).unwrap_or_else(|| accepted(step)),
    };
    lines.iter().map(|line| sentence(line)).collect()
}

/// What an accepted call changed.
fn accepted(step: &Step) -> Vec<String> {
    let told = changes(step);
    if told.is_empty() {
        return vec!["nothing is changed".to_string()];
    }
    told.into_iter().map(|(_, line)| line).collect()
}

/// `refusal 7, rule ask-7a: no row 9 stands: it has gone`
fn refused(step: &Step, refusal: Refusal, gone: &Gone) -> String {
    let number = refusal.number();
    match ground(&step.before, &step.line) {
        Some(ground) if ground.number == number => {
            format!("refusal {number}, {}", ground.told(gone))
        }
        _ => format!(
            "refusal {number}: {}",
            refusal.meaning().trim_end_matches('.')
        ),
    }
}

/// What a sentence about a change tells of.
#[derive(Clone, Copy, PartialEq, Eq, Debug)]
pub enum Part {
    Made,
    Moved,
    Back,
    Closed,
    Gone,
}

/// What is different after a call that was accepted.
pub fn changes(step: &Step) -> Vec<(Part, String)> {
    let (before, after) = (&step.before, &step.after);
    let change = change(before, after);
    let closed = |q| closed(step, q);
    let moves = if change.closed.is_empty() {
        Part::Moved
    } else {
        Part::Back
    };
    let mut told: Vec<(Part, String)> = Vec::new();
    let mut tell = |part: Part, lines: &mut dyn Iterator<Item = String>| {
        told.extend(lines.map(|line| (part, line)));
    };
    tell(
        Part::Made,
        &mut change.opened.iter().map(|q| opened(after, q)),
    );
    tell(
        Part::Moved,
        &mut change.fetched.iter().map(|q| fetched(after, q)),
    );
    tell(Part::Closed, &mut change.closed.iter().map(closed));
    tell(
        Part::Made,
        &mut change.made.iter().filter_map(|row| made(after, row)),
    );
    tell(
        moves,
        &mut change
            .moved
            .iter()
            .map(|(row, from)| moved(row, *from, moves)),
    );
    tell(Part::Gone, &mut gone(before, &change).into_iter());
    tell(
        Part::Moved,
        &mut change.left.iter().map(|(q, row)| left(*q, *row)),
    );
    tell(
        Part::Moved,
        &mut change.records.iter().map(|(p, record)| stands(*p, record)),
    );
    told
}

fn opened(state: &State, q: &Request) -> String {
    let items: Vec<u32> = q.listed().collect();
    let items = match items.as_slice() {
        [] => "lends nothing".to_string(),
        items => format!("lends {}", numbers(items)),
    };
    let server = server_of(state, q.port);
    format!(
        "request {} is open on port {}: process {} asks {server} and {items}",
        q.number, q.port, q.asker
    )
}

fn fetched(state: &State, q: &Request) -> String {
    format!(
        "request {} of process {} is fetched by {}",
        q.number,
        q.asker,
        server_of(state, q.port)
    )
}

/// Of the request that the call answered, what the server did with it too.
fn closed(step: &Step, q: &Request) -> String {
    let served = served(step, q.port).unwrap_or_default();
    format!("{} is closed{served}", request(q))
}

/// `: process 2 served it`, if the call answered the request on that port.
fn served(step: &Step, port: u32) -> Option<String> {
    let Ok(Call::Answer { caller, end, last }) = read_call(&step.line) else {
        return None;
    };
    let at = step.before.row(end.value)?.port()?;
    let did = match last.value {
        1 => "served",
        _ => "declined",
    };
    (at == port).then(|| format!(": process {} {did} it", caller.value))
}

/// A new row; a server end is told with its client end.
fn made(state: &State, row: &Row) -> Option<String> {
    let n = row.number;
    let first = row.sources[0];
    let (thing, origin) = (thing(row), origin(state, row));
    if row.bears != 0 {
        return Some(format!("row {n}: {thing}, {origin}"));
    }
    match (row.kind, row.place) {
        (Kind::Server, _) => None,
        (Kind::Client, _) => {
            let server = state.row(n + 1).map_or(String::new(), |s| {
                format!(", server end {} {}", n + 1, at(s.place))
            });
            Some(format!(
                "port {n} is made from row {first}: client end {n} {}{server}",
                at(row.place)
            ))
        }
        (_, Place::Node(node)) => Some(format!(
            "row {n} is registered in node {node}: {thing}; its source is row {first}"
        )),
        (_, place) => Some(format!("row {n} {}: {thing}, {origin}", at(place))),
    }
}

/// A row that moved, or came back since a request was closed.
fn moved(row: &Row, from: Place, part: Part) -> String {
    let from = match from {
        Place::CList(p) => format!("from process {p}"),
        Place::Node(n) => format!("from node {n}"),
        Place::System => "from the system".to_string(),
    };
    let moves = if part == Part::Back {
        "comes back"
    } else {
        "moves"
    };
    format!("{} {moves} {from} {}", short(row), towards(row.place))
}

/// The rows that went, place by place.
fn gone(before: &State, change: &Change) -> Vec<String> {
    let mut places: Vec<Place> = change.removed.iter().map(|r| r.place).collect();
    places.sort();
    places.dedup();
    let rows = |place| change.removed.iter().filter(move |r| r.place == place);
    let line = |place: Place| {
        let rows: Vec<String> = rows(place).map(|row| gone_row(before, row)).collect();
        let verb = if rows.len() == 1 { "goes" } else { "go" };
        format!("{} {verb}, {}", and(&rows), out_of(place))
    };
    places.into_iter().map(line).collect()
}

fn out_of(place: Place) -> String {
    match place {
        Place::CList(p) => format!("out of the c-list of process {p}"),
        Place::Node(n) => format!("out of node {n}"),
        Place::System => "which lay with the system".to_string(),
    }
}

fn gone_row(before: &State, row: &Row) -> String {
    match before.request(row.bears) {
        Some(q) => format!("{}, lent by process {}", short(row), q.asker),
        None => short(row),
    }
}

fn left(request: u32, row: u32) -> String {
    format!("row {row} leaves the list of request {request}, which stays open")
}

fn stands(p: u32, record: &Record) -> String {
    match record.through {
        0 => format!("process {p} is in its prime node {}", record.active),
        row => format!("process {p} is in node {} through row {row}", record.active),
    }
}
