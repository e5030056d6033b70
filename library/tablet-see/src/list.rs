//! `tablet-see list`: a c-list, a node, what waits at a server end, open requests by asker; as text or as JSON.

use crate::json::Json;
use crate::relations::{listing, request_on, View};
use crate::wording::{asked, at, lent, numbers, thing};
use tablet::{Kind, Place, Request, Row};

/// What to list.
#[derive(Clone, Copy, PartialEq, Eq, Debug)]
pub enum What {
    All,
    Process(u32),
    Node(u32),
    Server(u32),
    Asker(u32),
}

/// The list as text, or why there is none.
pub fn text(state: &View, what: What) -> Result<String, String> {
    match what {
        What::All => Ok(all(state)),
        What::Process(p) => process(state, p),
        What::Node(n) => Ok(place(state, Place::Node(n), &format!("node {n}"))),
        What::Server(v) => server(state, v),
        What::Asker(p) => {
            let open = listed(state, p)?.requests.iter().filter(|q| q.asker == p);
            let lines: String = open.map(|q| format!("  {}\n", request(q))).collect();
            Ok(headed(&format!("open requests of process {p}"), lines))
        }
    }
}

fn headed(head: &str, lines: String) -> String {
    let lines = if lines.is_empty() {
        "  none\n".to_string()
    } else {
        lines
    };
    format!("{head}\n{lines}")
}

fn all(state: &View) -> String {
    let mut parts: Vec<String> = nodes(state)
        .into_iter()
        .map(|n| place(state, Place::Node(n), &format!("node {n}")))
        .collect();
    parts.extend(state.listed().filter_map(|p| process(state, p).ok()));
    parts.push(place(state, Place::System, "system"));
    let requests = state.requests.iter().map(|q| format!("  {}\n", request(q)));
    parts.push(headed("open requests", requests.collect()));
    parts.push(format!("next number {}\n", state.next));
    parts.concat()
}

/// The nodes that rows are in, or that a process is in.
pub fn nodes(state: &View) -> Vec<u32> {
    let of_rows = state.rows.iter().filter_map(|r| match r.place {
        Place::Node(n) => Some(n),
        _ => None,
    });
    let mut nodes: Vec<u32> = of_rows.collect();
    nodes.extend(
        state
            .listed()
            .filter_map(|p| state.process(p))
            .flat_map(|record| [record.prime, record.active]),
    );
    nodes.sort_unstable();
    nodes.dedup();
    nodes
}

fn listed<'a>(state: &'a View, p: u32) -> Result<&'a View<'a>, String> {
    match state.process(p) {
        Some(_) => Ok(state),
        None => Err(format!("process {p} is not listed")),
    }
}

fn process(state: &View, p: u32) -> Result<String, String> {
    let record = listed(state, p)?.process(p).copied().unwrap_or_default();
    let place_words = match record.through {
        0 => format!("in its prime node {}", record.prime),
        row => format!(
            "in node {} through row {row}, prime node {}",
            record.active, record.prime
        ),
    };
    Ok(place(
        state,
        Place::CList(p),
        &format!("c-list of process {p}, {place_words}"),
    ))
}

fn place(state: &View, place: Place, head: &str) -> String {
    let rows = state.at(place).map(|r| format!("  {}\n", row(state, r)));
    headed(head, rows.collect())
}

/// `row 8: operation 5 of manager 2, rights 3 (hold, transfer), lent by process 1 to process 2 in request 7`
pub fn row(state: &View, row: &Row) -> String {
    let mut words = vec![format!("row {}: {}", row.number, thing(row))];
    let loans: Vec<u32> = loans(state, row);
    if row.bears != 0 {
        words.push(lent(state, row));
    } else if !loans.is_empty() {
        words.push(format!("on loan in request {}", numbers(&loans)));
    } else if let Some(request) = state.lent.request(row.number) {
        words.push(format!("comes from what is lent in request {request}"));
    }
    let sources: Vec<u32> = row.sources().collect();
    if !sources.is_empty() {
        words.push(format!("from {}", numbers(&sources)));
    }
    words.join(", ")
}

/// The requests that have an end on loan.
fn loans(state: &View, row: &Row) -> Vec<u32> {
    let requests = listing(state, row.number).filter(|_| row.is_end());
    requests.map(|q| q.number).collect()
}

/// `request 7 on port 5, asked by process 1, fetched, items 8`
pub fn request(q: &Request) -> String {
    let items: Vec<u32> = q.listed().collect();
    format!(
        "request {} on port {}, {}, items {}",
        q.number,
        q.port,
        asked(q),
        numbers(&items)
    )
}

/// The server end of that number.
fn server_end<'a>(state: &'a View, v: u32) -> Result<&'a Row, String> {
    match state.row(v) {
        None => Err(format!("no row {v} stands")),
        Some(row) if row.kind != Kind::Server => {
            Err(format!("row {v} is no server end: it is a {}", row.kind))
        }
        Some(row) => Ok(row),
    }
}

fn server(state: &View, v: u32) -> Result<String, String> {
    let end = server_end(state, v)?;
    let head = format!("server end {v} of port {}, {}", end.object, at(end.place));
    let Some(open) = request_on(state, end.object) else {
        return Ok(headed(&head, "  no request is open\n".to_string()));
    };
    let items = open.listed().filter_map(|i| state.row(i));
    let items: String = items.map(|r| format!("    {}\n", row(state, r))).collect();
    Ok(format!("{head}\n  {}\n{items}", request(open)))
}

/// The list as JSON, or why there is none.
pub fn json(state: &View, what: What) -> Result<Json, String> {
    match what {
        What::All => Ok(json_all(state)),
        What::Process(p) => listed(state, p).map(|state| json_process(state, p)),
        What::Node(n) => Ok(json_node(state, n)),
        What::Server(v) => {
            let end = server_end(state, v)?;
            let open = request_on(state, end.object);
            let items = open
                .into_iter()
                .flat_map(|q| q.listed())
                .filter_map(|i| state.row(i));
            Ok(Json::Object(vec![
                ("server_end", json_row(state, end)),
                (
                    "requests",
                    Json::List(open.iter().map(|q| json_request(q)).collect()),
                ),
                (
                    "items",
                    Json::List(items.map(|r| json_row(state, r)).collect()),
                ),
            ]))
        }
        What::Asker(p) => {
            let open = listed(state, p)?.requests.iter().filter(|q| q.asker == p);
            let open = Json::List(open.map(json_request).collect());
            Ok(Json::Object(vec![
                ("asker", Json::Number(p)),
                ("requests", open),
            ]))
        }
    }
}

fn json_all(state: &View) -> Json {
    let nodes = nodes(state).into_iter().map(|n| json_node(state, n));
    Json::Object(vec![
        ("nodes", Json::List(nodes.collect())),
        (
            "processes",
            Json::List(state.listed().map(|p| json_process(state, p)).collect()),
        ),
        ("system", json_rows(state, Place::System)),
        (
            "requests",
            Json::List(state.requests.iter().map(json_request).collect()),
        ),
        ("next", Json::Number(state.next)),
    ])
}

fn json_node(state: &View, n: u32) -> Json {
    Json::Object(vec![
        ("node", Json::Number(n)),
        ("rows", json_rows(state, Place::Node(n))),
    ])
}

fn json_process(state: &View, p: u32) -> Json {
    let record = state.process(p).copied().unwrap_or_default();
    Json::Object(vec![
        ("process", Json::Number(p)),
        ("prime", Json::Number(record.prime)),
        ("active", Json::Number(record.active)),
        ("through", Json::Number(record.through)),
        ("rows", json_rows(state, Place::CList(p))),
    ])
}

fn json_rows(state: &View, place: Place) -> Json {
    Json::List(state.at(place).map(|r| json_row(state, r)).collect())
}

/// A row; what does not apply to its kind is not there.
pub fn json_row(state: &View, row: &Row) -> Json {
    let mut fields = vec![
        ("row", Json::Number(row.number)),
        ("kind", Json::text(row.kind.to_string())),
    ];
    match row.kind {
        Kind::Operation => fields.extend([
            ("manager", Json::Number(row.object)),
            ("operation", Json::Number(row.operation)),
        ]),
        Kind::Subdirectory => fields.push(("node", Json::Number(row.object))),
        Kind::Client | Kind::Server => fields.push(("port", Json::Number(row.object))),
    }
    fields.extend([
        ("rights", Json::Number(row.rights)),
        ("place", Json::text(row.place.to_string())),
        ("sources", Json::numbers(row.sources())),
        ("depth", Json::Number(row.depth)),
    ]);
    if row.bears != 0 {
        fields.push(("bears", Json::Number(row.bears)));
    }
    fields.push(("on_loan_in", Json::numbers(loans(state, row))));
    fields.push((
        "lent",
        Json::truth(state.lent.request(row.number).is_some()),
    ));
    Json::Object(fields)
}

pub fn json_request(q: &Request) -> Json {
    Json::Object(vec![
        ("request", Json::Number(q.number)),
        ("port", Json::Number(q.port)),
        ("asker", Json::Number(q.asker)),
        ("fetched", Json::truth(q.fetched == 1)),
        ("items", Json::numbers(q.listed())),
    ])
}
