//! Values as text of the prover's language: bytes, lists, words, states.

use crate::limits::PROCESSES;
use crate::tables::{Kind, Place, Process, Request, Row, Tables};

/// Bytes: a string where all are printable ASCII or line feeds, else a list.
pub fn bytes(text: &[u8]) -> String {
    let plain = |b: &u8| *b == b'\n' || (b' '..=b'~').contains(b);
    if !text.iter().all(plain) {
        return list(text.iter().copied());
    }
    let mut quoted = String::from("(bytes \"");
    for byte in text {
        match byte {
            b'\n' => quoted += "\\n",
            b'\\' => quoted += "\\\\",
            b'"' => quoted += "\\\"",
            _ => quoted.push(char::from(*byte)),
        }
    }
    quoted + "\")"
}

pub fn list<N: Into<u64>>(numbers: impl IntoIterator<Item = N>) -> String {
    let items = numbers.into_iter().map(|n| format!("{} ∷ ", n.into()));
    format!("({}[])", items.collect::<String>())
}

/// A long list in which equal numbers often follow each other: each run of
/// them is one `replicate`.
pub fn runs(words: &[u32]) -> String {
    let mut text = String::from("[]");
    for run in words.chunk_by(|a, b| a == b).rev() {
        text = match run {
            [word] => format!("{word} ∷ {text}"),
            _ => format!("(replicate {} {} ++ ({text}))", run.len(), run[0]),
        };
    }
    format!("({text})")
}

/// A kind's code in the definitions.
fn kind_code(kind: Kind) -> u32 {
    match kind {
        Kind::Operation => 1,
        Kind::Subdirectory => 2,
        Kind::Client => 3,
        Kind::Server => 4,
    }
}

/// A place's code: the node, 100 + process, 200. A node or process so far out
/// of range that this is another place's code gets one that is no place.
fn place_code(place: Place) -> u64 {
    match place {
        Place::Node(n) if n < 100 => u64::from(n),
        Place::CList(p) if p < 100 => 100 + u64::from(p),
        Place::System => 200,
        Place::Node(n) | Place::CList(n) => 201 + u64::from(n),
    }
}

fn row_fields(row: &Row) -> [u64; 10] {
    let fields = [
        row.number,
        kind_code(row.kind),
        row.object,
        row.operation,
        row.rights,
        0,
        row.source,
        row.via,
        row.depth,
        row.request,
    ];
    let mut fields = fields.map(u64::from);
    fields[5] = place_code(row.place);
    fields
}

/// There are four items, 0 for none; so a listed 0 has no code.
fn request_fields(request: &Request) -> Option<[u64; 8]> {
    if request.lists(0) {
        return None;
    }
    let [a, b, c, d] = request.items.map(|item| item.unwrap_or(0));
    let Request {
        number,
        port,
        asker,
        fetched,
        ..
    } = *request;
    Some([number, port, asker, fetched, a, b, c, d].map(u64::from))
}

fn record_fields(record: &Process) -> [u64; 3] {
    [record.prime, record.active, record.through].map(u64::from)
}

/// A function of the module `Help` with its arguments.
fn made(function: &str, fields: &[u64]) -> String {
    let arguments = fields.iter().map(|n| format!(" {n}"));
    format!("{function}{}", arguments.collect::<String>())
}

/// The state that tables are in the definitions, rows and requests newest
/// first; none where an item has no code there.
pub fn state(tables: &Tables) -> Option<String> {
    let (mut rows, mut requests) = (String::new(), String::new());
    for row in tables.rows.iter().rev() {
        rows += &(made("row", &row_fields(row)) + " ∷ ");
    }
    for request in tables.requests.iter().rev() {
        requests += &(made("request", &request_fields(request)?) + " ∷ ");
    }
    let mut records = tables.processes.iter();
    let used = records.rposition(|p| *p != Process::default());
    let used = used.map_or(0, |at| at + 1);
    let records = tables.processes[..used].iter();
    let records = records.map(|p| made("process", &record_fields(p)) + " ∷ ");
    Some(format!(
        "(state ({rows}[]) ({requests}[]) ({}replicate {} no_process) {})",
        records.collect::<String>(),
        PROCESSES as usize - used,
        tables.next
    ))
}

/// The numbers of a state, as `Help` lays them out: next, the rows, the
/// requests, the processes, each with their count before them.
pub fn state_numbers(tables: &Tables) -> Option<Vec<Vec<u64>>> {
    let mut rows = vec![tables.rows.len() as u64];
    for row in tables.rows.iter().rev() {
        rows.extend(row_fields(row));
    }
    let mut requests = vec![tables.requests.len() as u64];
    for request in tables.requests.iter().rev() {
        requests.extend(request_fields(request)?);
    }
    let records = tables.processes.iter().flat_map(record_fields);
    let mut processes = vec![u64::from(PROCESSES)];
    processes.extend(records);
    Some(vec![
        vec![u64::from(tables.next)],
        rows,
        requests,
        processes,
    ])
}
