//! Rows, rights and places in words.

use tablet::{Kind, Place, Request, Row, State};

/// `operation 5 of manager 2, rights 3 (hold, transfer)`
pub fn thing(row: &Row) -> String {
    match row.kind {
        Kind::Operation => {
            format!(
                "operation {} of manager {}, {}",
                row.operation,
                row.object,
                rights(row.rights)
            )
        }
        Kind::Subdirectory => format!("subdirectory node {}, {}", row.object, rights(row.rights)),
        Kind::Client | Kind::Server => format!("{} of port {}", row.kind, row.object),
    }
}

/// `row 8 (operation 5 of manager 2)`
pub fn short(row: &Row) -> String {
    match row.kind {
        Kind::Operation => format!(
            "row {} (operation {} of manager {})",
            row.number, row.operation, row.object
        ),
        Kind::Subdirectory => format!("row {} (subdirectory node {})", row.number, row.object),
        Kind::Client | Kind::Server => {
            format!("row {} ({} of port {})", row.number, row.kind, row.object)
        }
    }
}

/// `rights 3 (hold, transfer)`
pub fn rights(rights: u32) -> String {
    match right_names(rights).as_slice() {
        [] => format!("rights {rights} (none)"),
        names => format!("rights {rights} ({})", names.join(", ")),
    }
}

/// (rule R3) The names of the rights.
pub fn right_names(rights: u32) -> Vec<&'static str> {
    let names = [(1, "hold"), (2, "transfer"), (4, "register")];
    let names = names.into_iter().filter(|(right, _)| rights & right != 0);
    names.map(|(_, name)| name).collect()
}

/// `in the c-list of process 1`
pub fn at(place: Place) -> String {
    match place {
        Place::Node(n) => format!("in node {n}"),
        Place::CList(p) => format!("in the c-list of process {p}"),
        Place::System => "with the system".to_string(),
    }
}

/// `to process 1`
pub fn towards(place: Place) -> String {
    match place {
        Place::Node(n) => format!("to node {n}"),
        Place::CList(p) => format!("to process {p}"),
        Place::System => "to the system".to_string(),
    }
}

/// `request 7 of process 1 on port 5`
pub fn request(q: &Request) -> String {
    format!(
        "request {} of process {} on port {}",
        q.number, q.asker, q.port
    )
}

/// `asked by process 1, fetched`
pub fn asked(request: &Request) -> String {
    let fetched = if request.fetched == 0 {
        "not fetched"
    } else {
        "fetched"
    };
    format!("asked by process {}, {fetched}", request.asker)
}

/// Whoever has the server end of a port, by which a request on it is fetched.
pub fn server_of(state: &State, port: u32) -> String {
    match port
        .checked_add(1)
        .and_then(|n| state.row(n))
        .map(|r| r.place)
    {
        Some(Place::CList(p)) => format!("process {p}"),
        _ => "whoever fetches it".to_string(),
    }
}

/// `lent by process 1 to process 2 in request 7`
pub fn lent(state: &State, row: &Row) -> String {
    let Some(q) = state.request(row.bears) else {
        return format!("lent in request {}", row.bears);
    };
    let to = match row.place {
        Place::CList(p) => format!("process {p}"),
        _ => server_of(state, q.port),
    };
    let waits = if q.fetched == 0 {
        ", not fetched yet"
    } else {
        ""
    };
    format!(
        "lent by process {} to {to} in request {}{waits}",
        q.asker, q.number
    )
}

/// (rules R6, R7, R8, R9, R10) How a row came to be: `held from row 4, through row 8`.
pub fn origin(state: &State, row: &Row) -> String {
    match (row.sources, row.place) {
        ([0, _], _) => "of the text".to_string(),
        ([first, _], _) if row.bears != 0 => {
            format!("{}; a copy of row {first}", lent(state, row))
        }
        ([first, _], _) if row.is_end() => format!("made from row {first}"),
        ([first, _], Place::Node(_)) => format!("registered; its source is row {first}"),
        ([first, 0], _) => format!("held from row {first}"),
        ([first, second], _) => format!("held from row {first}, through row {second}"),
    }
}

/// `4, 5 and 8`
pub fn numbers(numbers: &[u32]) -> String {
    let words: Vec<String> = numbers.iter().map(u32::to_string).collect();
    and(&words)
}

/// `a, b and c`
pub fn and(words: &[String]) -> String {
    match words {
        [] => "none".to_string(),
        [one] => one.clone(),
        [front @ .., last] => format!("{} and {last}", front.join(", ")),
    }
}

/// A first letter in capitals, a full stop at the end.
pub fn sentence(text: &str) -> String {
    let mut letters = text.chars();
    let first = letters.next().map(|c| c.to_uppercase().collect::<String>());
    format!("{}{}.", first.unwrap_or_default(), letters.as_str())
}
