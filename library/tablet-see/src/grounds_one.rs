//! The refusals 7 to 18 of the calls about rows and ports, in the order of chapter 4 of the manual.

use crate::ground::{of_state, Ground};
use crate::relations::{first_chain, listing, request_on, Reasons};
use crate::wording::{at, lent, numbers, rights, short};
use tablet::layout::{LAST_NUMBER, REQUESTS, ROWS};
use tablet::{Kind, Place, Row, State};

pub const HOLD: u32 = 1;
pub const TRANSFER: u32 = 2;
pub const REGISTER: u32 = 4;
const DEEPEST: u32 = 12;

/// (rule F11) 7: what a number in range names instead of a row that stands.
pub fn no_row(state: &State, number: u32) -> String {
    if state.request(number).is_some() {
        return format!("{number} is a request, not a row");
    }
    if number >= state.next {
        return format!("no row {number} stands: the number is not given yet");
    }
    format!("no row {number} stands: it has gone")
}

/// 7: the row is not in the caller's c-list.
pub fn not_with(state: &State, p: u32, row: u32, rule: &'static str) -> Option<Ground> {
    let found = state.row(row);
    if found.is_some_and(|r| r.place == Place::CList(p)) {
        return None;
    }
    let text = match found {
        None => no_row(state, row),
        Some(r) => match r.place {
            Place::CList(other) => {
                format!("row {row} is in the c-list of process {other}, not of {p}")
            }
            Place::Node(n) => format!(
                "row {row} is in node {n}, not in the c-list of process {p}; it must be held first"
            ),
            Place::System => with_system(state, r, p),
        },
    };
    of_state(7, rule, row, text)
}

fn with_system(state: &State, row: &Row, p: u32) -> String {
    let lent = listing(state, row.number).last();
    let lent = lent.map_or(String::new(), |q| {
        format!(": request {}, not fetched, lists it", q.number)
    });
    format!(
        "row {} is with the system, not in the c-list of process {p}{lent}",
        row.number
    )
}

/// 8: the row is of another kind than the call wants.
pub fn kind(row: &Row, wanted: &[Kind], rule: &'static str, wants: &str) -> Option<Ground> {
    if wanted.contains(&row.kind) {
        return None;
    }
    of_state(8, rule, row.number, format!("{} is no {wants}", short(row)))
}

/// 9: the row lacks a right.
pub fn right(
    state: &State,
    row: &Row,
    wanted: u32,
    name: &str,
    rule: &'static str,
) -> Option<Ground> {
    if row.rights & wanted != 0 {
        return None;
    }
    let text = format!(
        "row {} has {}, without {name}{}",
        row.number,
        rights(row.rights),
        lost(state, row, wanted)
    );
    of_state(9, rule, row.number, text)
}

/// (rules P14, P31) Where its first chain lost a right: in the text, or where a row was lent.
fn lost(state: &State, row: &Row, wanted: u32) -> String {
    let chain = first_chain(state, row.number);
    let Some(first) = chain.into_iter().find(|r| r.rights & wanted == 0) else {
        return String::new();
    };
    let which = match first.number == row.number {
        true => "it".to_string(),
        false => format!("row {}", first.number),
    };
    match (first.bears, first.sources[0]) {
        (0, 0) => format!(": so {which} stands in the text"),
        // of tables that no session made
        (0, _) => String::new(),
        _ => format!(": so {which} was {}", lent(state, first)),
    }
}

/// 15: a row with these sources would have depth 13.
pub fn depth(sources: &[Option<&Row>], rule: &'static str) -> Option<Ground> {
    let deepest = sources.iter().flatten().find(|r| r.depth >= DEEPEST)?;
    let text = format!(
        "what comes from row {} would have depth {}",
        deepest.number,
        deepest.depth + 1
    );
    of_state(15, rule, deepest.number, text)
}

/// 16: too few rows are free.
pub fn rows(state: &State, wanted: usize, rule: &'static str) -> Option<Ground> {
    if state.rows.len() + wanted <= ROWS {
        return None;
    }
    let text = format!(
        "{} of {ROWS} rows stand, and {wanted} more are wanted",
        state.rows.len()
    );
    of_state(16, rule, 0, text)
}

/// 17: no request is free.
pub fn requests(state: &State, rule: &'static str) -> Option<Ground> {
    if state.requests.len() < REQUESTS {
        return None;
    }
    of_state(
        17,
        rule,
        0,
        format!("{} requests are open", state.requests.len()),
    )
}

/// 18: too few numbers are left.
pub fn numbers_left(state: &State, wanted: usize, rule: &'static str) -> Option<Ground> {
    let left = (LAST_NUMBER + 1).saturating_sub(state.next);
    if wanted <= left as usize {
        return None;
    }
    of_state(
        18,
        rule,
        0,
        format!("{left} numbers are left, and {wanted} are wanted"),
    )
}

/// Why a row is lent, in words.
fn lent_words(state: &State, row: &Row) -> Option<String> {
    let reasons = Reasons::lent(state);
    let (chain, request) = (reasons.chain(row.number), reasons.request(row.number)?);
    let (last, between) = (state.row(*chain.last()?)?, chain.get(1..)?);
    let how = match last.is_end() {
        true => format!("is on loan in request {request}"),
        false => format!(
            "is a copy of row {}, {}",
            last.sources[0],
            lent(state, last)
        ),
    };
    match between {
        [] => Some(format!("row {} {how}", row.number)),
        _ => Some(format!(
            "row {} comes from row {}, and row {} {how}",
            row.number,
            numbers(between),
            last.number
        )),
    }
}

/// (rules go-7, go-8)
pub fn go(state: &State, p: u32, e: u32) -> Option<Ground> {
    if e == 0 {
        return None;
    }
    not_with(state, p, e, "go-7")
        .or_else(|| kind(state.row(e)?, &[Kind::Subdirectory], "go-8", "subdirectory"))
}

/// (rules hold-7, hold-9, hold-12, hold-15, hold-16, hold-18)
pub fn hold(state: &State, p: u32, s: u32) -> Option<Ground> {
    let record = state.process(p)?;
    let Some(row) = state
        .row(s)
        .filter(|r| r.place == Place::Node(record.active))
    else {
        let text = match state.row(s) {
            None => no_row(state, s),
            Some(r) => format!(
                "row {s} is {}; process {p} is in node {}",
                at(r.place),
                record.active
            ),
        };
        return of_state(7, "hold-7", s, text);
    };
    let through = state.row(record.through);
    right(state, row, HOLD, "hold", "hold-9")
        .or_else(|| {
            let through = through.filter(|_| row.kind == Kind::Subdirectory)?;
            let lent = lent_words(state, through)?;
            let text = format!(
                "row {s} is a subdirectory, and process {p} is in node {} through row {}, which is lent: {lent}",
                record.active, through.number
            );
            of_state(12, "hold-12", through.number, text)
        })
        .or_else(|| depth(&[Some(row), through], "hold-15"))
        .or_else(|| rows(state, 1, "hold-16"))
        .or_else(|| numbers_left(state, 1, "hold-18"))
}

/// (rules register-7, register-8, register-9, register-12, register-15, register-16, register-18)
pub fn register(state: &State, p: u32, e: u32) -> Option<Ground> {
    if let Some(ground) = not_with(state, p, e, "register-7") {
        return Some(ground);
    }
    let row = state.row(e)?;
    not_an_end(row, "register-8")
        .or_else(|| right(state, row, REGISTER, "register", "register-9"))
        .or_else(|| {
            let lent = lent_words(state, row)?;
            of_state(12, "register-12", e, format!("row {e} is lent: {lent}"))
        })
        .or_else(|| depth(&[state.row(row.sources[0])], "register-15"))
        .or_else(|| rows(state, 1, "register-16"))
        .or_else(|| numbers_left(state, 1, "register-18"))
}

fn not_an_end(row: &Row, rule: &'static str) -> Option<Ground> {
    kind(
        row,
        &[Kind::Operation, Kind::Subdirectory],
        rule,
        "operation and no subdirectory",
    )
}

/// (rules drop-7, drop-8, drop-13a, drop-13b)
pub fn drop_row(state: &State, p: u32, e: u32) -> Option<Ground> {
    if let Some(ground) = not_with(state, p, e, "drop-7") {
        return Some(ground);
    }
    let made = state.rows.iter().find(|r| r.sources().any(|s| s == e));
    not_an_end(state.row(e)?, "drop-8")
        .or_else(|| {
            let made = made?;
            let text = format!("row {e} is a source of {}, {}", short(made), at(made.place));
            of_state(13, "drop-13a", made.number, text)
        })
        .or_else(|| {
            let record = state.process(p).filter(|record| record.through == e)?;
            let text = format!("process {p} is in node {} through row {e}", record.active);
            of_state(13, "drop-13b", e, text)
        })
}

/// (rules port-7, port-8, port-15, port-16, port-18)
pub fn port(state: &State, p: u32, e: u32) -> Option<Ground> {
    not_with(state, p, e, "port-7")
        .or_else(|| kind(state.row(e)?, &[Kind::Operation], "port-8", "operation"))
        .or_else(|| depth(&[state.row(e)], "port-15"))
        .or_else(|| rows(state, 2, "port-16"))
        .or_else(|| numbers_left(state, 2, "port-18"))
}

/// (rules close-7, close-8, close-12)
pub fn close(state: &State, p: u32, c: u32) -> Option<Ground> {
    not_with(state, p, c, "close-7")
        .or_else(|| kind(state.row(c)?, &[Kind::Client], "close-8", "client end"))
        .or_else(|| {
            let requests: Vec<u32> = listing(state, c).map(|q| q.number).collect();
            let oldest = *requests.first()?;
            let text = format!(
                "client end {c} is on loan: it is in the list of request {}",
                numbers(&requests)
            );
            of_state(12, "close-12", oldest, text)
        })
}

/// (rule chain-7)
pub fn chain(state: &State, e: u32) -> Option<Ground> {
    match state.row(e) {
        None => of_state(7, "chain-7", e, no_row(state, e)),
        Some(_) => None,
    }
}

/// The request that makes a port busy.
pub fn busy(state: &State, port: u32) -> Option<u32> {
    request_on(state, port).map(|q| q.number)
}
