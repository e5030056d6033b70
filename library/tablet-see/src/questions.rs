//! The answers to comes, chain and comesall told in sentences. These calls only ask: they change nothing.

use crate::call::{read_call, Call, Pair};
use crate::grounds_ask;
use crate::relations::Reasons;
use crate::session::{Gone, Step};
use crate::wording::{at, origin, request, short, thing};
use tablet::{Request, Row, State};

/// What an accepted call was told; none if it is a call that does something.
pub fn answered(step: &Step, values: &[Option<u32>], gone: &Gone) -> Option<Vec<String>> {
    let state = &step.before;
    match read_call(&step.line).ok()? {
        Call::Comes { row, request } => {
            let value = values.first().copied().flatten();
            Some(vec![comes(state, &Pair { row, request }, value, gone)])
        }
        Call::Chain { .. } => Some(chain(state, values)),
        Call::ComesAll { pairs } => Some(comesall(state, &pairs, values, gone)),
        _ => None,
    }
}

/// How each row of a chain came to be.
fn chain(state: &State, values: &[Option<u32>]) -> Vec<String> {
    let rows = values.iter().flatten().filter_map(|n| state.row(*n));
    let told = rows.map(|row| {
        let (at, thing, origin) = (at(row.place), thing(row), origin(state, row));
        format!("row {}, {at}: {thing}, {origin}", row.number)
    });
    told.collect()
}

/// Each pair, by its place and its numbers.
fn comesall(state: &State, pairs: &[Pair], values: &[Option<u32>], gone: &Gone) -> Vec<String> {
    let valued = pairs.iter().zip(values).zip(1..);
    let told = valued.map(|((pair, value), at)| {
        let (row, request) = (pair.row.value, pair.request.value);
        let told = comes(state, pair, *value, gone);
        format!("pair {at}, ({row} {request}): {told}")
    });
    told.collect()
}

/// Whether a row comes from a request, and why; or why that is not told.
fn comes(state: &State, pair: &Pair, value: Option<u32>, gone: &Gone) -> String {
    let (e, q) = (pair.row.value, pair.request.value);
    match (value, state.row(e).zip(state.request(q))) {
        (Some(1), Some((row, q))) => yes(state, row, q),
        (Some(_), Some((row, q))) => no(state, row, q),
        _ => {
            let ground = grounds_ask::comes(state, e, q);
            let why = ground.map_or(String::new(), |ground| format!(", {}", ground.told(gone)));
            format!("not told{why}")
        }
    }
}

/// By which rows it comes from the request.
fn yes(state: &State, row: &Row, q: &Request) -> String {
    let told = format!("{} comes from {}", short(row), request(q));
    let chain = Reasons::comes(state, q.number).chain(row.number);
    match chain.as_slice() {
        [] => told,
        [_] => format!("{told}: it bears its number"),
        [_, .., last] => {
            let sources: Vec<String> = chain.iter().skip(1).map(|n| format!("row {n}")).collect();
            let sources = sources.join(", that from ");
            format!("{told}: it was made from {sources}, and {last} bears its number")
        }
    }
}

/// (rules L9, L11) What the request lends of it, if it does: that is not coming from it.
fn no(state: &State, row: &Row, q: &Request) -> String {
    let told = format!("{} does not come from {}", short(row), request(q));
    if q.listed().any(|item| item == row.number) {
        return format!("{told}: it is on loan there, and {}", origin(state, row));
    }
    let mut copies = state.rows.iter().filter(|r| r.bears == q.number);
    match copies.find(|copy| copy.sources[0] == row.number) {
        Some(copy) => format!("{told}: its copy, row {}, does", copy.number),
        None => told,
    }
}
