//! The refusals 7 to 18 of the calls about requests, in the order of chapter 4 of the manual.

use crate::ground::{of_state, Ground};
use crate::grounds_one::{
    busy, depth, kind, no_row, not_with, numbers_left, requests, right, rows, TRANSFER,
};
use crate::relations::{listing, request_on};
use crate::wording::{asked, at, rights};
use tablet::{Kind, Place, Request, Row, State};

/// (rules ask-7a, ask-7b, ask-8, ask-9a, ask-9b, ask-10a, ask-10b, ask-10c, ask-15, ask-16, ask-17, ask-18)
pub fn ask(state: &State, p: u32, c: u32, items: &[(u32, u32)]) -> Option<Ground> {
    let missing = items
        .iter()
        .find_map(|(e, _)| not_with(state, p, *e, "ask-7b"));
    if let Some(ground) = not_with(state, p, c, "ask-7a").or(missing) {
        return Some(ground);
    }
    let client = state.row(c)?;
    let found = items.iter().filter_map(|(e, r)| Some((state.row(*e)?, *r)));
    let items: Vec<(&Row, u32)> = found.collect();
    let copied: Vec<&Row> = items
        .iter()
        .map(|(r, _)| *r)
        .filter(|r| !r.is_end())
        .collect();
    kind(client, &[Kind::Client], "ask-8", "client end")
        .or_else(|| {
            copied
                .iter()
                .find_map(|r| right(state, r, TRANSFER, "transfer", "ask-9a"))
        })
        .or_else(|| items.iter().find_map(|(r, lent)| more_rights(r, *lent)))
        .or_else(|| ask_busy(state, c, &items))
        .or_else(|| copied.iter().find_map(|r| copy_depth(r, client)))
        .or_else(|| rows(state, copied.len(), "ask-16"))
        .or_else(|| requests(state, "ask-17"))
        .or_else(|| numbers_left(state, 1 + copied.len(), "ask-18"))
}

/// (rule ask-9b) More rights are lent than the row has.
fn more_rights(row: &Row, lent: u32) -> Option<Ground> {
    if lent & !row.rights == 0 {
        return None;
    }
    let text = match row.is_end() {
        true => format!(
            "row {} is a {}: it is lent with rights 0, not {lent}",
            row.number, row.kind
        ),
        false => format!(
            "{} are not within those of row {}, {}",
            rights(lent),
            row.number,
            rights(row.rights)
        ),
    };
    of_state(9, "ask-9b", row.number, text)
}

/// (rules ask-10a, ask-10b, ask-10c)
fn ask_busy(state: &State, c: u32, items: &[(&Row, u32)]) -> Option<Ground> {
    let open = request_on(state, c);
    open.and_then(|q| {
        of_state(
            10,
            "ask-10a",
            q.number,
            format!("request {} is open on port {c}, {}", q.number, asked(q)),
        )
    })
    .or_else(|| {
        let (own, _) = items.iter().find(|(r, _)| r.port() == Some(c))?;
        let text = format!("row {} is an end of port {c} itself", own.number);
        of_state(10, "ask-10b", own.number, text)
    })
    .or_else(|| {
        items
            .iter()
            .find_map(|(r, _)| end_busy(state, r, "ask-10c"))
    })
}

/// 10: an end of a port with an open request.
fn end_busy(state: &State, end: &Row, rule: &'static str) -> Option<Ground> {
    let port = end.port()?;
    let request = busy(state, port)?;
    let text = format!(
        "row {} is an end of port {port}, where request {request} is open",
        end.number
    );
    of_state(10, rule, end.number, text)
}

/// (rule ask-15) The subject is the item, whichever of the two is too deep.
fn copy_depth(row: &Row, client: &Row) -> Option<Ground> {
    let ground = depth(&[Some(row), Some(client)], "ask-15")?;
    Some(Ground {
        subject: row.number,
        ..ground
    })
}

/// 7 and 8 of a server end, and the request open on its port.
fn at_server<'a>(
    state: &'a State,
    p: u32,
    v: u32,
    rules: [&'static str; 2],
) -> Result<Option<&'a Request>, Ground> {
    let ground = not_with(state, p, v, rules[0]);
    let ground = ground.or_else(|| kind(state.row(v)?, &[Kind::Server], rules[1], "server end"));
    match ground {
        Some(ground) => Err(ground),
        None => Ok(state.row(v).and_then(|r| request_on(state, r.object))),
    }
}

fn none_open(v: u32, rule: &'static str) -> Option<Ground> {
    of_state(
        11,
        rule,
        v,
        format!("no request is open on the port of server end {v}"),
    )
}

/// (rules fetch-7, fetch-8, fetch-11a, fetch-11b)
pub fn fetch(state: &State, p: u32, v: u32) -> Option<Ground> {
    match at_server(state, p, v, ["fetch-7", "fetch-8"]) {
        Err(ground) => Some(ground),
        Ok(None) => none_open(v, "fetch-11a"),
        Ok(Some(q)) if q.fetched != 0 => of_state(
            11,
            "fetch-11b",
            q.number,
            format!("request {} is fetched already", q.number),
        ),
        Ok(Some(_)) => None,
    }
}

/// (rules answer-7, answer-8, answer-11a) With 1 the request is served, with 0 it is declined.
pub fn answer(state: &State, p: u32, v: u32, served: bool) -> Option<Ground> {
    match at_server(state, p, v, ["answer-7", "answer-8"]) {
        Err(ground) => Some(ground),
        Ok(None) => none_open(v, "answer-11a"),
        Ok(Some(request)) if served => not_served(state, p, request),
        Ok(Some(_)) => None,
    }
}

/// (rules answer-10, answer-11b, answer-14a, answer-14b) What stands in the way of an answer with 1 alone.
fn not_served(state: &State, p: u32, request: &Request) -> Option<Ground> {
    let listed = request.listed().filter_map(|i| state.row(i));
    let ends: Vec<&Row> = listed.filter(|r| r.is_end()).collect();
    let elsewhere = |r: &&&Row| r.place != Place::CList(p);
    ends.iter()
        .find_map(|r| end_busy(state, r, "answer-10"))
        .or_else(|| {
            let text = format!("request {} is not fetched yet", request.number);
            (request.fetched == 0).then(|| of_state(11, "answer-11b", request.number, text))?
        })
        .or_else(|| {
            let end = ends.iter().find(elsewhere)?;
            let text = format!(
                "{} {}, lent by request {}, is {}, not with process {p}",
                end.kind,
                end.number,
                request.number,
                at(end.place)
            );
            of_state(14, "answer-14a", end.number, text)
        })
        .or_else(|| {
            let newer = |end: &&Row| listing(state, end.number).find(|q| q.number > request.number);
            let (end, newer) = ends.iter().find_map(|end| Some((end, newer(end)?)))?;
            let text = format!(
                "{} {} is in the list of the newer request {}",
                end.kind, end.number, newer.number
            );
            of_state(14, "answer-14b", end.number, text)
        })
}

/// (rule F11) What a number names instead of an open request.
fn no_request(state: &State, number: u32) -> String {
    match state.row(number) {
        Some(_) => format!("{number} is a row, not a request"),
        None if number >= state.next => {
            format!("no request {number} is open: the number is not given yet")
        }
        None => format!("no request {number} is open: it has been closed"),
    }
}

/// (rules revoke-7a, revoke-7b)
pub fn revoke(state: &State, p: u32, q: u32) -> Option<Ground> {
    match state.request(q) {
        None => of_state(7, "revoke-7a", q, no_request(state, q)),
        Some(request) if request.asker != p => {
            let text = format!(
                "request {q} was asked by process {}, not by {p}",
                request.asker
            );
            of_state(7, "revoke-7b", q, text)
        }
        Some(_) => None,
    }
}

/// (rules comes-7a, comes-7b)
pub fn comes(state: &State, e: u32, q: u32) -> Option<Ground> {
    if state.row(e).is_none() {
        return of_state(7, "comes-7a", e, no_row(state, e));
    }
    if state.request(q).is_none() {
        return of_state(7, "comes-7b", q, no_request(state, q));
    }
    None
}
