//! Altered tables aimed at one clause of soundness each.

use super::prng::Rng;
use crate::limits::*;
use crate::relations::newest_listing;
use crate::tables::{Kind, Place, Process, Request, Row, Tables};

/// An alteration; none if the tables have nothing to alter in this way.
type Aim = fn(&mut Rng, &mut Tables) -> Option<()>;

/// The clause's name in `sound` and an alteration that breaks it.
pub const AIMS: [(&str, Aim); 26] = [
    ("numbers rise", numbers_rise),
    ("numbers are never shared", numbers_not_shared),
    ("numbers are below the next", numbers_below_next),
    ("the next number is 1 to 4,294,967,295", next_in_range),
    ("at most 1,024 rows and 128 requests", counts),
    ("only opening and registered rows in nodes", nodes),
    ("row fields in range", row_fields),
    ("request fields in range", request_fields),
    ("places and managers are listed", listed),
    ("sources stand and are older", sources_older),
    ("sources are of the kind above", sources_of_kind),
    ("depths are right", depths),
    ("a copy has its row's kind and object", copies_alike),
    ("a copy's rights are within its row's", copies_within),
    ("unused records are 0", unused_records),
    ("ends stand in pairs", pairs),
    ("a request is newer than its standing port", ports_stand),
    ("a request is newer than its ends", newer_than_ends),
    ("a requester is listed", requesters_listed),
    ("no item twice", items_once),
    ("items are ends and copies", items_of_kind),
    ("a port has one request at most", one_a_port),
    (
        "a copy is newer than its request and listed there",
        copies_listed,
    ),
    ("all but the newest are fetched", older_fetched),
    ("the system holds exactly the unfetched", system_holds),
    ("a process is in its prime node or a subdirectory", stands),
];

/// The tables altered so that the clause of that name breaks.
pub fn aimed(rng: &mut Rng, tables: &Tables, clause: &str) -> Option<Tables> {
    let (_, aim) = AIMS.into_iter().find(|(name, _)| *name == clause)?;
    let mut altered = tables.clone();
    aim(rng, &mut altered)?;
    Some(altered)
}

/// A row that passes the test, to be altered.
fn row<'a>(rng: &mut Rng, t: &'a mut Tables, test: impl Fn(&Row) -> bool) -> Option<&'a mut Row> {
    let passing = (0..t.rows.len()).filter(|at| test(&t.rows[*at]));
    let at = rng.pick(&passing.collect::<Vec<_>>())?;
    t.rows.get_mut(at)
}

fn request<'a>(
    rng: &mut Rng,
    t: &'a mut Tables,
    test: impl Fn(&Request) -> bool,
) -> Option<&'a mut Request> {
    let passing = (0..t.requests.len()).filter(|at| test(&t.requests[*at]));
    let at = rng.pick(&passing.collect::<Vec<_>>())?;
    t.requests.get_mut(at)
}

/// The number of a row that passes the test.
fn number(rng: &mut Rng, t: &Tables, test: impl Fn(&Row) -> bool) -> Option<u32> {
    let rows = t.rows.iter().filter(|r| test(r)).map(|r| r.number);
    rng.pick(&rows.collect::<Vec<_>>())
}

fn unlisted(rng: &mut Rng, t: &Tables) -> Option<u32> {
    let free: Vec<u32> = (1..=PROCESSES).filter(|p| !t.listed(*p)).collect();
    rng.pick(&free)
}

fn numbers_rise(rng: &mut Rng, t: &mut Tables) -> Option<()> {
    if t.requests.len() > 1 && rng.percent(40) {
        let at = rng.below(t.requests.len() - 1);
        t.requests.swap(at, at + 1);
        return Some(());
    }
    if t.rows.len() < 2 {
        return None;
    }
    let at = rng.below(t.rows.len() - 1);
    let older = t.rows.get(at)?.number;
    match rng.below(2) {
        0 => t.rows.swap(at, at + 1),
        _ => t.rows.get_mut(at + 1)?.number = older,
    }
    Some(())
}

fn numbers_not_shared(rng: &mut Rng, t: &mut Tables) -> Option<()> {
    let newest = t.rows.last()?.number;
    match rng.below(2) {
        0 => t.requests.last_mut()?.number = newest,
        _ => {
            let shared = number(rng, t, |_| true)?;
            request(rng, t, |_| true)?.number = shared;
        }
    }
    Some(())
}

fn numbers_below_next(rng: &mut Rng, t: &mut Tables) -> Option<()> {
    let rows = t.rows.last().map(|r| r.number);
    let requests = t.requests.last().map(|q| q.number);
    let greatest = rows.max(requests)?;
    t.next = rng.between(1, greatest);
    Some(())
}

/// A word can say 0 alone. It is not above any row, so now and then there are no rows.
fn next_in_range(rng: &mut Rng, t: &mut Tables) -> Option<()> {
    if rng.percent(30) {
        t.rows.clear();
        t.requests.clear();
        t.processes = t.processes.map(|p| Process::in_prime_node(p.prime));
    }
    t.next = 0;
    Some(())
}

fn counts(rng: &mut Rng, t: &mut Tables) -> Option<()> {
    if rng.percent(30) {
        let last = *t.requests.last()?;
        t.requests.resize(REQUESTS + 1, last);
        return Some(());
    }
    let mut row = *t.rows.iter().find(|r| r.source == 0)?;
    if LAST_NUMBER + 1 - t.next <= ROWS as u32 {
        return None;
    }
    while t.rows.len() <= ROWS {
        row.number = t.next;
        t.next += 1;
        t.rows.push(row);
    }
    Some(())
}

fn nodes(rng: &mut Rng, t: &mut Tables) -> Option<()> {
    let odd = |r: &Row| r.is_end() || r.via != 0 || r.request != 0;
    row(rng, t, odd)?.place = Place::Node(1);
    Some(())
}

fn row_fields(rng: &mut Rng, t: &mut Tables) -> Option<()> {
    let operation = |r: &Row| r.kind == Kind::Operation;
    let subdirectory = |r: &Row| r.kind == Kind::Subdirectory;
    match rng.below(12) {
        0 => row(rng, t, |_| true)?.number = 0,
        1 => row(rng, t, |r| !r.is_end())?.rights = ALL_RIGHTS + 1,
        2 => row(rng, t, |_| true)?.depth = 0,
        3 => row(rng, t, |_| true)?.depth = DEEPEST + 1,
        4 => row(rng, t, Row::in_node)?.place = Place::Node(0),
        5 => row(rng, t, Row::in_node)?.place = Place::Node(NODES + 1),
        6 => row(rng, t, |r| !r.in_node())?.place = Place::CList(0),
        7 => row(rng, t, |r| !r.in_node())?.place = Place::CList(PROCESSES + 1),
        8 => row(rng, t, operation)?.operation = LAST_OPERATION + 1,
        9 => row(rng, t, subdirectory)?.object = rng.pick(&[0, NODES + 1])?,
        10 => row(rng, t, |r| !operation(r))?.operation = 1,
        _ => row(rng, t, Row::is_end)?.rights = 1,
    }
    Some(())
}

fn request_fields(rng: &mut Rng, t: &mut Tables) -> Option<()> {
    if rng.percent(30) {
        let listed: Vec<u32> = (1..=PROCESSES).filter(|p| t.listed(*p)).collect();
        let p = rng.pick(&listed)?;
        let old = *t.process(p)?;
        let prime = NODES + 1;
        t.set_process(p, Process { prime, ..old });
        return Some(());
    }
    request(rng, t, |_| true)?.fetched = 2;
    Some(())
}

fn listed(rng: &mut Rng, t: &mut Tables) -> Option<()> {
    let p = unlisted(rng, t)?;
    match rng.below(3) {
        0 => row(rng, t, |r| matches!(r.place, Place::CList(_)))?.place = Place::CList(p),
        1 => row(rng, t, |r| r.kind == Kind::Operation)?.object = p,
        _ => {
            let holder = t.rows.iter().find_map(|r| match r.place {
                Place::CList(p) => Some(p),
                _ => None,
            });
            t.set_process(holder?, Process::default());
        }
    }
    Some(())
}

/// A source becomes no row, the row itself or a younger one; of these, if there is one, one that
/// breaks no other clause.
fn sources_older(rng: &mut Rng, t: &mut Tables) -> Option<()> {
    let next = t.next;
    let newest = t.rows.last()?.number;
    let altered = *row(rng, t, |r| r.source != 0)?;
    let thing = |r: &Row| (r.kind, r.object, r.operation, r.rights);
    let fits = |r: &Row| r.in_node() && thing(r) == thing(&altered) && r.depth + 1 == altered.depth;
    let younger = number(rng, t, |r| r.number > altered.number && fits(r)).unwrap_or(newest);
    let source = rng.pick(&[next, altered.number, newest, younger, u32::MAX])?;
    let altered = row(rng, t, |r| r.number == altered.number)?;
    match rng.below(3) {
        0 if altered.via != 0 => altered.via = source,
        _ => altered.source = source,
    }
    Some(())
}

fn sources_of_kind(rng: &mut Rng, t: &mut Tables) -> Option<()> {
    let operation = number(rng, t, |r| r.kind == Kind::Operation && !r.in_node())?;
    let subdirectory = number(rng, t, |r| r.kind == Kind::Subdirectory)?;
    let client = number(rng, t, |r| r.kind == Kind::Client).unwrap_or(0);
    let held = |r: &Row| matches!(r.place, Place::CList(_)) && !r.is_end() && r.request == 0;
    let over_another = |r: &Row| r.request != 0 && r.via != client && r.number > client;
    match rng.below(7) {
        0 => row(rng, t, |r| held(r) && r.number > operation)?.source = operation,
        1 => row(rng, t, |r| held(r) && r.number > operation)?.via = operation,
        2 => row(rng, t, |r| r.is_end() && r.number > subdirectory)?.source = subdirectory,
        3 => {
            row(rng, t, |r| {
                r.in_node() && r.source != 0 && r.number > operation
            })?
            .source = operation
        }
        4 => row(rng, t, |r| r.request != 0)?.via = 0,
        5 => row(rng, t, over_another)?.via = client,
        _ => row(rng, t, |r| r.request != 0)?.via += 1,
    }
    Some(())
}

fn depths(rng: &mut Rng, t: &mut Tables) -> Option<()> {
    let altered = row(rng, t, |_| true)?;
    altered.depth = match rng.below(2) {
        0 => altered.depth - 1,
        _ => altered.depth + 1,
    };
    Some(())
}

/// Held, registered and lent rows.
fn is_copy(r: &Row) -> bool {
    !r.is_end() && r.source != 0
}

fn copies_alike(rng: &mut Rng, t: &mut Tables) -> Option<()> {
    let altered = row(rng, t, is_copy)?;
    match (rng.below(3), altered.kind) {
        (0, Kind::Operation) => altered.operation = (altered.operation + 1) % 256,
        (1, _) => altered.object = altered.object % NODES + 1,
        (_, Kind::Operation) => altered.kind = Kind::Subdirectory,
        _ => altered.kind = Kind::Operation,
    }
    Some(())
}

fn copies_within(rng: &mut Rng, t: &mut Tables) -> Option<()> {
    let right = rng.pick(&[HOLD, TRANSFER, REGISTER])?;
    let copy = row(rng, t, is_copy)?;
    copy.rights |= right;
    let source = copy.source;
    row(rng, t, |r| r.number == source)?.rights &= !right;
    Some(())
}

fn unused_records(rng: &mut Rng, t: &mut Tables) -> Option<()> {
    let p = unlisted(rng, t)?;
    let mut record = Process::default();
    match rng.below(2) {
        0 => record.active = 1,
        _ => record.through = rng.between(1, 5),
    }
    t.set_process(p, record);
    Some(())
}

fn pairs(rng: &mut Rng, t: &mut Tables) -> Option<()> {
    let end = number(rng, t, Row::is_end)?;
    let at = t.rows.iter().position(|r| r.number == end)?;
    let operation = number(rng, t, |r| r.kind == Kind::Operation)?;
    let altered = t.rows.get_mut(at)?;
    match rng.below(4) {
        0 => drop(t.rows.remove(at)),
        1 => altered.object += 1,
        2 if operation < end && operation != altered.source => altered.source = operation,
        2 => return None,
        _ if altered.kind == Kind::Client => altered.kind = Kind::Server,
        _ => altered.kind = Kind::Client,
    }
    Some(())
}

fn ports_stand(rng: &mut Rng, t: &mut Tables) -> Option<()> {
    let other = number(rng, t, |r| r.kind != Kind::Client)?;
    let next = t.next;
    let clients = t.rows.iter().filter(|r| r.kind == Kind::Client);
    let newest = clients.map(|r| r.number).max().unwrap_or(next);
    let altered = request(rng, t, |_| true)?;
    altered.port = match rng.below(3) {
        0 => other,
        1 if newest > altered.number => newest,
        _ => next,
    };
    Some(())
}

fn newer_than_ends(rng: &mut Rng, t: &mut Tables) -> Option<()> {
    let ends = t.rows.iter().filter(|r| r.is_end());
    let newest = ends.map(|r| r.number).max()?;
    let altered = request(rng, t, |q| q.number < newest && !q.lists(newest))?;
    altered.items[rng.below(ITEMS)] = Some(newest);
    let place = match altered.fetched {
        0 => Place::System,
        _ => Place::CList(altered.asker),
    };
    t.set_place(newest, place);
    Some(())
}

fn requesters_listed(rng: &mut Rng, t: &mut Tables) -> Option<()> {
    let p = unlisted(rng, t)?;
    let odd = [p, 0, PROCESSES + 1, u32::MAX];
    request(rng, t, |_| true)?.asker = rng.pick(&odd)?;
    Some(())
}

fn items_once(rng: &mut Rng, t: &mut Tables) -> Option<()> {
    let altered = request(rng, t, |q| q.listed().next().is_some())?;
    let item = altered.listed().next()?;
    let at = (0..ITEMS).filter(|at| altered.items[*at] != Some(item));
    let at = rng.pick(&at.collect::<Vec<_>>())?;
    altered.items[at] = Some(item);
    Some(())
}

fn items_of_kind(rng: &mut Rng, t: &mut Tables) -> Option<()> {
    let next = t.next;
    let plain = number(rng, t, |r| !r.is_end() && r.request == 0)?;
    let copy = number(rng, t, |r| r.request != 0).unwrap_or(next);
    let item = rng.pick(&[plain, copy, next])?;
    let altered = request(rng, t, |q| !q.lists(item))?;
    let free = altered.items.iter_mut().find(|i| i.is_none())?;
    *free = Some(item);
    Some(())
}

fn one_a_port(rng: &mut Rng, t: &mut Tables) -> Option<()> {
    let oldest = *t.requests.first()?;
    request(rng, t, |q| q.number != oldest.number)?.port = oldest.port;
    Some(())
}

fn copies_listed(rng: &mut Rng, t: &mut Tables) -> Option<()> {
    let copy = number(rng, t, |r| r.request != 0)?;
    let other = t.next;
    match rng.below(2) {
        0 => request(rng, t, |q| q.lists(copy))?.strike(copy),
        _ => row(rng, t, |r| r.number == copy)?.request = other,
    }
    Some(())
}

fn older_fetched(rng: &mut Rng, t: &mut Tables) -> Option<()> {
    let before = t.clone();
    let lent_on = |q: &Request| {
        let newest = q.listed().filter_map(|i| newest_listing(&before, i));
        newest.into_iter().any(|newer| newer.number > q.number)
    };
    request(rng, t, lent_on)?.fetched = 0;
    Some(())
}

fn system_holds(rng: &mut Rng, t: &mut Tables) -> Option<()> {
    let p = (1..=PROCESSES).find(|p| t.listed(*p))?;
    match rng.below(3) {
        0 => row(rng, t, |r| r.place == Place::System)?.place = Place::CList(p),
        1 => row(rng, t, |r| matches!(r.place, Place::CList(_)))?.place = Place::System,
        _ => {
            let before = t.clone();
            let newest = |q: &Request| {
                let mut listing = q.listed().filter_map(|i| newest_listing(&before, i));
                listing.any(|other| other.number == q.number)
            };
            let altered = request(rng, t, newest)?;
            altered.fetched = 1 - altered.fetched;
        }
    }
    Some(())
}

fn stands(rng: &mut Rng, t: &mut Tables) -> Option<()> {
    let listed: Vec<u32> = (1..=PROCESSES).filter(|p| t.listed(*p)).collect();
    let p = rng.pick(&listed)?;
    let mut record = *t.process(p)?;
    let other = number(rng, t, |r| {
        r.kind != Kind::Subdirectory || !r.in_c_list_of(p)
    })?;
    match rng.below(3) {
        0 => record.active = record.active % NODES + 1,
        1 => record.through = other,
        _ => record.through = t.next,
    }
    t.set_process(p, record);
    Some(())
}
