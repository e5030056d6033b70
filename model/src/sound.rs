//! Sound tables (docs/MANUAL.md, chapter 6), clause by clause.
//!
//! Each clause is a name and a predicate over tables of any content. The clauses
//! are cut otherwise than the manual's 27: each says which rules it is a part of.

use crate::limits::*;
use crate::relations::newest_listing;
use crate::tables::{Kind, Place, Process, Request, Row, Tables};

pub type Clause = (&'static str, fn(&Tables) -> bool);

/// The clauses in the order of the paragraph.
pub const CLAUSES: [Clause; 26] = [
    ("numbers rise", numbers_rise),
    ("numbers are never shared", numbers_not_shared),
    ("numbers are below the next", numbers_below_next),
    ("the next number is 1 to 4,294,967,295", next_in_range),
    ("at most 1,024 rows and 128 requests", counts),
    ("only opening and registered rows in nodes", nodes),
    ("row fields in range", row_fields),
    ("request fields in range", request_fields),
    ("places and managers are listed", listed),
    ("sources stand and are older", sources_older),
    ("sources are of the kind above", sources_of_kind),
    ("depths are right", depths),
    ("a copy has its row's kind and object", copies_alike),
    ("a copy's rights are within its row's", copies_within),
    ("unused records are 0", unused_records),
    ("ends stand in pairs", pairs),
    ("a request is newer than its standing port", ports_stand),
    ("a request is newer than its ends", newer_than_ends),
    ("a requester is listed", requesters_listed),
    ("no item twice", items_once),
    ("items are ends and copies", items_of_kind),
    ("a port has one request at most", one_a_port),
    (
        "a copy is newer than its request and listed there",
        copies_listed,
    ),
    ("all but the newest are fetched", older_fetched),
    ("the system holds exactly the unfetched", system_holds),
    ("a process is in its prime node or a subdirectory", stands),
];

pub fn sound(tables: &Tables) -> bool {
    CLAUSES.iter().all(|(_, holds)| holds(tables))
}

/// The names of the clauses that do not hold, in order.
pub fn broken(tables: &Tables) -> Vec<&'static str> {
    let failing = CLAUSES.iter().filter(|(_, holds)| !holds(tables));
    failing.map(|(name, _)| *name).collect()
}

fn every_row(tables: &Tables, test: impl Fn(&Row) -> bool) -> bool {
    tables.rows.iter().all(test)
}

fn every_request(tables: &Tables, test: impl Fn(&Request) -> bool) -> bool {
    tables.requests.iter().all(test)
}

/// (rules S1, S2) Numbers rise.
fn numbers_rise(t: &Tables) -> bool {
    let rows = t.rows.windows(2).all(|w| w[0].number < w[1].number);
    let requests = t.requests.windows(2).all(|w| w[0].number < w[1].number);
    rows && requests
}

/// (rule S3) No request has the number of a row.
fn numbers_not_shared(t: &Tables) -> bool {
    every_request(t, |q| t.row(q.number).is_none())
}

/// (rule S4) Numbers are below the next number.
fn numbers_below_next(t: &Tables) -> bool {
    every_row(t, |r| r.number < t.next) && every_request(t, |q| q.number < t.next)
}

/// (rule S5) The next number is 1 to 4,294,967,295.
fn next_in_range(t: &Tables) -> bool {
    (1..=LAST_NUMBER + 1).contains(&t.next)
}

/// (rules S6, S7) At most 1,024 rows stand and 128 requests are open.
fn counts(t: &Tables) -> bool {
    t.rows.len() <= ROWS && t.requests.len() <= REQUESTS
}

/// (rule S13) Only opening and registered rows are in nodes: no source or one, no
/// request number.
fn nodes(t: &Tables) -> bool {
    every_row(t, |r| {
        !r.in_node() || (!r.is_end() && r.via == 0 && r.request == 0)
    })
}

/// (rules S9, S10, S11) Fields in range; fields that a kind does not use are 0.
fn row_fields(t: &Tables) -> bool {
    every_row(t, |r| {
        let place = match r.place {
            Place::Node(n) => (1..=NODES).contains(&n),
            Place::CList(p) => (1..=PROCESSES).contains(&p),
            Place::System => true,
        };
        let depth = (1..=DEEPEST).contains(&r.depth);
        r.number >= 1 && object_in_range(r) && place && depth
    })
}

/// (rules S9, S10) An operation row names a manager and an operation; an end has
/// rights 0.
fn object_in_range(r: &Row) -> bool {
    let rights = r.rights <= ALL_RIGHTS;
    match r.kind {
        Kind::Operation => {
            let manager = (1..=PROCESSES).contains(&r.object);
            manager && r.operation <= LAST_OPERATION && rights
        }
        Kind::Subdirectory => (1..=NODES).contains(&r.object) && r.operation == 0 && rights,
        Kind::Client | Kind::Server => r.operation == 0 && r.rights == 0,
    }
}

/// (rules S12, S16) Fields of requests and of listed records in range; the mark is
/// 0 or 1.
fn request_fields(t: &Tables) -> bool {
    let requests = every_request(t, |q| q.number >= 1 && q.fetched <= 1);
    let primes = t.processes.iter().all(|p| p.prime <= NODES);
    requests && primes
}

/// (rules S9, S11) Processes that are places or managers are listed.
fn listed(t: &Tables) -> bool {
    every_row(t, |r| {
        let place = match r.place {
            Place::CList(p) => t.listed(p),
            _ => true,
        };
        place && (r.kind != Kind::Operation || t.listed(r.object))
    })
}

/// (rule S13) Sources stand and are older.
fn sources_older(t: &Tables) -> bool {
    every_row(t, |r| {
        r.sources().all(|s| s < r.number && t.row(s).is_some())
    })
}

/// (rule S13) Every row is one of five.
fn sources_of_kind(t: &Tables) -> bool {
    every_row(t, |r| {
        opening(r) || registered(t, r) || held(t, r) || end(t, r) || lent_copy(t, r)
    })
}

/// (rule R6) A row of the text has no source.
fn opening(r: &Row) -> bool {
    r.in_node() && r.source == 0 && r.via == 0
}

/// (rule R8) A registered row has one source, a row of a node.
fn registered(t: &Tables, r: &Row) -> bool {
    let directory = t.row(r.source).is_some_and(Row::in_node);
    r.in_node() && directory && r.via == 0
}

/// (rule R7) A held row comes from a row of a node and perhaps from a subdirectory
/// row.
fn held(t: &Tables, r: &Row) -> bool {
    let place = matches!(r.place, Place::CList(_));
    let directory = t.row(r.source).is_some_and(Row::in_node);
    let through = t.row(r.via);
    let second = r.via == 0 || through.is_some_and(|d| d.kind == Kind::Subdirectory);
    place && !r.is_end() && r.request == 0 && directory && second
}

/// (rule R9) An end comes from an operation row.
fn end(t: &Tables, r: &Row) -> bool {
    let operation = t.row(r.source).is_some_and(|s| s.kind == Kind::Operation);
    r.is_end() && !r.in_node() && r.request == 0 && operation && r.via == 0
}

/// (rule R10) A lent copy comes from the lender's row and the client end of the
/// port that it was lent over, and bears its request's number.
fn lent_copy(t: &Tables, r: &Row) -> bool {
    let lenders_row = t.row(r.source).is_some_and(|s| !s.is_end());
    let client = t.row(r.via).is_some_and(|c| c.kind == Kind::Client);
    let over = t.request(r.request).is_some_and(|q| q.port == r.via);
    !r.in_node() && !r.is_end() && lenders_row && client && over
}

/// (rule S14) Every depth is 1 plus the greatest depth of the sources.
fn depths(t: &Tables) -> bool {
    every_row(t, |r| {
        let of_sources = r.sources().filter_map(|s| t.row(s)).map(|s| s.depth);
        let greatest = of_sources.max().unwrap_or(0);
        r.depth == greatest.saturating_add(1)
    })
}

/// (rule S15) The row that a held, registered or lent row is a copy of.
fn copied<'a>(t: &'a Tables, r: &Row) -> Option<&'a Row> {
    if r.is_end() || r.source == 0 {
        return None;
    }
    t.row(r.source)
}

/// (rule S15) A copy has its row's kind and object.
fn copies_alike(t: &Tables) -> bool {
    every_row(t, |r| {
        copied(t, r)
            .is_none_or(|s| (s.kind, s.object, s.operation) == (r.kind, r.object, r.operation))
    })
}

/// (rule S15) And rights within its row's.
fn copies_within(t: &Tables) -> bool {
    every_row(t, |r| copied(t, r).is_none_or(|s| s.permits(r.rights)))
}

/// (rule S16) The record of a process that is not listed is all 0.
fn unused_records(t: &Tables) -> bool {
    let records = t.processes.iter();
    records
        .filter(|p| p.prime == 0)
        .all(|p| *p == Process::default())
}

/// (rule S17) Ends stand in pairs: client n, server n + 1, the same source.
fn pairs(t: &Tables) -> bool {
    every_row(t, |r| match r.kind {
        Kind::Client => {
            let other = r.number.checked_add(1).and_then(|n| t.row(n));
            r.object == r.number && other.is_some_and(|s| paired(r, s))
        }
        Kind::Server => {
            let other = r.number.checked_sub(1).and_then(|n| t.row(n));
            other.is_some_and(|c| paired(c, r))
        }
        _ => true,
    })
}

fn paired(client: &Row, server: &Row) -> bool {
    let kinds = client.kind == Kind::Client && server.kind == Kind::Server;
    kinds && client.object == server.object && client.source == server.source
}

/// (rule S18) A request is newer than both ends of its port, which stand.
fn ports_stand(t: &Tables) -> bool {
    every_request(t, |q| {
        let client = t.row(q.port).is_some_and(|c| c.kind == Kind::Client);
        client && q.port.saturating_add(1) < q.number
    })
}

/// (rule S22) And newer than the ends that it lists.
fn newer_than_ends(t: &Tables) -> bool {
    every_request(t, |q| {
        let mut rows = q.listed().filter_map(|i| t.row(i));
        rows.all(|r| !r.is_end() || r.number < q.number)
    })
}

/// (rule S19) The asker is listed.
fn requesters_listed(t: &Tables) -> bool {
    every_request(t, |q| t.listed(q.asker))
}

/// (rules S20, S21) At most 4 items, by the type; none twice.
fn items_once(t: &Tables) -> bool {
    every_request(t, |q| {
        q.listed()
            .all(|i| q.listed().filter(|&other| other == i).count() == 1)
    })
}

/// (rule S22) Items are ends, and copies that bear the request's number.
fn items_of_kind(t: &Tables) -> bool {
    every_request(t, |q| {
        q.listed().all(|i| {
            t.row(i)
                .is_some_and(|r| r.is_end() || r.request == q.number)
        })
    })
}

/// (rule S23) A port has one open request at most.
fn one_a_port(t: &Tables) -> bool {
    every_request(t, |q| {
        t.requests.iter().filter(|o| o.port == q.port).count() == 1
    })
}

/// (rule S24) A copy is newer than the open request whose number it bears, and
/// listed there.
fn copies_listed(t: &Tables) -> bool {
    every_row(t, |r| {
        let borne = t.request(r.request);
        r.request == 0 || borne.is_some_and(|q| q.number < r.number && q.lists(r.number))
    })
}

/// (rule S25) Where several requests list an end, all but the newest are fetched.
fn older_fetched(t: &Tables) -> bool {
    every_row(t, |r| {
        let newest = newest_listing(t, r.number).map(|q| q.number);
        let listing = t.requests.iter().filter(|q| q.lists(r.number));
        let mut older = listing.filter(|q| Some(q.number) != newest);
        !r.is_end() || older.all(|q| q.fetched == 1)
    })
}

/// (rule S26) The system holds exactly those rows whose newest request is not
/// fetched.
fn system_holds(t: &Tables) -> bool {
    every_row(t, |r| {
        let copy_or_end = r.is_end() || r.request != 0;
        let unfetched = newest_listing(t, r.number).is_some_and(|q| q.fetched == 0);
        (r.place == Place::System) == (copy_or_end && unfetched)
    })
}

/// (rule S27) Every process is in its prime node through none, or in the node of a
/// subdirectory row of its c-list.
fn stands(t: &Tables) -> bool {
    (1..=PROCESSES).all(|p| t.process(p).is_none_or(|record| in_its_node(t, p, record)))
}

fn in_its_node(t: &Tables, p: u32, record: &Process) -> bool {
    if record.through == 0 {
        return record.active == record.prime;
    }
    t.row(record.through).is_some_and(|d| {
        d.kind == Kind::Subdirectory && d.in_c_list_of(p) && d.object == record.active
    })
}
