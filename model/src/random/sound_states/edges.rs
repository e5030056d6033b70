//! The clauses of soundness (docs/MANUAL.md, chapter 6) at their edges: what is still sound and
//! would not be one step further.

use crate::limits::*;
use crate::tables::{Kind, Place, Process, Request, Row, Tables};

/// A rule, what its edge is, and whether tables are at it.
pub type Edge = (&'static str, &'static str, fn(&Tables) -> bool);

pub const EDGES: [Edge; 49] = [
    ("S1", "two rows with following numbers", |t| {
        t.rows.windows(2).any(|w| w[0].number + 1 == w[1].number)
    }),
    ("S1", "the first row is row 1", |t| {
        first(t).is_some_and(|r| r.number == 1)
    }),
    ("S2", "two requests with following numbers", |t| {
        t.requests
            .windows(2)
            .any(|w| w[0].number + 1 == w[1].number)
    }),
    ("S3", "a request between two rows", |t| {
        requests(t, |q| {
            t.row(q.number - 1).is_some() && t.row(q.number + 1).is_some()
        })
    }),
    ("S4", "the last row right below the next number", |t| {
        t.rows.last().is_some_and(|r| r.number + 1 == t.next)
    }),
    ("S4", "the last request right below the next number", |t| {
        t.requests.last().is_some_and(|q| q.number + 1 == t.next)
    }),
    ("S4", "row 4,294,967,294", |t| t.row(LAST_NUMBER).is_some()),
    ("S4", "request 4,294,967,294", |t| {
        t.request(LAST_NUMBER).is_some()
    }),
    ("S5", "next 1", |t| t.next == 1),
    ("S5", "next 4,294,967,295", |t| t.next == LAST_NUMBER + 1),
    ("S6", "1,024 rows", |t| t.rows.len() == ROWS),
    ("S7", "128 requests", |t| t.requests.len() == REQUESTS),
    ("S8", "process 64 is listed", |t| t.listed(PROCESSES)),
    ("S9", "operation 255", |t| {
        rows(t, |r| r.operation == LAST_OPERATION)
    }),
    ("S9", "manager 64", |t| {
        rows(t, |r| r.kind == Kind::Operation && r.object == PROCESSES)
    }),
    ("S9", "subdirectory of node 32", |t| {
        rows(t, |r| r.kind == Kind::Subdirectory && r.object == NODES)
    }),
    ("S10", "rights 7", |t| rows(t, |r| r.rights == ALL_RIGHTS)),
    ("S10", "an operation with rights 0", |t| {
        rows(t, |r| r.kind == Kind::Operation && r.rights == 0)
    }),
    ("S11", "a row in node 32", |t| {
        rows(t, |r| r.place == Place::Node(NODES))
    }),
    ("S11", "a row with process 64", |t| {
        rows(t, |r| r.in_c_list_of(PROCESSES))
    }),
    ("S12", "a request with the mark 1", |t| {
        requests(t, |q| q.fetched == 1)
    }),
    ("S12", "a request with the mark 0", |t| {
        requests(t, |q| q.fetched == 0)
    }),
    ("S13", "a source right below", |t| {
        rows(t, |r| r.source + 1 == r.number && r.source > 0)
    }),
    ("S13", "a second source right below", |t| {
        rows(t, |r| r.via + 1 == r.number && r.via > 0)
    }),
    ("S14", "depth 12", |t| rows(t, |r| r.depth == DEEPEST)),
    ("S14", "the second source is the deeper", |t| {
        rows(t, |r| depth(t, r.via) > depth(t, r.source))
    }),
    ("S15", "rights 7 from rights 7", |t| {
        copies(t, |r, s| r.rights == ALL_RIGHTS && s.rights == ALL_RIGHTS)
    }),
    ("S15", "rights 0 from rights 0", |t| {
        copies(t, |r, s| r.rights == 0 && s.rights == 0)
    }),
    ("S15", "rights fewer than the source's", |t| {
        copies(t, |r, s| r.rights < s.rights)
    }),
    ("S16", "prime node 32", |t| {
        processes(t, |_, p| p.prime == NODES)
    }),
    ("S16", "active node 32", |t| {
        processes(t, |_, p| p.active == NODES)
    }),
    ("S17", "two ports from one source", |t| {
        t.rows
            .windows(2)
            .any(|w| w[0].kind == Kind::Server && paired_source(&w[0], &w[1]))
    }),
    ("S17", "server end 4,294,967,294", |t| {
        t.row(LAST_NUMBER).is_some_and(Row::is_end)
    }),
    ("S18", "a request right above its port", |t| {
        requests(t, |q| q.number == q.port + 2)
    }),
    ("S19", "asked by process 64", |t| {
        requests(t, |q| q.asker == PROCESSES)
    }),
    ("S20", "four items", |t| {
        requests(t, |q| q.listed().count() == ITEMS)
    }),
    ("S20", "the last position alone", |t| {
        requests(t, |q| {
            q.listed().count() == 1 && q.items[ITEMS - 1].is_some()
        })
    }),
    ("S21", "an item in two lists", |t| {
        requests(t, |q| {
            q.listed()
                .any(|i| t.requests.iter().filter(|o| o.lists(i)).count() > 1)
        })
    }),
    ("S22", "an end right below its request", |t| {
        requests(t, |q| {
            q.lists(q.number - 1) && t.row(q.number - 1).is_some_and(Row::is_end)
        })
    }),
    ("S23", "every port has a request", |t| {
        let ports = t.rows.iter().filter(|r| r.kind == Kind::Client).count();
        ports > 1 && ports == t.requests.len()
    }),
    ("S24", "a copy right above its request", |t| {
        rows(t, |r| r.request > 0 && r.request + 1 == r.number)
    }),
    ("S24", "copy 4,294,967,294", |t| {
        t.row(LAST_NUMBER).is_some_and(|r| r.request > 0)
    }),
    ("S25", "the newest of three requests is not fetched", |t| {
        rows(t, |r| {
            marks(t, r.number).len() > 2 && marks(t, r.number).last() == Some(&0)
        })
    }),
    ("S25", "all of three requests are fetched", |t| {
        rows(t, |r| {
            marks(t, r.number).len() > 2 && marks(t, r.number).last() == Some(&1)
        })
    }),
    (
        "S26",
        "an end with the system, another of the list not",
        |t| {
            requests(t, |q| {
                q.listed().any(|i| is_with_system(t, i))
                    && q.listed().any(|i| !is_with_system(t, i))
            })
        },
    ),
    ("S26", "a copy with a process", |t| {
        rows(t, |r| r.request > 0 && r.place != Place::System)
    }),
    ("S27", "through a row to the prime node", |t| {
        processes(t, |_, p| p.through > 0 && p.active == p.prime)
    }),
    ("S27", "through a lent copy", |t| {
        processes(t, |_, p| t.row(p.through).is_some_and(|r| r.request > 0))
    }),
    ("S27", "two processes, each through a row of its own", |t| {
        t.processes.iter().filter(|p| p.through > 0).count() > 1
    }),
];

fn first(t: &Tables) -> Option<&Row> {
    t.rows.first()
}

fn rows(t: &Tables, test: impl Fn(&Row) -> bool) -> bool {
    t.rows.iter().any(test)
}

fn requests(t: &Tables, test: impl Fn(&Request) -> bool) -> bool {
    t.requests.iter().any(test)
}

fn processes(t: &Tables, test: impl Fn(u32, &Process) -> bool) -> bool {
    (1..=PROCESSES).any(|p| t.process(p).is_some_and(|record| test(p, record)))
}

/// A held, registered or lent row and its first source.
fn copies(t: &Tables, test: impl Fn(&Row, &Row) -> bool) -> bool {
    rows(t, |r| {
        !r.is_end() && t.row(r.source).is_some_and(|s| test(r, s))
    })
}

fn depth(t: &Tables, number: u32) -> u32 {
    t.row(number).map_or(0, |r| r.depth)
}

/// A server end and the client end that follows it have one source.
fn paired_source(server: &Row, client: &Row) -> bool {
    client.kind == Kind::Client && client.source == server.source
}

/// The marks of the requests that list a row, the oldest first.
fn marks(t: &Tables, number: u32) -> Vec<u32> {
    let listing = t.requests.iter().filter(|q| q.lists(number));
    listing.map(|q| q.fetched).collect()
}

fn is_with_system(t: &Tables, number: u32) -> bool {
    t.row(number).is_some_and(|r| r.place == Place::System)
}
