//! Altered tables: some fields of any tables changed to any values.

use super::prng::Rng;
use crate::limits::{LAST_NUMBER, PROCESSES};
use crate::tables::{Kind, Place, Process, Request, Row, Tables};

/// The tables with one to three fields changed; they may still be sound.
pub fn alter(rng: &mut Rng, tables: &Tables) -> Tables {
    let mut altered = tables.clone();
    for _ in 0..rng.between(1, 3) {
        alter_once(rng, &mut altered);
    }
    altered
}

/// The tables with one to four changes that soundness often allows: a row
/// with another process, fewer rights, another asker, a greater next number.
pub fn alter_gently(rng: &mut Rng, tables: &Tables) -> Tables {
    let mut altered = tables.clone();
    for _ in 0..rng.between(1, 4) {
        gently_once(rng, &mut altered);
    }
    altered
}

fn gently_once(rng: &mut Rng, t: &mut Tables) {
    let listed: Vec<u32> = (1..=PROCESSES).filter(|p| t.listed(*p)).collect();
    let process = rng.pick(&listed).unwrap_or(1);
    let node = rng.between(1, 6);
    let at = rng.below(t.rows.len());
    let request = rng.below(t.requests.len());
    match (
        rng.below(6),
        t.rows.get_mut(at),
        t.requests.get_mut(request),
    ) {
        (0 | 1, Some(row), _) if matches!(row.place, Place::CList(_)) => {
            row.place = Place::CList(process);
        }
        (0 | 1, Some(row), _) if row.in_node() => row.place = Place::Node(node),
        (2, Some(row), _) => row.rights &= rng.between(0, 7),
        (3, _, Some(request)) => request.asker = process,
        (4, _, _) => t.next = rng.between(t.next, LAST_NUMBER + 1),
        (5, Some(row), _) if row.kind == Kind::Operation => row.object = process,
        _ => {
            let prime = node;
            let old = t.process(process).copied().unwrap_or_default();
            let active = if old.through == 0 { prime } else { old.active };
            let record = Process {
                prime,
                active,
                ..old
            };
            t.set_process(process, record);
        }
    }
}

fn alter_once(rng: &mut Rng, t: &mut Tables) {
    let value = value(rng, t);
    let row = rng.below(t.rows.len());
    let request = rng.below(t.requests.len());
    match rng.below(12) {
        0..=4 => {
            if let Some(row) = t.rows.get_mut(row) {
                alter_row(rng, row, value);
            }
        }
        5..=7 => {
            if let Some(request) = t.requests.get_mut(request) {
                alter_request(rng, request, value);
            }
        }
        8 => alter_process(rng, t, value),
        9 => t.next = value,
        10 if row < t.rows.len() => drop(t.rows.remove(row)),
        11 if request < t.requests.len() => drop(t.requests.remove(request)),
        _ => {}
    }
}

/// A number of a row or request, a small one, or one at a limit.
fn value(rng: &mut Rng, t: &Tables) -> u32 {
    let rows: Vec<u32> = t.rows.iter().map(|r| r.number).collect();
    let requests: Vec<u32> = t.requests.iter().map(|q| q.number).collect();
    match rng.below(8) {
        0 | 1 => rng.pick(&rows).unwrap_or(0),
        2 => rng.pick(&requests).unwrap_or(0),
        3 => rng.between(LAST_NUMBER - 1, LAST_NUMBER + 1),
        4 => t.next,
        _ => rng.between(0, 9),
    }
}

fn alter_row(rng: &mut Rng, row: &mut Row, value: u32) {
    let kinds = [
        Kind::Operation,
        Kind::Subdirectory,
        Kind::Client,
        Kind::Server,
    ];
    match rng.below(10) {
        0 => row.number = value,
        1 => row.kind = rng.pick(&kinds).unwrap_or(Kind::Client),
        2 => row.object = value,
        3 => row.operation = value,
        4 => row.rights = value,
        5 => row.place = place(rng, value),
        6 => row.source = value,
        7 => row.via = value,
        8 => row.depth = value,
        _ => row.request = value,
    }
}

fn place(rng: &mut Rng, value: u32) -> Place {
    match rng.below(3) {
        0 => Place::Node(value),
        1 => Place::CList(value),
        _ => Place::System,
    }
}

fn alter_request(rng: &mut Rng, request: &mut Request, value: u32) {
    match rng.below(8) {
        0 => request.number = value,
        1 => request.port = value,
        2 => request.asker = value,
        3 => request.fetched = rng.between(0, 2),
        at => request.items[at % 4] = (value != 0).then_some(value),
    }
}

fn alter_process(rng: &mut Rng, t: &mut Tables, value: u32) {
    let p = rng.between(1, PROCESSES.min(6));
    let old = t.process(p).copied().unwrap_or_default();
    let record = match rng.below(3) {
        0 => Process {
            prime: value,
            ..old
        },
        1 => Process {
            active: value,
            ..old
        },
        _ => Process {
            through: value,
            ..old
        },
    };
    t.set_process(p, record);
}
