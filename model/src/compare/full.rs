//! Calls on full tables: 1,024 rows, 128 requests.

use super::case::{name, Case};
use super::tables::case;
use crate::limits::{ALL_RIGHTS, REQUESTS, ROWS};
use crate::session::call_sound;
use crate::tables::{Kind, Place, Process, Row, Tables};

/// Holds, ports and asks on tables that are just full, or just not.
pub fn full() -> Vec<Case> {
    let calls = [
        (with_rows(ROWS - 1), "(1 hold 1)\n"),
        (with_rows(ROWS), "(1 hold 1)\n"),
        (with_rows(ROWS - 2), "(1 port 2)\n"),
        (with_rows(ROWS - 1), "(1 port 2)\n"),
        (with_requests(REQUESTS - 1), "(1 ask 3)\n"),
        (with_requests(REQUESTS), "(1 ask 3)\n"),
    ];
    let each = calls.iter().enumerate().filter_map(|(at, (tables, line))| {
        let about = "full tables".to_string();
        case(name("full", at), about, tables, line.as_bytes()).map(without_sound)
    });
    each.collect()
}

/// The prover takes ten seconds to judge 1,024 rows. That they are sound is
/// left to the model here.
fn without_sound(case: Case) -> Case {
    Case {
        claim: case.claim.replacen("called ", "called_sound ", 1),
        ..case
    }
}

/// Row 1 in node 1, row 2 held from it by process 1, and so many rows in all,
/// the others in node 2.
pub fn with_rows(count: usize) -> Tables {
    let mut tables = Tables::empty();
    tables.set_process(1, Process::in_prime_node(1));
    while tables.rows.len() < count {
        let number = tables.next;
        tables.rows.push(Row {
            number,
            kind: Kind::Operation,
            object: 1,
            operation: 0,
            rights: ALL_RIGHTS,
            place: Place::Node(if number == 1 { 1 } else { 2 }),
            source: 0,
            via: 0,
            depth: 1,
            request: 0,
        });
        tables.next += 1;
        if number == 1 {
            call_sound(&mut tables, b"(1 hold 1)\n");
        }
    }
    tables
}

/// A port that is free, and so many with an open request each.
pub fn with_requests(count: usize) -> Tables {
    let mut tables = with_rows(2);
    call_sound(&mut tables, b"(1 port 2)\n");
    for _ in 0..count {
        let port = tables.next;
        call_sound(&mut tables, b"(1 port 2)\n");
        call_sound(&mut tables, format!("(1 ask {port})\n").as_bytes());
    }
    tables
}
