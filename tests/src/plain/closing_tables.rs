//! Tables on which closings are timed and tested, made by calls on the model.
//! Each comes with the number of the request whose closing is meant.

use model::limits::{ALL_RIGHTS, ITEMS, REQUESTS, ROWS};
use model::session::{call_sound, open};
use model::{Answer, Tables};

/// The tables of an opening.
pub fn opened(text: &str) -> Tables {
    let (tables, answer, _) = open(text.as_bytes());
    assert!(answer.accepted(), "{text}: {answer:?}");
    tables
}

/// The numbers that a call answers.
pub fn call(tables: &mut Tables, line: &str) -> Vec<u32> {
    match call_sound(tables, format!("{line}\n").as_bytes()) {
        Answer::Ok(numbers) => numbers,
        answer => panic!("{line}: {answer:?}"),
    }
}

/// A call that answers one number.
pub fn number(tables: &mut Tables, line: &str) -> u32 {
    call(tables, line)[0]
}

/// A process asks another over a new port, made from an operation whose
/// manager it is; the items come to the other. Their numbers there follow the
/// request's.
pub fn lend(tables: &mut Tables, from: u32, operation: u32, to: u32, items: &[u32]) -> Vec<u32> {
    let client = number(tables, &format!("({from} port {operation})"));
    let rights = |item: u32| match tables.row(item) {
        Some(row) if row.is_end() => 0,
        _ => ALL_RIGHTS,
    };
    let items = items.iter().map(|i| format!(" ({i} {})", rights(*i)));
    let items: String = items.collect();
    call(tables, &format!("({from} ask {client}{items})"));
    call(tables, &format!("({to} fetch {})", client + 1))
}

/// Process 1 and four managers, 2 to 5; process 1 holds an operation of each,
/// by the rows answered.
fn managers() -> (Tables, [u32; ITEMS]) {
    let entries: String = (2..6).map(|p| format!(" (op {p} 0 7)")).collect();
    let processes: String = (1..6).map(|p| format!("(process {p} 1)\n")).collect();
    let mut tables = opened(&format!("(node 1{entries})\n{processes}(open)\n"));
    let held = [1, 2, 3, 4].map(|row| number(&mut tables, &format!("(1 hold {row})")));
    (tables, held)
}

/// Rows held by process 1 until there are so many.
pub fn filled(mut tables: Tables, rows: usize) -> Tables {
    while tables.rows.len() < rows {
        number(&mut tables, "(1 hold 1)");
    }
    tables
}

/// One request, which has lent one copy; most of so many rows are newer.
pub fn one_copy(rows: usize) -> (Tables, u32) {
    let entries = "(node 1 (op 2 0 7))\n";
    let mut tables = opened(&format!("{entries}(process 1 1)\n(process 2 1)\n(open)\n"));
    let held = number(&mut tables, "(1 hold 1)");
    let request = lend(&mut tables, 1, held, 2, &[held])[0];
    (filled(tables, rows), request)
}

/// The same in full tables: 1,024 rows and 128 requests, of which the others
/// are newer and have lent a copy each.
pub fn one_copy_full() -> (Tables, u32) {
    let (mut tables, request) = one_copy(0);
    while tables.requests.len() < REQUESTS {
        lend(&mut tables, 1, 2, 2, &[2]);
    }
    (filled(tables, ROWS), request)
}

/// The first request lends so many operations. Who has them makes a port from
/// each and lends the same operations over it, and so on for so many levels.
/// The closing of the first request closes them all.
pub fn cascade(width: usize, levels: u32) -> (Tables, u32) {
    let (mut tables, held) = managers();
    let lent = lend(&mut tables, 1, held[0], 2, &held[..width]);
    lend_on(&mut tables, 2, &lent[1..], levels);
    (tables, lent[0])
}

fn lend_on(tables: &mut Tables, holder: u32, operations: &[u32], levels: u32) {
    if levels == 0 {
        return;
    }
    for (operation, manager) in operations.iter().zip(2..) {
        let lent = lend(tables, holder, *operation, manager, operations);
        lend_on(tables, manager, &lent[1..], levels - 1);
    }
}

/// 85 requests, each with four copies: 1 and 4 and 16 and 64.
pub fn cascade_of_85() -> (Tables, u32) {
    cascade(4, 3)
}

/// The same in tables with 1,024 rows.
pub fn cascade_of_85_full() -> (Tables, u32) {
    let (tables, request) = cascade_of_85();
    (filled(tables, ROWS), request)
}
