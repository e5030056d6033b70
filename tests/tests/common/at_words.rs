//! Tables in which what a closing takes lies where words of marks end and begin: loans of loans, an end lent on, a
//! directory lent, each from any slot on. Rows that stay, with sources of their own, come after.

use kernel::plain::closing_tables::{filled, lend, number, opened};
use model::limits::ROWS;
use model::Tables;

/// Rows 1 to 5 are those of the text. Process 1 holds an operation of 2, row 6, the directory, row 7, and an operation
/// of 3, row 8; process 2 holds that too, row 9.
const OPENING: &str = "(node 1 (op 2 0 7) (dir 2 7) (op 3 0 7))\n(node 2 (op 1 0 7) (op 1 1 7))\n\
    (process 1 1)\n(process 2 1)\n(process 3 1)\n(open)\n";

fn opening() -> Tables {
    let mut tables = opened(OPENING);
    for line in ["(1 hold 1)", "(1 hold 2)", "(1 hold 3)", "(2 hold 3)"] {
        number(&mut tables, line);
    }
    tables
}

/// Five loans from the next slot on, each of what the one before lent: the two ends of a port and a copy, and so many
/// rows of process 1 between two loans.
fn loans(mut tables: Tables, between: usize) -> Tables {
    let (mut lender, mut operation) = (1, 6);
    for _ in 0..5 {
        operation = lend(&mut tables, lender, operation, 2, &[operation])[1];
        lender = 2;
        let rows = tables.rows.len() + between;
        tables = filled(tables, rows);
    }
    tables
}

/// The client end in the next slot, lent by 1 to 2 and by 2 to 3 over ports made from what they hold: the closing of
/// the first request takes it out of the list of the second.
fn end_lent(mut tables: Tables) -> Tables {
    let end = number(&mut tables, "(1 port 6)");
    lend(&mut tables, 1, 6, 2, &[end]);
    lend(&mut tables, 2, 9, 3, &[end]);
    tables
}

/// The same, but 2 makes its port from an operation that it was lent with the end: the closing of the first request
/// closes the second, and the end goes back to 1 alone.
fn end_lent_on(mut tables: Tables) -> Tables {
    let end = number(&mut tables, "(1 port 6)");
    let operation = lend(&mut tables, 1, 6, 2, &[end, 8])[2];
    lend(&mut tables, 2, operation, 3, &[end]);
    tables
}

/// A port in the next two slots, and after them a copy of the directory, lent to 2, which went there through it and
/// holds rows by it.
fn directory_lent(mut tables: Tables) -> Tables {
    let copy = lend(&mut tables, 1, 6, 2, &[7])[1];
    number(&mut tables, &format!("(2 go {copy})"));
    number(&mut tables, "(2 hold 4)");
    number(&mut tables, "(2 hold 5)");
    tables
}

/// A row, a port made from it and a copy of it, where they fit.
fn with_rows_after(mut tables: Tables) -> Tables {
    if tables.rows.len() + 4 <= ROWS {
        let held = number(&mut tables, "(1 hold 1)");
        lend(&mut tables, 1, held, 2, &[held]);
    }
    tables
}

/// How many rows each adds.
type Shape = (usize, fn(Tables) -> Tables);

const SHAPES: [Shape; 7] = [
    (5 * 3, |tables| loans(tables, 0)),
    (5 * 63, |tables| loans(tables, 60)),
    (5 * 64, |tables| loans(tables, 61)),
    (5 * 65, |tables| loans(tables, 62)),
    (6, end_lent),
    (7, end_lent_on),
    (5, directory_lent),
];

/// All of them, from the slots before and after the ends of some words on; and rows of a text from which nothing
/// comes, so that each may be dropped.
pub fn at_words() -> Vec<Tables> {
    let mut all = vec![opened(&text_of_72_rows())];
    for end in [64, 128, 704, 960, ROWS] {
        let mut start = opening();
        for slot in end - 16..=end + 1 {
            let room = ROWS.saturating_sub(slot);
            for (_, shape) in SHAPES.iter().filter(|(rows, _)| *rows <= room) {
                start = filled(start, slot);
                all.push(with_rows_after(shape(start.clone())));
            }
        }
    }
    all
}

fn text_of_72_rows() -> String {
    let entries: String = (0..12).map(|n| format!(" (op 1 {n} 7)")).collect();
    let nodes: String = (1..7).map(|n| format!("(node {n}{entries})\n")).collect();
    format!("{nodes}(process 1 1)\n(open)\n")
}
