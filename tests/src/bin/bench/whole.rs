//! Whole calls, bytes to bytes: the calls, openings, the parts of a call, and
//! how a call grows with rows and with requests.

use crate::call_cases::{accepted, cases, longest_answers, Case};
use crate::measure::{Layer, Measured};
use crate::on_runs::{measure, On};
use crate::tables::SIZES;
use kernel::entry::{Point, REPLY_BYTES};
use kernel::layout::{PROCESS_WORDS, TABLES_WORDS};
use kernel::{entry, plain, reading};
use model::session::open;
use std::hint::black_box as hidden;

/// The bytes of both runs, each of which decides whether the tables are sound.
pub const RUNS: usize = 4 * (TABLES_WORDS + PROCESS_WORDS);

/// The calls whose parts are told.
const PARTS: [&str; 5] = ["hold", "ask", "answer 1", "comes", "chain, depth 12"];

/// The reply of an entry point, with its length.
pub type Reply = ([u8; REPLY_BYTES], usize);

pub fn replied(point: Point, t: &mut [u32], p: &mut [u32], bytes: &[u8]) -> Reply {
    let mut reply = [0; REPLY_BYTES];
    let length = point(t, p, hidden(bytes), &mut reply);
    (reply, length)
}

pub fn on_whole_calls(by: &mut dyn Measured) {
    for rows in SIZES {
        for case in cases(rows) {
            called(by, Layer::Whole, &case, &case.line);
        }
    }
    for case in longest_answers() {
        called(by, Layer::Whole, &case, &case.line);
    }
    let smallest = b"(node 1 (op 1 0 7))\n(process 1 1)\n(open)\n";
    opening(by, "one node and one process", smallest);
    opening(by, "the largest text", &largest_text());
    for rows in [10, 64, 256, 512, 1024] {
        grown(by, rows, 0);
    }
    for requests in [16, 64, 128] {
        grown(by, 1024, requests);
    }
    for rows in SIZES {
        let named = |case: &Case| PARTS.contains(&case.name.as_str());
        for case in cases(rows).filter(named) {
            parts(by, &case);
        }
    }
}

fn grown(by: &mut dyn Measured, rows: usize, requests: usize) {
    let case = accepted("hold", rows, requests);
    called(by, Layer::Growth, &case, &case.line);
}

/// The call of a line on the tables of a case.
pub fn called(by: &mut dyn Measured, layer: Layer, case: &Case, line: &str) {
    let on = On {
        layer,
        name: case.name.clone(),
        tables: &case.tables,
        reads: RUNS + line.len(),
    };
    entered(by, on, line.as_bytes(), [entry::call, plain::entry::call]);
}

/// An opening, on words that were opened before.
fn opening(by: &mut dyn Measured, what: &str, text: &[u8]) {
    let (tables, answer, _) = open(text);
    assert!(answer.accepted(), "{what}");
    let on = On {
        layer: Layer::Opening,
        name: format!("opening of {what}"),
        tables: &tables,
        reads: RUNS + text.len(),
    };
    entered(by, on, text, [entry::open, plain::entry::open]);
}

/// An entry point, proved and in plain Rust.
fn entered(by: &mut dyn Measured, on: On, bytes: &[u8], [proved, plain]: [Point; 2]) {
    measure(
        by,
        on,
        |t, p| replied(proved, t, p, bytes),
        |t, p| replied(plain, t, p, bytes),
    );
}

/// 32 nodes with 16 entries of the longest form, and 64 processes.
fn largest_text() -> Vec<u8> {
    let entries = " (op 64 255 7)".repeat(16);
    let nodes = (1..=32).map(|node| format!("(node {node}{entries})\n"));
    let processes = (1..=64).map(|process| format!("(process {process} 32)\n"));
    let text: String = nodes.chain(processes).collect();
    (text + "(open)\n").into_bytes()
}

/// What the parts of a call are told from: soundness alone; an empty line,
/// which is refused before it is read; the line with a caller that is not
/// listed, which is read and refused; and the whole call.
pub fn parts(by: &mut dyn Measured, case: &Case) {
    let on = On {
        layer: Layer::Parts,
        name: case.name.clone(),
        tables: &case.tables,
        reads: RUNS,
    };
    measure(
        by,
        on,
        |t, p| reading::sound(t, p),
        |t, p| plain::sound(t, p),
    );
    for line in ["", &unlisted(case), &case.line] {
        called(by, Layer::Parts, case, line);
    }
}

/// The line with process 64 for its caller; comes and chain have none, so their row is one that does
/// not stand, and comesall's first is 0.
fn unlisted(case: &Case) -> String {
    let none = case.tables.next;
    for (start, row) in [("(comes ", none), ("(chain ", none), ("(comesall (", 0)] {
        if let Some(numbers) = case.line.strip_prefix(start) {
            let rest = numbers.trim_start_matches(|c: char| c.is_ascii_digit());
            return format!("{start}{row}{rest}");
        }
    }
    format!("(64{}", &case.line[2..])
}
