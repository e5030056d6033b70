//! A short season: calls through one set of tables, over the last number, against the model. The
//! long one is tools/season.

use kernel::entry::Point;
use kernel::layout::{LAST_NUMBER, NEXT, OPERATIONS};
use kernel::season::{season, Points, Report};
use kernel::{entry, plain, reading};
use std::io::Write;

const CALLS: u64 = 100_000;

/// Of the seasons in which a difference is planted, and of plain Rust.
const FEW: u64 = 20_000;

const PROVED: Points = Points {
    open: entry::open,
    call: entry::call,
};

const PLAIN: Points = Points {
    open: plain::entry::open,
    call: plain::entry::call,
};

/// The report on the first part.
fn passes(points: Points, calls: u64, seed: u64) -> Report {
    let reports = season(points, calls, seed).unwrap_or_else(|difference| panic!("{difference}"));
    for report in &reports {
        writeln!(std::io::stdout(), "{report}").expect("it is printed");
        lively(report);
    }
    let [first, second] = reports;
    assert_eq!(first.accepted.len(), 14, "{first}");
    assert!(u64::from(first.greatest) >= calls * 2 / 5, "{first}");
    assert_eq!(second.greatest, LAST_NUMBER);
    assert!(second.refused[18] > 0 && first.refused[18] == 0);
    first
}

/// Four of five calls are accepted, each of the thirteen at times, answer with 0 and with 1; near the
/// end a register may be none.
fn lively(report: &Report) {
    let calls: u64 = report.refused.iter().sum();
    assert_eq!(calls, report.calls);
    assert!(5 * report.refused[0] >= 4 * calls, "{report}");
    assert!(report.accepted.len() >= 13, "{report}");
    assert!(4 * report.compared >= calls, "{report}");
}

/// Each refusal but 1 and 18 is answered in the first part; 14 is rare.
#[test]
fn proved() {
    let first = passes(PROVED, CALLS, 4);
    for k in (2..=17).filter(|k| *k != 14) {
        assert!(first.refused[k] > 0, "{k} was never answered");
    }
}

#[test]
fn in_plain_rust() {
    passes(PLAIN, FEW, 2);
}

/// What is said of the first difference of a season.
fn differs(call: Point) -> String {
    let points = Points { call, ..PROVED };
    match season(points, FEW, 3) {
        Ok(_) => panic!("no difference was found"),
        Err(difference) => difference.to_string(),
    }
}

/// With so many numbers given the operation of row 7 is changed, as soon as the tables stay sound:
/// when no row has it as a source. It cannot be registered, so what is held from it goes again.
const CHANGE: u32 = 5_000;
const OPERATION: usize = OPERATIONS + 6;

fn changes_a_word(t: &mut [u32], p: &mut [u32], line: &[u8], reply: &mut [u8]) -> usize {
    let length = entry::call(t, p, line, reply);
    if t[NEXT] > CHANGE && t[OPERATION] == 2 {
        t[OPERATION] = 3;
        if !reading::sound(t, p) {
            t[OPERATION] = 2;
        }
    }
    length
}

#[test]
fn a_changed_word_is_found() {
    let said = differs(changes_a_word);
    let (kernel, model) = ("  kernel word 3078 is 3\n", "  model  word 3078 is 2");
    assert!(said.contains(": other words\n"), "{said}");
    assert!(said.contains(kernel) && said.ends_with(model), "{said}");
}

/// The last number is refused.
fn ends_early(t: &mut [u32], p: &mut [u32], line: &[u8], reply: &mut [u8]) -> usize {
    let (before, refused) = (t[NEXT], b"(no 18)\n");
    let length = entry::call(t, p, line, reply);
    if before > LAST_NUMBER || t[NEXT] <= LAST_NUMBER {
        return length;
    }
    reply[..refused.len()].copy_from_slice(refused);
    refused.len()
}

#[test]
fn another_last_number_is_found() {
    let said = differs(ends_early);
    let (kernel, model) = ("  kernel (no 18)\n", "  model  (ok 42949672");
    assert!(said.contains(": other replies\n"), "{said}");
    assert!(said.contains(kernel) && said.contains(model), "{said}");
}
