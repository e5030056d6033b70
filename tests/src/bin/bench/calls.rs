//! The calls on sound tables.

use crate::call_cases::{cases, refusal, Case};
use crate::closings::closing_reads;
use crate::measure::{Layer, Measured};
use crate::on_runs::{measure, On};
use crate::tables::SIZES;
use kernel::call_words::{call_words, said, AnswerWords, CallWords, DONE};
use kernel::{performing, plain};
use model::call::{read_call, Call};
use model::relations::first_chain;
use std::hint::black_box as hidden;

/// The lowest refusal that the tables decide.
const FIRST_OF_TABLES: u32 = 7;

pub fn on_calls(by: &mut dyn Measured) {
    for rows in SIZES {
        for case in cases(rows).filter(is_read) {
            called(by, &case);
        }
    }
}

/// Not refused by the reading of its line.
fn is_read(case: &Case) -> bool {
    case.refusal == 0 || case.refusal >= FIRST_OF_TABLES
}

fn called(by: &mut dyn Measured, case: &Case) {
    assert_eq!(refusal(case), case.refusal, "{}", case.name);
    let call = read_call(case.line.as_bytes()).expect("a call");
    let words = call_words(&call).expect("its words");
    let on = On {
        layer: Layer::Calls,
        name: case.name.clone(),
        tables: &case.tables,
        reads: reads(case, &call),
    };
    let proved = |t: &mut [u32], p: &mut [u32]| performed(performing::perform, t, p, &words);
    let plain = |t: &mut [u32], p: &mut [u32]| performed(plain::calls::perform, t, p, &words);
    measure(by, on, proved, plain);
}

/// A call in words, in place, and its answer.
#[inline]
pub fn performed(
    perform: impl Fn(&mut [u32], &mut [u32], &CallWords, &mut AnswerWords),
    t: &mut [u32],
    p: &mut [u32],
    call: &CallWords,
) -> AnswerWords {
    let mut answer = said(DONE, []);
    perform(t, p, hidden(call), &mut answer);
    answer
}

/// At the least: a search by halves for each row named, and its words; for a chain number and first
/// source of each row in it; for a comesall both sources and the request of each row; for a drop both
/// sources of each newer row; for one that closes, what closing reads.
fn reads(case: &Case, call: &Call) -> usize {
    let searches = 1 + call.items().len();
    let steps = usize::BITS - case.tables.rows.len().leading_zeros();
    let searched = 4 * searches * (steps as usize + 5);
    let closes = ["close", "answer 1", "answer 0", "revoke", "drop"].contains(&case.name.as_str());
    let sources = match call {
        Call::Chain { row } => 8 * first_chain(&case.tables, *row).len(),
        Call::ComesAll { .. } => 12 * case.tables.rows.len(),
        _ if case.name.starts_with("drop") => 8 * case.tables.rows.len(),
        _ => 0,
    };
    searched
        + sources
        + if closes {
            closing_reads(&case.tables)
        } else {
            0
        }
}
