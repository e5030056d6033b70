//! The operations of the rows' layer, each proved and in plain Rust.

use crate::measure::{About, Both, Layer, Measured, Operation};
use crate::removals::{self, Marks};
use crate::tables::Benched;
use kernel::call_words::LONGEST_CHAIN;
use kernel::layout::{DEPTH, KIND, LAST_NUMBER, Q_NUMBER, REQUEST, REQUESTS, ROWS, SOURCE, VIA};
use kernel::{changing, plain, reading};
use std::hint::black_box as hidden;

/// Two closures, a call each.
pub struct Reads<A, B>(pub A, pub B);

impl<R, A: FnMut() -> R, B: FnMut() -> R> Operation for Reads<A, B> {
    fn proved(&mut self, calls: usize) {
        for _ in 0..calls {
            hidden((self.0)());
        }
    }

    fn plain(&mut self, calls: usize) {
        for _ in 0..calls {
            hidden((self.1)());
        }
    }
}

pub fn on_tables(b: &Benched, by: &mut dyn Measured) {
    sound(b, by);
    look_up_row(b, by);
    look_up_request(b, by);
    for slot in [b.first, b.line, b.loan] {
        comes(b, by, slot);
    }
    for slot in [b.first, b.line, b.loan] {
        chain(b, by, slot);
    }
    for slot in [b.first, b.line, b.end] {
        lent(b, by, slot);
    }
    let removal = Both {
        proved: |t: &mut [u32], count: usize, marks: &Marks| {
            changing::remove_rows(t, count, &marks.bits)
        },
        plain: |t: &mut [u32], count: usize, marks: &Marks| {
            plain::removal::remove_rows(t, count, &marks.bools)
        },
    };
    removals::on_tables(b, by, removal);
}

fn sound(b: &Benched, by: &mut dyn Measured) {
    let (t, p) = (b.words.as_slice(), b.processes.as_slice());
    assert!(reading::sound(t, p) && plain::sound(t, p));
    let about = About {
        layer: Layer::Rows,
        size: b.size(),
        name: "sound".into(),
        bytes: 4 * (t.len() + p.len()),
        calls: 2 + 1_000 / b.rows,
    };
    let proved = || reading::sound(hidden(t), hidden(p));
    let plain = || plain::sound(hidden(t), hidden(p));
    by.measure(about, &mut Reads(proved, plain));
}

/// The newest row by its number. The rows are counted first.
fn look_up_row(b: &Benched, by: &mut dyn Measured) {
    let t = b.words.as_slice();
    let newest = b.rows - 1;
    let row = t[newest];
    assert_eq!(reading::row_slot(t, row), Some(newest));
    assert_eq!(plain::find::row_slot(t, row), Some(newest));
    let about = About {
        layer: Layer::Rows,
        size: b.size(),
        name: "look-up of a row".into(),
        bytes: 4 * (b.rows + 1).min(ROWS),
        calls: 100,
    };
    let proved = || reading::row_slot(hidden(t), hidden(row));
    let plain = || plain::find::row_slot(hidden(t), hidden(row));
    by.measure(about, &mut Reads(proved, plain));
}

fn look_up_request(b: &Benched, by: &mut dyn Measured) {
    let t = b.words.as_slice();
    let newest = b.requests - 1;
    let request = t[Q_NUMBER + newest];
    assert_eq!(reading::request_slot(t, request), Some(newest));
    assert_eq!(plain::find::request_slot(t, request), Some(newest));
    let about = About {
        layer: Layer::Rows,
        size: b.size(),
        name: "look-up of a request".into(),
        bytes: 4 * (b.requests + 1).min(REQUESTS),
        calls: 300,
    };
    let proved = || reading::request_slot(hidden(t), hidden(request));
    let plain = || plain::find::request_slot(hidden(t), hidden(request));
    by.measure(about, &mut Reads(proved, plain));
}

/// The slots that a question goes through from a slot, each once.
fn slots_from(t: &[u32], slot: usize) -> Vec<usize> {
    let mut slots = vec![slot];
    let mut at = 0;
    while at < slots.len() {
        for column in [SOURCE, VIA] {
            let source = t[column + slots[at]] as usize;
            if source != 0 && !slots.contains(&(source - 1)) {
                slots.push(source - 1);
            }
        }
        at += 1;
    }
    slots
}

/// What row is asked about.
fn row(t: &[u32], slot: usize) -> String {
    let depth = t[DEPTH + slot];
    let shape = match (t[KIND + slot], t[REQUEST + slot]) {
        (3.., _) => "an end",
        (_, 1..) => "a copy lent on and on",
        _ => "a line of rows",
    };
    match depth {
        1 => "depth 1".into(),
        _ => format!("depth {depth}, {shape}"),
    }
}

/// Of a request that no row comes from, so that the question goes to the end.
fn comes(b: &Benched, by: &mut dyn Measured, slot: usize) {
    let t = b.words.as_slice();
    let none = LAST_NUMBER + 1;
    assert!(!reading::comes(t, slot, none));
    assert!(!plain::questions::comes(t, slot, none));
    let about = About {
        layer: Layer::Rows,
        size: b.size(),
        name: format!("comes, {}", row(t, slot)),
        bytes: 12 * slots_from(t, slot).len(),
        calls: 300,
    };
    let proved = || reading::comes(hidden(t), hidden(slot), hidden(none));
    let plain = || plain::questions::comes(hidden(t), hidden(slot), hidden(none));
    by.measure(about, &mut Reads(proved, plain));
}

fn chain(b: &Benched, by: &mut dyn Measured, slot: usize) {
    let t = b.words.as_slice();
    let proved = || chained(reading::first_chain, hidden(t), hidden(slot));
    let plain = || chained(plain::questions::first_chain, hidden(t), hidden(slot));
    let (chain, length) = proved();
    assert_eq!(chain[length - 1], t[slot]);
    assert_eq!((chain, length), plain());
    let about = About {
        layer: Layer::Rows,
        size: b.size(),
        name: format!("chain, {}", row(t, slot)),
        bytes: 8 * length,
        calls: 300,
    };
    by.measure(about, &mut Reads(proved, plain));
}

/// The first chain of the row in a slot, and its length.
fn chained(
    question: impl Fn(&[u32], usize, &mut [u32]) -> usize,
    t: &[u32],
    slot: usize,
) -> ([u32; LONGEST_CHAIN], usize) {
    let mut chain = [0; LONGEST_CHAIN];
    let length = question(t, slot, &mut chain);
    (chain, length)
}

/// Of a row that is not lent, so that the question goes to the end.
fn lent(b: &Benched, by: &mut dyn Measured, slot: usize) {
    let t = b.words.as_slice();
    assert!(!reading::lent(t, slot) && !plain::questions::lent(t, slot));
    let slots = slots_from(t, slot);
    let ends = slots.iter().filter(|i| t[KIND + **i] >= 3).count();
    let numbers = (b.requests + 1).min(REQUESTS);
    let listings = ends.min(1) * (numbers + 4 * b.requests);
    let about = About {
        layer: Layer::Rows,
        size: b.size(),
        name: format!("lent, {}", row(t, slot)),
        bytes: 16 * slots.len() + 4 * ends + 4 * listings,
        calls: 300,
    };
    let proved = || reading::lent(hidden(t), hidden(slot));
    let plain = || plain::questions::lent(hidden(t), hidden(slot));
    by.measure(about, &mut Reads(proved, plain));
}
