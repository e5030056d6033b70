//! The holders' page: all its lines into one buffer.

use crate::measure::{About, Layer, Measured};
use crate::operations::Reads;
use crate::tables::Benched;
use kernel::entry::{self, LINE_BYTES};
use kernel::layout::ROWS;
use kernel::plain;
use std::hint::black_box as hidden;

pub fn on_tables(b: &Benched, by: &mut dyn Measured) {
    let t = b.words.as_slice();
    let mut ours = vec![0; ROWS * LINE_BYTES];
    let mut theirs = ours.clone();
    let length = entry::lines_from(t, 0, &mut ours);
    assert_eq!(length, b.rows * LINE_BYTES);
    assert_eq!(length, plain::page::lines_from(t, 0, &mut theirs));
    assert!(ours == theirs, "the same page");
    let about = About {
        layer: Layer::Page,
        size: b.size(),
        name: "page".into(),
        bytes: 4 * (b.rows + 1).min(ROWS) + (4 * 4 + LINE_BYTES) * b.rows,
        calls: 2 + 1_000 / b.rows,
    };
    let proved = || entry::lines_from(hidden(t), 0, hidden(&mut ours));
    let plain = || plain::page::lines_from(hidden(t), 0, hidden(&mut theirs));
    by.measure(about, &mut Reads(proved, plain));
}
