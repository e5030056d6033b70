//! Two opening texts joined, bytes to bytes.

use crate::measure::{About, Layer, Measured, Size};
use crate::operations::Reads;
use kernel::entry::{self, JOINED_BYTES};
use kernel::plain;
use model::random::texts::{largest, Share};
use model::random::Rng;
use model::session::open;
use std::hint::black_box as hidden;

pub fn on_texts(by: &mut dyn Measured) {
    let first = "(node 1 (op 1 0 7))\n(process 1 1)\n(open)\n";
    let second = "(node 1 (op 2 0 7))\n(process 2 1)\n(open)\n";
    measure(
        by,
        "joining of two small texts",
        [first, second].concat().as_bytes(),
    );
    for (share, what) in [
        (Share::Apart, "with no node in common"),
        (Share::Halves, "with half of each node's entries"),
        (Share::Same, "that are one"),
    ] {
        let texts = largest(&mut Rng::new(1), share).print();
        measure(by, &format!("joining of the largest texts {what}"), &texts);
    }
}

/// The rows are those of the joined text when it is opened.
fn measure(by: &mut dyn Measured, name: &str, texts: &[u8]) {
    let mut ours = vec![0; JOINED_BYTES];
    let mut theirs = ours.clone();
    let length = entry::join(texts, &mut ours);
    assert_eq!(length, plain::join::join(texts, &mut theirs));
    assert!(ours == theirs, "the same text");
    let (tables, answer, _) = open(&ours[..length]);
    assert!(answer.accepted(), "{name}");
    let rows = tables.rows.len();
    let about = About {
        layer: Layer::Join,
        size: Size { rows, requests: 0 },
        name: name.into(),
        bytes: texts.len() + length,
        calls: 2 + 100 / rows,
    };
    let proved = || entry::join(hidden(texts), hidden(&mut ours));
    let plain = || plain::join::join(hidden(texts), hidden(&mut theirs));
    by.measure(about, &mut Reads(proved, plain));
}
