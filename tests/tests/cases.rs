//! The cases of cases/, of docs/MANUAL.md and of conformance/, on the entry points of the
//! static library: every answer, every word afterwards, and their page; and two texts joined.

use kernel::entry::{self, Point, REPLY_BYTES};
use model::cases::{self, run, Entries};

/// The bytes of a reply.
fn replied(entry: Point, tables: &mut [u32], records: &mut [u32], text: &[u8]) -> Vec<u8> {
    let mut reply = [0; REPLY_BYTES];
    let length = entry(tables, records, text, &mut reply);
    reply[..length].to_vec()
}

const KERNEL: Entries = Entries {
    open: |tables, records, text| replied(entry::open, tables, records, text),
    call: |tables, records, line| replied(entry::call, tables, records, line),
    page: |tables| entry::page(tables, LINES),
};

/// The lines of a page that are asked for at a time.
const LINES: usize = 7;

#[test]
fn cases_on_the_entry_points() {
    let cases = cases::all().expect("the cases are read");
    let (mut steps, mut without) = (0, 0);
    for case in &cases {
        match run(case, KERNEL) {
            Ok(0) => without += 1,
            Ok(count) => steps += count,
            Err(said) => panic!("{said}"),
        }
    }
    assert!(cases.len() >= 1_140, "{} cases", cases.len());
    assert!(
        steps >= 25_000 && without == 10,
        "{steps} steps, {without} without words"
    );
}

#[test]
fn cases_of_joining() {
    let cases = cases::all_joins().expect("the cases are read");
    for case in &cases {
        if let Err(said) = cases::run_join(case, entry::joined) {
            panic!("{said}");
        }
    }
    assert!(cases.len() >= 127, "{} cases", cases.len());
}
