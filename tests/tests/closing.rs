//! Closing of requests and ports, and the drop of rows, in place: the words of
//! both runs after, against the model's tables.

mod common;

use common::at_words::at_words;
use common::closings::{compare, compare_at_words, numbers_of_none, other_lengths, Closer};
use common::words;
use kernel::closing::{close_port, close_request, drop_row};
use kernel::plain;

const PROVED: Closer = Closer {
    request: close_request,
    port: close_port,
    row: drop_row,
};

#[test]
fn closings() {
    compare(&PROVED).check();
}

#[test]
fn where_words_of_marks_end() {
    compare_at_words(&PROVED);
}

/// Of any row, also of one from which others come, as no call drops it: as plain Rust does. From the row in slot 0
/// come most.
#[test]
fn drops_with_what_comes() {
    for tables in at_words() {
        let lent = words(&tables);
        let slots = [0, 62, 63, 64, 65, 127, 128, tables.rows.len() - 1];
        for row in slots.iter().filter_map(|slot| tables.rows.get(*slot)) {
            let (mut proved, mut plainly) = (lent.clone(), lent.clone());
            drop_row(&mut proved.0, &mut proved.1, row.number);
            plain::closing::drop_row(&mut plainly.0, &mut plainly.1, row.number);
            assert!(
                proved == plainly,
                "row {} of\n{}",
                row.number,
                tables.print()
            );
        }
    }
}

#[test]
fn nothing_to_close() {
    numbers_of_none(&PROVED);
}

#[test]
fn wrong_lengths() {
    other_lengths(&PROVED);
}
