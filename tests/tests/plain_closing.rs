//! Closing in plain Rust, which the proved closing's speed is compared with,
//! does the same.

mod common;

use common::closings::{agrees, compare, numbers_of_none, other_lengths, Closer, Closing};
use common::words;
use kernel::plain::closing::{close_port, close_request, drop_row};
use kernel::plain::closing_tables::*;
use model::Tables;

const PLAIN: Closer = Closer {
    request: close_request,
    port: close_port,
    row: drop_row,
};

#[test]
fn closings() {
    compare(&PLAIN).check();
}

#[test]
fn nothing_to_close() {
    numbers_of_none(&PLAIN);
}

#[test]
fn wrong_lengths() {
    other_lengths(&PLAIN);
}

/// Tables of so many rows and requests, of which the closing meant takes so
/// many out.
fn takes_out(built: (Tables, u32), sizes: (usize, usize), out: (usize, usize)) {
    let (tables, request) = built;
    let size = |tables: &Tables| (tables.rows.len(), tables.requests.len());
    let after = agrees(&PLAIN, &tables, &words(&tables), Closing::Request(request));
    assert_eq!(size(&tables), sizes);
    assert_eq!(size(&after), (sizes.0 - out.0, sizes.1 - out.1));
}

#[test]
fn tables_of_the_benchmark() {
    for rows in [10, 100, 1_024] {
        takes_out(one_copy(rows), (rows, 1), (1, 1));
    }
    takes_out(one_copy_full(), (1_024, 128), (1, 1));
    // all but four rows in the node, four held and the port of the first
    takes_out(cascade_of_85(), (518, 85), (508, 85));
    takes_out(cascade_of_85_full(), (1_024, 85), (508, 85));
}
