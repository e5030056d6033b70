//! The entry points in plain Rust, which the speed of the proved ones is
//! compared with, do the same.

mod common;

use common::entries::Entry;
use common::entry_run::{check, run};
use kernel::plain::entry::{call, open};

#[test]
fn bytes_to_bytes() {
    let entry = Entry::new(open, call);
    run(&entry, 0..1);
    check(&entry, 400_000, 30);
}
