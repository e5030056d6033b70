//! The product's entry points, bytes to bytes, on words of any content and any
//! length: the reply and every word of both runs, against the model. A longer
//! run, by so many rounds of the one in the gate:
//!
//!     ROUNDS=50 cargo test --release --offline --manifest-path tests/Cargo.toml --test entry -- --ignored

mod common;

use common::entries::Entry;
use common::entry_run::{check, run};
use kernel::entry::{call, open};

#[test]
fn bytes_to_bytes() {
    let entry = Entry::new(open, call);
    run(&entry, 0..3);
    check(&entry, 500_000, 100);
}

#[test]
#[ignore = "the longer run"]
fn more_bytes() {
    let rounds = std::env::var("ROUNDS").map_or(50, |n| n.parse().expect("a number of rounds"));
    let entry = Entry::new(open, call);
    run(&entry, 3..3 + rounds);
    check(&entry, 500_000, 100);
}
