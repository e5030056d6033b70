//! The thirteen calls on sound tables: the answer and every word of both runs,
//! against the model. A longer run, by so many rounds of the one in the gate:
//!
//!     ROUNDS=50 cargo test --release --offline --manifest-path tests/Cargo.toml --test performing -- --ignored

mod common;

use common::calls::{calls_of, codes_without_caller, others_stay};
use common::calls::{the_last_number, the_last_request, the_last_row};
use common::performed::Perform;
use kernel::performing::perform;

const PERFORM: Perform = perform;

#[test]
fn calls_as_the_model_makes_them() {
    let seen = calls_of(&PERFORM, 0..6);
    seen.print("performed as the model performs");
    seen.check(100);
    assert!(seen.calls() >= 300_000, "{} calls", seen.calls());
}

#[test]
#[ignore = "the longer run"]
fn more_calls() {
    let rounds = std::env::var("ROUNDS").map_or(50, |n| n.parse().expect("a number of rounds"));
    let seen = calls_of(&PERFORM, 6..6 + rounds);
    seen.print("performed as the model performs");
    seen.check(100);
}

#[test]
fn row_1025() {
    the_last_row(&PERFORM);
}

#[test]
fn request_129() {
    the_last_request(&PERFORM);
}

#[test]
fn the_last_number_is_given() {
    the_last_number(&PERFORM);
}

#[test]
fn other_lengths_and_callers() {
    others_stay(perform);
    codes_without_caller(perform);
}
