//! The calls in plain Rust, which the speed of the proved ones is compared
//! with, do the same.

mod common;

use common::calls::{calls_of, codes_without_caller, others_stay};
use common::calls::{the_last_number, the_last_request, the_last_row};
use common::performed::Perform;
use kernel::plain::calls::perform;

const PERFORM: Perform = perform;

#[test]
fn calls_as_the_model_makes_them() {
    calls_of(&PERFORM, 0..6).check(100);
}

#[test]
fn limits() {
    the_last_row(&PERFORM);
    the_last_request(&PERFORM);
    the_last_number(&PERFORM);
}

#[test]
fn other_lengths_and_callers() {
    others_stay(perform);
    codes_without_caller(perform);
}
