//! States that no words say: too few or too many records (rule S8), lists of another length
//! than four (rule S20), a next number above the greatest word (rule S5). The definitions find
//! that clause broken and no other.

use super::by_hand::clauses_alone;
use super::case::{name, Case};
use crate::limits::LAST_NUMBER;

/// The last number, as one that may be counted on from.
const LAST: u64 = LAST_NUMBER as u64;

/// A port from an operation of process 1 to itself, requests and the next number.
fn with_port(client: u64, requests: &str, next: u64) -> String {
    let server = client + 1;
    let ends = format!(
        "row {server} 4 {client} 0 0 101 1 0 2 0 ∷ row {client} 3 {client} 0 0 101 1 0 2 0"
    );
    let operation = "row 1 1 1 0 7 1 0 0 1 0";
    let records = "process 1 1 0 ∷ replicate 63 no_process";
    format!("(state ({ends} ∷ {operation} ∷ []) ({requests}) ({records}) {next})")
}

fn with_list(items: &str) -> String {
    with_port(3, &format!("request_with 5 3 1 0 ({items}) ∷ []"), 6)
}

fn with_records(count: u32) -> String {
    format!("(state [] [] (replicate {count} no_process) 1)")
}

pub fn shapes() -> Vec<Case> {
    let states = [
        ("63 records", 8, with_records(63)),
        ("65 records", 8, with_records(65)),
        ("a list of three items", 20, with_list("0 ∷ 0 ∷ 0 ∷ []")),
        (
            "a list of five items",
            20,
            with_list("0 ∷ 0 ∷ 0 ∷ 0 ∷ 0 ∷ []"),
        ),
        (
            "next 4,294,967,296 and server end 4,294,967,295",
            5,
            with_port(LAST, "[]", LAST + 2),
        ),
    ];
    let each = states.into_iter().enumerate();
    let broken = each.map(|(at, (about, clause, state))| Case {
        name: name("shape", at),
        about: format!("{about}: S{clause} alone breaks"),
        claim: format!(
            "not (sound {state}) && {}",
            clauses_alone(&state, &[clause])
        ),
        files: Vec::new(),
    });
    broken.collect()
}
