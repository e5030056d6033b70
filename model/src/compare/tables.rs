//! One call on tables: the answer and the whole state after.

use super::antt::{bytes, list, state, state_numbers};
use super::case::{name, same, Case};
use super::conformance::conformance_calls;
use super::features;
use crate::random::Rng;
use crate::session::call;
use crate::tables::Tables;

/// The definitions answer a call on these tables, and leave them, as the
/// model does; none where the tables are no state of the definitions.
pub fn case(name: String, about: String, tables: &Tables, line: &[u8]) -> Option<Case> {
    let mut after = tables.clone();
    let answer = call(&mut after, line).print();
    let numbers = state_numbers(&after)?.concat();
    let called = format!("called {} {}", state(tables)?, bytes(line));
    let expected = format!("{} ++ {}", bytes(&answer), list(numbers));
    let answer = String::from_utf8_lossy(&answer);
    Some(Case {
        name,
        about: format!("{about}, the model answers {}", answer.trim_end()),
        claim: same(&called, &expected),
        files: vec![
            ("tables", tables.print().into_bytes()),
            ("call", line.to_vec()),
        ],
    })
}

/// The first so many conformance tables, each with its call.
pub fn conformance(count: usize) -> std::io::Result<Vec<Case>> {
    let mut cases = Vec::new();
    for (name_of_file, tables, line) in conformance_calls()?.into_iter().take(count) {
        let about = format!("conformance/tables/{name_of_file}.tables");
        cases.extend(case(name("tables", cases.len()), about, &tables, &line));
    }
    Ok(cases)
}

/// Single calls that were chosen for their features.
pub fn single(rng: &mut Rng, count: usize) -> Vec<Case> {
    let calls = features::calls(rng, count);
    let each = calls.iter().enumerate().filter_map(|(at, (tables, line))| {
        let about = "chosen call on random tables".to_string();
        case(name("single", at), about, tables, line)
    });
    each.collect()
}
