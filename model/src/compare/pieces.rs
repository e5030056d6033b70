//! Conformance sessions that are too long for one computation, in pieces of calls: each from the
//! tables that the piece before it left.

use super::antt::{bytes, list, state, state_numbers};
use super::case::{name, same, Case};
use crate::cases::{self, Step};
use crate::session::{call_sound, open};

/// So many calls in a piece.
const CALLS: usize = 50;

/// The pieces of sessions of more than so many lines, those whose tables have at most so many
/// rows before them.
pub fn pieces(lines: usize, rows: usize) -> std::io::Result<Vec<Case>> {
    let mut found = Vec::new();
    for case in cases::of_conformance()? {
        let (input, _) = case.session();
        let long = input.iter().filter(|b| **b == b'\n').count() > lines;
        if long && rows > 0 && case.is_session() {
            found.extend(of_session(&case, rows));
        }
    }
    let each = found.into_iter().enumerate();
    Ok(each
        .map(|(at, case)| Case {
            name: name("piece", at),
            ..case
        })
        .collect())
}

fn of_session(case: &cases::Case, rows: usize) -> Vec<Case> {
    let mut found = Vec::new();
    let Some((Step::Open { text, .. }, calls)) = case.steps.split_first() else {
        return found;
    };
    let mut tables = open(text).0;
    for (at, piece) in calls.chunks(CALLS).enumerate() {
        let before = state(&tables);
        let few = tables.rows.len() <= rows;
        piece
            .iter()
            .for_each(|step| drop(call_sound(&mut tables, step.text())));
        let lines: String = piece
            .iter()
            .map(|step| bytes(step.text()) + " ∷ ")
            .collect();
        let answers: Vec<u8> = piece.iter().flat_map(Step::answer).copied().collect();
        let (Some(before), Some(after), true) = (before, state_numbers(&tables), few) else {
            continue;
        };
        let said = format!("calls_then {before} ({lines}[])");
        found.push(Case {
            name: String::new(),
            about: format!("{}, calls from {}", case.at, at * CALLS + 1),
            claim: same(
                &said,
                &format!("{} ++ {}", bytes(&answers), list(after.concat())),
            ),
            files: vec![(
                "lines",
                piece.iter().flat_map(Step::text).copied().collect(),
            )],
        });
    }
    found
}
