//! The history of sessions: after every line the rows that stand and the ends
//! on loan, and at the end the open requests with what is noted of them.

use super::antt::{bytes, list};
use super::case::{name, same, Case};
use super::conformance::conformance_inputs;
use crate::history::History;
use crate::session::Session;

/// The definitions' history of this session tells what the model's tells.
pub fn case(name: String, about: String, input: Vec<u8>) -> Case {
    let (replies, told) = told(&input);
    let claim = same(
        &format!("told {} {}", bytes(&input), bytes(&replies)),
        &list(told),
    );
    Case {
        name,
        about,
        claim,
        files: vec![("session", input)],
    }
}

/// The replies to the lines after the opening, and what the history tells.
fn told(input: &[u8]) -> (Vec<u8>, Vec<u32>) {
    let mut session = Session::begin(input);
    let (mut replies, mut told) = (Vec::new(), Vec::new());
    if !session.opening.accepted() {
        return (replies, told);
    }
    let mut history = History::begin(input, &session.opening.print());
    told.extend(moment(&history));
    while let Some((line, answer)) = session.step() {
        let answer = answer.print();
        history.note(line, &answer);
        told.extend(moment(&history));
        replies.extend(answer);
    }
    for number in history.now.open_requests.iter().rev() {
        let noted = &history.notes.requests[number];
        let ends = noted.ends.len() as u32;
        told.extend([*number, noted.lender, noted.port, ends]);
        told.extend(&noted.ends);
    }
    (replies, told)
}

/// The rows that stand, newest first, and the loans, the newest request's
/// first and its ends in the order named; each with their count before them.
pub fn moment(history: &History) -> Vec<u32> {
    let now = &history.now;
    let mut told = vec![now.standing.len() as u32];
    told.extend(now.standing.iter().rev());
    told.push(now.loans.len() as u32);
    for (number, request) in history.notes.requests.iter().rev() {
        let lent = |end: &&u32| now.loans.contains(&(*number, **end));
        let ends = request.ends.iter().filter(lent);
        told.extend(ends.flat_map(|end| [*number, *end]));
    }
    told
}

/// The histories of so many sessions: half of them of those given, the others
/// conformance sessions of up to so many lines.
pub fn histories(chosen: &[Vec<u8>], lines: usize, count: usize) -> std::io::Result<Vec<Case>> {
    let given = chosen.iter().take(count / 2).cloned();
    let mut inputs: Vec<_> = given.map(|s| ("a chosen session".to_string(), s)).collect();
    let mut conformance = conformance_inputs(lines)?;
    conformance.retain(|(about, _)| !about.contains("garbled"));
    conformance.truncate(count - inputs.len());
    inputs.extend(conformance);
    let each = inputs.into_iter().enumerate();
    let cases = each.map(|(at, (about, input))| {
        case(name("history", at), format!("history of {about}"), input)
    });
    Ok(cases.collect())
}
