//! What the definitions answer where they differ: read bit by bit. The
//! prover tells only whether a claim holds, so there is a claim for each bit.

use super::antt::{bytes, list, state, state_numbers};
use super::case::{same, Case};
use crate::session::{call, run_session};
use crate::tables::Tables;

/// An answer is read up to its line feed. The longest has twelve numbers of ten digits.
const BYTES: usize = 137;

/// The bits of a byte of ASCII.
const BITS: u32 = 7;

fn claim(name: String, claim: String) -> Case {
    Case {
        name,
        about: String::new(),
        claim,
        files: Vec::new(),
    }
}

fn bit_name(at: usize, bit: u32) -> String {
    format!("bit-{at}-{bit}")
}

/// A claim for each bit of a text from a byte on: it is 1.
fn bits(text: &str, from: usize) -> Vec<Case> {
    let positions = (0..BYTES).flat_map(|at| (0..BITS).map(move |bit| (at, bit)));
    let each = positions.map(|(at, bit)| {
        let bit_of = format!("bit_of {} {} ({text})", from + at, 1 << bit);
        claim(bit_name(at, bit), bit_of)
    });
    each.collect()
}

/// The claims that tell what the definitions print instead of the model's
/// last line.
pub fn of_session(input: &[u8]) -> Vec<Case> {
    let output = run_session(input);
    let lines: Vec<&[u8]> = output.split_inclusive(|b| *b == b'\n').collect();
    let last = lines.last().map_or(0, |line| line.len());
    let text = format!("session {}", bytes(input));
    bits(&text, output.len() - last)
}

/// The claims that tell what the definitions print of two texts, the first bytes of it.
pub fn of_texts(texts: &[u8]) -> Vec<Case> {
    bits(&format!("join {}", bytes(texts)), 0)
}

/// The claims that tell what the definitions answer to a call on tables, and
/// which parts of the state after it are as in the model.
pub fn of_call(tables: &Tables, line: &[u8]) -> Option<Vec<Case>> {
    let state = state(tables)?;
    let line_text = bytes(line);
    let mut cases = bits(&format!("answer_to {state} {line_text}"), 0);
    let mut after = tables.clone();
    call(&mut after, line);
    let tells = ["tell_next", "tell_rows", "tell_requests", "tell_processes"];
    for (tell, numbers) in tells.iter().zip(state_numbers(&after)?) {
        let told = format!("{tell} (state_after {state} {line_text})");
        cases.push(claim(format!("part-{tell}"), same(&told, &list(numbers))));
    }
    Some(cases)
}

/// The text whose bits of value 0 are named, up to its line feed.
pub fn read(zeros: &[&str]) -> String {
    let lines = read_lines(zeros);
    lines.lines().next().unwrap_or("").to_string()
}

/// The text whose bits of value 0 are named, all lines of it.
pub fn read_lines(zeros: &[&str]) -> String {
    let bytes = (0..BYTES).map(|at| {
        let ones = (0..BITS).filter(|bit| !zeros.contains(&bit_name(at, *bit).as_str()));
        ones.map(|bit| 1u8 << bit).sum::<u8>()
    });
    bytes
        .take_while(|byte| *byte != 0)
        .map(char::from)
        .collect()
}
