//! Whole sessions with the output that the model prints: conformance, random
//! and damaged ones; those of the manual with the answers that it gives.

use super::antt::bytes;
use super::case::{name, same, Case};
use super::conformance::conformance_inputs;
use super::limits;
use crate::manual;
use crate::random::damage::damage;
use crate::random::{session, Profile, Rng, PROFILES, SMALL};
use crate::session::{open, run_session};

/// The definitions print for this input what the model prints.
pub fn case(name: String, about: String, input: Vec<u8>) -> Case {
    let output = run_session(&input);
    prints(name, about, input, &output)
}

/// The definitions print this output for this input.
fn prints(name: String, about: String, input: Vec<u8>, output: &[u8]) -> Case {
    Case {
        name,
        about,
        claim: same(&format!("session {}", bytes(&input)), &bytes(output)),
        files: vec![("session", input)],
    }
}

pub fn conformance(lines: usize) -> std::io::Result<Vec<Case>> {
    let inputs = conformance_inputs(lines)?.into_iter().enumerate();
    let cases = inputs.map(|(at, (about, input))| case(name("conformance", at), about, input));
    Ok(cases.collect())
}

/// The sessions of docs/MANUAL.md.
pub fn of_manual() -> std::io::Result<Vec<Case>> {
    let text = manual::read()?;
    let sessions = manual::sessions(&text).into_iter().enumerate();
    let cases = sessions.map(|(at, told)| {
        let about = format!("docs/MANUAL.md:{}", told.line);
        let output = told.output();
        prints(name("manual", at), about, told.input, &output)
    });
    Ok(cases.collect())
}

/// Random sessions of so many calls, the profiles in turn.
pub fn fresh(rng: &mut Rng, count: usize, calls: usize) -> Vec<Case> {
    let profiles = PROFILES.into_iter().cycle();
    let each = profiles.take(count).enumerate().map(|(at, profile)| {
        let seed = rng.word();
        let about = format!("random session, {profile:?}, seed {seed}, {calls} calls");
        case(name("session", at), about, session(seed, profile, calls))
    });
    each.collect()
}

/// Sessions that were chosen for their features.
pub fn chosen(sessions: &[Vec<u8>]) -> Vec<Case> {
    let each = sessions.iter().enumerate().map(|(at, input)| {
        let about = "random session chosen for what its calls do".to_string();
        case(name("chosen", at), about, input.clone())
    });
    each.collect()
}

/// Short random sessions that are damaged: anywhere, after the opening, or at
/// the limits of lines and nodes.
pub fn damaged(rng: &mut Rng, count: usize) -> Vec<Case> {
    let each = (0..count).map(|at| {
        let profile = rng.pick(&SMALL).unwrap_or(Profile::Tiny);
        let text = session(rng.word(), profile, 6);
        let (_, _, opening) = open(&text);
        let (kept, rest) = text.split_at(opening);
        let input = match at % 8 {
            0 => limits::stretched(rng, &text),
            1 => limits::crowded(rng, &text),
            2..=4 => damage(rng, &text),
            _ => [kept, &damage(rng, rest)].concat(),
        };
        case(name("damaged", at), "damaged text".to_string(), input)
    });
    each.collect()
}
