//! The entry points on words: the reply and every word after.

use super::antt::{bytes, list, runs};
use super::case::{name, same, Case};
use super::conformance::conformance_calls;
use super::random_tables::sound_call;
use super::states::state_call;
use crate::limits::LAST_NUMBER;
use crate::random::damage::damage;
use crate::random::{openings, Calls, Profile, Rng, Shape, SMALL};
use crate::sound::sound;
use crate::tables::Tables;
use crate::words::{call_entry, encode, open_entry, PROCESS_WORDS, TABLES_WORDS};

/// The two lent runs of words.
type Lent = (Vec<u32>, Vec<u32>);

/// One of the two entry points of the model.
type Entry = fn(&mut [u32], &mut [u32], &[u8]) -> Vec<u8>;

const CALL: (&str, Entry) = ("called_words", call_entry);
const OPEN: (&str, Entry) = ("opened_words", open_entry);

/// The definitions reply, and leave the words, as the model does.
fn case(name: String, about: String, entry: (&str, Entry), lent: Lent, text: &[u8]) -> Case {
    let (mut tables, mut processes) = lent.clone();
    let reply = entry.1(&mut tables, &mut processes, text);
    let (before, records) = lent;
    let called = format!(
        "{} {} {} {}",
        entry.0,
        runs(&before),
        runs(&records),
        bytes(text)
    );
    let after = [tables, processes].concat();
    let expected = format!("{} ++ {}", bytes(&reply), runs(&after));
    let said = String::from_utf8_lossy(&reply).trim_end().to_string();
    let lines = format!("{}\n{}\n", list(before), list(records));
    Case {
        name,
        about: format!("{about}, the model replies {said}"),
        claim: same(&called, &expected),
        files: vec![("words", lines.into_bytes()), ("call", text.to_vec())],
    }
}

/// Tables of at most so many rows: the prover takes a tenth of a second a row.
const MOST_ROWS: usize = 12;

/// Cases in turn: conformance tables, random sound tables (twice), words of
/// which some are changed, openings on words of any content.
pub fn words(rng: &mut Rng, count: usize) -> std::io::Result<Vec<Case>> {
    let mut conformance = conformance_calls()?;
    conformance.retain(|(_, tables, _)| sound(tables) && is_small(tables));
    rng.shuffle(&mut conformance);
    let mut cases: Vec<Case> = Vec::new();
    while cases.len() < count {
        let at = cases.len();
        let made = match at % 5 {
            0 => conformance.pop().and_then(|c| of_conformance(at, c)),
            1 | 2 => of_tables(rng, at),
            3 => changed(rng, at),
            _ => Some(opening(rng, at)),
        };
        cases.extend(made.or_else(|| of_tables(rng, at)));
    }
    Ok(cases)
}

fn of_conformance(at: usize, (file, tables, line): (String, Tables, Vec<u8>)) -> Option<Case> {
    let about = format!("words of conformance/tables/{file}.tables");
    Some(case(
        name("words", at),
        about,
        CALL,
        encode(&tables)?,
        &line,
    ))
}

/// Few rows, and an open request among them.
fn is_small(tables: &Tables) -> bool {
    tables.rows.len() <= MOST_ROWS && !tables.requests.is_empty()
}

/// Sound tables of few rows, and a line: those of a session, or such as no session made.
fn small_call(rng: &mut Rng) -> (Tables, Vec<u8>) {
    loop {
        let (tables, line) = match rng.percent(50) {
            true => sound_call(rng),
            false => state_call(rng, Shape::Few, &mut Calls::default()),
        };
        if is_small(&tables) {
            return (tables, line);
        }
    }
}

fn of_tables(rng: &mut Rng, at: usize) -> Option<Case> {
    let (tables, line) = small_call(rng);
    let about = "words of random sound tables".to_string();
    Some(case(
        name("words", at),
        about,
        CALL,
        encode(&tables)?,
        &line,
    ))
}

/// Words of sound tables with one changed: any word, one of a used slot, or
/// one more or less in a run.
fn changed(rng: &mut Rng, at: usize) -> Option<Case> {
    let (tables, line) = small_call(rng);
    let (mut words, mut processes) = encode(&tables)?;
    let value = match rng.percent(25) {
        true => rng.between(LAST_NUMBER, LAST_NUMBER + 1),
        false => rng.between(0, 40),
    };
    let column = rng.below(10) * 1024;
    let slot = rng.below(tables.rows.len());
    match at % 4 {
        0 => words[rng.below(TABLES_WORDS)] = value,
        1 => words[column + slot] = value,
        2 => processes.push(0),
        _ => drop(words.pop()),
    }
    let about = "words changed".to_string();
    Some(case(
        name("words", at),
        about,
        CALL,
        (words, processes),
        &line,
    ))
}

/// An opening, damaged or not, on words of any content; now and then a run
/// has another length.
fn opening(rng: &mut Rng, at: usize) -> Case {
    let profile = rng.pick(&SMALL).unwrap_or(Profile::Tiny);
    let mut text = openings::opening(rng, profile);
    if at % 2 == 0 {
        text = damage(rng, &text);
    }
    let more = if at % 3 == 0 { 1 } else { 0 };
    let lent = (vec![3; TABLES_WORDS], vec![5; PROCESS_WORDS + more]);
    case(
        name("words", at),
        "an opening on words".to_string(),
        OPEN,
        lent,
        &text,
    )
}
