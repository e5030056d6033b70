//! Pages: of sessions, of tables and of words of any content.

use super::antt::{bytes, list, runs, state};
use super::case::{name, same, Case};
use super::random_tables::some_tables;
use crate::cases;
use crate::page::{lines_from, page, session_end, session_page, words_page};
use crate::random::any_rows::any_rows;
use crate::random::damage::damage;
use crate::random::{session, sound_state_of, Profile, Rng, SMALL, SMALL_SHAPES};
use crate::tables::Tables;
use crate::words::PROCESS_WORDS;

/// The definitions' page at the end of this session is this one.
pub fn of_session(input: &[u8], page: &[u8]) -> String {
    same(&format!("session_page {}", bytes(input)), &bytes(page))
}

/// Their page of these tables is this one; none where the tables are no state of the definitions.
pub fn of_tables(tables: &Tables, page: &[u8]) -> Option<String> {
    let said = format!("state_page {}", state(tables)?);
    Some(same(&said, &bytes(page)))
}

/// Their page of these words is this one, and so are the lines from each of the first slots on.
pub fn of_words(tables: &[u32], records: &[u32], page: &[u8]) -> String {
    let said = format!("words_page {} {}", runs(tables), runs(records));
    let later = (0..SLOTS).flat_map(|from| lines_from(tables, from, usize::MAX));
    let expected: Vec<u8> = page.iter().copied().chain(later).collect();
    same(&said, &bytes(&expected))
}

/// As `words_page` of help.txt has them.
const SLOTS: usize = 3;

/// Of a random session the calls; of one of conformance/ the most bytes; of words the most rows.
const CALLS: usize = 20;
const MOST_BYTES: usize = 2000;
const MOST_ROWS: usize = 5;

/// The definitions' page of this session is the model's.
pub fn case(name: String, about: String, input: Vec<u8>) -> Case {
    let page = session_page(&input);
    told(name, about, input, &page)
}

fn told(name: String, about: String, input: Vec<u8>, page: &[u8]) -> Case {
    Case {
        name,
        about,
        claim: of_session(&input, page),
        files: vec![("session", input), ("page", page.to_vec())],
    }
}

fn tables_case(at: usize, about: String, tables: &Tables, page: &[u8]) -> Option<Case> {
    Some(Case {
        name: name("page-tables", at),
        about,
        claim: of_tables(tables, page)?,
        files: vec![
            ("tables", tables.print().into_bytes()),
            ("page", page.to_vec()),
        ],
    })
}

/// The pages of conformance/: of a session of up to so many bytes that of the session, of a longer
/// one that of the tables at its end.
fn conformance() -> std::io::Result<Vec<Case>> {
    let mut found = Vec::new();
    for (at, case) in cases::of_pages()?.into_iter().enumerate() {
        let (input, page) = (case.session().0, case.page.unwrap_or_default());
        if input.len() <= MOST_BYTES {
            found.push(told(name("page-session", at), case.at, input, &page));
        } else {
            let tables = session_end(&input);
            found.extend(tables_case(at, case.at, &tables, &page));
        }
    }
    Ok(found)
}

/// The pages of conformance/, and so many random ones: of sessions, of tables (twice), of words.
pub fn pages(rng: &mut Rng, count: usize) -> std::io::Result<Vec<Case>> {
    let mut cases = match count {
        0 => Vec::new(),
        _ => conformance()?,
    };
    let first = cases.len();
    for at in first..first + count {
        match at % 4 {
            0 => cases.push(random_session(rng, at)),
            1 => cases.extend(random_tables(rng, at)),
            2 => cases.extend(sound_tables(rng, at)),
            _ => cases.push(random_words(rng, at)),
        }
    }
    Ok(cases)
}

/// Every second session is damaged.
fn random_session(rng: &mut Rng, at: usize) -> Case {
    let profile = rng.pick(&SMALL).unwrap_or(Profile::Tiny);
    let about = format!("page of a random session, {profile:?}");
    let mut input = session(rng.word(), profile, CALLS);
    if at % 8 == 0 {
        input = damage(rng, &input);
    }
    case(name("page-session", at), about, input)
}

fn random_tables(rng: &mut Rng, at: usize) -> Option<Case> {
    let (tables, profile) = some_tables(rng);
    let about = format!("page of random tables, {profile:?}");
    tables_case(at, about, &tables, &page(&tables))
}

fn sound_tables(rng: &mut Rng, at: usize) -> Option<Case> {
    let shape = rng.pick(&SMALL_SHAPES)?;
    let tables = sound_state_of(rng, shape);
    let about = format!("page of sound tables, {shape:?}");
    tables_case(at, about, &tables, &page(&tables))
}

/// Words of any content, with few rows: the prover goes through them for each word.
fn random_words(rng: &mut Rng, at: usize) -> Case {
    let used = rng.below(MOST_ROWS + 1);
    let words = any_rows(rng, used);
    let page = words_page(&words);
    Case {
        name: name("page-words", at),
        about: format!("page of words of any content, {used} rows"),
        claim: of_words(&words, &[0; PROCESS_WORDS], &page),
        files: vec![("words", list(words).into_bytes()), ("page", page)],
    }
}
