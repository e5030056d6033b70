//! The cases of cases/: the answers that they tell, and the tables afterwards.

use super::antt::{bytes, list, runs, state, state_numbers};
use super::case::{name, same, Case};
use super::{histories, joins, pages};
use crate::cases::{self, Lent, Step};
use crate::session::{call, open};
use crate::tables::Tables;
use crate::words::{call_entry, open_entry};

/// Those of at most so many rows; an error names a case that is no case for the definitions.
pub fn by_hand(rows: usize) -> std::io::Result<Vec<Case>> {
    let few = |case: &cases::Case| {
        let start = case.start.as_ref();
        start.is_none_or(|lent| lent.tables.rows.len() <= rows)
    };
    chosen(few)
}

/// Those with these names; `history of NAME` is the history of a session.
pub fn named(names: &[&str]) -> std::io::Result<Vec<Case>> {
    let mut found = chosen(|case| names.contains(&case.name.as_str()))?;
    found.extend(joins::by_hand(|case| names.contains(&case.name.as_str()))?);
    let noted = |case: &&cases::Case| names.contains(&format!("history of {}", case.name).as_str());
    let cases = cases::by_hand()?;
    found.extend(histories(cases.iter().filter(noted)));
    Ok(found)
}

/// The histories of the sessions among them.
pub fn all_histories() -> std::io::Result<Vec<Case>> {
    Ok(histories(cases::by_hand()?.iter()))
}

fn histories<'a>(cases: impl Iterator<Item = &'a cases::Case>) -> Vec<Case> {
    let sessions = cases.filter(|case| case.is_session()).enumerate();
    let each = sessions.map(|(at, case)| {
        let about = format!("{} history of {}", case.at, case.name);
        histories::case(name("history-case", at), about, case.session().0)
    });
    each.collect()
}

fn chosen(test: impl Fn(&cases::Case) -> bool) -> std::io::Result<Vec<Case>> {
    let mut found = Vec::new();
    let all = cases::by_hand()?;
    for (at, case) in all.iter().enumerate().filter(|(_, case)| test(case)) {
        let claim = claim(case).ok_or_else(|| {
            let said = format!("{}: no case for the definitions", case.at);
            std::io::Error::new(std::io::ErrorKind::InvalidData, said)
        })?;
        let (input, answers) = case.session();
        let start = case.start.as_ref().map(|lent| lent.tables.print());
        found.push(Case {
            name: name("case", at),
            about: format!("{} {}", case.at, case.name),
            claim,
            files: vec![
                ("lent", start.unwrap_or_default().into_bytes()),
                ("lines", input),
                ("answers", answers),
            ],
        });
    }
    Ok(found)
}

/// What is told of answers and tables; and where it is told, of the page and of the clauses that break.
fn claim(case: &cases::Case) -> Option<String> {
    let mut parts = vec![told(case)?];
    if let Some(page) = &case.page {
        parts.push(page_told(case, page)?);
    }
    if !case.breaks.is_empty() {
        parts.push(clauses_told(case)?);
    }
    Some(parts.join(" && "))
}

/// The page is that of the session's end; else of the tables, or the words, that the case leaves.
fn page_told(case: &cases::Case, page: &[u8]) -> Option<String> {
    match &case.start {
        None => Some(pages::of_session(&case.session().0, page)),
        Some(lent) if lent.changes.is_empty() && all_calls(case) => {
            pages::of_tables(&after(case, lent.tables.clone())?, page)
        }
        Some(lent) => {
            let (tables, records) = words_after(case, lent.words()?);
            Some(pages::of_words(&tables, &records, page))
        }
    }
}

/// These clauses break in what is lent, and no others.
fn clauses_told(case: &cases::Case) -> Option<String> {
    let lent = case.start.as_ref()?;
    let state = match lent.changes.is_empty() {
        true => state(&lent.tables)?,
        false => {
            let (tables, records) = lent.words()?;
            format!("(state_of {} {})", runs(&tables), runs(&records))
        }
    };
    Some(clauses_alone(&state, &case.breaks))
}

/// These clauses break in the state, and no others.
pub fn clauses_alone(state: &str, broken: &[usize]) -> String {
    let holds = CLAUSES.iter().map(|c| u32::from(!broken.contains(c)));
    same(&format!("clauses {state}"), &list(holds))
}

/// The clauses in the order in which Sound.antt has them in its five parts.
const CLAUSES: [usize; 27] = [
    1, 2, 3, 4, 5, 6, 7, 9, 10, 11, 13, 14, 15, 17, 12, 18, 19, 20, 21, 22, 23, 24, 25, 26, 8, 16,
    27,
];

fn told(case: &cases::Case) -> Option<String> {
    match &case.start {
        None if case.is_session() => of_session(case),
        Some(lent) if lent.changes.is_empty() && all_calls(case) => of_calls(case, &lent.tables),
        Some(lent) => of_words(case, lent),
        None => None,
    }
}

fn all_calls(case: &cases::Case) -> bool {
    case.steps.iter().all(|s| matches!(s, Step::Call { .. }))
}

/// The lines of the calls, as a list.
fn lines(case: &cases::Case) -> String {
    let calls = case.steps.iter().filter_map(|step| match step {
        Step::Call { line, .. } => Some(bytes(line) + " ∷ "),
        Step::Open { .. } => None,
    });
    format!("({}[])", calls.collect::<String>())
}

/// What is told of the tables afterwards, else what the model leaves.
fn after(case: &cases::Case, mut tables: Tables) -> Option<Tables> {
    if let Some(after) = &case.after {
        return after.changes.is_empty().then(|| after.tables.clone());
    }
    for step in &case.steps {
        match step {
            Step::Open { text, .. } => tables = open(text).0,
            Step::Call { line, .. } => drop(call(&mut tables, line)),
        }
    }
    Some(tables)
}

fn answers(case: &cases::Case) -> String {
    bytes(&case.session().1)
}

fn of_session(case: &cases::Case) -> Option<String> {
    let after = state_numbers(&after(case, Tables::empty())?)?.concat();
    let said = format!("session_then {}", bytes(&case.session().0));
    Some(same(
        &said,
        &format!("{} ++ {}", answers(case), list(after)),
    ))
}

fn of_calls(case: &cases::Case, tables: &Tables) -> Option<String> {
    let after = state_numbers(&after(case, tables.clone())?)?.concat();
    let said = format!("called_all {} {}", state(tables)?, lines(case));
    Some(same(
        &said,
        &format!("{} ++ {}", answers(case), list(after)),
    ))
}

/// On words: an opening first or none, then calls.
fn of_words(case: &cases::Case, lent: &Lent) -> Option<String> {
    let (before, records) = lent.words()?;
    let (tables, processes) = match &case.after {
        Some(after) => after.words()?,
        None => words_after(case, (before.clone(), records.clone())),
    };
    let lent = format!("{} {}", runs(&before), runs(&records));
    let said = match case.steps.first()? {
        Step::Open { text, .. } => format!("opened_then {lent} {} {}", bytes(text), lines(case)),
        Step::Call { .. } => format!("words_then {lent} {}", lines(case)),
    };
    let expected = format!(
        "{} ++ {}",
        answers(case),
        runs(&[tables, processes].concat())
    );
    Some(same(&said, &expected))
}

fn words_after(case: &cases::Case, lent: (Vec<u32>, Vec<u32>)) -> (Vec<u32>, Vec<u32>) {
    let (mut tables, mut records) = lent;
    for step in &case.steps {
        match step {
            Step::Open { text, .. } => drop(open_entry(&mut tables, &mut records, text)),
            Step::Call { line, .. } => drop(call_entry(&mut tables, &mut records, line)),
        }
    }
    (tables, records)
}
