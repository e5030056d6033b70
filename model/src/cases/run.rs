//! Runs a case on a kernel's two entry points and its function that writes pages.

use super::lent::any_words;
use super::{Case, Step};
use crate::page::words_page;

/// An entry point: it changes the two lent runs and gives the answer.
pub type Entry = fn(&mut [u32], &mut [u32], &[u8]) -> Vec<u8>;

/// The two entry points of a kernel, and the page of words.
#[derive(Clone, Copy)]
pub struct Entries {
    pub open: Entry,
    pub call: Entry,
    pub page: fn(&[u32]) -> Vec<u8>,
}

/// Every answer is the one told, a refused call leaves every word (rule K5), and the words
/// afterwards and their page are those told (a page that is not told is the model's). Answers the number of steps; 0 where what the case
/// lends has no words.
pub fn run(case: &Case, kernel: Entries) -> Result<usize, String> {
    let lent = match &case.start {
        Some(start) => start.words(),
        None => Some(any_words()),
    };
    let Some((mut tables, mut records)) = lent else {
        return Ok(0);
    };
    for step in &case.steps {
        let before = (tables.clone(), records.clone());
        let answer = match step {
            Step::Open { text, .. } => (kernel.open)(&mut tables, &mut records, text),
            Step::Call { line, .. } => (kernel.call)(&mut tables, &mut records, line),
        };
        if answer != step.answer() {
            return Err(said(case, step, &answer));
        }
        let refused = answer.starts_with(b"(no") && matches!(step, Step::Call { .. });
        if refused && (&tables, &records) != (&before.0, &before.1) {
            return Err(format!(
                "{}: a refused call changed words: {}",
                case.at,
                text(step.text())
            ));
        }
    }
    let page = (kernel.page)(&tables);
    let told_page = case.page.clone().unwrap_or_else(|| words_page(&tables));
    match case.after.as_ref().map(|after| after.words()) {
        Some(told) if told.as_ref() != Some(&(tables.clone(), records.clone())) => {
            Err(differs(case, told, (tables, records)))
        }
        _ if page != told_page => Err(other_page(case, &page)),
        _ => Ok(case.steps.len()),
    }
}

fn other_page(case: &Case, page: &[u8]) -> String {
    let page = String::from_utf8_lossy(page);
    format!("{} ({}): the page is\n{page}", case.at, case.name)
}

fn text(bytes: &[u8]) -> String {
    String::from_utf8_lossy(bytes).trim_end().to_string()
}

fn said(case: &Case, step: &Step, answer: &[u8]) -> String {
    let (line, told) = (text(step.text()), text(step.answer()));
    format!(
        "{} ({}): {line} -> {}, not {told}",
        case.at,
        case.name,
        text(answer)
    )
}

/// The first words that differ.
fn differs(case: &Case, told: Option<(Vec<u32>, Vec<u32>)>, found: (Vec<u32>, Vec<u32>)) -> String {
    let head = format!("{} ({}): afterwards", case.at, case.name);
    let Some(told) = told else {
        return format!("{head}: what is told has no words");
    };
    for (run, told, found) in [("tables", told.0, found.0), ("records", told.1, found.1)] {
        let both = told.iter().zip(&found).enumerate();
        let mut words = both.filter(|(_, (told, found))| told != found);
        if let Some((at, (told, found))) = words.next() {
            return format!("{head} {run}[{at}] is {found}, not {told}");
        }
        if told.len() != found.len() {
            return format!("{head}: {run} of another length");
        }
    }
    head
}
