//! The cases of cases/ (its README.md says how they are written), those of conformance/ and
//! the sessions of docs/MANUAL.md, all in one form, for every runner; those of joining in another.

mod conformance;
mod join;
mod lent;
mod read;
mod run;

pub use join::{read_joins, run_join, Join};
pub use lent::Lent;
pub use read::{ranges, read_text, Named};
pub use run::{run, Entries};

use crate::manual;
use std::io;
use std::path::{Path, PathBuf};

/// What is said to the kernel, and what it answers, with its line feed.
#[derive(Clone, Debug)]
pub enum Step {
    Open { text: Vec<u8>, answer: Vec<u8> },
    Call { line: Vec<u8>, answer: Vec<u8> },
}

/// A case: what is lent, what is said and answered, what is there afterwards, and its page.
#[derive(Clone, Debug)]
pub struct Case {
    /// Where it stands, and what it is called.
    pub at: String,
    pub name: String,
    pub rules: Vec<String>,
    /// The clauses of soundness, 1 to 27, that what is lent breaks, and no others; none: nothing is said of it.
    pub breaks: Vec<usize>,
    /// None: words of any content, and the first step is an opening.
    pub start: Option<Lent>,
    pub steps: Vec<Step>,
    /// None: nothing is said of it.
    pub after: Option<Lent>,
    /// The page of what is there afterwards; none: nothing is said of it.
    pub page: Option<Vec<u8>>,
}

impl Step {
    pub fn answer(&self) -> &[u8] {
        match self {
            Step::Open { answer, .. } | Step::Call { answer, .. } => answer,
        }
    }

    pub fn text(&self) -> &[u8] {
        match self {
            Step::Open { text, .. } => text,
            Step::Call { line, .. } => line,
        }
    }
}

impl Case {
    /// All that is said, as one text, and all answers.
    pub fn session(&self) -> (Vec<u8>, Vec<u8>) {
        let texts = self.steps.iter().flat_map(Step::text).copied();
        let answers = self.steps.iter().flat_map(Step::answer).copied();
        (texts.collect(), answers.collect())
    }

    /// Whether it is a session: an opening first, then calls, each a line by itself.
    pub fn is_session(&self) -> bool {
        let last = self.steps.len().saturating_sub(1);
        let mut steps = self.steps.iter().enumerate();
        let whole = |at: usize, text: &[u8]| {
            let feed = text.iter().position(|b| *b == b'\n');
            feed == text.len().checked_sub(1) || (feed.is_none() && at == last && at > 0)
        };
        let alone = steps.all(|(at, step)| match step {
            Step::Open { .. } => at == 0,
            Step::Call { line, .. } => at > 0 && whole(at, line),
        });
        self.start.is_none() && alone
    }
}

/// The root of the repository.
fn root() -> PathBuf {
    Path::new(env!("CARGO_MANIFEST_DIR")).join("..")
}

/// The cases of cases/, in the order of the files' names.
pub fn by_hand() -> io::Result<Vec<Case>> {
    read::read_directory(&root().join("cases"))
}

/// The sessions of the manual, as cases.
pub fn of_manual() -> io::Result<Vec<Case>> {
    let sessions = manual::sessions(&manual::read()?).into_iter();
    let cases = sessions.map(|told| {
        let at = format!("docs/MANUAL.md:{}", told.line);
        conformance::session(at, told.input.clone(), &told.output())
    });
    Ok(cases.collect())
}

/// The sessions and tables of conformance/, as cases.
pub fn of_conformance() -> io::Result<Vec<Case>> {
    conformance::read(&root().join("model/conformance"))
}

/// The sessions with their pages of conformance/, as cases.
pub fn of_pages() -> io::Result<Vec<Case>> {
    conformance::pages(&root().join("model/conformance"))
}

/// All of them but those of joining.
pub fn all() -> io::Result<Vec<Case>> {
    let mut cases = by_hand()?;
    cases.extend(of_manual()?);
    cases.extend(of_conformance()?);
    cases.extend(of_pages()?);
    Ok(cases)
}

/// The cases of joining of cases/.
pub fn joins_by_hand() -> io::Result<Vec<Join>> {
    join::read_directory(&root().join("cases"))
}

/// The texts of conformance/ that are joined, as cases.
pub fn joins_of_conformance() -> io::Result<Vec<Join>> {
    conformance::joins(&root().join("model/conformance"))
}

/// All cases of joining.
pub fn all_joins() -> io::Result<Vec<Join>> {
    let mut joins = joins_by_hand()?;
    joins.extend(joins_of_conformance()?);
    Ok(joins)
}
