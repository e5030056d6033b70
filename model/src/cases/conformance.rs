//! Sessions with their answers, and the files of conformance/, as cases.

use super::lent::Lent;
use super::{Case, Join, Step};
use crate::form::split_lines;
use crate::session::{open, run_session};
use crate::tables::Tables;
use std::fs;
use std::io;
use std::path::{Path, PathBuf};

/// A session and what it prints: the opening has the first answer, each line after it one.
pub fn session(at: String, input: Vec<u8>, output: &[u8]) -> Case {
    let (_, _, bytes) = open(&input);
    let (text, rest) = input.split_at(bytes.min(input.len()));
    let mut answers = split_lines(output).map(<[u8]>::to_vec);
    let mut next = || answers.next().unwrap_or_default();
    let mut steps = vec![Step::Open {
        text: text.to_vec(),
        answer: next(),
    }];
    let calls = split_lines(rest).map(|line| Step::Call {
        line: line.to_vec(),
        answer: next(),
    });
    steps.extend(calls);
    let case = Case {
        name: at.clone(),
        at,
        rules: Vec::new(),
        breaks: Vec::new(),
        start: None,
        steps,
        after: None,
        page: None,
    };
    assert!(
        answers.next().is_none(),
        "{}: more answers than lines",
        case.at
    );
    case
}

/// The files of a directory with this ending, in order.
fn files(directory: &Path, ending: &str) -> io::Result<Vec<PathBuf>> {
    let paths = fs::read_dir(directory)?.map(|e| Ok(e?.path()));
    let mut found = paths.collect::<io::Result<Vec<PathBuf>>>()?;
    found.retain(|p| p.extension().is_some_and(|e| e == ending));
    found.sort();
    Ok(found)
}

/// All sessions, then all tables with their calls.
pub fn read(directory: &Path) -> io::Result<Vec<Case>> {
    let mut cases = Vec::new();
    for path in files(&directory.join("sessions"), "session")? {
        let output = fs::read(path.with_extension("answers"))?;
        cases.push(session(name(&path), fs::read(&path)?, &output));
    }
    for path in files(&directory.join("tables"), "tables")? {
        let after = fs::read_to_string(path.with_extension("after"))?;
        let line = fs::read(path.with_extension("call"))?;
        let read = tables_case(&path, fs::read_to_string(&path)?, line, after);
        let said = || io::Error::new(io::ErrorKind::InvalidData, name(&path));
        cases.push(read.ok_or_else(said)?);
    }
    Ok(cases)
}

/// The sessions with their pages. Nothing is told of their answers, which are the model's.
pub fn pages(directory: &Path) -> io::Result<Vec<Case>> {
    let mut cases = Vec::new();
    for path in files(&directory.join("pages"), "session")? {
        let input = fs::read(&path)?;
        let output = run_session(&input);
        cases.push(Case {
            page: Some(fs::read(path.with_extension("page"))?),
            ..session(name(&path), input, &output)
        });
    }
    Ok(cases)
}

/// The texts that are joined, with what is printed of them.
pub fn joins(directory: &Path) -> io::Result<Vec<Join>> {
    let mut joins = Vec::new();
    for path in files(&directory.join("joins"), "texts")? {
        joins.push(Join {
            at: name(&path),
            name: name(&path),
            rules: Vec::new(),
            texts: fs::read(&path)?,
            joined: fs::read(path.with_extension("joined"))?,
        });
    }
    Ok(joins)
}

fn name(path: &Path) -> String {
    let parts: Vec<_> = path
        .iter()
        .rev()
        .take(2)
        .map(|p| p.to_string_lossy())
        .collect();
    format!("conformance/{}/{}", parts[1], parts[0])
}

/// Tables, a call, and `after`: the answer, the tables, a line with a dot.
fn tables_case(path: &Path, tables: String, line: Vec<u8>, after: String) -> Option<Case> {
    let (answer, rest) = after.split_once('\n')?;
    let answer = format!("{answer}\n").into_bytes();
    Some(Case {
        name: name(path),
        at: name(path),
        rules: Vec::new(),
        breaks: Vec::new(),
        start: Some(lent(&tables)?),
        steps: vec![Step::Call { line, answer }],
        after: Some(lent(rest.strip_suffix(".\n")?)?),
        page: None,
    })
}

fn lent(text: &str) -> Option<Lent> {
    let mut lent = Lent::of(Tables::empty());
    text.lines().try_for_each(|line| lent.add(line))?;
    Some(lent)
}
