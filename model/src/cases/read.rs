//! Reads the files of cases/ (its README.md says how they are written).

use super::join::is_join;
use super::lent::Lent;
use super::{Case, Step};
use crate::page::WIDTH;
use crate::tables::Tables;
use std::collections::BTreeMap;
use std::fs;
use std::io;
use std::path::Path;

/// The opening texts and the tables that cases begin with, by their names.
#[derive(Default)]
pub struct Named {
    openings: BTreeMap<String, Vec<u8>>,
    tables: BTreeMap<String, Lent>,
}

/// The files `.cases` of a directory in the order of their names: where each stands, and its text.
pub(super) fn files(directory: &Path) -> io::Result<Vec<(String, String)>> {
    let entries = fs::read_dir(directory)?;
    let mut paths = entries
        .map(|e| Ok(e?.path()))
        .collect::<io::Result<Vec<_>>>()?;
    paths.retain(|p| p.extension().is_some_and(|e| e == "cases"));
    paths.sort();
    let mut files = Vec::new();
    for path in paths {
        let name = path.file_name().unwrap_or_default().to_string_lossy();
        files.push((format!("cases/{name}"), fs::read_to_string(&path)?));
    }
    Ok(files)
}

/// All cases of a directory but those of joining.
pub fn read_directory(directory: &Path) -> io::Result<Vec<Case>> {
    let files = files(directory)?;
    let mut named = Named::default();
    for (file, text) in &files {
        let said = |said| wrong(format!("{file}: {said}"));
        named.read(text).map_err(said)?;
    }
    let read = |(file, text): &(String, String)| read_text(file, text, &named);
    let cases = files.iter().map(read).collect::<Result<Vec<_>, _>>();
    let cases = cases.map_err(wrong)?;
    Ok(cases.concat())
}

/// The paragraphs of a text, each with its first line's number. Lines with `#` are remarks.
pub(super) fn paragraphs(text: &str) -> Vec<(usize, Vec<&str>)> {
    let mut found: Vec<(usize, Vec<&str>)> = Vec::new();
    let mut inside = false;
    for (at, line) in text.lines().enumerate() {
        if line.starts_with('#') {
            continue;
        }
        match (line.is_empty(), inside) {
            (true, _) => inside = false,
            (_, true) => found.last_mut().into_iter().for_each(|p| p.1.push(line)),
            _ => {
                found.push((at + 1, vec![line]));
                inside = true;
            }
        }
    }
    found
}

pub(super) fn wrong(said: String) -> io::Error {
    io::Error::new(io::ErrorKind::InvalidData, said)
}

impl Named {
    /// `opening: NAME`, then the lines of a text; `tables: NAME`, then the lines of tables.
    pub fn read(&mut self, text: &str) -> Result<(), String> {
        for (at, lines) in paragraphs(text) {
            if let Some(name) = lines[0].strip_prefix("opening: ") {
                let text = lines[1..].iter().map(|l| format!("{l}\n"));
                let text = text.collect::<String>().into_bytes();
                self.openings.insert(name.to_string(), text);
            } else if let Some(name) = lines[0].strip_prefix("tables: ") {
                let mut lent = Lent::of(Tables::empty());
                for line in &lines[1..] {
                    add(&mut lent, line).map_err(|said| format!("{at}: '{line}': {said}"))?;
                }
                lent.replaces = true;
                self.tables.insert(name.to_string(), lent);
            }
        }
        Ok(())
    }
}

/// The cases of one file.
pub fn read_text(file: &str, text: &str, named: &Named) -> Result<Vec<Case>, String> {
    let mut cases = Vec::new();
    for (at, lines) in paragraphs(text) {
        let mut no_case = ["opening: ", "tables: "].iter();
        if no_case.any(|what| lines[0].starts_with(what)) || is_join(&lines) {
            continue;
        }
        let place = format!("{file}:{at}");
        let case = read_case(&place, &lines, named);
        cases.push(case.map_err(|said| format!("{place}: {said}"))?);
    }
    Ok(cases)
}

/// What is read of a case so far.
struct Reading<'a> {
    named: &'a Named,
    case: Case,
    /// The text of an opening whose last line is not yet read.
    text: Vec<u8>,
}

fn read_case(at: &str, lines: &[&str], named: &Named) -> Result<Case, String> {
    let name = lines[0].strip_prefix("case: ").ok_or("no line 'case: '")?;
    let case = Case {
        at: at.to_string(),
        name: name.to_string(),
        rules: Vec::new(),
        breaks: Vec::new(),
        start: None,
        steps: Vec::new(),
        after: None,
        page: None,
    };
    let mut reading = Reading {
        named,
        case,
        text: Vec::new(),
    };
    for line in &lines[1..] {
        let said = |what: &str| format!("'{line}': {what}");
        reading.line(line).map_err(|what| said(&what))?;
    }
    let case = reading.case;
    if case.rules.is_empty() {
        return Err("no line 'rule: '".to_string());
    }
    if case.steps.is_empty() || !reading.text.is_empty() {
        return Err("nothing is said, or an opening has no answer".to_string());
    }
    if case.start.is_none() && !matches!(case.steps[0], Step::Open { .. }) {
        return Err("nothing is lent and nothing is opened".to_string());
    }
    Ok(case)
}

impl Reading<'_> {
    fn line(&mut self, line: &str) -> Result<(), String> {
        if let Some(page) = &mut self.case.page {
            page.extend(page_line(line).ok_or("no line of a page")?);
            return Ok(());
        }
        if let Some(rules) = line.strip_prefix("rule: ") {
            self.case.rules = rules.split(", ").map(str::to_string).collect();
            return Ok(());
        }
        if let Some(name) = line.strip_prefix("opens: ") {
            let text = self
                .named
                .openings
                .get(name)
                .ok_or("no such opening")?
                .clone();
            let answer = b"(ok 0)\n".to_vec();
            self.case.steps.push(Step::Open { text, answer });
            return Ok(());
        }
        if let Some(clauses) = line.strip_prefix("breaks: ") {
            self.case.breaks = read_clauses(clauses).ok_or("no clause")?;
            return Ok(());
        }
        if let Some(name) = line.strip_prefix("from: ") {
            let lent = self.named.tables.get(name).ok_or("no such tables")?.clone();
            *self.now() = lent;
            return Ok(());
        }
        if line == "after:" {
            self.case.after = Some(Lent::of(Tables::empty()));
            return Ok(());
        }
        if line == "page:" {
            self.case.page = Some(Vec::new());
            return Ok(());
        }
        if line.starts_with('(') || line.contains(" -> ") {
            return self.said(line);
        }
        add(self.now(), line)
    }

    /// What is lent, or what is there afterwards.
    fn now(&mut self) -> &mut Lent {
        let empty = || Lent::of(Tables::empty());
        match &mut self.case.after {
            Some(after) => after,
            None => self.case.start.get_or_insert_with(empty),
        }
    }

    /// Lines of input with their answers, ` | ` between them.
    fn said(&mut self, line: &str) -> Result<(), String> {
        parts(line)?.iter().try_for_each(|part| self.say(part))
    }

    fn say(&mut self, part: &str) -> Result<(), String> {
        let (text, answer) = match part.split_once("->") {
            Some((text, answer)) => (text.trim_end(), Some(answer.trim())),
            None => (part.trim(), None),
        };
        let text = line_bytes(text)?;
        // Only an opening answers `(no k n)`.
        let at_line = answer.is_some_and(|a| a.starts_with("(no ") && a.split(' ').count() == 3);
        let opening = at_line || opens(&text) && !self.has_opened();
        let answer = answer.map(|a| format!("{a}\n").into_bytes());
        match (opening || !self.text.is_empty(), answer) {
            (true, None) => self.text.extend(text),
            (true, Some(answer)) => {
                let mut whole = std::mem::take(&mut self.text);
                whole.extend(text);
                let text = whole;
                self.case.steps.push(Step::Open { text, answer });
            }
            (false, None) => return Err("no answer".to_string()),
            (false, Some(answer)) => self.case.steps.push(Step::Call { line: text, answer }),
        }
        Ok(())
    }

    fn has_opened(&self) -> bool {
        self.case
            .steps
            .iter()
            .any(|s| matches!(s, Step::Open { .. }))
    }
}

/// A line of a page stands between two `|`; its line feed is added.
fn page_line(line: &str) -> Option<Vec<u8>> {
    let line = line.strip_prefix('|')?.strip_suffix('|')?;
    (line.len() == WIDTH).then(|| format!("{line}\n").into_bytes())
}

/// `S4, S5`: clauses of soundness.
fn read_clauses(text: &str) -> Option<Vec<usize>> {
    let number = |clause: &str| clause.strip_prefix('S')?.parse().ok();
    let clauses: Vec<usize> = text.split(", ").map(number).collect::<Option<_>>()?;
    clauses
        .iter()
        .all(|c| (1..=27).contains(c))
        .then_some(clauses)
}

/// Adds a line of what is lent; where it has ranges, rows and requests are put in order.
fn add(lent: &mut Lent, line: &str) -> Result<(), String> {
    for line in ranges(line)? {
        lent.add(&line).ok_or("no line of a case")?;
    }
    if line.contains("..") {
        lent.tables.rows.sort_by_key(|r| r.number);
        lent.tables.requests.sort_by_key(|q| q.number);
    }
    Ok(())
}

/// Whether a line begins with a form of the opening text.
fn opens(line: &[u8]) -> bool {
    let forms: [&[u8]; 3] = [b"(node", b"(process", b"(open)"];
    forms.iter().any(|form| line.starts_with(form))
}

/// What a line says, without its remark: ` | ` between two, those of ranges one after the other.
pub(super) fn parts(line: &str) -> Result<Vec<String>, String> {
    let line = line.split(" ; ").next().unwrap_or(line);
    let each = line.split(" | ").map(ranges);
    Ok(each.collect::<Result<Vec<_>, _>>()?.concat())
}

/// The bytes of a line of input, with its line feed if it is not `[cut]`.
pub(super) fn line_bytes(text: &str) -> Result<Vec<u8>, String> {
    let mut bytes = plain(text)?;
    match bytes.strip_suffix(b"[cut]") {
        Some(cut) => bytes = cut.to_vec(),
        None => bytes.push(b'\n'),
    }
    Ok(bytes)
}

/// The bytes of a text: `\x` and two digits stand for a byte.
fn plain(text: &str) -> Result<Vec<u8>, String> {
    let mut parts = text.split("\\x");
    let mut bytes = parts.next().unwrap_or("").as_bytes().to_vec();
    for part in parts {
        let (code, rest) = part.split_at_checked(2).ok_or("\\x and no byte")?;
        let byte = u8::from_str_radix(code, 16);
        bytes.push(byte.map_err(|_| "\\x and no byte")?);
        bytes.extend(rest.as_bytes());
    }
    Ok(bytes)
}

/// The lines that a line with ranges stands for: `3..9` and `3..9/2` (each second number)
/// in it, all with as many numbers. One without ranges stands for itself.
pub fn ranges(line: &str) -> Result<Vec<String>, String> {
    let mut lines: Vec<String> = Vec::new();
    for (before, numbers) in pieces(line)? {
        let Some(numbers) = numbers else {
            match lines.is_empty() {
                true => lines.push(before.to_string()),
                false => lines.iter_mut().for_each(|l| l.push_str(before)),
            }
            continue;
        };
        if lines.len() < 2 {
            let first = lines.pop().unwrap_or_default();
            lines = vec![first; numbers.len()];
        }
        if lines.len() != numbers.len() {
            return Err("ranges of different lengths".to_string());
        }
        for (line, number) in lines.iter_mut().zip(numbers) {
            line.push_str(&format!("{before}{number}"));
        }
    }
    Ok(lines)
}

/// A text, and the numbers of the range that follows it.
type Piece<'a> = (&'a str, Option<Vec<u32>>);

/// The text before each range with the range's numbers, and the rest.
fn pieces(line: &str) -> Result<Vec<Piece<'_>>, String> {
    let mut found = Vec::new();
    let mut rest = line;
    while let Some(dots) = rest.find("..") {
        let digit = |c: char| c.is_ascii_digit();
        let start = rest[..dots].rfind(|c| !digit(c)).map_or(0, |at| at + 1);
        let tail = &rest[dots + 2..];
        let end = tail.find(|c| !digit(c) && c != '/').unwrap_or(tail.len());
        let (last, step) = tail[..end].split_once('/').unwrap_or((&tail[..end], "1"));
        let number = |text: &str| {
            text.parse::<u32>()
                .map_err(|_| format!("no number: '{text}'"))
        };
        let (first, last, step) = (number(&rest[start..dots])?, number(last)?, number(step)?);
        let numbers = (first..=last).step_by(step.max(1) as usize);
        found.push((&rest[..start], Some(numbers.collect())));
        rest = &tail[end..];
    }
    found.push((rest, None));
    Ok(found)
}
