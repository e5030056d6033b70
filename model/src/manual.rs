//! The sessions of docs/MANUAL.md with the answers that it gives, and its table of
//! words, so that the manual is tried like any other case.

use std::fs;
use std::io;
use std::path::PathBuf;

/// A session of the manual: the line of its first call in the file, the bytes that
/// the program reads, and the answers that it must print.
pub struct Told {
    pub line: usize,
    pub input: Vec<u8>,
    pub answers: Vec<String>,
}

impl Told {
    /// What the program prints: the answers, a line each.
    pub fn output(&self) -> Vec<u8> {
        let lines = self.answers.iter().map(|a| format!("{a}\n"));
        lines.collect::<String>().into_bytes()
    }
}

/// The lines of the words that a session leaves: a part's name, then rows of numbers.
pub struct Words {
    pub line: usize,
    pub after: Vec<u8>,
    pub parts: Vec<(String, Vec<Vec<u32>>)>,
}

/// A block between two fences: the line of its fence, and its lines.
struct Block {
    line: usize,
    lines: Vec<String>,
}

pub fn read() -> io::Result<String> {
    fs::read_to_string(PathBuf::from(env!("CARGO_MANIFEST_DIR")).join("../docs/MANUAL.md"))
}

/// The blocks of one kind, `session` or `words`.
fn blocks(manual: &str, kind: &str) -> Vec<Block> {
    let mut found: Vec<Block> = Vec::new();
    let mut inside = false;
    for (at, line) in manual.lines().enumerate() {
        if let Some(info) = line.strip_prefix("```") {
            inside = !inside && info.split(' ').next() == Some(kind);
            if inside {
                found.push(Block {
                    line: at + 1,
                    lines: Vec::new(),
                });
            }
        } else if let (true, Some(block)) = (inside, found.last_mut()) {
            block.lines.push(line.to_string());
        }
    }
    found
}

/// The opening text of sessions that have none: the first indented lines.
fn office_text(manual: &str) -> String {
    let lines = manual.lines().skip_while(|l| !l.starts_with("    ("));
    let text = lines.take_while(|l| l.starts_with("    ("));
    text.map(|l| format!("{}\n", l.trim())).collect()
}

/// What stands before a remark.
fn without_remark(line: &str) -> &str {
    line.split(" ;").next().unwrap_or(line)
}

/// One line of input and the answer after it, if there is one.
fn told(part: &str) -> (&str, Option<&str>) {
    match part.split_once("->") {
        Some((line, answer)) => (line.trim(), Some(answer.trim())),
        None => (part.trim(), None),
    }
}

fn begins_opening(line: &str) -> bool {
    ["(node", "(process", "(open)"]
        .iter()
        .any(|w| line.starts_with(w))
}

/// A session from its lines. Every line after the opening has its answer.
fn session(office: &str, line: usize, lines: &[String]) -> Told {
    let parts = lines
        .iter()
        .flat_map(|l| without_remark(l).split(" | "))
        .map(told);
    let parts: Vec<(&str, Option<&str>)> = parts.collect();
    let own = parts.first().is_some_and(|(l, _)| begins_opening(l));
    let mut input = if own {
        String::new()
    } else {
        office.to_string()
    };
    let mut answers: Vec<String> = if own {
        Vec::new()
    } else {
        vec!["(ok 0)".to_string()]
    };
    for (text, answer) in parts {
        match text.strip_suffix("[cut]") {
            Some(cut) => input.push_str(cut),
            None => input.extend([text, "\n"]),
        }
        assert!(
            answer.is_some() || answers.is_empty(),
            "docs/MANUAL.md:{line}: {text} has no answer"
        );
        answers.extend(answer.map(str::to_string));
    }
    Told {
        line,
        input: input.into_bytes(),
        answers,
    }
}

/// All sessions, in order; an empty line stands between two of one block.
pub fn sessions(manual: &str) -> Vec<Told> {
    let office = office_text(manual);
    let mut found = Vec::new();
    for block in blocks(manual, "session") {
        let mut line = block.line + 1;
        for lines in block.lines.split(|l| l.is_empty()) {
            found.push(session(&office, line, lines));
            line += lines.len() + 1;
        }
    }
    found
}

/// The tables of words, each with the input of the session before it.
pub fn words(manual: &str) -> Vec<Words> {
    let sessions = sessions(manual);
    let of = |block: &Block| {
        let before = sessions.iter().filter(|s| s.line < block.line).last();
        before.map_or(Vec::new(), |s| s.input.clone())
    };
    let found = blocks(manual, "words").into_iter();
    found
        .map(|block| Words {
            line: block.line,
            after: of(&block),
            parts: parts(&block.lines),
        })
        .collect()
}

/// A line that begins with a letter names a part; the numbers of the others are its rows.
fn parts(lines: &[String]) -> Vec<(String, Vec<Vec<u32>>)> {
    let mut parts: Vec<(String, Vec<Vec<u32>>)> = Vec::new();
    for line in lines {
        let mut numbers = without_remark(line).split_whitespace().peekable();
        if line.starts_with(' ') {
            let row = numbers.map(|n| {
                n.parse()
                    .unwrap_or_else(|_| panic!("{line}: {n} is no number"))
            });
            if let Some((_, rows)) = parts.last_mut() {
                rows.push(row.collect());
            }
        } else if let Some(name) = numbers.next() {
            parts.push((name.to_string(), Vec::new()));
        }
    }
    parts
}
