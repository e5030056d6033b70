//! Cases of joining: two texts, and what is printed of them.

use super::read::{files, line_bytes, paragraphs, parts, wrong};
use std::io;
use std::path::Path;

/// A case of joining: the bytes of both texts, and all that is printed of them.
#[derive(Clone, Debug)]
pub struct Join {
    /// Where it stands, and what it is called.
    pub at: String,
    pub name: String,
    pub rules: Vec<String>,
    pub texts: Vec<u8>,
    pub joined: Vec<u8>,
}

/// Whether a paragraph is a case of joining.
pub(super) fn is_join(lines: &[&str]) -> bool {
    lines.contains(&"texts:")
}

/// Those of a directory, the files `.cases` in the order of their names.
pub fn read_directory(directory: &Path) -> io::Result<Vec<Join>> {
    let files = files(directory)?;
    let read = files.iter().map(|(file, text)| read_joins(file, text));
    let joins = read.collect::<Result<Vec<_>, _>>().map_err(wrong)?;
    Ok(joins.concat())
}

/// Those of one file.
pub fn read_joins(file: &str, text: &str) -> Result<Vec<Join>, String> {
    let mut joins = Vec::new();
    for (at, lines) in paragraphs(text) {
        if is_join(&lines) {
            let place = format!("{file}:{at}");
            let join = read_join(&place, &lines);
            joins.push(join.map_err(|said| format!("{place}: {said}"))?);
        }
    }
    Ok(joins)
}

/// Two lines of names, then `texts:` and `joined:`, each with its lines after it.
fn read_join(at: &str, lines: &[&str]) -> Result<Join, String> {
    let [name, rules, "texts:", said @ ..] = lines else {
        return Err("no lines 'case: ', 'rule: ' and 'texts:'".to_string());
    };
    let name = name.strip_prefix("case: ").ok_or("no line 'case: '")?;
    let rules = rules.strip_prefix("rule: ").ok_or("no line 'rule: '")?;
    let printed = said.iter().position(|line| *line == "joined:");
    let (texts, joined) = said.split_at(printed.ok_or("no line 'joined:'")?);
    let joined = bytes(&joined[1..])?;
    if joined.is_empty() {
        return Err("nothing is printed".to_string());
    }
    Ok(Join {
        at: at.to_string(),
        name: name.to_string(),
        rules: rules.split(", ").map(str::to_string).collect(),
        texts: bytes(texts)?,
        joined,
    })
}

fn bytes(lines: &[&str]) -> Result<Vec<u8>, String> {
    let mut bytes = Vec::new();
    for line in lines {
        for part in parts(line)? {
            bytes.extend(line_bytes(part.trim())?);
        }
    }
    Ok(bytes)
}

/// What is printed of the texts is what the case tells.
pub fn run_join(case: &Join, join: impl Fn(&[u8]) -> Vec<u8>) -> Result<(), String> {
    let printed = join(&case.texts);
    if printed == case.joined {
        return Ok(());
    }
    let printed = String::from_utf8_lossy(&printed);
    Err(format!(
        "{} ({}): printed is\n{printed}",
        case.at, case.name
    ))
}
