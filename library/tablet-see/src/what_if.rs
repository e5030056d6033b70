//! `tablet-see what-if`: a line tried on a copy of the words, and what it would change.

use crate::explain;
use crate::session::Session;
use crate::shown;
use crate::told::{changes, told, Part};
use crate::wording::sentence;
use std::io::{self, Write};

const HEADS: [(Part, &str); 5] = [
    (Part::Gone, "Would vanish"),
    (Part::Closed, "Would be closed"),
    (Part::Back, "Would come back"),
    (Part::Moved, "Would move or change"),
    (Part::Made, "Would be made"),
];

/// Tries one line, given without or with its line feed.
pub fn what_if(session: &Session, line: &str, out: &mut dyn Write) -> io::Result<()> {
    let line = format!("{}\n", line.strip_suffix('\n').unwrap_or(line));
    let step = session.tried(line.as_bytes());
    if !step.answer.accepted() {
        explain::call(&step, session.gone(), out)?;
        return writeln!(out, "Nothing would change.");
    }
    writeln!(out, "{} -> {}", shown::line(&step.line), step.answer)?;
    let changes = changes(&step);
    if changes.is_empty() {
        told(&step, session.gone())
            .iter()
            .try_for_each(|line| writeln!(out, "    {line}"))?;
        return writeln!(out, "Nothing would change.");
    }
    for (part, head) in HEADS {
        let lines: Vec<&String> = changes
            .iter()
            .filter(|(p, _)| *p == part)
            .map(|(_, line)| line)
            .collect();
        if !lines.is_empty() {
            writeln!(out, "{head}:")?;
        }
        lines
            .iter()
            .try_for_each(|line| writeln!(out, "    {}", sentence(line)))?;
    }
    Ok(())
}
