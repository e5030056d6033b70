//! `tablet-see explain`: each line, its answer, and what it did or why it was refused.

use crate::form::Span;
use crate::ground::ground;
use crate::opening::Refused;
use crate::session::{Gone, Session, Start, Step};
use crate::shown;
use crate::sound::Fault;
use crate::told::told;
use crate::wording::{numbers, sentence};
use std::io::{self, Write};
use tablet::{Place, Refusal, State};

/// Explains a session that may be refused or unsound.
pub fn explain(start: Start, input: &[u8], out: &mut dyn Write) -> io::Result<()> {
    match start {
        Start::Open(session) => opened(session, out),
        Start::Refused(refusal, place) => refused(refusal, place.as_ref(), input, out),
        Start::Unsound(fault, lines) => unsound(fault.as_ref(), &lines, out),
    }
}

fn opened(mut session: Session, out: &mut dyn Write) -> io::Result<()> {
    let begun = match session.opening() {
        b"" => "tables handed in",
        _ => "opening -> (ok 0)",
    };
    writeln!(out, "{begun}")?;
    writeln!(out, "    {}", sentence(&opening(session.state())))?;
    while let Some(step) = session.step() {
        call(&step, session.gone(), out)?;
    }
    Ok(())
}

/// What an opening made.
pub fn opening(state: &State) -> String {
    let nodes: std::collections::BTreeSet<u32> = state
        .rows
        .iter()
        .filter_map(|r| match r.place {
            Place::Node(n) => Some(n),
            _ => None,
        })
        .collect();
    let nodes: Vec<u32> = nodes.into_iter().collect();
    let processes: Vec<u32> = state.listed().collect();
    format!(
        "{} rows, in nodes {}; processes {}; the next number is {}",
        state.rows.len(),
        numbers(&nodes),
        numbers(&processes),
        state.next
    )
}

/// One call: the line, its answer, sentences; marks under what is wrong in the line.
pub fn call(step: &Step, gone: &Gone, out: &mut dyn Write) -> io::Result<()> {
    writeln!(
        out,
        "{}: {} -> {}",
        step.call,
        shown::line(&step.line),
        step.answer
    )?;
    if !step.answer.accepted() {
        if let Some(span) = ground(&step.before, &step.line).and_then(|ground| ground.span) {
            let indent = " ".repeat(format!("{}: ", step.call).len());
            writeln!(out, "{indent}{}", shown::marks(&step.line, span))?;
        }
    }
    told(step, gone)
        .iter()
        .try_for_each(|line| writeln!(out, "    {line}"))
}

/// A refused opening: its line, underlined.
pub fn refused(
    refusal: Refusal,
    place: Option<&Refused>,
    input: &[u8],
    out: &mut dyn Write,
) -> io::Result<()> {
    writeln!(out, "opening -> {refusal}")?;
    let agreed = place.filter(|p| (p.number, Some(p.line)) == (refusal.number(), refusal.line()));
    let Some(place) = agreed else {
        return writeln!(out, "    {}", refusal.meaning());
    };
    let line = input
        .split_inclusive(|&b| b == b'\n')
        .nth(place.line as usize - 1);
    underlined(line.unwrap_or(b""), place.line, place.span, out)?;
    writeln!(
        out,
        "    Refusal {}, rule {}, at line {}: {}.",
        place.number, place.rule, place.line, place.text
    )?;
    writeln!(out, "    {}", refusal.remedy())
}

fn underlined(line: &[u8], number: u32, span: Span, out: &mut dyn Write) -> io::Result<()> {
    let front = format!("  {number} | ");
    writeln!(out, "{front}{}", shown::line(line))?;
    writeln!(
        out,
        "{}| {}",
        " ".repeat(front.len() - 2),
        shown::marks(line, span)
    )
}

/// Words that are not sound: the clause that fails and where; every call is refused with 1.
fn unsound(fault: Option<&Fault>, lines: &[Vec<u8>], out: &mut dyn Write) -> io::Result<()> {
    let refusal = Refusal::new(1, None).map_or(String::new(), |no| no.remedy().to_string());
    writeln!(out, "{}", unsound_words(fault))?;
    for (line, call) in lines.iter().zip(1..) {
        writeln!(out, "{call}: {} -> (no 1)", shown::line(line))?;
    }
    writeln!(out, "    {refusal}")
}

/// `the tables are not sound: rule S14: ..`
pub fn unsound_words(fault: Option<&Fault>) -> String {
    match fault {
        Some(fault) => format!(
            "The tables are not sound: rule {}: {}.",
            fault.rule, fault.text
        ),
        None => "The kernel finds the tables not sound.".to_string(),
    }
}
