//! The program: reads the input, plays the session, writes what the command wants.

use crate::args::{self, Args, Command, Form};
use crate::draw;
use crate::explain::{explain, unsound_words};
use crate::list;
use crate::page::page;
use crate::relations::View;
use crate::session::{open, resume, Session, Start};
use crate::what_if::what_if;
use std::io::{self, Read, Write};
use tablet::Words;

/// Why the program ends without having done what was asked.
#[derive(Debug)]
pub enum Problem {
    /// The command line is wrong.
    Usage(String),
    /// The session, the words or a number named do not allow it.
    Input(String),
    /// Reading or writing failed.
    Io(io::Error),
}

impl From<io::Error> for Problem {
    fn from(error: io::Error) -> Problem {
        Problem::Io(error)
    }
}

impl Problem {
    /// The exit status of the program.
    pub fn status(&self) -> u8 {
        match self {
            Problem::Usage(_) => 2,
            Problem::Input(_) | Problem::Io(_) => 1,
        }
    }
}

/// Runs a command line, without the program's name.
pub fn run(args: &[String], input: &mut dyn Read, out: &mut dyn Write) -> Result<(), Problem> {
    let args = args::read(args).map_err(Problem::Usage)?;
    if args.command == Command::Help {
        return Ok(out.write_all(include_bytes!("help.txt"))?);
    }
    let mut bytes = Vec::new();
    input.read_to_end(&mut bytes)?;
    let start = match &args.tables {
        None => open(&bytes),
        Some(file) => resume(saved(file)?, &bytes),
    };
    if args.command == Command::Explain {
        return Ok(explain(start, &bytes, out)?);
    }
    let session = opened(start, &bytes)?;
    show(&args, session, out)
}

fn saved(file: &str) -> Result<Words, Problem> {
    let problem = |why: String| Problem::Input(format!("{file}: {why}"));
    let bytes = std::fs::read(file).map_err(|error| problem(error.to_string()))?;
    Words::from_bytes(&bytes).map_err(|error| problem(error.to_string()))
}

/// The session, or what `explain` says of one that does not begin.
fn opened(start: Start, input: &[u8]) -> Result<Session, Problem> {
    match start {
        Start::Open(session) => Ok(session),
        Start::Unsound(fault, _) => Err(Problem::Input(unsound_words(fault.as_ref()))),
        refused => {
            let mut text = Vec::new();
            explain(refused, input, &mut text)?;
            let text = String::from_utf8_lossy(&text);
            Err(Problem::Input(format!(
                "the opening is refused\n{}",
                text.trim_end()
            )))
        }
    }
}

fn show(args: &Args, session: Session, out: &mut dyn Write) -> Result<(), Problem> {
    match &args.command {
        Command::List { what, json } => {
            let session = played(session, args.after)?;
            let view = View::of(session.state());
            let text = match json {
                true => list::json(&view, *what).map(|json| format!("{json}\n")),
                false => list::text(&view, *what),
            };
            out.write_all(text.map_err(Problem::Input)?.as_bytes())?;
        }
        Command::Draw { form, focus } => {
            let session = played(session, args.after)?;
            let picture =
                draw::picture(&View::of(session.state()), *focus).map_err(Problem::Input)?;
            let text = match form {
                Form::Svg => draw::svg::svg(&picture, true),
                Form::Dot => draw::dot::dot(&picture),
            };
            out.write_all(text.as_bytes())?;
        }
        Command::WhatIf { line } => what_if(&played(session, args.after)?, line, out)?,
        Command::Page => page(session, out)?,
        Command::Holders => {
            let session = played(session, args.after)?;
            out.write_all(session.holders().as_bytes())?;
        }
        Command::Help | Command::Explain => {}
    }
    Ok(())
}

/// The session after so many calls, or after all.
fn played(mut session: Session, after: Option<usize>) -> Result<Session, Problem> {
    while after.is_none_or(|n| session.calls() < n) {
        if session.step().is_none() {
            break;
        }
    }
    match after {
        Some(n) if session.calls() < n => {
            let calls = session.calls();
            Err(Problem::Input(format!(
                "--after {n}: the session has {calls} calls"
            )))
        }
        _ => Ok(session),
    }
}
