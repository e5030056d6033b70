//! Writes cases for the prover, as tools/compare asks for them. Usage:
//!
//! compare write DIR SEED [--sessions N --calls N --damaged N ..]   all cases of a seed
//! compare named DIR NAMES [--histories N ..]       the cases of cases/ with these names, and those of seed 1
//! compare prefixes DIR SORT SESSION       the session (or the two texts) cut after some of its lines
//! compare runs DIR SORT SESSION           the session with many lines left out
//! compare lines DIR SORT SESSION          the session with few lines left out
//! compare bits DIR BASE                   what the definitions answer, bit by bit
//! compare read NAMES                      the answer, the bits that are 0 being named
//! compare read-lines NAMES                the lines that are printed of two texts, as far as they were read
//! compare show SESSION [ANSWER]           the session with the model's answers
//! compare show-join TEXTS                 the texts with what the model prints of them

use model::compare::smaller::{self, Claim};
use model::compare::{bits, by_hand, write, Case, Sizes};
use model::join::join;
use model::session::Session;
use model::Tables;
use std::fs;
use std::path::Path;

type Outcome = Result<(), Box<dyn std::error::Error>>;

fn main() -> Outcome {
    let arguments: Vec<String> = std::env::args().skip(1).collect();
    let words: Vec<&str> = arguments.iter().map(String::as_str).collect();
    match words.as_slice() {
        ["write", directory, seed, options @ ..] => {
            let cases = model::compare::cases(seed.parse()?, sizes(options)?)?;
            written(directory, &cases)
        }
        ["named", directory, names, options @ ..] => {
            let names = fs::read_to_string(names)?;
            let mut cases = by_hand::named(&names.lines().collect::<Vec<_>>())?;
            cases.extend(model::compare::cases(1, sizes(options)?)?);
            written(directory, &cases)
        }
        [how @ ("prefixes" | "runs" | "lines"), directory, sort, session] => {
            let input = fs::read(session)?;
            let sessions = match *how {
                "prefixes" => smaller::prefixes(&input),
                "runs" => smaller::smaller(&input, 1),
                _ => smaller::smaller(&input, 2),
            };
            written(directory, &smaller::cases(claim(sort), sessions))
        }
        ["bits", directory, base] => written(directory, &bits_of(base)?),
        ["read", names] => {
            let names = fs::read_to_string(names)?;
            println!("{}", bits::read(&names.lines().collect::<Vec<_>>()));
            Ok(())
        }
        ["read-lines", names] => {
            let names = fs::read_to_string(names)?;
            print!("{}", bits::read_lines(&names.lines().collect::<Vec<_>>()));
            Ok(())
        }
        ["show", session, answer @ ..] => show(&fs::read(session)?, answer.first()),
        ["show-join", texts] => {
            show_join(&fs::read(texts)?);
            Ok(())
        }
        _ => Err("usage: see the head of src/bin/compare.rs".into()),
    }
}

/// Writes the cases and says how many there are.
fn written(directory: &str, cases: &[Case]) -> Outcome {
    write::write(Path::new(directory), cases)?;
    println!("{}", cases.len());
    Ok(())
}

fn claim(sort: &str) -> Claim {
    match sort {
        "history" => Claim::History,
        "page" => Claim::Page,
        "join" => Claim::Join,
        _ => Claim::Output,
    }
}

/// The numbers of cases: none but those that the options give.
fn sizes(options: &[&str]) -> Result<Sizes, Box<dyn std::error::Error>> {
    let number = |name: &str| {
        let at = options.iter().position(|o| *o == name);
        let value = at.and_then(|at| options.get(at + 1));
        value.map_or(Ok(0), |value| value.parse::<usize>())
    };
    Ok(Sizes {
        by_hand: number("--by-hand")?,
        states: number("--states")?,
        pieces: number("--pieces")?,
        lines: number("--lines")?,
        sessions: number("--sessions")?,
        calls: number("--calls")?,
        chosen: number("--chosen")?,
        damaged: number("--damaged")?,
        altered: number("--altered")?,
        tables: number("--tables")?,
        single: number("--single")?,
        full: number("--full")?,
        words: number("--words")?,
        histories: number("--histories")?,
        lent: number("--lent")?,
        pages: number("--pages")?,
        joins: number("--joins")?,
    })
}

/// The claims for a session's last answer, for two texts, or for the call on tables.
fn bits_of(base: &str) -> Result<Vec<Case>, Box<dyn std::error::Error>> {
    let file = |ending: &str| fs::read(format!("{base}.{ending}"));
    if let Ok(session) = file("session") {
        return Ok(bits::of_session(&session));
    }
    if let Ok(texts) = file("texts") {
        return Ok(bits::of_texts(&texts));
    }
    let text = String::from_utf8(file("tables")?)?;
    let tables = Tables::parse(&text).ok_or("no tables")?;
    let cases = bits::of_call(&tables, &file("call")?);
    cases.ok_or_else(|| "tables that are no state".into())
}

/// Prints the session, each line with the model's answer to it, the last with
/// the definitions' as well.
fn show(input: &[u8], definitions: Option<&&str>) -> Outcome {
    let mut session = Session::begin(input);
    let mut answered = Vec::new();
    let opening = String::from_utf8_lossy(&session.opening.print()).into_owned();
    while let Some((line, answer)) = session.step() {
        let answer = String::from_utf8_lossy(&answer.print()).into_owned();
        answered.push((String::from_utf8_lossy(line).into_owned(), answer));
    }
    let calls: usize = answered.iter().map(|(line, _)| line.len()).sum();
    let text = String::from_utf8_lossy(&input[..input.len().saturating_sub(calls)]);
    for line in text.lines() {
        println!("    {line}");
    }
    println!("        the model: {}", opening.trim_end());
    for (line, answer) in answered {
        println!("    {}", line.trim_end());
        println!("        the model: {}", answer.trim_end());
    }
    if let Some(definitions) = definitions {
        println!("        the definitions: {definitions}");
    }
    Ok(())
}

/// Prints the texts, then what the model prints of them.
fn show_join(texts: &[u8]) {
    for line in String::from_utf8_lossy(texts).lines() {
        println!("    {line}");
    }
    println!("        the model:");
    for line in String::from_utf8_lossy(&join(texts)).lines() {
        println!("        {line}");
    }
}
