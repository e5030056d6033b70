//! Smaller sessions, or pairs of texts, to find the shortest that still shows a difference.

use super::case::{name, Case};
use super::{histories, joins, pages, sessions};
use crate::call::read_call;
use crate::form::split_lines;
use crate::opening::{read_opening, Form};
use crate::session::Session;
use std::collections::BTreeSet;

/// The claim that is made of each smaller session.
#[derive(Clone, Copy, PartialEq, Eq, Debug)]
pub enum Claim {
    Output,
    History,
    Page,
    Join,
}

/// A case for each of the sessions, the shortest first.
pub fn cases(claim: Claim, sessions: Vec<Vec<u8>>) -> Vec<Case> {
    let different: BTreeSet<(usize, Vec<u8>)> =
        sessions.into_iter().map(|s| (s.len(), s)).collect();
    let each = different.into_iter().enumerate().map(|(at, (size, s))| {
        let (name, about) = (name("smaller", at), format!("{size} bytes"));
        match claim {
            Claim::Output => sessions::case(name, about, s),
            Claim::History => histories::case(name, about, s),
            Claim::Page => pages::case(name, about, s),
            Claim::Join => joins::case(name, about, s),
        }
    });
    each.collect()
}

/// The session cut after some of its lines: at each eighth, and 1, 2, 4, 8,
/// .. lines before the end. If a session differs, so do those that go on from
/// it; so if none of these differs no prefix does.
pub fn prefixes(input: &[u8]) -> Vec<Vec<u8>> {
    let lines: Vec<&[u8]> = split_lines(input).collect();
    let count = lines.len();
    let spread = (0..8).map(|part| count * part / 8);
    let near = (0..).map(|power| 1 << power).take_while(|n| *n <= count);
    let cuts = spread.chain(near.map(|n| count - n));
    let shorter = cuts.filter(|cut| *cut < count);
    shorter.map(|cut| lines[..cut].concat()).collect()
}

/// The session with a run of lines left out, as it is and with later numbers
/// lowered by those that the lines took. Level 1: the runs are the halves,
/// quarters and eighths of the session. Level 2: shorter ones, to single
/// lines; and an entry of a node left out.
pub fn smaller(input: &[u8], level: u32) -> Vec<Vec<u8>> {
    let lines: Vec<&[u8]> = split_lines(input).collect();
    let taken = taken(input);
    let mut found = Vec::new();
    let sizes = (1..).map(|power| lines.len() >> power);
    let sizes: Vec<usize> = sizes.take_while(|size| *size > 0).collect();
    let (large, small) = sizes.split_at(sizes.len().min(3));
    let sizes = match level {
        1 => large,
        _ => {
            found.extend(without_entries(&lines, &taken));
            small
        }
    };
    for size in sizes {
        found.extend(without_runs(&lines, &taken, *size));
    }
    found
}

/// The session without one of its runs of so many lines.
fn without_runs(lines: &[&[u8]], taken: &[Taken], size: usize) -> Vec<Vec<u8>> {
    let mut found = Vec::new();
    for start in (0..lines.len()).step_by(size) {
        let end = (start + size).min(lines.len());
        let before = lines[..start].concat();
        let gone = taken.get(start..end).unwrap_or(&[]);
        found.push([&before[..], &lines[end..].concat()].concat());
        found.push([before, lowered(&lines[end..], gone)].concat());
    }
    found
}

/// The numbers that a line takes: the first, and how many.
type Taken = (u32, u32);

/// What each line takes; nothing is known if the opening is refused.
fn taken(input: &[u8]) -> Vec<Taken> {
    let Ok(opening) = read_opening(input) else {
        return Vec::new();
    };
    let mut taken = Vec::new();
    let mut next = 1;
    for form in &opening.forms {
        let count = match form {
            Form::Node { entries, .. } => entries.len() as u32,
            _ => 0,
        };
        taken.push((next, count));
        next += count;
    }
    let opening_lines = split_lines(&input[..opening.bytes]).count();
    taken.resize(opening_lines, (next, 0));
    let mut session = Session::begin(input);
    while session.step().is_some() {
        taken.push((next, session.tables.next - next));
        next = session.tables.next;
    }
    taken
}

/// The lines with every number lowered by the numbers below it that are gone.
fn lowered(lines: &[&[u8]], gone: &[Taken]) -> Vec<u8> {
    let lower = |number: u32| {
        let below = |(first, count): &Taken| number.saturating_sub(*first).min(*count);
        number - gone.iter().map(below).sum::<u32>()
    };
    let each = lines.iter().map(|line| match read_call(line) {
        Some(call) => call.renumbered(lower).print(),
        None => line.to_vec(),
    });
    each.collect::<Vec<_>>().concat()
}

/// The session with one entry of a node's line left out, later numbers
/// lowered.
fn without_entries(lines: &[&[u8]], taken: &[Taken]) -> Vec<Vec<u8>> {
    let mut found = Vec::new();
    for (at, (first, count)) in taken.iter().enumerate() {
        let line = lines.get(at).copied().unwrap_or_default();
        if !line.starts_with(b"(node") {
            continue;
        }
        for entry in 0..*count {
            let shorter = without_entry(line, entry as usize);
            let rest = lowered(&lines[at + 1..], &[(first + entry, 1)]);
            found.push([lines[..at].concat(), shorter, rest].concat());
        }
    }
    found
}

/// `(node 1 (op 1 0 7) (dir 2 3))` without its entry 0 is `(node 1 (dir 2 3))`.
fn without_entry(line: &[u8], entry: usize) -> Vec<u8> {
    let text = String::from_utf8_lossy(line);
    let mut parts: Vec<&str> = text.split_inclusive(')').collect();
    let Some((head, first)) = parts.first().and_then(|p| p.rsplit_once(" (")) else {
        return line.to_vec();
    };
    let first = format!(" ({first}");
    parts[0] = &first;
    parts.remove(entry.min(parts.len() - 1));
    (head.to_string() + &parts.concat()).into_bytes()
}
