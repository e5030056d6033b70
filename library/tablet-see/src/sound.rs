//! Why words are not sound tables: the first clause that fails, and where (docs/MANUAL.md, chapters 6 and 7).

use crate::relations::listing;
use crate::sound_rows;
use tablet::layout::*;
use tablet::{Kind, Place, Record, Row, State};

/// A clause that fails.
#[derive(Clone, PartialEq, Eq, Debug)]
pub struct Fault {
    /// The rule of docs/MANUAL.md: W1, W6 to W8, W12, or S1 to S27.
    pub rule: &'static str,
    /// Where, and what is there.
    pub text: String,
}

pub fn fault(rule: &'static str, text: String) -> Option<Fault> {
    Some(Fault { rule, text })
}

/// The first fault of words of any content, none if they are sound.
pub fn unsound(tables: &[u32], processes: &[u32]) -> Option<Fault> {
    if let Some(fault) = layout(tables, processes) {
        return Some(fault);
    }
    let Some(state) = State::read(tables, processes) else {
        return fault("W12", "the words are not laid out as tables".to_string());
    };
    numbers(&state)
        .or_else(|| sound_rows::rows(&state))
        .or_else(|| records(&state))
        .or_else(|| requests(&state))
        .or_else(|| loans(&state))
        .or_else(|| stands(&state))
}

/// (rules W1, W6, W7, W8, W12) Lengths, slots, codes and source words.
fn layout(tables: &[u32], processes: &[u32]) -> Option<Fault> {
    let runs = [
        ("tables", tables, TABLES_WORDS),
        ("process records", processes, PROCESSES_WORDS),
    ];
    for (name, run, wanted) in runs {
        if run.len() != wanted {
            return fault(
                "W1",
                format!("the {name} are {} words, not {wanted}", run.len()),
            );
        }
    }
    let used = |start: usize, slots: usize| {
        tables[start..start + slots]
            .iter()
            .take_while(|n| **n != 0)
            .count()
    };
    let (rows, requests) = (used(0, ROWS), used(REQUESTS_AT, REQUESTS));
    unused("row", tables, 0, ROWS, ROW_COLUMNS, rows)
        .or_else(|| {
            unused(
                "request",
                tables,
                REQUESTS_AT,
                REQUESTS,
                REQUEST_COLUMNS,
                requests,
            )
        })
        .or_else(|| (0..rows).find_map(|slot| codes(tables, slot)))
}

/// (rules W6, W7) A word that is not 0 in a slot that is not in use.
fn unused(
    what: &str,
    words: &[u32],
    start: usize,
    slots: usize,
    columns: usize,
    used: usize,
) -> Option<Fault> {
    let places = (used..slots).flat_map(|slot| (0..columns).map(move |column| (slot, column)));
    let (slot, column, at) = places
        .map(|(slot, column)| (slot, column, start + column * slots + slot))
        .find(|(_, _, at)| words[*at] != 0)?;
    let rule = if column == 0 { "W6" } else { "W7" };
    let text = format!(
        "word {at} is {}, in column {column} of the unused {what} slot {slot}",
        words[at]
    );
    fault(rule, text)
}

/// (rules W8, W12) Kind, place and sources of a slot in use.
fn codes(words: &[u32], slot: usize) -> Option<Fault> {
    let word = |column: usize| words[column * ROWS + slot];
    let number = word(0);
    if !(1..=4).contains(&word(1)) {
        return fault(
            "S9",
            format!(
                "row {number} (slot {slot}) has the kind {}, which is none of 1 to 4",
                word(1)
            ),
        );
    }
    if word(5) > SYSTEM {
        return fault(
            "S11",
            format!(
                "row {number} (slot {slot}) has the place {}, which is none",
                word(5)
            ),
        );
    }
    let source = [6, 7]
        .into_iter()
        .find(|column| word(*column) as usize > slot)?;
    let text = format!(
        "row {number} (slot {slot}) has the source word {}, which is no earlier slot",
        word(source)
    );
    fault("W8", text)
}

/// (rules S1, S2, S3, S4, S5) Numbers. Lengths of runs give S6, S7 and S8.
fn numbers(s: &State) -> Option<Fault> {
    let rows: Vec<u32> = s.rows.iter().map(|r| r.number).collect();
    let requests: Vec<u32> = s.requests.iter().map(|q| q.number).collect();
    let falls = |numbers: &[u32], what: &str, rule| {
        let pair = numbers.windows(2).find(|pair| pair[0] >= pair[1])?;
        fault(
            rule,
            format!("{what} {} stands before {what} {}", pair[0], pair[1]),
        )
    };
    let late = rows.iter().chain(&requests).find(|n| **n >= s.next);
    falls(&rows, "row", "S1")
        .or_else(|| falls(&requests, "request", "S2"))
        .or_else(|| {
            let both = requests.iter().find(|n| rows.contains(n))?;
            fault("S3", format!("{both} is a row and a request"))
        })
        .or_else(|| {
            fault(
                "S4",
                format!(
                    "the number {} is not below the next number {}",
                    late?, s.next
                ),
            )
        })
        .or_else(|| {
            let greatest = LAST_NUMBER + 1;
            let next = (!(1..=greatest).contains(&s.next)).then_some(s.next)?;
            fault(
                "S5",
                format!("the next number is {next}, not 1 to {greatest}"),
            )
        })
}

/// (rule S16) Records of processes.
fn records(s: &State) -> Option<Fault> {
    let node = |n: u32| (1..=32).contains(&n);
    let wrong = s.processes.iter().zip(1..).find(|(record, _)| {
        **record != Record::default() && !(node(record.prime) && node(record.active))
    });
    let (record, p) = wrong?;
    let text = format!(
        "the record of process {p} is {} {} {}: not all 0, and its nodes are not both 1 to 32",
        record.prime, record.active, record.through
    );
    fault("S16", text)
}

/// (rules S12, S18, S19, S21, S22, S23) Requests.
fn requests(s: &State) -> Option<Fault> {
    s.requests.iter().find_map(|q| {
        let n = q.number;
        let client = s.row(q.port).filter(|c| c.kind == Kind::Client);
        let newer = client.is_some() && q.port.saturating_add(1) < n;
        let twice = q
            .listed()
            .find(|i| q.listed().filter(|other| other == i).count() > 1);
        if q.fetched > 1 {
            return fault(
                "S12",
                format!("request {n} has the mark {}, not 0 or 1", q.fetched),
            );
        }
        if client.is_none() {
            return fault(
                "S18",
                format!(
                    "request {n} is on port {}, which is no standing client end",
                    q.port
                ),
            );
        }
        if !newer {
            return fault(
                "S18",
                format!(
                    "request {n} is not newer than both ends of its port {}",
                    q.port
                ),
            );
        }
        if s.process(q.asker).is_none() {
            return fault(
                "S19",
                format!("request {n} was asked by {}, which is not listed", q.asker),
            );
        }
        if let Some(item) = twice {
            return fault("S21", format!("request {n} lists {item} twice"));
        }
        let other = s
            .requests
            .iter()
            .find(|o| o.port == q.port && o.number != n);
        q.listed().find_map(|i| item(s, n, i)).or_else(|| {
            let other = other?.number;
            fault(
                "S23",
                format!("requests {n} and {other} are both on port {}", q.port),
            )
        })
    })
}

/// (rule S22) An item of a request.
fn item(s: &State, request: u32, item: u32) -> Option<Fault> {
    let Some(row) = s.row(item) else {
        return fault(
            "S22",
            format!("request {request} lists {item}, and no such row stands"),
        );
    };
    match row.is_end() {
        true if row.number > request => fault(
            "S22",
            format!("request {request} lists the end {item}, which is newer"),
        ),
        false if row.bears != request => fault(
            "S22",
            format!(
                "request {request} lists row {item}, which is no end and does not bear {request}"
            ),
        ),
        _ => None,
    }
}

/// (rules S24, S25, S26) What is lent.
fn loans(s: &State) -> Option<Fault> {
    s.rows
        .iter()
        .find_map(|row| bears(s, row).or_else(|| lists(s, row)))
}

fn bears(s: &State, row: &Row) -> Option<Fault> {
    let (n, q) = (row.number, row.bears);
    if q == 0 {
        return None;
    }
    let Some(request) = s.request(q) else {
        return fault(
            "S24",
            format!("row {n} bears {q}, and no such request is open"),
        );
    };
    if n <= q {
        return fault("S24", format!("row {n} bears {q}, but is not newer"));
    }
    if !request.listed().any(|i| i == n) {
        return fault(
            "S24",
            format!("row {n} bears {q}, but request {q} does not list it"),
        );
    }
    None
}

fn lists(s: &State, row: &Row) -> Option<Fault> {
    let n = row.number;
    let listing: Vec<_> = listing(s, n).collect();
    let (newest, older) = match listing.split_last() {
        Some((newest, older)) => (Some(newest), older),
        None => (None, &[][..]),
    };
    if let Some(open) = older.iter().find(|q| q.fetched == 0) {
        return fault(
            "S25",
            format!(
                "request {} lists {n} as a newer one does, but is not fetched",
                open.number
            ),
        );
    }
    let unfetched = newest.filter(|q| q.fetched == 0);
    match (row.place == Place::System, unfetched) {
        (true, None) => fault(
            "S26",
            format!("row {n} is with the system, but no request that is not fetched lists it"),
        ),
        (false, Some(q)) => fault(
            "S26",
            format!(
                "row {n} is not with the system, but its newest request {} is not fetched",
                q.number
            ),
        ),
        _ => None,
    }
}

/// (rule S27) The row gone through.
fn stands(s: &State) -> Option<Fault> {
    s.listed().find_map(|p| {
        let record = s.process(p)?;
        let through = record.through;
        if through == 0 && record.active == record.prime {
            return None;
        }
        if through == 0 {
            let text = format!("process {p} is in node {} through none, and its prime node is {}", record.active, record.prime);
            return fault("S27", text);
        }
        let row = s.row(through).filter(|r| r.kind == Kind::Subdirectory && r.place == Place::CList(p));
        match row {
            Some(row) if row.object == record.active => None,
            Some(row) => {
                let text = format!("process {p} is in node {} through row {through}, which leads to node {}", record.active, row.object);
                fault("S27", text)
            }
            None => fault("S27", format!("process {p} went through {through}, which is no subdirectory row of its c-list")),
        }
    })
}
