//! The opening text: its forms, its refusals and the tables it makes.

use crate::form::{read_line, split_lines, Part};
use crate::limits::*;
use crate::refusals::lowest;
use crate::tables::{Kind, Place, Process, Row, Tables};

/// An entry of a node: `(op 2 5 7)` or `(dir 2 3)`.
#[derive(Clone, Copy, PartialEq, Eq, PartialOrd, Ord, Debug)]
pub enum Entry {
    Op {
        manager: u32,
        operation: u32,
        rights: u32,
    },
    Dir {
        node: u32,
        rights: u32,
    },
}

/// A form of the opening text.
#[derive(Clone, PartialEq, Eq, Debug)]
pub enum Form {
    Node { node: u32, entries: Vec<Entry> },
    Process { process: u32, prime: u32 },
    Open,
}

/// A text that is read: its forms in order, and the bytes read, through the line of
/// `(open)`.
pub struct Opening {
    pub forms: Vec<Form>,
    pub bytes: usize,
}

impl Form {
    /// (rules O1, O2) The form's line, with its line feed.
    pub fn print(&self) -> String {
        match self {
            Form::Node { node, entries } => {
                let entries: String = entries.iter().map(Entry::print).collect();
                format!("(node {node}{entries})\n")
            }
            Form::Process { process, prime } => format!("(process {process} {prime})\n"),
            Form::Open => "(open)\n".to_string(),
        }
    }
}

impl Entry {
    /// The entry with the space before it.
    pub fn print(&self) -> String {
        match self {
            Entry::Op {
                manager,
                operation,
                rights,
            } => format!(" (op {manager} {operation} {rights})"),
            Entry::Dir { node, rights } => format!(" (dir {node} {rights})"),
        }
    }
}

/// The form on a line of the opening, none for a bad form.
pub fn read_form(line: &[u8]) -> Option<Form> {
    let parts = read_line(line)?;
    match parts.as_slice() {
        [Part::Word(b"open")] => Some(Form::Open),
        [Part::Word(b"node"), Part::Number(node), entries @ ..] => {
            let entries = entries.iter().map(read_entry).collect::<Option<_>>()?;
            let node = *node;
            Some(Form::Node { node, entries })
        }
        [Part::Word(b"process"), Part::Number(process), Part::Number(prime)] => {
            Some(Form::Process {
                process: *process,
                prime: *prime,
            })
        }
        _ => None,
    }
}

fn read_entry(part: &Part) -> Option<Entry> {
    let Part::Form(parts) = part else {
        return None;
    };
    match parts.as_slice() {
        [Part::Word(b"op"), Part::Number(m), Part::Number(o), Part::Number(r)] => Some(Entry::Op {
            manager: *m,
            operation: *o,
            rights: *r,
        }),
        [Part::Word(b"dir"), Part::Number(n), Part::Number(r)] => Some(Entry::Dir {
            node: *n,
            rights: *r,
        }),
        _ => None,
    }
}

/// (rules O16, O17) Reads an opening text; a refusal is its number and line: the
/// first line with 2, 3, 4 or 6, and its lowest; if there is none, the first with 5.
pub fn read_opening(text: &[u8]) -> Result<Opening, (u32, u32)> {
    all_listed(read_text(text)?)
}

/// (rule O16) Reads a text through its `(open)`, whatever its forms name: 5 is no
/// refusal here.
pub fn read_text(text: &[u8]) -> Result<Opening, (u32, u32)> {
    let mut forms: Vec<Form> = Vec::new();
    let mut bytes = 0;
    for (line, number) in split_lines(text).zip(1..) {
        bytes += line.len();
        let form = read_form(line);
        if let Some(k) = lowest(&line_tests(&forms, form.as_ref())) {
            return Err((k, number));
        }
        forms.extend(form);
        if forms.last() == Some(&Form::Open) {
            return Ok(Opening { forms, bytes });
        }
    }
    // (rule O12) A text without `(open)` has 2 at the line after its last.
    Err((2, forms.len() as u32 + 1))
}

/// The tests of one line but for 5, with the forms of the lines before it.
fn line_tests(before: &[Form], form: Option<&Form>) -> Vec<(u32, bool)> {
    let Some(form) = form else {
        return vec![(2, true)];
    };
    let entries = match form {
        Form::Node { entries, .. } => entries.len(),
        _ => 0,
    };
    vec![
        (3, !form_in_range(form)),
        (4, before.iter().any(|other| gives_the_same(other, form))),
        (6, entries > ENTRIES),
    ]
}

fn form_in_range(form: &Form) -> bool {
    match form {
        Form::Node { node, entries } => {
            (1..=NODES).contains(node) && entries.iter().all(entry_in_range)
        }
        Form::Process { process, prime } => {
            (1..=PROCESSES).contains(process) && (1..=NODES).contains(prime)
        }
        Form::Open => true,
    }
}

fn entry_in_range(entry: &Entry) -> bool {
    match entry {
        Entry::Op {
            manager,
            operation,
            rights,
        } => {
            let manager = (1..=PROCESSES).contains(manager);
            manager && *operation <= LAST_OPERATION && *rights <= ALL_RIGHTS
        }
        Entry::Dir { node, rights } => (1..=NODES).contains(node) && *rights <= ALL_RIGHTS,
    }
}

/// (rule O14) A node or process given by two forms.
pub fn gives_the_same(a: &Form, b: &Form) -> bool {
    match (a, b) {
        (Form::Node { node: a, .. }, Form::Node { node: b, .. }) => a == b,
        (Form::Process { process: a, .. }, Form::Process { process: b, .. }) => a == b,
        _ => false,
    }
}

/// (rule O17) 5: a process or node that is not listed, at the line that names it.
fn all_listed(opening: Opening) -> Result<Opening, (u32, u32)> {
    let forms = &opening.forms;
    let missing = forms.iter().position(|form| !names_listed(forms, form));
    match missing {
        Some(at) => Err((5, at as u32 + 1)),
        None => Ok(opening),
    }
}

fn names_listed(forms: &[Form], form: &Form) -> bool {
    let node_given = |n: u32| {
        forms
            .iter()
            .any(|f| matches!(f, Form::Node { node, .. } if *node == n))
    };
    let process_given = |p: u32| {
        forms
            .iter()
            .any(|f| matches!(f, Form::Process { process, .. } if *process == p))
    };
    match form {
        Form::Node { entries, .. } => entries.iter().all(|entry| match entry {
            Entry::Op { manager, .. } => process_given(*manager),
            Entry::Dir { node, .. } => node_given(*node),
        }),
        Form::Process { prime, .. } => node_given(*prime),
        Form::Open => true,
    }
}

/// (rule O5) The tables of an accepted opening. Rows are numbered in text order.
pub fn open_tables(opening: &Opening) -> Tables {
    let mut tables = Tables::empty();
    for form in &opening.forms {
        match form {
            Form::Node { node, entries } => add_entries(&mut tables, *node, entries),
            Form::Process { process, prime } => {
                tables.set_process(*process, Process::in_prime_node(*prime));
            }
            Form::Open => {}
        }
    }
    tables
}

/// (rule R6) A row of the text has no source and depth 1.
fn add_entries(tables: &mut Tables, node: u32, entries: &[Entry]) {
    for entry in entries {
        let (kind, object, operation, rights) = match *entry {
            Entry::Op {
                manager,
                operation,
                rights,
            } => (Kind::Operation, manager, operation, rights),
            Entry::Dir { node, rights } => (Kind::Subdirectory, node, 0, rights),
        };
        let row = Row {
            number: tables.next,
            kind,
            object,
            operation,
            rights,
            place: Place::Node(node),
            source: 0,
            via: 0,
            depth: 1,
            request: 0,
        };
        tables.rows.push(row);
        tables.next += 1;
    }
}
