//! Two opening texts joined into one.

use crate::answer::Answer;
use crate::limits::ENTRIES;
use crate::opening::{read_text, Entry, Form};
use crate::refusals::{lowest, Tests};
use std::collections::{BTreeMap, BTreeSet};

/// What the forms of a text give: the entries of each node, the prime node of each process.
#[derive(Default)]
struct Directory {
    nodes: BTreeMap<u32, Vec<Entry>>,
    primes: BTreeMap<u32, u32>,
}

/// A node or a process, as a text lists or names it.
#[derive(Clone, Copy, PartialEq, Eq, PartialOrd, Ord)]
enum Name {
    Node(u32),
    Process(u32),
}

impl Directory {
    fn of(forms: Vec<Form>) -> Directory {
        let mut directory = Directory::default();
        for form in forms {
            match form {
                Form::Node { node, entries } => drop(directory.nodes.insert(node, entries)),
                Form::Process { process, prime } => drop(directory.primes.insert(process, prime)),
                Form::Open => {}
            }
        }
        directory
    }

    fn listed(&self) -> BTreeSet<Name> {
        let nodes = self.nodes.keys().copied().map(Name::Node);
        let processes = self.primes.keys().copied().map(Name::Process);
        nodes.chain(processes).collect()
    }

    /// The manager or the node of each entry, and each prime node.
    fn named(&self) -> BTreeSet<Name> {
        let entries = self.nodes.values().flatten().map(|entry| match entry {
            Entry::Op { manager, .. } => Name::Process(*manager),
            Entry::Dir { node, .. } => Name::Node(*node),
        });
        let primes = self.primes.values().copied().map(Name::Node);
        entries.chain(primes).collect()
    }

    /// (rules J2, J3) Its text: the nodes, then the processes, each in rising number, then `(open)`.
    fn print(self) -> Vec<u8> {
        let nodes = self.nodes.into_iter();
        let nodes = nodes.map(|(node, entries)| Form::Node { node, entries });
        let processes = self.primes.into_iter();
        let processes = processes.map(|(process, prime)| Form::Process { process, prime });
        let forms = nodes.chain(processes).chain([Form::Open]);
        let lines = forms.map(|form| form.print());
        lines.collect::<String>().into_bytes()
    }
}

/// (rule J4) The entries of a node of both texts: of the second's each that equals none of the
/// first's and none before it in the second.
fn entries_of_both(first: &[Entry], second: &[Entry]) -> Vec<Entry> {
    let each = second.iter().enumerate();
    let new = each.filter(|(at, entry)| !first.contains(entry) && !second[..*at].contains(entry));
    first
        .iter()
        .chain(new.map(|(_, entry)| entry))
        .copied()
        .collect()
}

/// (rules J4, J5) All that either text gives; a process of both has the first text's prime node.
fn joined(first: &Directory, second: &Directory) -> Directory {
    let either = first.nodes.iter().chain(&second.nodes);
    let nodes = either.map(|(node, alone)| {
        let entries = match (first.nodes.get(node), second.nodes.get(node)) {
            (Some(first), Some(second)) => entries_of_both(first, second),
            _ => alone.clone(),
        };
        (*node, entries)
    });
    let primes = second.primes.iter().chain(&first.primes);
    Directory {
        nodes: nodes.collect(),
        primes: primes.map(|(process, prime)| (*process, *prime)).collect(),
    }
}

/// (rules J7, J8, J9) The refusals of two texts that are good each by itself.
fn tests(first: &Directory, second: &Directory, joined: &Directory) -> Tests {
    let listed = &first.listed() | &second.listed();
    let named = &first.named() | &second.named();
    let missing = !named.is_subset(&listed);
    let crowded = joined.nodes.values().any(|entries| entries.len() > ENTRIES);
    let both = |process: &u32| Some((first.primes.get(process)?, second.primes.get(process)?));
    let mut primes = first.primes.keys().filter_map(both);
    let differ = primes.any(|(one, other)| one != other);
    vec![(5, missing), (6, crowded), (20, differ)]
}

/// (rules J1, J2, J6) The program `join`: the joined text of the two at the front of the input, or
/// the refusal.
pub fn join(input: &[u8]) -> Vec<u8> {
    match joined_text(input) {
        Ok(text) => text,
        Err(refusal) => refusal.print(),
    }
}

/// (rule J6) A text's own refusal has its line in that text, the first text's comes first; one of
/// both texts has no line, and the lowest is printed.
fn joined_text(input: &[u8]) -> Result<Vec<u8>, Answer> {
    let own = |(k, line): (u32, u32)| Answer::NoAt(k, line);
    let first = read_text(input).map_err(own)?;
    let second = read_text(&input[first.bytes..]).map_err(own)?;
    let (first, second) = (Directory::of(first.forms), Directory::of(second.forms));
    let joined = joined(&first, &second);
    match lowest(&tests(&first, &second, &joined)) {
        Some(k) => Err(Answer::No(k)),
        None => Ok(joined.print()),
    }
}
