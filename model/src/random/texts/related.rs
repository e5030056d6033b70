//! Two texts of one trade: nodes and processes of both, entries that are equal or nearly so. They
//! are joined and not refused.

use super::super::openings::some_numbers;
use super::super::prng::Rng;
use crate::limits::{ALL_RIGHTS, ENTRIES, LAST_OPERATION, NODES, PROCESSES};
use crate::opening::{Entry, Form};
use std::collections::BTreeSet;

/// The forms of two texts, without their `(open)`.
#[derive(Clone, Default, Debug)]
pub struct Pair {
    pub texts: [Vec<Form>; 2],
    /// The nodes and the processes of either text.
    pub nodes: Vec<u32>,
    pub processes: Vec<u32>,
}

/// How many nodes and processes both texts have together, and how many entries a node of one has.
/// One node and one process are always in neither.
#[derive(Clone, Copy, PartialEq, Eq, Debug)]
pub enum Size {
    Small,
    Middle,
    Large,
}

pub const SIZES: [Size; 3] = [Size::Small, Size::Middle, Size::Large];

impl Size {
    fn numbers(self) -> [(u32, u32); 3] {
        match self {
            Size::Small => [(2, 3), (1, 3), (0, 4)],
            Size::Middle => [(2, 8), (2, 10), (0, 9)],
            Size::Large => [(20, 31), (40, 63), (4, 16)],
        }
    }
}

/// The texts that give a number, 0 for the first and 1 for the second.
const FIRST: &[usize] = &[0];
const SECOND: &[usize] = &[1];
const BOTH: &[usize] = &[0, 1];

/// A pair that is joined. The first of the nodes and of the processes are in both texts.
pub fn related(rng: &mut Rng, size: Size) -> Pair {
    let [nodes, processes, entries] = size.numbers();
    let mut pair = Pair {
        texts: Default::default(),
        nodes: some_numbers(rng, nodes, NODES),
        processes: some_numbers(rng, processes, PROCESSES),
    };
    for (at, node) in pair.nodes.clone().into_iter().enumerate() {
        let count = rng.between(entries.0, entries.1);
        let first = pair.entries(rng, count as usize);
        for text in sides(rng, at) {
            let entries = match text {
                0 => first.clone(),
                _ => pair.edited(rng, &first),
            };
            pair.texts[*text].push(Form::Node { node, entries });
        }
    }
    for (at, process) in pair.processes.clone().into_iter().enumerate() {
        let prime = rng.pick(&pair.nodes).unwrap_or(1);
        for text in sides(rng, at) {
            pair.texts[*text].push(Form::Process { process, prime });
        }
    }
    for text in &mut pair.texts {
        if rng.percent(75) {
            rng.shuffle(text);
        }
    }
    pair
}

fn sides(rng: &mut Rng, at: usize) -> &'static [usize] {
    match rng.weighted(&[50, 25, 25]) {
        1 if at > 0 => FIRST,
        2 if at > 0 => SECOND,
        _ => BOTH,
    }
}

/// The entries of a node of both texts: so many would be written. Each of the second's is one more
/// if it equals none of the first's, equal ones together.
pub fn count_of_both(first: &[Entry], second: &[Entry]) -> usize {
    let set = |entries: &[Entry]| entries.iter().copied().collect::<BTreeSet<_>>();
    first.len() + (&set(second) - &set(first)).len()
}

impl Pair {
    /// Both texts, one after the other.
    pub fn print(&self) -> Vec<u8> {
        let texts = self.texts.iter().map(|text| print(text));
        texts.collect::<Vec<_>>().concat()
    }

    /// An entry that names what one of the texts gives.
    pub fn entry(&self, rng: &mut Rng) -> Entry {
        let rights = match rng.percent(60) {
            true => ALL_RIGHTS,
            false => rng.between(0, ALL_RIGHTS),
        };
        match rng.percent(40) {
            true => Entry::Dir {
                node: rng.pick(&self.nodes).unwrap_or(1),
                rights,
            },
            false => Entry::Op {
                manager: rng.pick(&self.processes).unwrap_or(1),
                operation: rng.pick(&[0, 1, 2, 9, 10, LAST_OPERATION]).unwrap_or(0),
                rights,
            },
        }
    }

    /// So many entries, some of them equal.
    fn entries(&self, rng: &mut Rng, count: usize) -> Vec<Entry> {
        let mut entries = Vec::new();
        while entries.len() < count {
            let earlier = rng.pick(&entries).filter(|_| rng.percent(15));
            entries.push(earlier.unwrap_or_else(|| self.entry(rng)));
        }
        entries
    }

    /// The entries of the second text for a node with these in the first: equal ones, once or more
    /// often, some nearly equal, some new; so many that all can be joined.
    fn edited(&self, rng: &mut Rng, first: &[Entry]) -> Vec<Entry> {
        let mut second = Vec::new();
        for entry in first {
            match rng.below(8) {
                0..=2 => second.push(*entry),
                3 => second.extend([*entry; 2]),
                4 => second.push(self.nearly(rng, *entry)),
                5 => second.extend([self.entry(rng), *entry]),
                6 => second.extend([self.entry(rng); 2]),
                _ => {}
            }
        }
        for _ in 0..rng.below(3) {
            second.push(self.entry(rng));
        }
        if rng.percent(30) {
            rng.shuffle(&mut second);
        }
        while second.len() > ENTRIES || count_of_both(first, &second) > ENTRIES {
            second.pop();
        }
        second
    }

    /// The entry with one of its parts changed, or of the other kind with the same numbers.
    fn nearly(&self, rng: &mut Rng, entry: Entry) -> Entry {
        let other = |rights: u32| (rights + 1) % (ALL_RIGHTS + 1);
        match entry {
            Entry::Op {
                manager,
                operation,
                rights,
            } => match rng.below(4) {
                0 if self.nodes.contains(&manager) => Entry::Dir {
                    node: manager,
                    rights,
                },
                1 => Entry::Op {
                    manager: rng.pick(&self.processes).unwrap_or(manager),
                    operation,
                    rights,
                },
                2 => Entry::Op {
                    manager,
                    operation: operation ^ 1,
                    rights,
                },
                _ => Entry::Op {
                    manager,
                    operation,
                    rights: other(rights),
                },
            },
            Entry::Dir { node, rights } => match rng.below(3) {
                0 if self.processes.contains(&node) => Entry::Op {
                    manager: node,
                    operation: 0,
                    rights,
                },
                1 => Entry::Dir {
                    node: rng.pick(&self.nodes).unwrap_or(node),
                    rights,
                },
                _ => Entry::Dir {
                    node,
                    rights: other(rights),
                },
            },
        }
    }
}

/// A text of these forms.
pub fn print(forms: &[Form]) -> Vec<u8> {
    let lines = forms.iter().chain([&Form::Open]).map(Form::print);
    lines.collect::<String>().into_bytes()
}
