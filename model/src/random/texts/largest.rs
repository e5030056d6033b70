//! The largest texts: 32 nodes of 16 entries and 64 processes, all numbers as long as they go.

use super::super::prng::Rng;
use super::related::Pair;
use crate::limits::{ENTRIES, LAST_OPERATION, NODES, PROCESSES};
use crate::opening::{Entry, Form};

/// How the nodes, the entries and the processes are shared out between the texts.
#[derive(Clone, Copy, PartialEq, Eq, Debug)]
pub enum Share {
    /// Each node is in both texts, with half of its entries in each.
    Halves,
    /// The second text is the first.
    Same,
    /// Each node and each process is in one text alone.
    Apart,
    /// Each node is in both texts, all 32 entries different: refused with 6.
    Different,
    /// All is in the second text, the first is `(open)` alone.
    SecondAlone,
}

pub const SHARES: [Share; 5] = [
    Share::Halves,
    Share::Same,
    Share::Apart,
    Share::Different,
    Share::SecondAlone,
];

/// The bytes of the longest joined text.
pub const LONGEST: usize = 8501;

/// A pair that is joined to the longest text, or (`Different`) refused.
pub fn largest(rng: &mut Rng, share: Share) -> Pair {
    let mut pair = Pair {
        texts: Default::default(),
        nodes: (1..=NODES).collect(),
        processes: (1..=PROCESSES).collect(),
    };
    for node in 1..=NODES {
        let [first, second] = entries(rng).map(|entries| Form::Node { node, entries });
        share_out(&mut pair, share, node, first, second);
    }
    for process in 1..=PROCESSES {
        let prime = rng.between(10, NODES);
        let form = Form::Process { process, prime };
        share_out(&mut pair, share, process, form.clone(), form);
    }
    for text in &mut pair.texts {
        rng.shuffle(text);
    }
    pair
}

/// Twice 16 entries, all different and as long as an entry is.
fn entries(rng: &mut Rng) -> [Vec<Entry>; 2] {
    let mut operations: Vec<u32> = (100..=LAST_OPERATION).collect();
    rng.shuffle(&mut operations);
    let mut entry = |operation: &u32| Entry::Op {
        manager: rng.between(10, PROCESSES),
        operation: *operation,
        rights: rng.between(0, 7),
    };
    let mut next = |from: usize| {
        operations[from..from + ENTRIES]
            .iter()
            .map(&mut entry)
            .collect()
    };
    [next(0), next(ENTRIES)]
}

/// A form of the first text and one of the second for the same number; the first is all that is
/// joined, unless all is different.
fn share_out(pair: &mut Pair, share: Share, number: u32, first: Form, second: Form) {
    let [texts, more] = &mut pair.texts;
    match share {
        Share::Same => {
            texts.push(first.clone());
            more.push(first);
        }
        Share::Halves => {
            let (half, rest) = halves(first);
            texts.push(half);
            more.push(rest);
        }
        Share::Apart if number % 2 == 0 => texts.push(first),
        Share::Apart | Share::SecondAlone => more.push(first),
        Share::Different => {
            texts.push(first);
            more.push(second);
        }
    }
}

fn halves(form: Form) -> (Form, Form) {
    let Form::Node { node, mut entries } = form else {
        return (form.clone(), form);
    };
    let rest = entries.split_off(ENTRIES / 2);
    (
        Form::Node { node, entries },
        Form::Node {
            node,
            entries: rest,
        },
    )
}
