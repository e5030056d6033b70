//! Two opening texts joined: the forms of each are read into a directory, the second's are added to
//! the first's, and all are printed in order.

use super::forms::{Entry, Forms, Refused, ENTRIES, NODES, PROCESSES};
use super::printed::Printed;
use crate::entry::JOINED_BYTES;
use crate::layout::OPERATION;

/// What the forms of a text give.
struct Directory {
    nodes: [Node; NODES as usize + 1],
    /// The prime node of each process, 0 for none.
    primes: [u32; PROCESSES as usize + 1],
}

#[derive(Clone, Copy)]
struct Node {
    given: bool,
    count: usize,
    entries: [Entry; ENTRIES],
}

const NONE: Node = Node {
    given: false,
    count: 0,
    entries: [[0; 4]; ENTRIES],
};

/// Joins two texts, one after the other. The length of what is printed, 0 if there is no room for all
/// that may be.
#[inline(never)]
pub fn join(texts: &[u8], lent: &mut [u8]) -> usize {
    if lent.len() < JOINED_BYTES {
        return 0;
    }
    let printed = Printed::on(lent);
    let (mut first, mut second) = (Directory::empty(), Directory::empty());
    let read = first.read(texts).and_then(|rest| second.read(rest));
    if let Err((refusal, line)) = read {
        return printed.refused_at(refusal, line);
    }
    let listed = first.all_listed(&second) && second.all_listed(&first);
    match listed.then(|| first.add(&second)).unwrap_or(Err(5)) {
        Ok(()) => first.print(printed),
        Err(refusal) => printed.outcome(&Err(refusal)),
    }
}

impl Forms for Directory {
    fn node(&mut self, node: u32, entries: Option<&[Entry]>) -> Result<(), u32> {
        let place = &mut self.nodes[node as usize];
        if std::mem::replace(&mut place.given, true) {
            return Err(4);
        }
        let entries = entries.ok_or(6u32)?;
        place.entries[..entries.len()].copy_from_slice(entries);
        place.count = entries.len();
        Ok(())
    }

    fn process(&mut self, process: u32, prime: u32) -> Result<(), u32> {
        match std::mem::replace(&mut self.primes[process as usize], prime) {
            0 => Ok(()),
            _ => Err(4),
        }
    }
}

impl Directory {
    fn empty() -> Directory {
        Directory {
            nodes: [NONE; NODES as usize + 1],
            primes: [0; PROCESSES as usize + 1],
        }
    }

    /// Reads a text through its `(open)`; answers what follows it.
    fn read<'a>(&mut self, text: &'a [u8]) -> Result<&'a [u8], Refused> {
        let mut rest = text;
        let mut number = 1;
        while let Some(end) = rest.iter().position(|byte| *byte == b'\n') {
            let (line, after) = rest.split_at(end + 1);
            rest = after;
            if self.form(line).map_err(|refusal| (refusal, number))? {
                return Ok(rest);
            }
            number += 1;
        }
        Err((2, number))
    }

    /// Whether all that this directory names is listed here or in the other.
    fn all_listed(&self, other: &Directory) -> bool {
        let node = |n: usize| self.nodes[n].given || other.nodes[n].given;
        let process = |p: usize| self.primes[p] != 0 || other.primes[p] != 0;
        let listed = |entry: &Entry| match entry[0] {
            OPERATION => process(entry[1] as usize),
            _ => node(entry[1] as usize),
        };
        let primes = self.primes.iter().filter(|prime| **prime != 0);
        let mut nodes = self.nodes.iter();
        nodes.all(|node| node.entries().iter().all(listed))
            && primes.copied().all(|n| node(n as usize))
    }

    /// Adds all that the second text gives; 6 or 20.
    fn add(&mut self, second: &Directory) -> Result<(), u32> {
        for (node, more) in self.nodes.iter_mut().zip(&second.nodes) {
            node.add(more)?;
        }
        for (prime, other) in self.primes.iter_mut().zip(second.primes) {
            match (*prime, other) {
                (_, 0) => {}
                (0, _) => *prime = other,
                (one, _) if one != other => return Err(20),
                _ => {}
            }
        }
        Ok(())
    }

    /// The nodes, then the processes, each in rising number, then `(open)`.
    fn print(&self, mut printed: Printed) -> usize {
        for (n, node) in (0..).zip(&self.nodes).filter(|(_, node)| node.given) {
            printed.bytes(b"(node");
            printed.number(n);
            for entry in node.entries() {
                print_entry(&mut printed, entry);
            }
            printed.bytes(b")\n");
        }
        for (p, prime) in (0..).zip(self.primes).filter(|(_, prime)| *prime != 0) {
            printed.bytes(b"(process");
            printed.number(p);
            printed.number(prime);
            printed.bytes(b")\n");
        }
        printed.bytes(b"(open");
        printed.end()
    }
}

impl Node {
    fn entries(&self) -> &[Entry] {
        &self.entries[..self.count]
    }

    /// Adds the entries of the second text that equal none already here, if the first gives the node;
    /// 6 if there are too many.
    fn add(&mut self, second: &Node) -> Result<(), u32> {
        if !self.given {
            *self = *second;
            return Ok(());
        }
        for entry in second.entries() {
            if self.entries().contains(entry) {
                continue;
            }
            *self.entries.get_mut(self.count).ok_or(6u32)? = *entry;
            self.count += 1;
        }
        Ok(())
    }
}

fn print_entry(printed: &mut Printed, &[kind, object, operation, rights]: &Entry) {
    match kind {
        OPERATION => {
            printed.bytes(b" (op");
            printed.number(object);
            printed.number(operation);
        }
        _ => {
            printed.bytes(b" (dir");
            printed.number(object);
        }
    }
    printed.number(rights);
    printed.bytes(b")");
}
