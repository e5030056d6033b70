//! The tables: rows, open requests, process records and the next number.

use crate::limits::{ITEMS, PROCESSES};

/// (rule R2) The four kinds.
#[derive(Clone, Copy, PartialEq, Eq, Debug)]
pub enum Kind {
    Operation,
    Subdirectory,
    Client,
    Server,
}

/// (rule R4) A node, the c-list of a process, or the system.
#[derive(Clone, Copy, PartialEq, Eq, Debug)]
pub enum Place {
    Node(u32),
    CList(u32),
    System,
}

/// (rule R1) A row is one privilege. Sources are row numbers, 0 for none; `source`
/// is the first and `via` the second.
#[derive(Clone, Copy, PartialEq, Eq, Debug)]
pub struct Row {
    pub number: u32,
    pub kind: Kind,
    /// The manager, the subdirectory's node, or the port (its client end's number).
    pub object: u32,
    pub operation: u32,
    pub rights: u32,
    pub place: Place,
    pub source: u32,
    pub via: u32,
    pub depth: u32,
    /// The request's number that a lent copy bears, 0 for none.
    pub request: u32,
}

/// An open request. An item that left the list is none at its index.
#[derive(Clone, Copy, PartialEq, Eq, Debug)]
pub struct Request {
    pub number: u32,
    pub port: u32,
    pub asker: u32,
    pub fetched: u32,
    pub items: [Option<u32>; ITEMS],
}

/// (rule R13) Prime node, active node, and the subdirectory row gone through or none.
#[derive(Clone, Copy, PartialEq, Eq, Debug, Default)]
pub struct Process {
    pub prime: u32,
    pub active: u32,
    pub through: u32,
}

#[derive(Clone, PartialEq, Eq, Debug)]
pub struct Tables {
    pub rows: Vec<Row>,
    pub requests: Vec<Request>,
    /// (rule W5) 64 records, that of process p at p - 1.
    pub processes: [Process; PROCESSES as usize],
    pub next: u32,
}

impl Row {
    pub fn is_end(&self) -> bool {
        matches!(self.kind, Kind::Client | Kind::Server)
    }

    /// The port that an end belongs to, as its client end's number.
    pub fn port(&self) -> Option<u32> {
        self.is_end().then_some(self.object)
    }

    pub fn in_node(&self) -> bool {
        matches!(self.place, Place::Node(_))
    }

    pub fn in_c_list_of(&self, process: u32) -> bool {
        self.place == Place::CList(process)
    }

    pub fn permits(&self, right: u32) -> bool {
        self.rights & right == right
    }

    /// The numbers of its sources, the first and then the second.
    pub fn sources(&self) -> impl Iterator<Item = u32> {
        [self.source, self.via].into_iter().filter(|&s| s != 0)
    }

    pub fn comes_directly_from(&self, number: u32) -> bool {
        self.sources().any(|s| s == number)
    }
}

impl Process {
    /// The record of a process in its prime node, through none.
    pub fn in_prime_node(prime: u32) -> Process {
        Process {
            prime,
            active: prime,
            through: 0,
        }
    }
}

impl Request {
    /// The items still listed, in the order asked.
    pub fn listed(&self) -> impl Iterator<Item = u32> {
        self.items.into_iter().flatten()
    }

    pub fn lists(&self, number: u32) -> bool {
        self.listed().any(|i| i == number)
    }

    /// The item leaves the list; nothing moves up.
    pub fn strike(&mut self, number: u32) {
        for item in self.items.iter_mut().filter(|i| **i == Some(number)) {
            *item = None;
        }
    }
}

impl Tables {
    /// (rule K7) Empty tables, next number 1.
    pub fn empty() -> Tables {
        Tables {
            rows: Vec::new(),
            requests: Vec::new(),
            processes: [Process::default(); PROCESSES as usize],
            next: 1,
        }
    }

    /// The row of that number. Rows stand in rising number, so a search by
    /// halves finds it; tables in another order are searched from the front.
    pub fn row(&self, number: u32) -> Option<&Row> {
        match self.rows.binary_search_by_key(&number, |r| r.number) {
            Ok(at) => self.rows.get(at),
            Err(_) => self.rows.iter().find(|r| r.number == number),
        }
    }

    pub fn request(&self, number: u32) -> Option<&Request> {
        self.requests.iter().find(|q| q.number == number)
    }

    /// The record of a listed process.
    pub fn process(&self, process: u32) -> Option<&Process> {
        let at = (process as usize).checked_sub(1)?;
        self.processes.get(at).filter(|record| record.prime != 0)
    }

    pub fn listed(&self, process: u32) -> bool {
        self.process(process).is_some()
    }

    pub fn set_process(&mut self, process: u32, record: Process) {
        let at = (process as usize).wrapping_sub(1);
        if let Some(old) = self.processes.get_mut(at) {
            *old = record;
        }
    }

    pub fn set_place(&mut self, number: u32, place: Place) {
        for row in self.rows.iter_mut().filter(|r| r.number == number) {
            row.place = place;
        }
    }
}
