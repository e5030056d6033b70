//! A state as text, place by place.

use crate::state::{Kind, Place, Request, Row, State};
use std::fmt;

impl fmt::Display for Kind {
    fn fmt(&self, f: &mut fmt::Formatter) -> fmt::Result {
        f.write_str(match self {
            Kind::Operation => "operation",
            Kind::Subdirectory => "subdirectory",
            Kind::Client => "client end",
            Kind::Server => "server end",
        })
    }
}

impl fmt::Display for Place {
    fn fmt(&self, f: &mut fmt::Formatter) -> fmt::Result {
        match self {
            Place::Node(n) => write!(f, "node {n}"),
            Place::CList(p) => write!(f, "c-list of {p}"),
            Place::System => write!(f, "system"),
        }
    }
}

/// `row 8: operation 5 of manager 2, rights 3, sources 4 and 5, bears request 7`
impl fmt::Display for Row {
    fn fmt(&self, f: &mut fmt::Formatter) -> fmt::Result {
        write!(f, "row {}: {}", self.number, self.kind)?;
        match self.kind {
            Kind::Operation => write!(f, " {} of manager {}", self.operation, self.object)?,
            Kind::Subdirectory => write!(f, " node {}", self.object)?,
            Kind::Client | Kind::Server => write!(f, " of port {}", self.object)?,
        }
        if !self.is_end() {
            write!(f, ", rights {}", self.rights)?;
        }
        match self.sources {
            [0, _] => {}
            [first, 0] => write!(f, ", source {first}")?,
            [first, second] => write!(f, ", sources {first} and {second}")?,
        }
        match self.bears {
            0 => Ok(()),
            request => write!(f, ", bears request {request}"),
        }
    }
}

/// `request 7: on port 5, asked by 1, not fetched, items 8`
impl fmt::Display for Request {
    fn fmt(&self, f: &mut fmt::Formatter) -> fmt::Result {
        let fetched = if self.fetched == 0 {
            "not fetched"
        } else {
            "fetched"
        };
        write!(
            f,
            "request {}: on port {}, asked by {}, {fetched}",
            self.number, self.port, self.asker
        )?;
        let items: Vec<String> = self.listed().map(|i| i.to_string()).collect();
        if items.is_empty() {
            return write!(f, ", no items");
        }
        write!(f, ", items {}", items.join(" "))
    }
}

/// Nodes, processes with their c-lists, the system, the requests and the next number, a line each.
impl fmt::Display for State {
    fn fmt(&self, f: &mut fmt::Formatter) -> fmt::Result {
        let mut nodes: Vec<Place> = self.rows.iter().map(|r| r.place).collect();
        nodes.retain(|place| matches!(place, Place::Node(_)));
        nodes.sort();
        nodes.dedup();
        for node in nodes {
            writeln!(f, "{node}")?;
            self.write_rows(f, node)?;
        }
        for p in self.listed() {
            let record = self.process(p).copied().unwrap_or_default();
            write!(f, "process {p}: in node {}", record.active)?;
            match record.through {
                0 => writeln!(f, ", its prime node")?,
                row => writeln!(f, " through row {row}, prime node {}", record.prime)?,
            }
            self.write_rows(f, Place::CList(p))?;
        }
        writeln!(f, "system")?;
        self.write_rows(f, Place::System)?;
        for request in &self.requests {
            writeln!(f, "{request}")?;
        }
        writeln!(f, "next number {}", self.next)
    }
}

impl State {
    fn write_rows(&self, f: &mut fmt::Formatter, place: Place) -> fmt::Result {
        self.at(place).try_for_each(|row| writeln!(f, "  {row}"))
    }
}
