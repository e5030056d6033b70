//! Builds sound tables in rising numbers: rows with the sources that S13 allows,
//! requests with any ends, copies of them later; then marks, places and records.

use super::Shape;
use crate::limits::*;
use crate::random::prng::Rng;
use crate::relations::newest_listing;
use crate::tables::{Kind, Place, Process, Request, Row, Tables};

/// What is added next.
#[derive(Clone, Copy)]
enum Step {
    Opening,
    Registered,
    Held,
    Port,
    Request,
    Copy,
}

const STEPS: [Step; 6] = [
    Step::Opening,
    Step::Registered,
    Step::Held,
    Step::Port,
    Step::Request,
    Step::Copy,
];

/// How likely each step is, in the order of `STEPS`.
fn weights(shape: Shape) -> [u32; 6] {
    match shape {
        Shape::Few => [20, 8, 20, 20, 20, 30],
        Shape::Mixed => [16, 10, 24, 16, 16, 30],
        Shape::Deep => [8, 22, 24, 12, 12, 24],
        Shape::Loans => [8, 4, 10, 26, 40, 20],
        Shape::FullRows => [20, 20, 30, 16, 2, 10],
        Shape::FullRequests => [4, 2, 6, 40, 60, 20],
    }
}

pub struct Builder<'a> {
    rng: &'a mut Rng,
    shape: Shape,
    /// The listed processes, and the nodes that most rows speak of.
    listed: Vec<u32>,
    nodes: Vec<u32>,
    tables: Tables,
    /// The copies that requests have yet to get: a request's index and the item's.
    promised: Vec<(usize, usize)>,
    last: u32,
}

impl<'a> Builder<'a> {
    pub fn begin(rng: &'a mut Rng, shape: Shape) -> Builder<'a> {
        let listed = some_of(rng, PROCESSES);
        let nodes = some_of(rng, NODES);
        let last = match rng.below(4) {
            0 => rng.below(9) as u32,
            _ => 0,
        };
        let mut tables = Tables::empty();
        for p in &listed {
            let prime = rng.pick(&nodes).unwrap_or(1);
            tables.set_process(*p, Process::in_prime_node(prime));
        }
        Builder {
            rng,
            shape,
            listed,
            nodes,
            tables,
            promised: Vec::new(),
            last,
        }
    }

    /// Adds until there are so many rows, with at most so many requests on the way; then
    /// some requests more, which have no copies.
    pub fn fill(&mut self, rows: usize, requests: usize) {
        let weights = weights(self.shape);
        let mut tries = 0;
        while self.tables.rows.len() < rows && tries < 20 * rows {
            let room = rows - self.tables.rows.len();
            let step = STEPS[self.rng.weighted(&weights)];
            let open = self.tables.requests.len();
            let _ = match step {
                Step::Port if room < 2 => None,
                Step::Request if open >= requests => None,
                _ => self.step(step),
            };
            tries += 1;
        }
        let more = match self.shape {
            Shape::FullRequests => requests - self.tables.requests.len(),
            _ => self.rng.below(3),
        };
        for _ in 0..more {
            let _ = self.request();
        }
    }

    fn step(&mut self, step: Step) -> Option<()> {
        match step {
            Step::Opening => self.opening(),
            Step::Registered => self.registered(),
            Step::Held => self.held(),
            Step::Port => self.port(),
            Step::Request => self.request(),
            Step::Copy => self.copy(),
        }
    }

    /// (rules S1, S2, S3) The next number, or one a little above it.
    fn number(&mut self) -> u32 {
        let gap = match self.rng.below(5) {
            0 => self.rng.between(1, 3),
            _ => 0,
        };
        self.last += 1 + gap;
        self.last
    }

    fn process(&mut self) -> u32 {
        self.rng.pick(&self.listed).unwrap_or(1)
    }

    fn node(&mut self) -> u32 {
        match self.rng.below(12) {
            0 => self.rng.pick(&[1, NODES]).unwrap_or(1),
            _ => self.rng.pick(&self.nodes).unwrap_or(1),
        }
    }

    /// (rule S14) A row that passes the test and that a row can be made from: depth 11 at
    /// most. In deep tables often the deepest.
    fn source(&mut self, test: impl Fn(&Row) -> bool) -> Option<Row> {
        let rows = self.tables.rows.iter();
        let rows: Vec<&Row> = rows.filter(|r| r.depth < DEEPEST && test(r)).collect();
        if self.shape == Shape::Deep && self.rng.percent(70) {
            return rows.into_iter().max_by_key(|r| r.depth).copied();
        }
        self.rng.pick(&rows).copied()
    }

    /// (rules S9, S10) Any object, any rights.
    fn opening(&mut self) -> Option<()> {
        let operation = self.rng.percent(55);
        let (kind, object) = match operation {
            true => (Kind::Operation, self.process()),
            false => (Kind::Subdirectory, self.node()),
        };
        let numbers = [0, 1, 1, LAST_OPERATION];
        let row = Row {
            number: self.number(),
            kind,
            object,
            operation: if operation {
                self.rng.pick(&numbers)?
            } else {
                0
            },
            rights: self
                .rng
                .pick(&[ALL_RIGHTS, ALL_RIGHTS, ALL_RIGHTS, 3, 5, 6, 1, 0])?,
            place: Place::Node(self.node()),
            source: 0,
            via: 0,
            depth: 1,
            request: 0,
        };
        self.tables.rows.push(row);
        Some(())
    }

    /// (rule S15) Kind and object of the first source, rights within its; the deeper source
    /// decides the depth.
    fn made_from(&mut self, first: &Row, second: Option<&Row>) -> Row {
        let mask = match self.rng.below(3) {
            0 => self.rng.between(0, ALL_RIGHTS),
            _ => ALL_RIGHTS,
        };
        Row {
            number: self.number(),
            rights: first.rights & mask,
            source: first.number,
            via: second.map_or(0, |s| s.number),
            depth: 1 + first.depth.max(second.map_or(0, |s| s.depth)),
            request: 0,
            ..*first
        }
    }

    /// (rule S13) From any row of a node, in any node.
    fn registered(&mut self) -> Option<()> {
        let first = self.source(Row::in_node)?;
        let place = Place::Node(self.node());
        let row = self.made_from(&first, None);
        self.tables.rows.push(Row { place, ..row });
        Some(())
    }

    /// (rule S13) From any row of a node, through none or any subdirectory.
    fn held(&mut self) -> Option<()> {
        let first = self.source(Row::in_node)?;
        let through = match self.rng.percent(60) {
            true => self.through(),
            false => None,
        };
        let place = Place::CList(self.process());
        let row = self.made_from(&first, through.as_ref());
        self.tables.rows.push(Row { place, ..row });
        Some(())
    }

    /// A subdirectory gone through: any, often one that is lent.
    fn through(&mut self) -> Option<Row> {
        let subdirectory = |r: &Row| r.kind == Kind::Subdirectory;
        match self.rng.below(3) {
            0 => self.source(|r| subdirectory(r) && r.via != 0),
            1 => self.source(|r| subdirectory(r) && !r.in_node()),
            _ => self.source(subdirectory),
        }
    }

    /// (rules S13, S17) A client and a server end, from any operation.
    fn port(&mut self) -> Option<()> {
        let source = match self.rng.percent(75) {
            true => self.source(|r| r.kind == Kind::Operation && !r.in_node()),
            false => self.source(|r| r.kind == Kind::Operation),
        }?;
        let client = self.number();
        self.last += 1;
        for (kind, number) in [(Kind::Client, client), (Kind::Server, client + 1)] {
            self.tables.rows.push(Row {
                number,
                kind,
                object: client,
                operation: 0,
                rights: 0,
                place: Place::System,
                source: source.number,
                via: 0,
                depth: source.depth + 1,
                request: 0,
            });
        }
        Some(())
    }

    /// (rules S18, S19, S21, S22, S23) On any client end without an open request, by any
    /// process, with any ends; some items are copies that come later.
    fn request(&mut self) -> Option<()> {
        let busy = |r: &Row| self.tables.requests.iter().any(|q| q.port == r.number);
        let ends = self.tables.rows.iter().filter(|r| r.is_end());
        let ends: Vec<u32> = ends.map(|r| r.number).collect();
        let rows = self.tables.rows.iter().filter(|r| r.kind == Kind::Client);
        let free: Vec<u32> = rows.filter(|r| !busy(r)).map(|r| r.number).collect();
        let port = self.rng.pick(&free)?;
        let at = self.tables.requests.len();
        let mut items = [None; ITEMS];
        for index in 0..self.rng.below(ITEMS + 1) {
            let end = self.end(&ends);
            match self.rng.percent(55) {
                true if !items.contains(&end) => items[index] = end,
                _ => self.promised.push((at, index)),
            }
        }
        let request = Request {
            number: self.number(),
            port,
            asker: self.process(),
            fetched: 1,
            items,
        };
        self.tables.requests.push(request);
        Some(())
    }

    /// An end to list: any, where loans shall be many often one that is listed already.
    fn end(&mut self, ends: &[u32]) -> Option<u32> {
        let listed = self.tables.requests.iter().flat_map(Request::listed);
        let listed: Vec<u32> = listed.filter(|i| ends.contains(i)).collect();
        let wanted = if self.shape == Shape::Loans { 70 } else { 30 };
        match self.rng.percent(wanted) {
            true => self.rng.pick(&listed),
            false => self.rng.pick(ends),
        }
    }

    /// (rules S13, S24) A copy that a request shall have, of any operation or subdirectory.
    fn copy(&mut self) -> Option<()> {
        let at = self.rng.below(self.promised.len());
        let (request, index) = *self.promised.get(at)?;
        let Request { number, port, .. } = *self.tables.requests.get(request)?;
        let client = *self.tables.row(port).filter(|c| c.depth < DEEPEST)?;
        let first = match self.rng.below(4) {
            0 => self.source(|r| !r.is_end()),
            1 => self.source(|r| r.kind == Kind::Subdirectory && !r.in_node()),
            _ => self.source(|r| !r.is_end() && !r.in_node()),
        }?;
        let row = self.made_from(&first, Some(&client));
        self.promised.remove(at);
        self.tables.rows.push(Row {
            place: Place::System,
            request: number,
            ..row
        });
        self.tables.requests.get_mut(request)?.items[index] = Some(row.number);
        Some(())
    }

    /// Marks, places and records, which the rows and requests leave open.
    pub fn finish(mut self) -> Tables {
        self.mark();
        self.place();
        self.send();
        self.tables.next = self.last + 1;
        self.tables
    }

    /// (rule S25) A request is fetched if a newer one lists an item of it; else it may be.
    fn mark(&mut self) {
        for at in (0..self.tables.requests.len()).rev() {
            let (older, newer) = self.tables.requests.split_at_mut(at + 1);
            let lent_on = older[at].listed().any(|i| newer.iter().any(|q| q.lists(i)));
            older[at].fetched = u32::from(lent_on || self.rng.percent(50));
        }
    }

    /// (rule S26) An end or a copy is with the system exactly if its newest request is not
    /// fetched, else with any listed process.
    fn place(&mut self) {
        for at in 0..self.tables.rows.len() {
            let row = self.tables.rows[at];
            if !row.is_end() && row.request == 0 {
                continue;
            }
            let newest = newest_listing(&self.tables, row.number);
            let place = match newest.is_some_and(|q| q.fetched == 0) {
                true => Place::System,
                false => Place::CList(self.process()),
            };
            self.tables.rows[at].place = place;
        }
    }

    /// (rule S27) A process stays in its prime node or is in that of a subdirectory of its
    /// c-list.
    fn send(&mut self) {
        for p in self.listed.clone() {
            let rows = self.tables.rows.iter().filter(|r| r.in_c_list_of(p));
            let own: Vec<Row> = rows
                .filter(|r| r.kind == Kind::Subdirectory)
                .copied()
                .collect();
            let record = self.tables.process(p).copied();
            let (Some(record), Some(row)) = (record, self.rng.pick(&own)) else {
                continue;
            };
            if self.rng.percent(70) {
                let (active, through) = (row.object, row.number);
                self.tables.set_process(
                    p,
                    Process {
                        active,
                        through,
                        ..record
                    },
                );
            }
        }
    }
}

/// One to five numbers from 1 up to a limit, small ones or any, now and then the last.
fn some_of(rng: &mut Rng, limit: u32) -> Vec<u32> {
    let count = rng.between(1, 5);
    let most = if rng.percent(80) { 6 } else { limit };
    let mut numbers: Vec<u32> = (0..count).map(|_| rng.between(1, most)).collect();
    if rng.percent(20) {
        numbers.push(limit);
    }
    numbers.sort_unstable();
    numbers.dedup();
    numbers
}
