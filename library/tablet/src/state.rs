//! What the words say: rows, open requests, process records and the next number, to be read.

use crate::layout::*;

/// (rule R2) The four kinds.
#[derive(Clone, Copy, PartialEq, Eq, Debug)]
pub enum Kind {
    Operation,
    Subdirectory,
    Client,
    Server,
}

/// (rule R4) A node, the c-list of a process, or the system.
#[derive(Clone, Copy, PartialEq, Eq, PartialOrd, Ord, Debug)]
pub enum Place {
    Node(u32),
    CList(u32),
    System,
}

/// (rule R1) One privilege. Of sources and requests stand the numbers, 0 for none.
#[derive(Clone, Copy, PartialEq, Eq, Debug)]
pub struct Row {
    pub number: u32,
    pub kind: Kind,
    /// The manager, the node, or the port (its client end's number).
    pub object: u32,
    pub operation: u32,
    pub rights: u32,
    pub place: Place,
    pub sources: [u32; 2],
    pub depth: u32,
    /// The request whose number a lent copy bears.
    pub bears: u32,
}

/// (rule L3) An open request. An item that left the list is 0.
#[derive(Clone, Copy, PartialEq, Eq, Debug)]
pub struct Request {
    pub number: u32,
    pub port: u32,
    pub asker: u32,
    pub fetched: u32,
    pub items: [u32; ITEMS],
}

/// (rule R13) A process record: prime node, active node, the row gone through. All 0 if the process is not listed.
#[derive(Clone, Copy, PartialEq, Eq, Debug, Default)]
pub struct Record {
    pub prime: u32,
    pub active: u32,
    pub through: u32,
}

/// The state that words stand for.
#[derive(Clone, PartialEq, Eq, Debug)]
pub struct State {
    /// In rising number.
    pub rows: Vec<Row>,
    /// In rising number.
    pub requests: Vec<Request>,
    /// 64 records, that of process p at p - 1.
    pub processes: Vec<Record>,
    pub next: u32,
}

impl Row {
    /// Whether it is an end of a port.
    pub fn is_end(&self) -> bool {
        matches!(self.kind, Kind::Client | Kind::Server)
    }

    /// The port of an end, as its client end's number.
    pub fn port(&self) -> Option<u32> {
        self.is_end().then_some(self.object)
    }

    /// Its sources, the first and then the second.
    pub fn sources(&self) -> impl Iterator<Item = u32> {
        self.sources.into_iter().filter(|&s| s != 0)
    }
}

impl Request {
    /// The items that it still lists, in the order of the ask.
    pub fn listed(&self) -> impl Iterator<Item = u32> {
        self.items.into_iter().filter(|&i| i != 0)
    }
}

impl State {
    /// Reads words of any content. None if they are not laid out as W2 to W8 and W12 say: a run of another length, an
    /// unused slot that is not all 0, an unknown code, a source word that is no earlier slot.
    pub fn read(tables: &[u32], processes: &[u32]) -> Option<State> {
        if tables.len() != TABLES_WORDS || processes.len() != PROCESSES_WORDS {
            return None;
        }
        let (rows, rest) = tables.split_at(REQUESTS_AT);
        let (requests, next) = rest.split_at(NEXT_AT - REQUESTS_AT);
        let rows = used_slots::<ROW_COLUMNS>(rows, ROWS)?;
        let requests = used_slots::<REQUEST_COLUMNS>(requests, REQUESTS)?;
        let numbers: Vec<u32> = rows.iter().map(|fields| fields[0]).collect();
        let rows = rows.iter().enumerate();
        let rows = rows.map(|(slot, fields)| row(fields, numbers.get(..slot)?));
        let records = processes.chunks_exact(3);
        let record = |w: &[u32]| Record {
            prime: w[0],
            active: w[1],
            through: w[2],
        };
        Some(State {
            rows: rows.collect::<Option<_>>()?,
            requests: requests.iter().map(request).collect(),
            processes: records.map(record).collect(),
            next: *next.first()?,
        })
    }

    /// The row of that number. Rows stand in rising number; if these do not, as in words that are not sound, all are
    /// looked at.
    pub fn row(&self, number: u32) -> Option<&Row> {
        match self.rows.binary_search_by_key(&number, |r| r.number) {
            Ok(slot) => self.rows.get(slot),
            Err(_) => self.rows.iter().find(|r| r.number == number),
        }
    }

    /// The open request of that number.
    pub fn request(&self, number: u32) -> Option<&Request> {
        self.requests.iter().find(|q| q.number == number)
    }

    /// The record of a listed process.
    pub fn process(&self, process: u32) -> Option<&Record> {
        let at = (process as usize).checked_sub(1)?;
        self.processes.get(at).filter(|record| record.prime != 0)
    }

    /// The listed processes.
    pub fn listed(&self) -> impl Iterator<Item = u32> + '_ {
        (1..=PROCESSES as u32).filter(|&p| self.process(p).is_some())
    }

    /// The rows of a place.
    pub fn at(&self, place: Place) -> impl Iterator<Item = &Row> {
        self.rows.iter().filter(move |r| r.place == place)
    }
}

/// (rules W6, W7) The slots in use, each with its columns; after the first unused one all must be 0.
fn used_slots<const N: usize>(words: &[u32], slots: usize) -> Option<Vec<[u32; N]>> {
    let slot = |at: usize| std::array::from_fn(|column| words[column * slots + at]);
    let all: Vec<[u32; N]> = (0..slots).map(slot).collect();
    let used = all.iter().take_while(|fields| fields[0] != 0).count();
    let rest_is_0 = all[used..].iter().all(|fields| *fields == [0; N]);
    rest_is_0.then(|| all[..used].to_vec())
}

/// A row by its columns; `older` are the numbers of the slots before it.
fn row(fields: &[u32; ROW_COLUMNS], older: &[u32]) -> Option<Row> {
    let [number, kind, object, operation, rights, place, first, second, depth, bears] = *fields;
    let source = |word: u32| match (word as usize).checked_sub(1) {
        None => Some(0),
        Some(slot) => older.get(slot).copied(),
    };
    Some(Row {
        number,
        kind: kind_of(kind)?,
        object,
        operation,
        rights,
        place: place_of(place)?,
        sources: [source(first)?, source(second)?],
        depth,
        bears,
    })
}

fn kind_of(code: u32) -> Option<Kind> {
    match code {
        1 => Some(Kind::Operation),
        2 => Some(Kind::Subdirectory),
        3 => Some(Kind::Client),
        4 => Some(Kind::Server),
        _ => None,
    }
}

fn place_of(code: u32) -> Option<Place> {
    match code {
        SYSTEM => Some(Place::System),
        n if n < C_LIST => Some(Place::Node(n)),
        p if p < SYSTEM => Some(Place::CList(p - C_LIST)),
        _ => None,
    }
}

fn request(fields: &[u32; REQUEST_COLUMNS]) -> Request {
    let [number, port, asker, fetched, items @ ..] = *fields;
    Request {
        number,
        port,
        asker,
        fetched,
        items,
    }
}
