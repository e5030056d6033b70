//! Comes from, on loan, lent and the first chain of a row, read from a state.

use std::collections::{BTreeMap, BTreeSet};
use tablet::{Request, Row, State};

/// The open request on a port.
pub fn request_on(state: &State, port: u32) -> Option<&Request> {
    state.requests.iter().find(|q| q.port == port)
}

/// The open requests that list a row, the oldest first.
pub fn listing(state: &State, row: u32) -> impl Iterator<Item = &Request> {
    let lists = move |q: &&Request| q.listed().any(|i| i == row);
    state.requests.iter().filter(lists)
}

/// The rows that a request is a reason of, and the rows that have one of these as a source: for each the request, and
/// the source that it has the reason from, 0 if from none.
pub struct Reasons(BTreeMap<u32, (u32, u32)>);

impl Reasons {
    /// Sources are older, so one pass in rising number finds them all.
    fn find(state: &State, direct: impl Fn(&Row) -> Option<u32>) -> Reasons {
        let mut found: BTreeMap<u32, (u32, u32)> = BTreeMap::new();
        for row in &state.rows {
            let by_source = |s: u32| found.get(&s).map(|(request, _)| (*request, s));
            let reason = direct(row).map(|request| (request, 0));
            if let Some(reason) = reason.or_else(|| row.sources().find_map(by_source)) {
                found.insert(row.number, reason);
            }
        }
        Reasons(found)
    }

    /// (rule L8) The rows that are lent: on loan, or copies, or made from such.
    pub fn lent(state: &State) -> Reasons {
        let listed = state
            .requests
            .iter()
            .flat_map(|q| q.listed().map(|i| (i, q.number)));
        let newest: BTreeMap<u32, u32> = listed.collect();
        Reasons::find(state, |row| match row.bears {
            0 => newest.get(&row.number).copied().filter(|_| row.is_end()),
            request => Some(request),
        })
    }

    /// (rule R14) The rows that come from a request.
    pub fn comes(state: &State, request: u32) -> Reasons {
        Reasons::find(state, |row| Some(request).filter(|q| *q == row.bears))
    }

    /// The request that is the reason for a row.
    pub fn request(&self, row: u32) -> Option<u32> {
        self.0.get(&row).map(|(request, _)| *request)
    }

    /// The rows from this one to the one whose reason is no source's.
    pub fn chain(&self, row: u32) -> Vec<u32> {
        let next = |row: &u32| self.0.get(row).map(|(_, source)| *source);
        let first = self.0.contains_key(&row).then_some(row);
        std::iter::successors(first, |row| next(row).filter(|source| *source != 0)).collect()
    }

    /// All these rows.
    pub fn rows(&self) -> BTreeSet<u32> {
        self.0.keys().copied().collect()
    }
}

/// A state, and which of its rows are lent.
pub struct View<'a> {
    state: &'a State,
    pub lent: Reasons,
}

impl View<'_> {
    pub fn of(state: &State) -> View<'_> {
        let lent = Reasons::lent(state);
        View { state, lent }
    }
}

impl std::ops::Deref for View<'_> {
    type Target = State;

    fn deref(&self) -> &State {
        self.state
    }
}

/// (rule R15) The rows from one of the text to this one, each the first source of the next.
pub fn first_chain(state: &State, row: u32) -> Vec<&Row> {
    let sources = std::iter::successors(state.row(row), |r| state.row(r.sources[0]));
    let mut chain: Vec<&Row> = sources.collect();
    chain.reverse();
    chain
}

/// A row, the rows that it comes from and the rows that come from it.
pub fn around(state: &State, row: u32) -> BTreeSet<u32> {
    let mut found = BTreeSet::from([row]);
    for row in &state.rows {
        if row.sources().any(|s| found.contains(&s)) {
            found.insert(row.number);
        }
    }
    found.extend(above(state, &BTreeSet::from([row])));
    found
}

/// Rows and all that they come from. Sources are older, so one pass in falling number finds them all.
pub fn above(state: &State, rows: &BTreeSet<u32>) -> BTreeSet<u32> {
    let mut found = rows.clone();
    for row in state.rows.iter().rev() {
        if found.contains(&row.number) {
            found.extend(row.sources());
        }
    }
    found
}
