//! What stands, is open and is on loan after a call, by the notes so far.

use crate::notes::{NotedRow, Notes};
use std::collections::{BTreeMap, BTreeSet};
use std::ops::Bound::{Excluded, Unbounded};

/// What holds after a call: the rows that stand, the ports and requests that
/// are not closed, and which request has which end on loan.
#[derive(Clone, Debug, Default)]
pub struct Moment {
    pub standing: BTreeSet<u32>,
    pub open_ports: BTreeSet<u32>,
    pub open_requests: BTreeSet<u32>,
    pub loans: BTreeSet<(u32, u32)>,
}

impl Moment {
    /// The moment after a call that is noted: by the notes, the moment before
    /// it and the request it asked, if any. What was gone stays gone, so what
    /// stood and what is newer is looked at. Sources are older, so in rising
    /// number they are decided before the row.
    pub fn after(notes: &Notes, before: &Moment, asked: Option<u32>) -> Moment {
        let mut moment = Moment::default();
        for (number, row) in candidates(&notes.rows, &before.standing) {
            if moment.row_stands(notes, number, row) {
                moment.standing.insert(number);
            }
        }
        let ports = candidates(&notes.ports, &before.open_ports);
        let open = ports.filter(|(c, _)| !moment.port_closed(notes, *c));
        moment.open_ports = open.map(|(c, _)| c).collect();
        let requests = candidates(&notes.requests, &before.open_requests);
        let open = requests.filter(|(v, _)| !moment.request_closed(notes, *v));
        moment.open_requests = open.map(|(v, _)| v).collect();
        moment.loans = moment.loans_after(notes, before, asked);
        moment
    }

    /// (rule H5) A row stands if no chain of it uses something dropped or closed: not
    /// the row itself, its request or its port, and no chain of a source.
    fn row_stands(&self, notes: &Notes, number: u32, row: &NotedRow) -> bool {
        let dropped = notes.dropped.contains(&number);
        let request = row.bears.is_some_and(|v| self.request_closed(notes, v));
        let port = row.end_of.is_some_and(|c| self.port_closed(notes, c));
        let sources = row.sources.iter().all(|s| self.standing.contains(s));
        !dropped && !request && !port && sources
    }

    /// (rule H4) A port is closed too when its operation row stands no more.
    fn port_closed(&self, notes: &Notes, port: u32) -> bool {
        let operation = notes.ports.get(&port);
        let stands = operation.is_some_and(|e| self.standing.contains(e));
        notes.closed_ports.contains(&port) || !stands
    }

    /// (rule H4) And a request when its port is closed.
    fn request_closed(&self, notes: &Notes, request: u32) -> bool {
        let port = notes.requests.get(&request).map(|r| r.port);
        let by_port = port.is_none_or(|c| self.port_closed(notes, c));
        notes.closed_requests.contains(&request) || by_port
    }

    /// (rule H6) A request has an end on loan until that end stands no more, or until
    /// it, or an older one with that end on loan, is closed.
    fn loans_after(
        &self,
        notes: &Notes,
        before: &Moment,
        asked: Option<u32>,
    ) -> BTreeSet<(u32, u32)> {
        let mut had = before.loans.clone();
        if let Some(v) = asked {
            let ends = notes.requests.get(&v).map(|r| r.ends.as_slice());
            had.extend(ends.unwrap_or(&[]).iter().map(|end| (v, *end)));
        }
        let closed = |w: u32| !self.open_requests.contains(&w);
        let ended = |&(v, end): &(u32, u32)| {
            let mut of_end = had.iter().filter(|(_, e)| *e == end);
            !self.standing.contains(&end) || of_end.any(|&(w, _)| w <= v && closed(w))
        };
        had.iter().filter(|loan| !ended(loan)).copied().collect()
    }
}

/// The notes of the numbers given, and those newer than all of them.
fn candidates<'a, T>(
    notes: &'a BTreeMap<u32, T>,
    old: &'a BTreeSet<u32>,
) -> impl Iterator<Item = (u32, &'a T)> + 'a {
    let after = old.last().map_or(Unbounded, |last| Excluded(*last));
    let kept = old.iter().filter_map(|n| notes.get_key_value(n));
    let all = kept.chain(notes.range((after, Unbounded)));
    all.map(|(number, note)| (*number, note))
}
