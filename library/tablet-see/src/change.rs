//! What a call changed: the difference of two states.

use std::collections::BTreeMap;
use tablet::{Place, Record, Request, Row, State};

/// The difference of two states, each part in rising number.
#[derive(Clone, PartialEq, Eq, Debug, Default)]
pub struct Change {
    pub made: Vec<Row>,
    pub removed: Vec<Row>,
    /// A row as it is now, and where it was.
    pub moved: Vec<(Row, Place)>,
    pub opened: Vec<Request>,
    pub closed: Vec<Request>,
    pub fetched: Vec<Request>,
    /// A request that stays open, and an item that left its list.
    pub left: Vec<(u32, u32)>,
    /// A process and its record now.
    pub records: Vec<(u32, Record)>,
}

pub fn change(before: &State, after: &State) -> Change {
    let mut change = Change::default();
    let old: BTreeMap<u32, &Row> = before.rows.iter().map(|r| (r.number, r)).collect();
    let new: BTreeMap<u32, &Row> = after.rows.iter().map(|r| (r.number, r)).collect();
    for row in &after.rows {
        match old.get(&row.number) {
            None => change.made.push(*row),
            Some(was) if was.place != row.place => change.moved.push((*row, was.place)),
            Some(_) => {}
        }
    }
    let gone = before.rows.iter().filter(|r| !new.contains_key(&r.number));
    change.removed = gone.copied().collect();
    for request in &after.requests {
        match before.request(request.number) {
            None => change.opened.push(*request),
            Some(was) => {
                if was.fetched != request.fetched {
                    change.fetched.push(*request);
                }
                let left = was.listed().filter(|i| !request.items.contains(i));
                change.left.extend(left.map(|i| (request.number, i)));
            }
        }
    }
    let closed = before
        .requests
        .iter()
        .filter(|q| after.request(q.number).is_none());
    change.closed = closed.copied().collect();
    let records = before.processes.iter().zip(&after.processes).zip(1..);
    let records = records.filter(|((was, is), _)| was != is);
    change.records = records.map(|((_, is), p)| (p, *is)).collect();
    change
}
