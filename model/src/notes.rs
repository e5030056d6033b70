//! The notes of a history: what the calls made, dropped and closed, and what is
//! read off that alone.

use std::collections::{BTreeMap, BTreeSet};

/// A noted row: its sources, the request it bears, the port it is an end of.
#[derive(Clone, Debug, Default)]
pub struct NotedRow {
    pub sources: Vec<u32>,
    pub bears: Option<u32>,
    pub end_of: Option<u32>,
}

/// (rule H2) A request, its lender, its port, the ends among its items.
#[derive(Clone, Debug)]
pub struct NotedRequest {
    pub lender: u32,
    pub port: u32,
    pub ends: Vec<u32>,
}

#[derive(Clone, Debug, Default)]
pub struct Notes {
    pub rows: BTreeMap<u32, NotedRow>,
    /// The operation row that each port was made from.
    pub ports: BTreeMap<u32, u32>,
    pub requests: BTreeMap<u32, NotedRequest>,
    pub dropped: BTreeSet<u32>,
    /// Closed by a call; what follows from it is not noted.
    pub closed_ports: BTreeSet<u32>,
    pub closed_requests: BTreeSet<u32>,
}

impl Notes {
    pub fn is_end(&self, row: u32) -> bool {
        self.rows.get(&row).is_some_and(|r| r.end_of.is_some())
    }

    /// (rule R14) Comes from, by the notes: the rows among those given that come from
    /// the request. Sources are older, so in rising number they are decided before the
    /// row.
    pub fn rows_from(&self, rows: &BTreeSet<u32>, request: u32) -> BTreeSet<u32> {
        let mut from = BTreeSet::new();
        for number in rows {
            let Some(row) = self.rows.get(number) else {
                continue;
            };
            let by_source = row.sources.iter().any(|s| from.contains(s));
            if row.bears == Some(request) || by_source {
                from.insert(*number);
            }
        }
        from
    }
}
