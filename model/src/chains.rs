//! Stands, closed and comes from as the manual defines them (10.1): all chains of
//! a row are listed and looked at. Slow; the moments are compared with it.

use crate::notes::Notes;

/// (rule H3) A chain leads from a row to a source and so on to a row of the text.
pub fn chains(notes: &Notes, row: u32) -> Vec<Vec<u32>> {
    let sources = notes.rows.get(&row).map(|r| r.sources.as_slice());
    let sources = sources.unwrap_or(&[]);
    if sources.is_empty() {
        return vec![vec![row]];
    }
    let older = sources.iter().filter(|s| **s < row);
    let of_sources = older.flat_map(|s| chains(notes, *s));
    let with_row = of_sources.map(|mut chain| {
        chain.push(row);
        chain
    });
    with_row.collect()
}

/// (rule H5) A row stands if no chain of it uses something dropped or closed.
pub fn stands(notes: &Notes, row: u32) -> bool {
    let known = notes.rows.contains_key(&row);
    let chains = chains(notes, row);
    known && !chains.iter().any(|chain| uses_gone(notes, chain))
}

/// (rule H3) A chain uses its rows, the requests they bear and the ports they are
/// ends of.
fn uses_gone(notes: &Notes, chain: &[u32]) -> bool {
    let mut rows = chain.iter().filter_map(|n| notes.rows.get_key_value(n));
    rows.any(|(number, row)| {
        let dropped = notes.dropped.contains(number);
        let request = row.bears.is_some_and(|v| request_closed(notes, v));
        let port = row.end_of.is_some_and(|c| port_closed(notes, c));
        dropped || request || port
    })
}

/// (rule H4) A port is closed too when its operation row stands no more.
pub fn port_closed(notes: &Notes, port: u32) -> bool {
    let operation = notes.ports.get(&port);
    notes.closed_ports.contains(&port) || !operation.is_some_and(|e| stands(notes, *e))
}

/// (rule H4) And a request when its port is closed.
pub fn request_closed(notes: &Notes, request: u32) -> bool {
    let noted = notes.requests.get(&request);
    notes.closed_requests.contains(&request) || noted.is_none_or(|r| port_closed(notes, r.port))
}

/// A row comes from a request if one of its chains has a row that bears it.
pub fn comes_from(notes: &Notes, row: u32, request: u32) -> bool {
    let bears = |n: &u32| {
        let noted = notes.rows.get(n);
        noted.is_some_and(|r| r.bears == Some(request))
    };
    chains(notes, row)
        .iter()
        .any(|chain| chain.iter().any(bears))
}
