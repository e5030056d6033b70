//! Comes from, on loan and lent, as predicates over the rows and requests; the first chain of a row;
//! the values of pairs.

use crate::call::Pair;
use crate::tables::{Request, Row, Tables};
use std::collections::{BTreeMap, BTreeSet};

/// (rule R14) A row comes from a request if it bears its number or a source of it
/// comes from it: the least set of rows closed under this, for any of the requests
/// given.
pub fn rows_from(tables: &Tables, requests: &BTreeSet<u32>) -> BTreeSet<u32> {
    let bears = |r: &Row| r.request != 0 && requests.contains(&r.request);
    least_set(tables, bears)
}

pub fn comes_from(tables: &Tables, row: u32, request: u32) -> bool {
    rows_from(tables, &BTreeSet::from([request])).contains(&row)
}

/// (rule R15) The rows from one of the text to this one, each the first source of the next. A row
/// of the text has the source 0, which is no row's number.
pub fn first_chain(tables: &Tables, row: u32) -> Vec<u32> {
    let sources = std::iter::successors(tables.row(row), |r| tables.row(r.source));
    let mut chain: Vec<u32> = sources.map(|r| r.number).collect();
    chain.reverse();
    chain
}

/// (rules R14, comesall-ok-1, comesall-ok-2) The value of each pair, in one pass over the rows in
/// rising number: of each row the places of the pairs whose request it comes from are kept. Sources
/// are older, so theirs are known. None for a pair whose row does not stand or whose request is not
/// open.
pub fn pair_values(tables: &Tables, pairs: &[Pair]) -> Vec<Option<bool>> {
    let mut values = vec![None; pairs.len()];
    let mut from: BTreeMap<u32, BTreeSet<usize>> = BTreeMap::new();
    for row in &tables.rows {
        let of_sources = row.sources().filter_map(|s| from.get(&s)).flatten();
        let mut of_row: BTreeSet<usize> = of_sources.copied().collect();
        for (at, pair) in pairs.iter().enumerate() {
            if pair.request == row.request {
                of_row.insert(at);
            }
            if pair.row == row.number && tables.request(pair.request).is_some() {
                values[at] = Some(of_row.contains(&at));
            }
        }
        from.insert(row.number, of_row);
    }
    values
}

/// (rule L7) An end is on loan while an open request lists it.
pub fn on_loan(tables: &Tables, row: &Row) -> bool {
    row.is_end() && newest_listing(tables, row.number).is_some()
}

/// (rule L8) A row is lent if it is an end on loan, bears a request's number, or
/// has a lent source.
pub fn lent(tables: &Tables, row: u32) -> bool {
    lent_rows(tables).contains(&row)
}

pub fn lent_rows(tables: &Tables) -> BTreeSet<u32> {
    least_set(tables, |r| r.request != 0 || on_loan(tables, r))
}

/// The rows that pass the test, the rows with one of these as a source, and
/// so on until no row is added.
pub fn least_set(tables: &Tables, test: impl Fn(&Row) -> bool) -> BTreeSet<u32> {
    let mut set: BTreeSet<u32> = BTreeSet::new();
    let by_test = tables.rows.iter().filter(|r| test(r));
    set.extend(by_test.map(|r| r.number));
    loop {
        let size = set.len();
        for row in &tables.rows {
            if row.sources().any(|s| set.contains(&s)) {
                set.insert(row.number);
            }
        }
        if set.len() == size {
            return set;
        }
    }
}

/// The open request on a port, the port counted as its client end's number.
pub fn request_on(tables: &Tables, port: u32) -> Option<&Request> {
    tables.requests.iter().find(|q| q.port == port)
}

/// (rule S26) The newest of the open requests that list the row.
pub fn newest_listing(tables: &Tables, row: u32) -> Option<&Request> {
    let listing = tables.requests.iter().filter(|q| q.lists(row));
    listing.max_by_key(|q| q.number)
}

/// The rows of a request's list that are ends.
pub fn listed_ends<'a>(
    tables: &'a Tables,
    request: &'a Request,
) -> impl Iterator<Item = &'a Row> + 'a {
    let rows = request.listed().filter_map(|i| tables.row(i));
    rows.filter(|r| r.is_end())
}
