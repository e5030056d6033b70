//! How a whole call grows: what a row and what a request add.

use crate::count::Counts;
use crate::measure::Layer;
use crate::report::Result;

/// Two sentences, from the least and the most rows without requests, and from
/// the fewest and the most requests at the most rows.
pub fn sentences(results: &[Result]) -> String {
    let grown = results
        .iter()
        .filter(|r| r.line.about.layer == Layer::Growth);
    let grown: Vec<(usize, usize, Counts)> = grown
        .filter_map(|r| {
            let size = r.line.about.size;
            Some((size.rows, size.requests, r.counts?))
        })
        .collect();
    let (Some(first), Some(last)) = (grown.first(), grown.last()) else {
        return String::new();
    };
    let Some(middle) = grown.iter().find(|g| g.0 == last.0 && g.1 == 0) else {
        return String::new();
    };
    let added = |from: &Counts, to: &Counts, more: usize| {
        let (proved, plain) = (to.proved - from.proved, to.plain - from.plain);
        let more = more as f64;
        format!(
            "{:.0} instructions (plain Rust {:.0})",
            proved / more,
            plain / more
        )
    };
    format!(
        "From {} rows to {}, a row adds {}. At {} rows, from 0 requests to {}, a request with its \
         port in the place of two other rows adds {}.\n\n",
        first.0,
        last.0,
        added(&first.2, &middle.2, last.0 - first.0),
        last.0,
        last.1,
        added(&middle.2, &last.2, last.1),
    )
}
