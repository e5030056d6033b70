//! The whole run over the entry points, with the counts that it must have.

use super::any_input::{altered_tables, any_lines, any_words, conformance, lent_replies};
use super::any_input::{openings, wrong_lengths};
use super::calls::{calls_of_round, the_last_number, the_last_request, the_last_row};
use super::entries::Entry;
use super::refused::Refused;
use model::random::Rng;
use std::io::Write;

/// All parts, the calls on sound tables so many times.
pub fn run(entry: &Entry, rounds: std::ops::Range<u64>) {
    let mut seen = Refused::default();
    for round in rounds {
        calls_of_round(entry, round, &mut seen);
        let mut rng = Rng::new(round);
        openings(entry, &mut rng, 3_000);
        any_lines(entry, &mut rng, 8_000);
        altered_tables(entry, &mut rng, 2_000);
        any_words(entry, &mut rng, 200);
    }
    wrong_lengths(entry, &mut Rng::new(0));
    lent_replies(entry);
    conformance(entry);
    the_last_row(entry);
    the_last_request(entry);
    the_last_number(entry);
    seen.print("calls from bytes to bytes, on sound tables");
}

/// Prints how often each answer was given, and asserts that it was often enough.
pub fn check(entry: &Entry, calls: u64, least: u64) {
    let seen = entry.seen.borrow();
    let counts = |counts: &[u64]| {
        let each = counts.iter().enumerate().map(|(k, n)| format!("{k}: {n}"));
        each.collect::<Vec<_>>().join(", ")
    };
    let text = format!(
        "calls refused, by number (0: accepted): {}\nopenings: {}",
        counts(&seen.calls),
        counts(&seen.openings)
    );
    writeln!(std::io::stdout(), "{text}").expect("it is printed");
    for (k, count) in seen.calls.iter().enumerate() {
        assert!(*count >= least, "calls refused with {k}: {count}");
    }
    for (k, count) in seen.openings.iter().enumerate() {
        assert!(*count >= least, "openings refused with {k}: {count}");
    }
    let all: u64 = seen.calls.iter().chain(&seen.openings).sum();
    assert!(all >= calls, "{all} calls");
}
