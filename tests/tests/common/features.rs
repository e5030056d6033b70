//! What closings did, counted by name, so that a test fails if too few did it.

use super::closings::Closing;
use model::limits::{REQUESTS, ROWS};
use model::tables::{Request, Row};
use model::Tables;

/// Tables before and after a closing, and the requests that it closed.
struct Change<'a> {
    closing: Closing,
    before: &'a Tables,
    after: &'a Tables,
    closed: Vec<&'a Request>,
}

/// A name, the least count, and the test of what is counted.
type Feature = (&'static str, u32, fn(&Change) -> bool);

const FEATURES: [Feature; 18] = [
    ("a request closed by number", 5_000, |c| c.of_request()),
    ("a port closed", 10_000, |c| c.of_port()),
    ("a row dropped", 10_000, |c| c.of_row()),
    ("3 requests closed", 400, |c| c.closed.len() >= 3),
    ("10 requests closed", 60, |c| c.closed.len() >= 10),
    ("85 requests closed", 4, |c| c.closed.len() >= 85),
    ("an end back that 3 listed", 1_500, end_of_three),
    ("an end back that 100 listed", 100, end_of_100),
    ("an end to an earlier holder", 1_000, to_earlier_holder),
    ("an end to the oldest of two", 50, oldest_of_two),
    ("an end back, still on loan", 1_500, still_on_loan),
    ("an end struck from an open list", 1_500, |c| {
        c.strikes(true)
    }),
    ("a removed row struck from one", 2_000, |c| c.strikes(false)),
    ("a process sent home", 200, |c| c.homed() >= 1),
    ("two processes sent home", 30, |c| c.homed() >= 2),
    ("half of the rows removed", 15, |c| c.left() <= 500),
    ("1,024 rows", 1_500, |c| !c.of_row() && c.rows() == ROWS),
    ("and 128 requests", 1_000, |c| !c.of_row() && c.is_full()),
];

/// How often each was seen.
#[derive(Default)]
pub struct Features {
    counts: [u32; FEATURES.len()],
}

impl Features {
    pub fn add(&mut self, closing: Closing, before: &Tables, after: &Tables) {
        let open = |q: &&Request| after.request(q.number).is_some();
        let change = Change {
            closing,
            before,
            after,
            closed: before.requests.iter().filter(|q| !open(q)).collect(),
        };
        for (count, (_, _, test)) in self.counts.iter_mut().zip(FEATURES) {
            *count += u32::from(test(&change));
        }
    }

    /// Each was seen often enough.
    pub fn check(&self) {
        for (count, (name, least, _)) in self.counts.iter().zip(FEATURES) {
            println!("{name}: {count}");
            assert!(*count >= least, "{name}: {count} times, not {least}");
        }
    }
}

impl<'a> Change<'a> {
    fn of_request(&self) -> bool {
        matches!(self.closing, Closing::Request(_))
    }

    fn of_port(&self) -> bool {
        matches!(self.closing, Closing::Port(_))
    }

    fn of_row(&self) -> bool {
        matches!(self.closing, Closing::Row(_))
    }

    fn rows(&self) -> usize {
        self.before.rows.len()
    }

    fn is_full(&self) -> bool {
        (self.rows(), self.before.requests.len()) == (ROWS, REQUESTS)
    }

    /// How many of 1,000 rows are left.
    fn left(&self) -> usize {
        1_000 * self.after.rows.len() / self.rows()
    }

    /// The ends that went back, each with the requests that listed it and the
    /// oldest closed of them.
    fn returned(&self) -> impl Iterator<Item = (Vec<&'a Request>, &'a Request)> + '_ {
        let ends = self.after.rows.iter().filter(|r| r.is_end());
        ends.filter_map(|end: &Row| {
            let listing = self.before.requests.iter().filter(|q| q.lists(end.number));
            let oldest = self.closed.iter().find(|q| q.lists(end.number))?;
            Some((listing.collect(), *oldest))
        })
    }

    /// How many processes went to their prime nodes.
    fn homed(&self) -> usize {
        let both = self.before.processes.iter().zip(&self.after.processes);
        both.filter(|(old, new)| old != new).count()
    }

    /// An item leaves the list of a request that stays open: an end that
    /// stands, or a copy removed, but not by itself.
    fn strikes(&self, stands: bool) -> bool {
        let gone = |old: &Request, new: &Request| {
            let mut items = old.listed().filter(|i| !new.lists(*i));
            items.any(|i| self.after.row(i).is_some() == stands)
        };
        let open = self.after.requests.iter();
        let mut both = open.filter_map(|new| Some((self.before.request(new.number)?, new)));
        !self.of_row() && both.any(|(old, new)| gone(old, new))
    }
}

fn end_of_three(change: &Change) -> bool {
    change.returned().any(|(listing, _)| listing.len() >= 3)
}

fn end_of_100(change: &Change) -> bool {
    change.returned().any(|(listing, _)| listing.len() >= 100)
}

/// An older request that lists the end has the same asker.
fn to_earlier_holder(change: &Change) -> bool {
    change.returned().any(|(listing, oldest)| {
        let mut older = listing.iter().filter(|q| q.number < oldest.number);
        older.any(|q| q.asker == oldest.asker)
    })
}

/// Two closed requests with different askers list the end.
fn oldest_of_two(change: &Change) -> bool {
    change.returned().any(|(listing, oldest)| {
        let closed = |q: &&&Request| change.after.request(q.number).is_none();
        let mut closed = listing.iter().filter(closed);
        closed.any(|q| q.asker != oldest.asker)
    })
}

fn still_on_loan(change: &Change) -> bool {
    let older = |(listing, oldest): (Vec<&Request>, &Request)| listing[0].number < oldest.number;
    change.returned().any(older)
}
