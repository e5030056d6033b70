//! Closing in plain Rust, in place over the words of sound tables.

use super::removal::{remove_requests, remove_rows};
use crate::layout::{
    CLIENT, C_LIST, ITEMS, KIND, NEXT, NUMBER, OBJECT, PLACE, PROCESS_WORDS, Q_ASKER, Q_ITEMS,
    Q_NUMBER, Q_PORT, REQUEST, REQUESTS, ROWS, SOURCE, TABLES_WORDS, VIA,
};

/// The lent runs, of the right lengths.
type Words = [u32; TABLES_WORDS];
type Records = [u32; PROCESS_WORDS];

/// What a closing starts from.
#[derive(Clone, Copy)]
enum Seed {
    Request(u32),
    Port(u32),
    Row(u32),
}

/// Closes an open request.
pub fn close_request(t: &mut [u32], p: &mut [u32], q: u32) {
    close(t, p, Seed::Request(q));
}

/// Closes the port whose client end is c.
pub fn close_port(t: &mut [u32], p: &mut [u32], c: u32) {
    close(t, p, Seed::Port(c));
}

/// Drops a row.
pub fn drop_row(t: &mut [u32], p: &mut [u32], e: u32) {
    close(t, p, Seed::Row(e));
}

/// What is taken out, by slots.
struct Marks {
    rows: usize,
    requests: usize,
    removed: [bool; ROWS],
    closed: [bool; REQUESTS],
}

fn close(t: &mut [u32], p: &mut [u32], seed: Seed) {
    let (Ok(t), Ok(p)) = (<&mut Words>::try_from(t), <&mut Records>::try_from(p)) else {
        return;
    };
    let marks = marks(t, seed);
    send_home(t, p, &marks);
    settle_lists(t, &marks);
    remove_rows(t, marks.rows, &marks.removed);
    remove_requests(&mut t[Q_NUMBER..NEXT], &marks.closed[..marks.requests]);
}

/// How many slots of a column of rising numbers are in use, by halves.
fn used(numbers: &[u32]) -> usize {
    numbers.partition_point(|number| *number != 0)
}

/// Sources lie in older slots, so one pass finds all that comes from the seeds.
fn marks(t: &Words, seed: Seed) -> Marks {
    let rows = used(&t[NUMBER..NUMBER + ROWS]);
    let requests = used(&t[Q_NUMBER..Q_NUMBER + REQUESTS]);
    let removed = match seed {
        Seed::Request(q) => coming_from(t, rows, |at| t[REQUEST + at] == q),
        Seed::Port(c) => coming_from(t, rows, |at| t[KIND + at] >= CLIENT && t[OBJECT + at] == c),
        Seed::Row(e) => coming_from(t, rows, |at| t[NUMBER + at] == e),
    };
    let mut marks = Marks {
        rows,
        requests,
        removed,
        closed: [false; REQUESTS],
    };
    for at in 0..requests {
        let is_seed = matches!(seed, Seed::Request(q) if t[Q_NUMBER + at] == q);
        marks.closed[at] = is_seed || marks.removes(t, t[Q_PORT + at]);
    }
    marks
}

fn coming_from(t: &Words, rows: usize, is_seed: impl Fn(usize) -> bool) -> [bool; ROWS] {
    // by the words of sources: the mark of a slot is at the slot plus 1
    let mut removed = [false; ROWS + 1];
    for at in 0..rows {
        let (source, via) = (t[SOURCE + at] as usize, t[VIA + at] as usize);
        removed[at + 1] = is_seed(at) | removed[source] | removed[via];
    }
    std::array::from_fn(|at| removed[at + 1])
}

impl Marks {
    /// The slot of a row that stands.
    fn slot(&self, t: &Words, number: u32) -> Option<usize> {
        t[NUMBER..NUMBER + self.rows].binary_search(&number).ok()
    }

    fn removes(&self, t: &Words, number: u32) -> bool {
        self.slot(t, number).is_some_and(|slot| self.removed[slot])
    }
}

/// Who went through a removed row goes to its prime node.
fn send_home(t: &Words, p: &mut Records, marks: &Marks) {
    for record in p.chunks_exact_mut(3) {
        if record[2] != 0 && marks.removes(t, record[2]) {
            record[1] = record[0];
            record[2] = 0;
        }
    }
}

/// From the oldest request on: an end listed in one that closes goes to its
/// asker, if it did not go to an older one; it and what is removed leave the
/// lists of the others.
fn settle_lists(t: &mut Words, marks: &Marks) {
    let mut returned = [false; ROWS];
    for at in 0..marks.requests {
        for item in (Q_ITEMS + at..).step_by(REQUESTS).take(ITEMS) {
            if t[item] == 0 {
                continue;
            }
            let Some(slot) = marks.slot(t, t[item]) else {
                continue;
            };
            let left = marks.removed[slot] || returned[slot];
            match (marks.closed[at], left) {
                (true, false) => {
                    t[PLACE + slot] = C_LIST + t[Q_ASKER + at];
                    returned[slot] = true;
                }
                (false, true) => t[item] = 0,
                _ => {}
            }
        }
    }
}
