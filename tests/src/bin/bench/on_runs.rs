//! Calls on both lent runs, each on runs of its own.

use crate::measure::{About, Layer, Measured, Operation, Size};
use model::words::encode;
use model::Tables;
use std::fmt::Debug;
use std::hint::black_box as hidden;

/// How many calls a batch has.
const CALLS: usize = 10;

/// What the calls are made on and what they are.
pub struct On<'a> {
    pub layer: Layer,
    pub name: String,
    pub tables: &'a Tables,
    /// The bytes that must be read, apart from the words that change.
    pub reads: usize,
}

type Runs = (Vec<u32>, Vec<u32>);

struct OnRuns<A, B> {
    start: Runs,
    runs: Vec<Runs>,
    proved: A,
    plain: B,
}

impl<R, A, B> Operation for OnRuns<A, B>
where
    A: FnMut(&mut [u32], &mut [u32]) -> R,
    B: FnMut(&mut [u32], &mut [u32]) -> R,
{
    fn prepare(&mut self) {
        for (words, processes) in &mut self.runs {
            words.copy_from_slice(&self.start.0);
            processes.copy_from_slice(&self.start.1);
        }
    }

    fn proved(&mut self, calls: usize) {
        for (words, processes) in &mut self.runs[..calls] {
            hidden((self.proved)(hidden(words), hidden(processes)));
        }
    }

    fn plain(&mut self, calls: usize) {
        for (words, processes) in &mut self.runs[..calls] {
            hidden((self.plain)(hidden(words), hidden(processes)));
        }
    }
}

/// Measures a call, after both have been seen to answer the same and to leave the same words.
pub fn measure<R: PartialEq + Debug>(
    by: &mut dyn Measured,
    on: On,
    mut proved: impl FnMut(&mut [u32], &mut [u32]) -> R,
    mut plain: impl FnMut(&mut [u32], &mut [u32]) -> R,
) {
    let start = encode(on.tables).expect("they fit");
    let (mut ours, mut theirs) = (start.clone(), start.clone());
    let said = proved(&mut ours.0, &mut ours.1);
    assert_eq!(said, plain(&mut theirs.0, &mut theirs.1), "{}", on.name);
    assert!(ours == theirs, "{}: the same words", on.name);
    let about = About {
        layer: on.layer,
        size: Size {
            rows: on.tables.rows.len(),
            requests: on.tables.requests.len(),
        },
        name: on.name,
        bytes: on.reads + 4 * (changed(&start.0, &ours.0) + changed(&start.1, &ours.1)),
        calls: CALLS,
    };
    let runs = vec![start.clone(); CALLS];
    let mut operation = OnRuns {
        start,
        runs,
        proved,
        plain,
    };
    by.measure(about, &mut operation);
}

/// How many words are others.
fn changed(old: &[u32], new: &[u32]) -> usize {
    old.iter().zip(new).filter(|(old, new)| old != new).count()
}
