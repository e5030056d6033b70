//! Times: batches of the proved and of the plain function in turn, the median
//! of each.

use crate::measure::Operation;
use std::time::{Duration, Instant};

/// At most so many batches, and at least so many, until this time has passed.
const MOST: usize = 1_001;
const LEAST: usize = 101;
const ENOUGH: Duration = Duration::from_millis(400);

/// Nanoseconds a call, of the proved function and of the plain one.
pub fn medians(calls: usize, operation: &mut dyn Operation) -> (f64, f64) {
    let mut proved = Vec::with_capacity(MOST);
    let mut plain = Vec::with_capacity(MOST);
    let begun = Instant::now();
    while proved.len() < MOST && (proved.len() < LEAST || begun.elapsed() < ENOUGH) {
        operation.prepare();
        let start = Instant::now();
        operation.proved(calls);
        proved.push(start.elapsed().as_nanos());
        operation.prepare();
        let start = Instant::now();
        operation.plain(calls);
        plain.push(start.elapsed().as_nanos());
    }
    let median = |mut batches: Vec<u128>| {
        batches.sort_unstable();
        batches[batches.len() / 2] as f64 / calls as f64
    };
    (median(proved), median(plain))
}
