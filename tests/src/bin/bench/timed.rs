//! Times and stack of each operation, printed as they come.

use crate::measure::{About, Layer, Measured, Operation};
use crate::{allocations, stack, time};

/// What was measured of an operation.
pub struct Line {
    pub about: About,
    /// Nanoseconds a call, of the proved function and of the plain one; the
    /// parts of a call are not timed.
    pub times: Option<(f64, f64)>,
    pub proved_stack: usize,
    pub plain_stack: usize,
    pub allocations: usize,
}

#[derive(Default)]
pub struct Timed {
    /// Only the stack is measured.
    pub untimed: bool,
    pub lines: Vec<Line>,
}

impl Measured for Timed {
    fn measure(&mut self, about: About, operation: &mut dyn Operation) {
        let timed = !self.untimed && about.layer != Layer::Parts;
        let times = timed.then(|| time::medians(about.calls, operation));
        let before = allocations::made();
        operation.prepare();
        operation.proved(about.calls);
        let allocations = allocations::made() - before;
        operation.prepare();
        let proved_stack = stack::used(&mut || operation.proved(1));
        operation.prepare();
        let plain_stack = stack::used(&mut || operation.plain(1));
        if let Some((proved, plain)) = times {
            let (rows, name) = (about.size.rows, &about.name);
            println!("{rows:>5} rows, {name}: {proved:.1} ns, plain {plain:.1} ns");
        }
        self.lines.push(Line {
            about,
            times,
            proved_stack,
            plain_stack,
            allocations,
        });
    }
}
