//! Removal and closing of an earlier commit and of the working tree, in one run (tools/against). Tables, operations
//! and measures are the benchmark's; the place of its plain functions is taken by those of the earlier commit.
//!
//!     against                   nanoseconds a call, and the stack
//!     against --instructions    instructions a call, counted by callgrind, and the stack

// the benchmark uses the rest of its modules
#![allow(dead_code)]

#[path = "../../src/bin/bench/closings.rs"]
mod closings;
#[path = "../../src/bin/bench/count.rs"]
mod count;
mod earlier;
#[path = "../../src/bin/bench/measure.rs"]
mod measure;
#[path = "../../src/bin/bench/on_runs.rs"]
mod on_runs;
#[path = "../../src/bin/bench/removals.rs"]
mod removals;
#[path = "../../src/bin/bench/stack.rs"]
mod stack;
#[path = "../../src/bin/bench/tables.rs"]
mod tables;
#[path = "../../src/bin/bench/time.rs"]
mod time;

use count::Counts;
use kernel::{changing, closing};
use measure::{About, Both, Measured, Operation};
use removals::Marks;

fn operations(by: &mut dyn Measured) {
    let removal = Both {
        proved: |t: &mut [u32], count: usize, marks: &Marks| {
            changing::remove_rows(t, count, &marks.bits)
        },
        plain: earlier::remove_rows,
    };
    for rows in tables::SIZES {
        removals::on_tables(&tables::tables(rows), by, removal);
    }
    let close = Both {
        proved: closing::close_request,
        plain: earlier::close_request,
    };
    closings::on_closings(by, close);
}

/// Prints a line for each operation; it is timed where it was not counted.
struct Printed {
    counts: Option<std::vec::IntoIter<Counts>>,
}

impl Measured for Printed {
    fn measure(&mut self, about: About, operation: &mut dyn Operation) {
        let (after, before) = match &mut self.counts {
            Some(counts) => {
                let counts = counts.next().expect("counts of each operation");
                (counts.proved, counts.plain)
            }
            None => time::medians(about.calls, operation),
        };
        operation.prepare();
        let stack_before = stack::used(&mut || operation.plain(1));
        operation.prepare();
        let stack_after = stack::used(&mut || operation.proved(1));
        let (size, name, ratio) = (about.size, about.name, after / before);
        println!(
            "{:>5} {:>8}  {name:<34} {before:>19.1} {after:>9.1} {ratio:>5.2} {stack_before:>12} {stack_after:>6}",
            size.rows, size.requests
        );
    }
}

fn print(what: &str, counts: Option<Vec<Counts>>) {
    let what = format!("{what} before");
    println!(
        " rows requests  {:<34} {what:>19}     after ratio stack before  after",
        "operation"
    );
    let counts = counts.map(Vec::into_iter);
    operations(&mut Printed { counts });
}

fn main() {
    let words: Vec<String> = std::env::args().skip(1).collect();
    let words: Vec<&str> = words.iter().map(String::as_str).collect();
    match words.as_slice() {
        [count::COUNTED] => operations(&mut count::Counted),
        [] => print("ns", None),
        ["--instructions"] => print("instructions", Some(count::all().expect("valgrind"))),
        _ => panic!("against [--instructions]"),
    }
}
