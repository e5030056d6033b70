//! The benchmark: the proved functions beside plain Rust over the same words,
//! in the same run: times, stack, instructions, and a verdict on each aim.
//!
//!     bench                   all of it, as `make bench` runs it
//!     bench --instructions    without the times (tools/count-instructions)
//!     bench --write FILE      all of it; the tables replace those of a file (tools/write-benchmarks)

mod aims;
mod allocations;
mod call_cases;
mod calls;
mod closings;
mod count;
mod growth;
mod join;
mod measure;
mod on_runs;
mod operations;
mod page;
mod pairs;
mod parts;
mod program;
mod removals;
mod report;
mod stack;
mod tables;
mod time;
mod timed;
mod whole;

use kernel::{closing, plain};
use measure::{Both, Measured};
use tables::SIZES;

fn operations(by: &mut dyn Measured) {
    for rows in SIZES {
        operations::on_tables(&tables::tables(rows), by);
    }
    let close = Both {
        proved: closing::close_request,
        plain: plain::closing::close_request,
    };
    closings::on_closings(by, close);
    calls::on_calls(by);
    whole::on_whole_calls(by);
    for rows in SIZES {
        let tables = tables::tables(rows);
        pairs::on_tables(&tables, by);
        page::on_tables(&tables, by);
    }
    join::on_texts(by);
}

fn main() {
    let words: Vec<String> = std::env::args().skip(1).collect();
    let words: Vec<&str> = words.iter().map(String::as_str).collect();
    let untimed = match words.as_slice() {
        [count::COUNTED] => return operations(&mut count::Counted),
        ["--instructions"] => true,
        [] | ["--write", _] => false,
        _ => panic!("bench [--instructions | --write FILE]"),
    };
    println!("{}\n", machine());
    let mut timed = timed::Timed {
        untimed,
        ..Default::default()
    };
    operations(&mut timed);
    println!("\ninstructions are counted by callgrind: some minutes\n");
    let counts = count::all().unwrap_or_default();
    let results = report::results(&timed.lines, &counts);
    let sessions = if untimed {
        String::new()
    } else {
        program::table()
    };
    let text = format!(
        "{}\n\n{}{}{sessions}### Verdicts\n\n```\n{}```\n",
        machine(),
        report::tables(&results),
        parts::table(&results),
        aims::verdicts(&results)
    );
    println!("{text}");
    if let ["--write", file] = words.as_slice() {
        write(file, &text);
    }
}

/// What stands between the marks of a file becomes the text.
fn write(file: &str, text: &str) {
    let (begin, end) = ("<!-- numbers -->\n", "<!-- end of numbers -->\n");
    let old = std::fs::read_to_string(file).expect("the file");
    let (before, rest) = old.split_once(begin).expect("the first mark");
    let (_, after) = rest.split_once(end).expect("the second mark");
    let new = [before, begin, text, end, after].concat();
    std::fs::write(file, new).expect("it is written");
}

/// The processor and how busy the machine is.
fn machine() -> String {
    let read = |path: &str| std::fs::read_to_string(path).unwrap_or_default();
    let processors = read("/proc/cpuinfo");
    let named = processors.lines().filter(|l| l.starts_with("model name"));
    let count = named.clone().count();
    let model = named.last().and_then(|line| line.split(": ").nth(1));
    let load = read("/proc/loadavg");
    let load = load.split(' ').next().unwrap_or("unknown");
    format!("{count} x {}, load {load}", model.unwrap_or("unknown"))
}
