//! Whole sessions through the program `tablet`, in calls a second, beside the
//! model's session on the same input.

use crate::tables::SIZES;
use model::run_session;
use std::io::Write;
use std::process::{Command, Stdio};
use std::thread;
use std::time::Instant;

/// The calls measured: half of them hold a row, half drop it again.
const CALLS: usize = 4_000;
const RUNS: usize = 5;

/// The opening, and holds until one row fewer stands: each pair of calls adds
/// a row and drops it.
fn filled(rows: usize) -> String {
    let held = "(1 hold 1)\n".repeat(rows - 2);
    format!("(node 1 (op 1 0 7))\n(process 1 1)\n(open)\n{held}")
}

/// The next number is that of the last row.
fn pairs(rows: usize) -> String {
    let pair = |k| format!("(1 hold 1)\n(1 drop {})\n", rows + k);
    (0..CALLS / 2).map(pair).collect()
}

fn through_program(input: &[u8]) -> Vec<u8> {
    let program = Command::new(env!("TABLET"))
        .stdin(Stdio::piped())
        .stdout(Stdio::piped())
        .spawn();
    let mut program = program.expect("the program starts");
    let mut to = program.stdin.take().expect("a pipe");
    let input = input.to_vec();
    let feeder = thread::spawn(move || to.write_all(&input).expect("it reads on"));
    let output = program.wait_with_output().expect("the program ends");
    feeder.join().expect("the input is handed over");
    output.stdout
}

/// Calls a second: what the pairs take beyond what fills the tables, the median of some runs.
fn calls_a_second(run: impl Fn(&[u8]) -> Vec<u8>, rows: usize) -> f64 {
    let (fill, all) = (filled(rows), filled(rows) + &pairs(rows));
    let taken = |input: &str| {
        let began = Instant::now();
        let answers = run(input.as_bytes());
        assert!(answers.starts_with(b"(ok 0)\n") && !answers.windows(3).any(|w| w == b"(no"));
        began.elapsed().as_secs_f64()
    };
    let mut times: Vec<f64> = (0..RUNS).map(|_| taken(&all) - taken(&fill)).collect();
    times.sort_by(f64::total_cmp);
    CALLS as f64 / times[RUNS / 2]
}

/// The table, in markdown.
pub fn table() -> String {
    let mut text = "### Sessions through the program: hold and drop in turn, calls a second\n\n\
                    | rows | tablet | the model's session | ratio |\n|---:|---:|---:|---:|\n"
        .to_string();
    for rows in SIZES {
        let tablet = calls_a_second(through_program, rows);
        let model = calls_a_second(run_session, rows);
        println!("sessions of {rows} rows through the program");
        text += &format!(
            "| {rows} | {tablet:.0} | {model:.0} | {:.1} |\n",
            tablet / model
        );
    }
    text + "\n"
}
