//! A program through pipes: what it prints on an input that comes in parts.

use std::fs::File;
use std::io::Write;
use std::process::{Child, ChildStdin, Command, Output, Stdio};
use std::thread;

/// The programs, which build.rs had proved and built.
pub const TABLET: &str = env!("TABLET");
pub const HOLDERS: &str = env!("HOLDERS");
pub const JOIN: &str = env!("JOIN");

pub fn started(program: &str) -> Child {
    started_onto(program, Stdio::piped())
}

/// The program, started with that output.
pub fn started_onto(program: &str, output: Stdio) -> Child {
    Command::new(program)
        .stdin(Stdio::piped())
        .stdout(output)
        .stderr(Stdio::piped())
        .spawn()
        .expect("the program starts")
}

/// Hands the input over in parts of this size. After a refused opening the program reads no more, nor does `join` after
/// two texts, so a write may fail.
fn hand_over(mut to: ChildStdin, input: &[u8], size: usize) {
    for part in input.chunks(size) {
        if to.write_all(part).is_err() {
            return;
        }
    }
}

/// What the program prints on an input that comes in parts of this size.
pub fn printed(program: &str, input: &[u8], size: usize) -> Vec<u8> {
    let mut program = started(program);
    let to = program.stdin.take().expect("a pipe");
    let input = input.to_vec();
    let feeder = thread::spawn(move || hand_over(to, &input, size));
    let output = program.wait_with_output().expect("the program ends");
    feeder.join().expect("the input is handed over");
    assert!(output.status.success() && output.stderr.is_empty());
    output.stdout
}

/// What the program says where nothing can be written; its input stays open until it has ended, or is ended first.
pub fn onto_full(program: &str, input: &[u8], ends: bool) -> Output {
    let full = File::options().write(true).open("/dev/full");
    let mut program = started_onto(program, full.expect("a device").into());
    let mut to = program.stdin.take().expect("a pipe");
    to.write_all(input).expect("it reads");
    let still_open = (!ends).then_some(to);
    let output = program.wait_with_output().expect("the program ends");
    drop(still_open);
    output
}

/// What the program says where its input is a directory, which cannot be read.
pub fn from_directory(program: &str) -> Output {
    let directory = File::open(env!("CARGO_MANIFEST_DIR")).expect("a directory");
    let output = Command::new(program).stdin(directory).output();
    output.expect("the program ends")
}
