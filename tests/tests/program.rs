//! The program `tablet` through pipes, byte for byte: the conformance sessions, random sessions, parts of any size, line by line.
//! 100 MB of calls in one session, with the memory watched:
//!
//!     cargo test --release --offline --manifest-path tests/Cargo.toml --test program -- --ignored

mod common;

use common::pipes::{self, from_directory, onto_full, TABLET};
use model::random::damage::damage;
use model::random::{session, Rng, PROFILES};
use model::run_session;
use std::fs;
use std::io::{BufRead, BufReader, Read, Write};
use std::path::Path;
use std::process::Child;
use std::thread;

fn started() -> Child {
    pipes::started(TABLET)
}

/// What the program prints on an input that comes in parts of this size.
fn printed(input: &[u8], size: usize) -> Vec<u8> {
    pipes::printed(TABLET, input, size)
}

fn conformance() -> Vec<(String, Vec<u8>, Vec<u8>)> {
    let folder = Path::new(env!("CARGO_MANIFEST_DIR")).join("../model/conformance/sessions");
    let names = fs::read_dir(folder).expect("the sessions are there");
    let paths = names.map(|entry| entry.expect("an entry").path());
    let inputs = paths.filter(|path| path.extension().is_some_and(|e| e == "session"));
    let read = |path: &Path| fs::read(path).expect("a file");
    inputs
        .map(|path| {
            (
                path.display().to_string(),
                read(&path),
                read(&path.with_extension("answers")),
            )
        })
        .collect()
}

#[test]
fn conformance_sessions_are_answered() {
    let sessions = conformance();
    assert!(sessions.len() >= 159, "{}", sessions.len());
    for (name, input, answers) in sessions {
        assert!(printed(&input, input.len().max(1)) == answers, "{name}");
    }
}

#[test]
fn parts_of_any_size_are_the_same() {
    for (name, input, answers) in conformance().iter().filter(|s| s.1.len() < 20_000) {
        for size in [1, 7, 255, 256, 257] {
            assert!(
                printed(input, size) == *answers,
                "{name} in parts of {size}"
            );
        }
    }
}

#[test]
fn random_sessions_are_answered_as_by_the_model() {
    for seed in 0..2_000 {
        let profile = PROFILES[seed as usize % PROFILES.len()];
        let mut input = session(seed, profile, 60);
        if seed % 5 == 0 {
            input = damage(&mut Rng::new(seed), &input);
        }
        assert!(printed(&input, 4_096) == run_session(&input), "seed {seed}");
    }
}

/// Each line is answered before the next one is written.
#[test]
fn a_session_is_driven_line_by_line() {
    let mut program = started();
    let mut to = program.stdin.take().expect("a pipe");
    let mut from = BufReader::new(program.stdout.take().expect("a pipe"));
    let mut ask = |text: &[u8]| {
        to.write_all(text).expect("it reads on");
        let mut answer = String::new();
        from.read_line(&mut answer).expect("an answer");
        answer
    };
    assert_eq!(
        ask(b"(node 1 (op 1 0 7))\n(process 1 1)\n(open)\n"),
        "(ok 0)\n"
    );
    assert_eq!(ask(b"(1 hold 1)\n"), "(ok 2)\n");
    assert_eq!(ask(&[&[b'x'; 100_000][..], b"\n"].concat()), "(no 2)\n");
    assert_eq!(ask(b"(1 hold 1)\n"), "(ok 3)\n");
    assert_eq!(ask(b"(comes 3 1)\n"), "(no 7)\n");
    assert_eq!(ask(b"(chain 3)\n"), "(ok 1 3)\n");
    assert_eq!(ask(b"(comesall (3 1) (2 2))\n"), "(ok - -)\n");
    to.write_all(b"(1 hold 1)").expect("it reads on");
    drop(to);
    let mut rest = String::new();
    from.read_to_string(&mut rest).expect("the end");
    assert_eq!(rest, "(no 2)\n");
    assert!(program.wait().expect("it ends").success());
}

/// The program ends while its input is still open.
#[test]
fn after_a_refused_opening_it_reads_no_more() {
    let mut program = started();
    let mut to = program.stdin.take().expect("a pipe");
    to.write_all(b"(node 33)\n").expect("it reads");
    let output = program.wait_with_output().expect("the program ends");
    assert_eq!(output.stdout, b"(no 3 1)\n");
    drop(to);
}

/// Where nothing can be written, it says so and ends.
#[test]
fn an_output_that_is_full_ends_it() {
    let output = onto_full(TABLET, b"(node 1)\n(open)\n", false);
    assert_eq!(output.stderr, b"tablet: the output cannot be written\n");
}

#[test]
fn an_input_that_cannot_be_read() {
    let output = from_directory(TABLET);
    assert_eq!(output.stderr, b"tablet: the input cannot be read\n");
    assert_eq!(output.stdout, b"");
}

/// A reader that leaves ends it, at the next answer at the latest. (While another test starts a program, that one holds
/// the reader's end for a moment too, so an answer may still find a reader.)
#[test]
fn an_output_that_is_closed_ends_it() {
    let mut program = started();
    drop(program.stdout.take());
    let mut to = program.stdin.take().expect("a pipe");
    to.write_all(b"(node 1)\n(open)\n").expect("it reads");
    while program.try_wait().expect("it is known").is_none() {
        let _ = to.write_all(b"(comes 1 1)\n");
        thread::sleep(std::time::Duration::from_millis(1));
    }
}

/// The kilobytes that a process has in memory, from its status.
fn resident(process: u32) -> usize {
    let status = fs::read_to_string(format!("/proc/{process}/status")).expect("it runs");
    let line = status.lines().find(|line| line.starts_with("VmRSS:"));
    let words = line.expect("a line of memory").split_whitespace();
    let number = words.map(str::parse).nth(1).expect("a word");
    number.expect("a number")
}

#[test]
#[ignore = "100 MB of calls"]
fn memory_does_not_grow() {
    let mut program = started();
    let mut to = program.stdin.take().expect("a pipe");
    let mut from = program.stdout.take().expect("a pipe");
    let reader = thread::spawn(move || std::io::copy(&mut from, &mut std::io::sink()));
    to.write_all(b"(node 1 (op 1 0 7))\n(process 1 1)\n(open)\n")
        .expect("it reads");
    let calls = "(1 go 0)\n(comes 1 1)\n(1 hold 1)\n(2 ask 9 (8 7))\nx\n".repeat(20_000);
    let mut most = Vec::new();
    for _ in 0..100_000_000 / calls.len() {
        to.write_all(calls.as_bytes()).expect("it reads on");
        most.push(resident(program.id()));
    }
    drop(to);
    assert!(program.wait().expect("it ends").success());
    reader.join().expect("it is read").expect("to its end");
    let (first, last) = (most[most.len() / 10], most[most.len() - 1]);
    assert!(
        last <= first + 64,
        "{first} KB after a tenth, {last} KB at the end"
    );
}
