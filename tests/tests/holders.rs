//! The program `holders` through pipes, byte for byte: the pages of the conformance sessions, random sessions, parts of
//! any size, pages longer than what is written at once, inputs and outputs that fail.

mod common;

use common::pipes::{from_directory, onto_full, printed, started, HOLDERS, TABLET};
use model::cases::of_pages;
use model::compare::conformance::conformance_inputs;
use model::page::{session_page, LINE};
use model::random::damage::damage;
use model::random::{session, Rng, PROFILES};
use std::io::Write;

fn page(input: &[u8], size: usize) -> Vec<u8> {
    printed(HOLDERS, input, size)
}

/// The page that is told of each, also in parts of any size.
#[test]
fn conformance_pages_are_printed() {
    let cases = of_pages().expect("the sessions are there");
    assert_eq!(cases.len(), 26);
    let mut empty = 0;
    for case in cases {
        let (input, told) = (case.session().0, case.page.expect("a page"));
        for size in [1, 7, 255, 256, 257, 65_536] {
            assert!(page(&input, size) == told, "{} in parts of {size}", case.at);
        }
        empty += usize::from(told.is_empty());
    }
    assert_eq!(empty, 5);
}

/// The sessions of the other landings, of which answers are told.
#[test]
fn conformance_sessions_have_the_page_of_the_model() {
    let sessions = conformance_inputs(usize::MAX).expect("the sessions are there");
    assert!(sessions.len() >= 184, "{}", sessions.len());
    let mut lines = 0;
    for (name, input) in sessions {
        let expected = session_page(&input);
        assert!(page(&input, 4_096) == expected, "{name}");
        lines += expected.len() / LINE;
    }
    assert!(lines >= 2_000, "{lines} lines");
}

/// Every third input is damaged, every fourth lacks its last line feed.
#[test]
fn random_sessions_have_the_page_of_the_model() {
    let (mut lines, mut empty) = (0, 0);
    for seed in 0..600 {
        let profile = PROFILES[seed as usize % PROFILES.len()];
        let mut input = session(seed, profile, 60);
        if seed % 3 == 0 {
            input = damage(&mut Rng::new(seed), &input);
        }
        if seed % 4 == 0 {
            input.pop();
        }
        let expected = session_page(&input);
        let size = [1, 7, 255, 256, 257, 4_096][seed as usize % 6];
        assert!(page(&input, size) == expected, "seed {seed}");
        lines += expected.len() / LINE;
        empty += usize::from(expected.is_empty());
    }
    assert!(lines >= 5_000 && empty >= 5, "{lines} lines, {empty} empty");
}

const OPENING: &str = "(node 1 (op 1 0 7))\n(process 1 1)\n(open)\n";

/// The lines of that page, without the spaces at their ends; each has 64 columns.
fn lines(page: Vec<u8>) -> Vec<String> {
    let page = String::from_utf8(page).expect("letters, digits and spaces");
    assert!(page.is_empty() || page.ends_with('\n'));
    let lines = page
        .split_terminator('\n')
        .inspect(|line| assert_eq!(line.len(), 64));
    lines.map(|line| line.trim_end().to_string()).collect()
}

/// (rule G1) A line that is not ended is refused, and what came before it stays; so does a page where no line is a call.
#[test]
fn a_last_line_without_its_line_feed() {
    let held = [
        "         1 op     node 1    7  1",
        "         2 op     proc 1    7  2",
    ];
    let both = format!("{OPENING}(1 hold 1)\n(1 hold 1)");
    assert_eq!(lines(page(both.as_bytes(), 9)), held);
    let first = format!("{OPENING}(1 hold 1)");
    assert_eq!(lines(page(first.as_bytes(), 9)), held[..1]);
    let bad = format!("{OPENING}{}\n\0\n", "x".repeat(100_000));
    assert_eq!(lines(page(bad.as_bytes(), 70_000)), held[..1]);
}

#[test]
fn an_empty_page() {
    let refused = [
        "",
        "\n",
        "(open)",
        "(node 1 (op 1 0 7))\n(process 1 1)\n",
        "(node 1 (op 1 0 7))\n(process 2 1)\n(open)\n(2 hold 1)\n",
        "(node 1 (op 1 0 7))\n(process 1 1)\n(node 33)\n(open)\n(1 hold 1)\n",
    ];
    for input in refused
        .into_iter()
        .chain(["(open)\n", "(process 1 1)\n(open)\n(1 go 0)\n"])
    {
        assert_eq!(page(input.as_bytes(), 5), b"", "{input}");
    }
}

/// The program ends while its input is still open, and says nothing.
#[test]
fn after_a_refused_opening_it_reads_no_more() {
    let mut program = started(HOLDERS);
    let mut to = program.stdin.take().expect("a pipe");
    to.write_all(b"(node 1 (op 1 0 7))\n(node 33)\n")
        .expect("it reads");
    let output = program.wait_with_output().expect("the program ends");
    assert!(output.status.success() && output.stdout.is_empty() && output.stderr.is_empty());
    drop(to);
}

/// What is written at once has room for 1,008 lines; the tables have room for 1,024 rows.
#[test]
fn pages_longer_than_what_is_written_at_once() {
    for rows in [1, 2, 1_007, 1_008, 1_009, 1_023, 1_024] {
        for more in [0, 3] {
            let input = [OPENING, &"(1 hold 1)\n".repeat(rows - 1 + more)].concat();
            let all = lines(page(input.as_bytes(), 65_536));
            let stand = (rows + more).min(1_024);
            assert_eq!(all.len(), stand, "{rows} rows");
            let held = (2..=stand).map(|row| format!("{row:>10} op     proc 1    7  2"));
            assert!(all[1..].iter().cloned().eq(held), "{rows} rows");
        }
    }
}

/// Where the page cannot be written, it says so; where there is none, nothing is to be written.
#[test]
fn an_output_that_is_full() {
    let output = onto_full(HOLDERS, OPENING.as_bytes(), true);
    assert_eq!(output.stderr, b"holders: the output cannot be written\n");
    let output = onto_full(HOLDERS, b"(node 1)\n(open)\n(1 go 0)\n", true);
    assert!(output.stderr.is_empty() && output.status.success());
    let output = onto_full(HOLDERS, b"(node 33)\n", false);
    assert!(output.stderr.is_empty() && output.status.success());
}

/// A reader that leaves ends it.
#[test]
fn an_output_that_is_closed() {
    let mut program = started(HOLDERS);
    drop(program.stdout.take());
    let mut to = program.stdin.take().expect("a pipe");
    to.write_all(OPENING.as_bytes()).expect("it reads");
    drop(to);
    program.wait().expect("it ends");
}

/// It says so, and prints no page.
#[test]
fn an_input_that_cannot_be_read() {
    let output = from_directory(HOLDERS);
    assert_eq!(output.stderr, b"holders: the input cannot be read\n");
    assert_eq!(output.stdout, b"");
}

/// Both programs read the same session: one prints its answers, the other its page.
#[test]
fn beside_tablet() {
    let input = format!("{OPENING}(1 hold 1)\n(1 hold 9)\n");
    assert_eq!(
        printed(TABLET, input.as_bytes(), 3),
        b"(ok 0)\n(ok 2)\n(no 7)\n"
    );
    assert_eq!(lines(page(input.as_bytes(), 3)).len(), 2);
}
