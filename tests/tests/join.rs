//! The program `join` through pipes, byte for byte: the cases, random pairs, pairs with every refusal,
//! the largest texts, parts of any size, texts longer than what is written at once, inputs and outputs
//! that fail, and what is not read.

mod common;

use common::joins::{all_seen, count, good, planted, Seen};
use common::pipes::{from_directory, onto_full, printed, started, JOIN};
use model::cases;
use model::join::join;
use model::random::texts::{largest, pair, Share, LONGEST, SHARES};
use model::random::Rng;
use std::io::{Read, Write};
use std::thread;

const SIZES: [usize; 7] = [1, 7, 255, 256, 257, 4_096, 65_536];

fn joined(input: &[u8], size: usize) -> Vec<u8> {
    printed(JOIN, input, size)
}

/// A text, for failures.
fn shown(bytes: &[u8]) -> String {
    String::from_utf8_lossy(bytes).into_owned()
}

/// The pairs of conformance/, in parts of any size.
#[test]
fn conformance_pairs_are_printed() {
    let pairs = cases::joins_of_conformance().expect("the pairs are there");
    assert_eq!(pairs.len(), 60);
    for case in pairs {
        for size in SIZES {
            let found = joined(&case.texts, size);
            assert_eq!(
                shown(&found),
                shown(&case.joined),
                "{} in parts of {size}",
                case.at
            );
        }
    }
}

/// The pairs of cases/: byte by byte, in parts of 8, in two halves, and at once.
#[test]
fn cases_are_printed() {
    let joins = cases::joins_by_hand().expect("the cases are read");
    assert!(joins.len() >= 67, "{} cases", joins.len());
    for case in joins {
        for size in [1, 8, case.texts.len().div_ceil(2).max(1), 65_536] {
            let run = cases::run_join(&case, |texts| joined(texts, size));
            assert_eq!(run, Ok(()), "in parts of {size}");
        }
    }
}

#[test]
fn random_pairs_are_printed_as_by_the_model() {
    let mut seen = Seen::new();
    for seed in 0..2_400 {
        let input = pair(seed);
        let expected = join(&input);
        let size = SIZES[seed as usize % SIZES.len()];
        let found = joined(&input, size);
        assert_eq!(
            shown(&found),
            shown(&expected),
            "seed {seed} in parts of {size}"
        );
        count(&mut seen, &input, &expected);
    }
    all_seen(&seen, 30, [90, 60, 35], 1_300);
}

/// What was planted is what is printed: a text's own refusal, the first text's first, then 5, 6 and 20.
#[test]
fn refusals_of_every_kind() {
    let mut seen = Seen::new();
    for (at, made) in planted(120).into_iter().enumerate() {
        let size = SIZES[at % SIZES.len()];
        let found = joined(&made.input, size);
        assert_eq!(
            shown(&found),
            shown(&made.printed),
            "{}",
            shown(&made.input)
        );
        count(&mut seen, &made.input, &found);
    }
    all_seen(&seen, 36, [160, 18, 3], 0);
}

#[test]
fn pairs_that_are_joined() {
    for (at, input) in good(121, 600).into_iter().enumerate() {
        let found = joined(&input, SIZES[at % SIZES.len()]);
        assert!(found.ends_with(b"(open)\n"), "{}", shown(&input));
        assert_eq!(shown(&found), shown(&join(&input)), "{}", shown(&input));
    }
}

/// 32 nodes of 16 entries and 64 processes: 8,501 bytes are printed, in more than two writes.
#[test]
fn largest_texts() {
    let mut rng = Rng::new(122);
    for share in SHARES {
        let input = largest(&mut rng, share).print();
        for size in SIZES {
            let found = joined(&input, size);
            assert_eq!(
                shown(&found),
                shown(&join(&input)),
                "{share:?} in parts of {size}"
            );
            match share {
                Share::Different => assert_eq!(found, b"(no 6)\n"),
                _ => assert_eq!(found.len(), LONGEST, "{share:?}"),
            }
        }
    }
    assert_eq!(LONGEST, 8_501);
}

/// A text of so many entries, 16 in a node: a line each, in their order.
fn text_of(entries: usize) -> String {
    let counts = (0..32).map(|node: usize| entries.saturating_sub(16 * node).min(16));
    let node = |(at, count)| format!("(node {}{})\n", at + 1, " (op 64 255 7)".repeat(count));
    let nodes: String = counts.enumerate().map(node).collect();
    nodes + "(process 64 32)\n(open)\n"
}

/// What is written at once has 4,096 bytes at most; joined texts of all lengths below it, about it and above it.
#[test]
fn texts_longer_than_what_is_written_at_once() {
    let (mut below, mut above) = (0, 0);
    for entries in 0..=512 {
        let text = text_of(entries);
        let found = joined(format!("(open)\n{text}").as_bytes(), 65_536);
        assert_eq!(shown(&found), text, "{entries} entries");
        below += usize::from(text.len() <= 4_096);
        above += usize::from(text.len() > 4_096);
    }
    assert!(below > 200 && above > 200, "{below} below, {above} above");
}

const FIRST: &str = "(node 1 (op 2 0 7))\n(process 1 1)\n(open)\n";
const SECOND: &str = "(process 2 1)\n(node 1 (dir 1 3) (op 2 0 7))\n(open)\n";
const BOTH: &str = "(node 1 (op 2 0 7) (dir 1 3))\n(process 1 1)\n(process 2 1)\n(open)\n";

/// (rule J1) What follows the second `(open)` is not read, however much it is.
#[test]
fn what_follows_the_second_open() {
    let texts = format!("{FIRST}{SECOND}");
    let tails = [
        "",
        "x",
        "\n",
        "(open)\n",
        "(open)\n(open)\n",
        "(node 33)\n(open)\n",
        "(node 1)\n(open)\n",
        "(1 hold 1)\n",
        "\0",
    ];
    for tail in tails
        .map(str::to_string)
        .into_iter()
        .chain(["x".repeat(300_000)])
    {
        for size in SIZES {
            let found = joined(format!("{texts}{tail}").as_bytes(), size);
            assert_eq!(shown(&found), BOTH, "in parts of {size}");
        }
    }
}

/// What the program prints while its input is still open, after these bytes.
fn printed_meanwhile(input: &str) -> String {
    let mut program = started(JOIN);
    let mut to = program.stdin.take().expect("a pipe");
    to.write_all(input.as_bytes()).expect("it reads");
    let output = program.wait_with_output().expect("the program ends");
    assert!(output.status.success() && output.stderr.is_empty());
    drop(to);
    shown(&output.stdout)
}

/// (rule J10) It ends with the second `(open)`, or with the first line of either text that is
/// refused, and does not wait for the end of its input.
#[test]
fn an_input_without_end() {
    assert_eq!(printed_meanwhile(&format!("{FIRST}{SECOND}")), BOTH);
    assert_eq!(printed_meanwhile(&format!("{FIRST}{SECOND}(no")), BOTH);
    assert_eq!(printed_meanwhile("(open)\n(open)\n"), "(open)\n");
    assert_eq!(printed_meanwhile(&format!("{FIRST}(open)\n")), "(no 5)\n");
    assert_eq!(printed_meanwhile("(node 1)\n(node 33)\n"), "(no 3 2)\n");
    assert_eq!(
        printed_meanwhile(&format!("{FIRST}(node 1)\n(node 1)\n")),
        "(no 4 2)\n"
    );
    assert_eq!(printed_meanwhile(&format!("{FIRST}\n")), "(no 2 1)\n");
}

/// Bytes that never end after both texts: the program ends, and the writing fails.
#[test]
fn an_input_that_goes_on_for_ever() {
    let mut program = started(JOIN);
    let mut to = program.stdin.take().expect("a pipe");
    let feeder = thread::spawn(move || {
        to.write_all(format!("{FIRST}{SECOND}").as_bytes())
            .expect("it reads");
        while to.write_all(&[b'('; 4_096]).is_ok() {}
    });
    let output = program.wait_with_output().expect("the program ends");
    feeder.join().expect("the writing ends");
    assert_eq!(shown(&output.stdout), BOTH);
}

/// (rules J1, J10) Cut between any two bytes it waits for the rest; where the input ends there, 2 at the line begun.
#[test]
fn before_the_second_open_it_reads_on() {
    let texts = format!("{FIRST}{SECOND}");
    for cut in 0..texts.len() {
        let mut program = started(JOIN);
        let mut to = program.stdin.take().expect("a pipe");
        let mut from = program.stdout.take().expect("a pipe");
        to.write_all(&texts.as_bytes()[..cut]).expect("it reads");
        to.write_all(&texts.as_bytes()[cut..]).expect("it reads on");
        let mut found = String::new();
        from.read_to_string(&mut found).expect("it prints");
        assert!(program.wait().expect("it ends").success());
        assert_eq!(found, BOTH, "cut at {cut}");
        let line = match cut.checked_sub(FIRST.len()) {
            None => FIRST[..cut].matches('\n').count() + 1,
            Some(at) => SECOND[..at].matches('\n').count() + 1,
        };
        let ended = joined(&texts.as_bytes()[..cut], 65_536);
        assert_eq!(shown(&ended), format!("(no 2 {line})\n"), "cut at {cut}");
    }
}

/// A line of any length is read, and what is kept of it does not grow: 2 at that line.
#[test]
fn lines_that_are_too_long() {
    for length in [256, 257, 4_096, 1_000_000] {
        let long = "(".repeat(length);
        for size in [255, 4_096, 65_536] {
            let of_first = joined(format!("(node 1)\n{long}\n(open)\n").as_bytes(), size);
            assert_eq!(shown(&of_first), "(no 2 2)\n", "{length} bytes");
            let of_second = joined(format!("{FIRST}{long}\n(open)\n").as_bytes(), size);
            assert_eq!(shown(&of_second), "(no 2 1)\n", "{length} bytes");
            let not_ended = joined(format!("{FIRST}(node 1)\n{long}").as_bytes(), size);
            assert_eq!(shown(&not_ended), "(no 2 2)\n", "{length} bytes");
        }
    }
}

/// Where nothing can be written it says so: of a text, of a refusal, at the end of its input and before it.
#[test]
fn an_output_that_is_full() {
    let longest = largest(&mut Rng::new(123), Share::Same).print();
    let texts = format!("{FIRST}{SECOND}");
    for input in [texts.as_bytes(), b"(node 33)\n", &longest] {
        for ends in [true, false] {
            let output = onto_full(JOIN, input, ends);
            assert_eq!(output.stderr, b"join: the output cannot be written\n");
        }
    }
    let output = onto_full(JOIN, b"(node 1)\n", true);
    assert_eq!(output.stderr, b"join: the output cannot be written\n");
}

/// A reader that leaves ends it.
#[test]
fn an_output_that_is_closed() {
    let mut program = started(JOIN);
    drop(program.stdout.take());
    let mut to = program.stdin.take().expect("a pipe");
    to.write_all(format!("{FIRST}{SECOND}").as_bytes())
        .expect("it reads");
    program.wait().expect("it ends");
}

/// It says so, and prints neither a text nor a refusal.
#[test]
fn an_input_that_cannot_be_read() {
    let output = from_directory(JOIN);
    assert_eq!(output.stderr, b"join: the input cannot be read\n");
    assert_eq!(output.stdout, b"");
}
