//! The call answer: its form, the words that stood for it before, and what its last number
//! decides; on the proved entry point and on the plain one.

mod common;

use common::entries::{entries, refuse, Entry};
use common::performed::{Perform, UNSAID};
use common::{small, words, Lent};
use kernel::call_words::{said, ANSWER, CALL_WORDS, DONE, REFUSED};
use kernel::plain::closing_tables::{call, opened};
use kernel::{performing, plain};
use model::random::{sound_state, Rng};
use model::relations::request_on;
use model::tables::{Kind, Place, Row};
use model::Tables;

/// Process 1 has lent rows 3 and 4 and the client end 7 by request 9; the server end 6 is with
/// process 2.
fn asked() -> Tables {
    let opening = "(node 1 (op 2 0 7) (dir 1 7))\n(process 1 1)\n(process 2 1)\n(open)\n";
    let mut tables = opened(opening);
    for line in ["(1 hold 1)", "(1 hold 2)", "(1 port 3)", "(1 port 3)"] {
        call(&mut tables, line);
    }
    call(&mut tables, "(1 ask 5 (3 7) (4 7) (7 0))");
    tables
}

fn fetched() -> Tables {
    let mut tables = asked();
    call(&mut tables, "(2 fetch 6)");
    tables
}

/// What is answered to the line, and the words after.
fn called(entry: &Entry, lent: &Lent, line: &str) -> (String, Lent) {
    let mut after = lent.clone();
    let said = entry.call(&mut after, format!("{line}\n").as_bytes());
    (String::from_utf8(said).expect("a line"), after)
}

/// Lines that are refused where the request could be answered with 0 and with 1.
const REFUSED_LINES: [(u32, &[&str]); 6] = [
    // the words that stood for it
    (
        2,
        &[
            "(2 reply 6)",
            "(2 refuse 6)",
            "(2 reply 6 1)",
            "(2 refuse 6 0)",
            "(reply 6)",
            "(2 reply 6 (1))",
            "(65 reply 6)",
            "(2 refuse 0)",
        ],
    ),
    // a last number that is missing, doubled, bracketed or no number
    (
        2,
        &[
            "(2 answer 6)",
            "(2 answer)",
            "(2 answer 6 1 1)",
            "(2 answer 6 1 0)",
            "(2 answer 6 0 1)",
            "(2 answer 6 (1))",
            "(2 answer 6 (0))",
            "(2 answer 6 (1 0))",
            "(2 answer 6 1 (1 0))",
            "(2 answer (6 1))",
            "(2 answer 6 ())",
            "(2 answer 6 x)",
            "(2 answer 6 1x)",
            "(2 answer 6 -1)",
            "(2 answer 6 +1)",
            "(2 answer 6 01)",
            "(2 answer 6 00)",
            "(2 answer 06 1)",
            "(65 answer 6 01)",
        ],
    ),
    // other spaces, other words, no caller
    (
        2,
        &[
            "(2 answer 6  1)",
            "(2 answer 6 1 )",
            "(2 answer 61 )",
            "(2 answer 6\t1)",
            "(2 answer 6 1",
            "(2 answer6 1)",
            "(2 Answer 6 1)",
            "(2 answe 6 1)",
            "(2 answers 6 1)",
            "(answer 6 1)",
            "(answer 2 6 1)",
            "(1 ask 7 1)",
            "(2 fetch 6 1)",
            "(1 revoke 9 0)",
            "(1 close 5 1)",
            "(comes 10 9 1)",
        ],
    ),
    // a last number out of range; none is taken modulo a power of 2
    (
        3,
        &[
            "(2 answer 6 2)",
            "(2 answer 6 3)",
            "(2 answer 6 10)",
            "(2 answer 6 11)",
            "(2 answer 6 256)",
            "(2 answer 6 257)",
            "(2 answer 6 65537)",
            "(2 answer 6 4294967294)",
            "(2 answer 6 4294967295)",
            "(2 answer 6 4294967296)",
            "(2 answer 6 4294967297)",
            "(2 answer 6 18446744073709551616)",
            "(2 answer 6 18446744073709551617)",
            "(2 answer 99 2)",
            "(9 answer 6 2)",
        ],
    ),
    // another number out of range
    (
        3,
        &[
            "(2 answer 0 1)",
            "(2 answer 0 0)",
            "(2 answer 4294967295 1)",
            "(2 answer 4294967302 0)",
            "(0 answer 6 1)",
            "(65 answer 6 0)",
            "(4294967298 answer 6 1)",
        ],
    ),
    (5, &["(9 answer 6 1)", "(9 answer 6 0)", "(64 answer 99 1)"]),
];

#[test]
fn forms_that_are_refused() {
    let lent = words(&fetched());
    for (refusal, lines) in REFUSED_LINES {
        refuse(&lent, refusal, lines);
    }
}

/// A last number of so many digits that the line is full, and of one more.
#[test]
fn the_longest_lines() {
    let lent = words(&fetched());
    for entry in entries() {
        for (digits, refusal) in [(242, 3), (243, 2)] {
            let line = format!("(2 answer 6 {})", "1".repeat(digits));
            assert_eq!(line.len(), 13 + digits);
            assert_eq!(called(&entry, &lent, &line).0, format!("(no {refusal})\n"));
        }
    }
}

/// A fetched request is closed with 1 and with 0, and all words after are the same.
#[test]
fn both_close_the_request() {
    let lent = words(&fetched());
    for entry in entries() {
        let (said, served) = called(&entry, &lent, "(2 answer 6 1)");
        assert_eq!(said, "(ok 0)\n");
        assert!(served != lent);
        let declined = called(&entry, &lent, "(2 answer 6 0)");
        assert!(declined == ("(ok 0)\n".to_string(), served.clone()));
        for line in ["(2 answer 6 1)", "(2 answer 6 0)"] {
            assert_eq!(called(&entry, &served, line).0, "(no 11)\n", "{line}");
        }
    }
}

fn open_on(tables: &Tables, row: &Row) -> bool {
    row.kind == Kind::Server && request_on(tables, row.object).is_some()
}

/// What is answered with 0, by what is answered with 1 on the same tables: the same, but that with
/// 0 an open request is always closed. Counted by the refusal with 1, 0 for none.
fn compared(entry: &Entry, tables: &Tables, counts: &mut [u32; 19]) {
    let lent = words(tables);
    for row in &tables.rows {
        let caller = match row.place {
            Place::CList(process) => process,
            _ => 1,
        };
        let line = |last: u32| format!("({caller} answer {} {last})", row.number);
        let (with_1, with_0) = (line(1), line(0));
        let (served, declined) = (called(entry, &lent, &with_1), called(entry, &lent, &with_0));
        let refusal = served.0.strip_prefix("(no ").map_or(0, |rest| {
            let digits = rest.trim_end_matches(")\n");
            digits.parse().expect("a refusal")
        });
        match refusal {
            0 | 5 | 7 | 8 => assert!(declined == served, "{with_1}"),
            11 if !open_on(tables, row) => assert!(declined == served, "{with_1}"),
            10 | 11 | 14 => {
                assert!(served.1 == lent, "{with_1}");
                assert_eq!(declined.0, "(ok 0)\n", "{with_0}");
                assert!(declined.1 != lent, "{with_0}");
            }
            _ => panic!("{with_1}: {}", served.0),
        }
        counts[refusal] += 1;
    }
}

#[test]
fn what_the_last_number_decides() {
    let mut rng = Rng::new(41);
    let states: Vec<Tables> = (0..300).map(|_| sound_state(&mut rng)).collect();
    for entry in entries() {
        let mut counts = [0; 19];
        for tables in small(300, 90).chain(states.iter().cloned()) {
            compared(&entry, &tables, &mut counts);
        }
        for refusal in [0, 7, 8, 10, 11, 14] {
            assert!(counts[refusal] >= 50, "{refusal}: {counts:?}");
        }
    }
}

/// The fourth word of a call in words is its last number; any but 1 stands for 0.
#[test]
fn the_last_number_in_words() {
    let lent = words(&asked());
    for perform in [performing::perform as Perform, plain::calls::perform] {
        let made = |last: u32| {
            let (mut after, mut answer) = (lent.clone(), UNSAID);
            let mut call = [0; CALL_WORDS];
            call[..4].copy_from_slice(&[ANSWER, 2, 6, last]);
            perform(&mut after.0, &mut after.1, &call, &mut answer);
            (after, answer)
        };
        let declined = made(0);
        assert!(declined.0 != lent && declined.1 == said(DONE, []));
        for last in [2, 3, 256, 257, u32::MAX] {
            assert!(made(last) == declined, "{last}");
        }
        assert!(made(1) == (lent.clone(), said(REFUSED, [11])));
    }
}
