//! The call `answer`: its forms, and each ground of its refusals with each last number.

mod common;

use model::call::read_call;
use model::random::{sound_state_of, Rng, SMALL_SHAPES};
use model::refusals::decided_by;
use model::relations::request_on;
use model::session::call;
use model::tables::{Kind, Place, Tables};

/// Rows 5 and 8 of process 1 are operations of 2 and of 3; ports 6 and 9 are made from them, with
/// the server ends 7 and 10.
const OFFICE: &str = "(node 1 (op 2 1 7) (op 3 1 7))|(node 2 (op 1 2 7) (op 2 3 7))|\
    (process 1 1)|(process 2 2)|(process 3 2)|(open)|\
    (1 hold 1)|(1 port 5)|(1 hold 2)|(1 port 8)";

/// The tables of the office after these lines.
fn after(lines: &str) -> Tables {
    common::after(&format!("{OFFICE}|{lines}"))
}

/// The refusal of a line, none if it is accepted, and the tables after it.
fn said(tables: &Tables, line: &str) -> (Option<u32>, Tables) {
    let mut after = tables.clone();
    let answer = call(&mut after, format!("{line}\n").as_bytes());
    assert!(answer.accepted() || after == *tables, "{line}");
    (answer.refusal(), after)
}

/// A request that both last numbers close, so that no other refusal hides a form that is read.
#[test]
fn forms() {
    let tables = after("(1 ask 6)|(2 fetch 7)");
    assert_eq!(said(&tables, "(2 answer 7 0)").0, None);
    assert_eq!(said(&tables, "(2 answer 7 1)").0, None);
    let bad = "(2 answer 7)|(2 answer 7 1 1)|(2 answer 7 0 0)|(2 answer 7 1 0)|(2 answer 7 (1))|\
        (2 answer 7 (0))|(2 answer 7 (1 0))|(2 answer (7 1))|(2 answer (7) 1)|(2 answer 7 01)|\
        (2 answer 7 00)|(2 answer 7 +1)|(2 answer 7 -1)|(2 answer 7 1 )|(2 answer 7 )|\
        (2 answer 7  1)|(2 answer 7 one)|(2 answer)|(answer 7 1)|(2 answer 7 1)1|\
        (2 Answer 7 1)|(2 ANSWER 7 1)|(2 answers 7 1)|(2 answe 7 1)|(2 answer7 1)|\
        (2 reply 7)|(2 refuse 7)|(2 reply 7 1)|(2 refuse 7 0)|(2 reply 7 0)|(2 refuse 7 1)|\
        (2 fetch 7 1)|(2 revoke 11 0)";
    for line in bad.split('|') {
        assert_eq!(said(&tables, line).0, Some(2), "{line}");
    }
    let out_of_range = "2|3|7|10|256|4294967294|4294967295|4294967296|4294967297|\
        18446744073709551616|18446744073709551617";
    for last in out_of_range.split('|') {
        let line = format!("(2 answer 7 {last})");
        assert_eq!(said(&tables, &line).0, Some(3), "{line}");
    }
}

/// 2 before 3, 3 before 5 and 7.
#[test]
fn refusals_of_the_input_come_first() {
    let tables = after("(1 ask 6)|(2 fetch 7)");
    for (line, refusal) in [
        ("(65 answer 7 01)", 2),
        ("(2 answer 0 (1))", 2),
        ("(9 answer 7 2)", 3),
        ("(65 answer 7 1)", 3),
        ("(2 answer 0 1)", 3),
        ("(2 answer 4294967295 0)", 3),
        ("(1 answer 99 2)", 3),
        ("(9 answer 7 0)", 5),
        ("(9 answer 7 1)", 5),
        ("(1 answer 99 0)", 7),
        ("(2 answer 4294967294 1)", 7),
    ] {
        assert_eq!(said(&tables, line).0, Some(refusal), "{line}");
    }
}

/// End 9 and a copy of row 5 are lent to process 2.
const LENT: &str = "(1 ask 6 (9 0) (5 7))|(2 fetch 7)";
/// Process 2 asks over the borrowed end 9.
const BUSY: &str = "(1 ask 6 (9 0))|(2 fetch 7)|(2 ask 9)";
/// Request 14 lists the server end 10, is not fetched, and 1 asks over the port of 10.
const BUSY_BEFORE: &str = "(3 hold 3)|(3 port 11)|(3 ask 12 (10 0))|(1 ask 9)";
/// Process 2 lends the borrowed end 9 on to 1, and it lies with the system.
const LENT_ON: &str = "(1 ask 6 (9 0))|(2 fetch 7)|(2 hold 3)|(2 port 12)|(2 ask 13 (9 0))";
/// The same, and it is with 1.
const FETCHED: &str =
    "(1 ask 6 (9 0))|(2 fetch 7)|(2 hold 3)|(2 port 12)|(2 ask 13 (9 0))|(1 fetch 14)";
/// Process 2 lends it to itself.
const TO_ITSELF: &str =
    "(1 ask 6 (9 0))|(2 fetch 7)|(2 hold 4)|(2 port 12)|(2 ask 13 (9 0))|(2 fetch 14)";

/// The rule that decides with 1 (none is named where both grounds of 14 apply), the calls before,
/// the call, and its refusal with 1 and with 0; 0: none.
const GROUNDS: [(&str, &str, &str, u32, u32); 13] = [
    ("answer-7", "", "1 answer 7", 7, 7),
    ("answer-7", "(1 ask 6)", "3 answer 7", 7, 7),
    ("answer-8", "", "1 answer 6", 8, 8),
    ("answer-8", "(1 ask 6)", "1 answer 5", 8, 8),
    ("answer-10", BUSY, "2 answer 7", 10, 0),
    ("answer-10", BUSY_BEFORE, "1 answer 13", 10, 0),
    ("answer-11a", "", "2 answer 7", 11, 11),
    ("answer-11b", "(1 ask 6)", "2 answer 7", 11, 0),
    ("answer-11b", "(1 ask 6 (5 7))", "2 answer 7", 11, 0),
    ("", LENT_ON, "2 answer 7", 14, 0),
    ("", FETCHED, "2 answer 7", 14, 0),
    ("answer-14b", TO_ITSELF, "2 answer 7", 14, 0),
    ("answer-ok", LENT, "2 answer 7", 0, 0),
];

#[test]
fn each_ground_with_each_last_number() {
    for (rule, before, words, with_1, with_0) in GROUNDS {
        let tables = after(before);
        let line = format!("({words} 1)\n");
        let decided = read_call(line.as_bytes()).and_then(|call| decided_by(&tables, &call));
        assert_eq!(decided.unwrap_or_default(), rule, "{before} {line}");
        for (last, refusal) in [(1, with_1), (0, with_0)] {
            let line = format!("({words} {last})");
            let (found, closed) = said(&tables, &line);
            assert_eq!(found.unwrap_or(0), refusal, "{before} {line}");
            if refusal == 0 {
                let requests = tables.requests.len() - closed.requests.len();
                assert_eq!(requests, 1, "{before} {line}");
                let end = closed.row(9).map(|r| r.place);
                assert_eq!(end, Some(Place::CList(1)), "{before} {line}");
            }
        }
    }
}

/// On sound tables of any kind: what 0 refuses 1 refuses for the same number, 10 and 14 are of 1
/// alone, 11 of both only where no request is open, and both close the same.
#[test]
fn the_last_numbers_side_by_side() {
    let mut rng = Rng::new(108);
    let mut seen = [0; 19];
    for _ in 0..1_500 {
        let shape = rng.pick(&SMALL_SHAPES).unwrap();
        let tables = sound_state_of(&mut rng, shape);
        for row in &tables.rows {
            let Place::CList(caller) = row.place else {
                continue;
            };
            let line = |last: u32| format!("({caller} answer {} {last})", row.number);
            let (with_1, served) = said(&tables, &line(1));
            let (with_0, declined) = said(&tables, &line(0));
            let open = row.kind == Kind::Server && request_on(&tables, row.object).is_some();
            let expected = match with_1 {
                Some(10 | 14) => None,
                Some(11) if open => None,
                _ => with_1,
            };
            assert_eq!(with_0, expected, "{}{}", tables.print(), line(0));
            assert!(with_1.is_some() || served == declined, "{}", line(1));
            seen[with_1.unwrap_or(0) as usize] += 1;
        }
    }
    for k in [0, 8, 10, 11, 14] {
        assert!(seen[k] >= 20, "{k}: seen {} times", seen[k]);
    }
}
