//! The call `comesall`: its forms, its refusals, the value of each pair in its place, and what holds
//! of every value on sound tables that no session made.

mod common;

use common::after;
use model::call::{Call, Pair};
use model::limits::{LINE_BYTES, PAIRS};
use model::random::pairs::comesall;
use model::random::{sound_state_of, Rng, SMALL_SHAPES};
use model::session::call;
use model::tables::Tables;
use model::Answer;
use std::collections::BTreeMap;

/// Text: 1 an operation of 2, 2 subdirectory 2, both in node 1; 3 an operation of 1 in node 2.
/// 1 holds 4 (of 1) and 5 (of 2), makes ports 6 and 8 of 4, and by request 10 lends copies 11 (of 4) and
/// 12 (of 5) and the end 8. 2 goes through 12, holds 13 (of 3), goes back, holds 14 (of 1), makes ports
/// 15 of 11 and 17 of 14, and lends copies 20 (of 14) over 15 by request 19, 22 (of 13) over 17 by request
/// 21. Request 23 is on port 8, without items.
const OFFICE: &str =
    "(node 1 (op 2 1 7) (dir 2 7))|(node 2 (op 1 1 7))|(process 1 1)|(process 2 1)|(open)|\
    (1 hold 1)|(1 hold 2)|(1 port 4)|(1 port 4)|(1 ask 6 (4 7) (5 3) (8 0))|(2 fetch 7)|(2 go 12)|\
    (2 hold 3)|(2 go 0)|(2 hold 1)|(2 port 11)|(2 port 14)|(2 ask 15 (14 7))|(2 ask 17 (13 7))|\
    (2 ask 8)";

/// The open requests of the office, each with the rows that come from it.
const FROM: [(u32, &[u32]); 4] = [
    (10, &[11, 12, 13, 15, 16, 20, 22]),
    (19, &[20]),
    (21, &[22]),
    (23, &[]),
];

/// What a line is answered; the tables stay as they were.
fn said(tables: &Tables, line: &str) -> Answer {
    let mut after = tables.clone();
    let answer = call(&mut after, format!("{line}\n").as_bytes());
    assert_eq!(after, *tables, "{line}");
    answer
}

/// What is printed for a line, without its line feed.
fn printed(tables: &Tables, line: &str) -> String {
    let text = String::from_utf8(said(tables, line).print()).unwrap();
    text.trim_end().to_string()
}

/// The line of these pairs, each written as `e q`.
fn line(pairs: &[&str]) -> String {
    let pairs: String = pairs.iter().map(|p| format!(" ({p})")).collect();
    format!("(comesall{pairs})")
}

/// The line of a call, without its line feed.
fn text(call: &Call) -> String {
    let text = String::from_utf8(call.print()).unwrap();
    text.trim_end().to_string()
}

/// What `comes` answers of a pair alone.
fn alone(tables: &Tables, pair: Pair) -> Option<bool> {
    let Pair { row, request } = pair;
    match said(tables, &text(&Call::Comes { row, request })) {
        Answer::Ok(numbers) if numbers == [1] => Some(true),
        Answer::Ok(numbers) if numbers == [0] => Some(false),
        Answer::No(7) => None,
        other => panic!("{pair:?}: {other:?}"),
    }
}

/// The row stands and the request is open, so that no other refusal hides a form that is read.
#[test]
fn forms() {
    let tables = after(OFFICE);
    assert_eq!(printed(&tables, "(comesall (11 10))"), "(ok 1)");
    let bad = "(comesall)|(comesall )|(1 comesall (11 10))|(65 comesall (11 10))|(0 comesall (11 10))|\
        (1 comesall)|(comesall 11 10)|(comesall 11)|(comesall ())|(comesall (11))|(comesall (11 10 1))|\
        (comesall ((11 10)))|(comesall (11 (10)))|(comesall (11) (10))|(comesall (11 10) 11 10)|\
        (comesall 11 (11 10))|(comesall (11 10) ())|(comesall (11 10) (11))|(comesall (11 10)(11 10))|\
        (comesall(11 10))|(comesall  (11 10))|(comesall (11  10))|(comesall ( 11 10))|\
        (comesall (11 10 ))|(comesall (11 10) )|(comesall (11 10)  (11 10))|( comesall (11 10))|\
        (comesall (11 10)) | (comesall (11 10))|(comesall (11 10))\r|(comesall\t(11 10))|\
        (comesall (011 10))|(comesall (11 010))|(comesall (11 10) (11 010))|(comesall (+11 10))|\
        (comesall (11 -))|(comesall -)|(comesall (e q))|(comesall (11 10) x)|(comesall (11 10)))|\
        (comesall (11 10)|comesall (11 10))|((comesall (11 10)))|(Comesall (11 10))|\
        (comesallx (11 10))|(comesal (11 10))|(comes all (11 10))|(comes (11 10))|(comesall11 10)|\
        (chain (11 10))|(ask (11 10))|((11 10) comesall)|((11 10))|(comesall (11 10))1|(ok 1)";
    for line in bad.split('|') {
        assert_eq!(said(&tables, line), Answer::No(2), "{line}");
    }
}

/// 3 for a number out of range in any place, before 6 for too many pairs; 2 before both.
#[test]
fn refusals_in_order() {
    let tables = after(OFFICE);
    let odd = "0 10|11 0|4294967295 10|11 4294967295|4294967307 10|11 18446744073709551626";
    for count in [1, 2, PAIRS - 1, PAIRS, PAIRS + 1, PAIRS + 5] {
        let good = vec!["11 10"; count];
        let expected = match count > PAIRS {
            true => Answer::No(6),
            false => Answer::Values(vec![Some(true); count]),
        };
        assert_eq!(said(&tables, &line(&good)), expected, "{count}");
        for at in 0..count {
            for pair in odd.split('|') {
                let mut pairs = good.clone();
                pairs[at] = pair;
                assert_eq!(said(&tables, &line(&pairs)), Answer::No(3), "{pairs:?}");
            }
            let mut pairs = vec!["0 10"; count];
            pairs[at] = "11 010";
            assert_eq!(said(&tables, &line(&pairs)), Answer::No(2), "{pairs:?}");
        }
    }
}

/// (rules T1, X3) Sixteen pairs in 255 bytes are answered; one digit more is 2.
#[test]
fn the_longest_line() {
    let tables = after(OFFICE);
    let mut pairs = vec!["4294967294 4294967294"; 6];
    pairs.extend([
        "1111111111 1111111111",
        "11 10",
        "20 19",
        "14 10",
        "22 21",
        "20 21",
        "4 10",
    ]);
    pairs.extend(["12 10", "11111111 10", "13 10"]);
    let longest = line(&pairs);
    assert_eq!((pairs.len(), longest.len()), (PAIRS, LINE_BYTES));
    let answer = "(ok - - - - - - - 1 1 0 1 0 0 1 - 1)";
    assert_eq!(printed(&tables, &longest), answer);
    let longer = longest.replace("(11111111 10)", "(111111111 10)");
    assert_eq!(said(&tables, &longer), Answer::No(2));
}

/// Every row of every request, from the first row on and from the last one on.
#[test]
fn each_row_of_each_request() {
    let tables = after(OFFICE);
    let mut rows: Vec<u32> = tables.rows.iter().map(|r| r.number).collect();
    for _ in 0..2 {
        rows.reverse();
        for (request, from) in FROM {
            for some in rows.chunks(PAIRS) {
                let pairs = some.iter().map(|row| Pair { row: *row, request }).collect();
                let line = text(&Call::ComesAll { pairs });
                let values = some.iter().map(|row| Some(from.contains(row))).collect();
                assert_eq!(said(&tables, &line), Answer::Values(values), "{line}");
            }
        }
    }
}

/// `-` for a row that never was, is gone or is a request, for a request that never was, is closed or is
/// a row; in each place, and the others have their values.
#[test]
fn missing_rows_and_requests() {
    let tables = after(OFFICE);
    let missing = "24 10|10 10|4294967294 10|11 24|11 11|11 4294967294|10 11|24 24";
    for pair in missing.split('|') {
        for at in 0..PAIRS {
            let mut pairs = ["11 10", "14 10"].repeat(PAIRS / 2);
            let mut values = [Some(true), Some(false)].repeat(PAIRS / 2);
            (pairs[at], values[at]) = (pair, None);
            let line = line(&pairs);
            assert_eq!(said(&tables, &line), Answer::Values(values), "{line}");
        }
    }
    let revoked = after(&format!("{OFFICE}|(2 revoke 19)|(2 revoke 21)|(2 drop 13)"));
    let line = "(comesall (20 19) (20 10) (11 19) (22 10) (13 10) (15 10) (14 10) (12 23))";
    assert_eq!(printed(&revoked, line), "(ok - - - - - 1 0 0)");
}

/// Without an opening there is no row, no request and no process, and no 5 either.
#[test]
fn empty_tables() {
    let tables = Tables::empty();
    assert_eq!(said(&tables, "(1 go 0)"), Answer::No(5));
    assert_eq!(printed(&tables, "(comesall (1 1) (2 1))"), "(ok - -)");
    assert_eq!(said(&tables, "(comesall (1 0))"), Answer::No(3));
}

/// On sound tables of any kind, in lines of 1 to 16 pairs: each value is that of `comes` alone on the
/// same tables. Each value is seen in each place, and lines of 255 bytes are among them.
#[test]
fn values_of_sound_tables() {
    let mut rng = Rng::new(114);
    let mut seen: BTreeMap<(usize, Option<bool>), u64> = BTreeMap::new();
    let mut longest = 0;
    for _ in 0..6_000 {
        let shape = rng.pick(&SMALL_SHAPES).unwrap();
        let tables = sound_state_of(&mut rng, shape);
        let call = comesall(&mut rng, &tables, false);
        let values: Vec<_> = call.pairs().iter().map(|p| alone(&tables, *p)).collect();
        let line = text(&call);
        let answer = Answer::Values(values.clone());
        assert_eq!(said(&tables, &line), answer, "{line} on {}", tables.print());
        for place in values.into_iter().enumerate() {
            *seen.entry(place).or_default() += 1;
        }
        longest += u32::from(line.len() == LINE_BYTES);
    }
    for at in 0..PAIRS {
        for value in [None, Some(false), Some(true)] {
            let often = seen.get(&(at, value)).copied().unwrap_or(0);
            assert!(often >= 50, "{value:?} at {at}: seen {often} times");
        }
    }
    assert!(longest >= 100, "{longest} lines of 255 bytes");
}
