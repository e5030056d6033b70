//! Many pairs in one line: the values that are answered, told pair by pair, and the number that refuses.

mod common;

use common::printed;
use model::answer::Answer;
use model::call::{Call, Pair};
use model::limits::{LAST_NUMBER, LINE_BYTES, PAIRS};
use model::random::pairs::comesall;
use model::random::{session, tables, Rng, PROFILES, SMALL};
use model::relations::pair_values;
use model::session::Session;
use model::words::encode;
use model::Tables;
use std::collections::BTreeMap;
use tablet::State;
use tablet_see::ground::ground;

/// Request 7 lends row 2 as the copy 8, and the end 5; from 8 the port 9 is made, over which row 11 is lent as 13.
const SESSION: &str = "(node 1 (op 2 0 7))\n(process 1 1)\n(process 2 1)\n(open)\n(1 hold 1)\n(1 port 2)\n(1 port 2)\n\
                       (1 ask 3 (5 0) (2 3))\n(2 fetch 4)\n(2 port 8)\n(2 hold 1)\n(2 ask 9 (11 1))\n";

/// What a command prints after that session and more calls.
fn shown(args: &[&str], calls: &str) -> String {
    printed(args, format!("{SESSION}{calls}").as_bytes()).expect("it runs")
}

/// The answer and the sentences of each call that `explain` prints.
fn explained(text: &str) -> Vec<(&str, Vec<&str>)> {
    let mut calls: Vec<(&str, Vec<&str>)> = Vec::new();
    for line in text.lines() {
        match (line.strip_prefix("    "), line.rsplit_once(" -> ")) {
            (None, Some((_, answer))) => calls.push((answer, Vec::new())),
            (Some(told), _) => calls.iter_mut().last().expect("a call").1.push(told),
            _ => {}
        }
    }
    calls
}

/// The answer and the sentences of the last call.
fn told(calls: &str) -> Vec<String> {
    let text = shown(&["explain"], calls);
    let (answer, told) = explained(&text).pop().expect("a call");
    let lines = [answer].into_iter().chain(told);
    lines.map(str::to_string).collect()
}

#[test]
fn each_pair_is_told() {
    let lent = "request 7 of process 1 on port 3";
    let copy = format!(
        "Pair 1, (8 7): row 8 (operation 0 of manager 2) comes from {lent}: it bears its number."
    );
    let over = format!(
        "Pair 2, (13 7): row 13 (operation 0 of manager 2) comes from {lent}: \
         it was made from row 9, that from row 8, and 8 bears its number."
    );
    let lenders = format!(
        "Pair 3, (2 7): row 2 (operation 0 of manager 2) does not come from {lent}: its copy, row 8, does."
    );
    let on_loan = format!(
        "Pair 4, (5 7): row 5 (client end of port 5) does not come from {lent}: \
         it is on loan there, and made from row 2."
    );
    let own =
        format!("Pair 5, (11 7): row 11 (operation 0 of manager 2) does not come from {lent}.");
    assert_eq!(
        told("(comesall (8 7) (13 7) (2 7) (5 7) (11 7))\n"),
        ["(ok 1 1 0 0 0)", &copy, &over, &lenders, &on_loan, &own]
    );
}

#[test]
fn a_pair_without_a_value_is_told_with_its_ground() {
    assert_eq!(
        told("(comesall (14 7) (7 8) (8 9) (8 14))\n"),
        [
            "(ok - - - -)",
            "Pair 1, (14 7): not told, rule comes-7a: no row 14 stands: the number is not given yet.",
            "Pair 2, (7 8): not told, rule comes-7a: 7 is a request, not a row.",
            "Pair 3, (8 9): not told, rule comes-7b: 9 is a row, not a request.",
            "Pair 4, (8 14): not told, rule comes-7b: no request 14 is open: the number is not given yet.",
        ]
    );
    assert_eq!(
        told("(1 revoke 7)\n(comesall (13 7) (2 7) (13 7))\n"),
        [
            "(ok - - -)",
            "Pair 1, (13 7): not told, rule comes-7a: no row 13 stands: it has gone, by call 9.",
            "Pair 2, (2 7): not told, rule comes-7b: no request 7 is open: it has been closed, by call 9.",
            "Pair 3, (13 7): not told, rule comes-7a: no row 13 stands: it has gone, by call 9.",
        ]
    );
}

/// One pair alone is told as `comes` is; the page has what `explain` tells, and `what-if` changes nothing.
#[test]
fn every_command_tells_it() {
    let comes = &told("(comes 10 7)\n")[1];
    assert!(comes.starts_with("Row 10 (server end of port 9) comes from request 7"));
    let pair = comes.replacen("Row", "Pair 1, (10 7): row", 1);
    assert_eq!(told("(comesall (10 7))\n"), ["(ok 1)", &pair]);
    let tried = shown(&["what-if", "(comesall (10 7))"], "");
    assert_eq!(
        tried,
        format!("(comesall (10 7)) -> (ok 1)\n    {pair}\nNothing would change.\n")
    );
    let page = shown(&["page"], "(comesall (10 7) (14 7))\n");
    let line = "{\"line\":\"(comesall (10 7) (14 7))\",\"answer\":\"(ok 1 -)\",\"ok\":true,";
    assert!(
        page.contains(&format!("{line}\"told\":[\"{pair}\",")),
        "{page}"
    );
    let help = shown(&["--help"], "");
    assert!(help.contains("what-if '(comesall (8 7) (9 7))'"), "{help}");
}

/// The rows by which a sentence says that a row comes from a request: from the row on, each a source of the one before.
fn path(pair: Pair, told: &str) -> Vec<u32> {
    let (_, made) = told.split_once(": it ").expect("by which rows");
    let words = made.split([' ', ',', '.']);
    let made = words.filter_map(|word| word.parse().ok());
    let mut path: Vec<u32> = [pair.row].into_iter().chain(made).collect();
    // the last row is named twice
    path.dedup();
    path
}

/// A sentence is right about its pair, by the model.
fn is_right(t: &Tables, pair: Pair, value: Option<bool>, told: &str) {
    match value {
        Some(true) => {
            let path = path(pair, told);
            let source = |rows: &[u32]| {
                t.row(rows[0])
                    .is_some_and(|r| r.comes_directly_from(rows[1]))
            };
            assert!(path.windows(2).all(source), "{told}");
            let last = path.last().and_then(|row| t.row(*row)).expect("a row");
            assert_eq!(last.request, pair.request, "{told}");
        }
        Some(false) => assert!(told.contains(") does not come from request "), "{told}"),
        None if t.row(pair.row).is_none() => assert!(told.contains("comes-7a"), "{told}"),
        None => assert!(told.contains("comes-7b"), "{told}"),
    }
}

/// (rules comesall-ok-1, comesall-ok-2) After random sessions each pair of random lines has its sentence.
#[test]
fn values_are_told_as_the_model_has_them() {
    let mut counts = [0; 3];
    for (profile, seed) in PROFILES.into_iter().cycle().zip(0..24) {
        let mut input = session(seed, profile, 100);
        input.extend(b"\n");
        let mut model = Session::begin(&input);
        while model.step().is_some() {}
        let (t, mut rng) = (&model.tables, Rng::new(seed));
        let calls: Vec<Call> = (0..8).map(|_| comesall(&mut rng, t, false)).collect();
        input.extend(calls.iter().flat_map(Call::print));
        let text = printed(&["explain"], &input).expect("it runs");
        let explained = explained(&text);
        for (call, (answer, told)) in calls.iter().rev().zip(explained.iter().rev()) {
            let (pairs, values) = (call.pairs(), pair_values(t, call.pairs()));
            assert_eq!(
                format!("{answer}\n").into_bytes(),
                Answer::Values(values.clone()).print()
            );
            assert_eq!(told.len(), pairs.len(), "{told:?}");
            for (((pair, value), told), at) in pairs.iter().zip(values).zip(told).zip(1..) {
                let front = format!("Pair {at}, ({} {}): ", pair.row, pair.request);
                assert!(told.starts_with(&front), "{told}");
                is_right(t, *pair, value, told);
                counts[value.map_or(2, usize::from)] += 1;
            }
        }
    }
    assert!(counts.iter().all(|count| *count > 100), "{counts:?}");
}

/// The refusal of pairs, the place of the number that is its ground, and what is said.
fn refused(pairs: &[Pair], numbers: &[u32]) -> Option<(u32, usize, String)> {
    let odd = numbers.iter().position(|n| *n == 0 || *n > LAST_NUMBER);
    if let Some(at) = odd {
        let (which, pair) = (["row", "request"][at % 2], at / 2 + 1);
        let text = format!("the range of the {which} of pair {pair} is 1 to 4294967294");
        return Some((3, at, text));
    }
    let text = format!("{} pairs, at most 16 are allowed", pairs.len());
    (pairs.len() > PAIRS).then_some((6, 2 * PAIRS, text))
}

/// (rules F4, F7, T7) The first number out of range, else that of the first pair that is too much, is underlined.
#[test]
fn the_number_that_refuses_is_found() {
    let mut counts = BTreeMap::new();
    for seed in 0..200 {
        let t = tables(seed, SMALL[seed as usize % SMALL.len()], 20);
        let (words, records) = encode(&t).expect("tables that fit");
        let state = State::read(&words, &records).expect("words of tables");
        let call = comesall(&mut Rng::new(seed), &t, true);
        let (line, pairs) = (call.print(), call.pairs());
        if line.len() > LINE_BYTES + 1 {
            continue;
        }
        let numbers: Vec<u32> = pairs.iter().flat_map(|p| [p.row, p.request]).collect();
        let (refused, given) = (refused(pairs, &numbers), ground(&state, &line));
        *counts.entry(given.as_ref().map(|g| g.number)).or_insert(0) += 1;
        let (Some((number, at, text)), Some(given)) = (&refused, &given) else {
            assert!(refused.is_none() && given.is_none(), "{given:?}");
            continue;
        };
        assert_eq!((given.number, &given.text), (*number, text));
        assert_eq!(given.subject, numbers[*at]);
        let span = given.span.expect("a place in the line");
        let before = line[..span.from].split(|b| !b.is_ascii_digit());
        assert_eq!(before.filter(|digits| !digits.is_empty()).count(), *at);
        let underlined = String::from_utf8_lossy(&line[span.from..span.to]);
        assert_eq!(underlined, numbers[*at].to_string());
    }
    let enough = counts.values().all(|count| *count > 10);
    assert!(enough && counts.len() == 3, "{counts:?}");
}
