//! Tables whose numbers are the last, of ten digits: they are listed, explained and drawn as others are.

mod common;

use model::random::lines::line;
use model::random::shifted::near_limit;
use model::random::{tables, Rng, SMALL};
use model::session::Session;
use model::words::encode;
use model::Tables;
use std::fs;
use std::path::PathBuf;
use tablet::Words;

/// The example session, and the calls before its revoke.
const SESSION: &[u8] = include_bytes!("../../../examples/session.in");
const CALLS: usize = 5;

/// What a command line prints.
fn printed(args: &[&str], input: &[u8]) -> String {
    common::printed(args, input).expect("it runs")
}

/// A file with the words of tables.
fn saved(name: &str, tables: &Tables) -> String {
    let (tables, processes) = encode(tables).expect("tables that fit");
    let at = PathBuf::from(env!("CARGO_TARGET_TMPDIR")).join(name);
    fs::write(&at, Words { tables, processes }.to_bytes()).expect("a file");
    at.display().to_string()
}

/// The tables of the example, raised so that no number is left: row 10 has the last.
fn example(name: &str) -> String {
    let mut session = Session::begin(SESSION);
    for _ in 0..CALLS {
        session.step().expect("a call");
    }
    saved(name, &near_limit(&session.tables, 0))
}

#[test]
fn ten_digits_are_listed() {
    let file = example("listed.words");
    let all = printed(&["list", "--tables", &file], b"");
    for told in [
        "  row 4294967292: operation 5 of manager 2, rights 3 (hold, transfer), \
         lent by process 1 to process 2 in request 4294967291, from 4294967288 and 4294967289\n",
        "  row 4294967294: server end of port 4294967293, \
         comes from what is lent in request 4294967291, from 4294967292\n",
        "  request 4294967291 on port 4294967289, asked by process 1, fetched, items 4294967292\n",
        "next number 4294967295\n",
    ] {
        assert!(all.contains(told), "{told} is not in\n{all}");
    }
    let json = printed(
        &[
            "list",
            "--json",
            "--server",
            "4294967290",
            "--tables",
            &file,
        ],
        b"",
    );
    let told = "\"request\":4294967291,\"port\":4294967289,\"asker\":1,\"fetched\":true,\"items\":[4294967292]";
    assert!(json.contains(told), "{json}");
}

#[test]
fn the_end_is_explained() {
    let file = example("explained.words");
    let lines =
        b"(1 hold 4294967285)\n(1 hold 4294967295)\n(1 hold 42949672950)\n(1 revoke 4294967291)\n\
          (comesall (4294967294 4294967291) (4294967288 4294967295))\n";
    let text = printed(&["explain", "--tables", &file], lines);
    for told in [
        "1: (1 hold 4294967285) -> (no 18)\n    Refusal 18, rule hold-18: 0 numbers are left, and 1 are wanted.\n",
        "2: (1 hold 4294967295) -> (no 3)\n           ^^^^^^^^^^\n    \
         Refusal 3, rule F4: the range of a row is 1 to 4294967294.\n",
        "3: (1 hold 42949672950) -> (no 3)\n           ^^^^^^^^^^^\n",
        "4: (1 revoke 4294967291) -> (ok 0)\n    Request 4294967291 of process 1 on port 4294967289 is closed.\n",
        "row 4294967294 (server end of port 4294967293) go, out of the c-list of process 2.\n",
        "                                             ^^^^^^^^^^\n    \
         Refusal 3, rule F4: the range of the request of pair 2 is 1 to 4294967294.\n",
    ] {
        assert!(text.contains(told), "{told} is not in\n{text}");
    }
}

/// The value of an attribute where the text first has it.
fn attribute(text: &str, name: &str) -> u32 {
    let (_, rest) = text
        .split_once(&format!(" {name}=\""))
        .expect("an attribute");
    let (value, _) = rest.split_once('"').expect("its end");
    value.parse().expect("a number")
}

/// What stands in an element, and where it begins.
fn words(text: &str) -> (u32, &str) {
    let (_, rest) = text.split_once('>').expect("an element");
    let (inside, _) = rest.split_once('<').expect("its end");
    (attribute(text, "x"), inside)
}

/// The pixels that letters and the digits of a card's number want at least.
const LETTER: usize = 7;
const DIGIT: usize = 10;

/// In each card the number, the words and the right side follow each other, and cards follow what is said of a lane.
fn fits(svg: &str) -> usize {
    let end = |(x, text): (u32, &str), wide: usize| x as usize + text.len() * wide;
    let lanes = svg.split("<text class=\"where\"").skip(1);
    let lanes = lanes
        .map(|text| end(words(text), LETTER))
        .max()
        .unwrap_or(0);
    let cards = svg.split("<g class=\"card").skip(1);
    cards
        .map(|card| {
            let (_, rect) = card.split_once("<rect").expect("a box");
            let (left, width) = (attribute(rect, "x"), attribute(rect, "width"));
            let texts: Vec<(u32, &str)> = rect.split("<text").skip(1).take(3).map(words).collect();
            assert!(lanes <= left as usize, "{lanes} in {card}");
            assert!(end(texts[0], DIGIT) < texts[1].0 as usize, "{card}");
            for text in &texts[1..] {
                assert!(end(*text, LETTER) <= (left + width) as usize, "{card}");
            }
        })
        .count()
}

#[test]
fn ten_digits_fit_their_cards() {
    let file = example("drawn.words");
    let svg = printed(&["draw", "--request", "4294967291", "--tables", &file], b"");
    assert_eq!(fits(&svg), 10);
    assert_eq!(svg.matches("marked\"><title>").count(), 4);
    let small = printed(
        &["draw", "--after", &CALLS.to_string(), "--request", "7"],
        SESSION,
    );
    assert_eq!(fits(&small), 10);
    assert_eq!(svg.lines().count(), small.lines().count());
    let dot = printed(&["draw", "--dot", "--tables", &file], b"");
    assert!(
        dot.contains("r4294967293 -> r4294967294 [dir=none"),
        "{dot}"
    );
}

/// Tables of random sessions, raised to the end: every command tells something, and every picture fits.
#[test]
fn random_tables_at_the_end() {
    let mut cards = 0;
    for seed in 0..30 {
        let profile = SMALL[seed as usize % SMALL.len()];
        let tables = near_limit(&tables(seed, profile, 60), seed as u32 % 4);
        let file = saved(&format!("random-{seed}.words"), &tables);
        let mut rng = Rng::new(seed);
        let lines: Vec<u8> = (0..6)
            .flat_map(|_| line(&mut rng, profile, &tables))
            .collect();
        for command in ["explain", "list", "page"] {
            assert!(!printed(&[command, "--tables", &file], &lines).is_empty());
        }
        cards += fits(&printed(&["draw", "--tables", &file], &lines));
        printed(&["draw", "--dot", "--tables", &file], &lines);
        for request in &tables.requests {
            let number = request.number.to_string();
            cards += fits(&printed(
                &["draw", "--request", &number, "--tables", &file],
                b"",
            ));
            let revoke = format!("({} revoke {number})", request.asker);
            let told = printed(&["what-if", &revoke, "--tables", &file], b"");
            assert!(
                told.contains(&format!("Request {number} of process")),
                "{told}"
            );
        }
    }
    assert!(cards >= 1_000, "{cards}");
}
