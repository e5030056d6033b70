//! The call comesall and the pass under it, proved and in plain Rust: the marks of every row for
//! sixteen requests, the value of each pair beside that of the single question, the place of each
//! value, how many pairs there may be, and that no word of both runs changes.

mod common;

use common::built::built;
use common::entries::{answer, entries, refuse, shown, Entry};
use common::performed::{Perform, UNSAID};
use common::{altered, at_the_end, full, small, words, Lent};
use kernel::call_words::{answer_words, call_words};
use kernel::layout::{LAST_NUMBER, PAIRS, REQUEST, ROWS, SOURCE, TABLES_WORDS, VIA};
use kernel::plain::closing_tables::{call, opened};
use kernel::{performing, plain, reading, PairMarks};
use model::call::{Call, Pair};
use model::random::pairs::comesall;
use model::random::Rng;
use model::relations::rows_from;
use model::session::call_sound;
use model::Tables;
use std::collections::BTreeSet;

type Question = fn(&[u32], &[u32; PAIRS], &mut PairMarks);

const QUESTIONS: [Question; 2] = [reading::mark_pairs, plain::questions::mark_pairs];
const CALLS: [Perform; 2] = [performing::perform, plain::calls::perform];

/// What stands in the marks before the question.
const PAINT: u16 = 0xa5a5;

/// How often each value was told: no, yes, none; and how many calls had so many pairs.
#[derive(Default, Debug)]
struct Seen {
    values: [u32; 3],
    pairs: [u32; PAIRS + 1],
}

impl Seen {
    fn check(&self, least: u32) {
        let counts = self.values.iter().chain(&self.pairs[1..]);
        assert!(counts.copied().all(|count| count >= least), "{self:?}");
    }
}

/// Sixteen requests that are open, closed or never were, some of them twice.
fn any_requests(rng: &mut Rng, tables: &Tables) -> [u32; PAIRS] {
    let open: Vec<u32> = tables.requests.iter().map(|q| q.number).collect();
    std::array::from_fn(|_| match rng.below(8) {
        0 => rng.between(1, tables.next.min(LAST_NUMBER)),
        1 => rng.pick(&[1, LAST_NUMBER, u32::MAX]).unwrap_or(1),
        _ => rng.pick(&open).unwrap_or(1),
    })
}

/// Every bit of the marks, of every row; those of no row are 0. How many are marked.
fn marks_agree(tables: &Tables, t: &[u32], requests: &[u32; PAIRS]) -> usize {
    let from = requests.map(|request| rows_from(tables, &BTreeSet::from([request])));
    let of_row = |number: u32| {
        let bits = from.iter().enumerate();
        bits.fold(0, |bits, (k, rows)| {
            bits | u16::from(rows.contains(&number)) << k
        })
    };
    let mut expected = [0; ROWS + 1];
    for (slot, row) in tables.rows.iter().enumerate() {
        expected[slot + 1] = of_row(row.number);
    }
    for question in QUESTIONS {
        let mut marks = [PAINT; ROWS + 1];
        question(t, requests, &mut marks);
        assert!(marks == expected, "{requests:?} on\n{}", tables.print());
    }
    expected.iter().filter(|mark| **mark != 0).count()
}

#[test]
fn marks_of_sessions() {
    let mut rng = Rng::new(61);
    let mut marked = 0;
    for tables in small(400, 120).chain(at_the_end(100, 120)) {
        let (t, _) = words(&tables);
        for _ in 0..4 {
            marked += marks_agree(&tables, &t, &any_requests(&mut rng, &tables));
        }
    }
    assert!(marked >= 8_000, "{marked}");
}

#[test]
fn marks_of_full_tables() {
    let mut rng = Rng::new(62);
    let mut marked = 0;
    for tables in full().iter().chain(&built()) {
        let (t, _) = words(tables);
        for _ in 0..8 {
            marked += marks_agree(tables, &t, &any_requests(&mut rng, tables));
        }
    }
    assert!(marked >= 2_000, "{marked}");
}

/// The value of a pair as the single question on the same words tells it.
fn single(entry: &Entry, lent: &Lent, pair: &Pair) -> &'static str {
    let line = format!("(comes {} {})\n", pair.row, pair.request);
    match entry.call(&mut lent.clone(), line.as_bytes()).as_slice() {
        b"(ok 0)\n" => " 0",
        b"(ok 1)\n" => " 1",
        b"(no 7)\n" => " -",
        reply => panic!("{line}: {}", shown(reply)),
    }
}

/// The pairs in words and on a line, as the model answers them and as the single questions do.
fn pairs_agree(tables: &Tables, lent: &Lent, pairs: &[Pair], seen: &mut Seen) {
    let pairs = pairs.to_vec();
    let (call, mut after) = (Call::ComesAll { pairs }, tables.clone());
    let said = call_sound(&mut after, &call.print());
    assert!(after == *tables);
    let asked = call_words(&call).expect("a call");
    for perform in CALLS {
        let (mut after, mut words) = (lent.clone(), UNSAID);
        perform(&mut after.0, &mut after.1, &asked, &mut words);
        assert_eq!(words, answer_words(tables, &call, &said), "{call:?}");
        assert!(after == *lent, "words changed by {call:?}");
    }
    let entries = entries();
    let values = call.pairs().iter().map(|p| single(&entries[0], lent, p));
    let values: Vec<&str> = values.collect();
    let expected = format!("(ok{})\n", values.concat());
    assert_eq!(shown(&said.print()), expected);
    answer(&entries, lent, &call.print(), expected.as_bytes());
    for value in values {
        let at = [" 0", " 1", " -"].iter().position(|of| *of == value);
        seen.values[at.expect("a value")] += 1;
    }
    seen.pairs[call.pairs().len()] += 1;
}

fn agrees(rng: &mut Rng, tables: &Tables, calls: usize, seen: &mut Seen) {
    let lent = words(tables);
    for _ in 0..calls {
        let call = comesall(rng, tables, false);
        pairs_agree(tables, &lent, call.pairs(), seen);
    }
}

#[test]
fn pairs_of_sessions() {
    let (mut rng, mut seen) = (Rng::new(63), Seen::default());
    for tables in small(240, 120).chain(at_the_end(40, 120)) {
        agrees(&mut rng, &tables, 4, &mut seen);
    }
    seen.check(20);
}

/// A request that the row comes from, half the time, or any.
fn some_request(rng: &mut Rng, from: &[(u32, BTreeSet<u32>)], row: u32, any: u32) -> u32 {
    let coming = from.iter().filter(|(_, rows)| rows.contains(&row));
    let coming: Vec<u32> = coming.map(|(request, _)| *request).collect();
    match rng.percent(50) {
        true => rng.pick(&coming).unwrap_or(any),
        false => any,
    }
}

/// Every row of full tables, sixteen at a time, each with a request of its own.
#[test]
fn pairs_of_full_tables() {
    let (mut rng, mut seen) = (Rng::new(64), Seen::default());
    for tables in full().iter().chain(&built()) {
        let lent = words(tables);
        let requests = tables.requests.iter().map(|q| q.number);
        let from = requests.map(|q| (q, rows_from(tables, &BTreeSet::from([q]))));
        let from: Vec<_> = from.collect();
        for rows in tables.rows.chunks(PAIRS) {
            let requests = any_requests(&mut rng, tables).map(|q| q.min(LAST_NUMBER));
            let pairs = rows.iter().map(|r| r.number).zip(requests);
            let pairs = pairs.map(|(row, any)| Pair {
                row,
                request: some_request(&mut rng, &from, row, any),
            });
            pairs_agree(tables, &lent, &pairs.collect::<Vec<_>>(), &mut seen);
        }
    }
    assert!(seen.values.iter().sum::<u32>() >= 8 * 1024, "{seen:?}");
    assert!(seen.values.iter().all(|count| *count >= 400), "{seen:?}");
}

/// Sound tables that no session made, and what is changed in them: where they stay sound, the
/// values, else 1.
#[test]
fn pairs_of_altered_tables() {
    let (mut rng, mut seen) = (Rng::new(65), Seen::default());
    let mut unsound = 0;
    for _ in 0..100 {
        let (all, broken) = altered(&mut rng);
        for tables in &all {
            agrees(&mut rng, tables, 3, &mut seen);
        }
        for (_, lent) in broken {
            let line = comesall(&mut rng, &all[0], true).print();
            answer(&entries(), &lent, &line, b"(no 1)\n");
            unsound += 1;
        }
    }
    assert!(unsound >= 1_500, "{unsound} unsound");
    seen.check(5);
}

/// Where each value stands: the pairs turned by any number of places, and with one of them replaced
/// by one of which comes is 7.
#[test]
fn values_stand_in_the_places_of_their_pairs() {
    let tables = lent_through();
    let lent = words(&tables);
    let values: [(u32, u32, &str); PAIRS] = std::array::from_fn(|k| match k % 5 {
        0 => (8, 7, " 1"),
        1 => (1, 7, " 0"),
        2 => (9, 7, " 1"),
        3 => (3, 7, " 0"),
        _ => (10, 7, " 0"),
    });
    for turn in 0..PAIRS {
        for gone in 0..=PAIRS {
            let mut turned = values;
            turned.rotate_left(turn);
            if let Some(value) = turned.get_mut(gone) {
                *value = (8, 6, " -");
            }
            let pairs = turned.map(|(e, q, _)| format!(" ({e} {q})")).concat();
            let told = turned.map(|(_, _, value)| value).concat();
            let (line, reply) = (format!("(comesall{pairs})\n"), format!("(ok{told})\n"));
            answer(&entries(), &lent, line.as_bytes(), reply.as_bytes());
        }
    }
}

/// By request 7 row 4, a subdirectory, is lent as row 8; 9 is held through it, its second source;
/// 10 is held without it.
fn lent_through() -> Tables {
    let opening = "(node 1 (op 2 0 7) (dir 1 7))\n(process 1 1)\n(process 2 1)\n(open)\n";
    let mut tables = opened(opening);
    for line in ["(1 hold 1)", "(1 hold 2)", "(1 port 3)", "(1 ask 5 (4 7))"] {
        call(&mut tables, line);
    }
    for line in ["(2 fetch 6)", "(2 go 8)", "(2 hold 1)", "(1 hold 1)"] {
        call(&mut tables, line);
    }
    tables
}

#[test]
fn second_sources_are_followed() {
    let lent = words(&lent_through());
    let marks = [lent.0[REQUEST + 6], lent.0[REQUEST + 7]];
    assert_eq!((marks, lent.0[SOURCE + 7], lent.0[VIA + 7]), ([7, 0], 1, 7));
    let line = b"(comesall (8 7) (9 7) (10 7) (4 7) (1 7))\n";
    answer(&entries(), &lent, line, b"(ok 1 1 0 0 0)\n");
}

/// One pair to sixteen are answered, more are 6; a number out of range is 3, wherever it stands.
#[test]
fn how_many_pairs() {
    let lent = words(&lent_through());
    for count in 1..=40 {
        let line = format!("(comesall{})\n", " (8 7)".repeat(count));
        let reply = match count <= PAIRS {
            true => format!("(ok{})\n", " 1".repeat(count)),
            false => "(no 6)\n".to_string(),
        };
        answer(&entries(), &lent, line.as_bytes(), reply.as_bytes());
        for at in 0..count {
            for odd in [" (0 7)", " (8 0)"] {
                let mut pairs = vec![" (8 7)"; count];
                pairs[at] = odd;
                refuse(&lent, 3, &[&format!("(comesall{})", pairs.concat())]);
            }
        }
    }
    refuse(&lent, 2, &["(comesall)", "(1 comesall (8 7))"]);
}

/// Sixteen pairs on a line that is full, and on one of a byte more.
#[test]
fn the_longest_lines() {
    let lent = words(&lent_through());
    let pairs = format!(" ({LAST_NUMBER} 7)").repeat(PAIRS - 1);
    let line = |last: &str| format!("(comesall{pairs} ({last}))\n");
    let (full, longer) = (line("4294967294 429496"), line("4294967294 4294967"));
    assert_eq!((full.len(), longer.len()), (256, 257));
    let told = format!("(ok{})\n", " -".repeat(PAIRS));
    answer(&entries(), &lent, full.as_bytes(), told.as_bytes());
    answer(&entries(), &lent, longer.as_bytes(), b"(no 2)\n");
    let digits = "7".repeat(15);
    refuse(&lent, 3, &[line(&format!("8 {digits}")).trim_end()]);
    refuse(&lent, 2, &[line(&format!("8 {digits}7")).trim_end()]);
}

/// On words that are no tables the pass ends; where they have another length nothing is written.
#[test]
fn any_words_and_other_lengths() {
    let mut rng = Rng::new(66);
    for limit in [2, 40, 1_024, 1_025, 1_100, u64::from(u32::MAX)] {
        let word = |_| (rng.word() % limit) as u32;
        let t: Vec<u32> = (0..TABLES_WORDS).map(word).collect();
        let requests = std::array::from_fn(|k| k as u32);
        let mut marks = [PAINT; ROWS + 1];
        reading::mark_pairs(&t, &requests, &mut marks);
        assert_eq!(marks[0], 0);
    }
    let (t, _) = words(&full()[2]);
    let longer = [&t[..], &[0]].concat();
    for t in [&[][..], &t[..1], &t[..TABLES_WORDS - 1], &longer] {
        for question in QUESTIONS {
            let mut marks = [PAINT; ROWS + 1];
            question(t, &[1; PAIRS], &mut marks);
            assert!(marks == [PAINT; ROWS + 1]);
        }
    }
}
