//! What the entry points are given: damaged texts, any bytes, altered tables,
//! random words, runs of other lengths.

use super::entries::Entry;
use super::{small, words, Lent};
use kernel::entry::REPLY_BYTES;
use model::call::WORDS;
use model::compare::conformance::{conformance_calls, conformance_inputs};
use model::compare::limits::{crowded, stretched};
use model::form::split_lines;
use model::limits::LAST_NUMBER;
use model::random::aimed::{aimed, AIMS};
use model::random::alter::{alter, alter_gently};
use model::random::damage::damage;
use model::random::{lines, openings, Profile, Rng, PROFILES, SMALL};
use model::session::open;
use model::words::{encode, PROCESS_WORDS, TABLES_WORDS};
use model::Tables;
use std::fs;
use std::path::Path;

fn any_profile(rng: &mut Rng) -> Profile {
    rng.pick(&SMALL).unwrap_or(Profile::Tiny)
}

fn random_words(rng: &mut Rng, count: usize, limit: u64) -> Vec<u32> {
    (0..count).map(|_| (rng.word() % limit) as u32).collect()
}

/// Words that were used before, or any.
fn used_words(rng: &mut Rng) -> Lent {
    match rng.percent(90) {
        true => (vec![7; TABLES_WORDS], vec![7; PROCESS_WORDS]),
        false => (
            random_words(rng, TABLES_WORDS, 1 << 32),
            random_words(rng, PROCESS_WORDS, 1 << 32),
        ),
    }
}

/// Opening texts of all profiles as they are, and changed in many ways.
pub fn openings(entry: &Entry, rng: &mut Rng, count: usize) {
    for at in 0..count {
        let text = openings::opening(rng, PROFILES[at % PROFILES.len()]);
        let text = match at % 8 {
            0 => text,
            1 => stretched(rng, &text),
            2 => crowded(rng, &text),
            3 | 4 => without_a_line(rng, &text),
            5 => [text.clone(), any_bytes(rng)].concat(),
            _ => damage(rng, &text),
        };
        entry.opens_as_model(&used_words(rng), &text);
    }
    for _ in 0..count / 4 {
        let text = any_bytes(rng);
        entry.opens_as_model(&used_words(rng), &text);
    }
}

/// The text without one of its lines, so that what it gives may be missing.
fn without_a_line(rng: &mut Rng, text: &[u8]) -> Vec<u8> {
    let mut lines: Vec<&[u8]> = split_lines(text).collect();
    lines.remove(rng.below(lines.len()));
    lines.concat()
}

/// Bytes of any sort and length, many near the limits of a line.
pub fn any_bytes(rng: &mut Rng) -> Vec<u8> {
    let length = rng.pick(&[0, 1, 2, 9, 30, 254, 255, 256, 257, 10_000]);
    let length = length.unwrap_or(0);
    let byte = |rng: &mut Rng| rng.word() as u8;
    let near = |rng: &mut Rng| rng.pick(b"() 0123456789askgo\n\0").unwrap_or(0);
    let way = rng.below(4);
    let mut bytes: Vec<u8> = (0..length)
        .map(|_| match way {
            0 => byte(rng),
            1 => near(rng),
            2 => b'1',
            _ => 0,
        })
        .collect();
    if rng.percent(50) {
        bytes.push(b'\n');
    }
    bytes
}

/// A call line that has so many bytes before its line feed, by the digits of
/// a number, of answer its last or not, of chain the only one, of comesall its
/// last or not, or by its items.
fn long_line(rng: &mut Rng, bytes: usize) -> Vec<u8> {
    let (_, word) = rng.pick(&WORDS).expect("a word");
    let (start, end) = match rng.below(10) {
        0..=2 => (format!("(1 {} ", word.text()), ")\n"),
        3 => ("(1 answer 3 ".to_string(), ")\n"),
        4 => ("(1 answer ".to_string(), " 1)\n"),
        5 => ("(chain ".to_string(), ")\n"),
        6 => ("(comesall (3 9) (4 ".to_string(), "))\n"),
        7 => (format!("(comesall{} (", " (3 9)".repeat(16)), " 9))\n"),
        _ => (
            "(1 ask 3 (1 1) (2 1) (3 1) (4 1) (5 1) (6 1) (".to_string(),
            " 7))\n",
        ),
    };
    let digits = bytes + 1 - start.len() - end.len();
    (start + &"7".repeat(digits) + end).into_bytes()
}

/// Lines of any bytes on sound tables.
pub fn any_lines(entry: &Entry, rng: &mut Rng, count: usize) {
    for tables in small(count as u64 / 40, 60) {
        let lent = words(&tables);
        for way in 0..40 {
            let profile = any_profile(rng);
            let line = lines::line(rng, profile, &tables);
            let line = match way % 8 {
                0 => any_bytes(rng),
                1 => long_line(rng, 253 + way / 8),
                2 => [&line[..], &line[..]].concat(),
                3 => line[..line.len().saturating_sub(1)].to_vec(),
                4 if way < 20 => many_items(rng, &tables),
                4 => many_pairs(rng, &tables),
                _ => damage(rng, &line),
            };
            entry.calls_as_model(&lent, &line);
        }
    }
}

/// An ask of any process with five to forty items, some of them twice or out of range.
fn many_items(rng: &mut Rng, tables: &Tables) -> Vec<u8> {
    let count = rng.between(5, 40);
    let caller = rng.pick(&[1, 1, 2, 64, 65, 0]).expect("a caller");
    let mut line = format!("({caller} ask {}", rng.between(1, tables.next));
    for row in 1..=count {
        let row = match rng.below(60) {
            0 => 1,
            1 => 0,
            2 => LAST_NUMBER + 1,
            _ => row,
        };
        line += &format!(" ({row} 7)");
    }
    cut(line)
}

/// A comesall of 14 to 40 pairs, as many as there is room for, some of them out of range.
fn many_pairs(rng: &mut Rng, tables: &Tables) -> Vec<u8> {
    let mut line = "(comesall".to_string();
    for _ in 0..rng.between(14, 40) {
        let row = rng.between(1, tables.next);
        let request = match rng.below(60) {
            0 => 0,
            1 => LAST_NUMBER + 1,
            _ => rng.between(1, tables.next),
        };
        line += &format!(" ({row} {request})");
    }
    cut(line)
}

/// Without what is too long for a line, and ended.
fn cut(mut line: String) -> Vec<u8> {
    line.truncate(253);
    let whole = line.rfind(" (").unwrap_or(line.len());
    line.truncate(whole);
    (line + ")\n").into_bytes()
}

/// Call lines on tables that are altered, aimed at each clause or not, and on words.
pub fn altered_tables(entry: &Entry, rng: &mut Rng, count: usize) {
    for tables in small(count as u64 / 40, 90) {
        let lent = words(&tables);
        let profile = any_profile(rng);
        let line = lines::line(rng, profile, &tables);
        for (clause, _) in AIMS {
            let other = aimed(rng, &tables, clause);
            if let Some(lent) = other.and_then(|other| encode(&other)) {
                entry.calls_as_model(&lent, &line);
            }
        }
        for other in [alter(rng, &tables), alter_gently(rng, &tables)] {
            if let Some(lent) = encode(&other) {
                entry.calls_as_model(&lent, &lines::line(rng, profile, &other));
            }
        }
        for _ in 0..12 {
            let mut changed = lent.clone();
            changed.0[rng.below(10) * 1024 + rng.below(tables.rows.len() + 1)] ^= 1 << rng.below(8);
            entry.calls_as_model(&changed, &line);
            let mut changed = lent.clone();
            changed.1[rng.below(PROCESS_WORDS)] = rng.between(0, 40);
            entry.calls_as_model(&changed, &line);
        }
    }
}

/// Random words, on which any line is answered with 1.
pub fn any_words(entry: &Entry, rng: &mut Rng, count: usize) {
    for _ in 0..count {
        let limit = rng.pick(&[1, 2, 5, 40, 200, 1 << 32]).unwrap_or(1);
        let tables = random_words(rng, TABLES_WORDS, limit);
        let processes = random_words(rng, PROCESS_WORDS, limit.min(33));
        let line = any_bytes(rng);
        entry.calls_as_model(&(tables, processes), &line);
    }
}

/// Runs of every wrong length beside a right one and a wrong one, and swapped.
pub fn wrong_lengths(entry: &Entry, rng: &mut Rng) {
    let lengths = |right: usize| [0, 1, right - 1, right, right + 1, 2 * right];
    for tables in small(20, 60) {
        let lent = words(&tables);
        let text = openings::opening(rng, Profile::Loans);
        for t in lengths(TABLES_WORDS) {
            for p in lengths(PROCESS_WORDS) {
                let mut cut = lent.clone();
                cut.0.resize(t, 0);
                cut.1.resize(p, 0);
                for line in [lines::line(rng, Profile::Loans, &tables), any_bytes(rng)] {
                    entry.calls_as_model(&cut, &line);
                }
                entry.opens_as_model(&cut, &text);
            }
        }
        let swapped = (lent.1.clone(), lent.0.clone());
        entry.calls_as_model(&swapped, &lines::line(rng, Profile::Loans, &tables));
        entry.opens_as_model(&swapped, &text);
    }
}

/// A lent reply of fewer bytes: nothing is touched, 0 answered. More are left as they are.
pub fn lent_replies(entry: &Entry) {
    let tables = small(2, 60).last().expect("tables");
    let lent = words(&tables);
    let text = b"(node 1 (op 1 0 7))\n(process 1 1)\n(open)\n";
    for (point, bytes) in [(entry.open, &text[..]), (entry.call, b"(1 go 0)\n")] {
        for length in [
            0,
            1,
            7,
            8,
            REPLY_BYTES - 1,
            REPLY_BYTES,
            REPLY_BYTES + 1,
            10_000,
        ] {
            let mut after = lent.clone();
            let mut reply = vec![0xa5; length];
            let said = point(&mut after.0, &mut after.1, bytes, &mut reply);
            let (front, rest) = reply.split_at(said);
            assert!(rest.iter().all(|byte| *byte == 0xa5), "{length} bytes");
            match length < REPLY_BYTES {
                true => assert!(after == lent && said == 0, "{length} bytes"),
                false => assert_eq!(front, b"(ok 0)\n", "{length} bytes"),
            }
        }
    }
}

/// All conformance cases: what a session prints, what a call answers and leaves.
pub fn conformance(entry: &Entry) {
    let sessions = conformance_inputs(usize::MAX).expect("the sessions");
    assert_eq!(sessions.len(), 184);
    for (name, input) in sessions {
        let mut lent = (vec![3; TABLES_WORDS], vec![3; PROCESS_WORDS]);
        let mut printed = entry.open(&mut lent, &input);
        let (_, answer, read) = open(&input);
        let calls = if answer.accepted() {
            &input[read..]
        } else {
            &[]
        };
        for line in split_lines(calls) {
            printed.extend(entry.call(&mut lent, line));
        }
        assert!(printed == case_file(&name, "answers"), "{name}");
    }
    let calls = conformance_calls().expect("the tables");
    assert_eq!(calls.len(), 444);
    let mut compared = 0;
    for (name, tables, line) in calls {
        let Some(mut lent) = encode(&tables) else {
            continue;
        };
        entry.calls_as_model(&lent, &line);
        let said = entry.call(&mut lent, &line);
        let after = case_file(&format!("conformance/tables/{name}"), "after");
        assert!(after.starts_with(&said), "{name}");
        compared += 1;
    }
    assert_eq!(compared, 436, "tables that fit into words");
}

/// The file beside a case with that ending.
fn case_file(name: &str, ending: &str) -> Vec<u8> {
    let model = Path::new(env!("CARGO_MANIFEST_DIR")).join("../model");
    let path = model.join(name).with_extension(ending);
    fs::read(&path).unwrap_or_else(|error| panic!("{path:?}: {error}"))
}
