//! The holders' page: of sessions, of tables, and of words of any content.

mod common;

use common::after;
use model::cases;
use model::compare::full::with_rows;
use model::limits::ROWS;
use model::page::{lines_from, page, session_end, session_page, words_page, LINE, WIDTH};
use model::random::any_rows::any_rows;
use model::random::shifted::near_limit;
use model::random::{self, sound_state, Rng, PROFILES};
use model::tables::{Kind, Place, Row, Tables};
use model::words::{encode, TABLES_WORDS};
use std::collections::BTreeSet;

fn text(bytes: &[u8]) -> String {
    String::from_utf8_lossy(bytes).into_owned()
}

/// The page of these lines, each filled up with spaces.
fn sheet(lines: &[&str]) -> String {
    let lines = lines.iter().map(|line| format!("{line:<WIDTH$}\n"));
    lines.collect()
}

/// Columns from one to another, both included and counted from 1, without the spaces around them.
fn columns(line: &str, first: usize, last: usize) -> &str {
    line[first - 1..last].trim()
}

/// What a line says of a row, read back from its columns: number, kind, place, rights, depth.
fn read_back(line: &str) -> (u32, Kind, Place, u32, u32) {
    let number = |text: &str| text.parse::<u32>().unwrap();
    let kind = match columns(line, 12, 17) {
        "op" => Kind::Operation,
        "dir" => Kind::Subdirectory,
        "client" => Kind::Client,
        "server" => Kind::Server,
        other => panic!("'{other}' is no kind"),
    };
    let place = match columns(line, 19, 26).split_once(' ') {
        Some(("node", n)) => Place::Node(number(n)),
        Some(("proc", p)) => Place::CList(number(p)),
        _ if columns(line, 19, 26) == "system" => Place::System,
        other => panic!("{other:?} is no place"),
    };
    let field = |first: usize, last: usize| number(columns(line, first, last));
    (field(1, 10), kind, place, field(28, 29), field(31, 32))
}

fn shown(row: &Row) -> (u32, Kind, Place, u32, u32) {
    (row.number, row.kind, row.place, row.rights, row.depth)
}

/// The page has a line for each row, in order, with its five fields; between and after them spaces.
fn check(tables: &Tables) {
    let page = text(&page(tables));
    let lines: Vec<&str> = page.split_terminator('\n').collect();
    assert!(page.is_empty() || page.ends_with('\n'));
    assert_eq!(lines.len(), tables.rows.len());
    for (line, row) in lines.iter().zip(&tables.rows) {
        assert_eq!(line.len(), WIDTH, "'{line}'");
        assert_eq!(read_back(line), shown(row), "'{line}'");
        let bytes = line.as_bytes();
        let between = [11, 18, 27, 30].into_iter().chain(33..=WIDTH);
        let spaces = between.filter(|column| bytes[column - 1] == b' ');
        assert_eq!(spaces.count(), 4 + WIDTH - 32, "'{line}'");
        // Numbers end in the last of their columns, words begin in the first of theirs.
        for column in [10, 12, 19, 29, 32] {
            assert_ne!(bytes[column - 1], b' ', "'{line}'");
        }
    }
    if let Some((words, _)) = encode(tables) {
        assert_eq!(text(&words_page(&words)), page);
    }
}

#[test]
fn the_office() {
    let tables = after(
        "(node 1 (op 2 1 7) (dir 32 3))|(node 32 (op 64 1 1))|(process 1 1)|(process 2 1)|(process 64 32)|\
        (open)|(1 hold 1)|(1 port 4)|(1 port 4)|(1 ask 5 (7 0) (4 2))|(64 hold 3)|(64 hold 3)|(64 drop 11)",
    );
    let expected = sheet(&[
        "         1 op     node 1    7  1",
        "         2 dir    node 1    3  1",
        "         3 op     node 32   1  1",
        "         4 op     proc 1    7  2",
        "         5 client proc 1    0  3",
        "         6 server proc 2    0  3",
        "         7 client system    0  3",
        "         8 server proc 2    0  3",
        "        10 op     system    2  4",
        "        12 op     proc 64   1  2",
    ]);
    assert_eq!(text(&page(&tables)), expected);
    check(&tables);
}

/// The pages of conformance/, all of them.
#[test]
fn conformance_pages() {
    let cases = cases::of_pages().unwrap();
    assert_eq!(cases.len(), 26);
    let mut empty = 0;
    for case in cases {
        let (input, told) = (case.session().0, case.page.unwrap());
        assert_eq!(text(&session_page(&input)), text(&told), "{}", case.at);
        check(&session_end(&input));
        empty += usize::from(told.is_empty());
    }
    assert_eq!(empty, 5);
}

#[test]
fn refused_openings_and_no_rows() {
    for input in [
        "",
        "(open)",
        "(open)\n",
        "(open)\n(1 hold 1)\n",
        "(node 1 (op 1 0 7))\n(process 1 1)\n",
        "(node 1 (op 2 0 7))\n(process 1 1)\n(open)\n(1 hold 1)\n",
        "(node 1 (op 1 0 8))\n(process 1 1)\n(open)\n(1 hold 1)\n",
    ] {
        assert_eq!(session_page(input.as_bytes()), b"", "{input}");
    }
}

/// Random sessions, also with their numbers raised to the last; a last line without a line feed
/// changes nothing.
#[test]
fn pages_of_sessions() {
    let mut lines = 0;
    for (seed, profile) in (1..).zip(PROFILES.into_iter().cycle().take(24)) {
        let input = random::session(seed, profile, 60);
        let tables = session_end(&input);
        check(&tables);
        check(&near_limit(&tables, 0));
        assert_eq!(session_page(&input), page(&tables));
        let cut = [&input[..], b"(1 go 0)"].concat();
        assert_eq!(session_page(&cut), page(&tables));
        lines += tables.rows.len();
    }
    assert!(lines >= 400, "{lines} lines");
}

/// Sound tables that no session made: each kind, each sort of place, rights, depths and digits are seen.
#[test]
fn pages_of_sound_tables() {
    let mut rng = Rng::new(111);
    let mut seen = BTreeSet::new();
    for _ in 0..300 {
        let tables = sound_state(&mut rng);
        check(&tables);
        for row in &tables.rows {
            seen.insert(format!("{:?} in {:?}", row.kind, place_sort(row.place)));
            seen.insert(format!("rights {}", row.rights));
            seen.insert(format!("depth {}", row.depth));
            seen.insert(format!("digits {}", row.number.ilog10() + 1));
        }
    }
    for told in [
        "rights 0", "rights 7", "depth 1", "depth 9", "depth 10", "depth 12", "digits 1",
    ] {
        assert!(seen.contains(told), "{told} is not seen");
    }
    for kind in ["Operation", "Subdirectory", "Client", "Server"] {
        for sort in ["process", "system"] {
            assert!(seen.iter().any(|s| s.starts_with(kind) && s.contains(sort)));
        }
    }
}

fn place_sort(place: Place) -> &'static str {
    match place {
        Place::Node(_) => "node",
        Place::CList(_) => "process",
        Place::System => "system",
    }
}

#[test]
fn a_full_page() {
    let tables = with_rows(ROWS);
    check(&tables);
    assert_eq!(page(&tables).len(), ROWS * LINE);
    let (words, _) = encode(&tables).unwrap();
    assert_eq!(words_page(&words), page(&tables));
    assert_eq!(lines_from(&words, ROWS - 1, LINE).len(), LINE);
    assert_eq!(lines_from(&words, ROWS, LINE), b"");
    assert_eq!(lines_from(&words, usize::MAX, LINE), b"");
}

/// Words that are not sound: codes that are none, numbers of more digits than columns.
#[test]
fn any_words() {
    let mut words = vec![0; TABLES_WORDS];
    let rows: [[u32; 5]; 6] = [
        [4294967295, 0, 0, 99, 100],
        [1, 1, 33, 100, 99],
        [7, 2, 100, 4294967295, 4294967294],
        [7, 3, 165, 8, 13],
        [2, 4, 201, 0, 0],
        [3, 5, 199, 1, 1],
    ];
    for (slot, row) in rows.into_iter().enumerate() {
        for (column, word) in [0, 1, 5, 4, 8].into_iter().zip(row) {
            words[column * ROWS + slot] = word;
        }
    }
    words[7] = 5;
    let expected = sheet(&[
        "4294967295                 99 00",
        "         1 op              00 99",
        "         7 dir             95 94",
        "         7 client           8 13",
        "         2 server           0  0",
        "         3                  1  1",
    ]);
    assert_eq!(text(&words_page(&words)), expected);
}

/// Whole lines from a row on, as many as have room; one call after the other gives the page.
#[test]
fn lines_from_a_row_on() {
    let mut rng = Rng::new(7);
    for used in (0..40).chain([ROWS - 1, ROWS]) {
        let words = any_rows(&mut rng, used);
        let page = words_page(&words);
        assert_eq!(page.len(), used * LINE);
        for room in [0, LINE - 1, LINE, LINE + 1, 3 * LINE - 1, 5 * LINE] {
            let from = rng.below(used + 2);
            let lines = lines_from(&words, from, room);
            let count = (room / LINE).min(used.saturating_sub(from));
            assert_eq!(lines.len(), count * LINE);
            let start = (from * LINE).min(page.len());
            assert!(page[start..].starts_with(&lines));
        }
        for length in [0, 1, TABLES_WORDS - 1, TABLES_WORDS + 1] {
            let mut other = words.clone();
            other.resize(length, 1);
            assert_eq!(words_page(&other), b"");
        }
    }
}
