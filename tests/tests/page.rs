//! `tablet_page` on words of sound tables and on words of any content, in room of any size: against the model, and
//! against a formatting that is written here.

mod common;

use common::built::built;
use common::{altered, at_the_end, full, small, words};
use kernel::entry::{lines_from, page, LINE_BYTES};
use kernel::layout::{C_LIST, DEPTH, KIND, NUMBER, PLACE, RIGHTS, ROWS, SYSTEM, TABLES_WORDS};
use model::page as models;
use model::random::any_rows::any_rows;
use model::random::shifted::near_limit;
use model::random::Rng;
use model::tables::{Kind, Place, Row};
use model::Tables;
use std::collections::BTreeMap;

/// What stands in the lent bytes before.
const PAINT: u8 = 0xa5;

/// Bytes for every line, and some more.
const WHOLE: usize = ROWS * LINE_BYTES + 7;

/// A row's line, in plain Rust.
fn line(row: &Row) -> String {
    let kind = match row.kind {
        Kind::Operation => "op",
        Kind::Subdirectory => "dir",
        Kind::Client => "client",
        Kind::Server => "server",
    };
    let place = match row.place {
        Place::Node(n) => format!("node {n}"),
        Place::CList(p) => format!("proc {p}"),
        Place::System => "system".to_string(),
    };
    let (number, rights, depth) = (row.number, row.rights, row.depth);
    format!(
        "{number:>10} {kind:<6} {place:<8} {rights:>2} {depth:>2}{:32}\n",
        ""
    )
}

/// The lines from a row on that so many lent bytes have room for. The bytes after them stay, and so do the words.
fn written(t: &[u32], from: usize, room: usize) -> Vec<u8> {
    let (before, mut lent) = (t.to_vec(), vec![PAINT; room]);
    let count = lines_from(t, from, &mut lent);
    assert!(
        lent[count..].iter().all(|byte| *byte == PAINT),
        "from {from}, {room} bytes"
    );
    assert!(t == before, "words changed");
    lent.truncate(count);
    lent
}

/// The same as the model's.
fn agrees(t: &[u32], from: usize, room: usize) {
    let expected = models::lines_from(t, from, room);
    assert!(
        written(t, from, room) == expected,
        "from {from}, {room} bytes"
    );
}

/// How often each kind stood in each sort of place.
type Seen = BTreeMap<(u8, u8), u32>;

fn count(seen: &mut Seen, tables: &Tables) {
    for row in &tables.rows {
        let place = match row.place {
            Place::Node(_) => 0,
            Place::CList(_) => 1,
            Place::System => 2,
        };
        *seen.entry((row.kind as u8, place)).or_default() += 1;
    }
}

/// The page of sound tables: as here, as by the model, and line by line.
fn page_of(tables: &Tables) {
    let (t, _) = words(tables);
    let expected: String = tables.rows.iter().map(line).collect();
    assert!(
        written(&t, 0, WHOLE) == expected.as_bytes(),
        "{}",
        tables.print()
    );
    assert!(models::page(tables) == expected.as_bytes());
    for lines in [1, 3] {
        assert!(page(&t, lines) == expected.as_bytes(), "{lines} at a time");
    }
}

#[test]
fn pages_of_sessions() {
    let mut seen = Seen::new();
    for tables in small(400, 120).chain(at_the_end(100, 120)) {
        page_of(&tables);
        count(&mut seen, &tables);
    }
    // ends are in no node
    assert!(
        seen.len() == 10 && seen.values().all(|n| *n >= 20),
        "{seen:?}"
    );
}

/// Tables that no session made: sound ones against the formatting, all of them against the model.
#[test]
fn pages_of_altered_tables() {
    let mut rng = Rng::new(71);
    let mut unsound = 0;
    for _ in 0..60 {
        let (all, broken) = altered(&mut rng);
        all.iter().for_each(page_of);
        for (_, (t, _)) in broken {
            agrees(&t, 0, WHOLE);
            unsound += 1;
        }
    }
    assert!(unsound >= 900, "{unsound} unsound");
}

/// 1,024 rows, with numbers up to the last one, from each of them on.
#[test]
fn pages_of_full_tables() {
    for tables in full().iter().chain(&built()) {
        page_of(tables);
    }
    for tables in full() {
        let tables = near_limit(&tables, 0);
        page_of(&tables);
        let (t, _) = words(&tables);
        let lines: Vec<String> = tables.rows.iter().map(line).collect();
        for (from, line) in lines.iter().enumerate() {
            assert!(written(&t, from, LINE_BYTES) == line.as_bytes());
            let rest = written(&t, from, WHOLE);
            assert_eq!(rest.len(), (lines.len() - from) * LINE_BYTES);
        }
    }
}

/// Whole lines as far as there is room, for no byte to 200, and about the length of the page.
#[test]
fn room_of_every_size() {
    let tables = near_limit(&small(8, 120).last().expect("tables"), 0);
    let (rows, (t, _)) = (tables.rows.len(), words(&tables));
    let page: String = tables.rows.iter().map(line).collect();
    let about = (page.len() - 66..page.len() + 67).chain([WHOLE]);
    for room in (0..=200).chain(about) {
        for from in [
            0,
            1,
            2,
            rows - 1,
            rows,
            rows + 1,
            ROWS,
            TABLES_WORDS,
            usize::MAX,
        ] {
            let start = from.min(rows) * LINE_BYTES;
            let end = page.len().min(start + room / LINE_BYTES * LINE_BYTES);
            assert!(written(&t, from, room) == page.as_bytes()[start..end]);
            agrees(&t, from, room);
        }
    }
}

/// Words of which each is any number, and rows whose words are next to those that mean something.
#[test]
fn any_words() {
    let mut rng = Rng::new(72);
    let mut rows = 0;
    for round in 0..240 {
        let limit = [1, 2, 5, 40, 200, 1 << 32][round % 6];
        let t: Vec<u32> = match round % 2 {
            0 => (0..TABLES_WORDS)
                .map(|_| (rng.word() % limit) as u32)
                .collect(),
            _ => any_rows(&mut rng, round * 4),
        };
        let used = t[..ROWS].iter().take_while(|number| **number != 0).count();
        for from in [
            0,
            rng.below(used + 1),
            used.saturating_sub(1),
            used,
            usize::MAX,
        ] {
            agrees(&t, from, rng.below(700));
            agrees(&t, from, WHOLE);
        }
        rows += used;
    }
    assert!(rows >= 40_000, "{rows} rows");
}

/// The line of a row whose number is 7 and whose other words are 0 but for that column's.
fn with(column: usize, word: u32) -> String {
    let mut t = vec![0; TABLES_WORDS];
    t[NUMBER] = 7;
    t[column] = word;
    String::from_utf8(written(&t, 0, LINE_BYTES)).expect("letters, digits and spaces")
}

/// Columns from one to another, both counted from 1; all others are those of a row of number 7 and zeros.
fn columns(text: &str, first: usize, last: usize) -> &str {
    let rest = format!("{:>10}{:17} 0  0{:32}\n", 7, "", "");
    assert_eq!(text[..first - 1], rest[..first - 1]);
    assert_eq!(text[last..], rest[last..]);
    &text[first - 1..last]
}

/// Each of the five fields alone, with every code, with what is none, and with every count of digits.
#[test]
fn each_field() {
    for word in (0..=300).chain([1_000, 65_636, u32::MAX - 1, u32::MAX]) {
        let kind = match word {
            1 => "op    ",
            2 => "dir   ",
            3 => "client",
            4 => "server",
            _ => "      ",
        };
        assert_eq!(columns(&with(KIND, word), 12, 17), kind, "{word}");
        let place = match word {
            1..=32 => format!("node {word}"),
            101..=164 => format!("proc {}", word - C_LIST),
            SYSTEM => "system".to_string(),
            _ => String::new(),
        };
        assert_eq!(
            columns(&with(PLACE, word), 19, 26),
            format!("{place:<8}"),
            "{word}"
        );
        let two = match word {
            0..=99 => format!("{word:>2}"),
            _ => format!("{:02}", word % 100),
        };
        assert_eq!(columns(&with(RIGHTS, word), 28, 29), two, "{word}");
        assert_eq!(columns(&with(DEPTH, word), 31, 32), two, "{word}");
    }
    for digits in 0..10 {
        let least = 10_u32.pow(digits);
        let most = u64::from(least) * 10 - 1;
        for number in [least, least + 1, most.min(u64::from(u32::MAX)) as u32] {
            assert_eq!(
                columns(&with(NUMBER, number), 1, 10),
                format!("{number:>10}")
            );
        }
    }
}

/// A slot whose number is 0 ends the page, whatever stands in it and after it.
#[test]
fn rows_end_at_the_first_unused_slot() {
    let mut rng = Rng::new(73);
    let t: Vec<u32> = (0..TABLES_WORDS).map(|_| rng.word() as u32 | 1).collect();
    let whole = written(&t, 0, WHOLE);
    assert_eq!(whole.len(), ROWS * LINE_BYTES);
    for slot in 0..ROWS {
        let mut t = t.clone();
        t[NUMBER + slot] = 0;
        let page = written(&t, 0, WHOLE);
        assert!(page == whole[..slot * LINE_BYTES], "slot {slot}");
        assert!(written(&t, slot, WHOLE).is_empty() && written(&t, slot + 1, WHOLE).is_empty());
    }
}

/// Tables of another length have no page, and nothing is written.
#[test]
fn other_lengths() {
    let (t, _) = words(&full()[0]);
    let lengths = [
        0,
        1,
        ROWS,
        2 * ROWS,
        10 * ROWS,
        TABLES_WORDS - 1,
        TABLES_WORDS + 1,
    ];
    for length in lengths.into_iter().chain([2 * TABLES_WORDS]) {
        let mut other = t.clone();
        other.resize(length, 1);
        for from in [0, 1, ROWS - 1, ROWS, usize::MAX] {
            assert!(written(&other, from, WHOLE).is_empty(), "{length} words");
        }
    }
}
