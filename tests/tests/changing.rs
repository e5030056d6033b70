//! Changes in place: every word after, against the model's tables with the
//! same change.

mod common;

use common::{full, small, words};
use kernel::changing::*;
use model::limits::{ITEMS, NODES, PROCESSES, REQUESTS, ROWS};
use model::random::Rng;
use model::relations::least_set;
use model::tables::{Kind, Place, Request, Row};
use model::words::{place_word, request_words, row_words, TABLES_WORDS};
use model::Tables;

/// A change of tables, made by the model and by the proved function on its words;
/// none if the tables have nothing to change in this way.
type Change = fn(&mut Rng, &mut Tables, &mut [u32]) -> Option<()>;

const CHANGES: [(&str, Change); 8] = [
    ("place", place_set),
    ("row", row_appended),
    ("request", request_appended),
    ("item", item_cleared),
    ("fetched", fetched_set),
    ("next", next_set),
    ("rows removed", rows_removed),
    ("requests removed", requests_removed),
];

/// A slot among so many, often the first or the last; none if there is none.
fn one_of(rng: &mut Rng, count: usize) -> Option<usize> {
    let last = count.checked_sub(1)?;
    let any = rng.below(count);
    rng.pick(&[0, last, any, any])
}

fn any_place(rng: &mut Rng) -> Place {
    match rng.below(5) {
        0 | 1 => Place::Node(rng.between(1, NODES)),
        2 | 3 => Place::CList(rng.between(1, PROCESSES)),
        _ => Place::System,
    }
}

fn place_set(rng: &mut Rng, t: &mut Tables, lent: &mut [u32]) -> Option<()> {
    let slot = one_of(rng, t.rows.len())?;
    let place = any_place(rng);
    t.set_place(t.rows[slot].number, place);
    set_place(lent, slot, place_word(place)?);
    Some(())
}

/// The number of a row that stands, or 0.
fn any_source(rng: &mut Rng, t: &Tables) -> u32 {
    let numbers: Vec<u32> = t.rows.iter().map(|r| r.number).collect();
    let number = rng.pick(&numbers).unwrap_or(0);
    [0, number, number][rng.below(3)]
}

fn any_row(rng: &mut Rng, t: &Tables) -> Row {
    use Kind::{Client, Operation, Server, Subdirectory};
    let kinds = [Operation, Subdirectory, Client, Server];
    Row {
        number: t.next,
        kind: kinds[rng.below(4)],
        object: rng.word() as u32,
        operation: rng.word() as u32,
        rights: rng.word() as u32,
        place: any_place(rng),
        source: any_source(rng, t),
        via: any_source(rng, t),
        depth: rng.word() as u32,
        request: rng.word() as u32,
    }
}

fn row_appended(rng: &mut Rng, t: &mut Tables, lent: &mut [u32]) -> Option<()> {
    let count = t.rows.len();
    let row = any_row(rng, t);
    if count == ROWS {
        return None;
    }
    append_row(lent, count, &row_words(t, &row)?);
    t.rows.push(row);
    next_by(rng, t, lent);
    Some(())
}

/// The next number grows, so that the number used is not used again.
fn next_by(rng: &mut Rng, t: &mut Tables, lent: &mut [u32]) {
    t.next += rng.between(1, 5);
    set_next(lent, t.next);
}

fn request_appended(rng: &mut Rng, t: &mut Tables, lent: &mut [u32]) -> Option<()> {
    let count = t.requests.len();
    let mut item = || (rng.below(3) > 0).then(|| rng.between(1, u32::MAX - 1));
    let items = [item(), item(), item(), item()];
    let request = Request {
        number: t.next,
        port: rng.word() as u32,
        asker: rng.word() as u32,
        fetched: rng.word() as u32,
        items,
    };
    if count == REQUESTS {
        return None;
    }
    append_request(lent, count, &request_words(&request)?);
    t.requests.push(request);
    next_by(rng, t, lent);
    Some(())
}

fn item_cleared(rng: &mut Rng, t: &mut Tables, lent: &mut [u32]) -> Option<()> {
    let slot = one_of(rng, t.requests.len())?;
    let item = rng.below(ITEMS);
    t.requests[slot].items[item] = None;
    clear_item(lent, slot, item);
    Some(())
}

fn fetched_set(rng: &mut Rng, t: &mut Tables, lent: &mut [u32]) -> Option<()> {
    let slot = one_of(rng, t.requests.len())?;
    t.requests[slot].fetched = 1;
    set_fetched(lent, slot);
    Some(())
}

fn next_set(rng: &mut Rng, t: &mut Tables, lent: &mut [u32]) -> Option<()> {
    t.next += rng.between(0, 10_000_000);
    set_next(lent, t.next);
    Some(())
}

/// Some rows, and all that have one of them for a source.
fn rows_removed(rng: &mut Rng, t: &mut Tables, lent: &mut [u32]) -> Option<()> {
    let in_1000 = [0, 2, 20, 200, 1000][rng.below(5)];
    let seeds: Vec<u32> = t.rows.iter().map(|r| r.number).collect();
    let seeds: Vec<u32> = seeds
        .into_iter()
        .filter(|_| rng.below(1000) < in_1000)
        .collect();
    let removed = least_set(t, |r| seeds.contains(&r.number));
    let mut marks = [false; ROWS];
    for (mark, row) in marks.iter_mut().zip(&t.rows) {
        *mark = removed.contains(&row.number);
    }
    remove_rows(lent, t.rows.len(), &packed(&marks));
    t.rows.retain(|r| !removed.contains(&r.number));
    Some(())
}

fn requests_removed(rng: &mut Rng, t: &mut Tables, lent: &mut [u32]) -> Option<()> {
    let in_100 = [0, 5, 50, 100][rng.below(4)];
    let mut marks = [false; REQUESTS];
    for mark in &mut marks[..t.requests.len()] {
        *mark = rng.percent(in_100);
    }
    remove_requests(lent, &marks);
    let mut kept = marks.iter().map(|mark| !mark);
    t.requests.retain(|_| kept.next().unwrap_or(true));
    Some(())
}

/// Makes the change in the model's tables and in the words, and compares all
/// words; says whether there was anything to change.
fn agrees(
    name: &str,
    change: Change,
    rng: &mut Rng,
    tables: &mut Tables,
    lent: &mut [u32],
) -> bool {
    let before = tables.clone();
    let made = change(rng, tables, lent).is_some();
    let (expected, _) = words(tables);
    assert!(lent == expected, "{name}, on\n{}", before.print());
    made
}

/// Each change by itself, on sound tables.
#[test]
fn each_change() {
    let mut rng = Rng::new(3);
    let mut made = [0; CHANGES.len()];
    for tables in small(300, 90).chain(full()) {
        let (words, _) = words(&tables);
        for (at, (name, change)) in CHANGES.into_iter().enumerate() {
            for _ in 0..4 {
                let (mut after, mut lent) = (tables.clone(), words.clone());
                let done = agrees(name, change, &mut rng, &mut after, &mut lent);
                made[at] += u32::from(done);
            }
        }
    }
    for ((name, _), made) in CHANGES.iter().zip(made) {
        assert!(made >= 800, "{name}: {made}");
    }
}

/// One change after another, on tables that soon are sound no more.
#[test]
fn changes_in_a_row() {
    let mut rng = Rng::new(4);
    for mut tables in small(60, 90).chain(full()) {
        let (mut lent, _) = words(&tables);
        for _ in 0..60 {
            let (name, change) = CHANGES[rng.below(CHANGES.len())];
            agrees(name, change, &mut rng, &mut tables, &mut lent);
        }
    }
}

/// The last free slot of each table is filled.
#[test]
fn the_last_slot() {
    let mut rng = Rng::new(5);
    for mut tables in full() {
        let (mut lent, _) = words(&tables);
        for (name, change) in [CHANGES[1], CHANGES[2]] {
            while agrees(name, change, &mut rng, &mut tables, &mut lent) {}
        }
        assert_eq!((tables.rows.len(), tables.requests.len()), (ROWS, REQUESTS));
    }
}

/// All changes at slots that the words have, if they have the right length.
fn change_all(t: &mut [u32], row: usize, request: usize, item: usize) {
    set_place(t, row, 7);
    clear_item(t, request, item);
    set_fetched(t, request);
    append_row(t, row, &[7; 10]);
    append_request(t, request, &[7; 8]);
}

/// Words of another length, and slots that are none: nothing changes.
#[test]
fn other_lengths_and_slots() {
    let lent = vec![9; TABLES_WORDS];
    for length in [0, 1, 192, TABLES_WORDS - 1, TABLES_WORDS + 1] {
        let mut t = vec![9; length];
        change_all(&mut t, 8, 0, 0);
        set_next(&mut t, 7);
        remove_rows(&mut t, 3, &packed(&[true; ROWS]));
        remove_requests(&mut t, &[true; REQUESTS]);
        assert!(t.iter().all(|word| *word == 9), "{length}");
    }
    let mut t = lent.clone();
    change_all(&mut t, ROWS, REQUESTS, 0);
    change_all(&mut t, usize::MAX, usize::MAX, 0);
    clear_item(&mut t, 0, ITEMS);
    clear_item(&mut t, 0, usize::MAX);
    remove_rows(&mut t, ROWS + 1, &packed(&[true; ROWS]));
    // sources at or past the slot
    append_row(&mut t, 4, &[1, 1, 1, 1, 1, 1, 5, 4, 1, 0]);
    append_row(&mut t, 4, &[1, 1, 1, 1, 1, 1, 4, 5, 1, 0]);
    assert_eq!(t, lent);
    append_row(&mut t, 4, &[1, 1, 1, 1, 1, 1, 4, 4, 1, 0]);
    assert_ne!(t, lent);
}
