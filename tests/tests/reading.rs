//! Look-ups, counts and readings of sound tables, each against the model.

mod common;

use common::{at_the_end, full, small, words};
use kernel::reading::*;
use kernel::rights;
use model::limits::{ALL_RIGHTS, LAST_NUMBER, PROCESSES, REQUESTS, ROWS};
use model::random::Rng;
use model::relations::request_on;
use model::tables::Row;
use model::words::{request_words, row_words, LAYOUT_VERSION, PROCESS_WORDS, TABLES_WORDS};
use model::Tables;

#[test]
fn the_layout_has_one_version() {
    assert_eq!(layout_version(), LAYOUT_VERSION);
}

/// Numbers to look up: each that is used, and others near and far.
fn numbers(rng: &mut Rng, tables: &Tables) -> Vec<u32> {
    let mut numbers = vec![0, 1, tables.next, LAST_NUMBER, u32::MAX];
    numbers.extend(tables.rows.iter().map(|r| r.number));
    numbers.extend(tables.requests.iter().map(|q| q.number));
    numbers.extend((0..20).map(|_| rng.between(1, tables.next)));
    numbers
}

fn request_place(tables: &Tables, number: u32) -> Option<usize> {
    tables.requests.iter().position(|q| q.number == number)
}

fn look_ups_agree(rng: &mut Rng, tables: &Tables) {
    let (lent, _) = words(tables);
    assert_eq!(rows_in(&lent), tables.rows.len());
    assert_eq!(requests_in(&lent), tables.requests.len());
    assert_eq!(next_of(&lent), tables.next);
    for number in numbers(rng, tables) {
        let row = tables.rows.iter().position(|r| r.number == number);
        assert_eq!(row_slot(&lent, number), row, "row {number}");
        let request = request_place(tables, number);
        assert_eq!(request_slot(&lent, number), request, "request {number}");
        let open = request_on(tables, number).and_then(|q| request_place(tables, q.number));
        assert_eq!(open_on(&lent, number), open, "request on {number}");
    }
}

#[test]
fn look_ups_and_counts() {
    let mut rng = Rng::new(1);
    let moved = at_the_end(100, 90);
    for tables in small(400, 90).chain(moved).chain(full()) {
        look_ups_agree(&mut rng, &tables);
    }
}

fn slots_agree(tables: &Tables) {
    let (lent, _) = words(tables);
    for slot in 0..ROWS {
        let mut read = [9; 10];
        row_at(&lent, slot, &mut read);
        let row = tables.rows.get(slot).and_then(|r| row_words(tables, r));
        assert_eq!(read, row.unwrap_or([0; 10]), "row in slot {slot}");
    }
    for slot in 0..REQUESTS {
        let mut read = [9; 8];
        request_at(&lent, slot, &mut read);
        let request = tables.requests.get(slot).and_then(request_words);
        assert_eq!(read, request.unwrap_or([0; 8]), "request in slot {slot}");
    }
}

#[test]
fn slots_are_read() {
    for tables in small(100, 90).chain(full()) {
        slots_agree(&tables);
    }
}

#[test]
fn processes_are_listed() {
    for tables in small(400, 30).chain(full()) {
        let (_, processes) = words(&tables);
        for process in (0..PROCESSES + 10).chain([u32::MAX]) {
            assert_eq!(listed(&processes, process), tables.listed(process));
        }
    }
}

/// Loaded and stored over any words: those of the run read.
#[test]
fn records_come_back() {
    let mut rng = Rng::new(2);
    let mut any = || (0..PROCESS_WORDS).map(|_| rng.word() as u32).collect();
    for tables in small(100, 30) {
        let (_, processes) = words(&tables);
        let from: Vec<u32> = any();
        for from in [processes, from] {
            let mut to: Vec<u32> = any();
            records(&from, &mut to);
            assert_eq!(to, from);
        }
    }
}

/// A row with these rights, for what the model says of rights.
fn with_rights(tables: &Tables, rights: u32) -> Row {
    Row {
        rights,
        ..tables.rows[0]
    }
}

/// Rights are compared by the three low bits, and are none if no bit is set.
#[test]
fn rights_of_words() {
    let tables = &full()[0];
    let high = [1 << 8, 1 << 16, 1 << 31, u32::MAX - ALL_RIGHTS];
    let words = (0..=255).chain(
        high.into_iter()
            .flat_map(|h| (0..=ALL_RIGHTS).map(move |low| h + low)),
    );
    let words: Vec<u32> = words.collect();
    for &a in &words {
        assert_eq!(rights::empty(a), a == 0);
        for &b in &words {
            let permitted = with_rights(tables, b & ALL_RIGHTS).permits(a & ALL_RIGHTS);
            assert_eq!(rights::within(a, b), permitted, "{a} within {b}");
            assert_eq!(rights::contain(b, a), permitted, "{b} contain {a}");
        }
    }
}

/// Words of another length and slots that are none: a fixed answer, and
/// nothing written.
#[test]
fn other_lengths_and_slots() {
    let tables = &full()[2];
    let (lent, processes) = words(tables);
    let number = tables.rows[0].number;
    let request = tables.requests[0];
    let longer = [&lent[..], &[0]].concat();
    for t in [&[][..], &lent[..1], &lent[..TABLES_WORDS - 1], &longer] {
        assert_eq!((rows_in(t), requests_in(t), next_of(t)), (0, 0, 0));
        assert_eq!(row_slot(t, number), None);
        assert_eq!(request_slot(t, request.number), None);
        assert_eq!(open_on(t, request.port), None);
        nothing_read(t, 0, 0);
    }
    nothing_read(&lent, ROWS, REQUESTS);
    nothing_read(&lent, usize::MAX, usize::MAX);
    let longer = [&processes[..], &[0]].concat();
    for p in [&[][..], &processes[..PROCESS_WORDS - 1], &longer] {
        assert!((0..=PROCESSES).all(|process| !listed(p, process)));
        let mut to = vec![9; PROCESS_WORDS];
        records(p, &mut to);
        assert_eq!(to, [9; PROCESS_WORDS]);
        let mut to = p.to_vec();
        records(&processes, &mut to);
        assert_eq!(to, p);
    }
}

fn nothing_read(t: &[u32], row: usize, request: usize) {
    let (mut row_fields, mut request_fields) = ([9; 10], [9; 8]);
    row_at(t, row, &mut row_fields);
    request_at(t, request, &mut request_fields);
    assert_eq!((row_fields, request_fields), ([9; 10], [9; 8]));
}
