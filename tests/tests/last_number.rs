//! Tables with the greatest numbers, and with the greatest word where a number stands: look-ups,
//! soundness and calls, against the model.

mod common;

use common::entries::Entry;
use common::{at_the_end, words, Lent};
use kernel::layout::*;
use kernel::{entry, plain, reading};
use model::random::{lines, Profile, Rng};
use model::relations::rows_from;
use model::words::decode;
use model::{sound, Tables};
use std::collections::BTreeSet;

/// The word after the last number, which no row and no request has.
const NONE: u32 = u32::MAX;

/// A word that is changed: of the tables, or of the records.
#[derive(Clone, Copy)]
enum At {
    Tables(usize),
    Records(usize),
}

impl At {
    fn word(self, lent: &mut Lent) -> &mut u32 {
        match self {
            At::Tables(at) => &mut lent.0[at],
            At::Records(at) => &mut lent.1[at],
        }
    }
}

/// Where a number, a source or the next number stands.
fn numbers(tables: &Tables) -> Vec<At> {
    let rows = [NUMBER, OBJECT, SOURCE, VIA, REQUEST];
    let items = (0..ITEMS).map(|k| Q_ITEMS + k * REQUESTS);
    let requests: Vec<usize> = [Q_NUMBER, Q_PORT].into_iter().chain(items).collect();
    let slots = |columns: &[usize], count: usize| {
        let slots = |column: &usize| (*column..column + count).map(At::Tables);
        columns.iter().flat_map(slots).collect::<Vec<_>>()
    };
    let mut all = slots(&rows, tables.rows.len());
    all.extend(slots(&requests, tables.requests.len()));
    let records = (0..PROCESS_WORDS).step_by(3);
    all.extend(records.map(|record| At::Records(record + 2)));
    all.push(At::Tables(NEXT));
    all
}

/// Tables at the end, each with one word changed to the greatest and to the last number.
fn changed(sessions: u64, mut each: impl FnMut(&mut Rng, &Tables, &Lent)) {
    let mut rng = Rng::new(31);
    for tables in at_the_end(sessions, 60) {
        let mut lent = words(&tables);
        for at in numbers(&tables) {
            for word in [NONE, LAST_NUMBER] {
                let before = std::mem::replace(at.word(&mut lent), word);
                each(&mut rng, &tables, &lent);
                *at.word(&mut lent) = before;
            }
        }
    }
}

#[test]
fn sound_as_the_model_says() {
    let mut counts = [0, 0];
    changed(60, |_, _, lent| {
        let expected = decode(&lent.0, &lent.1).is_some_and(|tables| sound(&tables));
        assert_eq!(reading::sound(&lent.0, &lent.1), expected);
        assert_eq!(plain::sound(&lent.0, &lent.1), expected);
        counts[usize::from(expected)] += 1;
    });
    assert!(counts[0] >= 5_000 && counts[1] >= 100, "{counts:?}");
}

#[test]
fn calls_as_the_model_makes_them() {
    let proved = Entry::new(entry::open, entry::call);
    let plainly = Entry::new(plain::entry::open, plain::entry::call);
    changed(12, |rng, tables, lent| {
        let line = lines::line(rng, Profile::Loans, tables);
        proved.calls_as_model(lent, &line);
        plainly.calls_as_model(lent, &line);
    });
    for entry in [proved, plainly] {
        let seen = entry.seen.borrow().calls;
        assert!(seen[1] >= 1_000 && seen[0] >= 10, "{seen:?}");
    }
}

/// The greatest word is found where it stands, and nowhere else.
#[test]
fn look_ups_of_the_greatest_word() {
    let mut found = [0; 4];
    changed(30, |_, tables, lent| {
        let t = lent.0.as_slice();
        let (rows, requests) = (tables.rows.len(), tables.requests.len());
        let first = |column: usize, count: usize| {
            let slots = &t[column..column + count];
            slots.iter().position(|word| *word == NONE)
        };
        let items = (0..ITEMS).map(|k| Q_ITEMS + k * REQUESTS);
        let slots = [
            first(NUMBER, rows).filter(|slot| slot + 1 == rows),
            first(Q_NUMBER, requests).filter(|slot| slot + 1 == requests),
            first(Q_PORT, requests),
            items.filter_map(|column| first(column, requests)).next(),
        ];
        // numbers rise where the greatest word is the last
        if first(NUMBER, rows) == slots[0] {
            assert_eq!(reading::row_slot(t, NONE), slots[0]);
        }
        if first(Q_NUMBER, requests) == slots[1] {
            assert_eq!(reading::request_slot(t, NONE), slots[1]);
        }
        assert_eq!(reading::open_on(t, NONE), slots[2]);
        assert_eq!(reading::on_loan(t, NONE), slots[3].is_some());
        for (count, slot) in found.iter_mut().zip(slots) {
            *count += u32::from(slot.is_some());
        }
    });
    assert!(found.iter().all(|count| *count >= 15), "{found:?}");
}

/// A row that bears the greatest word comes from it, and so does what comes from the row.
#[test]
fn rows_that_bear_the_greatest_word() {
    let mut found = 0;
    for mut tables in at_the_end(140, 90) {
        let Some(copy) = tables.rows.iter_mut().find(|r| r.request != 0) else {
            continue;
        };
        copy.request = NONE;
        let from = rows_from(&tables, &BTreeSet::from([NONE]));
        let (t, _) = words(&tables);
        for (slot, row) in tables.rows.iter().enumerate() {
            let expected = from.contains(&row.number);
            assert_eq!(reading::comes(&t, slot, NONE), expected, "{}", row.number);
        }
        found += from.len();
    }
    assert!(found >= 150, "{found}");
}
