//! Comes from, lent and on loan on sound tables, each against the model.

mod common;

use common::{at_the_end, full, small, words};
use kernel::reading::{comes, lent, on_loan};
use model::limits::{DEEPEST, ROWS};
use model::relations::{self, lent_rows, newest_listing, rows_from};
use model::words::TABLES_WORDS;
use model::Tables;
use std::collections::BTreeSet;

/// How often the answer was yes, and how often no.
#[derive(Default, Debug)]
struct Answers {
    yes: u32,
    no: u32,
}

impl Answers {
    fn count(&mut self, answer: bool) {
        match answer {
            true => self.yes += 1,
            false => self.no += 1,
        }
    }

    fn both(&self, least: u32) {
        assert!(self.yes >= least && self.no >= least, "{self:?}");
    }
}

fn random_tables() -> impl Iterator<Item = Tables> {
    small(800, 120).chain(at_the_end(200, 120))
}

fn comes_agrees(tables: &Tables, answers: &mut Answers) {
    let (t, _) = words(tables);
    let requests = tables.requests.iter().map(|q| q.number);
    let requests = requests.chain([tables.next, u32::MAX]);
    for request in requests {
        let from = rows_from(tables, &BTreeSet::from([request]));
        for (slot, row) in tables.rows.iter().enumerate() {
            let expected = from.contains(&row.number);
            let number = row.number;
            assert_eq!(
                comes(&t, slot, request),
                expected,
                "{number} from {request}"
            );
            answers.count(expected);
        }
    }
}

#[test]
fn rows_come_from_requests() {
    let mut answers = Answers::default();
    for tables in random_tables().chain(full()) {
        comes_agrees(&tables, &mut answers);
    }
    answers.both(5_000);
}

#[test]
fn rows_are_lent() {
    let mut answers = Answers::default();
    let mut deepest = 0;
    for tables in random_tables().chain(full()) {
        let (t, _) = words(&tables);
        let all = lent_rows(&tables);
        for (slot, row) in tables.rows.iter().enumerate() {
            let expected = all.contains(&row.number);
            assert_eq!(lent(&t, slot), expected, "{}", row.number);
            answers.count(expected);
            deepest = deepest.max(row.depth);
        }
    }
    assert_eq!(deepest, DEEPEST);
    answers.both(3_000);
}

#[test]
fn ends_are_on_loan() {
    let mut answers = Answers::default();
    for tables in random_tables().chain(full()) {
        let (t, _) = words(&tables);
        for row in &tables.rows {
            let expected = match row.is_end() {
                true => relations::on_loan(&tables, row),
                false => newest_listing(&tables, row.number).is_some(),
            };
            assert_eq!(on_loan(&t, row.number), expected, "{}", row.number);
            answers.count(expected);
        }
        for number in [tables.next, u32::MAX] {
            assert!(!on_loan(&t, number));
        }
    }
    answers.both(3_000);
}

/// No for words of another length, and for slots that are none.
#[test]
fn other_lengths_and_slots() {
    let tables = &full()[2];
    let (t, _) = words(tables);
    let lent_row = *lent_rows(tables).first().expect("a lent row");
    let slot = tables.rows.iter().position(|r| r.number == lent_row);
    let slot = slot.expect("its slot");
    let listed = tables.requests.iter().flat_map(|q| q.listed()).next();
    let listed = listed.expect("a listed row");
    assert!(lent(&t, slot) && on_loan(&t, listed));
    let longer = [&t[..], &[0]].concat();
    for t in [&[][..], &t[..1], &t[..TABLES_WORDS - 1], &longer] {
        assert!(!lent(t, slot) && !on_loan(t, listed));
        assert!(tables.requests.iter().all(|q| !comes(t, slot, q.number)));
    }
    for slot in [ROWS, usize::MAX] {
        assert!(!lent(&t, slot));
        assert!(tables.requests.iter().all(|q| !comes(&t, slot, q.number)));
    }
}
