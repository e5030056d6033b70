//! Closings of sound tables, compared with the model: every word after.

use super::at_words::at_words;
use super::built::built;
use super::features::Features;
use super::{at_the_end, full, small, words, Lent};
use kernel::reading;
use model::call::{Call, Word};
use model::closing::{close_port, close_request};
use model::effects::perform;
use model::limits::LAST_NUMBER;
use model::words::{PROCESS_WORDS, TABLES_WORDS};
use model::Tables;

/// A closing in place: the two lent runs, and the number of what is closed.
pub type Close = fn(&mut [u32], &mut [u32], u32);

/// The closings under test.
pub struct Closer {
    pub request: Close,
    pub port: Close,
    pub row: Close,
}

/// What is closed.
#[derive(Clone, Copy, Debug)]
pub enum Closing {
    Request(u32),
    Port(u32),
    Row(u32),
}

impl Closing {
    /// By the model.
    pub fn on_model(self, tables: &Tables) -> Tables {
        let mut after = tables.clone();
        match self {
            Closing::Request(number) => close_request(&mut after, number),
            Closing::Port(client) => close_port(&mut after, client),
            Closing::Row(number) => {
                let (caller, word) = (1, Word::Drop);
                let call = Call::One {
                    caller,
                    word,
                    number,
                };
                perform(&mut after, &call);
            }
        }
        after
    }

    /// Whether it is no drop, or the drop of a row in the first or the last slot of a word.
    fn beside_words(self, tables: &Tables) -> bool {
        match self {
            Closing::Row(number) => {
                let slot = tables.rows.iter().position(|r| r.number == number);
                slot.is_some_and(|slot| matches!(slot % 64, 0 | 63))
            }
            _ => true,
        }
    }

    pub fn on_words(self, closer: &Closer, lent: &mut Lent) {
        let (close, number) = match self {
            Closing::Request(number) => (closer.request, number),
            Closing::Port(client) => (closer.port, client),
            Closing::Row(number) => (closer.row, number),
        };
        close(&mut lent.0, &mut lent.1, number);
    }
}

/// Every open request, every port, and every row that may be dropped: no row
/// comes from it and nobody went through it.
pub fn all_of(tables: &Tables) -> Vec<Closing> {
    let requests = tables.requests.iter().map(|q| Closing::Request(q.number));
    let ends = tables.rows.iter().filter(|r| r.port() == Some(r.number));
    let ports = ends.map(|r| Closing::Port(r.number));
    let mut sources: Vec<u32> = tables.rows.iter().flat_map(|r| r.sources()).collect();
    sources.extend(tables.processes.iter().map(|p| p.through));
    sources.sort_unstable();
    let is_source = |number: u32| sources.binary_search(&number).is_ok();
    let rows = tables.rows.iter().filter(|r| !r.is_end());
    let rows = rows.filter(|r| !is_source(r.number));
    let rows = rows.map(|r| Closing::Row(r.number));
    requests.chain(ports).chain(rows).collect()
}

/// Closes in the model's tables and in the words, and compares all words and
/// their soundness. Answers the model's tables after.
pub fn agrees(closer: &Closer, tables: &Tables, lent: &Lent, closing: Closing) -> Tables {
    let after = closing.on_model(tables);
    let mut closed = lent.clone();
    closing.on_words(closer, &mut closed);
    let (rows, records) = words(&after);
    let about = || format!("{closing:?} on\n{}", tables.print());
    assert!(closed.0 == rows, "tables after {}", about());
    assert!(closed.1 == records, "processes after {}", about());
    assert!(reading::sound(&rows, &records), "not sound: {}", about());
    after
}

/// Every closing of random and of built tables, and what these did.
pub fn compare(closer: &Closer) -> Features {
    let mut features = Features::default();
    let random = small(1_000, 160).chain(at_the_end(200, 160));
    for tables in random.chain(built()).chain(full()) {
        let lent = words(&tables);
        for closing in all_of(&tables) {
            let after = agrees(closer, &tables, &lent, closing);
            features.add(closing, &tables, &after);
        }
    }
    features
}

/// Closings of what lies where words of marks end: every request and port, and rows beside the ends of words.
pub fn compare_at_words(closer: &Closer) {
    for tables in at_words() {
        let lent = words(&tables);
        for closing in all_of(&tables)
            .into_iter()
            .filter(|c| c.beside_words(&tables))
        {
            agrees(closer, &tables, &lent, closing);
        }
    }
}

/// Numbers that no request, port or row has: nothing changes.
pub fn numbers_of_none(closer: &Closer) {
    for tables in small(40, 90).chain(full()) {
        let lent = words(&tables);
        for number in [tables.next, LAST_NUMBER, u32::MAX] {
            for closing in [Closing::Request, Closing::Port, Closing::Row] {
                let mut after = lent.clone();
                closing(number).on_words(closer, &mut after);
                assert!(after == lent, "{:?}", closing(number));
            }
        }
    }
}

/// Runs of other lengths: nothing changes.
pub fn other_lengths(closer: &Closer) {
    let tables = small(3, 90).last().expect("tables");
    let lent = words(&tables);
    for t in [
        0,
        1,
        192,
        TABLES_WORDS - 1,
        TABLES_WORDS,
        TABLES_WORDS + 1,
        22_530,
    ] {
        for p in [
            0,
            1,
            PROCESS_WORDS - 1,
            PROCESS_WORDS,
            PROCESS_WORDS + 1,
            384,
            11_265,
        ] {
            let mut cut = lent.clone();
            cut.0.resize(t, 0);
            cut.1.resize(p, 0);
            for closing in all_of(&tables) {
                let mut after = cut.clone();
                closing.on_words(closer, &mut after);
                let right = (t, p) == (TABLES_WORDS, PROCESS_WORDS);
                assert_eq!(after != cut, right, "{closing:?}, {t} and {p} words");
            }
        }
    }
}
