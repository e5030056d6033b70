//! The page in plain Rust, which the speed of the proved one is compared with, has the same bytes.

mod common;

use common::{at_the_end, small, words};
use kernel::entry::{lines_from, LINE_BYTES};
use kernel::layout::{ROWS, TABLES_WORDS};
use kernel::plain;
use kernel::plain::closing_tables::{cascade_of_85_full, one_copy};
use model::random::any_rows::any_rows;
use model::random::Rng;

/// What stands in the lent bytes before the call.
const UNSAID: u8 = 7;

/// Both write the same into so many bytes, from a row on; how many they write.
fn same_lines(t: &[u32], from: usize, room: usize) -> usize {
    let (mut ours, mut theirs) = (vec![UNSAID; room], vec![UNSAID; room]);
    let count = lines_from(t, from, &mut ours);
    assert_eq!(plain::page::lines_from(t, from, &mut theirs), count);
    assert!(ours == theirs, "from {from}, room {room}");
    count
}

/// The whole page of so many rows, and parts of it.
fn same_page(rng: &mut Rng, t: &[u32], rows: usize) {
    assert_eq!(same_lines(t, 0, ROWS * LINE_BYTES), rows * LINE_BYTES);
    for from in [1, rows / 2, rows, ROWS, usize::MAX] {
        for room in [0, LINE_BYTES - 1, LINE_BYTES, rng.below(9 * LINE_BYTES)] {
            same_lines(t, from, room);
        }
    }
}

#[test]
fn pages_of_tables() {
    let mut rng = Rng::new(24);
    for tables in small(150, 90).chain(at_the_end(50, 90)) {
        same_page(&mut rng, &words(&tables).0, tables.rows.len());
    }
}

#[test]
fn tables_of_the_benchmark() {
    let mut rng = Rng::new(25);
    let built = [10, 100, 1_024].map(one_copy);
    for (tables, _) in built.into_iter().chain([cascade_of_85_full()]) {
        same_page(&mut rng, &words(&tables).0, tables.rows.len());
    }
}

#[test]
fn pages_of_any_words() {
    let mut rng = Rng::new(26);
    for rows in (0..300).chain([ROWS - 1, ROWS]) {
        let t = any_rows(&mut rng, rows);
        same_page(&mut rng, &t, rows);
    }
    for _ in 0..50 {
        let t: Vec<u32> = (0..TABLES_WORDS).map(|_| rng.word() as u32).collect();
        same_page(&mut rng, &t, ROWS);
    }
}

#[test]
fn other_lengths() {
    for length in [0, ROWS, TABLES_WORDS - 1, TABLES_WORDS + 1] {
        assert_eq!(same_lines(&vec![1; length], 0, 2 * LINE_BYTES), 0);
    }
}
