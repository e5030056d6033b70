//! Plain Rust, which the benchmark measures against, answers and changes words
//! as the proved functions do.

mod common;

use common::{at_the_end, full, small, words, Lent};
use kernel::{changing, plain, reading, RowMarks};
use model::limits::ROWS;
use model::random::aimed::{aimed, AIMS};
use model::random::alter::{alter, alter_gently};
use model::random::Rng;
use model::words::{encode, PROCESS_WORDS, TABLES_WORDS};

/// Both say the same; how many were sound.
fn same_sound(lent: &Lent) -> usize {
    let proved = reading::sound(&lent.0, &lent.1);
    assert_eq!(plain::sound(&lent.0, &lent.1), proved);
    usize::from(proved)
}

#[test]
fn sound_of_tables() {
    let mut rng = Rng::new(21);
    let mut sound = 0;
    for tables in small(150, 90).chain(at_the_end(50, 90)).chain(full()) {
        sound += same_sound(&words(&tables));
        let aims = AIMS.iter().map(|(clause, _)| clause);
        let broken: Vec<_> = aims.filter_map(|c| aimed(&mut rng, &tables, c)).collect();
        let altered = [alter_gently(&mut rng, &tables), alter(&mut rng, &tables)];
        for lent in broken.iter().chain(&altered).filter_map(encode) {
            sound += same_sound(&lent);
        }
    }
    assert!(sound >= 205 + 50, "{sound} sound tables");
}

#[test]
fn sound_of_words() {
    let mut rng = Rng::new(22);
    for tables in small(150, 90) {
        let lent = words(&tables);
        for _ in 0..20 {
            let mut changed = lent.clone();
            let column = rng.below(10) * ROWS;
            changed.0[column + rng.below(tables.rows.len() + 1)] ^= 1 << rng.below(32);
            same_sound(&changed);
            let mut changed = lent.clone();
            changed.0[rng.below(TABLES_WORDS)] = rng.between(0, 40);
            changed.1[rng.below(PROCESS_WORDS)] = rng.between(0, 40);
            same_sound(&changed);
        }
        for length in [0, 192, TABLES_WORDS - 1, TABLES_WORDS + 1] {
            let mut changed = lent.clone();
            changed.0.resize(length, 0);
            assert_eq!(same_sound(&changed), 0);
            assert_eq!(plain::find::row_slot(&changed.0, 1), None);
            assert!(!plain::questions::comes(&changed.0, 0, 1));
        }
    }
}

#[test]
fn look_ups_and_questions() {
    for tables in small(150, 90).chain(at_the_end(50, 90)).chain(full()) {
        let (t, _) = words(&tables);
        let first = tables.rows[0].number;
        for number in first - 1..=tables.next.saturating_add(1) {
            assert_eq!(
                plain::find::row_slot(&t, number),
                reading::row_slot(&t, number)
            );
            let proved = reading::request_slot(&t, number);
            assert_eq!(plain::find::request_slot(&t, number), proved);
        }
        let requests: Vec<u32> = tables.requests.iter().map(|q| q.number).collect();
        for slot in 0..tables.rows.len() {
            assert_eq!(plain::questions::lent(&t, slot), reading::lent(&t, slot));
            for request in requests.iter().take(8) {
                let proved = reading::comes(&t, slot, *request);
                assert_eq!(plain::questions::comes(&t, slot, *request), proved);
            }
        }
    }
}

#[test]
fn removals() {
    let mut rng = Rng::new(23);
    for tables in small(150, 90).chain(full()) {
        let (t, _) = words(&tables);
        for percent in [0, 2, 50, 98, 100] {
            let marks: RowMarks = std::array::from_fn(|_| rng.percent(percent));
            let (mut proved, mut plainly) = (t.clone(), t.clone());
            changing::remove_rows(&mut proved, tables.rows.len(), &changing::packed(&marks));
            plain::removal::remove_rows(&mut plainly, tables.rows.len(), &marks);
            assert!(proved == plainly, "{percent} in 100 rows");
        }
    }
}
