//! Removal by marks in bits, where words of them begin and end: every word after, against plain Rust, which is given a
//! bool a slot.

use kernel::changing::{packed, remove_requests, remove_rows};
use kernel::layout::{
    NEXT, NUMBER, Q_NUMBER, REQUESTS, ROWS, ROW_COLUMNS, SOURCE, TABLES_WORDS, VIA,
};
use kernel::{plain, RequestMarks, RowMarks, SlotBits};
use model::random::Rng;

/// Counts that end before, at and after the end of a word.
const AT_WORDS: [usize; 8] = [63, 64, 65, 127, 128, 129, 1_023, 1_024];

/// Of 100 slots so many are marked.
const IN_100: [u32; 15] = [0, 1, 2, 5, 10, 20, 30, 50, 70, 80, 90, 95, 98, 99, 100];

/// Words of tables with all rows, each word another; the sources of a row are any two older ones.
fn lent(rng: &mut Rng) -> Vec<u32> {
    let mut t = vec![0; TABLES_WORDS];
    for word in &mut t[..ROW_COLUMNS * ROWS] {
        *word = rng.word() as u32;
    }
    for slot in 0..ROWS {
        t[NUMBER + slot] = slot as u32 + 1;
        t[SOURCE + slot] = rng.between(0, slot as u32);
        t[VIA + slot] = rng.between(0, slot as u32);
    }
    t
}

/// Both leave the same words; the rows past the count stay, whatever their marks are.
fn agree(t: &[u32], count: usize, marks: &RowMarks) {
    let (mut proved, mut plainly) = (t.to_vec(), t.to_vec());
    remove_rows(&mut proved, count, &packed(marks));
    plain::removal::remove_rows(&mut plainly, count, marks);
    let marked: Vec<usize> = (0..ROWS).filter(|slot| marks[*slot]).collect();
    assert!(proved == plainly, "{count} rows, marked {marked:?}");
}

/// The first slot of each word, and the slots beside it.
fn beside_words() -> impl Iterator<Item = usize> + Clone {
    let firsts = (0..=ROWS).step_by(64);
    let beside = firsts.flat_map(|first| [first.wrapping_sub(1), first, first + 1]);
    beside.filter(|slot| *slot <= ROWS)
}

/// Words written by hand.
#[test]
fn marks_are_packed() {
    let of = |slots: &[usize]| packed(&std::array::from_fn(|slot| slots.contains(&slot)));
    let mut bits: SlotBits = [0; 16];
    assert_eq!(of(&[]), bits);
    bits[0] = 0x8000_0000_0000_0001;
    bits[1] = 0x1;
    bits[2] = 0x0000_0001_0000_0000;
    bits[15] = 0xc000_0000_0000_0000;
    assert_eq!(of(&[0, 63, 64, 160, 1022, 1023]), bits);
    assert_eq!(packed(&[true; ROWS]), [u64::MAX; 16]);
}

#[test]
fn one_row() {
    let t = lent(&mut Rng::new(31));
    for gone in 0..ROWS {
        agree(&t, ROWS, &std::array::from_fn(|slot| slot == gone));
        agree(&t, ROWS, &std::array::from_fn(|slot| slot != gone));
    }
}

/// Runs that end at, start at and cross the end of a word, marked or all that is left.
#[test]
fn one_run() {
    let t = lent(&mut Rng::new(32));
    for from in beside_words() {
        for to in beside_words().filter(|to| from < *to) {
            let run = from..to;
            agree(&t, ROWS, &std::array::from_fn(|slot| run.contains(&slot)));
            agree(&t, ROWS, &std::array::from_fn(|slot| !run.contains(&slot)));
        }
    }
}

/// Each word has all marks, or none, or any.
#[test]
fn whole_words() {
    let mut rng = Rng::new(33);
    let t = lent(&mut rng);
    for word in 0..16 {
        agree(&t, ROWS, &std::array::from_fn(|slot| slot / 64 == word));
        agree(&t, ROWS, &std::array::from_fn(|slot| slot / 64 != word));
    }
    for _ in 0..300 {
        let in_100: [u32; 16] = std::array::from_fn(|_| [0, 0, 50, 100, 100][rng.below(5)]);
        let marks = std::array::from_fn(|slot| rng.percent(in_100[slot / 64]));
        agree(&t, ROWS, &marks);
    }
}

/// Every count. Marks past it do not matter: all are set, or those alone, or every other one.
#[test]
fn counts() {
    let t = lent(&mut Rng::new(34));
    for count in 0..=ROWS {
        agree(&t, count, &[true; ROWS]);
        agree(&t, count, &std::array::from_fn(|slot| slot >= count));
        agree(&t, count, &std::array::from_fn(|slot| slot + 1 >= count));
        let other = |slot: usize| slot % 2 == count % 2;
        agree(&t, count, &std::array::from_fn(other));
    }
}

#[test]
fn any_marks() {
    let mut rng = Rng::new(35);
    for count in [10, 100, 1_000].into_iter().chain(AT_WORDS) {
        for in_100 in IN_100 {
            let t = lent(&mut rng);
            for _ in 0..10 {
                agree(&t, count, &std::array::from_fn(|_| rng.percent(in_100)));
            }
        }
    }
}

/// One slot in up to ten is marked, or left. What is left moves by words of marks where its runs are short, or by runs.
#[test]
fn one_slot_in_few() {
    let t = lent(&mut Rng::new(37));
    for count in AT_WORDS {
        for few in 2..=10 {
            for one in 0..few {
                agree(&t, count, &std::array::from_fn(|slot| slot % few == one));
                agree(&t, count, &std::array::from_fn(|slot| slot % few != one));
            }
        }
    }
}

/// Every other slot is marked from one beside a word on, or up to it.
#[test]
fn every_other_slot_of_a_part() {
    let t = lent(&mut Rng::new(38));
    for count in AT_WORDS {
        for slot in beside_words().filter(|slot| *slot <= count) {
            let other = |i: usize| i % 2 == slot % 2;
            agree(&t, count, &std::array::from_fn(|i| i >= slot && other(i)));
            agree(&t, count, &std::array::from_fn(|i| i < slot && other(i)));
        }
    }
}

/// Few rows go, next to each other or far apart: fewer than four are set to 0 row by row.
#[test]
fn few_rows_go() {
    let t = lent(&mut Rng::new(39));
    for count in AT_WORDS {
        for gone in 1..=6 {
            for from in [0, 30, 59, count - gone] {
                let run = from..from + gone;
                agree(&t, count, &std::array::from_fn(|slot| run.contains(&slot)));
            }
            let apart = count / gone;
            agree(&t, count, &std::array::from_fn(|slot| slot % apart == 1));
        }
    }
}

/// The marks of requests are bools, which the removal packs: every number of requests, with marks past it.
#[test]
fn requests() {
    let mut rng = Rng::new(36);
    for count in 0..=REQUESTS {
        let mut t = lent(&mut rng);
        for column in t[Q_NUMBER..NEXT].chunks_exact_mut(REQUESTS) {
            column[..count].fill_with(|| rng.between(1, u32::MAX));
        }
        let last = count.wrapping_sub(1);
        let beside = [0, 62, 63, 64, 65, last, count];
        let one = beside.map(|gone| std::array::from_fn(|slot| slot == gone));
        let any = IN_100.map(|in_100| std::array::from_fn(|_| rng.percent(in_100)));
        let one_in = [2, 3, 4, 8, 9].map(|few| std::array::from_fn(|slot| slot % few == 1));
        for marks in one.iter().chain(&any).chain(&one_in) {
            let marks: &RequestMarks = marks;
            let (mut proved, mut plainly) = (t.clone(), t.clone());
            remove_requests(&mut proved, marks);
            plain::removal::remove_requests(&mut plainly[Q_NUMBER..NEXT], &marks[..count]);
            assert!(proved == plainly, "{count} requests, {marks:?}");
        }
    }
}
