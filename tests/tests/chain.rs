//! The call chain and the question under it, proved and in plain Rust: the first chain of every
//! row against the model's, the forms that are refused, and that no word of both runs changes.

mod common;

use common::built::built;
use common::entries::{answer, entries, refuse, shown, Entry};
use common::performed::{Perform, UNSAID};
use common::{altered, at_the_end, full, small, words, Lent};
use kernel::call_words::{answer_words, CALL_WORDS, CHAIN, LONGEST_CHAIN};
use kernel::fuller::{with_deep_rows, with_numbers_left, with_rows};
use kernel::layout::{LAST_NUMBER, ROWS, SOURCE, TABLES_WORDS, VIA};
use kernel::plain::closing_tables::{call, opened};
use kernel::{performing, plain, reading};
use model::call::Call;
use model::random::Rng;
use model::relations::first_chain;
use model::session::call_sound;
use model::tables::Row;
use model::{sound, Tables};

const ONE_PROCESS: &str = "(node 1)\n(process 1 1)\n(open)\n";

/// The words that are lent for a chain, as they stand before it.
const PAINT: u32 = 0xa5a5_a5a5;

type Question = fn(&[u32], usize, &mut [u32]) -> usize;

const QUESTIONS: [Question; 2] = [reading::first_chain, plain::questions::first_chain];
const CALLS: [Perform; 2] = [performing::perform, plain::calls::perform];

/// What was asked: chains by their length, those of a row with a second source that they leave out,
/// and numbers of no row.
#[derive(Default, Debug)]
struct Seen {
    lengths: [u32; LONGEST_CHAIN + 1],
    second: u32,
    none: u32,
}

impl Seen {
    fn count(&mut self, tables: &Tables, chain: &[u32]) {
        let second = |row: &Row| row.via != 0 && !chain.contains(&row.via);
        let mut rows = chain.iter().filter_map(|number| tables.row(*number));
        self.lengths[chain.len()] += 1;
        self.second += u32::from(rows.any(second));
    }

    fn check(&self, least: u32) {
        let lengths = &self.lengths[1..];
        assert!(lengths.iter().all(|count| *count >= least), "{self:?}");
        assert!(self.second >= least && self.none >= least, "{self:?}");
    }
}

/// The chain of the row in the slot, written in front of what is lent.
fn question_agrees(t: &[u32], slot: usize, chain: &[u32]) {
    for question in QUESTIONS {
        for lent in [LONGEST_CHAIN, LONGEST_CHAIN + 3] {
            let mut written = vec![PAINT; lent];
            assert_eq!(question(t, slot, &mut written), chain.len());
            let (front, rest) = written.split_at(chain.len());
            assert_eq!(front, chain);
            assert!(rest.iter().all(|word| *word == PAINT), "{chain:?}");
        }
    }
}

/// The call in words; any second number is the same.
fn call_agrees(lent: &Lent, row: u32, expected: &[u32]) {
    for perform in CALLS {
        for second in [0, row, u32::MAX] {
            let (mut after, mut answer) = (lent.clone(), UNSAID);
            let mut call = [0; CALL_WORDS];
            call[..3].copy_from_slice(&[CHAIN, row, second]);
            perform(&mut after.0, &mut after.1, &call, &mut answer);
            assert_eq!(answer, expected, "chain {row}");
            assert!(after == *lent, "words changed by chain {row}");
        }
    }
}

/// The line, from bytes to bytes.
fn line_agrees(entries: &[Entry], lent: &Lent, row: u32, expected: &[u8]) {
    let line = format!("(chain {row})\n");
    answer(entries, lent, line.as_bytes(), expected);
}

/// The call of that number as the model answers it, whose tables stay too.
fn calls_agree(entries: &[Entry], tables: &Tables, lent: &Lent, row: u32) {
    let (call, mut after) = (Call::Chain { row }, tables.clone());
    let answer = call_sound(&mut after, &call.print());
    assert!(after == *tables);
    call_agrees(lent, row, &answer_words(tables, &call, &answer));
    line_agrees(entries, lent, row, &answer.print());
}

/// Of every row, and of numbers that no row has.
fn agrees(entries: &[Entry], tables: &Tables, seen: &mut Seen) {
    let lent = words(tables);
    for (slot, row) in tables.rows.iter().enumerate() {
        let chain = first_chain(tables, row.number);
        question_agrees(&lent.0, slot, &chain);
        calls_agree(entries, tables, &lent, row.number);
        seen.count(tables, &chain);
    }
    let requests = tables.requests.iter().map(|q| q.number).take(4);
    let others = [tables.next.min(LAST_NUMBER), LAST_NUMBER];
    for number in requests.chain(others) {
        calls_agree(entries, tables, &lent, number);
        seen.none += u32::from(tables.row(number).is_none());
    }
}

#[test]
fn chains_of_sessions() {
    let (entries, mut seen) = (entries(), Seen::default());
    for (at, tables) in small(240, 120).chain(at_the_end(80, 120)).enumerate() {
        agrees(&entries, &tables, &mut seen);
        if at % 20 == 0 {
            agrees(&entries, &with_deep_rows(tables), &mut seen);
        }
    }
    seen.check(50);
}

/// 1,024 rows with chains of twelve, in the oldest slots and among the newest.
fn full_and_deep() -> [Tables; 2] {
    let start = opened(ONE_PROCESS);
    let oldest = with_rows(with_deep_rows(start.clone()), ROWS);
    let newest = with_deep_rows(with_rows(start, ROWS - 48));
    [oldest, with_rows(newest, ROWS)]
}

#[test]
fn chains_of_full_tables() {
    let (entries, mut seen) = (entries(), Seen::default());
    for tables in full().iter().chain(&built()).chain(&full_and_deep()) {
        agrees(&entries, tables, &mut seen);
    }
    let rows: u32 = seen.lengths.iter().sum();
    assert!(rows >= 13 * 1024, "{seen:?}");
    assert!(seen.lengths[LONGEST_CHAIN] >= 4, "{seen:?}");
    assert!(seen.second >= 2_500 && seen.none >= 250, "{seen:?}");
}

/// Sound tables that no session made, and what is changed in them: where they stay sound, every
/// chain, else 1.
#[test]
fn chains_of_altered_tables() {
    let (entries, mut seen) = (entries(), Seen::default());
    let mut rng = Rng::new(51);
    let mut unsound = 0;
    for _ in 0..150 {
        let (all, broken) = altered(&mut rng);
        for tables in all {
            agrees(&entries, &tables, &mut seen);
        }
        for (tables, lent) in broken {
            let row = rng.pick(&tables.rows).map_or(1, |row| row.number);
            line_agrees(&entries, &lent, row, b"(no 1)\n");
            unsound += 1;
        }
    }
    assert!(unsound >= 2_500, "{unsound} unsound");
    seen.check(50);
}

/// On words that are no tables the questions end, and say the same: no more than twelve rows, also
/// where a row is its own source.
#[test]
fn chains_of_any_words() {
    let mut rng = Rng::new(52);
    let mut longest = 0;
    for limit in [2, 40, 1_024, 1_025, 1_100, u64::from(u32::MAX)] {
        let word = |_| (rng.word() % limit) as u32;
        let mut t: Vec<u32> = (0..TABLES_WORDS).map(word).collect();
        t[SOURCE + 7] = 8;
        for slot in 0..ROWS {
            let mut written = [[PAINT; LONGEST_CHAIN]; 2];
            let [proved, plainly] = [0, 1].map(|k| QUESTIONS[k](&t, slot, &mut written[k]));
            assert_eq!(proved, plainly);
            assert_eq!(written[0], written[1]);
            longest += usize::from(proved == LONGEST_CHAIN);
        }
        let mut written = [PAINT; LONGEST_CHAIN];
        assert_eq!(reading::first_chain(&t, 7, &mut written), LONGEST_CHAIN);
        assert_eq!(written, [t[7]; LONGEST_CHAIN]);
    }
    assert!(longest >= 3_000, "{longest}");
}

/// Words of another length, slots that are none, fewer than twelve words lent: nothing is written.
#[test]
fn other_lengths_and_slots() {
    let (t, _) = words(&full()[2]);
    let longer = [&t[..], &[0]].concat();
    let nothing = |t: &[u32], slot: usize, lent: usize| {
        for question in QUESTIONS {
            let mut written = vec![PAINT; lent];
            assert_eq!(question(t, slot, &mut written), 0);
            assert!(written.iter().all(|word| *word == PAINT));
        }
    };
    for t in [&[][..], &t[..1], &t[..TABLES_WORDS - 1], &longer] {
        nothing(t, 0, LONGEST_CHAIN);
    }
    for slot in [ROWS, ROWS + 1, usize::MAX] {
        nothing(&t, slot, LONGEST_CHAIN);
    }
    for lent in 0..LONGEST_CHAIN {
        nothing(&t, 0, lent);
    }
    assert_eq!(reading::first_chain(&t, 0, &mut [0; LONGEST_CHAIN]), 1);
}

/// An operation held, and a subdirectory through which another row is held: its second source.
fn through() -> Tables {
    let opening = "(node 1 (op 2 0 7) (dir 1 7))\n(process 1 1)\n(process 2 1)\n(open)\n";
    let mut tables = opened(opening);
    for line in ["(1 hold 1)", "(1 hold 2)", "(1 go 4)", "(1 hold 1)"] {
        call(&mut tables, line);
    }
    tables
}

/// The first source alone is followed; the row itself is last.
#[test]
fn second_sources_are_left_out() {
    let tables = through();
    let (lent, entries) = (words(&tables), entries());
    assert_eq!((lent.0[SOURCE + 4], lent.0[VIA + 4]), (1, 4));
    for (row, chain) in [(1, "(ok 1)\n"), (4, "(ok 2 4)\n"), (5, "(ok 1 5)\n")] {
        line_agrees(&entries, &lent, row, chain.as_bytes());
    }
}

/// Twelve rows with the last twelve numbers: the longest answer that there is.
#[test]
fn the_longest_chain() {
    let start = opened(ONE_PROCESS);
    let deep = with_deep_rows(start.clone());
    let mut tables = with_numbers_left(start, LONGEST_CHAIN as u32);
    let first = tables.next;
    let line = first_chain(&deep, deep.rows.last().expect("a row").number);
    for (at, number) in line.iter().enumerate() {
        let row = *deep.row(*number).expect("a row of the line");
        let (number, at) = (first + at as u32, at as u32);
        let source = if at == 0 { 0 } else { number - 1 };
        tables.rows.push(Row {
            number,
            source,
            ..row
        });
        tables.next += 1;
    }
    assert!(sound(&tables), "{}", tables.print());
    let rows: String = (first..=LAST_NUMBER).map(|row| format!(" {row}")).collect();
    let expected = format!("(ok{rows})\n");
    assert_eq!(expected.len(), 137);
    let lent = words(&tables);
    line_agrees(&entries(), &lent, LAST_NUMBER, expected.as_bytes());
    calls_agree(&entries(), &tables, &lent, LAST_NUMBER);
}

/// Lines that are refused where rows 1 to 5 stand.
const REFUSED_LINES: [(u32, &[&str]); 3] = [
    // no number, more than one, a caller, another form or word
    (
        2,
        &[
            "(chain)",
            "(chain )",
            "(chain 5 6)",
            "(chain 5 5)",
            "(1 chain 5)",
            "(9 chain 5)",
            "(0 chain 5)",
            "(chain (5))",
            "(chain (5 0))",
            "(chain 5 (5 0))",
            "(chain 5 ())",
            "(chain x)",
            "(chain 5x)",
            "(chain 05)",
            "(chain 00)",
            "(chain -5)",
            "(chain +5)",
            "(chain  5)",
            "(chain 5 )",
            "( chain 5)",
            "(chain\t5)",
            "(chain5)",
            "(chain 5",
            "chain 5)",
            "(chain 5))",
            "(Chain 5)",
            "(chai 5)",
            "(chains 5)",
            "(comes 5)",
            "(hold 5)",
            "(1 chain)",
        ],
    ),
    (
        3,
        &[
            "(chain 0)",
            "(chain 4294967295)",
            "(chain 4294967296)",
            "(chain 4294967301)",
            "(chain 18446744073709551616)",
            "(chain 18446744073709551621)",
        ],
    ),
    (7, &["(chain 6)", "(chain 99)", "(chain 4294967294)"]),
];

#[test]
fn lines_that_are_refused() {
    let lent = words(&through());
    for (refusal, lines) in REFUSED_LINES {
        refuse(&lent, refusal, lines);
    }
}

/// A number of so many digits that the line is full, and of one more.
#[test]
fn the_longest_lines() {
    let lent = words(&through());
    for entry in entries() {
        for (digits, refusal) in [(247, 3), (248, 2)] {
            let line = format!("(chain {})\n", "5".repeat(digits));
            assert_eq!(line.len(), 9 + digits);
            let reply = entry.call(&mut lent.clone(), line.as_bytes());
            assert_eq!(shown(&reply), format!("(no {refusal})\n"));
        }
    }
}
