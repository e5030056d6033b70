//! The lent tables as words: layout, round trip, lengths, any words.

use model::check::words_agree;
use model::random::{self, lines, openings, Profile, Rng, PROFILES};
use model::session::{call, open, Session};
use model::sound;
use model::words::{call_entry, decode, encode, open_entry, PROCESS_WORDS, TABLES_WORDS};

const NEXT: usize = 11_264;

fn fresh() -> (Vec<u32>, Vec<u32>) {
    (vec![0; TABLES_WORDS], vec![0; PROCESS_WORDS])
}

/// An opening and calls on words, each with its answer.
fn run(text: &str, calls: &[(&str, &str)]) -> (Vec<u32>, Vec<u32>) {
    let (mut words, mut processes) = fresh();
    let answer = open_entry(&mut words, &mut processes, text.as_bytes());
    assert_eq!(answer, b"(ok 0)\n");
    for (line, expected) in calls {
        let line = format!("{line}\n");
        let answer = call_entry(&mut words, &mut processes, line.as_bytes());
        assert_eq!(answer, format!("{expected}\n").as_bytes(), "{line}");
    }
    (words, processes)
}

const CALLS: [(&str, &str); 11] = [
    ("(1 hold 1)", "(ok 3)"),
    ("(1 hold 2)", "(ok 4)"),
    ("(1 go 4)", "(ok 0)"),
    ("(1 drop 3)", "(ok 0)"),
    ("(1 hold 1)", "(ok 5)"),
    ("(1 port 5)", "(ok 6)"),
    ("(1 port 5)", "(ok 8)"),
    ("(1 ask 6 (4 3) (9 0) (5 2))", "(no 7)"),
    ("(1 ask 6 (4 3) (8 0) (5 2))", "(ok 10)"),
    ("(2 fetch 7)", "(ok 10 11 8 12)"),
    ("(2 drop 11)", "(ok 0)"),
];

/// The rows 1, 2, 4, 5, 6, 7, 8, 9 and 12 after these calls, one column a
/// line, worked out by hand.
const ROW_COLUMNS: [[u32; 10]; 10] = [
    [1, 2, 4, 5, 6, 7, 8, 9, 12, 0],
    [1, 2, 2, 1, 3, 4, 3, 4, 1, 0],
    [2, 3, 3, 2, 6, 6, 8, 8, 2, 0],
    [5, 0, 0, 5, 0, 0, 0, 0, 5, 0],
    [7, 3, 3, 7, 0, 0, 0, 0, 2, 0],
    [3, 3, 101, 101, 101, 102, 102, 102, 102, 0],
    [0, 0, 2, 1, 4, 4, 4, 4, 4, 0],
    [0, 0, 0, 3, 0, 0, 0, 0, 5, 0],
    [1, 1, 2, 3, 4, 4, 4, 4, 5, 0],
    [0, 0, 0, 0, 0, 0, 0, 0, 10, 0],
];

/// The columns of request 10: item 11 was dropped and left a 0.
const REQUEST_COLUMNS: [u32; 8] = [10, 6, 1, 1, 0, 8, 12, 0];

#[test]
fn layout() {
    assert_eq!((TABLES_WORDS, PROCESS_WORDS), (11_265, 192));
    let text = "(node 3 (op 2 5 7) (dir 3 3))\n(process 1 3)\n(process 2 3)\n(open)\n";
    let (words, processes) = run(text, &CALLS);
    for (column, expected) in ROW_COLUMNS.iter().enumerate() {
        let start = column * 1024;
        assert_eq!(words[start..start + 10], expected[..], "column {column}");
    }
    for (column, expected) in REQUEST_COLUMNS.into_iter().enumerate() {
        let start = 10_240 + column * 128;
        assert_eq!(words[start..start + 2], [expected, 0], "request {column}");
    }
    assert_eq!(words[NEXT], 13);
    assert_eq!(processes[..7], [3, 3, 4, 3, 3, 0, 0]);
}

/// Sessions on words print what sessions on tables print, and the words are
/// those of the tables after every call.
#[test]
fn sessions_on_words() {
    for seed in 0..60 {
        let profile = PROFILES[seed as usize % 5];
        let input = random::session(seed, profile, 60);
        let (mut words, mut processes) = fresh();
        words.fill(77);
        let mut session = Session::begin(&input);
        let printed = open_entry(&mut words, &mut processes, &input);
        assert_eq!(printed, session.opening.print());
        while let Some((line, answer)) = session.step() {
            let printed = call_entry(&mut words, &mut processes, line);
            assert_eq!(printed, answer.print());
            let expected = encode(&session.tables).expect("sound tables");
            assert!(
                expected == (words.clone(), processes.clone()),
                "seed {seed}"
            );
            words_agree(&session.tables).unwrap();
        }
    }
}

/// Full tables have words too.
#[test]
fn full_tables_round_trip() {
    let mut rng = Rng::new(9);
    let (mut tables, _, _) = open(&openings::opening(&mut rng, Profile::Full));
    for _ in 0..3_000 {
        let line = lines::line(&mut rng, Profile::Full, &tables);
        call(&mut tables, &line);
        if tables.rows.len() == 1024 {
            return words_agree(&tables).unwrap();
        }
    }
    panic!("{} rows", tables.rows.len());
}

/// (rule K8) A lent run of another length is 1 for a call; an opening answers it
/// `(no 1 0)` and clears what was lent.
#[test]
fn lengths() {
    let text = b"(node 1)\n(process 1 1)\n(open)\n";
    let sizes = [
        0,
        1,
        PROCESS_WORDS,
        TABLES_WORDS - 1,
        TABLES_WORDS,
        TABLES_WORDS + 1,
    ];
    for tables in sizes {
        for processes in [0, 1, PROCESS_WORDS - 1, PROCESS_WORDS, PROCESS_WORDS + 1] {
            if (tables, processes) == (TABLES_WORDS, PROCESS_WORDS) {
                continue;
            }
            let (mut t, mut p) = (vec![5; tables], vec![5; processes]);
            assert_eq!(call_entry(&mut t, &mut p, b"(1 go 0)\n"), b"(no 1)\n");
            assert!(t.iter().chain(&p).all(|w| *w == 5));
            assert_eq!(open_entry(&mut t, &mut p, text), b"(no 1 0)\n");
            let mut expected = vec![0; tables];
            if tables == TABLES_WORDS {
                expected[NEXT] = 1;
            }
            assert_eq!((t, p), (expected, vec![0; processes]));
        }
    }
}

/// (rule K7) A refused opening answers `(no k line)` and leaves empty tables.
#[test]
fn a_refused_opening_leaves_empty_words() {
    for text in [&b""[..], b"(node 1)\n", b"(node 1 (op 9 9 9))\n(open)\n"] {
        let (mut words, mut processes) = (vec![9; TABLES_WORDS], vec![9; PROCESS_WORDS]);
        let answer = open_entry(&mut words, &mut processes, text);
        assert!(answer.starts_with(b"(no "));
        let (mut empty, no_processes) = fresh();
        empty[NEXT] = 1;
        assert!(words == empty && processes == no_processes);
    }
}

/// Words of a sound state with one word changed: refused with 1 and unchanged,
/// or words of a sound state.
#[test]
fn one_word_changed() {
    let mut rng = Rng::new(10);
    let (mut refused, mut accepted) = (0, 0);
    for seed in 0..150 {
        let input = random::session(seed, PROFILES[seed as usize % 5], 60);
        let mut session = Session::begin(&input);
        while session.step().is_some() {}
        let start = encode(&session.tables).expect("sound tables");
        for _ in 0..20 {
            let (mut words, mut processes) = start.clone();
            change(&mut rng, &mut words, &mut processes);
            let changed = (words.clone(), processes.clone());
            let before = decode(&words, &processes);
            let answer = call_entry(&mut words, &mut processes, b"(1 go 0)\n");
            let good = before.is_some_and(|t| sound(&t));
            assert_eq!(answer != b"(no 1)\n", good, "seed {seed}");
            assert!(good || changed == (words, processes), "seed {seed}");
            refused += u32::from(!good);
            accepted += u32::from(good);
        }
    }
    assert!(refused > 1_000 && accepted > 100, "{refused}, {accepted}");
}

/// One word becomes another; slots near the front are likelier.
fn change(rng: &mut Rng, words: &mut [u32], processes: &mut [u32]) {
    let values = [0, 1, 2, 3, 4, 5, 7, 8, 12, 13, 101, 102, 200, 201, u32::MAX];
    let value = rng.pick(&values).unwrap_or(0);
    match rng.below(10) {
        0 => processes[rng.below(12)] = value,
        1 => words[NEXT] = words[NEXT].wrapping_add(value),
        2 => words[rng.below(TABLES_WORDS)] = value,
        3 | 4 => words[10_240 + rng.below(8) * 128 + rng.below(4)] = value,
        _ => words[rng.below(10) * 1024 + rng.below(40)] = value,
    }
}

/// A word in any unused slot, or a source word that names no older slot.
#[test]
fn unused_slots_and_sources() {
    let mut rng = Rng::new(11);
    let text = b"(node 1 (op 1 0 7) (dir 1 7))\n(process 1 1)\n(open)\n";
    let (mut words, mut processes) = fresh();
    open_entry(&mut words, &mut processes, text);
    call_entry(&mut words, &mut processes, b"(1 hold 1)\n");
    let refused = |at: usize, value: u32| {
        let (mut words, mut processes) = (words.clone(), processes.clone());
        words[at] = value;
        let changed = words.clone();
        let answer = call_entry(&mut words, &mut processes, b"(1 go 0)\n");
        assert_eq!(answer, b"(no 1)\n", "word {at} is {value}");
        assert!(words == changed);
    };
    for column in 0..10 {
        for slot in [3, 4, 500, 1023] {
            refused(column * 1024 + slot, 1 + rng.below(300) as u32);
        }
    }
    for column in 0..8 {
        for slot in [0, 1, 127] {
            refused(10_240 + column * 128 + slot, 1 + rng.below(4) as u32);
        }
    }
    for word in [0, 3, 4, 5, 1024, 1025, u32::MAX] {
        refused(6 * 1024 + 2, word);
    }
    for word in [1, 3, 4, u32::MAX] {
        refused(7 * 1024 + 2, word);
    }
}

/// Any words of any length: an answer without a panic.
#[test]
fn any_words() {
    let mut rng = Rng::new(12);
    for round in 0..400 {
        let (tables, processes) = match round % 4 {
            0 => (rng.below(12_000), rng.below(300)),
            _ => (TABLES_WORDS, PROCESS_WORDS),
        };
        let small = round % 2 == 0;
        let mut word = |_| match small {
            true => rng.below(6) as u32,
            false => rng.word() as u32,
        };
        let mut t: Vec<u32> = (0..tables).map(&mut word).collect();
        let mut p: Vec<u32> = (0..processes).map(&mut word).collect();
        let before = (t.clone(), p.clone());
        assert_eq!(call_entry(&mut t, &mut p, b"(1 go 0)\n"), b"(no 1)\n");
        assert!(before == (t, p));
    }
}
