//! Soundness: every clause can break, and calls on sound tables of any origin
//! leave sound tables.

use model::random::aimed::{aimed, AIMS};
use model::random::shifted::near_limit;
use model::random::{self, alter, lines, Profile, Rng, PROFILES};
use model::session::{call, Session};
use model::sound::CLAUSES;
use model::words::{call_entry, encode};
use model::{broken, sound, Tables};
use std::collections::BTreeMap;

/// The tables at the end of a random session, one in four raised to the limit.
fn tables(seed: u64, calls: usize) -> Tables {
    let profile = match seed % 2 {
        0 => PROFILES[seed as usize / 2 % 5],
        _ => Profile::Nested,
    };
    let input = random::session(seed, profile, calls);
    let mut session = Session::begin(&input);
    while session.step().is_some() {}
    match seed % 4 {
        3 => near_limit(&session.tables, (seed / 4 % 6) as u32),
        _ => session.tables,
    }
}

#[test]
fn every_clause_has_an_aim() {
    let clauses: Vec<&str> = CLAUSES.iter().map(|(name, _)| *name).collect();
    let aims: Vec<&str> = AIMS.iter().map(|(name, _)| *name).collect();
    assert_eq!(clauses, aims);
}

/// A row in a node that is neither opening nor registered is none of the five
/// kinds (rule S13), or bears a number that no request lists.
const NEVER_ALONE: [&str; 1] = ["only opening and registered rows in nodes"];

/// Each clause is broken 100 times by an alteration aimed at it; most clauses
/// break alone, so none of these can be left out.
#[test]
fn each_clause_is_broken_and_named() {
    let mut rng = Rng::new(7);
    let mut named: BTreeMap<&str, u32> = BTreeMap::new();
    let mut alone: BTreeMap<&str, u32> = BTreeMap::new();
    for seed in 0..400 {
        let tables = tables(seed, 120);
        assert!(sound(&tables));
        for (clause, _) in AIMS {
            let Some(altered) = aimed(&mut rng, &tables, clause) else {
                continue;
            };
            let broken = broken(&altered);
            assert!(broken.contains(&clause), "{clause}:\n{}", altered.print());
            *named.entry(clause).or_default() += 1;
            *alone.entry(clause).or_default() += u32::from(broken == [clause]);
            refused_with_1(altered);
        }
    }
    for (clause, _) in AIMS {
        let (named, alone) = (named[clause], alone[clause]);
        assert!(named >= 100, "{clause}: {named}");
        assert!(alone > 0 || NEVER_ALONE.contains(&clause), "{clause} alone");
    }
}

/// Tables that are not sound: `(no 1)` before anything else, nothing changed,
/// as tables and as words.
fn refused_with_1(altered: Tables) {
    assert!(!sound(&altered));
    for line in [&b"(1 go 0)\n"[..], b"(1 go 00)\n", b""] {
        let mut after = altered.clone();
        assert_eq!(call(&mut after, line).refusal(), Some(1));
        assert_eq!(after, altered);
        if let Some((mut words, mut processes)) = encode(&altered) {
            let before = (words.clone(), processes.clone());
            let answer = call_entry(&mut words, &mut processes, line);
            assert_eq!(answer, b"(no 1)\n");
            assert_eq!((words, processes), before);
        }
    }
}

/// Altered tables that are still sound, most of which no session reaches: any
/// call leaves them sound or unchanged.
#[test]
fn calls_keep_altered_tables_sound() {
    let mut rng = Rng::new(8);
    let (mut kept, mut refused) = (0, 0);
    for seed in 0..400 {
        let start = tables(seed, 80);
        for _ in 0..40 {
            let mut altered = match rng.below(2) {
                0 => alter::alter(&mut rng, &start),
                _ => alter::alter_gently(&mut rng, &start),
            };
            if altered == start || !sound(&altered) {
                refused += 1;
                continue;
            }
            kept += 1;
            some_calls(&mut rng, &mut altered);
        }
    }
    assert!(
        kept > 3_000 && refused > 3_000,
        "{kept} sound, {refused} not"
    );
}

fn some_calls(rng: &mut Rng, tables: &mut Tables) {
    for _ in 0..12 {
        let before = tables.clone();
        let line = lines::line(rng, Profile::Loans, tables);
        let answer = call(tables, &line);
        let text = String::from_utf8_lossy(&line);
        assert_eq!(broken(tables), [""; 0], "{}{text}", before.print());
        assert!(answer.accepted() || *tables == before);
        assert_ne!(answer.refusal(), Some(1));
    }
}

/// Tables as text and back.
#[test]
fn tables_print_and_parse() {
    for seed in 0..100 {
        let tables = tables(seed, 100);
        let back = Tables::parse(&tables.print()).expect("printed tables");
        assert_eq!(back.print(), tables.print());
        assert_eq!(back.rows, tables.rows);
        assert!(sound(&back));
    }
    for text in [
        "next",
        "next x",
        "P 0 1 1 0",
        "P 65 1 1 0",
        "R 1",
        "Q 1 1 1",
        "x",
    ] {
        assert_eq!(Tables::parse(text), None, "{text}");
    }
}
