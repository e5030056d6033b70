//! Soundness of words of any length and content: the answer is the model's.

mod common;

use common::{at_the_end, full, small, words, Lent};
use kernel::reading;
use model::limits::{REQUESTS, ROWS};
use model::random::aimed::{aimed, AIMS};
use model::random::alter::{alter, alter_gently};
use model::random::Rng;
use model::words::{decode, encode, PROCESS_WORDS, TABLES_WORDS};
use model::{broken, sound, Tables};
use std::collections::BTreeMap;

/// The model's answer: the words stand for tables, and these are sound.
fn expected(lent: &Lent) -> bool {
    decode(&lent.0, &lent.1).is_some_and(|tables| sound(&tables))
}

fn answer(lent: &Lent) -> bool {
    reading::sound(&lent.0, &lent.1)
}

/// How often words were sound, and how often not.
#[derive(Default, Debug)]
struct Counts {
    sound: u32,
    not: u32,
}

impl Counts {
    /// The proved function's answer is the model's; where it is not, the clauses that
    /// the model finds broken are shown.
    fn compare(&mut self, lent: &Lent, about: &str) {
        let expected = expected(lent);
        if answer(lent) != expected {
            let clauses = decode(&lent.0, &lent.1).map(|tables| broken(&tables));
            panic!("{about}: the model says {expected}, broken: {clauses:?}");
        }
        match expected {
            true => self.sound += 1,
            false => self.not += 1,
        }
    }
}

#[test]
fn tables_of_sessions_are_sound() {
    let mut counts = Counts::default();
    let random = small(1_000, 120).chain(at_the_end(200, 120));
    for tables in random.chain(full()) {
        counts.compare(&words(&tables), "a session");
    }
    assert_eq!((counts.sound, counts.not), (1_205, 0));
}

/// Words have no room for more rows and requests.
const NO_WORDS: &str = "at most 1,024 rows and 128 requests";

/// A row in a node that is neither opening nor registered breaks another
/// clause too.
const NEVER_ALONE: &str = "only opening and registered rows in nodes";

/// Each clause broken by an alteration aimed at it, at least 100 times, and at
/// least once no other.
#[test]
fn each_clause_is_tested() {
    let mut rng = Rng::new(6);
    let mut counts = Counts::default();
    let mut times: BTreeMap<&str, (u32, u32)> = BTreeMap::new();
    for tables in small(600, 120).chain(at_the_end(100, 120)) {
        for (clause, _) in AIMS {
            let Some(altered) = aimed(&mut rng, &tables, clause) else {
                continue;
            };
            let broken = broken(&altered);
            assert!(broken.contains(&clause), "{clause}");
            if let Some(lent) = encode(&altered) {
                counts.compare(&lent, clause);
                assert!(!answer(&lent), "{clause}");
                let (any, alone) = times.entry(clause).or_default();
                *any += 1;
                *alone += u32::from(broken == [clause]);
            }
        }
    }
    for (clause, _) in AIMS.iter().filter(|(clause, _)| *clause != NO_WORDS) {
        let (any, alone) = times.get(clause).copied().unwrap_or_default();
        assert!(any >= 100, "{clause}: {any} times");
        assert!(alone > 0 || *clause == NEVER_ALONE, "{clause}: alone");
    }
    assert_eq!(times.get(NO_WORDS), None);
    assert_eq!(counts.sound, 0);
}

/// The clauses that words can break, on full tables.
#[test]
fn clauses_on_full_tables() {
    let mut rng = Rng::new(7);
    let mut counts = Counts::default();
    for tables in full() {
        for (clause, _) in AIMS {
            let altered = aimed(&mut rng, &tables, clause);
            if let Some(lent) = altered.and_then(|altered| encode(&altered)) {
                counts.compare(&lent, clause);
            }
        }
    }
    assert!(counts.sound == 0 && counts.not >= 75, "{counts:?}");
}

/// Tables with some fields altered, which may be sound or not.
#[test]
fn altered_tables() {
    let mut rng = Rng::new(8);
    let mut counts = Counts::default();
    for tables in small(600, 90).chain(at_the_end(100, 90)) {
        for _ in 0..10 {
            let gently = alter_gently(&mut rng, &tables);
            let anyhow = alter(&mut rng, &tables);
            for lent in [gently, anyhow].iter().filter_map(encode) {
                counts.compare(&lent, "altered tables");
            }
        }
    }
    assert!(counts.sound >= 1_000 && counts.not >= 3_000, "{counts:?}");
}

/// A position among the words in use, or any.
fn any_word(rng: &mut Rng, tables: &Tables) -> usize {
    match rng.below(4) {
        0 => rng.below(TABLES_WORDS),
        1 => 10 * ROWS + rng.below(8) * REQUESTS + rng.below(tables.requests.len() + 1),
        _ => rng.below(10) * ROWS + rng.below(tables.rows.len() + 1),
    }
}

/// One bit flipped, most often a low one, or one word changed.
#[test]
fn words_with_one_changed() {
    let mut rng = Rng::new(9);
    let mut counts = Counts::default();
    for tables in small(800, 90).chain(at_the_end(100, 90)) {
        let lent = words(&tables);
        for way in 0..12 {
            let mut changed = lent.clone();
            let word = match way % 4 {
                0 => &mut changed.1[rng.below(PROCESS_WORDS)],
                _ => {
                    let at = any_word(&mut rng, &tables).min(TABLES_WORDS - 1);
                    &mut changed.0[at]
                }
            };
            match way % 3 {
                0 => *word ^= 1 << rng.below(32),
                1 => *word ^= 1 << rng.below(5),
                _ => *word = rng.between(0, 40),
            }
            counts.compare(&changed, "one word changed");
        }
    }
    assert!(counts.sound >= 200 && counts.not >= 6_000, "{counts:?}");
}

/// So many words, each below a limit, or 0 for most.
fn random_words(rng: &mut Rng, count: usize, limit: u64, most_0: bool) -> Vec<u32> {
    let mut word = || (rng.word() % limit) as u32;
    let words = (0..count).map(|_| match most_0 && word() % 8 != 0 {
        true => 0,
        false => word(),
    });
    words.collect()
}

#[test]
fn random_words_of_any_size() {
    let mut rng = Rng::new(10);
    let mut counts = Counts::default();
    for _ in 0..200 {
        for limit in [1, 2, 5, 40, 200, 1 << 20, 1 << 32] {
            let most_0 = rng.percent(50);
            let tables = random_words(&mut rng, TABLES_WORDS, limit, most_0);
            let processes = random_words(&mut rng, PROCESS_WORDS, limit.min(33), most_0);
            counts.compare(&(tables, processes), "random words");
        }
    }
    assert!(counts.not >= 1_000, "{counts:?}");
}

/// Sound tables cut or made longer, in one run or both: only the right lengths
/// are sound.
#[test]
fn wrong_lengths() {
    let tables_lengths = [0, 1, 191, 192, 193, 11264, 11265, 11266, 22530];
    let processes_lengths = [0, 1, 191, 192, 193, 384, 11264, 11265];
    for tables in small(10, 60).chain([Tables::empty()]).chain(full()) {
        let (words, records) = words(&tables);
        for t in tables_lengths {
            for p in processes_lengths {
                let mut lent = (words.clone(), records.clone());
                lent.0.resize(t, 0);
                lent.1.resize(p, 0);
                let right = (t, p) == (TABLES_WORDS, PROCESS_WORDS);
                assert_eq!(expected(&lent), right, "{t} and {p} words");
                assert_eq!(answer(&lent), right, "{t} and {p} words");
            }
        }
    }
}
