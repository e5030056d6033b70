//! Sound tables for the tests: small ones of random sessions, and full ones.
#![allow(dead_code)]

pub mod any_input;
pub mod at_words;
pub mod built;
pub mod calls;
pub mod closings;
pub mod entries;
pub mod entry_run;
pub mod features;
pub mod joins;
pub mod performed;
pub mod pipes;
pub mod refused;
pub mod tried;

use model::compare::full::{with_requests, with_rows};
use model::limits::{REQUESTS, ROWS};
use model::random::aimed::{aimed, AIMS};
use model::random::alter::{alter, alter_gently};
use model::random::shifted::near_limit;
use model::random::{self, sound_state, Profile, Rng, PROFILES};
use model::words::encode;
use model::{sound, Tables};

/// The two lent runs of words.
pub type Lent = (Vec<u32>, Vec<u32>);

pub fn words(tables: &Tables) -> Lent {
    encode(tables).expect("tables that fit")
}

/// The tables at the end of so many random sessions, of each profile in turn.
pub fn small(sessions: u64, calls: usize) -> impl Iterator<Item = Tables> {
    let profile = |seed: u64| PROFILES[seed as usize % 5];
    (0..sessions).map(move |seed| random::tables(seed, profile(seed), calls))
}

/// Such tables with their numbers moved up: none is left, or a few.
pub fn at_the_end(sessions: u64, calls: usize) -> impl Iterator<Item = Tables> {
    let lefts = (0..4).cycle();
    let all = small(sessions, calls).zip(lefts);
    all.map(|(tables, left)| near_limit(&tables, left))
}

/// Sound tables that no session made, with what is changed in them, aimed at each clause or not, and
/// still sound; and the words of what is not.
pub fn altered(rng: &mut Rng) -> (Vec<Tables>, Vec<(Tables, Lent)>) {
    let tables = sound_state(rng);
    let mut others = vec![alter(rng, &tables), alter_gently(rng, &tables)];
    others.extend(AIMS.iter().filter_map(|(c, _)| aimed(rng, &tables, c)));
    let fitting = others
        .into_iter()
        .filter_map(|other| encode(&other).map(|lent| (other, lent)));
    let (still, broken): (Vec<_>, Vec<_>) = fitting.partition(|(other, _)| sound(other));
    let still = still.into_iter().map(|(other, _)| other);
    ([tables].into_iter().chain(still).collect(), broken)
}

/// Tables with 1,024 rows and no request, tables with 128 requests, and three
/// of random sessions with both.
pub fn full() -> Vec<Tables> {
    let mut all = vec![with_rows(ROWS), with_requests(REQUESTS)];
    let random = (1..100).map(|seed| random::tables(seed, Profile::Full, 2_000));
    let both = random.filter(|t| (t.rows.len(), t.requests.len()) == (ROWS, REQUESTS));
    all.extend(both.take(3));
    assert_eq!(all.len(), 5);
    assert!(all.iter().all(sound));
    all
}
