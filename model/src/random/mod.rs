//! Random sessions, damaged texts, pairs of texts, altered tables, sound tables and rows of any
//! content, from a seed; `shifted` raises their numbers.

pub mod aimed;
pub mod alter;
pub mod any_rows;
pub mod damage;
pub mod lines;
pub mod openings;
pub mod pairs;
pub mod prng;
pub mod profile;
pub mod shifted;
pub mod sound_states;
pub mod texts;

pub use prng::Rng;
pub use profile::{Profile, PROFILES, SMALL};
pub use sound_states::{sound_state, sound_state_of, Calls, Shape, SHAPES, SMALL_SHAPES};

use crate::session::{call_sound, open};
use crate::tables::Tables;

/// A whole session: an opening that is accepted, then this many call lines,
/// most of which are accepted.
pub fn session(seed: u64, profile: Profile, calls: usize) -> Vec<u8> {
    played(seed, profile, calls).0
}

/// The tables that its calls leave, each made by itself. Where a damaged line has
/// no line feed, or more than one, the session as a text has other calls.
pub fn tables(seed: u64, profile: Profile, calls: usize) -> Tables {
    played(seed, profile, calls).1
}

fn played(seed: u64, profile: Profile, calls: usize) -> (Vec<u8>, Tables) {
    let mut rng = Rng::new(seed);
    let mut text = openings::opening(&mut rng, profile);
    let (mut tables, _, _) = open(&text);
    for _ in 0..calls {
        let line = lines::line(&mut rng, profile, &tables);
        call_sound(&mut tables, &line);
        text.extend(line);
    }
    (text, tables)
}
