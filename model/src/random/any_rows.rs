//! Words of tables whose rows have any numbers, most of them next to those that have a meaning.

use super::Rng;
use crate::limits::ROWS;
use crate::words::{DEPTH, KIND, NUMBER, PLACE, RIGHTS, TABLES_WORDS};

/// Codes of places, and those next to them.
const PLACES: [u32; 18] = [
    0, 1, 9, 10, 31, 32, 33, 99, 100, 101, 109, 110, 164, 165, 199, 200, 201, 300,
];

/// Words of which the first slots are in use; after them a slot with number 0, and some of any content.
pub fn any_rows(rng: &mut Rng, used: usize) -> Vec<u32> {
    let mut words = vec![0; TABLES_WORDS];
    let slots = (used + 1 + rng.below(3)).min(ROWS);
    for slot in 0..slots {
        let mut put = |column: usize, word: u32| words[column * ROWS + slot] = word;
        put(NUMBER, any_number(rng).max(1));
        put(KIND, near(rng, 5));
        put(PLACE, place(rng));
        put(RIGHTS, near(rng, 9));
        put(DEPTH, near(rng, 13));
    }
    if let Some(first) = words.get_mut(used).filter(|_| used < ROWS) {
        *first = 0;
    }
    words
}

/// A number of each count of digits as often as any, up to the greatest word.
fn any_number(rng: &mut Rng) -> u32 {
    let digits = rng.between(1, 10);
    let least = 10u32.pow(digits - 1);
    rng.between(least, least.saturating_mul(10))
}

/// Most often a number up to this one.
fn near(rng: &mut Rng, most: u32) -> u32 {
    match rng.percent(80) {
        true => rng.between(0, most),
        false => any_number(rng),
    }
}

fn place(rng: &mut Rng) -> u32 {
    match rng.below(4) {
        0 => rng.pick(&PLACES).unwrap_or(0),
        1 => any_number(rng),
        2 => rng.between(1, 32),
        _ => rng.between(101, 164),
    }
}
