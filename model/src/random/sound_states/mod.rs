//! Sound tables that no session made, built from the meaning of soundness (docs/MANUAL.md,
//! chapter 6): a row is given sources that S13 allows and nothing more, a request
//! any ends that stand, a place is what S26 leaves open. No call takes part in it.

mod builder;
pub mod calls;
pub mod edges;
pub mod kinds;

use super::prng::Rng;
use super::shifted::{near_limit, room};
use crate::limits::{DEEPEST, LAST_NUMBER, REQUESTS, ROWS};
use crate::tables::Tables;
use builder::Builder;
pub use calls::Calls;

/// What the tables are rich in.
#[derive(Clone, Copy, PartialEq, Eq, Debug)]
pub enum Shape {
    /// Up to 12 rows.
    Few,
    /// Up to 40 rows of every kind.
    Mixed,
    /// Rows made from the deepest there are.
    Deep,
    /// Many requests that list the same ends.
    Loans,
    /// 1,022 to 1,024 rows.
    FullRows,
    /// 127 or 128 requests.
    FullRequests,
}

pub const SHAPES: [Shape; 6] = [
    Shape::Few,
    Shape::Mixed,
    Shape::Deep,
    Shape::Loans,
    Shape::FullRows,
    Shape::FullRequests,
];

/// The shapes whose tables stay small.
pub const SMALL_SHAPES: [Shape; 4] = [Shape::Few, Shape::Mixed, Shape::Deep, Shape::Loans];

/// Sound tables of any shape, one in a hundred of them full.
pub fn sound_state(rng: &mut Rng) -> Tables {
    let shapes: &[Shape] = match rng.percent(1) {
        true => &SHAPES,
        false => &SMALL_SHAPES,
    };
    let shape = rng.pick(shapes).unwrap_or(Shape::Mixed);
    sound_state_of(rng, shape)
}

/// Sound tables of this shape.
pub fn sound_state_of(rng: &mut Rng, shape: Shape) -> Tables {
    let rows = match shape {
        Shape::Few => rng.below(13),
        Shape::Mixed | Shape::Loans => rng.between(10, 40) as usize,
        Shape::Deep => rng.between(2 * DEEPEST, 40) as usize,
        Shape::FullRows => ROWS - rng.weighted(&[4, 2, 1]),
        Shape::FullRequests => rng.between(300, 420) as usize,
    };
    let requests = match shape {
        Shape::FullRequests => REQUESTS - rng.weighted(&[3, 1]),
        Shape::FullRows => 20,
        _ => rng.below(9),
    };
    let mut builder = Builder::begin(rng, shape);
    builder.fill(rows, requests);
    let tables = builder.finish();
    at_some_number(rng, tables)
}

/// The same tables with every number raised by the same, and a next number above them:
/// often as small as it can be, often the last.
fn at_some_number(rng: &mut Rng, tables: Tables) -> Tables {
    let mut tables = match rng.below(20) {
        0..=1 => near_limit(&tables, 0),
        2..=3 => near_limit(&tables, rng.between(0, 5)),
        4 => near_limit(&tables, rng.between(0, LAST_NUMBER)),
        _ => tables,
    };
    let room = room(&tables);
    tables.next += match rng.below(20) {
        0 => room,
        1 => room - room.min(rng.between(0, 5)),
        2..=4 => room.min(rng.between(0, 8)),
        _ => 0,
    };
    tables
}
