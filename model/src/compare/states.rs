//! Calls on sound tables that no session made, each ground of each refusal as often as any.

use super::case::{name, Case};
use super::tables::case;
use crate::random::{sound_state_of, Calls, Rng, Shape, SMALL_SHAPES};
use crate::tables::Tables;

/// So many calls, on tables of the small shapes in turn.
pub fn states(rng: &mut Rng, count: usize) -> Vec<Case> {
    let mut calls = Calls::default();
    let mut cases = Vec::new();
    for shape in SMALL_SHAPES.into_iter().cycle().take(count) {
        let (tables, line) = state_call(rng, shape, &mut calls);
        let about = format!("chosen call on sound tables, {shape:?}");
        cases.extend(case(name("state", cases.len()), about, &tables, &line));
    }
    cases
}

/// Sound tables of this shape, and a call on them.
pub fn state_call(rng: &mut Rng, shape: Shape, calls: &mut Calls) -> (Tables, Vec<u8>) {
    let tables = sound_state_of(rng, shape);
    let line = calls.call(rng, &tables).print();
    (tables, line)
}
