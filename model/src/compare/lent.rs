//! Which rows of sound tables are lent (rule L8). No call asks it of an end, so it is compared by itself.

use super::antt::{list, state};
use super::case::{name, same, Case};
use crate::random::{sound_state_of, Rng, Shape};
use crate::relations::lent_rows;

/// So many tables with requests that list ends.
pub fn lent(rng: &mut Rng, count: usize) -> Vec<Case> {
    let mut cases = Vec::new();
    while cases.len() < count {
        let tables = sound_state_of(rng, Shape::Loans);
        let lent = lent_rows(&tables);
        let Some(state) = state(&tables).filter(|_| !lent.is_empty()) else {
            continue;
        };
        cases.push(Case {
            name: name("lent", cases.len()),
            about: format!(
                "sound tables, the model says that {} rows are lent",
                lent.len()
            ),
            claim: same(&format!("tell_lent {state}"), &list(lent.into_iter().rev())),
            files: vec![("tables", tables.print().into_bytes())],
        });
    }
    cases
}
