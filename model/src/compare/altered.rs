//! Altered tables with the verdict of `sound`.

use super::antt::state;
use super::case::{name, Case};
use super::random_tables::some_tables;
use crate::random::aimed::{aimed, AIMS};
use crate::random::alter::{alter, alter_gently};
use crate::random::Rng;
use crate::sound::broken;
use crate::tables::Tables;

/// The definitions find these tables sound, or not, as the model does; none
/// where they are no state of the definitions.
pub fn case(name: String, about: &str, tables: &Tables) -> Option<Case> {
    let state = state(tables)?;
    let broken = broken(tables);
    let (verdict, claim) = match broken.first() {
        None => ("sound".to_string(), format!("sound {state}")),
        Some(clause) => (
            format!("not sound: {clause}"),
            format!("not (sound {state})"),
        ),
    };
    Some(Case {
        name,
        about: format!("{about}, the model says {verdict}"),
        claim,
        files: vec![("tables", tables.print().into_bytes())],
    })
}

/// Altered tables, in turn: aimed at a clause (each clause in turn, twice),
/// altered anywhere, altered gently so that many stay sound.
pub fn altered(rng: &mut Rng, count: usize) -> Vec<Case> {
    let mut cases: Vec<Case> = Vec::new();
    let mut clauses = AIMS.iter().map(|(clause, _)| *clause).cycle();
    while cases.len() < count {
        let (tables, _) = some_tables(rng);
        let (about, altered) = match cases.len() % 4 {
            0 => ("tables altered".to_string(), alter(rng, &tables)),
            1 => (
                "tables altered gently".to_string(),
                alter_gently(rng, &tables),
            ),
            _ => {
                let clause = clauses.next().unwrap_or_default();
                let about = format!("tables altered for '{clause}'");
                (about, aimed_alone(rng, clause).unwrap_or(tables))
            }
        };
        cases.extend(case(name("sound", cases.len()), &about, &altered));
    }
    cases
}

/// Tables in which the clause is broken, if possible no other with it.
fn aimed_alone(rng: &mut Rng, clause: &str) -> Option<Tables> {
    let mut found = None;
    for _ in 0..TRIES {
        let (tables, _) = some_tables(rng);
        let altered = aimed(rng, &tables, clause);
        if altered.as_ref().is_some_and(|t| broken(t) == [clause]) {
            return altered;
        }
        found = altered.or(found);
    }
    found
}

/// How many tables are tried for a clause.
const TRIES: usize = 60;
