//! Calls on sound tables, chosen so that each ground of each refusal decides as often as any.

use crate::answer::Answer;
use crate::call::Call;
use crate::random::lines::near_call;
use crate::random::{Rng, PROFILES};
use crate::refusals::decided_by;
use crate::relations::{first_chain, pair_values};
use crate::tables::Tables;
use std::collections::{BTreeMap, BTreeSet};

/// How many calls are proposed for one.
const PROPOSALS: usize = 40;

/// How often each ground decided so far.
#[derive(Default)]
pub struct Calls {
    pub seen: BTreeMap<String, u64>,
}

/// What decides, by the rule's name; of an answer with its last number too, of a chain with how
/// many rows it has, of a comesall with the values that are among those answered.
fn ground(tables: &Tables, call: &Call) -> Option<String> {
    let rule = decided_by(tables, call)?;
    match call {
        Call::Answer { last, .. } => Some(format!("{rule} with {}", last.min(&2))),
        Call::Chain { row } => Some(format!("{rule} of {}", first_chain(tables, *row).len())),
        Call::ComesAll { pairs } if rule == "comesall-ok" => {
            let values: BTreeSet<_> = pair_values(tables, pairs).into_iter().collect();
            let printed = Answer::Values(values.into_iter().collect()).print();
            let printed = String::from_utf8_lossy(&printed);
            Some(format!("{rule} with {}", printed.trim_end()))
        }
        _ => Some(rule),
    }
}

impl Calls {
    /// Of some calls on the tables the one whose ground decided the fewest so far.
    pub fn call(&mut self, rng: &mut Rng, tables: &Tables) -> Call {
        let profile = rng.pick(&PROFILES).unwrap_or(PROFILES[0]);
        let mut chosen = near_call(rng, profile, tables);
        let mut name = ground(tables, &chosen);
        for _ in 0..PROPOSALS {
            let call = near_call(rng, profile, tables);
            let other = ground(tables, &call);
            if other.is_some() && (name.is_none() || self.often(&other) < self.often(&name)) {
                (chosen, name) = (call, other);
            }
        }
        if let Some(name) = name {
            *self.seen.entry(name).or_default() += 1;
        }
        chosen
    }

    fn often(&self, name: &Option<String>) -> u64 {
        let seen = name.as_ref().and_then(|name| self.seen.get(name));
        seen.copied().unwrap_or(0)
    }
}
