//! What calls do, as names; calls and sessions are chosen so that as many of
//! these as possible are among them.

use crate::answer::Answer;
use crate::call::{read_call, Call, Pair};
use crate::limits::LAST_NUMBER;
use crate::random::shifted::near_limit;
use crate::random::{lines, openings, Profile, Rng, SMALL};
use crate::refusals;
use crate::relations::{comes_from, first_chain};
use crate::session::{call_sound, open};
use crate::tables::{Place, Request, Row, Tables};
use std::collections::{BTreeMap, BTreeSet};

/// Names of what one call does.
type Features = BTreeSet<String>;

/// What a call did: its answer, all refusals that applied, what is new, gone,
/// moved or struck.
fn features(before: &Tables, line: &[u8], answer: &Answer, after: &Tables) -> Features {
    let Some(call) = read_call(line) else {
        return Features::from(["bad form".to_string()]);
    };
    let mut found = Features::new();
    if let Answer::Values(values) = answer {
        found.extend(of_pairs(before, call.pairs(), values));
    }
    if let Answer::Ok(numbers) = answer {
        found.extend(of_rows(before, after));
        found.extend(of_ends(before, after));
        found.extend(of_requests(before, after));
        found.extend(of_processes(before, after));
        found.insert(format!("answers {} numbers", numbers.len()));
        found.extend(of_chain(before, &call));
        if before.next <= LAST_NUMBER && LAST_NUMBER < after.next {
            found.insert("gives the last number".to_string());
        }
    }
    found.extend(of_refusals(before, &call));
    let word = word(&call);
    found.into_iter().map(|f| format!("{word}: {f}")).collect()
}

fn word(call: &Call) -> String {
    match call {
        Call::One { word, .. } => format!("{word:?}"),
        Call::Ask { items, .. } => format!("Ask {}", items.len().min(5)),
        Call::Answer { last, .. } => format!("Answer {}", last.min(&2)),
        Call::Comes { .. } => "Comes".to_string(),
        Call::Chain { .. } => "Chain".to_string(),
        Call::ComesAll { .. } => "ComesAll".to_string(),
    }
}

/// The refusals that apply, the lowest with each of the others.
fn of_refusals(tables: &Tables, call: &Call) -> Features {
    let tests = refusals::tests(tables, call);
    let applying: BTreeSet<u32> = tests.iter().filter(|t| t.1).map(|t| t.0).collect();
    let lowest = applying.first().copied().unwrap_or(0);
    let pairs = applying
        .iter()
        .map(|k| format!("refused {lowest} before {k}"));
    pairs.collect()
}

/// (rule S13) What sort of row it is, of the five.
fn sort(row: &Row) -> String {
    let via = if row.via == 0 { "" } else { " via" };
    let origin = match (row.in_node(), row.request != 0, row.is_end()) {
        (true, _, _) => "registered",
        (_, true, _) => "copied",
        (_, _, true) => "end",
        _ => "held",
    };
    format!("{:?} {origin}{via}", row.kind)
}

fn of_rows(before: &Tables, after: &Tables) -> Features {
    let new = after.rows.iter().filter(|r| before.row(r.number).is_none());
    let gone: Vec<&Row> = before
        .rows
        .iter()
        .filter(|r| after.row(r.number).is_none())
        .collect();
    let mut found = Features::new();
    for row in new {
        found.insert(format!("new {}", sort(row)));
        found.insert(format!("new of depth {}", row.depth));
    }
    for row in &gone {
        found.insert(format!("gone {}", sort(row)));
    }
    found.insert(format!("rows gone: {}", gone.len().min(4)));
    found
}

/// The sort of a row whose chain is asked for, and those of the rows on the way that have a second
/// source; no other call has any.
fn of_chain(tables: &Tables, call: &Call) -> Features {
    let Call::Chain { row } = call else {
        return Features::new();
    };
    let chain = first_chain(tables, *row);
    let rows = chain.iter().filter_map(|n| tables.row(*n));
    let last = tables.row(*row).map(|r| format!("of {}", sort(r)));
    let second = rows.filter(|r| r.via != 0);
    let passed = second.map(|r| format!("past the second source of {}", sort(r)));
    passed.chain(last).collect()
}

/// How many pairs a comesall has, the value at each place, and why it is that.
fn of_pairs(tables: &Tables, pairs: &[Pair], values: &[Option<bool>]) -> Features {
    let mut found = Features::from([format!("{} pairs", pairs.len())]);
    for (at, (pair, value)) in pairs.iter().zip(values).enumerate() {
        found.insert(format!("{value:?} at {at}"));
        found.insert(of_pair(tables, pair));
        if pairs[..at].contains(pair) {
            found.insert("an equal pair".to_string());
        }
        if values[..at].contains(&None) {
            found.insert(format!("{value:?} after none"));
        }
    }
    if !pairs.is_sorted_by_key(|p| p.row) {
        found.insert("not in rising number".to_string());
    }
    found
}

/// What of the pair is missing; else by which sources its row comes from the request, and whether
/// the row bears it or is on loan in it.
fn of_pair(tables: &Tables, pair: &Pair) -> String {
    let request = tables.request(pair.request);
    let (Some(row), Some(request)) = (tables.row(pair.row), request) else {
        let stands = tables.row(pair.row).is_some();
        return format!("row stands {stands}, request open {}", request.is_some());
    };
    let by = |source: u32| comes_from(tables, source, pair.request);
    format!(
        "bears {}, by first source {}, by second {}, listed {}",
        row.request == pair.request,
        by(row.source),
        by(row.via),
        request.lists(row.number)
    )
}

/// Ends that go to another place: how many requests listed them, and whether
/// the askers of the oldest and of the newest are two.
fn of_ends(before: &Tables, after: &Tables) -> Features {
    let mut found = Features::new();
    for old in before.rows.iter().filter(|r| r.is_end()) {
        let Some(new) = after.row(old.number).filter(|new| new.place != old.place) else {
            continue;
        };
        let listing = before.requests.iter().filter(|q| q.lists(old.number));
        let listing: Vec<&Request> = listing.collect();
        let asker = |q: Option<&&Request>| q.map_or(0, |q| q.asker);
        let two = asker(listing.first()) != asker(listing.last());
        let closed = listing.iter().filter(|q| after.request(q.number).is_none());
        let (closed, from) = (closed.count(), old.place == Place::System);
        let listed = listing.len().min(4);
        found.insert(format!(
            "moves {:?}, listed {listed}, closed {closed}, two askers {two}, from system {from}",
            new.kind
        ));
    }
    found
}

/// Requests closed, and items struck from others, by sort and whether the row
/// still stands.
fn of_requests(before: &Tables, after: &Tables) -> Features {
    let mut found = Features::new();
    let mut closed = 0;
    for old in &before.requests {
        let Some(new) = after.request(old.number) else {
            closed += 1;
            found.insert(format!("closes one with {} items", old.listed().count()));
            continue;
        };
        for item in old.listed().filter(|i| !new.lists(*i)) {
            let kind = before.row(item).map(|r| r.kind);
            let stands = after.row(item).is_some();
            found.insert(format!(
                "struck {kind:?}, stands {stands}, fetched {}",
                new.fetched
            ));
        }
    }
    found.insert(format!("closes {}", closed.min(4)));
    found
}

/// Processes whose record changed.
fn of_processes(before: &Tables, after: &Tables) -> Features {
    let both = before.processes.iter().zip(&after.processes);
    let changed = both.filter(|(old, new)| old != new).count();
    Features::from([format!("processes moved: {}", changed.min(3))])
}

/// One random session under way.
struct Run {
    profile: Profile,
    rng: Rng,
    text: Vec<u8>,
    tables: Tables,
}

impl Run {
    fn begin(seed: u64, profile: Profile) -> Run {
        let mut rng = Rng::new(seed);
        let text = openings::opening(&mut rng, profile);
        let (tables, _, _) = open(&text);
        Run {
            profile,
            rng,
            text,
            tables,
        }
    }

    /// The next call: the tables before it, its line and its features.
    fn step(&mut self) -> (Tables, Vec<u8>, Features) {
        let before = self.tables.clone();
        let line = lines::line(&mut self.rng, self.profile, &before);
        let answer = call_sound(&mut self.tables, &line);
        let features = features(&before, &line, &answer, &self.tables);
        self.text.extend(&line);
        (before, line, features)
    }
}

/// The most rows of tables on which a single call is compared.
const MOST_ROWS: usize = 40;

/// So many calls with the tables before them, chosen out of random sessions
/// of 150 calls. In some sessions the numbers run out.
pub fn calls(rng: &mut Rng, count: usize) -> Vec<(Tables, Vec<u8>)> {
    let mut pool = Vec::new();
    let mut seen = Features::new();
    for _ in 0..count * 4 {
        let profile = rng.pick(&SMALL).unwrap_or(Profile::Loans);
        let mut run = Run::begin(rng.word(), profile);
        if rng.percent(10) {
            run.tables = near_limit(&run.tables, rng.between(0, 60));
        }
        for _ in 0..150 {
            let (before, line, features) = run.step();
            if before.rows.len() <= MOST_ROWS && !features.is_subset(&seen) {
                seen.extend(features.iter().cloned());
                pool.push(((before, line), features));
            }
        }
    }
    choose(pool, count)
}

/// So many random sessions of so many calls, chosen out of many.
pub fn sessions(rng: &mut Rng, count: usize, calls: usize) -> Vec<Vec<u8>> {
    let mut pool = Vec::new();
    for _ in 0..count * 20 {
        let profile = rng.pick(&SMALL).unwrap_or(Profile::Loans);
        let mut run = Run::begin(rng.word(), profile);
        let features = (0..calls).flat_map(|_| run.step().2).collect();
        pool.push((run.text, features));
    }
    choose(pool, count)
}

/// So many out of the pool, each the one with the most features that none
/// before it has; rare features count more.
fn choose<T>(mut pool: Vec<(T, Features)>, count: usize) -> Vec<T> {
    let mut often: BTreeMap<String, u32> = BTreeMap::new();
    for feature in pool.iter().flat_map(|(_, features)| features) {
        *often.entry(feature.clone()).or_default() += 1;
    }
    let mut chosen = Vec::new();
    while chosen.len() < count && !pool.is_empty() {
        let worth = |(_, features): &(T, Features)| -> u32 {
            let new = features.iter().filter_map(|f| often.get(f));
            new.map(|n| 1 + 1_000 / n).sum()
        };
        let best = (0..pool.len()).max_by_key(|at| worth(&pool[*at]));
        let (choice, features) = pool.swap_remove(best.unwrap_or(0));
        often.retain(|f, _| !features.contains(f));
        chosen.push(choice);
    }
    chosen
}
