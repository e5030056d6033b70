//! Random sessions: soundness, demand 3 and unchanged tables on a refusal,
//! after every call. MODEL_CALLS and MODEL_SEED make it longer or another.

use model::call::{Call, Pair};
use model::chains;
use model::check::{self, Tally};
use model::history::History;
use model::limits::PAIRS;
use model::notes::Notes;
use model::random::{self, Profile, PROFILES};
use model::session::{call, Session};
use model::tables::Tables;
use model::{run_session, Answer};
use std::collections::BTreeMap;
use std::sync::OnceLock;

fn variable(name: &str, default: u64) -> u64 {
    let value = std::env::var(name).ok();
    value.and_then(|v| v.parse().ok()).unwrap_or(default)
}

/// Runs sessions of a profile until that many calls are done.
fn run(profile: Profile, calls: u64, length: usize, tally: &mut Tally) -> Result<(), String> {
    let mut seed = variable("MODEL_SEED", 1) * 1_000_000;
    let mut left = calls;
    while left > 0 {
        check::session(seed, profile, length, tally)
            .map_err(|text| format!("{profile:?}, seed {seed}: {text}"))?;
        seed += 1;
        left = left.saturating_sub(length as u64);
    }
    Ok(())
}

/// All profiles, about 100,000 calls; run once for the tests below.
fn all_profiles() -> &'static Result<Tally, String> {
    static RESULT: OnceLock<Result<Tally, String>> = OnceLock::new();
    RESULT.get_or_init(|| {
        let calls = variable("MODEL_CALLS", 100_000);
        let mut tally = Tally::new();
        for profile in PROFILES {
            match profile {
                Profile::Full => run(profile, calls / 20, 1_600, &mut tally)?,
                _ => run(profile, calls / 5, 250, &mut tally)?,
            }
        }
        Ok(tally)
    })
}

#[test]
fn sound_and_demand_3_after_every_call() {
    if let Err(text) = all_profiles() {
        panic!("{text}");
    }
}

/// Every refusal but 1 is among the answers of these sessions.
#[test]
fn every_refusal_is_seen() {
    let tally = all_profiles().as_ref().expect("sessions that pass");
    for k in (0..=18).filter(|k| *k != 1) {
        let seen = tally.get(&k).copied().unwrap_or(0);
        assert!(seen > 0, "{k} was not seen: {tally:?}");
    }
    assert_eq!(tally.get(&1), None);
}

/// A random session at its end, and its history.
fn told(seed: u64, profile: Profile, calls: usize) -> (Tables, History) {
    let input = random::session(seed, profile, calls);
    let mut session = Session::begin(&input);
    let mut history = History::begin(&input, &session.opening.print());
    while let Some((line, answer)) = session.step() {
        history.note(line, &answer.print());
    }
    (session.tables, history)
}

/// What stands and comes from, worked from number to number, is what listing
/// all chains says.
#[test]
fn moments_are_what_the_chains_say() {
    let mut gone = 0;
    for seed in 0..100 {
        let profile = PROFILES[seed as usize % 5];
        let (_, history) = told(seed, profile, 60);
        gone += compare_with_chains(&history);
    }
    assert!(gone > 500, "{gone} rows gone");
}

/// Compares every row, port and request; answers how many rows are gone.
fn compare_with_chains(history: &History) -> usize {
    let (notes, now) = (&history.notes, &history.now);
    for row in notes.rows.keys() {
        let stands = chains::stands(notes, *row);
        assert_eq!(now.standing.contains(row), stands, "row {row}");
    }
    for port in notes.ports.keys() {
        let closed = chains::port_closed(notes, *port);
        assert_eq!(!now.open_ports.contains(port), closed, "port {port}");
    }
    for request in notes.requests.keys() {
        let closed = chains::request_closed(notes, *request);
        assert_eq!(!now.open_requests.contains(request), closed, "{request}");
        let from = notes.rows_from(&now.standing, *request);
        for row in &now.standing {
            let comes = chains::comes_from(notes, *row, *request);
            assert_eq!(from.contains(row), comes, "{row} from {request}");
        }
    }
    notes.rows.len() - now.standing.len()
}

/// What `chain` answers of every row, standing or gone, after a session: the first of all its chains
/// by the history, which lists first sources first. Each length is among them.
#[test]
fn chain_is_the_first_of_all_chains() {
    let mut lengths = [0; 13];
    for seed in 0..250 {
        let profile = PROFILES[seed as usize % 5];
        let (mut tables, history) = told(seed, profile, 150);
        for row in history.notes.rows.keys() {
            let chain = chains::chains(&history.notes, *row).swap_remove(0);
            let (length, expected) = match history.now.standing.contains(row) {
                true => (chain.len(), Answer::Ok(chain)),
                false => (0, Answer::No(7)),
            };
            let line = format!("(chain {row})\n");
            let answer = call(&mut tables, line.as_bytes());
            assert_eq!(answer, expected, "seed {seed}: {line}");
            lengths[length] += 1;
        }
    }
    assert!(lengths.iter().all(|seen| *seen >= 10), "{lengths:?}");
}

/// What `comesall` answers of every row and request, standing and open or not, after a session: what
/// all chains of the row say. Lines have 1 to 16 pairs.
#[test]
fn comesall_is_what_the_chains_say() {
    let mut seen = BTreeMap::new();
    for seed in 0..200 {
        let profile = PROFILES[seed as usize % 5];
        let (mut tables, history) = told(seed, profile, 80);
        let pairs = all_pairs(&history.notes);
        for some in pairs.chunks(1 + seed as usize % PAIRS) {
            let values = some.iter().map(|p| by_chains(&history.notes, *p));
            let values: Vec<Option<bool>> = values.collect();
            let pairs = some.to_vec();
            let line = Call::ComesAll { pairs }.print();
            let answer = call(&mut tables, &line);
            let said = String::from_utf8_lossy(&line);
            assert_eq!(answer, Answer::Values(values.clone()), "{seed}: {said}");
            for value in values {
                *seen.entry(value).or_insert(0) += 1;
            }
        }
    }
    for value in [None, Some(false), Some(true)] {
        assert!(seen.get(&value) >= Some(&500), "{value:?}: {seen:?}");
    }
}

/// Each row with each request.
fn all_pairs(notes: &Notes) -> Vec<Pair> {
    let of_row = |row: u32| {
        let requests = notes.requests.keys();
        requests.map(move |q| Pair { row, request: *q })
    };
    notes.rows.keys().flat_map(|row| of_row(*row)).collect()
}

/// Whether a chain of the row has a row that bears the request; none if the row does not stand or
/// the request is closed.
fn by_chains(notes: &Notes, pair: Pair) -> Option<bool> {
    let Pair { row, request } = pair;
    let asked = chains::stands(notes, row) && !chains::request_closed(notes, request);
    asked.then(|| chains::comes_from(notes, row, request))
}

/// A request has an end on loan, by the history, exactly where the tables
/// list it.
#[test]
fn loans_are_the_lists() {
    let mut loans = 0;
    for seed in 0..150 {
        let profile = PROFILES[seed as usize % 5];
        let input = random::session(seed, profile, 150);
        let mut session = Session::begin(&input);
        let mut history = History::begin(&input, &session.opening.print());
        while let Some((line, answer)) = session.step() {
            history.note(line, &answer.print());
            let requests = session.tables.requests.iter();
            let listed = requests.flat_map(|q| q.listed().map(move |i| (q.number, i)));
            let ends = listed.filter(|(_, i)| history.notes.is_end(*i));
            let ends: std::collections::BTreeSet<(u32, u32)> = ends.collect();
            assert_eq!(ends, history.now.loans, "seed {seed}");
            loans += ends.len();
        }
    }
    assert!(loans > 1_000, "{loans} loans");
}

/// The same seed gives the same session, another seed another one.
#[test]
fn seeds_determine_sessions() {
    for profile in PROFILES {
        let one = random::session(5, profile, 40);
        assert_eq!(one, random::session(5, profile, 40));
        assert_ne!(one, random::session(6, profile, 40));
    }
}

/// One operation of process 1, with all rights; row 1.
const ONE: &str = "(node 1 (op 1 0 7))\n(process 1 1)\n(open)\n";

/// (rules X7, X10, hold-16) Row 1,025 gives 16, and after a drop hold works.
#[test]
fn rows_run_out_in_a_session() {
    let mut session = ONE.to_string();
    let mut expected = "(ok 0)\n".to_string();
    for row in 2..=1024 {
        session += "(1 hold 1)\n";
        expected += &format!("(ok {row})\n");
    }
    session += "(1 hold 1)\n(1 register 3)\n(1 drop 2)\n(1 port 3)\n(1 hold 1)\n(1 hold 1)\n";
    expected += "(no 16)\n(no 16)\n(ok 0)\n(no 16)\n(ok 1025)\n(no 16)\n";
    let printed = run_session(session.as_bytes());
    assert_eq!(String::from_utf8(printed).unwrap(), expected);
}

/// (rules X9, X13, ask-18) 4,294,967,294 is given, then 18: three copies and a request take 4
/// numbers.
#[test]
fn numbers_run_out() {
    let session = ONE.to_string() + &"(1 hold 1)\n".repeat(4) + "(1 port 2)\n";
    let mut session = Session::begin(session.as_bytes());
    while session.step().is_some() {}
    let mut tables = session.tables;
    tables.next = 4_294_967_292;
    for (line, expected) in [
        ("(1 ask 6 (2 7) (3 7) (4 7))\n", "(no 18)\n"),
        ("(1 ask 6 (2 7))\n", "(ok 4294967292)\n"),
        ("(1 port 2)\n", "(no 18)\n"),
        ("(1 ask 6)\n", "(no 10)\n"),
        ("(1 hold 1)\n", "(ok 4294967294)\n"),
        ("(1 hold 1)\n", "(no 18)\n"),
        ("(1 register 2)\n", "(no 18)\n"),
        ("(1 port 2)\n", "(no 18)\n"),
        ("(1 revoke 4294967292)\n", "(ok 0)\n"),
        ("(1 ask 6)\n", "(no 18)\n"),
    ] {
        let printed = call(&mut tables, line.as_bytes()).print();
        assert_eq!(String::from_utf8(printed).unwrap(), expected, "{line}");
    }
}
