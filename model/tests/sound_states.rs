//! Sound tables that no session made: every kind of row, every edge of every clause and
//! every ground of every refusal is among them, and calls keep them sound.
//! MODEL_SEEN=1 prints how often each was seen.

use model::check::words_agree;
use model::random::sound_states::edges::EDGES;
use model::random::sound_states::kinds::kinds;
use model::random::{sound_state, sound_state_of, Calls, Rng, Shape, SMALL_SHAPES};
use model::session::call;
use model::{broken, Tables};
use std::collections::BTreeMap;

type Tally = BTreeMap<String, u64>;

fn count(tally: &mut Tally, name: String) {
    *tally.entry(name).or_default() += 1;
}

/// All that is asked for was seen at least so often.
fn seen<'a>(tally: &Tally, asked: impl IntoIterator<Item = &'a str>, floor: u64) {
    if std::env::var("MODEL_SEEN").is_ok() {
        for (name, often) in tally {
            println!("{often:8} {name}");
        }
    }
    for name in asked {
        let often = tally.get(name).copied().unwrap_or(0);
        assert!(often >= floor, "{name}: seen {often} times, not {floor}");
    }
}

fn assert_sound(tables: &Tables) {
    assert_eq!(broken(tables), [""; 0], "{}", tables.print());
}

/// The kinds that `kinds` names, each of which some sound tables have.
const KINDS: [&str; 57] = [
    "a held row from a registered row",
    "a held row from an opening row",
    "a held row through a held row that is lent, of another place",
    "a held row through a held row that is lent, of the same c-list",
    "a held row through a held row, of another place",
    "a held row through a held row, of the same c-list",
    "a held row through a lent copy, of another place",
    "a held row through a lent copy, of the same c-list",
    "a held row through a registered row, of a node",
    "a held row through an opening row, of a node",
    "a held row, Operation",
    "a held row, Subdirectory",
    "a lent copy from a held row",
    "a lent copy from a held row that is lent",
    "a lent copy from a lent copy",
    "a lent copy from a registered row",
    "a lent copy from a row with the system",
    "a lent copy from an opening row",
    "a lent copy much newer than its request",
    "a lent copy of a row newer than its request",
    "a lent copy of a row that its asker has not",
    "a lent copy, Operation",
    "a lent copy, Subdirectory",
    "a registered row from a registered row",
    "a registered row from an opening row",
    "a registered row, Operation",
    "a registered row, Subdirectory",
    "a request of 0 items",
    "a request of 1 items",
    "a request of 2 items",
    "a request of 3 items",
    "a request of 4 items",
    "a request on a port whose client end is with the system",
    "a request whose asker has not its client end",
    "a request with an item that left the list",
    "a request with the mark 0",
    "a request with the mark 1",
    "an end from a held row",
    "an end from a held row that is lent",
    "an end from a lent copy",
    "an end from a registered row",
    "an end from a row with the system",
    "an end from an opening row",
    "an end in 0 lists",
    "an end in 1 lists",
    "an end in 2 lists",
    "an end in 3 lists",
    "an end in 4 lists",
    "an end listed by the request on its own port",
    "an end on loan whose port has an open request",
    "an end on no loan that is not where its operation is",
    "an end, Client",
    "an end, Server",
    "an opening row newer than a row that was made",
    "an opening row, Operation",
    "an opening row, Subdirectory",
    "process through a held row that is lent",
];

/// Tables that are sound, and words that stand for them; each kind and each edge of each
/// clause is seen.
#[test]
fn every_kind_and_every_edge() {
    let mut rng = Rng::new(11);
    let (mut tally, mut at_edge) = (Tally::new(), Tally::new());
    for at in 0..6_000 {
        let tables = match at {
            0..20 => sound_state_of(&mut rng, Shape::FullRows),
            20..50 => sound_state_of(&mut rng, Shape::FullRequests),
            _ => sound_state(&mut rng),
        };
        assert_sound(&tables);
        words_agree(&tables).unwrap();
        kinds(&tables)
            .into_iter()
            .for_each(|kind| count(&mut tally, kind));
        let edges = EDGES.iter().filter(|(_, _, holds)| holds(&tables));
        edges.for_each(|(rule, what, _)| count(&mut at_edge, format!("{rule}: {what}")));
    }
    seen(&tally, KINDS, 40);
    let edges: Vec<String> = EDGES
        .iter()
        .map(|(rule, what, _)| format!("{rule}: {what}"))
        .collect();
    seen(&at_edge, edges.iter().map(String::as_str), 10);
    let rules = (1..=27).map(|n| format!("S{n}"));
    rules.for_each(|rule| {
        assert!(
            EDGES.iter().any(|(r, _, _)| *r == rule),
            "{rule} has no edge"
        )
    });
}

/// The grounds of 7 to 18, a letter to each test where a number has more than one.
/// register-15 never applies to sound tables, and none refuses a comesall. Those of answer have the
/// last number too, those of chain how many rows it has.
const GROUNDS: [&str; 52] = [
    "answer-10 with 1",
    "answer-11a with 0",
    "answer-11a with 1",
    "answer-11b with 1",
    "answer-14a with 1",
    "answer-14b with 1",
    "answer-7 with 0",
    "answer-7 with 1",
    "answer-8 with 0",
    "answer-8 with 1",
    "ask-10a",
    "ask-10b",
    "ask-10c",
    "ask-15",
    "ask-16",
    "ask-17",
    "ask-18",
    "ask-7",
    "ask-8",
    "ask-9",
    "chain-7 of 0",
    "close-12",
    "close-7",
    "close-8",
    "comes-7a",
    "comes-7b",
    "drop-13a",
    "drop-13b",
    "drop-7",
    "drop-8",
    "fetch-11",
    "fetch-7",
    "fetch-8",
    "go-7",
    "go-8",
    "hold-12",
    "hold-15",
    "hold-16",
    "hold-18",
    "hold-7",
    "hold-9",
    "port-15",
    "port-16",
    "port-18",
    "port-7",
    "port-8",
    "register-12",
    "register-16",
    "register-18",
    "register-7",
    "register-8",
    "register-9",
];

/// The calls that are accepted, a comesall with the values that are among those answered; an answer,
/// a chain and a comesall out of range, one of too many pairs, and revoke's one ground.
const OTHERS: [&str; 36] = [
    "answer-3 with 2",
    "answer-ok with 0",
    "answer-ok with 1",
    "ask-ok",
    "chain-3 of 0",
    "chain-ok of 1",
    "chain-ok of 2",
    "chain-ok of 3",
    "chain-ok of 4",
    "chain-ok of 5",
    "chain-ok of 6",
    "chain-ok of 7",
    "chain-ok of 8",
    "chain-ok of 9",
    "chain-ok of 10",
    "chain-ok of 11",
    "chain-ok of 12",
    "close-ok",
    "comes-ok",
    "comesall-3",
    "comesall-6",
    "comesall-ok with (ok -)",
    "comesall-ok with (ok 0)",
    "comesall-ok with (ok 1)",
    "comesall-ok with (ok - 0)",
    "comesall-ok with (ok - 1)",
    "comesall-ok with (ok 0 1)",
    "comesall-ok with (ok - 0 1)",
    "drop-ok",
    "fetch-ok",
    "go-ok",
    "hold-ok",
    "port-ok",
    "register-ok",
    "revoke-7",
    "revoke-ok",
];

/// Calls on these tables are accepted and refused on every ground, and leave sound tables.
#[test]
fn every_ground_of_every_refusal() {
    let mut rng = Rng::new(12);
    let mut calls = Calls::default();
    for at in 0..2_400 {
        let (tables, lines) = match at {
            0..30 => (sound_state_of(&mut rng, Shape::FullRows), 40),
            30..60 => (sound_state_of(&mut rng, Shape::FullRequests), 40),
            _ => {
                let shape = rng.pick(&SMALL_SHAPES).unwrap();
                (sound_state_of(&mut rng, shape), 8)
            }
        };
        for _ in 0..lines {
            let line = calls.call(&mut rng, &tables).print();
            let mut after = tables.clone();
            let answer = call(&mut after, &line);
            assert_ne!(answer.refusal(), Some(1), "{}", tables.print());
            assert!(answer.accepted() || after == tables);
            assert_sound(&after);
        }
    }
    seen(&calls.seen, GROUNDS.into_iter().chain(OTHERS), 10);
}

/// The same seed gives the same tables.
#[test]
fn seeds_determine_tables() {
    let tables = |seed| sound_state(&mut Rng::new(seed));
    assert_eq!(tables(5), tables(5));
    assert_ne!(tables(5), tables(6));
}
