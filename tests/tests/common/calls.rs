//! The calls that are made on words and compared: sessions of all profiles,
//! all calls on altered but sound tables, on sound tables that no session made,
//! full tables.

use super::performed::{Made, Pair, Perform, UNSAID};
use super::refused::Refused;
use super::tried::calls;
use super::words;
use kernel::call_words::{
    call_words, said, CallWords, ASK, CALL_WORDS, CHAIN, CHAINED, COMES, COMES_ALL, NO, NOT_TOLD,
    TOLD, TOLD_ALL,
};
use kernel::fuller::{with_deep_rows, with_numbers_left, with_requests, with_rows};
use model::call::{Call, Word};
use model::compare::full;
use model::limits::{LAST_NUMBER, PAIRS, REQUESTS, ROWS};
use model::random::alter::alter_gently;
use model::random::shifted::near_limit;
use model::random::{lines, openings, sound_state, Calls, Profile, Rng, SMALL};
use model::session::open;
use model::words::{PROCESS_WORDS, TABLES_WORDS};
use model::{sound, Tables};
use std::ops::Range;

/// Sessions of each small profile in a round, the calls of each, and how many
/// calls there are between two looks at the tables.
const SESSIONS: u64 = 60;
const CALLS: usize = 150;
const LOOK: usize = 30;

/// Sound tables that no session made, in a round.
const STATES: usize = 40;

/// So many rounds, with what they answered.
pub fn calls_of(made: &dyn Made, rounds: Range<u64>) -> Refused {
    let mut seen = Refused::default();
    for round in rounds {
        calls_of_round(made, round, &mut seen);
    }
    seen
}

/// A part of the run; each round has other seeds.
pub fn calls_of_round(made: &dyn Made, round: u64, seen: &mut Refused) {
    for session in 0..SESSIONS {
        let profile = SMALL[session as usize % SMALL.len()];
        let mut rng = Rng::new(round * 10_000 + session);
        played(made, &mut rng, profile, CALLS, seen);
    }
    on_states(made, &mut Rng::new(round * 10_000 + 9_998), seen);
    played(
        made,
        &mut Rng::new(round * 10_000 + 9_999),
        Profile::Full,
        1_400,
        seen,
    );
}

/// A random session; now and then all sorts of calls are tried on its tables
/// as they are then, and altered.
fn played(made: &dyn Made, rng: &mut Rng, profile: Profile, count: usize, seen: &mut Refused) {
    let (tables, _, _) = open(&openings::opening(rng, profile));
    let mut pair = Pair::new(tables);
    match rng.below(50) {
        0 | 1 => pair = Pair::new(with_numbers_left(pair.tables, rng.between(0, 60))),
        2 | 3 => pair = Pair::new(near_limit(&pair.tables, rng.between(0, 60))),
        _ => {}
    }
    for at in 1..=count {
        let line = lines::line(rng, profile, &pair.tables);
        pair.line(made, &line, seen);
        if at % LOOK == 0 && profile != Profile::Full {
            tried(made, rng, &pair.tables, seen);
        }
    }
}

/// All sorts of calls on sound tables that no session made, and those in which each
/// ground of each refusal decides.
fn on_states(made: &dyn Made, rng: &mut Rng, seen: &mut Refused) {
    let mut grounds = Calls::default();
    for _ in 0..STATES {
        let tables = sound_state(rng);
        let mut calls = calls(rng, &tables);
        calls.extend((0..8).map(|_| grounds.call(rng, &tables)));
        Pair::new(tables).each(made, &calls, seen);
    }
}

/// All sorts of calls on these tables and on one that is made from them.
fn tried(made: &dyn Made, rng: &mut Rng, tables: &Tables, seen: &mut Refused) {
    let other = match rng.below(8) {
        0 => with_rows(tables.clone(), ROWS - rng.below(4) / 3),
        1 | 4 => with_requests(tables.clone(), REQUESTS - rng.below(2)),
        2 => with_numbers_left(tables.clone(), rng.between(0, 5)),
        5 => near_limit(tables, rng.between(0, 5)),
        3 => with_deep_rows(tables.clone()),
        _ => altered(rng, tables),
    };
    for tables in [tables.clone(), other] {
        assert!(sound(&tables), "{}", tables.print());
        let calls = calls(rng, &tables);
        Pair::new(tables).each(made, &calls, seen);
    }
}

/// The tables after a few changes that leave them sound.
fn altered(rng: &mut Rng, tables: &Tables) -> Tables {
    let mut tables = tables.clone();
    for _ in 0..6 {
        let other = alter_gently(rng, &tables);
        if sound(&other) {
            tables = other;
        }
    }
    tables
}

fn one(word: Word, number: u32) -> Call {
    Call::One {
        caller: 1,
        word,
        number,
    }
}

/// A call after others, with its refusal, 0 for none.
fn step(pair: &mut Pair, made: &dyn Made, call: &Call) -> u32 {
    let mut seen = Refused::default();
    pair.line(made, &call.print(), &mut seen);
    seen.only()
}

/// Row 1,024 is held, row 1,025 is refused; after a drop one is held again.
pub fn the_last_row(made: &dyn Made) {
    let mut pair = Pair::new(full::with_rows(ROWS - 1));
    let held = pair.tables.next;
    assert_eq!(step(&mut pair, made, &one(Word::Hold, 1)), 0);
    assert_eq!(pair.tables.rows.len(), ROWS);
    for call in [
        one(Word::Hold, 1),
        one(Word::Register, 2),
        one(Word::Port, 2),
    ] {
        assert_eq!(step(&mut pair, made, &call), 16, "{call:?}");
    }
    assert_eq!(step(&mut pair, made, &one(Word::Drop, held)), 0);
    assert_eq!(step(&mut pair, made, &one(Word::Port, 2)), 16, "two rows");
    assert_eq!(step(&mut pair, made, &one(Word::Hold, 1)), 0);
    assert_eq!(step(&mut pair, made, &one(Word::Hold, 1)), 16);
}

/// Request 128 is made, request 129 refused; after a revoke one is made again.
pub fn the_last_request(made: &dyn Made) {
    let mut pair = Pair::new(full::with_requests(REQUESTS - 1));
    let ask = |client: u32| Call::Ask {
        caller: 1,
        client,
        items: Vec::new(),
    };
    let free = pair.tables.next;
    assert_eq!(step(&mut pair, made, &one(Word::Port, 2)), 0);
    assert_eq!(step(&mut pair, made, &ask(3)), 0);
    assert_eq!(pair.tables.requests.len(), REQUESTS);
    assert_eq!(step(&mut pair, made, &ask(free)), 17);
    let oldest = pair.tables.requests[0].number;
    assert_eq!(step(&mut pair, made, &one(Word::Revoke, oldest)), 0);
    assert_eq!(step(&mut pair, made, &ask(free)), 0);
    assert_eq!(pair.tables.requests.len(), REQUESTS);
}

/// The last number is given; then there is none.
pub fn the_last_number(made: &dyn Made) {
    let start = with_numbers_left(full::with_requests(1), 2);
    for (call, given) in [
        (one(Word::Hold, 1), 1),
        (one(Word::Register, 2), 1),
        (one(Word::Port, 2), 2),
    ] {
        let mut pair = Pair::new(start.clone());
        while pair.tables.next <= LAST_NUMBER {
            assert_eq!(step(&mut pair, made, &call), 0, "{call:?}");
        }
        let last = pair.tables.rows.last().map(|r| r.number);
        assert_eq!(last, Some(LAST_NUMBER), "{given} a call");
        assert_eq!(step(&mut pair, made, &call), 18, "{call:?}");
    }
    let mut pair = Pair::new(with_numbers_left(start, 1));
    let ask = Call::Ask {
        caller: 1,
        client: 3,
        items: Vec::new(),
    };
    assert_eq!(step(&mut pair, made, &ask), 0);
    assert_eq!(
        pair.tables.requests.last().map(|q| q.number),
        Some(LAST_NUMBER)
    );
    assert_eq!(step(&mut pair, made, &one(Word::Hold, 1)), 18);
}

/// With other lengths, or a caller that is no process, nothing changes.
pub fn others_stay(made: Perform) {
    let tables = full::with_requests(3);
    let lent = words(&tables);
    let call = call_words(&one(Word::Hold, 1)).expect("a call");
    let asked = |t: usize, p: usize, call: CallWords| {
        let mut after = lent.clone();
        after.0.resize(t, 0);
        after.1.resize(p, 0);
        let before = after.clone();
        let mut answer = UNSAID;
        made(&mut after.0, &mut after.1, &call, &mut answer);
        (after != before, answer != UNSAID)
    };
    let (right_t, right_p) = (TABLES_WORDS, PROCESS_WORDS);
    assert_eq!(asked(right_t, right_p, call), (true, true));
    for t in [0, 1, 192, right_t - 1, right_t + 1, 22_530] {
        for p in [0, 1, right_p - 1, right_p, right_p + 1, 11_265] {
            assert_eq!(asked(t, p, call), (false, false), "{t} and {p} words");
        }
    }
    for p in [0, right_p - 1, right_p + 1, 384] {
        assert_eq!(asked(right_t, p, call), (false, false), "{p} words");
    }
    for code in 0..COMES {
        for caller in [0, 65, u32::MAX] {
            let mut call = call;
            (call[0], call[1]) = (code, caller);
            assert_eq!(asked(right_t, right_p, call), (false, false), "{caller}");
        }
    }
    assert_eq!(ASK, 6);
}

/// comes, chain and comesall have no caller, and every code above comesall is its own. Nothing
/// changes.
pub fn codes_without_caller(made: Perform) {
    let tables = full::with_requests(3);
    let lent = words(&tables);
    let request = tables.requests[0].number;
    let told = said(TOLD_ALL, [NO, NOT_TOLD]);
    for (code, expected) in [
        (COMES, said(TOLD, [0])),
        (CHAIN, said(CHAINED, [1, 2, 3])),
        (COMES_ALL, told),
        (COMES_ALL + 1, told),
        (u32::MAX, told),
    ] {
        let mut after = lent.clone();
        let mut answer = UNSAID;
        let mut call = [0; CALL_WORDS];
        call[..3].copy_from_slice(&[code, 3, request]);
        call[1 + PAIRS] = request;
        made(&mut after.0, &mut after.1, &call, &mut answer);
        assert_eq!(answer, expected, "code {code}");
        assert!(after == lent, "code {code}");
    }
}
