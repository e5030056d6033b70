//! Numbers near both ends: sessions answer the same wherever their numbers are, and all holds up
//! to the last number and when none is left.

use model::call::read_call;
use model::check::Checked;
use model::limits::LAST_NUMBER;
use model::random::shifted::{room, shift_answer, shift_line, shift_tables};
use model::random::{self, Profile, Rng, SMALL};
use model::refusals::decided_by;
use model::session::{call, Session};
use model::tables::{Row, Tables};
use std::collections::BTreeMap;

/// From 2,147,483,648 on a number that is read with a sign is below 0.
const SIGN: u32 = 1 << 31;

/// The lines of a random session with their answers, on tables as opened and on the same tables
/// raised: by 1, over the sign, by any number, and until the last number is given.
#[test]
fn answers_are_the_same_but_for_the_shift() {
    let mut rng = Rng::new(21);
    let mut accepted = 0;
    for seed in 0..500 {
        let profile = SMALL[seed as usize % SMALL.len()];
        let input = random::session(seed, profile, 100);
        let mut session = Session::begin(&input);
        while session.step().is_some() {}
        let (room, half) = (room(&session.tables), session.tables.next / 2);
        for by in [1, SIGN - half, rng.between(2, room), room] {
            let after = play_both(&input, by, &mut accepted);
            assert_eq!(after, shift_tables(&session.tables, by));
            assert_eq!(after.next == LAST_NUMBER + 1, by == room);
        }
    }
    assert!(accepted > 100_000, "{accepted} accepted");
}

/// Plays the session as it is and raised by so much; the raised tables at its end.
fn play_both(input: &[u8], by: u32, accepted: &mut u64) -> Tables {
    let mut session = Session::begin(input);
    let mut shifted = shift_tables(&session.tables, by);
    while let Some((line, answer)) = session.step() {
        let expected = shift_answer(line, &answer, by);
        let line = shift_line(line, by);
        let text = String::from_utf8_lossy(&line);
        assert_eq!(
            call(&mut shifted, &line),
            expected,
            "raised by {by}: {text}"
        );
        assert_eq!(
            shifted,
            shift_tables(&session.tables, by),
            "raised by {by}: {text}"
        );
        *accepted += u64::from(answer.accepted());
    }
    shifted
}

/// What the number 4,294,967,294 may be, and the calls that 18 refuses.
const SEEN: [&str; 9] = [
    "the last number is a held row",
    "the last number is a registered row",
    "the last number is a server end",
    "the last number is a request",
    "the last number is a lent copy",
    "hold-18",
    "register-18",
    "port-18",
    "ask-18",
];

/// Sessions whose numbers run out, with all that is claimed of every call; the last number is
/// given as everything that has one, and then each call that takes one is refused by 18.
#[test]
fn sessions_to_the_last_number() {
    let mut seen: BTreeMap<String, u64> = BTreeMap::new();
    for seed in 0..1_000 {
        let profile = SMALL[seed as usize % SMALL.len()];
        let run = late_session(seed, profile, &mut seen);
        run.unwrap_or_else(|text| panic!("{profile:?}, seed {seed}: {text}"));
    }
    for name in SEEN {
        let often = seen.get(name).copied().unwrap_or(0);
        assert!(often >= 10, "{name}: seen {often} times");
    }
}

fn late_session(
    seed: u64,
    profile: Profile,
    seen: &mut BTreeMap<String, u64>,
) -> Result<(), String> {
    let mut session = Checked::begin(seed, profile, true)?;
    for _ in 0..80 {
        let before = session.tables.clone();
        let (line, _) = session.step()?;
        let decided = read_call(&line).and_then(|call| decided_by(&before, &call));
        let taken = session.tables.next > before.next;
        let last = taken.then(|| last_number(&session.tables)).flatten();
        let names = decided.into_iter().chain(last);
        names.for_each(|name| *seen.entry(name).or_default() += 1);
    }
    Ok(())
}

/// What the last number is, if it is given.
fn last_number(tables: &Tables) -> Option<String> {
    let sort = |row: &Row| match (row.is_end(), row.in_node(), row.request) {
        (true, _, _) => "a server end",
        (_, true, _) => "a registered row",
        (_, _, 0) => "a held row",
        _ => "a lent copy",
    };
    let request = tables.request(LAST_NUMBER).map(|_| "a request");
    let what = request.or(tables.row(LAST_NUMBER).map(sort))?;
    Some(format!("the last number is {what}"))
}
