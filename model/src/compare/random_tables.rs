//! Random tables that cases are about.

use crate::random::alter::alter_gently;
use crate::random::shifted::near_limit;
use crate::random::{lines, session, Profile, Rng, SMALL};
use crate::session::Session;
use crate::sound::sound;
use crate::tables::Tables;

/// The tables at the end of a random session, with its profile; one in five raised to the limit.
pub fn some_tables(rng: &mut Rng) -> (Tables, Profile) {
    let profile = rng.pick(&SMALL).unwrap_or(Profile::Loans);
    let calls = rng.between(15, 70) as usize;
    let input = session(rng.word(), profile, calls);
    let mut session = Session::begin(&input);
    while session.step().is_some() {}
    let tables = match rng.percent(20) {
        true => near_limit(&session.tables, rng.between(0, 5)),
        false => session.tables,
    };
    (tables, profile)
}

/// Random sound tables and a line: the end of a session, or that with changes
/// that leave it sound, so that most of these are reached by no session.
pub fn sound_call(rng: &mut Rng) -> (Tables, Vec<u8>) {
    let (mut tables, profile) = some_tables(rng);
    for _ in 0..rng.below(6) {
        let altered = alter_gently(rng, &tables);
        if sound(&altered) {
            tables = altered;
        }
    }
    let line = lines::line(rng, profile, &tables);
    (tables, line)
}
