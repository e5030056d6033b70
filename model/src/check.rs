//! Random sessions with everything checked after every call.

use crate::answer::Answer;
use crate::call::{read_call, Call, Pair};
use crate::demand3::demand3;
use crate::history::History;
use crate::limits::{DEEPEST, LAST_NUMBER, PAIRS};
use crate::random::shifted::near_limit;
use crate::random::{lines, openings, Profile, Rng};
use crate::session::{call, call_sound, open};
use crate::sound::broken;
use crate::tables::{Row, Tables};
use crate::words::{decode, encode};
use std::collections::BTreeMap;

/// How often each answer was seen: 0 for accepted, else the refusal's number.
pub type Tally = BTreeMap<u32, u64>;

/// Runs one random session; one in 25 is late. An error says what failed, with the lines so far.
pub fn session(seed: u64, profile: Profile, calls: usize, tally: &mut Tally) -> Result<(), String> {
    let mut session = Checked::begin(seed, profile, seed % 25 == 7)?;
    for _ in 0..calls {
        let (_, answer) = session.step()?;
        *tally.entry(answer.refusal().unwrap_or(0)).or_insert(0) += 1;
    }
    words_agree(&session.tables).map_err(|e| session.error(e))
}

/// A random session under way, with its history and what was said so far.
pub struct Checked {
    rng: Rng,
    profile: Profile,
    pub tables: Tables,
    history: History,
    said: String,
}

impl Checked {
    /// On the tables of an opening. If the session is late, all numbers are raised so that the
    /// next is at most 60 below the last that it can be: the numbers run out.
    pub fn begin(seed: u64, profile: Profile, late: bool) -> Result<Checked, String> {
        let mut rng = Rng::new(seed);
        let text = openings::opening(&mut rng, profile);
        let (opened, answer, _) = open(&text);
        let tables = match late {
            true => near_limit(&opened, rng.between(0, 60)),
            false => opened.clone(),
        };
        let raised = tables.next - opened.next;
        let session = Checked {
            rng,
            profile,
            tables,
            history: History::begin_at(raised, &text, &answer.print()),
            said: String::from_utf8_lossy(&text).into_owned() + &format!("raised by {raised}\n"),
        };
        check(&session.history, &session.tables).map_err(|e| session.error(e))?;
        Ok(session)
    }

    /// One more call, with all that is claimed of it: its line and the answer.
    pub fn step(&mut self) -> Result<(Vec<u8>, Answer), String> {
        let line = lines::line(&mut self.rng, self.profile, &self.tables);
        self.said += &String::from_utf8_lossy(&line);
        let answer = step(&mut self.history, &mut self.tables, &line).map_err(|e| self.error(e))?;
        Ok((line, answer))
    }

    fn error(&self, said: String) -> String {
        format!("{said}\n{}", self.said)
    }
}

/// One call, with all that is claimed of it.
fn step(history: &mut History, tables: &mut Tables, line: &[u8]) -> Result<Answer, String> {
    let before = tables.clone();
    let answer = call(tables, line);
    history.note(line, &answer.print());
    let question = read_call(line).is_some_and(|call| call.caller().is_none());
    if (question || !answer.accepted()) && *tables != before {
        return Err("a question or a refused call changed the tables".to_string());
    }
    check(history, tables)?;
    comes_agrees(history, line, &answer)?;
    chain_agrees(history, tables, line, &answer)?;
    comesall_agrees(history, tables, line, &answer)?;
    Ok(answer)
}

fn check(history: &History, tables: &Tables) -> Result<(), String> {
    let broken = broken(tables);
    if !broken.is_empty() {
        return Err(format!("not sound: {broken:?}"));
    }
    demand3(history, tables)
}

/// What `comes` answers is what the history says.
fn comes_agrees(history: &History, line: &[u8], answer: &Answer) -> Result<(), String> {
    let Some(Call::Comes { row, request }) = read_call(line) else {
        return Ok(());
    };
    let from = history.notes.rows_from(&history.now.standing, request);
    let expected = Answer::ok(from.contains(&row).into());
    match answer.accepted() && *answer != expected {
        true => Err(format!("comes {row} {request}: {answer:?}")),
        false => Ok(()),
    }
}

/// (rules R15, chain-7, chain-ok) What `chain` answers is what the history says: 7 where the row
/// does not stand, else its first chain.
fn chain_agrees(
    history: &History,
    tables: &Tables,
    line: &[u8],
    answer: &Answer,
) -> Result<(), String> {
    let Some(Call::Chain { row }) = read_call(line) else {
        return Ok(());
    };
    let stands = history.now.standing.contains(&row);
    let agrees = match answer {
        Answer::Ok(numbers) => stands && is_first_chain(history, tables, row, numbers),
        _ => !stands,
    };
    match agrees {
        true => Ok(()),
        false => Err(format!("chain {row}: {answer:?}")),
    }
}

/// (rules R15, P31) By the notes, from a row without a source, which is one of the text, each the
/// first source of the next, to the row itself. By the tables no more of them than the row is deep;
/// from one to the next rights never grow, and all but ends name the same.
fn is_first_chain(history: &History, tables: &Tables, row: u32, numbers: &[u32]) -> bool {
    let sources = |n: &u32| history.notes.rows.get(n).map(|r| r.sources.as_slice());
    let from_text = numbers.first().and_then(sources) == Some(&[]);
    let to_row = numbers.last() == Some(&row);
    let linked = |pair: &[u32]| sources(&pair[1]).and_then(<[u32]>::first) == Some(&pair[0]);
    let depth = tables.row(row).map_or(0, |r| r.depth);
    let short = numbers.len() <= depth.min(DEEPEST) as usize;
    let named = |r: &Row| (r.kind, r.object, r.operation);
    let within = |pair: &[u32]| match (tables.row(pair[0]), tables.row(pair[1])) {
        (Some(source), Some(next)) => {
            source.permits(next.rights) && (next.is_end() || named(source) == named(next))
        }
        _ => false,
    };
    let mut pairs = numbers.windows(2);
    from_text && to_row && short && pairs.all(|pair| linked(pair) && within(pair))
}

/// (rules F4, F7, comesall-ok-1, comesall-ok-2) Each value of a comesall is what `comes` answers of that
/// pair alone, and what the history says. It is refused exactly for a number out of range, or else for
/// too many pairs.
fn comesall_agrees(
    history: &History,
    tables: &Tables,
    line: &[u8],
    answer: &Answer,
) -> Result<(), String> {
    let Some(Call::ComesAll { pairs }) = read_call(line) else {
        return Ok(());
    };
    let in_range = |n: u32| (1..=LAST_NUMBER).contains(&n);
    let odd = !pairs.iter().all(|p| in_range(p.row) && in_range(p.request));
    let agrees = match answer {
        Answer::Values(values) if !odd && pairs.len() <= PAIRS => {
            let alone = pairs.iter().map(|p| comes_alone(tables, *p));
            let told = pairs.iter().map(|p| told_of_pair(history, *p));
            values.iter().copied().eq(alone) && values.iter().copied().eq(told)
        }
        Answer::No(3) => odd,
        Answer::No(6) => !odd && pairs.len() > PAIRS,
        _ => false,
    };
    match agrees {
        true => Ok(()),
        false => Err(format!("comesall {pairs:?}: {answer:?}")),
    }
}

/// What `comes` answers of a pair; none where it is refused.
fn comes_alone(tables: &Tables, pair: Pair) -> Option<bool> {
    let Pair { row, request } = pair;
    let single = Call::Comes { row, request };
    match call_sound(&mut tables.clone(), &single.print()) {
        Answer::Ok(numbers) => Some(numbers == [1]),
        _ => None,
    }
}

/// By the history whether the row comes from the request; none if it does not stand or the request
/// is not open.
fn told_of_pair(history: &History, pair: Pair) -> Option<bool> {
    let (notes, now) = (&history.notes, &history.now);
    let asked = now.standing.contains(&pair.row) && now.open_requests.contains(&pair.request);
    let from = notes.rows_from(&now.standing, pair.request);
    asked.then(|| from.contains(&pair.row))
}

/// The words of sound tables stand for these tables.
pub fn words_agree(tables: &Tables) -> Result<(), String> {
    let (words, processes) = encode(tables).ok_or("sound tables have no words")?;
    match decode(&words, &processes) {
        Some(back) if back == *tables => Ok(()),
        other => Err(format!("words stand for {other:?}")),
    }
}
