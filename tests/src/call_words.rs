//! A call and its answer in words, as crates/test_exports/src/performing.rt has them.

use model::call::{Call, Item, Pair, Word};
use model::limits::{DEEPEST, ITEMS, PAIRS};
use model::relations::request_on;
use model::{Answer, Tables};

pub const CALL_WORDS: usize = 1 + 2 * PAIRS;

/// The call's code and its two numbers, of chain its row and 0; then the last number of answer, or
/// row and rights of each item of an ask, 0 for no item. Of comesall its code, the rows of the
/// pairs, then their requests, 0 for no pair; it has most.
pub type CallWords = [u32; CALL_WORDS];

/// The rows of a chain at most.
pub const LONGEST_CHAIN: usize = DEEPEST as usize;

pub const ANSWER_WORDS: usize = 1 + PAIRS;

/// The answer's code and its numbers, 0 after them; what comesall tells has most.
pub type AnswerWords = [u32; ANSWER_WORDS];

/// The words in the order of their codes; ask, answer, comes, chain and comesall are no words with
/// one number after the caller's.
const CODES: [Option<Word>; 13] = [
    Some(Word::Go),
    Some(Word::Hold),
    Some(Word::Register),
    Some(Word::Drop),
    Some(Word::Port),
    Some(Word::Close),
    None,
    Some(Word::Fetch),
    None,
    Some(Word::Revoke),
    None,
    None,
    None,
];

pub const ASK: u32 = 6;
pub const ANSWER: u32 = 8;
/// From comes on calls have no caller.
pub const COMES: u32 = 10;
pub const CHAIN: u32 = 11;
pub const COMES_ALL: u32 = 12;

pub const DONE: u32 = 0;
pub const MADE: u32 = 1;
pub const FETCHED: u32 = 2;
pub const TOLD: u32 = 3;
pub const REFUSED: u32 = 4;
pub const CHAINED: u32 = 5;
pub const TOLD_ALL: u32 = 6;

/// What comesall tells of a pair; 0 where there is none.
pub const NO: u32 = 1;
pub const YES: u32 = 2;
pub const NOT_TOLD: u32 = 3;

pub fn code(call: &Call) -> u32 {
    match call {
        Call::Ask { .. } => ASK,
        Call::Answer { .. } => ANSWER,
        Call::Comes { .. } => COMES,
        Call::Chain { .. } => CHAIN,
        Call::ComesAll { .. } => COMES_ALL,
        Call::One { word, .. } => {
            let at = CODES.iter().position(|w| *w == Some(*word));
            at.expect("every word has a code") as u32
        }
    }
}

/// The name under which a call is counted: its word, and for answer whether its last number is 1.
pub fn counted_as(call: &Call) -> String {
    match call {
        Call::Answer { last: 1, .. } => "answer 1".to_string(),
        Call::Answer { .. } => "answer 0".to_string(),
        _ => call.word(),
    }
}

/// The words of a call; none for an ask of more than four items, a comesall of more than sixteen
/// pairs, either with row 0 among them, and for an answer whose last number is not 0 or 1.
pub fn call_words(call: &Call) -> Option<CallWords> {
    let (first, second) = match call {
        Call::ComesAll { pairs } => return pair_words(pairs),
        Call::One { caller, number, .. } => (*caller, *number),
        Call::Ask { caller, client, .. } => (*caller, *client),
        Call::Answer { caller, end, .. } => (*caller, *end),
        Call::Comes { row, request } => (*row, *request),
        Call::Chain { row } => (*row, 0),
    };
    let items: &[Item] = call.items();
    if items.len() > ITEMS || items.iter().any(|item| item.row == 0) {
        return None;
    }
    let mut words = [0; CALL_WORDS];
    words[..3].copy_from_slice(&[code(call), first, second]);
    for (pair, item) in words[3..].chunks_exact_mut(2).zip(items) {
        pair.copy_from_slice(&[item.row, item.rights]);
    }
    if let Call::Answer { last, .. } = call {
        words[3] = Some(*last).filter(|last| *last <= 1)?;
    }
    Some(words)
}

fn pair_words(pairs: &[Pair]) -> Option<CallWords> {
    if pairs.len() > PAIRS || pairs.iter().any(|pair| pair.row == 0) {
        return None;
    }
    let mut words = [0; CALL_WORDS];
    words[0] = COMES_ALL;
    for (at, pair) in pairs.iter().enumerate() {
        words[1 + at] = pair.row;
        words[1 + PAIRS + at] = pair.request;
    }
    Some(words)
}

/// An answer in words: its code, its numbers, 0 after them.
#[inline]
pub fn said<const N: usize>(code: u32, numbers: [u32; N]) -> AnswerWords {
    let mut words = [0; ANSWER_WORDS];
    words[0] = code;
    words[1..=N].copy_from_slice(&numbers);
    words
}

/// The words of the model's answer to a call on these tables, the tables before it.
pub fn answer_words(before: &Tables, call: &Call, answer: &Answer) -> AnswerWords {
    let numbers = match answer {
        Answer::No(k) | Answer::NoAt(k, _) => return said(REFUSED, [*k]),
        Answer::Values(values) => return said(TOLD_ALL, told_words(values)),
        Answer::Ok(numbers) => numbers,
    };
    match (call, numbers.as_slice()) {
        (Call::Comes { .. }, [told]) => said(TOLD, [*told]),
        (Call::Chain { .. }, rows) => said(CHAINED, chain_words(rows)),
        (Call::One { word, number, .. }, _) if *word == Word::Fetch => {
            fetched_words(before, *number, numbers)
        }
        (_, [0]) => said(DONE, []),
        (_, [number]) => said(MADE, [*number]),
        _ => panic!("{call:?}: {answer:?}"),
    }
}

/// What is told of each pair, 0 after them.
fn told_words(values: &[Option<bool>]) -> [u32; PAIRS] {
    let mut words = [0; PAIRS];
    for (word, value) in words.iter_mut().zip(values) {
        *word = match value {
            Some(false) => NO,
            Some(true) => YES,
            None => NOT_TOLD,
        };
    }
    words
}

/// The rows of a chain, 0 after them.
fn chain_words(rows: &[u32]) -> [u32; LONGEST_CHAIN] {
    let mut words = [0; LONGEST_CHAIN];
    words[..rows.len()].copy_from_slice(rows);
    words
}

/// The request's number and its items, 0 for one that is not listed; the model
/// answers those that are listed.
fn fetched_words(before: &Tables, end: u32, numbers: &[u32]) -> AnswerWords {
    let port = before.row(end).map_or(0, |row| row.object);
    let request = request_on(before, port).expect("a request that was fetched");
    let [a, b, c, d] = request.items.map(|item| item.unwrap_or(0));
    let listed: Vec<u32> = [request.number]
        .into_iter()
        .chain(request.listed())
        .collect();
    assert_eq!(listed, numbers);
    said(FETCHED, [request.number, a, b, c, d])
}
