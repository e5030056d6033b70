//! Does a row come from a request, is it lent; its first chain; the marks of sixteen pairs.

use super::view::used;
use crate::call_words::LONGEST_CHAIN;
use crate::layout::{
    CLIENT, KIND, NUMBER, PAIRS, Q_ITEMS, Q_NUMBER, REQUEST, REQUESTS, ROWS, SERVER, SOURCE,
    TABLES_WORDS, VIA,
};
use crate::PairMarks;

/// Whether the row in the slot comes from the request; no for other lengths and slots.
#[inline(never)]
pub fn comes(tables: &[u32], slot: usize, request: u32) -> bool {
    let Ok(words) = tables.try_into() else {
        return false;
    };
    slot < ROWS && reaches(words, slot, 12, &|i| words[REQUEST + i] == request)
}

/// Whether the row in the slot is lent; no for other lengths and slots.
#[inline(never)]
pub fn lent(tables: &[u32], slot: usize) -> bool {
    let Ok(words) = tables.try_into() else {
        return false;
    };
    slot < ROWS && reaches(words, slot, 12, &|i| lent_itself(words, i))
}

/// Whether the row or one that it comes from passes the test.
fn reaches(
    words: &[u32; TABLES_WORDS],
    slot: usize,
    depth: u32,
    test: &impl Fn(usize) -> bool,
) -> bool {
    let from = |word: u32| match word as usize {
        0 => false,
        at if at > ROWS || depth == 1 => false,
        at => reaches(words, at - 1, depth - 1, test),
    };
    test(slot) || from(words[SOURCE + slot]) || from(words[VIA + slot])
}

fn lent_itself(words: &[u32; TABLES_WORDS], slot: usize) -> bool {
    let end = matches!(words[KIND + slot], CLIENT | SERVER);
    words[REQUEST + slot] != 0 || (end && on_loan(words, words[slot]))
}

/// Whether an open request lists the row.
pub fn on_loan(words: &[u32; TABLES_WORDS], number: u32) -> bool {
    let open = used(&words[Q_NUMBER..Q_NUMBER + REQUESTS]);
    let mut items = words[Q_ITEMS..Q_ITEMS + 4 * REQUESTS].chunks_exact(REQUESTS);
    items.any(|column| column[..open].contains(&number))
}

/// Writes the first chain of the row in the slot, and says its length; 0 for other lengths and slots.
#[inline(never)]
pub fn first_chain(tables: &[u32], slot: usize, chain: &mut [u32]) -> usize {
    match (tables.try_into(), chain.first_chunk_mut()) {
        (Ok(words), Some(chain)) if slot < ROWS => chain_of(words, slot, chain),
        _ => 0,
    }
}

/// From the row back to one of the text, then turned round; a chain is no longer than twelve rows.
pub fn chain_of(
    words: &[u32; TABLES_WORDS],
    slot: usize,
    chain: &mut [u32; LONGEST_CHAIN],
) -> usize {
    let mut length = 0;
    let mut at = slot + 1;
    while (1..=ROWS).contains(&at) && length < LONGEST_CHAIN {
        chain[length] = words[NUMBER + at - 1];
        length += 1;
        at = words[SOURCE + at - 1] as usize;
    }
    chain[..length].reverse();
    length
}

/// Marks every row for the requests of sixteen pairs; nothing for words of another length.
#[inline(never)]
pub fn mark_pairs(tables: &[u32], requests: &[u32; PAIRS], marks: &mut PairMarks) {
    if let Ok(words) = tables.try_into() {
        *marks = [0; ROWS + 1];
        let rows = used(&tables[NUMBER..NUMBER + ROWS]);
        mark_rows(words, rows, requests, marks);
    }
}

/// Each row by the marks of its sources, which are older.
pub fn mark_rows(
    words: &[u32; TABLES_WORDS],
    rows: usize,
    requests: &[u32; PAIRS],
    marks: &mut PairMarks,
) {
    for slot in 0..rows {
        let [source, via] = [SOURCE, VIA].map(|column| words[column + slot] as usize);
        let own = match words[REQUEST + slot] {
            0 => 0,
            request => asking(requests, request),
        };
        marks[slot + 1] = marks[source] | marks[via] | own;
    }
}

/// The pairs that ask of the request.
fn asking(requests: &[u32; PAIRS], request: u32) -> u16 {
    let pairs = requests.iter().enumerate();
    pairs.fold(0, |bits, (k, other)| {
        bits | u16::from(*other == request) << k
    })
}
