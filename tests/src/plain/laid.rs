//! The words are laid as tables, the next number and the process records are in range.

use super::view::View;
use crate::layout::{LAST_NUMBER, PROCESS_WORDS};

/// Numbers rise, sources are older, unused slots are 0.
pub fn laid(t: &View) -> bool {
    let (n, m) = (t.row_count, t.request_count);
    rising(&t.rows[0][..n])
        && older(&t.rows[6][..n])
        && older(&t.rows[7][..n])
        && t.rows.iter().all(|column| unused(&column[n..]))
        && rising(&t.requests[0][..m])
        && t.requests.iter().all(|column| unused(&column[m..]))
}

fn rising(numbers: &[u32]) -> bool {
    numbers.windows(2).all(|pair| pair[0] < pair[1])
}

/// A source word is 0 or the slot of an older row plus 1.
fn older(sources: &[u32]) -> bool {
    let mut slots = sources.iter().enumerate();
    slots.all(|(slot, source)| *source as usize <= slot)
}

/// All of them are looked at: that takes many words at a time.
fn unused(words: &[u32]) -> bool {
    words.iter().fold(0, |seen, word| seen | word) == 0
}

pub fn next_sound(t: &View) -> bool {
    let last_row = t.rows[0][..t.row_count].last();
    let last_request = t.requests[0][..t.request_count].last();
    (1..=LAST_NUMBER + 1).contains(&t.next)
        && last_row.is_none_or(|n| *n < t.next)
        && last_request.is_none_or(|n| *n < t.next)
}

pub fn records_sound(p: &[u32; PROCESS_WORDS]) -> bool {
    p.chunks_exact(3).all(|record| {
        let nodes = (1..=32).contains(&record[0]) && (1..=32).contains(&record[1]);
        nodes || record == [0, 0, 0]
    })
}
