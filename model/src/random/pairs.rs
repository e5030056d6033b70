//! Random pairs of a comesall, made by looking at the tables: rows that come from the request and rows
//! that do not, what is gone, equal pairs; lines up to the longest.

use super::prng::Rng;
use crate::call::{Call, Pair};
use crate::limits::{LAST_NUMBER, LINE_BYTES, PAIRS};
use crate::relations::rows_from;
use crate::tables::Tables;
use std::collections::BTreeSet;

/// The most pairs that a line has room for.
const MOST_PAIRS: usize = 40;

/// A comesall whose line is not too long. Near: now and then more than 16 pairs, numbers out of
/// range, or one byte too many.
pub fn comesall(rng: &mut Rng, tables: &Tables, near: bool) -> Call {
    let count = count(rng, near);
    let mut pairs: Vec<Pair> = Vec::new();
    while pairs.len() < count {
        let pair = some_pair(rng, tables, &pairs, near);
        pairs.push(pair);
    }
    match rng.below(4) {
        0 => pairs.sort_by_key(|p| p.row),
        1 => pairs.sort_by_key(|p| std::cmp::Reverse(p.row)),
        _ => {}
    }
    shorten(rng, &mut pairs);
    if rng.percent(15) {
        let more = usize::from(near && rng.percent(30));
        lengthen(rng, &mut pairs, LINE_BYTES + more);
    }
    Call::ComesAll { pairs }
}

fn count(rng: &mut Rng, near: bool) -> usize {
    let weights = match near {
        true => [15, 10, 30, 15, 15, 12, 3],
        false => [15, 10, 35, 20, 20, 0, 0],
    };
    match rng.weighted(&weights) {
        0 => 1,
        1 => 2,
        2 => 3 + rng.below(6),
        3 => 9 + rng.below(PAIRS - 9),
        4 => PAIRS,
        5 => PAIRS + 1,
        _ => PAIRS + 2 + rng.below(MOST_PAIRS - PAIRS - 1),
    }
}

/// One more pair beside those that there are.
fn some_pair(rng: &mut Rng, tables: &Tables, pairs: &[Pair], near: bool) -> Pair {
    let earlier = rng.pick(pairs);
    let Pair { row, request } = any_pair(rng, tables);
    let odd = match near {
        true => [0, LAST_NUMBER, LAST_NUMBER + 1],
        false => [LAST_NUMBER; 3],
    };
    let odd = rng.pick(&odd).unwrap_or(LAST_NUMBER);
    let gone = rng.between(1, tables.next.min(LAST_NUMBER));
    let found = match rng.below(32) {
        0..=11 => coming_pair(rng, tables),
        12..=14 => listed_pair(rng, tables),
        15 => Some(Pair { row: gone, request }),
        16 => Some(Pair { row, request: gone }),
        17 => Some(Pair {
            row: request,
            request: row,
        }),
        18 => Some(Pair { row: odd, request }),
        19 => Some(Pair { row, request: odd }),
        20..=21 => earlier,
        22 => earlier.map(|p| Pair { request, ..p }),
        23 => earlier.map(|p| Pair { row, ..p }),
        _ => None,
    };
    found.unwrap_or(Pair { row, request })
}

/// A row that stands and an open request, or 1.
fn any_pair(rng: &mut Rng, tables: &Tables) -> Pair {
    let rows: Vec<u32> = tables.rows.iter().map(|r| r.number).collect();
    let requests: Vec<u32> = tables.requests.iter().map(|q| q.number).collect();
    Pair {
        row: rng.pick(&rows).unwrap_or(1),
        request: rng.pick(&requests).unwrap_or(1),
    }
}

/// A row that comes from the request.
fn coming_pair(rng: &mut Rng, tables: &Tables) -> Option<Pair> {
    let request = rng.pick(&tables.requests)?.number;
    let rows = rows_from(tables, &BTreeSet::from([request]));
    let row = rng.pick(&rows.into_iter().collect::<Vec<_>>())?;
    Some(Pair { row, request })
}

/// An item of the request or the first source of one, which the lender has.
fn listed_pair(rng: &mut Rng, tables: &Tables) -> Option<Pair> {
    let request = rng.pick(&tables.requests)?;
    let item = rng.pick(&request.listed().collect::<Vec<_>>())?;
    let row = match tables.row(item) {
        Some(copy) if !copy.is_end() && rng.percent(50) => copy.source,
        _ => item,
    };
    let request = request.number;
    Some(Pair { row, request })
}

/// The bytes of the line before its line feed.
fn bytes(pairs: &[Pair]) -> usize {
    let pairs = pairs.to_vec();
    Call::ComesAll { pairs }.print().len() - 1
}

/// Pairs become such of single digits until the line is not too long.
fn shorten(rng: &mut Rng, pairs: &mut [Pair]) {
    while bytes(pairs) > LINE_BYTES {
        let at = rng.below(pairs.len());
        pairs[at] = Pair {
            row: rng.between(1, 9),
            request: rng.between(1, 9),
        };
    }
}

/// The numbers of a few pairs get more digits until the line has so many bytes, if it can.
fn lengthen(rng: &mut Rng, pairs: &mut [Pair], most: usize) {
    let mut order: Vec<usize> = (0..pairs.len()).collect();
    rng.shuffle(&mut order);
    for at in order {
        let mut missing = most.saturating_sub(bytes(pairs));
        let Pair { row, request } = &mut pairs[at];
        for number in [row, request] {
            while missing > 0 && (1..=LAST_NUMBER / 10).contains(number) {
                *number *= 10;
                missing -= 1;
            }
        }
    }
}
