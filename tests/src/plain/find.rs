//! Look-up of a row and of a request by number.

use super::view::used;
use crate::layout::{NUMBER, Q_NUMBER, REQUESTS, ROWS, TABLES_WORDS};

#[inline(never)]
pub fn row_slot(tables: &[u32], number: u32) -> Option<usize> {
    slot(tables, NUMBER, ROWS, number)
}

#[inline(never)]
pub fn request_slot(tables: &[u32], number: u32) -> Option<usize> {
    slot(tables, Q_NUMBER, REQUESTS, number)
}

fn slot(tables: &[u32], start: usize, size: usize, number: u32) -> Option<usize> {
    if tables.len() != TABLES_WORDS {
        return None;
    }
    let numbers = &tables[start..start + size];
    numbers[..used(numbers)].binary_search(&number).ok()
}
