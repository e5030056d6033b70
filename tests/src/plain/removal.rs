//! Removal of marked slots, in place.

use crate::layout::{Q_NUMBER, REQUESTS, ROWS, SOURCE, TABLES_WORDS, VIA};

/// Removes the marked rows of the first so many and renumbers the sources of the others. Words of another length stay.
#[inline(never)]
pub fn remove_rows(tables: &mut [u32], count: usize, marks: &[bool; ROWS]) {
    if tables.len() != TABLES_WORDS || count > ROWS {
        return;
    }
    let rows = &mut tables[..Q_NUMBER];
    rename_sources(rows, &marks[..count]);
    take_out::<ROWS>(rows, &marks[..count]);
}

/// Removes the marked requests, given for the first so many.
pub fn remove_requests(requests: &mut [u32], marked: &[bool]) {
    take_out::<REQUESTS>(requests, marked);
}

/// The words of sources come to stand for the slots after the removal.
fn rename_sources(rows: &mut [u32], removed: &[bool]) {
    let mut slot_after = [0; ROWS + 1];
    let mut next = 1;
    for (word, removed) in slot_after[1..].iter_mut().zip(removed) {
        *word = next;
        next += u32::from(!removed);
    }
    for start in [SOURCE, VIA] {
        for source in &mut rows[start..start + removed.len()] {
            *source = slot_after[*source as usize];
        }
    }
}

/// Takes the marked slots out of columns of so many: each run of others moves
/// down, and 0 follows.
fn take_out<const SLOTS: usize>(columns: &mut [u32], marked: &[bool]) {
    let (mut from, mut to) = (0, 0);
    for run in marked.chunk_by(|one, next| one == next) {
        if !run[0] {
            if to < from {
                for column in columns.chunks_exact_mut(SLOTS) {
                    column.copy_within(from..from + run.len(), to);
                }
            }
            to += run.len();
        }
        from += run.len();
    }
    for column in columns.chunks_exact_mut(SLOTS) {
        column[to..from].fill(0);
    }
}
