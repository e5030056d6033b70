//! The functions that only read the lent words.

use crate::layout::PAIRS;
use crate::raw;
use crate::{PairMarks, RequestFields, RowFields};

pub fn rows_in(tables: &[u32]) -> usize {
    unsafe { raw::kernel_rows_in(tables.as_ptr(), tables.len()) }
}

pub fn requests_in(tables: &[u32]) -> usize {
    unsafe { raw::kernel_requests_in(tables.as_ptr(), tables.len()) }
}

/// A slot plus 1, or 0 for none.
#[inline]
fn slot(answer: usize) -> Option<usize> {
    answer.checked_sub(1)
}

#[inline]
pub fn row_slot(tables: &[u32], number: u32) -> Option<usize> {
    slot(unsafe { raw::kernel_row_slot(tables.as_ptr(), tables.len(), number) })
}

#[inline]
pub fn request_slot(tables: &[u32], number: u32) -> Option<usize> {
    slot(unsafe { raw::kernel_request_slot(tables.as_ptr(), tables.len(), number) })
}

/// The slot of the open request on a port.
pub fn open_on(tables: &[u32], port: u32) -> Option<usize> {
    slot(unsafe { raw::kernel_open_on(tables.as_ptr(), tables.len(), port) })
}

/// (rule W11) The version of the layout.
pub fn layout_version() -> u32 {
    unsafe { raw::kernel_layout_version() }
}

/// Writes the words of a slot; nothing if there is no such slot.
pub fn row_at(tables: &[u32], slot: usize, out: &mut RowFields) {
    unsafe { raw::kernel_row_at(tables.as_ptr(), tables.len(), slot, out) }
}

pub fn request_at(tables: &[u32], slot: usize, out: &mut RequestFields) {
    unsafe { raw::kernel_request_at(tables.as_ptr(), tables.len(), slot, out) }
}

pub fn next_of(tables: &[u32]) -> u32 {
    unsafe { raw::kernel_next_of(tables.as_ptr(), tables.len()) }
}

pub fn listed(processes: &[u32], process: u32) -> bool {
    unsafe { raw::kernel_listed(processes.as_ptr(), processes.len(), process) }
}

/// Loads the records of one run and stores them in another.
pub fn records(from: &[u32], to: &mut [u32]) {
    unsafe { raw::kernel_records(from.as_ptr(), from.len(), to.as_mut_ptr(), to.len()) }
}

#[inline]
pub fn sound(tables: &[u32], processes: &[u32]) -> bool {
    let (t, p) = (tables, processes);
    unsafe { raw::kernel_sound(t.as_ptr(), t.len(), p.as_ptr(), p.len()) }
}

/// Whether an open request lists that number.
pub fn on_loan(tables: &[u32], number: u32) -> bool {
    unsafe { raw::kernel_on_loan(tables.as_ptr(), tables.len(), number) }
}

/// Whether the row in a slot comes from a request.
#[inline]
pub fn comes(tables: &[u32], slot: usize, request: u32) -> bool {
    unsafe { raw::kernel_comes(tables.as_ptr(), tables.len(), slot, request) }
}

/// Whether the row in a slot is lent.
#[inline]
pub fn lent(tables: &[u32], slot: usize) -> bool {
    unsafe { raw::kernel_lent(tables.as_ptr(), tables.len(), slot) }
}

/// Writes the first chain of the row in a slot to the front of the lent words, and says its length;
/// nothing if they are fewer than twelve.
#[inline]
pub fn first_chain(tables: &[u32], slot: usize, chain: &mut [u32]) -> usize {
    let (t, t_len, length) = (tables.as_ptr(), tables.len(), chain.len());
    unsafe { raw::kernel_first_chain(t, t_len, slot, chain.as_mut_ptr(), length) }
}

/// Marks every row for the requests of sixteen pairs; nothing for words of another length.
#[inline]
pub fn mark_pairs(tables: &[u32], requests: &[u32; PAIRS], marks: &mut PairMarks) {
    unsafe { raw::kernel_mark_pairs(tables.as_ptr(), tables.len(), requests, marks) }
}
