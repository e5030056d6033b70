//! The functions that change the lent words in place. Where a length or a slot
//! does not fit, nothing changes.

use crate::raw;
use crate::{RequestFields, RequestMarks, RowFields, RowMarks, SlotBits};

pub fn set_place(tables: &mut [u32], slot: usize, place: u32) {
    unsafe { raw::kernel_set_place(tables.as_mut_ptr(), tables.len(), slot, place) }
}

/// The item at a position of a request's list leaves it.
pub fn clear_item(tables: &mut [u32], slot: usize, item: usize) {
    unsafe { raw::kernel_clear_item(tables.as_mut_ptr(), tables.len(), slot, item) }
}

pub fn set_fetched(tables: &mut [u32], slot: usize) {
    unsafe { raw::kernel_set_fetched(tables.as_mut_ptr(), tables.len(), slot) }
}

pub fn set_next(tables: &mut [u32], next: u32) {
    unsafe { raw::kernel_set_next(tables.as_mut_ptr(), tables.len(), next) }
}

/// Stores a row in the slot after so many.
pub fn append_row(tables: &mut [u32], count: usize, row: &RowFields) {
    unsafe { raw::kernel_append_row(tables.as_mut_ptr(), tables.len(), count, row) }
}

pub fn append_request(tables: &mut [u32], count: usize, request: &RequestFields) {
    unsafe { raw::kernel_append_request(tables.as_mut_ptr(), tables.len(), count, request) }
}

/// The marks as `remove_rows` takes them.
pub fn packed(marks: &RowMarks) -> SlotBits {
    let mut bits = SlotBits::default();
    for (slot, mark) in marks.iter().enumerate() {
        bits[slot / 64] |= u64::from(*mark) << (slot % 64);
    }
    bits
}

/// Removes the marked rows of the first so many.
#[inline]
pub fn remove_rows(tables: &mut [u32], count: usize, marks: &SlotBits) {
    unsafe { raw::kernel_remove_rows(tables.as_mut_ptr(), tables.len(), count, marks) }
}

pub fn remove_requests(tables: &mut [u32], marks: &RequestMarks) {
    unsafe { raw::kernel_remove_requests(tables.as_mut_ptr(), tables.len(), marks) }
}
