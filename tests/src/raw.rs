//! The C names, as crates/test_exports/src and crates/entry/src declare them: a slice is a
//! pointer and a length, a reference to an array is a pointer.

use crate::call_words::{AnswerWords, CallWords};
use crate::layout::PAIRS;
use crate::{PairMarks, RequestFields, RequestMarks, RowFields, SlotBits};

/// Both runs, the bytes and the lent reply, each a pointer and a length.
pub type EntryPoint = unsafe extern "C" fn(
    *mut u32,
    usize,
    *mut u32,
    usize,
    *const u8,
    usize,
    *mut u8,
    usize,
) -> usize;

extern "C" {
    // lookups.rt
    pub fn kernel_rows_in(t: *const u32, t_len: usize) -> usize;
    pub fn kernel_requests_in(t: *const u32, t_len: usize) -> usize;
    pub fn kernel_row_slot(t: *const u32, t_len: usize, n: u32) -> usize;
    pub fn kernel_request_slot(t: *const u32, t_len: usize, q: u32) -> usize;
    pub fn kernel_open_on(t: *const u32, t_len: usize, c: u32) -> usize;

    // reading.rt
    pub fn kernel_layout_version() -> u32;
    pub fn kernel_row_at(t: *const u32, t_len: usize, i: usize, out: *mut RowFields);
    pub fn kernel_request_at(t: *const u32, t_len: usize, j: usize, out: *mut RequestFields);
    pub fn kernel_next_of(t: *const u32, t_len: usize) -> u32;
    pub fn kernel_listed(p: *const u32, p_len: usize, n: u32) -> bool;
    pub fn kernel_records(from: *const u32, from_len: usize, to: *mut u32, to_len: usize);

    // asking.rt
    pub fn kernel_sound(t: *const u32, t_len: usize, p: *const u32, p_len: usize) -> bool;
    pub fn kernel_on_loan(t: *const u32, t_len: usize, e: u32) -> bool;
    pub fn kernel_comes(t: *const u32, t_len: usize, e: usize, q: u32) -> bool;
    pub fn kernel_lent(t: *const u32, t_len: usize, e: usize) -> bool;
    pub fn kernel_first_chain(
        t: *const u32,
        t_len: usize,
        e: usize,
        chain: *mut u32,
        chain_len: usize,
    ) -> usize;
    pub fn kernel_mark_pairs(
        t: *const u32,
        t_len: usize,
        requests: *const [u32; PAIRS],
        marks: *mut PairMarks,
    );

    // rights.rt
    pub fn kernel_rights_empty(a: u32) -> bool;
    pub fn kernel_rights_within(a: u32, b: u32) -> bool;
    pub fn kernel_rights_contain(a: u32, right: u32) -> bool;

    // changing.rt
    pub fn kernel_set_place(t: *mut u32, t_len: usize, i: usize, place: u32);
    pub fn kernel_clear_item(t: *mut u32, t_len: usize, j: usize, k: usize);
    pub fn kernel_set_fetched(t: *mut u32, t_len: usize, j: usize);
    pub fn kernel_set_next(t: *mut u32, t_len: usize, n: u32);
    pub fn kernel_append_row(t: *mut u32, t_len: usize, count: usize, w: *const RowFields);
    pub fn kernel_append_request(t: *mut u32, t_len: usize, count: usize, w: *const RequestFields);
    pub fn kernel_remove_rows(t: *mut u32, t_len: usize, count: usize, marks: *const SlotBits);
    pub fn kernel_remove_requests(t: *mut u32, t_len: usize, marks: *const RequestMarks);

    // closings.rt
    pub fn kernel_close_request(t: *mut u32, t_len: usize, p: *mut u32, p_len: usize, q: u32);
    pub fn kernel_close_port(t: *mut u32, t_len: usize, p: *mut u32, p_len: usize, c: u32);
    pub fn kernel_drop_row(t: *mut u32, t_len: usize, p: *mut u32, p_len: usize, e: u32);

    // performing.rt
    pub fn kernel_perform(
        t: *mut u32,
        t_len: usize,
        p: *mut u32,
        p_len: usize,
        w: *const CallWords,
        out: *mut AnswerWords,
    );

    // crates/entry/src/exports.rt
    pub fn tablet_open(
        tables: *mut u32,
        tables_len: usize,
        processes: *mut u32,
        processes_len: usize,
        text: *const u8,
        text_len: usize,
        reply: *mut u8,
        reply_len: usize,
    ) -> usize;
    pub fn tablet_call(
        tables: *mut u32,
        tables_len: usize,
        processes: *mut u32,
        processes_len: usize,
        line: *const u8,
        line_len: usize,
        reply: *mut u8,
        reply_len: usize,
    ) -> usize;
    pub fn tablet_page(
        tables: *const u32,
        tables_len: usize,
        from: usize,
        page: *mut u8,
        page_len: usize,
    ) -> usize;
    pub fn tablet_join(texts: *const u8, texts_len: usize, out: *mut u8, out_len: usize) -> usize;
}
