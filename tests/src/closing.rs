//! Closing in place, on both lent runs of words. Where either has another
//! length, nothing changes.

use crate::raw;

pub fn close_request(tables: &mut [u32], processes: &mut [u32], request: u32) {
    let (t, p) = (tables, processes);
    unsafe { raw::kernel_close_request(t.as_mut_ptr(), t.len(), p.as_mut_ptr(), p.len(), request) }
}

/// Closes a port, counted as its client end.
pub fn close_port(tables: &mut [u32], processes: &mut [u32], client: u32) {
    let (t, p) = (tables, processes);
    unsafe { raw::kernel_close_port(t.as_mut_ptr(), t.len(), p.as_mut_ptr(), p.len(), client) }
}

pub fn drop_row(tables: &mut [u32], processes: &mut [u32], row: u32) {
    let (t, p) = (tables, processes);
    unsafe { raw::kernel_drop_row(t.as_mut_ptr(), t.len(), p.as_mut_ptr(), p.len(), row) }
}
