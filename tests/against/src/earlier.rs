//! The functions of the earlier commit, under the names that tools/against gave them.

use crate::removals::Marks;
use std::ffi::c_void;
use std::ptr;

extern "C" {
    fn earlier_kernel_remove_rows(t: *mut u32, t_len: usize, count: usize, marks: *const c_void);
    fn earlier_kernel_close_request(t: *mut u32, t_len: usize, p: *mut u32, p_len: usize, q: u32);
}

pub fn remove_rows(t: &mut [u32], count: usize, marks: &Marks) {
    let marks = if cfg!(marks_in_bits) {
        ptr::from_ref(&marks.bits).cast()
    } else {
        ptr::from_ref(&marks.bools).cast()
    };
    unsafe { earlier_kernel_remove_rows(t.as_mut_ptr(), t.len(), count, marks) }
}

pub fn close_request(t: &mut [u32], p: &mut [u32], q: u32) {
    unsafe { earlier_kernel_close_request(t.as_mut_ptr(), t.len(), p.as_mut_ptr(), p.len(), q) }
}
