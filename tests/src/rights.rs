//! The rights of a row, as a sum of hold 1, transfer 2 and register 4.

use crate::raw;

pub fn empty(rights: u32) -> bool {
    unsafe { raw::kernel_rights_empty(rights) }
}

pub fn within(rights: u32, others: u32) -> bool {
    unsafe { raw::kernel_rights_within(rights, others) }
}

pub fn contain(rights: u32, right: u32) -> bool {
    unsafe { raw::kernel_rights_contain(rights, right) }
}
