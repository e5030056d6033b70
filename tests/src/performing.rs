//! A call on both lent runs of words. Where a length or the caller does not
//! fit, nothing changes, the answer neither.

use crate::call_words::{AnswerWords, CallWords};
use crate::raw;

#[inline]
pub fn perform(t: &mut [u32], p: &mut [u32], call: &CallWords, answer: &mut AnswerWords) {
    let (t_len, p_len) = (t.len(), p.len());
    unsafe { raw::kernel_perform(t.as_mut_ptr(), t_len, p.as_mut_ptr(), p_len, call, answer) }
}
