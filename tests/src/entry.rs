//! The product's two entry points: both lent runs of words, any bytes, and a
//! lent reply. They answer the reply's length, 0 if too few bytes are lent for it.
//! And its functions that write the page of the tables, and two texts joined.

use crate::raw::{self, EntryPoint};

/// An entry point: both runs, the bytes, the lent reply; the reply's length.
pub type Point = fn(&mut [u32], &mut [u32], &[u8], &mut [u8]) -> usize;

/// The bytes that a lent reply has at least.
pub const REPLY_BYTES: usize = 256;

#[inline]
pub fn open(t: &mut [u32], p: &mut [u32], text: &[u8], reply: &mut [u8]) -> usize {
    entered(raw::tablet_open, t, p, text, reply)
}

#[inline]
pub fn call(t: &mut [u32], p: &mut [u32], line: &[u8], reply: &mut [u8]) -> usize {
    entered(raw::tablet_call, t, p, line, reply)
}

/// Whole lines of the page of these tables from the row at a slot on, as many as `lent` has room
/// for; answers their bytes.
pub fn lines_from(t: &[u32], from: usize, lent: &mut [u8]) -> usize {
    unsafe { raw::tablet_page(t.as_ptr(), t.len(), from, lent.as_mut_ptr(), lent.len()) }
}

/// The bytes of a line of the page, with its line feed.
pub const LINE_BYTES: usize = 65;

/// The page of these tables, so many lines at a time.
pub fn page(t: &[u32], lines: usize) -> Vec<u8> {
    let mut lent = vec![0; lines * LINE_BYTES];
    let mut page = Vec::new();
    loop {
        let count = lines_from(t, page.len() / LINE_BYTES, &mut lent);
        if count == 0 {
            return page;
        }
        page.extend(&lent[..count]);
    }
}

/// The bytes that are lent at least for two texts joined.
pub const JOINED_BYTES: usize = 24_832;

/// Two opening texts, one after the other, joined to the front of `lent`; answers the bytes written.
pub fn join(texts: &[u8], lent: &mut [u8]) -> usize {
    let (to, room) = (lent.as_mut_ptr(), lent.len());
    unsafe { raw::tablet_join(texts.as_ptr(), texts.len(), to, room) }
}

/// What is written of two texts.
pub fn joined(texts: &[u8]) -> Vec<u8> {
    let mut lent = vec![0; JOINED_BYTES];
    let length = join(texts, &mut lent);
    lent.truncate(length);
    lent
}

#[inline]
fn entered(point: EntryPoint, t: &mut [u32], p: &mut [u32], b: &[u8], r: &mut [u8]) -> usize {
    let (t_len, p_len, b_len, r_len) = (t.len(), p.len(), b.len(), r.len());
    let (t, p, b, r) = (t.as_mut_ptr(), p.as_mut_ptr(), b.as_ptr(), r.as_mut_ptr());
    unsafe { point(t, t_len, p, p_len, b, b_len, r, r_len) }
}
