//! The boundary to the proved static library, and the only `unsafe` code: the four functions of `tablet.h` on slices.

use crate::layout::REPLY_BYTES;

/// The C names, as library/tablet.h declares them.
mod raw {
    extern "C" {
        pub fn tablet_open(
            tables: *mut u32,
            tables_len: usize,
            processes: *mut u32,
            processes_len: usize,
            text: *const u8,
            text_len: usize,
            reply: *mut u8,
            reply_len: usize,
        ) -> usize;
        pub fn tablet_call(
            tables: *mut u32,
            tables_len: usize,
            processes: *mut u32,
            processes_len: usize,
            line: *const u8,
            line_len: usize,
            reply: *mut u8,
            reply_len: usize,
        ) -> usize;
        pub fn tablet_page(
            tables: *const u32,
            tables_len: usize,
            from: usize,
            page: *mut u8,
            page_len: usize,
        ) -> usize;
        pub fn tablet_join(
            texts: *const u8,
            texts_len: usize,
            out: *mut u8,
            out_len: usize,
        ) -> usize;
    }
}

/// The bytes of one answer.
pub struct Reply {
    bytes: [u8; REPLY_BYTES],
    length: usize,
}

impl Reply {
    pub fn line(&self) -> &[u8] {
        self.bytes.get(..self.length).unwrap_or(&self.bytes)
    }
}

/// (rule K2) Opens the lent runs by a text, whatever they hold and however long they are.
pub fn open(tables: &mut [u32], processes: &mut [u32], text: &[u8]) -> Reply {
    let mut bytes = [0; REPLY_BYTES];
    // Safety: each pointer is to as many elements as the length beside it, for this call alone: the slices and the
    // array are borrowed by this function, those written are borrowed mutably, so no two of them overlap. The library
    // answers words, bytes and lengths of any kind, and keeps none of the pointers.
    let length = unsafe {
        raw::tablet_open(
            tables.as_mut_ptr(),
            tables.len(),
            processes.as_mut_ptr(),
            processes.len(),
            text.as_ptr(),
            text.len(),
            bytes.as_mut_ptr(),
            bytes.len(),
        )
    };
    Reply { bytes, length }
}

/// (rule K2) Makes one call on the lent runs, whatever they hold and however long they are.
pub fn call(tables: &mut [u32], processes: &mut [u32], line: &[u8]) -> Reply {
    let mut bytes = [0; REPLY_BYTES];
    // Safety: as in `open`.
    let length = unsafe {
        raw::tablet_call(
            tables.as_mut_ptr(),
            tables.len(),
            processes.as_mut_ptr(),
            processes.len(),
            line.as_ptr(),
            line.len(),
            bytes.as_mut_ptr(),
            bytes.len(),
        )
    };
    Reply { bytes, length }
}

/// (rule G5) Writes the page from the row at a slot on to the front of the lent bytes, whatever the words hold: as many
/// whole lines as there is room for. Gives their bytes.
pub fn page(tables: &[u32], from: usize, page: &mut [u8]) -> usize {
    // Safety: as in `open`; the words are only read.
    unsafe {
        raw::tablet_page(
            tables.as_ptr(),
            tables.len(),
            from,
            page.as_mut_ptr(),
            page.len(),
        )
    }
}

/// (rule J11) Writes two opening texts joined, or their refusal, to the front of the lent bytes; nothing if they are
/// fewer than 24,832. Gives the bytes written.
pub fn join(texts: &[u8], out: &mut [u8]) -> usize {
    // Safety: as in `open`.
    unsafe { raw::tablet_join(texts.as_ptr(), texts.len(), out.as_mut_ptr(), out.len()) }
}
