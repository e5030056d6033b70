//! The proved functions, safe to call on slices of any length: the exports
//! test what their callees require (crates/test_exports/src).

mod raw;

pub mod call_words;
pub mod changing;
pub mod closing;
pub mod entry;
pub mod fuller;
pub mod layout;
pub mod performing;
pub mod plain;
pub mod reading;
pub mod rights;
pub mod season;

/// A row as the words of its columns, in their order.
pub type RowFields = [u32; layout::ROW_COLUMNS];

/// A request as the words of its columns, in their order.
pub type RequestFields = [u32; layout::REQUEST_COLUMNS];

/// Which slots of rows are marked.
pub type RowMarks = [bool; layout::ROWS];

/// The same in bits: bit i % 64 of word i / 64 is the mark of slot i.
pub type SlotBits = [u64; layout::ROWS / 64];

/// Of each row the marks of sixteen pairs in bits, by source word, the slot plus 1; at 0, for no row, none.
pub type PairMarks = [u16; layout::ROWS + 1];

/// Which slots of requests are marked.
pub type RequestMarks = [bool; layout::REQUESTS];
