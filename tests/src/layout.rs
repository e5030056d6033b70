//! Where the columns of the lent words start, and the codes of kinds and places.

pub use model::limits::{ITEMS, LAST_NUMBER, PAIRS, REQUESTS, ROWS};
pub use model::words::{PROCESS_WORDS, REQUEST_COLUMNS, ROW_COLUMNS, TABLES_WORDS};

pub const NUMBER: usize = 0;
pub const KIND: usize = ROWS;
pub const OBJECT: usize = 2 * ROWS;
pub const OPERATIONS: usize = 3 * ROWS;
pub const RIGHTS: usize = 4 * ROWS;
pub const PLACE: usize = 5 * ROWS;
pub const SOURCE: usize = 6 * ROWS;
pub const VIA: usize = 7 * ROWS;
pub const DEPTH: usize = 8 * ROWS;
pub const REQUEST: usize = 9 * ROWS;

pub const Q_NUMBER: usize = ROW_COLUMNS * ROWS;
pub const Q_PORT: usize = Q_NUMBER + REQUESTS;
pub const Q_ASKER: usize = Q_NUMBER + 2 * REQUESTS;
pub const Q_FETCHED: usize = Q_NUMBER + 3 * REQUESTS;
pub const Q_ITEMS: usize = Q_NUMBER + 4 * REQUESTS;

pub const NEXT: usize = Q_NUMBER + REQUEST_COLUMNS * REQUESTS;

pub const OPERATION: u32 = 1;
pub const SUBDIRECTORY: u32 = 2;
pub const CLIENT: u32 = 3;
pub const SERVER: u32 = 4;

/// The place of a process's c-list is this and its number.
pub const C_LIST: u32 = 100;
pub const SYSTEM: u32 = 200;
