//! The sizes and codes of the lent words (docs/MANUAL.md, chapter 7).

/// (rule W11) The version of this layout.
pub const LAYOUT_VERSION: u32 = 1;
/// (rule W1) The words of the tables.
pub const TABLES_WORDS: usize = 11_265;
/// (rule W1) The words of the process records.
pub const PROCESSES_WORDS: usize = 192;
/// A reply has room for every answer.
pub const REPLY_BYTES: usize = 256;
/// (rule X3) A line has at most so many bytes before its line feed.
pub const LINE_BYTES: usize = 255;
/// (rule X15) A `comesall` has at most so many pairs.
pub const MOST_PAIRS: usize = 16;
/// (rule G2) A line of the page, with its line feed.
pub const PAGE_LINE_BYTES: usize = 65;
/// (rules G2, X7) The longest page, of 1,024 rows.
pub const PAGE_BYTES: usize = 66_560;
/// (rule J11) Room for two texts joined, whatever they are.
pub const JOINED_BYTES: usize = 24_832;

/// (rules R5, X9) The last number of a row or a request; the next number is at most one more.
pub const LAST_NUMBER: u32 = 4_294_967_294;
/// (rule X7) The slots of rows.
pub const ROWS: usize = 1024;
/// (rule X8) The slots of requests.
pub const REQUESTS: usize = 128;
/// (rule X1) The process records.
pub const PROCESSES: usize = 64;
/// (rule X5) The items of a request.
pub const ITEMS: usize = 4;
/// (rule W2) The columns of the rows.
pub const ROW_COLUMNS: usize = 10;
/// (rule W3) The columns of the requests.
pub const REQUEST_COLUMNS: usize = 8;
/// (rule W3) The first word of the requests.
pub const REQUESTS_AT: usize = ROW_COLUMNS * ROWS;
/// (rule W4) The word of the next number, the last one.
pub const NEXT_AT: usize = TABLES_WORDS - 1;

/// (rule W12) The place of the c-list of process p is this and p.
pub const C_LIST: u32 = 100;
/// (rule W12) The place of what lies with the system.
pub const SYSTEM: u32 = 200;
