//! The limits (docs/MANUAL.md, chapter 8), each written once.

/// (rule X1) Processes are 1 to 64.
pub const PROCESSES: u32 = 64;
/// (rule X1) Nodes are 1 to 32.
pub const NODES: u32 = 32;
/// (rule X1) Operations are 0 to 255.
pub const LAST_OPERATION: u32 = 255;
/// (rules R3, X2) Rights are hold 1, transfer 2 and register 4, added up: 0 to 7.
pub const HOLD: u32 = 1;
pub const TRANSFER: u32 = 2;
pub const REGISTER: u32 = 4;
pub const ALL_RIGHTS: u32 = 7;
/// (rules R5, X9) Rows and requests take numbers from one counter, 1 to 4,294,967,294. The next
/// number is then 4,294,967,295, the greatest word.
pub const LAST_NUMBER: u32 = 4_294_967_294;
/// (rules X7, X8) At most 1,024 rows stand and 128 requests are open.
pub const ROWS: usize = 1024;
pub const REQUESTS: usize = 128;
/// (rules R11, X6) No row is deeper than 12.
pub const DEEPEST: u32 = 12;
/// (rules X4, X5, X15) A node form has at most 16 entries, an ask at most 4 items, a comesall at
/// most 16 pairs.
pub const ENTRIES: usize = 16;
pub const ITEMS: usize = 4;
pub const PAIRS: usize = 16;
/// (rule X3) A line has at most 255 bytes before its line feed.
pub const LINE_BYTES: usize = 255;
