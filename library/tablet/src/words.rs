//! Words kept outside of the kernel: both runs, and the bytes that they are saved as.

use crate::layout::{LAYOUT_VERSION, PROCESSES_WORDS, TABLES_WORDS};
use std::fmt;

/// The two runs of words, of any content.
///
/// Saved they are the line `(tablet 1)`, 1 the version of the layout (rule W11), and then each word as four bytes, the
/// lowest first: the tables' 11,265, the process records' 192.
#[derive(Clone, PartialEq, Eq, Debug)]
pub struct Words {
    pub tables: Vec<u32>,
    pub processes: Vec<u32>,
}

/// Why saved bytes are not taken.
#[derive(Clone, PartialEq, Eq, Debug)]
pub enum LoadError {
    /// They do not begin with the line `(tablet V)`.
    NotSaved,
    /// They have another version of the layout, this one.
    Version(u32),
    /// They are so many bytes instead of 45,839.
    Length(usize),
    /// (rule F9) They are not sound tables: a call on them would answer `(no 1)`.
    Unsound,
}

/// The line that saved words begin with.
fn header() -> String {
    format!("(tablet {LAYOUT_VERSION})\n")
}

impl Words {
    /// The bytes to keep.
    pub fn to_bytes(&self) -> Vec<u8> {
        let words = self.tables.iter().chain(&self.processes);
        let words = words.flat_map(|word| word.to_le_bytes());
        header().into_bytes().into_iter().chain(words).collect()
    }

    /// Reads what `to_bytes` gave. Whether the words are sound is not asked here.
    pub fn from_bytes(bytes: &[u8]) -> Result<Words, LoadError> {
        let front = bytes.iter().position(|&b| b == b'\n').unwrap_or(0);
        let (front, rest) = bytes.split_at(front);
        let version = version(front).ok_or(LoadError::NotSaved)?;
        if version != LAYOUT_VERSION {
            return Err(LoadError::Version(version));
        }
        let rest = rest.get(1..).unwrap_or(&[]);
        if rest.len() != 4 * (TABLES_WORDS + PROCESSES_WORDS) {
            return Err(LoadError::Length(bytes.len()));
        }
        let words = rest.chunks_exact(4);
        let words = words.map(|b| u32::from_le_bytes([b[0], b[1], b[2], b[3]]));
        let mut tables: Vec<u32> = words.collect();
        let processes = tables.split_off(TABLES_WORDS);
        Ok(Words { tables, processes })
    }
}

/// The version that the first line names.
fn version(front: &[u8]) -> Option<u32> {
    let text = std::str::from_utf8(front).ok()?;
    text.strip_prefix("(tablet ")?
        .strip_suffix(')')?
        .parse()
        .ok()
}

impl fmt::Display for LoadError {
    fn fmt(&self, f: &mut fmt::Formatter) -> fmt::Result {
        match self {
            LoadError::NotSaved => write!(
                f,
                "not saved tables: the first line is not '{}'",
                header().trim_end()
            ),
            LoadError::Version(v) => write!(
                f,
                "saved by layout {v}; this kernel has layout {LAYOUT_VERSION}"
            ),
            LoadError::Length(n) => {
                let wanted = header().len() + 4 * (TABLES_WORDS + PROCESSES_WORDS);
                write!(f, "{n} bytes, not the {wanted} of saved tables")
            }
            LoadError::Unsound => write!(f, "the words are not sound tables (refusal 1)"),
        }
    }
}

impl std::error::Error for LoadError {}
