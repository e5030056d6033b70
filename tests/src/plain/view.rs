//! The columns of the lent words as arrays, with how many slots are in use.

use crate::layout::{
    CLIENT, ITEMS, NEXT, OPERATION, PROCESS_WORDS, Q_NUMBER, REQUESTS, ROWS, SERVER, SUBDIRECTORY,
    TABLES_WORDS,
};

/// The words of one row. Sources are slots plus 1, 0 for none.
#[derive(Clone, Copy, Default)]
pub struct Row {
    pub number: u32,
    pub kind: u32,
    pub object: u32,
    pub operation: u32,
    pub rights: u32,
    pub place: u32,
    pub source: u32,
    pub via: u32,
    pub depth: u32,
    pub request: u32,
}

impl Row {
    pub fn is_end(&self) -> bool {
        matches!(self.kind, CLIENT | SERVER)
    }

    pub fn is_copied(&self) -> bool {
        matches!(self.kind, OPERATION | SUBDIRECTORY)
    }

    pub fn in_node(&self) -> bool {
        (1..=32).contains(&self.place)
    }

    pub fn in_clist(&self) -> bool {
        (101..=164).contains(&self.place)
    }
}

/// The lent tables: ten columns of rows, eight of requests.
pub struct View<'a> {
    pub rows: [&'a [u32; ROWS]; 10],
    pub row_count: usize,
    pub requests: [&'a [u32; REQUESTS]; 8],
    pub request_count: usize,
    pub next: u32,
}

impl<'a> View<'a> {
    /// None if the run of words has another length.
    pub fn of(words: &'a [u32]) -> Option<View<'a>> {
        let words: &[u32; TABLES_WORDS] = words.try_into().ok()?;
        let rows = std::array::from_fn(|c| column(words, c * ROWS));
        let requests = std::array::from_fn(|c| column(words, Q_NUMBER + c * REQUESTS));
        Some(View {
            rows,
            row_count: used(rows[0]),
            requests,
            request_count: used(requests[0]),
            next: words[NEXT],
        })
    }

    pub fn row(&self, slot: usize) -> Row {
        let [number, kind, object, operation, rights, place, source, via, depth, request] =
            self.rows.map(|column| column[slot]);
        Row {
            number,
            kind,
            object,
            operation,
            rights,
            place,
            source,
            via,
            depth,
            request,
        }
    }

    /// The row that a source word names; all 0 for none.
    pub fn source(&self, word: u32) -> Row {
        match word {
            0 => Row::default(),
            _ => self.row(word as usize - 1),
        }
    }

    /// The row of a number.
    pub fn find(&self, number: u32) -> Option<usize> {
        self.rows[0][..self.row_count].binary_search(&number).ok()
    }

    pub fn find_request(&self, number: u32) -> Option<usize> {
        let numbers = &self.requests[0][..self.request_count];
        numbers.binary_search(&number).ok()
    }

    pub fn items(&self, request: usize) -> [u32; ITEMS] {
        std::array::from_fn(|k| self.requests[4 + k][request])
    }
}

fn column<const N: usize>(words: &[u32], start: usize) -> &[u32; N] {
    words[start..start + N].try_into().expect("of this length")
}

/// How many slots stand before the first number 0.
pub fn used(numbers: &[u32]) -> usize {
    let zero = numbers.iter().position(|n| *n == 0);
    zero.unwrap_or(numbers.len())
}

pub fn processes_of(words: &[u32]) -> Option<&[u32; PROCESS_WORDS]> {
    words.try_into().ok()
}

/// Whether a process has a prime node.
pub fn listed(processes: &[u32; PROCESS_WORDS], process: u32) -> bool {
    (1..=64).contains(&process) && processes[3 * (process as usize - 1)] != 0
}
