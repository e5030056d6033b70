//! A line of an opening text: what it is, and the numbers of its form.

use super::reader::Reader;
use crate::layout::{OPERATION, SUBDIRECTORY};

pub const ENTRIES: usize = 16;
pub const NODES: u32 = 32;
pub const PROCESSES: u32 = 64;

/// The refusal of a text and its line.
pub type Refused = (u32, u32);

/// An entry of a node: the words kind, object, operation and rights of its row.
pub type Entry = [u32; 4];

/// What forms are read into; their numbers are in range.
pub trait Forms {
    /// Its entries, none if they are more than have room: 4 or 6.
    fn node(&mut self, node: u32, entries: Option<&[Entry]>) -> Result<(), u32>;

    /// 4 if it is given already.
    fn process(&mut self, process: u32, prime: u32) -> Result<(), u32>;

    /// Whether the line is the last one; or its refusal.
    fn form(&mut self, line: &[u8]) -> Result<bool, u32> {
        let mut reader = Reader::of(line).ok_or(2u32)?;
        match reader.word() {
            b"open" if reader.is_empty() => return Ok(true),
            b"node" => {
                let mut entries = [[0; 4]; ENTRIES];
                let (node, count) = read_node(&mut reader, &mut entries)?;
                self.node(node, entries.get(..count))?;
            }
            b"process" => {
                let (process, prime) = read_process(&mut reader)?;
                self.process(process, prime)?;
            }
            _ => return Err(2),
        }
        Ok(false)
    }
}

fn read_process(reader: &mut Reader) -> Result<(u32, u32), u32> {
    let numbers = reader.next_number().zip(reader.next_number());
    let (process, prime) = numbers.filter(|_| reader.is_empty()).ok_or(2u32)?;
    if !(1..=PROCESSES).contains(&process) || !(1..=NODES).contains(&prime) {
        return Err(3);
    }
    Ok((process, prime))
}

/// The node and how many entries it has. All are read before the first is stored: a line that is
/// refused may be refused by its last.
// inlined with read_entry in both, a largest opening takes 5 % fewer instructions
#[inline(always)]
fn read_node(reader: &mut Reader, entries: &mut [Entry; ENTRIES]) -> Result<(u32, usize), u32> {
    let node = reader.next_number().ok_or(2u32)?;
    let mut count = 0;
    let mut in_range = (1..=NODES).contains(&node);
    while !reader.is_empty() {
        let entry = read_entry(reader).ok_or(2u32)?;
        in_range &= entry_in_range(&entry);
        if let Some(place) = entries.get_mut(count) {
            *place = entry;
        }
        count += 1;
    }
    in_range.then_some((node, count)).ok_or(3)
}

#[inline(always)]
fn read_entry(reader: &mut Reader) -> Option<Entry> {
    reader.byte(b' ')?;
    reader.byte(b'(')?;
    let entry = match reader.word() {
        b"op" => {
            let (manager, operation) = (reader.next_number()?, reader.next_number()?);
            [OPERATION, manager, operation, reader.next_number()?]
        }
        b"dir" => [
            SUBDIRECTORY,
            reader.next_number()?,
            0,
            reader.next_number()?,
        ],
        _ => return None,
    };
    reader.byte(b')')?;
    Some(entry)
}

fn entry_in_range(&[kind, object, operation, rights]: &Entry) -> bool {
    let most = if kind == OPERATION { PROCESSES } else { NODES };
    (1..=most).contains(&object) && operation <= 255 && rights <= 7
}
