//! The holders' page: a line of 64 columns and a line feed for each row.

use super::view::used;
use crate::entry::LINE_BYTES;
use crate::layout::{
    CLIENT, C_LIST, DEPTH, KIND, NUMBER, OPERATION, PLACE, RIGHTS, ROWS, SERVER, SUBDIRECTORY,
    SYSTEM, TABLES_WORDS,
};

/// The columns of words that a line shows, in its order.
const SHOWN: [usize; 5] = [NUMBER, KIND, PLACE, RIGHTS, DEPTH];

/// Whole lines from the row at a slot on, as many as `lent` has room for; answers their bytes. None
/// for words of another length.
#[inline(never)]
pub fn lines_from(tables: &[u32], from: usize, lent: &mut [u8]) -> usize {
    if tables.len() != TABLES_WORDS {
        return 0;
    }
    let rows = used(&tables[..ROWS]);
    let shown = SHOWN.map(|start| &tables[start..start + rows]);
    let mut count = 0;
    for (slot, line) in (from..rows).zip(lent.chunks_exact_mut(LINE_BYTES)) {
        let words = shown.map(|column| column[slot]);
        write(line.try_into().expect("a line"), words);
        count += LINE_BYTES;
    }
    count
}

fn write(line: &mut [u8; LINE_BYTES], [n, kind, place, rights, depth]: [u32; 5]) {
    line.fill(b' ');
    number(&mut line[..10], n);
    line[11..17].copy_from_slice(kind_word(kind));
    put_place(&mut line[18..26], place);
    number(&mut line[27..29], rights);
    number(&mut line[30..32], depth);
    line[LINE_BYTES - 1] = b'\n';
}

/// A number up to the last column; of more digits than columns the last ones.
fn number(columns: &mut [u8], mut number: u32) {
    for column in columns.iter_mut().rev() {
        *column = b'0' + (number % 10) as u8;
        number /= 10;
        if number == 0 {
            return;
        }
    }
}

fn kind_word(kind: u32) -> &'static [u8; 6] {
    match kind {
        OPERATION => b"op    ",
        SUBDIRECTORY => b"dir   ",
        CLIENT => b"client",
        SERVER => b"server",
        _ => b"      ",
    }
}

fn put_place(columns: &mut [u8], place: u32) {
    match place {
        1..=32 => named(columns, b"node ", place),
        101..=164 => named(columns, b"proc ", place - C_LIST),
        SYSTEM => columns[..6].copy_from_slice(b"system"),
        _ => {}
    }
}

/// A name and a number of one digit or two after it.
fn named(columns: &mut [u8], name: &[u8; 5], n: u32) {
    columns[..5].copy_from_slice(name);
    match n {
        0..=9 => number(&mut columns[5..6], n),
        _ => number(&mut columns[5..7], n),
    }
}
