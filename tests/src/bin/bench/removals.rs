//! Removal of marked rows.

use crate::measure::{About, Both, Layer, Measured, Operation};
use crate::tables::Benched;
use kernel::changing::packed;
use kernel::{RowMarks, SlotBits};
use std::hint::black_box as hidden;

/// The marks in both forms: packing them is not measured.
pub struct Marks {
    pub bools: RowMarks,
    pub bits: SlotBits,
}

/// Each call has tables of its own.
struct Removal<'a, A, B> {
    benched: &'a Benched,
    marks: Marks,
    tables: Vec<Vec<u32>>,
    both: Both<A, B>,
}

impl<A, B> Operation for Removal<'_, A, B>
where
    A: Fn(&mut [u32], usize, &Marks),
    B: Fn(&mut [u32], usize, &Marks),
{
    fn prepare(&mut self) {
        for words in &mut self.tables {
            words.copy_from_slice(&self.benched.words);
        }
    }

    fn proved(&mut self, calls: usize) {
        let (count, marks) = (self.benched.rows, &self.marks);
        for words in &mut self.tables[..calls] {
            (self.both.proved)(hidden(words), hidden(count), hidden(marks));
        }
    }

    fn plain(&mut self, calls: usize) {
        let (count, marks) = (self.benched.rows, &self.marks);
        for words in &mut self.tables[..calls] {
            (self.both.plain)(hidden(words), hidden(count), hidden(marks));
        }
    }
}

/// Of the newest rows, 1, half or all; of an old row, so that nearly all rows
/// move; of rows scattered over the tables, so that many short runs move.
pub fn on_tables<A, B>(b: &Benched, by: &mut dyn Measured, both: Both<A, B>)
where
    A: Fn(&mut [u32], usize, &Marks) + Copy,
    B: Fn(&mut [u32], usize, &Marks) + Copy,
{
    let rows = b.rows;
    let newest = |gone: usize| move |slot: usize| slot >= rows - gone;
    removal(b, by, both, "the newest row", newest(1));
    removal(b, by, both, "the newer half", newest(rows / 2));
    removal(b, by, both, "all rows", newest(rows));
    removal(b, by, both, "the 8th oldest row", |slot| slot == 7);
    removal(b, by, both, "every 8th row", |slot| slot % 8 == 7);
    removal(b, by, both, "every other row", |slot| slot % 2 == 1);
}

fn removal<A, B>(
    b: &Benched,
    by: &mut dyn Measured,
    both: Both<A, B>,
    what: &str,
    goes: impl Fn(usize) -> bool,
) where
    A: Fn(&mut [u32], usize, &Marks),
    B: Fn(&mut [u32], usize, &Marks),
{
    let bools: RowMarks = std::array::from_fn(|slot| slot < b.rows && goes(slot));
    let bits = packed(&bools);
    let calls = 10;
    let mut operation = Removal {
        benched: b,
        marks: Marks { bools, bits },
        tables: vec![b.words.clone(); calls],
        both,
    };
    operation.proved(calls);
    let proved = operation.tables.clone();
    operation.prepare();
    operation.plain(calls);
    assert!(proved == operation.tables, "the same words");
    let about = About {
        layer: Layer::Rows,
        size: b.size(),
        name: format!("removal of {what}"),
        bytes: b.rows.div_ceil(8) + 40 * b.rows,
        calls,
    };
    by.measure(about, &mut operation);
}
