//! Closing of a request: of one with a single copy, at 10, 100 and 1,024 rows,
//! and of one whose closing closes 85.

use crate::measure::{Both, Layer, Measured};
use crate::on_runs::{measure, On};
use crate::tables::SIZES;
use kernel::layout::PROCESS_WORDS;
use kernel::plain::closing_tables as built;
use model::Tables;
use std::hint::black_box as hidden;

pub fn on_closings<A, B>(by: &mut dyn Measured, both: Both<A, B>)
where
    A: Fn(&mut [u32], &mut [u32], u32) + Copy,
    B: Fn(&mut [u32], &mut [u32], u32) + Copy,
{
    for rows in SIZES {
        closed(by, both, "a request with one copy", built::one_copy(rows));
    }
    closed(by, both, "a request with one copy", built::one_copy_full());
    closed(by, both, "85 requests", built::cascade_of_85());
    closed(by, both, "85 requests", built::cascade_of_85_full());
}

fn closed<A, B>(
    by: &mut dyn Measured,
    both: Both<A, B>,
    what: &str,
    (tables, request): (Tables, u32),
) where
    A: Fn(&mut [u32], &mut [u32], u32),
    B: Fn(&mut [u32], &mut [u32], u32),
{
    let on = On {
        layer: Layer::Closing,
        name: format!("closing of {what}"),
        tables: &tables,
        reads: closing_reads(&tables),
    };
    measure(
        by,
        on,
        |t, p| (both.proved)(t, p, hidden(request)),
        |t, p| (both.plain)(t, p, hidden(request)),
    );
}

/// Number, both sources and the request of each row, port and items of each request, and the rows gone through.
pub fn closing_reads(tables: &Tables) -> usize {
    4 * (4 * tables.rows.len() + 6 * tables.requests.len() + PROCESS_WORDS / 3)
}
