//! The same functions in plain Rust over the same words, for the benchmark: what the proved code is measured against.

mod call_line;
pub mod calls;
pub mod closing;
pub mod closing_tables;
pub mod entry;
pub mod find;
mod forms;
mod holders;
pub mod join;
mod laid;
mod opening;
pub mod page;
mod printed;
pub mod questions;
mod reader;
pub mod removal;
mod request_clauses;
mod row_clauses;
mod view;

use view::{processes_of, View};

/// Whether the words are sound tables, as `kernel_sound` answers.
#[inline(never)]
pub fn sound(tables: &[u32], processes: &[u32]) -> bool {
    let (Some(tables), Some(processes)) = (View::of(tables), processes_of(processes)) else {
        return false;
    };
    laid::laid(&tables)
        && laid::next_sound(&tables)
        && laid::records_sound(processes)
        && row_clauses::rows_sound(&tables, processes)
        && request_clauses::requests_sound(&tables, processes)
        && holders::holders_sound(&tables)
        && holders::processes_placed(&tables, processes)
}
