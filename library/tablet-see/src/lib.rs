//! A session explained, drawn and tried out. It only reads what the proved kernel left: it can show, never change.

mod args;
mod call;
pub mod change;
mod draw;
mod explain;
mod form;
pub mod ground;
mod grounds_ask;
mod grounds_one;
mod json;
mod list;
pub mod opening;
mod page;
mod questions;
pub mod relations;
pub mod run;
mod session;
mod shown;
pub mod sound;
mod sound_rows;
mod told;
mod what_if;
mod wording;
