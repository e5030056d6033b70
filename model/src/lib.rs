//! The independent model of the kernel: tables, calls, text, history.

pub mod answer;
pub mod call;
pub mod cases;
pub mod chains;
pub mod check;
pub mod closing;
pub mod compare;
pub mod demand3;
pub mod dump;
pub mod effects;
pub mod form;
pub mod history;
pub mod join;
pub mod limits;
pub mod manual;
pub mod moment;
pub mod notes;
pub mod opening;
pub mod page;
pub mod random;
pub mod refusals;
pub mod relations;
pub mod session;
pub mod sound;
pub mod tables;
pub mod words;

pub use answer::Answer;
pub use session::run_session;
pub use sound::{broken, sound};
pub use tables::Tables;
