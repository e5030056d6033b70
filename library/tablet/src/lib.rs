//! A proved capability kernel, safe to call: privileges are handed out, lent and taken back.
//!
//! The kernel is written and proved in Rattle; this crate links it and adds nothing to what it decides.
//! docs/MANUAL.md of the repository says what to write and what is answered.
//!
//! ```
//! use tablet::Tables;
//!
//! let text = "(node 1 (op 2 5 7))\n(process 1 1)\n(process 2 1)\n(open)\n";
//! let mut tables = Tables::open(text)?;
//!
//! assert_eq!(tables.call("(1 hold 1)\n").number(), Some(2));
//! assert_eq!(tables.call("(1 port 2)\n").number(), Some(3));
//! assert_eq!(tables.call("(1 ask 3 (2 3))\n").to_string(), "(ok 5)");
//! assert_eq!(tables.call("(2 fetch 4)\n").to_string(), "(ok 5 6)");
//!
//! // how row 6, the copy that was lent, came to be: held from row 1 of the text, then lent
//! assert_eq!(tables.call("(chain 6)\n").numbers(), Some(vec![1, 2, 6]));
//!
//! // which rows go with request 5, in one line: the copy does, the lender's row stays, no row 7 stands
//! assert_eq!(tables.comesall(&[(6, 5), (2, 5), (7, 5)])?, [Some(true), Some(false), None]);
//! assert_eq!(tables.call("(comesall (6 5) (2 5) (7 5))\n").to_string(), "(ok 1 0 -)");
//!
//! // a refusal has its number and its meaning
//! let answer = tables.call("(2 ask 3)\n");
//! let refusal = answer.refusal().unwrap();
//! assert_eq!(refusal.number(), 7);
//! println!("{refusal}: {}", refusal.meaning());
//!
//! // the lender takes the loan back
//! assert!(tables.call("(1 revoke 5)\n").accepted());
//! assert!(tables.state().row(6).is_none());
//!
//! // or the server answers: with 1 that it served the request, with 0 that it declines it
//! assert_eq!(tables.call("(1 ask 3 (2 3))\n").to_string(), "(ok 7)");
//! assert_eq!(tables.call("(2 answer 4 1)\n").to_string(), "(no 11)"); // it is not fetched
//! assert!(tables.call("(2 answer 4 0)\n").accepted());
//! # Ok::<(), tablet::Refusal>(())
//! ```
//!
//! # Threads
//!
//! The kernel keeps nothing of its own: [`Tables`] are its words. They may be sent to another thread; one call at a time
//! is made on them, which `&mut self` sees to. A call needs no more than 16 KB of stack.

mod answer;
mod join;
mod kernel;
pub mod layout;
mod refusal;
mod show;
mod state;
mod tables;
mod words;

pub use answer::Answer;
pub use join::join;
pub use refusal::Refusal;
pub use state::{Kind, Place, Record, Request, Row, State};
pub use tables::Tables;
pub use words::{LoadError, Words};
