//! A second implementation of the Core PLEX plug-in machine, written for
//! clarity: every call decodes the lent bytes into plain values, acts on those
//! and encodes the result again. Long event lists of the engine are compared
//! with the answers and states this one gives.
#![forbid(unsafe_code)]

mod bytes;
mod calls;
mod decimal;
mod encode;
mod events;
mod form;
pub mod generate;
mod image;
mod job;
mod link;
mod linked_guest;
mod one_by_one;
mod refusal;
mod registers;
mod sight;
mod sorts;
mod state;
mod statement;
mod step;
mod table;
mod tree;
#[cfg(test)]
mod trials;
mod waits;

pub use calls::{check, fresh, link, run, walk};
pub use linked_guest::{relocated_events, relocated_state};
pub use one_by_one::second_order;
