//! A plain reading of the paper "Token flow, tables and markings", with wishes 1
//! to 6 of the page "What customers ask next": "Guards that read the result", "One
//! round token for all tables", "Less copying of paths", which changes no answer,
//! "Why can't we pair?", "Group the sheet by destination" and "Larger events".
//!
//! Keshmirun runs the activity diagrams of card game tournaments. This crate
//! says, sentence by sentence, what the paper and the wishes promise of the seven
//! operations, so that an engine can be compared with it call by call. It is
//! written to be read, not to be fast: an offer is a list entry, a choice is a
//! list of end numbers, and pick and why try the sets of ends one after another.
//!
//! The modules follow the paper's headings: `table`, `marking`, `offers`,
//! `choices`, `operations`. `terms` is wish 1: what the guard bytes and the bounds
//! list say together. Wish 2 amends one sentence in `offers`, (c) of competing.
//! Wish 4 adds its levels to `choices` and the operation [`why`]. Wish 5 changes one
//! more sentence in `offers`, the order of ends, and all that goes by their numbers
//! follows. Wish 6 raises two numbers in `table`. `bytes`, `refusal` and `budget` are
//! what these share. [`random`] makes tables, markings and whole events to compare on.

#![forbid(unsafe_code)]
#![warn(missing_docs)]

mod budget;
mod bytes;
mod choices;
mod marking;
mod offers;
mod operations;
pub mod random;
mod refusal;
mod table;
mod terms;

pub use operations::{
    check, finish, pick, pick_within, sheet, sheet_within, start, step, step_within, why,
    why_within, Answer, Board, NO_BOUNDS, NO_NODE,
};
