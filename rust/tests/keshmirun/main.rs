//! The crate's tests, one program with a module for each operation and for what else is tried: a program for each would be compiled and linked with all that
//! they share, over and over.

mod common;
#[path = "../../examples/events/mod.rs"]
mod events;
use day::day::built;

mod app;
mod archive;
mod bounds;
mod c;
mod check;
mod day;
mod destinations;
mod finish;
mod formats;
mod larger;
mod make;
mod no_archive;
mod one_round;
mod own_names;
mod pick;
mod program;
mod readme;
mod reason;
mod refusal;
mod sheet;
mod stack;
mod start;
mod step;
mod typed;
mod typed_fuzz;
mod typed_shifty;
mod vectors;
mod why;
