//! The desk, run as its users run it: descriptions good and bad, days, the drawings of docs/DRAWING.md, and damaged text and files.

mod common;
mod damaged;
mod days;
mod descriptions;
mod drawings;
