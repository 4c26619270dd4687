//! Keshmirun runs a card game tournament's day that is drawn as an activity diagram: it says what is offered where, picks or judges what the head judge takes,
//! and writes what comes of it. The same bytes always give the same answer, so two screens never show two brackets.
//!
//! The engine itself is the archive `libkeshmirun.a`, whose every function is proved to follow its paper. This crate hands it slices and takes its answer
//! apart. What bytes mean is in [`formats`].
//!
//! # A day
//!
//! Two players are seated, play, and the winner is what the day ends in. What is drawn is a [`Builder`]'s; what happens is asked of the [`Table`] that it makes.
//!
//! ```
//! use keshmirun::{Builder, Guards, OwnedMarking, OwnedTable, Reason, Refusal, Values};
//!
//! /// The engine picks, until nothing more can be taken.
//! fn take_all(
//!     table: &OwnedTable,
//!     mut marking: OwnedMarking,
//!     guards: &Guards,
//! ) -> Result<OwnedMarking, Refusal> {
//!     loop {
//!         let choice = table.pick(&marking, guards)?;
//!         if choice.is_empty() {
//!             return Ok(marking);
//!         }
//!         marking = table.step(&marking, guards, &choice)?;
//!     }
//! }
//!
//! fn main() -> Result<(), Box<dyn std::error::Error>> {
//!     // what the organiser draws
//!     let mut draw = Builder::new();
//!     let entrants = draw.incoming_parameter(8);
//!     let seating = draw.decision();
//!     let (seat_1, seat_2) = (draw.central_buffer(1), draw.central_buffer(1));
//!     let game = draw.action();
//!     let (first, second) = (draw.input_pin(game, 1..=1), draw.input_pin(game, 1..=1));
//!     let winner = draw.output_pin(game, 1);
//!     let standings = draw.outgoing_parameter(1);
//!     draw.object(entrants, seating);
//!     draw.object(seating, seat_1);
//!     let to_seat_2 = draw.guarded_object(seating, seat_2);
//!     draw.object(seat_1, first);
//!     draw.object(seat_2, second);
//!     draw.object(winner, standings);
//!     let table = draw.table()?; // a refusal names the node or edge: `refusal.at()`
//!
//!     // the day begins with players 40 and 17; nobody may take the second seat yet
//!     let marking = table.start(&Values::of([[40, 17]]))?;
//!     let mut guards = table.guards();
//!     guards.close(to_seat_2)?;
//!
//!     // the sheet: player 40 may take the first seat, and that is all
//!     let sheet = table.sheet(&marking, &guards)?;
//!     let ends: Vec<_> = sheet.ends().map(|end| (end.target(), end.value())).collect();
//!     assert_eq!(ends, [(seat_1, Some(40))]);
//!     let marking = take_all(&table, marking, &guards)?;
//!
//!     // why doesn't the game begin? with one player its own rule isn't satisfied
//!     assert_eq!(table.why(&marking, &guards, game)?, Reason::OwnDestination);
//!
//!     // the second seat is opened, and the game begins with both
//!     guards.open(to_seat_2)?;
//!     let marking = take_all(&table, marking, &guards)?;
//!     let contents = table.contents(&marking)?;
//!     assert!(contents.is_running(game));
//!     assert!(contents.values(first).eq([40]) && contents.values(second).eq([17]));
//!
//!     // player 17 won: the standings
//!     let marking = table.finish(&marking, game, &Values::of([[17]]))?;
//!     let marking = take_all(&table, marking, &guards)?;
//!     assert!(table.contents(&marking)?.values(standings).eq([17]));
//!     Ok(())
//! }
//! ```
//!
//! `rust/examples/day.rs` plays a day of 41 nodes; `rust/desk` is a program that makes tables from a readable text, draws them and plays them.
//!
//! # Two layers
//!
//! [`Table`], [`Marking`], [`Sheet`], [`Choice`], [`Guards`], [`Bounds`] and [`Values`] are bytes that were judged, with what stands in them, and the operations
//! are methods of `Table`. None of them panics, whatever the bytes. The slice calls below them ([`check`], [`start`], [`sheet`], [`pick`], [`why`], [`step`],
//! [`finish`]) take and write plain bytes. Both answer a [`Refusal`] with the paper's number and place.
//!
//! # Features
//!
//! `std` (on by default) makes `Refusal` an error of the standard library. `alloc`, which it brings, has what returns bytes of its own: [`Table::start`],
//! [`Table::sheet`], [`Table::step`], [`Table::finish`], [`Builder`], [`Values::of`] and [`bounds_list`]. Without either the crate is `no_std` and allocates
//! nothing; [`Table::start_in`] and its like write to room that is lent.
//!
//! # Stack and state
//!
//! A call takes less than [`Room::STACK`] bytes of stack (32 KiB; the deepest known 28,139 bytes), allocates nothing in the engine, and keeps nothing: no state
//! between calls, no globals. Give a thread that calls it 64 KiB at least. Any number of threads may call at once. A slice of length 0 is fine wherever the format
//! allows it.
//!
//! # Linking
//!
//! The build script links the archive of the target that is built for from `target/archive` of Keshmirun's repository, where `make` puts it, or from the folder
//! that the variable `KESHMIRUN_ARCHIVE` names. There are archives for `x86_64-unknown-linux-gnu` and `aarch64-unknown-linux-gnu`.

#![cfg_attr(not(feature = "std"), no_std)]
#![warn(missing_docs, missing_debug_implementations)]
#![doc(test(attr(deny(warnings), allow(dead_code))))]

#[cfg(feature = "alloc")]
extern crate alloc;

mod archive;
mod calls;
mod limits;
mod reason;
mod refusal;
mod terms;
mod typed;

/// What stands in the bytes, as `docs/FORMATS.md` of the repository says it. It has no items.
///
#[cfg_attr(doc, doc = include_str!(concat!(env!("OUT_DIR"), "/FORMATS.md")))]
pub mod formats {}

/// The lines of README.md that call the crate, compiled as they stand there; of those over plain slices the tests do that.
#[cfg(doctest)]
#[doc = include_str!(concat!(env!("OUT_DIR"), "/README.md"))]
struct Readme;

pub use calls::{check, finish, pick, sheet, start, step, why, NO_NODE};
pub use limits::{Room, LONGEST_CHAIN, LONGEST_PATH, MOST_EDGES, MOST_ENDS, MOST_NODES, MOST_OFFERS, MOST_PATHS, MOST_TOKENS, MOST_VALUES};
pub use reason::Reason;
pub use refusal::{Place, Refusal};
#[cfg(feature = "alloc")]
pub use terms::bounds_list;
pub use terms::{Terms, NO_BOUNDS};
pub use typed::{Bounds, Choice, Contents, Edge, EdgeId, EdgeKind, Edges, End, EndId, Ends, Guards, Holding, Holdings, Kind, Marking};
#[cfg(feature = "alloc")]
pub use typed::{Builder, OwnedMarking, OwnedSheet, OwnedTable};
pub use typed::{Node, NodeId, Nodes, Path, Paths, Sheet, Stock, Table, Tokens, Values};
