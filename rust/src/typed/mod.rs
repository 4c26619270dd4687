//! The typed layer over the slice calls: bytes that were judged, with what stands in them, and the operations on them by type.
//!
//! Nothing here panics, whatever the bytes. Only `builder`, and what returns bytes of its own, allocates.

#[cfg(feature = "alloc")]
mod builder;
mod choice;
mod guards;
mod ids;
mod kind;
mod marking;
mod operations;
mod sheet;
mod table;
mod values;

#[cfg(feature = "alloc")]
pub use builder::Builder;
pub use choice::Choice;
pub use guards::{Bounds, Guards};
pub use ids::{EdgeId, EndId, NodeId};
pub use kind::{EdgeKind, Kind};
pub use marking::{Contents, Holding, Holdings, Marking, Stock, Tokens};
pub use sheet::{End, Ends, Path, Paths, Sheet};
pub use table::{Edge, Edges, Node, Nodes, Table};
pub use values::Values;

/// A table with bytes of its own.
#[cfg(feature = "alloc")]
pub type OwnedTable = Table<alloc::vec::Vec<u8>>;

/// A marking with bytes of its own.
#[cfg(feature = "alloc")]
pub type OwnedMarking = Marking<alloc::vec::Vec<u8>>;

/// A sheet with bytes of its own.
#[cfg(feature = "alloc")]
pub type OwnedSheet = Sheet<alloc::vec::Vec<u8>>;
