//! Why a call was refused: the paper's number, its place, and what the number means.

use crate::{EdgeId, EndId, NodeId};
use core::fmt;

/// A refusal: its number in the paper's table, and the place that the table gives for it.
///
/// # Examples
/// ```
/// use keshmirun::{EdgeId, Place};
///
/// let refusal = keshmirun::check(&[]).unwrap_err();
/// assert_eq!(refusal.to_string(), "refused 1 0: the table's frame, version or counts");
/// assert_eq!(refusal.at(), Place::None);
///
/// // an edge from node 0 to itself, which is a final
/// let refusal = keshmirun::check(&[0, 11, 1, 1, 1, 12, 255, 0, 0, 0, 0, 0, 0]).unwrap_err();
/// assert_eq!((refusal.number, refusal.at()), (3, Place::Edge(EdgeId::new(0))));
/// ```
///
/// It is an error as the standard library has them, and what a program that ends with one prints is its meaning:
/// ```should_panic
/// fn main() -> Result<(), Box<dyn std::error::Error>> {
///     keshmirun::check(&[])?; // Error: refused 1 0: the table's frame, version or counts
///     Ok(())
/// }
/// ```
#[derive(Clone, Copy, PartialEq, Eq, Hash)]
pub struct Refusal {
    /// 1 to 18; of [`Refusal::NOT_A_SHEET`] 255.
    pub number: u8,
    /// The node, edge or end that the number's row names; 0 where it names none. [`at`](Refusal::at) says which it is.
    pub place: u8,
}

impl Refusal {
    /// What [`Sheet::new`](crate::Sheet::new) says of bytes that are no sheet of the table. The engine writes sheets and reads none, so the paper has no number
    /// for that; this one is the crate's own, and has no meaning in the paper.
    pub const NOT_A_SHEET: Refusal = Refusal { number: 255, place: 0 };

    /// The refusal of this number at no place.
    pub(crate) const fn placeless(number: u8) -> Refusal {
        Refusal { number, place: 0 }
    }

    /// What the number means in the paper.
    pub fn meaning(&self) -> &'static str {
        match self.number {
            1 => "the table's frame, version or counts",
            2 => "a node's fields, at the lowest such node",
            3 => "an edge's fields or ends, at the lowest such edge",
            4 => "the diagram's shape, at the lowest node that breaks it",
            5 => "the marking is not one of this table",
            6 => "the marking is ended",
            7 => "the guards: their number or their values",
            8 => "too many offers, paths in an offer, or ends",
            9 => "the choice is not strictly rising, or names no end",
            10 => "two taken ends compete, at the lowest taken end that does",
            11 => "a fork is not passed whole, at the lowest such fork",
            12 => "a destination doesn't agree, at the lowest such node",
            13 => "no acceptable choice has an end of the node named",
            14 => "not a running action",
            15 => "the value list is cut, has a count over 16, or has bytes left",
            16 => "a stock would pass its upper, or an edge is at 255",
            17 => "the lent output is shorter than the reply",
            18 => "the bounds list: its frame, an edge, their order, or low above high",
            _ => "no refusal of the paper",
        }
    }

    /// What the place is: by the number's row a node, an edge, an end or none. The node of 13 is the one that was named, whether the table has it or not.
    pub fn at(&self) -> Place {
        match self.number {
            2 | 4 | 11 | 12 | 13 => Place::Node(NodeId::new(self.place)),
            3 => Place::Edge(EdgeId::new(self.place)),
            10 => Place::End(EndId::new(self.place)),
            _ => Place::None,
        }
    }
}

impl fmt::Display for Refusal {
    fn fmt(&self, f: &mut fmt::Formatter<'_>) -> fmt::Result {
        write!(f, "refused {} {}: {}", self.number, self.place, self.meaning())
    }
}

/// The same as it is displayed, since that is what a `main` that returns it prints.
impl fmt::Debug for Refusal {
    fn fmt(&self, f: &mut fmt::Formatter<'_>) -> fmt::Result {
        fmt::Display::fmt(self, f)
    }
}

#[cfg(feature = "std")]
impl std::error::Error for Refusal {}

/// What a refusal's place is.
///
/// # Examples
/// ```
/// use keshmirun::{Place, Refusal};
///
/// assert_eq!(Refusal { number: 12, place: 6 }.at().to_string(), "node 6");
/// assert_eq!(Refusal { number: 10, place: 0 }.at().to_string(), "end 0");
/// assert_eq!(Refusal { number: 17, place: 0 }.at(), Place::None);
/// ```
#[derive(Clone, Copy, Debug, PartialEq, Eq, Hash)]
pub enum Place {
    /// The refusal is of the whole.
    None,
    /// A node of the table, or one that was named.
    Node(NodeId),
    /// An edge of the table.
    Edge(EdgeId),
    /// An end of the sheet.
    End(EndId),
}

impl fmt::Display for Place {
    fn fmt(&self, f: &mut fmt::Formatter<'_>) -> fmt::Result {
        match self {
            Place::None => f.write_str("no place"),
            Place::Node(node) => write!(f, "node {node}"),
            Place::Edge(edge) => write!(f, "edge {edge}"),
            Place::End(end) => write!(f, "end {end}"),
        }
    }
}
