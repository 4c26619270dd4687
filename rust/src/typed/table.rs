//! A table by its nodes and edges, read where its bytes stand.

use crate::{check, EdgeId, EdgeKind, Guards, Kind, NodeId, Refusal};
use core::fmt;

/// A table that was checked, over bytes that are lent or its own (`Table<&[u8]>`, [`OwnedTable`](crate::OwnedTable)).
///
/// # Examples
/// ```
/// use keshmirun::{EdgeKind, Kind, NodeId, Table};
///
/// // one initial node, one action, and the control edge between them
/// let bytes = [0, 15, 1, 2, 1, 1, 255, 0, 0, 2, 255, 0, 0, 0, 0, 1, 0];
/// let table = Table::new(&bytes)?;
/// let kinds: Vec<Kind> = table.nodes().map(|node| node.kind()).collect();
/// assert_eq!(kinds, [Kind::Initial, Kind::Action]);
/// let edge = table.edge(0).unwrap();
/// assert_eq!((edge.kind(), edge.source().id(), edge.target().id()), (EdgeKind::Control, NodeId::new(0), NodeId::new(1)));
/// assert!(table.node(2).is_none());
/// assert_eq!(table.node(edge.target()), Some(edge.target()));
///
/// assert_eq!(Table::new(&bytes[..16]).unwrap_err().number, 1);
/// # Ok::<(), keshmirun::Refusal>(())
/// ```
#[derive(Clone, Copy, Debug, PartialEq, Eq, Hash)]
pub struct Table<B> {
    bytes: B,
}

impl<B: AsRef<[u8]>> Table<B> {
    /// The table of these bytes.
    ///
    /// # Errors
    /// Refusals 1 to 4, as for [`check`].
    pub fn new(bytes: B) -> Result<Table<B>, Refusal> {
        check(bytes.as_ref())?;
        Ok(Table { bytes })
    }

    /// Its bytes.
    pub fn as_bytes(&self) -> &[u8] {
        self.bytes.as_ref()
    }

    /// The bytes that it was made of.
    pub fn into_bytes(self) -> B {
        self.bytes
    }

    /// Its nodes, by number.
    pub fn nodes(&self) -> Nodes<'_> {
        self.records().nodes()
    }

    /// Its edges, by number.
    pub fn edges(&self) -> Edges<'_> {
        self.records().edges()
    }

    /// The node of this number, if it has one.
    pub fn node(&self, node: impl Into<NodeId>) -> Option<Node<'_>> {
        self.records().node(node.into().number())
    }

    /// The edge of this number, if it has one.
    pub fn edge(&self, edge: impl Into<EdgeId>) -> Option<Edge<'_>> {
        self.records().edge(edge.into().number())
    }

    /// Guards for it that are all open.
    pub fn guards(&self) -> Guards {
        Guards::all_open(self)
    }

    pub(crate) fn records(&self) -> Records<'_> {
        Records { bytes: self.as_bytes() }
    }
}

const NODE_COUNT: usize = 3;
const EDGE_COUNT: usize = 4;
const HEAD: usize = 5;
const RECORD: usize = 4;

/// The records of a table's bytes. Where the bytes are no table's it has fewer, and says nothing that is wrong.
#[derive(Clone, Copy)]
pub(crate) struct Records<'t> {
    bytes: &'t [u8],
}

impl<'t> Records<'t> {
    fn count(self, at: usize) -> u8 {
        self.bytes.get(at).copied().unwrap_or(0)
    }

    fn record(self, number: usize) -> Option<[u8; RECORD]> {
        let begin = HEAD + RECORD * number;
        self.bytes.get(begin..begin + RECORD)?.try_into().ok()
    }

    pub fn nodes(self) -> Nodes<'t> {
        Nodes { records: self, next: 0, end: self.count(NODE_COUNT) }
    }

    pub fn edges(self) -> Edges<'t> {
        Edges { records: self, next: 0, end: self.count(EDGE_COUNT) }
    }

    pub fn node(self, number: u8) -> Option<Node<'t>> {
        let [kind, owner, lower, upper] = self.record(usize::from(number)).filter(|_| number < self.count(NODE_COUNT))?;
        Some(Node { records: self, number, kind: Kind::of(kind)?, owner, lower, upper })
    }

    pub fn edge(self, number: u8) -> Option<Edge<'t>> {
        let before = usize::from(self.count(NODE_COUNT));
        let [kind, source, target, guarded] = self.record(before + usize::from(number)).filter(|_| number < self.count(EDGE_COUNT))?;
        let kind = if kind == EdgeKind::Control.number() { EdgeKind::Control } else { EdgeKind::Object };
        Some(Edge { number, kind, source: self.node(source)?, target: self.node(target)?, is_guarded: guarded == 1 })
    }
}

macro_rules! numbered {
    ($(#[$doc:meta])* $name:ident, $item:ident, $of:ident) => {
        $(#[$doc])*
        #[derive(Clone)]
        pub struct $name<'t> {
            records: Records<'t>,
            next: u8,
            end: u8,
        }

        impl<'t> Iterator for $name<'t> {
            type Item = $item<'t>;

            fn next(&mut self) -> Option<$item<'t>> {
                let number = Some(self.next).filter(|next| *next < self.end)?;
                self.next += 1;
                self.records.$of(number)
            }

            fn size_hint(&self) -> (usize, Option<usize>) {
                let left = usize::from(self.end - self.next);
                (left, Some(left))
            }
        }

        impl ExactSizeIterator for $name<'_> {}

        impl core::iter::FusedIterator for $name<'_> {}

        impl fmt::Debug for $name<'_> {
            fn fmt(&self, f: &mut fmt::Formatter<'_>) -> fmt::Result {
                f.debug_list().entries(self.clone()).finish()
            }
        }
    };
}

numbered! {
    /// The nodes of a table, by number.
    Nodes, Node, node
}

numbered! {
    /// The edges of a table, by number.
    Edges, Edge, edge
}

/// A node of a table.
#[derive(Clone, Copy)]
pub struct Node<'t> {
    records: Records<'t>,
    number: u8,
    kind: Kind,
    owner: u8,
    lower: u8,
    upper: u8,
}

impl<'t> Node<'t> {
    /// Its number.
    pub fn id(&self) -> NodeId {
        NodeId::new(self.number)
    }

    /// Its kind.
    pub fn kind(&self) -> Kind {
        self.kind
    }

    /// The action whose pin it is, if it is one.
    pub fn owner(&self) -> Option<NodeId> {
        Some(NodeId::new(self.owner)).filter(|_| self.kind.is_pin())
    }

    /// The fewest values with which an input pin's action begins; of others 0.
    pub fn lower(&self) -> u8 {
        self.lower
    }

    /// The most values that it may hold, if it is an object node; of others 0.
    pub fn upper(&self) -> u8 {
        self.upper
    }

    /// The destination that its ends count for: of a pin its action, of others itself.
    pub fn home(&self) -> NodeId {
        self.owner().unwrap_or_else(|| self.id())
    }

    /// The edges that enter it, by number.
    pub fn incoming(&self) -> impl Iterator<Item = Edge<'t>> + 't {
        let node = self.id();
        self.records.edges().filter(move |edge| edge.target().id() == node)
    }

    /// The edges that leave it, by number.
    pub fn outgoing(&self) -> impl Iterator<Item = Edge<'t>> + 't {
        let node = self.id();
        self.records.edges().filter(move |edge| edge.source().id() == node)
    }

    /// Its input pins, by number, if it is an action.
    pub fn input_pins(&self) -> impl Iterator<Item = Node<'t>> + 't {
        self.pins(Kind::InputPin)
    }

    /// Its output pins, by number, if it is an action: [`finish`](Table::finish) takes a list for each.
    pub fn output_pins(&self) -> impl Iterator<Item = Node<'t>> + 't {
        self.pins(Kind::OutputPin)
    }

    fn pins(&self, kind: Kind) -> impl Iterator<Item = Node<'t>> + 't {
        let action = Some(self.id());
        self.records.nodes().filter(move |node| node.kind == kind && node.owner() == action)
    }
}

impl From<Node<'_>> for NodeId {
    fn from(node: Node<'_>) -> NodeId {
        node.id()
    }
}

impl PartialEq for Node<'_> {
    /// The same node of the same table's bytes.
    fn eq(&self, other: &Self) -> bool {
        self.number == other.number && self.records.bytes == other.records.bytes
    }
}

impl Eq for Node<'_> {}

impl fmt::Debug for Node<'_> {
    fn fmt(&self, f: &mut fmt::Formatter<'_>) -> fmt::Result {
        write!(f, "node {}: {}", self.number, self.kind)
    }
}

/// An edge of a table.
#[derive(Clone, Copy, PartialEq, Eq)]
pub struct Edge<'t> {
    number: u8,
    kind: EdgeKind,
    source: Node<'t>,
    target: Node<'t>,
    is_guarded: bool,
}

impl<'t> Edge<'t> {
    /// Its number.
    pub fn id(&self) -> EdgeId {
        EdgeId::new(self.number)
    }

    /// Its kind.
    pub fn kind(&self) -> EdgeKind {
        self.kind
    }

    /// The node that it leaves.
    pub fn source(&self) -> Node<'t> {
        self.source
    }

    /// The node that it enters.
    pub fn target(&self) -> Node<'t> {
        self.target
    }

    /// Whether its guard byte may be 0.
    pub fn is_guarded(&self) -> bool {
        self.is_guarded
    }

    /// Whether a marking has a count of tokens for it: it is a control edge that leaves an initial node or an action.
    pub fn is_counted(&self) -> bool {
        self.kind == EdgeKind::Control && matches!(self.source.kind, Kind::Initial | Kind::Action)
    }
}

impl From<Edge<'_>> for EdgeId {
    fn from(edge: Edge<'_>) -> EdgeId {
        edge.id()
    }
}

impl fmt::Debug for Edge<'_> {
    fn fmt(&self, f: &mut fmt::Formatter<'_>) -> fmt::Result {
        write!(f, "edge {}: {} from {} to {}", self.number, self.kind, self.source.number, self.target.number)
    }
}
