//! A table made from nodes and edges, in readable code.

use crate::{EdgeId, EdgeKind, Kind, NodeId, OwnedTable, Refusal, Table};
use alloc::vec::Vec;
use core::ops::RangeInclusive;

/// Draws a diagram node by node and edge by edge, and makes a table of it.
///
/// Nodes and edges get the numbers in whose order they are drawn, from 0. It judges nothing on the way; [`table`](Builder::table) does, and says where.
///
/// # Examples
/// ```
/// use keshmirun::{Builder, Place};
///
/// // the paper's small event, but that the action comes before its pin
/// let mut draw = Builder::new();
/// let start = draw.initial();
/// let results = draw.incoming_parameter(4);
/// let which_way = draw.decision();
/// let with_a_token = draw.join();
/// let action = draw.action();
/// let pin = draw.input_pin(action, 1..=1);
/// let buffer = draw.central_buffer(2);
/// draw.control(start, with_a_token);
/// draw.object(results, which_way);
/// draw.guarded_object(which_way, with_a_token);
/// draw.guarded_object(which_way, buffer);
/// draw.object(with_a_token, pin);
/// let table = draw.table()?;
/// assert_eq!(table.nodes().len(), 7);
/// assert_eq!(table.node(pin).unwrap().owner(), Some(action));
///
/// // a second way into a decision is refused, and where
/// draw.object(buffer, which_way);
/// let refusal = draw.table().unwrap_err();
/// assert_eq!((refusal.number, refusal.at()), (4, Place::Node(which_way)));
/// # Ok::<(), keshmirun::Refusal>(())
/// ```
#[derive(Clone, Debug, Default)]
pub struct Builder {
    nodes: Vec<[u8; 4]>,
    edges: Vec<[u8; 4]>,
}

const VERSION: u8 = 1;
const NO_OWNER: NodeId = NodeId::new(255);

/// The next number of a list; past 255, which no table can have, 255.
fn next_of(list: &[[u8; 4]]) -> u8 {
    u8::try_from(list.len()).unwrap_or(u8::MAX)
}

impl Builder {
    /// An empty sheet of paper.
    pub const fn new() -> Builder {
        Builder { nodes: Vec::new(), edges: Vec::new() }
    }

    /// The number that the next node gets.
    pub fn next_node(&self) -> NodeId {
        NodeId::new(next_of(&self.nodes))
    }

    /// The number that the next edge gets.
    pub fn next_edge(&self) -> EdgeId {
        EdgeId::new(next_of(&self.edges))
    }

    /// A node by its fields.
    pub fn node(&mut self, kind: Kind, owner: Option<NodeId>, values: RangeInclusive<u8>) -> NodeId {
        let node = self.next_node();
        self.nodes.push([kind.number(), owner.unwrap_or(NO_OWNER).number(), *values.start(), *values.end()]);
        node
    }

    /// An edge by its fields.
    pub fn edge(&mut self, kind: EdgeKind, source: impl Into<NodeId>, target: impl Into<NodeId>, is_guarded: bool) -> EdgeId {
        let edge = self.next_edge();
        self.edges.push([kind.number(), source.into().number(), target.into().number(), u8::from(is_guarded)]);
        edge
    }

    fn plain(&mut self, kind: Kind) -> NodeId {
        self.node(kind, None, 0..=0)
    }

    fn stock(&mut self, kind: Kind, upper: u8) -> NodeId {
        self.node(kind, None, 0..=upper)
    }

    /// Where the day begins.
    pub fn initial(&mut self) -> NodeId {
        self.plain(Kind::Initial)
    }

    /// Something that is done.
    pub fn action(&mut self) -> NodeId {
        self.plain(Kind::Action)
    }

    /// A pin of an action that begins with so many values there, from the fewest to the most.
    pub fn input_pin(&mut self, action: impl Into<NodeId>, values: RangeInclusive<u8>) -> NodeId {
        self.node(Kind::InputPin, Some(action.into()), values)
    }

    /// A pin for what an action makes, of so many values at most.
    pub fn output_pin(&mut self, action: impl Into<NodeId>, upper: u8) -> NodeId {
        self.node(Kind::OutputPin, Some(action.into()), 0..=upper)
    }

    /// A stock of so many values at most.
    pub fn central_buffer(&mut self, upper: u8) -> NodeId {
        self.stock(Kind::CentralBuffer, upper)
    }

    /// A stock of so many values at most, which are there when the day begins.
    pub fn incoming_parameter(&mut self, upper: u8) -> NodeId {
        self.stock(Kind::IncomingParameter, upper)
    }

    /// A stock of so many values at most, in which the day ends.
    pub fn outgoing_parameter(&mut self, upper: u8) -> NodeId {
        self.stock(Kind::OutgoingParameter, upper)
    }

    /// What comes goes one of its ways.
    pub fn decision(&mut self) -> NodeId {
        self.plain(Kind::Decision)
    }

    /// What comes by any way goes on by one.
    pub fn merge(&mut self) -> NodeId {
        self.plain(Kind::Merge)
    }

    /// What comes goes all its ways.
    pub fn fork(&mut self) -> NodeId {
        self.plain(Kind::Fork)
    }

    /// Goes on when something has come by each way.
    pub fn join(&mut self) -> NodeId {
        self.plain(Kind::Join)
    }

    /// Drops what arrives.
    pub fn flow_final(&mut self) -> NodeId {
        self.plain(Kind::FlowFinal)
    }

    /// Ends the day.
    pub fn activity_final(&mut self) -> NodeId {
        self.plain(Kind::ActivityFinal)
    }

    /// An edge for tokens.
    pub fn control(&mut self, source: impl Into<NodeId>, target: impl Into<NodeId>) -> EdgeId {
        self.edge(EdgeKind::Control, source, target, false)
    }

    /// An edge for tokens that can be closed.
    pub fn guarded_control(&mut self, source: impl Into<NodeId>, target: impl Into<NodeId>) -> EdgeId {
        self.edge(EdgeKind::Control, source, target, true)
    }

    /// An edge for values.
    pub fn object(&mut self, source: impl Into<NodeId>, target: impl Into<NodeId>) -> EdgeId {
        self.edge(EdgeKind::Object, source, target, false)
    }

    /// An edge for values that can be closed.
    pub fn guarded_object(&mut self, source: impl Into<NodeId>, target: impl Into<NodeId>) -> EdgeId {
        self.edge(EdgeKind::Object, source, target, true)
    }

    /// The table of what was drawn.
    ///
    /// # Errors
    /// Refusals 1 (too many nodes or edges, or no node), 2 (a node's fields), 3 (an edge's fields or ends) and 4 (shape); [`Refusal::at`] names the node or edge.
    pub fn table(&self) -> Result<OwnedTable, Refusal> {
        Table::new(self.bytes().ok_or(Refusal::placeless(1))?)
    }

    /// The bytes, if a byte can say how many nodes and edges there are.
    fn bytes(&self) -> Option<Vec<u8>> {
        let body = 3 + 4 * (self.nodes.len() + self.edges.len());
        let [high, low] = u16::try_from(body).ok()?.to_be_bytes();
        let mut bytes = Vec::with_capacity(2 + body);
        bytes.extend([high, low, VERSION, u8::try_from(self.nodes.len()).ok()?, u8::try_from(self.edges.len()).ok()?]);
        bytes.extend(self.nodes.iter().chain(&self.edges).flatten());
        Some(bytes)
    }
}
