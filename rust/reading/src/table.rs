//! The paper's heading "Table": nodes, edges and their shape. How many there may be is
//! as the customers' wish 6, "Larger events", raises it.

use crate::bytes::after_length;
use crate::refusal::{require_each, Refusal, EDGE_FIELD, NODE_FIELD, SHAPE, TABLE_FRAME};
use std::ops::Range;

/// Kind 1.
pub const INITIAL: u8 = 1;
/// Kind 2.
pub const ACTION: u8 = 2;
/// Kind 3.
pub const INPUT_PIN: u8 = 3;
/// Kind 4.
pub const OUTPUT_PIN: u8 = 4;
/// Kind 5.
pub const CENTRAL_BUFFER: u8 = 5;
/// Kind 6.
pub const INCOMING_PARAMETER: u8 = 6;
/// Kind 7.
pub const OUTGOING_PARAMETER: u8 = 7;
/// Kind 8.
pub const DECISION: u8 = 8;
/// Kind 9.
pub const MERGE: u8 = 9;
/// Kind 10.
pub const FORK: u8 = 10;
/// Kind 11.
pub const JOIN: u8 = 11;
/// Kind 12.
pub const FLOW_FINAL: u8 = 12;
/// Kind 13.
pub const ACTIVITY_FINAL: u8 = 13;

/// The edge kind of control.
pub const CONTROL: u8 = 0;
/// The edge kind of objects.
pub const OBJECT: u8 = 1;

/// "Owner: an action's number for pins, else 255."
pub const NO_OWNER: u8 = 255;
/// "node count n" is from 1 to this: "Raise nodes to 120".
pub const MOST_NODES: usize = 120;
/// "edge count e" is from 0 to this: "[Raise] edges to 200."
pub const MOST_EDGES: usize = 200;
/// "Upper: 1 to 16"
pub const MOST_UPPER: u8 = 16;
/// "No chain of 16 control nodes"
pub const FORBIDDEN_CHAIN: usize = 16;

/// "Node: kind, owner, lower, upper."
#[derive(Debug, Clone)]
pub struct Node {
    pub kind: u8,
    pub owner: u8,
    pub lower: u8,
    pub upper: u8,
}

/// "Edge: kind (0 control, 1 object), source, target, guarded (0 or 1)."
#[derive(Debug, Clone)]
pub struct Edge {
    pub kind: u8,
    pub source: usize,
    pub target: usize,
    pub guarded: u8,
}

/// A diagram table.
#[derive(Debug, Clone)]
pub struct Table {
    pub nodes: Vec<Node>,
    pub edges: Vec<Edge>,
}

impl Table {
    /// The table in these bytes, or the lowest of refusals 1 to 4.
    pub fn read(bytes: &[u8]) -> Result<Table, Refusal> {
        let table = Table::from_frame(bytes).ok_or_else(|| Refusal::new(TABLE_FRAME, 0))?;
        require_each(NODE_FIELD, table.node_numbers(), |n| {
            table.has_good_fields(n)
        })?;
        require_each(EDGE_FIELD, table.edge_numbers(), |e| table.is_good_edge(e))?;
        let too_deep = table.ends_of_chains(FORBIDDEN_CHAIN);
        require_each(SHAPE, table.node_numbers(), |n| {
            table.has_good_edges(n) && !too_deep[n]
        })?;
        Ok(table)
    }

    /// "Then: version 1, node count n [...], edge count e [...], n nodes of 4 bytes,
    /// e edges of 4 bytes. L = 3 + 4n + 4e." Wish 6: "Tables keep version 1".
    fn from_frame(bytes: &[u8]) -> Option<Table> {
        let body = after_length(bytes)?;
        let version = *body.first()?;
        let n = usize::from(*body.get(1)?);
        let e = usize::from(*body.get(2)?);
        let counts_are_good = (1..=MOST_NODES).contains(&n) && e <= MOST_EDGES;
        if version != 1 || !counts_are_good || body.len() != 3 + 4 * n + 4 * e {
            return None;
        }
        let (nodes, edges) = body[3..].split_at(4 * n);
        Some(Table {
            nodes: nodes.chunks(4).map(Node::from_record).collect(),
            edges: edges.chunks(4).map(Edge::from_record).collect(),
        })
    }

    /// All node numbers.
    pub fn node_numbers(&self) -> Range<usize> {
        0..self.nodes.len()
    }

    /// All edge numbers.
    pub fn edge_numbers(&self) -> Range<usize> {
        0..self.edges.len()
    }

    /// The kind of this node.
    pub fn kind(&self, node: usize) -> u8 {
        self.nodes[node].kind
    }

    /// "Kinds: 1 initial [...] 13 activity final", and the three fields.
    fn has_good_fields(&self, node: usize) -> bool {
        let node = &self.nodes[node];
        (INITIAL..=ACTIVITY_FINAL).contains(&node.kind)
            && self.has_good_owner(node)
            && has_good_upper(node)
            && has_good_lower(node)
    }

    /// "Owner: an action's number for pins, else 255."
    fn has_good_owner(&self, node: &Node) -> bool {
        if is_pin(node.kind) {
            match self.nodes.get(usize::from(node.owner)) {
                Some(owner) => owner.kind == ACTION,
                None => false,
            }
        } else {
            node.owner == NO_OWNER
        }
    }

    /// "Edge: kind (0 control, 1 object), source, target, guarded (0 or 1)", with
    /// ends that exist and that this kind of edge may leave and enter.
    fn is_good_edge(&self, edge: usize) -> bool {
        let edge = &self.edges[edge];
        let n = self.nodes.len();
        edge.kind <= 1
            && edge.guarded <= 1
            && edge.source < n
            && edge.target < n
            && may_leave(edge.kind, self.kind(edge.source))
            && may_enter(edge.kind, self.kind(edge.target))
    }

    /// The edges that enter this node, in order.
    pub fn incoming(&self, node: usize) -> Vec<usize> {
        self.edge_numbers()
            .filter(|e| self.edges[*e].target == node)
            .collect()
    }

    /// The edges that leave this node, in order.
    pub fn outgoing(&self, node: usize) -> Vec<usize> {
        self.edge_numbers()
            .filter(|e| self.edges[*e].source == node)
            .collect()
    }

    /// The control edges among these.
    pub fn control_edges(&self, mut edges: Vec<usize>) -> Vec<usize> {
        edges.retain(|e| self.edges[*e].kind == CONTROL);
        edges
    }

    /// The pins of this kind that this action owns, in order.
    pub fn pins_of(&self, action: usize, pin_kind: u8) -> Vec<usize> {
        self.nodes_of_kind(pin_kind)
            .into_iter()
            .filter(|pin| usize::from(self.nodes[*pin].owner) == action)
            .collect()
    }

    /// The nodes of this kind, in order.
    pub fn nodes_of_kind(&self, kind: u8) -> Vec<usize> {
        self.node_numbers()
            .filter(|node| self.kind(*node) == kind)
            .collect()
    }

    /// "Shape, per node", all but the sentence on chains.
    fn has_good_edges(&self, node: usize) -> bool {
        match self.kind(node) {
            DECISION | FORK => self.is_split(node) && self.has_edges_of_one_kind(node),
            MERGE => self.is_meeting(node) && self.has_edges_of_one_kind(node),
            JOIN => self.is_meeting(node) && self.joins_one_object_at_most(node),
            ACTION => self.waits_for_something(node),
            _ => true,
        }
    }

    /// "a decision or fork has exactly one incoming and at least one outgoing
    /// edge"
    fn is_split(&self, node: usize) -> bool {
        self.incoming(node).len() == 1 && !self.outgoing(node).is_empty()
    }

    /// "a merge or join at least one incoming and exactly one outgoing"
    fn is_meeting(&self, node: usize) -> bool {
        !self.incoming(node).is_empty() && self.outgoing(node).len() == 1
    }

    /// "All edges at a decision, merge or fork have one kind."
    fn has_edges_of_one_kind(&self, node: usize) -> bool {
        let mut edges = self.incoming(node);
        edges.extend(self.outgoing(node));
        let control = self.control_edges(edges.clone()).len();
        control == 0 || control == edges.len()
    }

    /// "A join has at most one incoming object edge, and its outgoing edge is
    /// object exactly if it has one."
    fn joins_one_object_at_most(&self, node: usize) -> bool {
        let is_object = |edge: &usize| self.edges[*edge].kind == OBJECT;
        let objects = self.incoming(node).into_iter().filter(is_object).count();
        let gives_object = self.outgoing(node).iter().any(is_object);
        objects <= 1 && gives_object == (objects == 1)
    }

    /// "An action has an incoming control edge or an input pin of lower 1 or
    /// more."
    fn waits_for_something(&self, action: usize) -> bool {
        let pins = self.pins_of(action, INPUT_PIN);
        !self.control_edges(self.incoming(action)).is_empty()
            || pins.iter().any(|pin| self.nodes[*pin].lower >= 1)
    }

    /// For each node, whether a chain of `length` control nodes ends at it
    /// ("kinds 8 to 11; repeats allowed, each linked to the next by an edge").
    fn ends_of_chains(&self, length: usize) -> Vec<bool> {
        let mut ends: Vec<bool> = self
            .node_numbers()
            .map(|node| is_control_node(self.kind(node)))
            .collect();
        for _ in 1..length {
            if !ends.contains(&true) {
                break; // no chain is so long, nor any longer one
            }
            ends = self.ends_of_longer_chains(&ends);
        }
        ends
    }

    /// For each node, whether a chain ends at it that is one control node longer
    /// than a chain that ends at one of `ends`.
    fn ends_of_longer_chains(&self, ends: &[bool]) -> Vec<bool> {
        let mut longer = vec![false; self.nodes.len()];
        for edge in &self.edges {
            if ends[edge.source] && is_control_node(self.kind(edge.target)) {
                longer[edge.target] = true;
            }
        }
        longer
    }

    /// The control nodes of a good table, each after every control node that
    /// leads to it: those that end only chains of 1, then of 2, and so on.
    pub fn control_nodes_in_flow_order(&self) -> Vec<usize> {
        let mut order = Vec::new();
        let mut ends = self.ends_of_chains(1);
        while ends.contains(&true) {
            let longer = self.ends_of_longer_chains(&ends);
            order.extend(self.node_numbers().filter(|n| ends[*n] && !longer[*n]));
            ends = longer;
        }
        order
    }
}

impl Node {
    /// The node in a record of 4 bytes.
    fn from_record(record: &[u8]) -> Node {
        Node {
            kind: record[0],
            owner: record[1],
            lower: record[2],
            upper: record[3],
        }
    }
}

impl Edge {
    /// The edge in a record of 4 bytes.
    fn from_record(record: &[u8]) -> Edge {
        Edge {
            kind: record[0],
            source: usize::from(record[1]),
            target: usize::from(record[2]),
            guarded: record[3],
        }
    }
}

/// "Upper: 1 to 16 for kinds 3 to 7, else 0."
fn has_good_upper(node: &Node) -> bool {
    if is_object_node(node.kind) {
        (1..=MOST_UPPER).contains(&node.upper)
    } else {
        node.upper == 0
    }
}

/// "Lower: 0 to upper for input pins, else 0."
fn has_good_lower(node: &Node) -> bool {
    if node.kind == INPUT_PIN {
        node.lower <= node.upper
    } else {
        node.lower == 0
    }
}

/// "Control edges leave kinds 1, 2, 8 to 11 [...]. Object edges leave kinds 4, 5,
/// 6, 8 to 11 [...]."
fn may_leave(edge_kind: u8, node_kind: u8) -> bool {
    if edge_kind == CONTROL {
        matches!(node_kind, 1 | 2 | 8..=11)
    } else {
        matches!(node_kind, 4 | 5 | 6 | 8..=11)
    }
}

/// "Control edges [...] enter 2, 8 to 13. Object edges [...] enter 3, 5, 7, 8 to
/// 13."
fn may_enter(edge_kind: u8, node_kind: u8) -> bool {
    if edge_kind == CONTROL {
        matches!(node_kind, 2 | 8..=13)
    } else {
        matches!(node_kind, 3 | 5 | 7 | 8..=13)
    }
}

/// "control nodes (kinds 8 to 11 [...])"
pub fn is_control_node(kind: u8) -> bool {
    matches!(kind, 8..=11)
}

/// The nodes that hold values: kinds 3 to 7.
pub fn is_object_node(kind: u8) -> bool {
    matches!(kind, 3..=7)
}

/// Input and output pins.
pub fn is_pin(kind: u8) -> bool {
    matches!(kind, INPUT_PIN | OUTPUT_PIN)
}
