//! The longest markings: in the largest table, nearly all of whose nodes are stocks, and all of them full.

use super::drawn::{framed, ACTION, BUFFER, CONTROL, OBJECT};
use keshmirun::{MOST_EDGES, MOST_NODES};
use reading::random::Parts;

/// How many values a stock holds at most.
pub const FULL: u8 = 16;
/// How many tokens an edge holds that one more can come to.
pub const TOKENS: u8 = 254;

/// An event whose marking is the longest from which an end can be taken: an action runs whose edges, all but one of the table's, lead to itself and are closed;
/// all other nodes are buffers, and all of them full but for the last, which has room for a value that comes to it from the last but one.
pub struct Longest {
    pub table: Vec<u8>,
    pub marking: Vec<u8>,
    pub guards: Vec<u8>,
    pub action: u8,
}

impl Longest {
    pub fn new() -> Longest {
        let (mut parts, action) = with_action(BUFFER, MOST_NODES - 1, MOST_EDGES - 1);
        let last = (MOST_NODES - 1) as u8;
        parts.add_edge(OBJECT, last - 1, last, 0);
        let mut guards = vec![0; MOST_EDGES - 1];
        guards.push(1);
        let marking = Self::holding(true, FULL, FULL - 1, TOKENS);
        Longest { table: parts.write(), marking, guards, action }
    }

    /// The marking in which the action runs or not, the last two buffers hold so many, and each of the action's edges so many tokens. A value says where it was
    /// at first: the last buffer gets the oldest of the last but one.
    pub fn holding(runs: bool, last_but_one: u8, last: u8, tokens: u8) -> Vec<u8> {
        let mut body = vec![1, 0, u8::from(runs)];
        for node in 1..MOST_NODES as u8 - 2 {
            body.extend(stock(node, 0..FULL));
        }
        let (from, to) = (MOST_NODES as u8 - 2, MOST_NODES as u8 - 1);
        body.extend(stock(from, FULL - last_but_one..FULL));
        let mut gained = stock(to, 0..FULL - 1);
        gained[0] = last;
        if last == FULL {
            gained.extend(value(from, 0));
        }
        body.extend(gained);
        body.extend(vec![tokens; MOST_EDGES - 1]);
        framed(&body)
    }
}

/// An action, so many stocks of this kind behind it, and so many guarded edges from the action to itself.
pub fn with_action(kind: u8, stocks: usize, edges: usize) -> (Parts, u8) {
    let mut parts = Parts::default();
    let action = parts.add_node(ACTION, 0);
    (0..stocks).for_each(|_| {
        parts.add_node(kind, FULL);
    });
    (0..edges).for_each(|_| parts.add_edge(CONTROL, action, action, 1));
    (parts, action)
}

/// A count and that many values of this node.
pub fn stock(node: u8, values: std::ops::Range<u8>) -> Vec<u8> {
    let mut bytes = vec![values.len() as u8];
    bytes.extend(values.flat_map(|number| value(node, number)));
    bytes
}

/// No two values are the same.
fn value(node: u8, number: u8) -> [u8; 4] {
    [node, 0x5e, number, !node]
}
