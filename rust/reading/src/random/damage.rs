//! Damage to good tables, and to bytes of any sort, so that every refusal of
//! check comes up at many places.

use super::{Parts, Rng};
use crate::table::{
    is_control_node, is_object_node, is_pin, DECISION, FLOW_FINAL, FORK, INPUT_PIN, JOIN, MERGE,
    MOST_EDGES, MOST_NODES, NO_OWNER,
};

/// The table with one damage or several. A few stay good all the same.
pub fn damaged(rng: &mut Rng, table: &[u8]) -> Vec<u8> {
    let mut bytes = table.to_vec();
    for _ in 0..=rng.weighted(&[75, 17, 8]) {
        bytes = match Parts::of(&bytes) {
            Some(parts) if rng.percent(85) => damaged_parts(rng, parts),
            _ => damaged_bytes(rng, &bytes),
        };
    }
    bytes
}

/// The bytes with one damage that knows nothing of their meaning but the length
/// field: a byte changed, a length off by one, bytes cut, put in or appended.
pub fn damaged_bytes(rng: &mut Rng, bytes: &[u8]) -> Vec<u8> {
    let mut bytes = bytes.to_vec();
    let place = rng.below(bytes.len());
    match rng.below(6) {
        0 => change_length(rng, &mut bytes),
        1 => bytes.truncate(place),
        2 => bytes.extend((0..=rng.below(5)).map(|_| 0)),
        3 => bytes.insert(place, rng.byte()),
        _ => change_byte(rng, &mut bytes, place),
    }
    bytes
}

/// Makes the length field one more or one less.
pub fn change_length(rng: &mut Rng, bytes: &mut [u8]) {
    if bytes.len() >= 2 {
        let length = u16::from_be_bytes([bytes[0], bytes[1]]);
        let changed = if rng.percent(50) {
            length.wrapping_add(1)
        } else {
            length.wrapping_sub(1)
        };
        bytes[..2].copy_from_slice(&changed.to_be_bytes());
    }
}

/// Makes one byte any byte, or one more or less.
pub fn change_byte(rng: &mut Rng, bytes: &mut [u8], place: usize) {
    if let Some(byte) = bytes.get_mut(place) {
        *byte = match rng.below(3) {
            0 => rng.byte(),
            1 => byte.wrapping_add(1),
            _ => byte.wrapping_sub(1),
        };
    }
}

/// The table of these parts with one damage to its meaning.
fn damaged_parts(rng: &mut Rng, mut parts: Parts) -> Vec<u8> {
    match rng.weighted(&[10, 25, 25, 40]) {
        0 => return damaged_frame(rng, parts),
        1 => damage_node(rng, &mut parts),
        2 => damage_edge(rng, &mut parts),
        _ => damage_shape(rng, &mut parts),
    }
    parts.write()
}

/// Wrong counts, with a length that agrees or not, or a wrong version. At times the
/// counts are the highest that are right.
fn damaged_frame(rng: &mut Rng, mut parts: Parts) -> Vec<u8> {
    let end = [FLOW_FINAL, NO_OWNER, 0, 0];
    let edge = parts.edges.last().copied().unwrap_or([0; 4]);
    let more = usize::from(rng.percent(80));
    match rng.below(6) {
        0 => parts.nodes.resize(MOST_NODES + more, end),
        1 => parts.nodes.clear(),
        2 => parts.edges.resize(MOST_EDGES + more, edge),
        _ => {
            let mut bytes = parts.write();
            let place = 2 + rng.below(3); // version, node count or edge count
            change_byte(rng, &mut bytes, place);
            return bytes;
        }
    }
    parts.write()
}

/// A field of a node that is wrong, or may be.
fn damage_node(rng: &mut Rng, parts: &mut Parts) {
    let anything = rng.byte();
    let any_node = rng.below(parts.nodes.len() + 1) as u8;
    match rng.below(9) {
        0 => change_node(rng, parts, is_object_node, |node| node[3] = 17),
        1 => change_node(rng, parts, is_object_node, |node| node[3] = 0),
        2 => change_node(rng, parts, is_input_pin, |node| {
            node[2] = node[3].wrapping_add(1)
        }),
        3 => change_node(rng, parts, is_pin, |node| node[1] = any_node),
        4 => change_node(rng, parts, |_| true, |node| node[1] = any_node),
        5 => change_node(rng, parts, |_| true, |node| node[2] = 1),
        6 => change_node(rng, parts, |kind| !is_object_node(kind), |node| node[3] = 1),
        7 => change_node(rng, parts, |_| true, |node| node[0] = anything % 16),
        _ => change_node(rng, parts, |_| true, |node| node[1] = anything),
    }
}

/// Changes one of the nodes whose kind is meant, if there is one.
fn change_node(
    rng: &mut Rng,
    parts: &mut Parts,
    is_meant: impl Fn(u8) -> bool,
    change: impl Fn(&mut [u8; 4]),
) {
    let meant: Vec<usize> = (0..parts.nodes.len())
        .filter(|node| is_meant(parts.nodes[*node][0]))
        .collect();
    if let Some(node) = rng.one_of(&meant) {
        change(&mut parts.nodes[node]);
    }
}

/// Input pins.
fn is_input_pin(kind: u8) -> bool {
    kind == INPUT_PIN
}

/// A field of an edge that is wrong, or may be.
fn damage_edge(rng: &mut Rng, parts: &mut Parts) {
    let n = parts.nodes.len();
    let any_node = rng.below(n) as u8;
    let no_node = if rng.percent(50) { n as u8 } else { rng.byte() };
    let edge = rng.below(parts.edges.len());
    let what = rng.below(8);
    if let Some(edge) = parts.edges.get_mut(edge) {
        match what {
            0 => edge[0] ^= 1,
            1 => edge[0] = 2,
            2 => edge.swap(1, 2),
            3 => edge[1] = no_node,
            4 => edge[2] = no_node,
            5 => edge[1] = any_node,
            6 => edge[2] = any_node,
            _ => edge[3] = 2,
        }
    }
}

/// A change that keeps fields good, mostly, and breaks a shape, mostly.
fn damage_shape(rng: &mut Rng, parts: &mut Parts) {
    let control_kind = rng.between(8, 11) as u8;
    match rng.below(8) {
        0 => remove_edge(rng, parts),
        1 => repeat_edge(rng, parts),
        2 => change_node(rng, parts, is_control_node, |node| node[0] = control_kind),
        3 => change_node(rng, parts, is_input_pin, |node| node[2] = 0),
        4 => turn_edge_end(rng, parts),
        5 => insert_chain(rng, parts),
        6 => insert_cycle(rng, parts),
        _ => add_lone_control_node(rng, parts),
    }
}

/// Takes an edge out.
fn remove_edge(rng: &mut Rng, parts: &mut Parts) {
    let edge = rng.below(parts.edges.len());
    if edge < parts.edges.len() {
        parts.edges.remove(edge);
    }
}

/// Puts an edge in a second time, at any place.
fn repeat_edge(rng: &mut Rng, parts: &mut Parts) {
    if let Some(edge) = rng.one_of(&parts.edges) {
        let place = rng.below(parts.edges.len() + 1);
        parts.edges.insert(place, edge);
    }
}

/// Lets an edge enter, or leave, a control node instead.
fn turn_edge_end(rng: &mut Rng, parts: &mut Parts) {
    let control_nodes = parts.nodes_of(&[DECISION, MERGE, FORK, JOIN]);
    let edge = rng.below(parts.edges.len());
    let field = rng.between(1, 2);
    if let (Some(node), Some(edge)) = (rng.one_of(&control_nodes), parts.edges.get_mut(edge)) {
        edge[field] = node;
    }
}

/// Puts a row of control nodes into an edge, most often 16.
fn insert_chain(rng: &mut Rng, parts: &mut Parts) {
    let length = if rng.percent(60) {
        16
    } else {
        rng.between(4, 15)
    };
    if parts.nodes.len() + length > MOST_NODES || parts.edges.len() + length > MOST_EDGES {
        return;
    }
    for _ in 0..length {
        let kind = rng.between(8, 11) as u8;
        insert_node(parts, kind);
    }
    parts.shuffle(rng);
}

/// Puts a control node into the last edge, which then leaves it.
fn insert_node(parts: &mut Parts, kind: u8) {
    if let Some([edge_kind, source, target, guarded]) = parts.edges.pop() {
        let node = parts.add_node(kind, 0);
        parts.add_edge(edge_kind, source, node, guarded);
        parts.add_edge(edge_kind, node, target, 0);
    }
}

/// Puts a merge and a decision or fork into an edge, with an edge back between
/// them; or a merge or join that only leads to itself.
fn insert_cycle(rng: &mut Rng, parts: &mut Parts) {
    if parts.nodes.len() + 2 > MOST_NODES || parts.edges.len() + 3 > MOST_EDGES {
        return;
    }
    if rng.percent(30) || parts.edges.is_empty() {
        let kind = rng.one_of(&[MERGE, JOIN]).unwrap_or(MERGE);
        let node = parts.add_node(kind, 0);
        parts.add_edge(rng.below(2) as u8, node, node, 0);
    } else {
        insert_node(parts, MERGE);
        insert_node(parts, rng.one_of(&[DECISION, FORK]).unwrap_or(FORK));
        let edge_kind = parts.edges.last().map_or(0, |edge| edge[0]);
        let split = (parts.nodes.len() - 1) as u8;
        parts.add_edge(edge_kind, split, split - 1, 0);
    }
    parts.shuffle(rng);
}

/// Adds a control node that no edge touches.
fn add_lone_control_node(rng: &mut Rng, parts: &mut Parts) {
    if parts.nodes.len() < MOST_NODES {
        parts.add_node(rng.between(8, 11) as u8, 0);
        parts.shuffle(rng);
    }
}
