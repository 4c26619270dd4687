//! Events near the paper's sizes, a little below and a little above: 64 offers, 8 paths in an offer, 20 ends. Some stand in the largest table.

use keshmirun::{MOST_EDGES, MOST_NODES};
use reading::random::{marking, Event, Parts, Rng};

const INITIAL: u8 = 1;
const BUFFER: u8 = 5;
const PARAMETER: u8 = 6;
const DECISION: u8 = 8;
const MERGE: u8 = 9;
const FORK: u8 = 10;
const JOIN: u8 = 11;
const FLOW_FINAL: u8 = 12;

const CONTROL: u8 = 0;
const OBJECT: u8 = 1;

/// An event near one of the sizes, in a random numbering. All its sources are full, as a rule.
pub fn event(rng: &mut Rng) -> Event {
    let mut parts = match rng.below(4) {
        0 => {
            let wanted = rng.between(63, 65);
            offers(rng, wanted)
        }
        1 => {
            let wanted = rng.between(7, 9);
            paths(rng, wanted)
        }
        2 => {
            let wanted = rng.between(18, 21);
            ends(rng, wanted)
        }
        _ => ladder(rng),
    };
    if rng.percent(15) {
        fill_up(&mut parts);
    }
    for edge in &mut parts.edges {
        edge[3] = u8::from(rng.percent(5));
    }
    parts.shuffle(rng);
    let table = parts.write();
    let marking = if rng.percent(10) { marking(rng, &table) } else { full(rng, &parts) };
    Event::at(rng, table, marking)
}

/// Finals up to the most nodes, and up to the most edges those of a parameter that is empty: nothing more is on offer.
fn fill_up(parts: &mut Parts) {
    let (from, to) = (parts.add_node(PARAMETER, 1), parts.add_node(FLOW_FINAL, 0));
    while parts.nodes.len() < MOST_NODES {
        parts.add_node(FLOW_FINAL, 0);
    }
    while parts.edges.len() < MOST_EDGES {
        parts.add_edge(OBJECT, from, to, 0);
    }
}

/// The marking in which each buffer holds a value and each initial node's edge some tokens.
pub fn full(rng: &mut Rng, parts: &Parts) -> Vec<u8> {
    let mut body = vec![1, 0];
    for node in parts.nodes.iter().filter(|node| [BUFFER, PARAMETER].contains(&node[0])) {
        let held = if node[0] == BUFFER { rng.between(1, usize::from(node[3])) } else { 0 };
        body.push(held as u8);
        body.extend((0..4 * held).map(|_| rng.byte()));
    }
    for edge in &parts.edges {
        if parts.nodes[usize::from(edge[1])][0] == INITIAL {
            body.push(rng.between(1, 3) as u8);
        }
    }
    let length = (body.len() as u16).to_be_bytes();
    [&length[..], &body].concat()
}

/// A source of the edges of this kind.
fn source(rng: &mut Rng, parts: &mut Parts, kind: u8) -> u8 {
    match kind {
        CONTROL => parts.add_node(INITIAL, 0),
        _ => parts.add_node(BUFFER, rng.between(1, 3) as u8),
    }
}

/// An edge from `source` to a node of its own, which is returned.
fn leads_to(parts: &mut Parts, kind: u8, source: u8, target_kind: u8) -> u8 {
    let target = parts.add_node(target_kind, 0);
    parts.add_edge(kind, source, target, 0);
    target
}

/// So many offers, from 56 to 65: a few edges into a row of control nodes, which carries as many offers on each edge, and edges past it for the rest. Never
/// more than 20 ends.
pub fn offers(rng: &mut Rng, wanted: usize) -> Parts {
    let mut parts = Parts::default();
    let kind = rng.below(2) as u8;
    let width = rng.one_of(&[3, 4, 5, 6, 7, 8, 9, 10, 12, 15, 16]).unwrap_or(3);
    let row = (wanted.min(64) / width - 1).min(15);
    let from = source(rng, &mut parts, kind);
    let mut last = parts.add_node(MERGE, 0);
    for _ in 0..width {
        parts.add_edge(kind, from, last, 0);
    }
    for _ in 1..row {
        let passes = rng.one_of(&[DECISION, MERGE, FORK, JOIN]).unwrap_or(MERGE);
        last = leads_to(&mut parts, kind, last, passes);
    }
    let end = leads_to(&mut parts, kind, last, FLOW_FINAL);
    for _ in width * (row + 1)..wanted {
        parts.add_edge(kind, from, end, 0);
    }
    parts
}

/// One end with so many paths: joins and forks in two storeys.
pub fn paths(rng: &mut Rng, wanted: usize) -> Parts {
    let mut parts = Parts::default();
    let first = parts.add_node(INITIAL, 0);
    let top = parts.add_node(JOIN, 0);
    let mut left = wanted;
    while left > 0 {
        let here = rng.between(1, left);
        left -= here;
        let into = if rng.percent(60) { JOIN } else { FORK };
        let branch = match (here, rng.below(3)) {
            (1, 0) => {
                parts.add_edge(CONTROL, first, top, 0);
                continue;
            }
            (1, _) => parts.add_node(MERGE, 0),
            _ => parts.add_node(into, 0),
        };
        let (from, to) = if into == FORK && here > 1 { (here, 1) } else { (1, here) };
        for _ in 0..to {
            parts.add_edge(CONTROL, first, branch, 0);
        }
        for _ in 0..from {
            parts.add_edge(CONTROL, branch, top, 0);
        }
    }
    leads_to(&mut parts, CONTROL, top, FLOW_FINAL);
    parts
}

/// So many ends: products at a join, branches of forks and decisions, and edges past them.
pub fn ends(rng: &mut Rng, wanted: usize) -> Parts {
    let mut parts = Parts::default();
    let mut made = 0;
    let end = parts.add_node(FLOW_FINAL, 0);
    while made < wanted {
        let kind = rng.below(2) as u8;
        let from = source(rng, &mut parts, kind);
        let left = wanted - made;
        made += match rng.below(3) {
            0 if left >= 4 => product(rng, &mut parts, from, kind, end),
            1 => {
                let branches = rng.between(1, left.min(6));
                let node = leads_to(&mut parts, kind, from, if rng.percent(50) { FORK } else { DECISION });
                (0..branches).for_each(|_| parts.add_edge(kind, node, end, 0));
                branches
            }
            _ => {
                parts.add_edge(kind, from, end, 0);
                1
            }
        };
    }
    parts
}

/// Two merges of two edges into a join: four ends. One merge's edges are control edges, since a join takes one object edge at most; the other's have one source
/// or two.
fn product(rng: &mut Rng, parts: &mut Parts, from: u8, kind: u8, end: u8) -> usize {
    let also_from = if rng.percent(50) { source(rng, parts, kind) } else { from };
    let other = parts.add_node(INITIAL, 0);
    let join = parts.add_node(JOIN, 0);
    for (sources, kind) in [([from, also_from], kind), ([other, other], CONTROL)] {
        let merge = parts.add_node(MERGE, 0);
        sources.iter().for_each(|source| parts.add_edge(kind, *source, merge, 0));
        parts.add_edge(kind, merge, join, 0);
    }
    parts.add_edge(kind, join, end, 0);
    4
}

/// Decisions or forks whose branches meet in a merge or a join, one behind the other and one within the other.
fn ladder(rng: &mut Rng) -> Parts {
    let mut parts = Parts::default();
    let kind = rng.below(2) as u8;
    let end = parts.add_node(FLOW_FINAL, 0);
    for _ in 0..rng.between(1, 3) {
        let mut last = source(rng, &mut parts, kind);
        for _ in 0..rng.between(1, 3) {
            if parts.nodes.len() <= 36 && parts.edges.len() <= 44 {
                last = rung(rng, &mut parts, kind, last, true);
            }
        }
        parts.add_edge(kind, last, end, 0);
    }
    parts
}

/// A decision or fork behind `from`, and the node in which its branches meet; a branch may have a rung of its own.
fn rung(rng: &mut Rng, parts: &mut Parts, kind: u8, from: u8, may_nest: bool) -> u8 {
    let split = leads_to(parts, kind, from, if rng.percent(50) { DECISION } else { FORK });
    let meeting = parts.add_node(if kind == CONTROL && rng.percent(50) { JOIN } else { MERGE }, 0);
    for _ in 0..rng.between(1, 3) {
        let last = if may_nest && rng.percent(40) { rung(rng, parts, kind, split, false) } else { split };
        parts.add_edge(kind, last, meeting, 0);
    }
    meeting
}
