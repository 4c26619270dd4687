//! Events as their bytes are saved: tables as an organiser's editor would save them, with names for what a judge sees.

#![allow(dead_code)] // each example uses its part

/// A table and the names of its nodes.
pub struct Event {
    pub table: Vec<u8>,
    pub names: Vec<&'static str>,
}

const CONTROL: u8 = 0;
const OBJECT: u8 = 1;

/// The edge over which late entrants go to the reserve; the only guarded one of the day.
pub const TO_RESERVE: usize = 6;

/// The paper's small event.
pub fn small() -> Event {
    let nodes: [(u8, u8, u8, u8, &str); 7] = [
        (1, 255, 0, 0, "start"),
        (6, 255, 0, 4, "results"),
        (8, 255, 0, 0, "which way"),
        (11, 255, 0, 0, "with a token"),
        (3, 5, 1, 1, "the pin"),
        (2, 255, 0, 0, "the action"),
        (5, 255, 0, 2, "the buffer"),
    ];
    event(&nodes, &[[0, 0, 3, 0], [1, 1, 2, 0], [1, 2, 3, 1], [1, 2, 6, 1], [1, 3, 4, 0]])
}

/// A day for four players and a reserve: two matches, called together; a final and a match for third place, called together when both are over; and the
/// standings, which come all at once when these are over too, and end the day.
pub fn day() -> Event {
    let nodes: [(u8, u8, u8, u8, &str); 41] = [
        (1, 255, 0, 0, "doors open"),
        (6, 255, 0, 8, "entrants"),
        (8, 255, 0, 0, "seating"),
        (5, 255, 0, 1, "seat A1"),
        (5, 255, 0, 1, "seat A2"),
        (5, 255, 0, 1, "seat B1"),
        (5, 255, 0, 1, "seat B2"),
        (5, 255, 0, 4, "reserve"),
        (2, 255, 0, 0, "call the round"),
        (10, 255, 0, 0, "round"),
        (2, 255, 0, 0, "match A"), // 10
        (3, 10, 1, 1, "match A, first"),
        (3, 10, 1, 1, "match A, second"),
        (4, 10, 0, 1, "match A, winner"),
        (4, 10, 0, 1, "match A, loser"),
        (2, 255, 0, 0, "match B"), // 15
        (3, 15, 1, 1, "match B, first"),
        (3, 15, 1, 1, "match B, second"),
        (4, 15, 0, 1, "match B, winner"),
        (4, 15, 0, 1, "match B, loser"),
        (11, 255, 0, 0, "both over"), // 20
        (2, 255, 0, 0, "call the finals"),
        (10, 255, 0, 0, "finals"),
        (2, 255, 0, 0, "final"), // 23
        (3, 23, 1, 1, "final, first"),
        (3, 23, 1, 1, "final, second"),
        (4, 23, 0, 1, "final, winner"),
        (4, 23, 0, 1, "final, loser"),
        (2, 255, 0, 0, "third place"), // 28
        (3, 28, 1, 1, "third place, first"),
        (3, 28, 1, 1, "third place, second"),
        (4, 28, 0, 1, "third place, winner"),
        (4, 28, 0, 1, "third place, loser"),
        (11, 255, 0, 0, "all over"), // 33
        (10, 255, 0, 0, "announcement"),
        (11, 255, 0, 0, "first"), // 35
        (11, 255, 0, 0, "second"),
        (11, 255, 0, 0, "third"),
        (11, 255, 0, 0, "fourth"),
        (7, 255, 0, 4, "standings"), // 39
        (13, 255, 0, 0, "end of the day"),
    ];
    let mut edges: Vec<[u8; 4]> = vec![[CONTROL, 0, 8, 0], [OBJECT, 1, 2, 0]];
    edges.extend([3, 4, 5, 6].map(|seat| [OBJECT, 2, seat, 0]));
    edges.push([OBJECT, 2, 7, 1]);
    edges.extend([(3, 11), (4, 12), (5, 16), (6, 17)].map(|(seat, pin)| [OBJECT, seat, pin, 0]));
    edges.extend([(8, 9), (9, 10), (9, 15), (10, 20), (15, 20), (20, 21), (21, 22), (22, 23), (22, 28)].map(|(from, to)| [CONTROL, from, to, 0]));
    edges.extend([(13, 24), (18, 25), (14, 29), (19, 30)].map(|(from, to)| [OBJECT, from, to, 0]));
    edges.extend([(23, 33), (28, 33), (33, 34), (34, 35), (34, 36), (34, 37), (34, 38), (34, 40)].map(|(from, to)| [CONTROL, from, to, 0]));
    edges.extend([(26, 35), (27, 36), (31, 37), (32, 38), (35, 39), (36, 39), (37, 39), (38, 39)].map(|(from, to)| [OBJECT, from, to, 0]));
    event(&nodes, &edges)
}

/// Everything at its limit in a table of 48 nodes and 64 edges, the most there were before larger events: 64 offers, 20 ends, stocks of 16. An action runs that
/// has thirty edges to finish.
pub fn limits() -> Event {
    let mut nodes = vec![(1, 255, 0, 0, "start")];
    nodes.extend([(9, 255, 0, 0, "a merge"); 11]);
    nodes.extend([(12, 255, 0, 0, "a final"), (2, 255, 0, 0, "the action")]);
    nodes.extend([(7, 255, 0, 16, "a full parameter"); 34]);
    let mut edges = vec![[CONTROL, 0, 1, 0]; 4];
    edges.extend((1..12).map(|merge| [CONTROL, merge, merge + 1, 0]));
    edges.extend([[CONTROL, 0, 12, 0]; 16]);
    edges.push([CONTROL, 13, 13, 0]);
    edges.resize(64, [CONTROL, 13, 12, 0]);
    event(&nodes, &edges)
}

/// The marking of [`limits`] in which the action runs or not.
pub fn limits_marking(runs: bool) -> Vec<u8> {
    let mut body = vec![1, 0, u8::from(runs)];
    for parameter in 0..34 {
        body.push(16);
        body.extend((0..16).flat_map(|value| [0, 0, parameter, value]));
    }
    body.extend([1; 20]);
    body.extend([0; 33]);
    framed(&body)
}

/// The same in the largest table: 120 nodes, 200 edges, 64 offers, 20 ends, stocks of 16. What is offered has the highest numbers. An action runs that has 169
/// edges to finish.
pub fn larger() -> Event {
    let mut nodes = vec![(7, 255, 0, 16, "a full parameter"); 106];
    nodes.extend([(2, 255, 0, 0, "the action"), (1, 255, 0, 0, "start")]); // 106, 107
    nodes.extend([(9, 255, 0, 0, "a merge"); 11]); // 108 to 118
    nodes.push((12, 255, 0, 0, "a final"));
    let mut edges = vec![[CONTROL, 106, 106, 0]];
    edges.resize(169, [CONTROL, 106, 119, 0]);
    edges.extend([[CONTROL, 107, 108, 0]; 4]);
    edges.extend((108..119).map(|merge| [CONTROL, merge, merge + 1, 0]));
    edges.extend([[CONTROL, 107, 119, 0]; 16]);
    event(&nodes, &edges)
}

/// The marking of [`larger`] in which the action runs or not.
pub fn larger_marking(runs: bool) -> Vec<u8> {
    let mut body = vec![1, 0];
    for parameter in 0..106 {
        body.push(16);
        body.extend((0..16).flat_map(|value| [0, 0, parameter, value]));
    }
    body.push(u8::from(runs));
    body.extend([0; 169]);
    body.extend([1; 20]);
    framed(&body)
}

/// The table of these nodes (kind, owner, lower, upper, name) and edges (kind, source, target, guarded).
fn event(nodes: &[(u8, u8, u8, u8, &'static str)], edges: &[[u8; 4]]) -> Event {
    let mut body = vec![1, nodes.len() as u8, edges.len() as u8];
    body.extend(nodes.iter().flat_map(|(kind, owner, lower, upper, _)| [*kind, *owner, *lower, *upper]));
    body.extend(edges.concat());
    Event { table: framed(&body), names: nodes.iter().map(|node| node.4).collect() }
}

/// The bytes with their length before them.
fn framed(body: &[u8]) -> Vec<u8> {
    [&(body.len() as u16).to_be_bytes()[..], body].concat()
}

/// A count and that many values.
pub fn list(values: &[u32]) -> Vec<u8> {
    let bytes = values.iter().flat_map(|value| value.to_be_bytes());
    [values.len() as u8].into_iter().chain(bytes).collect()
}
