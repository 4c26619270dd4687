//! Events drawn by hand, node by node and edge by edge, at one point; and what a sheet lists.

use keshmirun::Room;
use reading::random::Parts;
use reading::Answer;

pub const INITIAL: u8 = 1;
pub const ACTION: u8 = 2;
pub const INPUT_PIN: u8 = 3;
pub const OUTPUT_PIN: u8 = 4;
pub const BUFFER: u8 = 5;
pub const INCOMING_PARAMETER: u8 = 6;
pub const OUTGOING_PARAMETER: u8 = 7;
pub const DECISION: u8 = 8;
pub const MERGE: u8 = 9;
pub const FORK: u8 = 10;
pub const JOIN: u8 = 11;
pub const FLOW_FINAL: u8 = 12;
pub const ACTIVITY_FINAL: u8 = 13;

pub const CONTROL: u8 = 0;
pub const OBJECT: u8 = 1;

/// Room for any reply.
pub const ROOM: usize = Room::MARKING;
/// How many enumeration steps the reading may take for a call.
pub const BUDGET: u64 = 100_000;

pub const fn refused(number: u8, place: u8) -> Answer {
    Answer::Refused { number, place }
}

/// What sheet, pick and step are given but for bounds.
#[derive(Clone, Debug)]
pub struct Point {
    pub table: Vec<u8>,
    pub marking: Vec<u8>,
    pub guards: Vec<u8>,
}

impl Point {
    /// With each of these values in its node, a token on each edge of an initial node, all else empty and all guards 1.
    pub fn of(parts: &Parts, held: &[(u8, u32)]) -> Point {
        let tokens = vec![1; parts.edges.iter().filter(|edge| parts.nodes[usize::from(edge[1])][0] == INITIAL).count()];
        Point { table: parts.write(), marking: marking(parts, held, &tokens), guards: vec![1; parts.edges.len()] }
    }

    pub fn inputs<'a>(&'a self, bounds: &'a [u8], choice: &'a [u8]) -> [&'a [u8]; 5] {
        [&self.table, &self.marking, &self.guards, bounds, choice]
    }
}

/// Nodes and edges, and the values that some of the nodes hold.
#[derive(Default)]
pub struct Drawing {
    pub parts: Parts,
    pub held: Vec<(u8, u32)>,
}

impl Drawing {
    pub fn node(&mut self, kind: u8, upper: u8) -> u8 {
        self.parts.add_node(kind, upper)
    }

    pub fn edge(&mut self, kind: u8, source: u8, target: u8) {
        self.parts.add_edge(kind, source, target, 0);
    }

    /// A node that an edge enters from this one.
    pub fn behind(&mut self, edge: u8, source: u8, kind: u8, upper: u8) -> u8 {
        let target = self.node(kind, upper);
        self.edge(edge, source, target);
        target
    }

    /// A pin that an edge enters from this node. Its action waits for nothing else and has the next number.
    pub fn pin_behind(&mut self, source: u8, lower: u8, upper: u8) -> u8 {
        let action = self.parts.nodes.len() as u8 + 1;
        let pin = self.parts.add_pin(INPUT_PIN, action, lower, upper);
        self.node(ACTION, 0);
        self.edge(OBJECT, source, pin);
        pin
    }

    /// An initial node with an edge to this node.
    pub fn token(&mut self, target: u8) -> u8 {
        let start = self.node(INITIAL, 0);
        self.edge(CONTROL, start, target);
        start
    }

    /// Two tokens that a merge brings to this node.
    pub fn either_token(&mut self, target: u8) {
        let merge = self.node(MERGE, 0);
        let start = self.token(merge);
        self.edge(CONTROL, start, merge);
        self.edge(CONTROL, merge, target);
    }

    /// A buffer that holds this value, with an edge to this node.
    pub fn result(&mut self, value: u32, target: u8) -> u8 {
        let buffer = self.node(BUFFER, 1);
        self.held.push((buffer, value));
        self.edge(OBJECT, buffer, target);
        buffer
    }

    /// A match: its action, and a pin for each seat with the fewest and the most players that it takes.
    pub fn game<const SEATS: usize>(&mut self, seats: [(u8, u8); SEATS]) -> (u8, [u8; SEATS]) {
        let action = self.node(ACTION, 0);
        (action, seats.map(|(lower, upper)| self.parts.add_pin(INPUT_PIN, action, lower, upper)))
    }

    /// A queue in which these players wait, the first of them in front.
    pub fn queue(&mut self, players: &[u32]) -> u8 {
        let queue = self.node(BUFFER, 4);
        self.held.extend(players.iter().map(|player| (queue, *player)));
        queue
    }

    /// A list of one name, which is there already.
    pub fn full_list(&mut self) -> u8 {
        let list = self.node(BUFFER, 1);
        self.held.push((list, 1));
        list
    }

    /// With a token on each edge of an initial node.
    pub fn point(&self) -> Point {
        Point::of(&self.parts, &self.held)
    }

    /// With so many tokens on each edge of an initial node.
    pub fn with_tokens(&self, tokens: &[u8]) -> Point {
        Point { marking: marking(&self.parts, &self.held, tokens), ..self.point() }
    }

    /// The answer that is the marking with these values, and these tokens on the edges of initial nodes.
    pub fn holding(&self, held: &[(u8, u32)], tokens: &[u8]) -> Answer {
        Answer::Good(marking(&self.parts, held, tokens))
    }
}

/// The marking with each of these values in its node, in this order, so many tokens on each edge of an initial node, and all else empty. An action runs if an
/// input pin of it holds a value.
pub fn marking(parts: &Parts, held: &[(u8, u32)], tokens: &[u8]) -> Vec<u8> {
    let mut body = vec![1, 0];
    for (node, [kind, ..]) in (0..).zip(&parts.nodes) {
        let values: Vec<u32> = held.iter().filter(|(holds, _)| *holds == node).map(|(_, value)| *value).collect();
        match *kind {
            INPUT_PIN..=OUTGOING_PARAMETER => {
                body.push(values.len() as u8);
                body.extend(values.iter().flat_map(|value| value.to_be_bytes()));
            }
            ACTION => body.push(u8::from(held.iter().any(|(holds, _)| parts.nodes[usize::from(*holds)][..2] == [INPUT_PIN, node]))),
            _ => {}
        }
    }
    let mut tokens = tokens.iter();
    for [kind, source, ..] in &parts.edges {
        match parts.nodes[usize::from(*source)][0] {
            INITIAL => body.push(*tokens.next().expect("tokens for each edge")),
            ACTION if *kind == CONTROL => body.push(0),
            _ => {}
        }
    }
    framed(&body)
}

/// The bytes with their length before them.
pub fn framed(body: &[u8]) -> Vec<u8> {
    [&(body.len() as u16).to_be_bytes()[..], body].concat()
}

/// A sheet's ends: last edge, value, paths.
pub fn decoded(sheet: &[u8]) -> Vec<(u8, Option<u32>, Vec<Vec<u8>>)> {
    let mut ends = Vec::new();
    let mut rest = &sheet[4..];
    while let [edge, has_value, a, b, c, d, count, after @ ..] = rest {
        let value = Some(u32::from_be_bytes([*a, *b, *c, *d])).filter(|_| *has_value == 1);
        let mut paths = Vec::new();
        rest = after;
        for _ in 0..*count {
            let (path, after) = rest[1..].split_at(usize::from(rest[0]));
            paths.push(path.to_vec());
            rest = after;
        }
        ends.push((*edge, value, paths));
    }
    ends
}

/// The same with the number of paths alone.
pub fn listed(sheet: &[u8]) -> Vec<(u8, Option<u32>, u8)> {
    decoded(sheet).into_iter().map(|(edge, value, paths)| (edge, value, paths.len() as u8)).collect()
}
