//! Pairings: random events in which few players and tokens are wanted by matches with several seats, by lists with little room and by one another's forks, so
//! that there are ends and yet, for many nodes, no acceptable choice.

use super::drawn::*;
use reading::random::{self, Event, Parts, Rng};

/// An event with some matches, lists and sources, in a random numbering.
pub fn event(rng: &mut Rng) -> Event {
    let mut drawing = Drawing { rng, parts: Parts::default(), seats: Vec::new(), entries: Vec::new() };
    for _ in 0..drawing.rng.between(1, 3) {
        drawing.add_match();
    }
    for _ in 0..drawing.rng.between(0, 2) {
        drawing.add_list();
    }
    for _ in 0..drawing.rng.between(2, 5) {
        drawing.add_source();
    }
    let mut parts = drawing.parts;
    parts.edges.iter_mut().for_each(|edge| edge[3] = u8::from(rng.percent(10)));
    parts.shuffle(rng);
    let table = parts.write();
    let marking = if rng.percent(10) { random::marking(rng, &table) } else { waiting(rng, &parts) };
    Event::at(rng, table, marking)
}

/// A marking in which sources are full, as a rule, lists too at times, and a match in six runs.
fn waiting(rng: &mut Rng, parts: &Parts) -> Vec<u8> {
    let mut held = Vec::new();
    for action in parts.nodes_of(&[ACTION]).into_iter().filter(|_| rng.percent(15)) {
        for pin in parts.nodes_of(&[INPUT_PIN]) {
            let [_, owner, lower, _] = parts.nodes[usize::from(pin)];
            held.extend((0..lower).filter(|_| owner == action).map(|_| (pin, 1)));
        }
    }
    for stock in parts.nodes_of(&[BUFFER, OUTGOING_PARAMETER]) {
        let upper = usize::from(parts.nodes[usize::from(stock)][3]);
        let is_source = parts.edges.iter().any(|edge| edge[1] == stock);
        let values = if is_source { usize::from(rng.percent(95)) } else { rng.below(upper + 1) };
        held.extend((0..values).map(|_| (stock, rng.below(9) as u32)));
    }
    let tokens: Vec<u8> = parts.edges.iter().map(|_| u8::from(rng.percent(80))).collect();
    marking(parts, &held, &tokens)
}

/// A table that is being drawn, and where object and control edges may end.
struct Drawing<'a> {
    rng: &'a mut Rng,
    parts: Parts,
    seats: Vec<u8>,
    entries: Vec<u8>,
}

impl Drawing<'_> {
    /// An action with one to three pins, which takes tokens too at times.
    fn add_match(&mut self) {
        let action = self.parts.add_node(ACTION, 0);
        for pin in 0..self.rng.between(1, 3) {
            let upper = self.rng.between(1, 3);
            let lower = self.rng.between(usize::from(pin == 0), upper.min(2));
            let seat = self.parts.add_pin(INPUT_PIN, action, lower as u8, upper as u8);
            self.seats.push(seat);
        }
        if self.rng.percent(30) {
            self.entries.push(action);
        }
    }

    fn add_list(&mut self) {
        let kind = self.rng.one_of(&[BUFFER, OUTGOING_PARAMETER]).unwrap_or(BUFFER);
        let list = self.parts.add_node(kind, self.rng.between(1, 3) as u8);
        self.seats.push(list);
    }

    /// Players, or a token, and what is behind them. A stock may have several edges, whose offers compete.
    fn add_source(&mut self) {
        let kind = if self.rng.percent(75) { OBJECT } else { CONTROL };
        let source = if kind == OBJECT { self.parts.add_node(BUFFER, 1) } else { self.parts.add_node(INITIAL, 0) };
        for _ in 0..=self.rng.weighted(&[50, 40, 10]) {
            self.lead_on(kind, source, 2);
        }
    }

    /// An edge from this node and what is behind it: at most so many further control nodes on each way.
    fn lead_on(&mut self, kind: u8, from: u8, further: usize) {
        match self.rng.weighted(&[45, 15, 25, 15]) {
            1 if further > 0 => self.split(kind, from, DECISION, further - 1),
            2 if further > 0 => self.split(kind, from, FORK, further - 1),
            3 if further > 0 => self.join_on(kind, from, further - 1),
            _ => self.end(kind, from),
        }
    }

    fn split(&mut self, kind: u8, from: u8, node: u8, further: usize) {
        let split = self.parts.add_node(node, 0);
        self.parts.add_edge(kind, from, split, 0);
        for _ in 0..self.rng.between(2, 3) {
            self.lead_on(kind, split, further);
        }
    }

    /// A join with a token of its own, or with a branch of a decision that leads elsewhere too.
    fn join_on(&mut self, kind: u8, from: u8, further: usize) {
        let (join, start) = (self.parts.add_node(JOIN, 0), self.parts.add_node(INITIAL, 0));
        self.parts.add_edge(kind, from, join, 0);
        if self.rng.percent(60) {
            self.parts.add_edge(CONTROL, start, join, 0);
        } else {
            let node = self.rng.one_of(&[DECISION, FORK]).unwrap_or(FORK);
            let split = self.parts.add_node(node, 0);
            self.parts.add_edge(CONTROL, start, split, 0);
            self.parts.add_edge(CONTROL, split, join, 0);
            self.end(CONTROL, split);
        }
        self.lead_on(kind, join, further);
    }

    /// An edge to a seat, a list or a match, and seldom to a final.
    fn end(&mut self, kind: u8, from: u8) {
        let ends = if kind == OBJECT { &self.seats } else { &self.entries };
        let target = match self.rng.one_of(ends) {
            Some(target) if self.rng.percent(92) => target,
            _ => self.parts.add_node(FLOW_FINAL, 0),
        };
        self.parts.add_edge(kind, from, target, 0);
    }
}
