//! Rounds: random events with joins at which several results wait with few tokens, and which answers were others before results of one round could be taken
//! together.

use super::drawn::*;
use reading::random::{self, Event, Parts, Rng};
use reading::Answer;

/// Whether a step with this answer, of a point at which wish 2 frees these pairs of ends, was refused 10 before, or at a lower end.
pub fn frees_step(freed: &[(u8, u8)], choice: &[u8], answer: &Answer) -> bool {
    let lowest = freed.iter().filter(|(one, other)| choice.contains(one) && choice.contains(other)).map(|(one, _)| one).min();
    match (lowest, answer) {
        (None, _) | (_, Answer::Refused { number: 9, .. }) => false,
        (Some(lowest), Answer::Refused { number: 10, place }) => lowest < place,
        (Some(_), _) => true,
    }
}

/// The same of a pick: its choice, if it has none of these pairs, was acceptable before, and then the first.
pub fn frees_pick(freed: &[(u8, u8)], answer: &Answer) -> bool {
    match answer {
        Answer::Good(choice) => frees_step(freed, choice, answer),
        Answer::Refused { .. } => false,
    }
}

/// An event with one round or two, and at times a join of control edges only, in a random numbering.
pub fn event(rng: &mut Rng) -> Event {
    let mut drawing = Drawing { rng, parts: Parts::default(), forked: Vec::new() };
    for _ in 0..drawing.rng.between(1, 2) {
        drawing.add_round();
    }
    if drawing.rng.percent(20) {
        drawing.add_meeting();
    }
    let mut parts = drawing.parts;
    parts.edges.iter_mut().for_each(|edge| edge[3] = u8::from(rng.percent(10)));
    parts.shuffle(rng);
    let table = parts.write();
    let marking = if rng.percent(10) { random::marking(rng, &table) } else { waiting(rng, &parts) };
    Event::at(rng, table, marking)
}

/// A marking in which no action runs. As a rule tokens and results wait; stocks hold two values at most.
fn waiting(rng: &mut Rng, parts: &Parts) -> Vec<u8> {
    let mut held = Vec::new();
    for node in parts.nodes_of(&[BUFFER, INCOMING_PARAMETER, OUTGOING_PARAMETER]) {
        let is_source = parts.edges.iter().any(|edge| edge[1] == node);
        let values = usize::from(is_source && rng.percent(90)) + rng.below(2);
        let upper = usize::from(parts.nodes[usize::from(node)][3]);
        held.extend((0..values.min(upper)).map(|_| (node, rng.below(9) as u32)));
    }
    let tokens: Vec<u8> = parts.edges.iter().map(|_| rng.one_of(&[0, 1, 1, 1, 1, 1, 1, 1, 2, 255]).unwrap_or(1)).collect();
    marking(parts, &held, &tokens)
}

/// A table that is being drawn, and the forks of its tokens.
struct Drawing<'a> {
    rng: &'a mut Rng,
    parts: Parts,
    forked: Vec<u8>,
}

impl Drawing<'_> {
    /// Results that a merge brings to a join, tokens that wait there, and what the join leads to.
    fn add_round(&mut self) {
        let (merge, join) = (self.parts.add_node(MERGE, 0), self.parts.add_node(JOIN, 0));
        self.parts.add_edge(OBJECT, merge, join, 0);
        for _ in 0..self.rng.between(2, 3) {
            self.add_result(merge);
        }
        for _ in 0..=self.rng.weighted(&[60, 30, 10]) {
            self.add_token(join);
        }
        self.lead_on(OBJECT, join, 2);
    }

    /// A join of control edges only.
    fn add_meeting(&mut self) {
        let join = self.parts.add_node(JOIN, 0);
        for _ in 0..self.rng.between(1, 2) {
            self.add_token(join);
        }
        self.add_merged_tokens(join);
        self.lead_on(CONTROL, join, 1);
    }

    /// A stock whose value goes to the merge: by itself, by two edges, by a fork or by a decision.
    fn add_result(&mut self, merge: u8) {
        let kind = self.rng.one_of(&[BUFFER, INCOMING_PARAMETER]).unwrap_or(BUFFER);
        let stock = self.parts.add_node(kind, self.rng.between(1, 3) as u8);
        let (from, edges) = match self.rng.weighted(&[70, 8, 12, 10]) {
            0 => (stock, 1),
            1 => (stock, 2),
            2 => (self.leads_to(OBJECT, stock, FORK), 2),
            _ => (self.leads_to(OBJECT, stock, DECISION), 2),
        };
        (0..edges).for_each(|_| self.parts.add_edge(OBJECT, from, merge, 0));
    }

    /// A control edge into the join: of a token, of a token that goes elsewhere too, or of two that a merge brings.
    fn add_token(&mut self, join: u8) {
        match self.rng.weighted(&[60, 20, 20]) {
            0 => {
                let start = self.parts.add_node(INITIAL, 0);
                self.parts.add_edge(CONTROL, start, join, 0);
            }
            1 => {
                let fork = self.token_fork();
                self.parts.add_edge(CONTROL, fork, join, 0);
            }
            _ => self.add_merged_tokens(join),
        }
    }

    fn add_merged_tokens(&mut self, join: u8) {
        let start = self.parts.add_node(INITIAL, 0);
        let merge = self.leads_to(CONTROL, start, MERGE);
        self.parts.add_edge(CONTROL, start, merge, 0);
        self.parts.add_edge(CONTROL, merge, join, 0);
    }

    /// A fork of a token: one that is there, or a new one, which leads to a join already or not.
    fn token_fork(&mut self) -> u8 {
        if let Some(fork) = self.rng.one_of(&self.forked) {
            return fork;
        }
        let start = self.parts.add_node(INITIAL, 0);
        let fork = self.leads_to(CONTROL, start, FORK);
        if self.rng.percent(40) {
            self.leads_to(CONTROL, fork, FLOW_FINAL);
        }
        self.forked.push(fork);
        fork
    }

    /// An edge from `source` to a node of its own, which is returned.
    fn leads_to(&mut self, kind: u8, source: u8, target_kind: u8) -> u8 {
        let target = self.parts.add_node(target_kind, 0);
        self.parts.add_edge(kind, source, target, 0);
        target
    }

    /// An edge from this node and what is behind it: at most so many further control nodes on each way.
    fn lead_on(&mut self, kind: u8, from: u8, further: usize) {
        if further > 0 && self.rng.percent(35) {
            match self.rng.below(3) {
                0 => self.split(kind, from, FORK, further - 1),
                1 => self.split(kind, from, DECISION, further - 1),
                _ => self.join_again(kind, from, further - 1),
            }
        } else if kind == CONTROL || self.rng.percent(10) {
            let end = self.rng.one_of(&[FLOW_FINAL, ACTIVITY_FINAL]).unwrap_or(FLOW_FINAL);
            self.leads_to(kind, from, end);
        } else {
            let target = if self.rng.percent(70) { self.stock() } else { self.pin() };
            self.parts.add_edge(OBJECT, from, target, 0);
        }
    }

    /// A fork or decision of two branches.
    fn split(&mut self, kind: u8, from: u8, node: u8, further: usize) {
        let split = self.leads_to(kind, from, node);
        (0..2).for_each(|_| self.lead_on(kind, split, further));
    }

    /// A second join, with a token of its own.
    fn join_again(&mut self, kind: u8, from: u8, further: usize) {
        let join = self.leads_to(kind, from, JOIN);
        self.add_token(join);
        self.lead_on(kind, join, further);
    }

    /// A stock with little room, which may be one of those that are there.
    fn stock(&mut self) -> u8 {
        let there = self.parts.nodes_of(&[BUFFER, OUTGOING_PARAMETER]);
        match self.rng.one_of(&there) {
            Some(stock) if self.rng.percent(25) => stock,
            _ => {
                let kind = self.rng.one_of(&[BUFFER, OUTGOING_PARAMETER]).unwrap_or(BUFFER);
                self.parts.add_node(kind, self.rng.between(1, 4) as u8)
            }
        }
    }

    /// A pin that may need two values, of an action that waits for nothing else.
    fn pin(&mut self) -> u8 {
        let action = self.parts.add_node(ACTION, 0);
        let upper = self.rng.between(1, 3);
        let lower = self.rng.between(1, upper.min(2));
        self.parts.add_pin(INPUT_PIN, action, lower as u8, upper as u8)
    }
}
