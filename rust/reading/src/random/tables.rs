//! Random good tables. A diagram grows from its sources: flows leave them, pass
//! decisions, merges, forks and joins, and close on actions, pins, buffers,
//! parameters and finals. Some diagrams have rounds too, of which wish 2 speaks.

use super::{Parts, Rng};
use crate::table::{
    is_control_node, ACTION, ACTIVITY_FINAL, CENTRAL_BUFFER, CONTROL, DECISION, FLOW_FINAL,
    FORBIDDEN_CHAIN, FORK, INCOMING_PARAMETER, INITIAL, INPUT_PIN, JOIN, MERGE, MOST_EDGES,
    MOST_NODES, OBJECT, OUTGOING_PARAMETER, OUTPUT_PIN,
};

/// The most nodes and edges of a table before wish 6. Most tables are drawn within
/// these, some just above, and a few up to what the wish allows.
const FORMER_NODES: usize = 48;
/// See [`FORMER_NODES`].
pub const FORMER_EDGES: usize = 64;

/// A random table that check finds good: from one node to all that a table may have
/// of nodes and edges, with chains of up to 15 control nodes.
pub fn table(rng: &mut Rng) -> Vec<u8> {
    grown(rng, &[10, 30, 30, 20, 6, 3, 1])
}

/// The same with as many nodes as a table could have before wish 6, or more.
pub fn larger_table(rng: &mut Rng) -> Vec<u8> {
    grown(rng, &[0, 0, 0, 0, 20, 60, 20])
}

/// A random table, with these weights of its sizes.
fn grown(rng: &mut Rng, sizes: &[usize; 7]) -> Vec<u8> {
    let mut diagram = Diagram::new(rng, sizes);
    diagram.plant_nodes();
    diagram.grow_control_nodes();
    diagram.close_flows();
    diagram.relax_pins();
    diagram.feed_actions();
    diagram.fill_up();
    let mut parts = diagram.parts;
    if rng.percent(85) {
        parts.shuffle(rng);
    }
    parts.write()
}

/// An edge that has a source but no target yet.
#[derive(Clone, Copy)]
struct Flow {
    kind: u8,
    source: u8,
    /// How many control nodes the longest chain that ends at the source has.
    depth: usize,
}

/// A diagram as it grows.
struct Diagram<'r> {
    rng: &'r mut Rng,
    parts: Parts,
    open: Vec<Flow>,
    /// How many nodes and edges it may get.
    most_nodes: usize,
    most_edges: usize,
    /// How likely the deepest flow is the one that goes on.
    deepest_first: usize,
    /// How heavy rounds weigh among what is planted: 100 is as much as all else.
    rounds: usize,
    /// How heavy decisions, merges, forks and joins weigh.
    weights: [usize; 4],
    /// The most edges that leave a decision or fork, or enter a merge or join.
    width: usize,
    /// Up to how many the last nodes and edges are filled up, if they are.
    filled: Option<(usize, usize)>,
}

impl<'r> Diagram<'r> {
    /// An empty diagram with random limits, for which the sizes have these weights.
    fn new(rng: &'r mut Rng, sizes: &[usize; 7]) -> Diagram<'r> {
        let (least, most) = match rng.weighted(sizes) {
            0 => (1, 4),
            1 => (5, 12),
            2 => (13, 24),
            3 => (25, FORMER_NODES - 1),
            4 => (FORMER_NODES, FORMER_NODES + 1),
            5 => (FORMER_NODES + 2, MOST_NODES - 1),
            _ => (MOST_NODES, MOST_NODES),
        };
        let most_nodes = rng.between(least, most);
        let most_edges = rng.between(most_nodes, 2 * most_nodes + 2);
        let is_within = most_nodes <= FORMER_NODES && rng.percent(70);
        let limit = if is_within { FORMER_EDGES } else { MOST_EDGES };
        let mut weights = [1, 2, 4, 8]; // many forks and joins
        if rng.percent(65) {
            weights = [0; 4].map(|_: usize| rng.between(1, 4));
        }
        Diagram {
            parts: Parts::default(),
            open: Vec::new(),
            most_nodes,
            most_edges: most_edges.min(limit),
            deepest_first: if rng.percent(20) { 90 } else { 25 },
            rounds: [0, 40, 400][rng.weighted(&[60, 25, 15])],
            weights,
            width: if rng.percent(8) { 9 } else { rng.between(1, 4) },
            filled: [
                None,
                Some((FORMER_NODES, FORMER_EDGES)),
                Some((FORMER_NODES + 1, FORMER_EDGES + 1)),
                Some((MOST_NODES, MOST_EDGES)),
            ][rng.weighted(&[90, 6, 2, 2])],
            rng,
        }
    }

    /// Whether so many nodes and edges may come. One node is kept for a final,
    /// and one edge per action to feed it.
    fn has_room(&self, nodes: usize, edges: usize) -> bool {
        let is_action = |node: &&[u8; 4]| node[0] == ACTION;
        let kept = self.parts.nodes.iter().filter(is_action).count() + 1;
        let edges_now = self.parts.edges.len() + self.open.len();
        self.parts.nodes.len() + nodes < self.most_nodes
            && edges_now + edges + kept <= self.most_edges
    }

    /// Sources and targets, on a third to three quarters of the nodes.
    fn plant_nodes(&mut self) {
        let share = self.rng.between(33, 75);
        let planted = self.most_nodes * share / 100;
        let mut weights = [40, 60, 0, 0, 0, 0]; // first of all, a source
        while self.parts.nodes.len() < planted && self.has_room(1, 2) {
            let what = self.rng.weighted(&weights);
            self.plant(what);
            weights = [12, 18, 12, 13, 45, self.rounds];
        }
        if self.parts.nodes.is_empty() {
            let what = self.rng.below(4);
            self.plant(what);
        }
    }

    /// One of six things.
    fn plant(&mut self, what: usize) {
        match what {
            0 => self.plant_source(INITIAL, CONTROL),
            1 => self.plant_source(INCOMING_PARAMETER, OBJECT),
            2 => self.plant_source(CENTRAL_BUFFER, OBJECT),
            3 => self.plant_target(),
            4 => self.plant_action(),
            _ => self.plant_round(),
        }
    }

    /// A source with up to three flows, most often one.
    fn plant_source(&mut self, kind: u8, flow_kind: u8) {
        let flows = [1, 0, 2, 3][self.rng.weighted(&[60, 8, 22, 10])];
        self.plant_source_with(kind, flow_kind, flows);
    }

    /// A source with so many flows.
    fn plant_source_with(&mut self, kind: u8, flow_kind: u8, flows: usize) {
        let upper = if flow_kind == OBJECT { self.upper() } else { 0 };
        let source = self.parts.add_node(kind, upper);
        self.add_flows(flow_kind, source, 0, flows);
    }

    /// An outgoing parameter or a final.
    fn plant_target(&mut self) {
        match self.rng.weighted(&[50, 25, 25]) {
            0 => {
                let upper = self.upper();
                self.parts.add_node(OUTGOING_PARAMETER, upper)
            }
            1 => self.parts.add_node(FLOW_FINAL, 0),
            _ => self.parts.add_node(ACTIVITY_FINAL, 0),
        };
    }

    /// An action with its pins and the flows that leave it and them.
    fn plant_action(&mut self) {
        let action = self.parts.add_node(ACTION, 0);
        let input_pins = self.rng.weighted(&[25, 50, 18, 7]);
        let output_pins = self.rng.weighted(&[40, 45, 15]);
        for _ in 0..input_pins {
            if self.has_room(1, 1) {
                let upper = self.upper();
                let lower = self.lower(upper);
                self.parts.add_pin(INPUT_PIN, action, lower, upper);
            }
        }
        for _ in 0..output_pins {
            if self.has_room(1, 1) {
                let upper = self.upper();
                let pin = self.parts.add_pin(OUTPUT_PIN, action, 0, upper);
                let flows = [1, 0, 2][self.rng.weighted(&[75, 10, 15])];
                self.add_flows(OBJECT, pin, 0, flows);
            }
        }
        let flows = self.rng.weighted(&[50, 38, 12]);
        self.add_flows(CONTROL, action, 0, flows);
    }

    /// A round: results merge and wait at a join for a "round open" token; at times
    /// for one of two tokens, which merge too, or for one on each of two edges. Now
    /// and then there are no results, and the join is one of control edges only.
    fn plant_round(&mut self) {
        let results = [2, 3, 4, 0][self.rng.weighted(&[30, 30, 30, 10])];
        let tokens = [&[1][..], &[2], &[1, 1], &[1, 2]][self.rng.weighted(&[45, 10, 15, 30])];
        let flows = results + tokens.iter().sum::<usize>();
        if !self.has_room(flows + 4, flows + 3) {
            return; // for their sources, two merges, the join and a stock behind it
        }
        let mut waiting = self.merged_flows(OBJECT, results);
        for number in tokens {
            waiting.extend(self.merged_flows(CONTROL, *number));
        }
        self.grow_from(JOIN, &waiting, 1);
        if results > 0 && self.rng.percent(50) {
            self.close_at_stock();
        }
    }

    /// The flow behind a merge of so many flows of this kind, or more where one has
    /// split; that flow itself if it is one.
    fn merged_flows(&mut self, kind: u8, number: usize) -> Vec<Flow> {
        let mut flows = Vec::new();
        for _ in 0..number {
            flows.extend(self.flows_to_round(kind));
        }
        if flows.len() > 1 {
            self.grow_from(MERGE, &flows, 1);
            flows = self.open.pop().into_iter().collect();
        }
        flows
    }

    /// A flow that is open already and not too deep, the flow of a new source or,
    /// where room is plenty, its two branches.
    fn flows_to_round(&mut self, kind: u8) -> Vec<Flow> {
        let is_fitting = |flow: &Flow| flow.kind == kind && flow.depth + 3 < FORBIDDEN_CHAIN;
        let fitting: Vec<usize> = (0..self.open.len())
            .filter(|place| is_fitting(&self.open[*place]))
            .collect();
        match (self.rng.weighted(&[65, 15, 20]), self.next_of(&fitting)) {
            (1, _) if self.has_room(14, 20) => self.branches_of_new_source(kind),
            (2, Some(place)) => vec![self.open.swap_remove(place)],
            _ => self.flow_of_new_source(kind),
        }
    }

    /// The flow of a new source.
    fn flow_of_new_source(&mut self, kind: u8) -> Vec<Flow> {
        let before = self.open.len();
        let source = match self.rng.weighted(&[85, 15]) {
            _ if kind == CONTROL => INITIAL,
            0 => INCOMING_PARAMETER,
            _ => CENTRAL_BUFFER,
        };
        self.plant_source_with(source, kind, 1);
        self.open.split_off(before)
    }

    /// The two branches of its flow behind a fork, at times a decision.
    fn branches_of_new_source(&mut self, kind: u8) -> Vec<Flow> {
        let flow = self.flow_of_new_source(kind);
        let before = self.open.len();
        let split = [FORK, DECISION][self.rng.weighted(&[75, 25])];
        self.grow_from(split, &flow, 2);
        self.open.split_off(before)
    }

    /// Ends the flow that was opened last at a new stock.
    fn close_at_stock(&mut self) {
        if let Some(flow) = self.open.pop() {
            let kind = [CENTRAL_BUFFER, OUTGOING_PARAMETER][self.rng.below(2)];
            let upper = self.rng.between(1, 4) as u8;
            let stock = self.parts.add_node(kind, upper);
            self.close(flow, stock);
        }
    }

    /// An upper, most often a small one.
    fn upper(&mut self) -> u8 {
        let upper = match self.rng.weighted(&[40, 40, 10, 10]) {
            0 => 1,
            1 => self.rng.between(2, 4),
            2 => self.rng.between(5, 15),
            _ => 16,
        };
        upper as u8
    }

    /// A lower, most often 1.
    fn lower(&mut self, upper: u8) -> u8 {
        match self.rng.weighted(&[60, 15, 15, 10]) {
            0 => 1,
            1 => 0,
            2 => upper.min(2),
            _ => self.rng.between(0, usize::from(upper)) as u8,
        }
    }

    /// So many flows from this source, as far as edges are left.
    fn add_flows(&mut self, kind: u8, source: u8, depth: usize, flows: usize) {
        for _ in 0..flows {
            if self.has_room(0, 1) {
                self.open.push(Flow {
                    kind,
                    source,
                    depth,
                });
            }
        }
    }

    /// Decisions, merges, forks and joins, until nodes, edges or flows are out.
    fn grow_control_nodes(&mut self) {
        let rounds = self.rng.between(0, self.most_nodes);
        for _ in 0..rounds {
            let leaving = self.rng.between(1, self.width);
            let entering = self.rng.between(1, self.width).max(self.rng.below(3));
            if self.has_room(1, leaving) {
                let weights = self.weights;
                match self.rng.weighted(&weights) {
                    0 => self.grow(DECISION, 1, leaving),
                    1 => self.grow(MERGE, entering, 1),
                    2 => self.grow(FORK, 1, leaving),
                    _ => self.grow(JOIN, entering, 1),
                }
            }
        }
    }

    /// A control node that closes up to `entering` flows and opens `leaving`.
    fn grow(&mut self, kind: u8, entering: usize, leaving: usize) {
        let taken = self.take_flows(kind, entering);
        self.grow_from(kind, &taken, leaving);
    }

    /// A control node that closes these flows, if there are any, and opens
    /// `leaving`.
    fn grow_from(&mut self, kind: u8, taken: &[Flow], leaving: usize) {
        let deepest = taken.iter().map(|flow| flow.depth).max();
        if let Some(depth) = deepest {
            let node = self.parts.add_node(kind, 0);
            for flow in taken {
                self.close(*flow, node);
            }
            let is_object = taken.iter().any(|flow| flow.kind == OBJECT);
            self.add_flows(u8::from(is_object), node, depth + 1, leaving);
        }
    }

    /// Takes up to so many open flows that can meet at a node of this kind.
    fn take_flows(&mut self, kind: u8, number: usize) -> Vec<Flow> {
        let mut taken: Vec<Flow> = Vec::new();
        while taken.len() < number {
            let fitting: Vec<usize> = (0..self.open.len())
                .filter(|place| can_meet(kind, &taken, self.open[*place]))
                .collect();
            let next = match self.next_of(&fitting) {
                Some(place) => place,
                None => return taken,
            };
            taken.push(self.open.swap_remove(next));
        }
        taken
    }

    /// One of these open flows: the deepest, or any.
    fn next_of(&mut self, places: &[usize]) -> Option<usize> {
        if self.rng.percent(self.deepest_first) {
            let open = &self.open;
            places
                .iter()
                .copied()
                .max_by_key(|place| open[*place].depth)
        } else {
            self.rng.one_of(places)
        }
    }

    /// Ends all flows at nodes that are no control nodes.
    fn close_flows(&mut self) {
        while let Some(flow) = self.open.pop() {
            let target = self.target_for(flow.kind);
            self.close(flow, target);
        }
    }

    /// A target for a flow of this kind, most often one that has no edge yet.
    fn target_for(&mut self, kind: u8) -> u8 {
        let kinds: &[u8] = if kind == CONTROL {
            &[ACTION, FLOW_FINAL, ACTIVITY_FINAL]
        } else {
            &[
                INPUT_PIN,
                CENTRAL_BUFFER,
                OUTGOING_PARAMETER,
                FLOW_FINAL,
                ACTIVITY_FINAL,
            ]
        };
        let targets = self.parts.nodes_of(kinds);
        let is_free = |node: &u8| !self.parts.edges.iter().any(|edge| edge[2] == *node);
        let free: Vec<u8> = targets.iter().copied().filter(is_free).collect();
        let finals = self.parts.nodes_of(&[FLOW_FINAL, ACTIVITY_FINAL]);
        let preferred = match self.rng.weighted(&[80, 10, 10]) {
            0 if !free.is_empty() => free,
            1 if !finals.is_empty() => finals,
            _ => targets,
        };
        match self.rng.one_of(&preferred) {
            Some(target) => target,
            None => self.parts.add_node(FLOW_FINAL, 0),
        }
    }

    /// Makes an edge of the flow, most often guarded if it leaves a decision.
    fn close(&mut self, flow: Flow, target: u8) {
        let leaves_decision = self.parts.nodes[usize::from(flow.source)][0] == DECISION;
        let chance = if leaves_decision { 70 } else { 8 };
        let guarded = u8::from(self.rng.percent(chance));
        self.parts.add_edge(flow.kind, flow.source, target, guarded);
    }

    /// Gives most input pins that no edge enters a lower of 0, so that their
    /// action can run.
    fn relax_pins(&mut self) {
        for pin in self.parts.nodes_of(&[INPUT_PIN]) {
            let is_entered = self.parts.edges.iter().any(|edge| edge[2] == pin);
            if !is_entered && self.rng.percent(80) {
                self.parts.nodes[usize::from(pin)][2] = 0;
            }
        }
    }

    /// Gives each action that waits for nothing a control edge, or one of its
    /// input pins a lower of 1.
    fn feed_actions(&mut self) {
        for action in self.parts.nodes_of(&[ACTION]) {
            let is_entered = |edge: &[u8; 4]| edge[0] == CONTROL && edge[2] == action;
            let pins = self.input_pins(action);
            let waits = pins.iter().any(|pin| self.parts.nodes[*pin][2] >= 1);
            if !waits && !self.parts.edges.iter().any(is_entered) {
                match self.rng.one_of(&pins) {
                    Some(pin) if self.rng.percent(25) => self.parts.nodes[pin][2] = 1,
                    _ => self.add_control_edge_to(action),
                }
            }
        }
    }

    /// The input pins of this action.
    fn input_pins(&self, action: u8) -> Vec<usize> {
        (0..self.parts.nodes.len())
            .filter(|node| self.parts.nodes[*node][..2] == [INPUT_PIN, action])
            .collect()
    }

    /// A control edge to this action from an initial node or any action.
    fn add_control_edge_to(&mut self, action: u8) {
        let sources = self.parts.nodes_of(&[INITIAL, ACTION]);
        let source = self.rng.one_of(&sources).unwrap_or(action);
        self.parts.add_edge(CONTROL, source, action, 0);
    }

    /// In diagrams that are filled up, nodes without edges, and as many more edges as
    /// there is room for, next to edges that touch no control node.
    fn fill_up(&mut self) {
        let (nodes, edges) = match self.filled {
            Some(filled) => filled,
            None => return,
        };
        while self.parts.nodes.len() < nodes {
            self.plant_target();
        }
        let kind_of = |number: u8| self.parts.nodes[usize::from(number)][0];
        let touches_none = |edge: &&[u8; 4]| {
            !is_control_node(kind_of(edge[1])) && !is_control_node(kind_of(edge[2]))
        };
        let plain: Vec<[u8; 4]> = self
            .parts
            .edges
            .iter()
            .filter(touches_none)
            .copied()
            .collect();
        while self.parts.edges.len() < edges && !plain.is_empty() {
            let again = self.rng.one_of(&plain);
            self.parts.edges.extend(again);
        }
    }
}

/// Whether this flow can enter a node of this kind together with those.
fn can_meet(kind: u8, taken: &[Flow], flow: Flow) -> bool {
    let has_object = taken.iter().any(|other| other.kind == OBJECT);
    let fits = match kind {
        JOIN => !(has_object && flow.kind == OBJECT),
        _ => taken.iter().all(|other| other.kind == flow.kind),
    };
    fits && flow.depth + 1 < FORBIDDEN_CHAIN
}
