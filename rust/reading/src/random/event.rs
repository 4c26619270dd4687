//! Random markings, guards, choices and value lists of a table, and whole events
//! played from start by this crate's own operations.

use super::tables::FORMER_EDGES;
use super::{bounds, damaged_bytes, larger_table, table, Parts, Rng};
use crate::bytes::{write_stock, Value};
use crate::marking::{counted_edges, Marking};
use crate::operations::{finish, start, Answer, Board, NO_NODE};
use crate::table::{
    is_object_node, is_pin, Table, ACTION, INCOMING_PARAMETER, INPUT_PIN, MOST_NODES, MOST_UPPER,
    OUTPUT_PIN,
};

/// How many enumeration steps one move of an event may take.
const MOVE_BUDGET: u64 = 2_000;
/// How many moves an event has at most.
const MOST_MOVES: usize = 60;
/// After how many tries without a move an event is over.
const MOST_TRIES: usize = 3;

/// A value list for start, legal most of the time.
pub fn values(rng: &mut Rng, table: &[u8]) -> Vec<u8> {
    let legal = legal_values(rng, table);
    spoiled_sometimes(rng, legal)
}

/// A value list for finish of this action, legal most of the time.
pub fn outputs(rng: &mut Rng, table: &[u8], marking: &[u8], action: u8) -> Vec<u8> {
    let legal = legal_outputs(rng, table, marking, action);
    spoiled_sometimes(rng, legal)
}

/// A value list that start takes, none for a table that is not good.
fn legal_values(rng: &mut Rng, table: &[u8]) -> Vec<u8> {
    let mut bytes = Vec::new();
    if let Ok(table) = Table::read(table) {
        for parameter in table.nodes_of_kind(INCOMING_PARAMETER) {
            let most = usize::from(table.nodes[parameter].upper);
            write_stock(&mut bytes, &random_stock(rng, 0, most));
        }
    }
    bytes
}

/// A value list for which each output pin of the action has room.
fn legal_outputs(rng: &mut Rng, table: &[u8], marking: &[u8], action: u8) -> Vec<u8> {
    let mut bytes = Vec::new();
    if let Some((table, marking)) = read_both(table, marking) {
        for pin in table.pins_of(usize::from(action), OUTPUT_PIN) {
            let most = usize::from(table.nodes[pin].upper) - marking.stocks[pin].len();
            write_stock(&mut bytes, &random_stock(rng, 0, most));
        }
    }
    bytes
}

/// The table and its marking, if both are good.
pub fn read_both(table: &[u8], marking: &[u8]) -> Option<(Table, Marking)> {
    let table = Table::read(table).ok()?;
    let marking = Marking::read(&table, marking).ok()?;
    Some((table, marking))
}

/// From `least` to `most` values, most often few but not none.
fn random_stock(rng: &mut Rng, least: usize, most: usize) -> Vec<Value> {
    let count = match rng.below(4) {
        0 => rng.between(least, most),
        1 => rng.between(0, 1),
        2 => 1,
        _ => 2,
    };
    let count = count.max(least).min(most);
    (0..count).map(|_| random_value(rng)).collect()
}

/// A value, most often a small number; at times the least or the greatest, which
/// bounds name too.
fn random_value(rng: &mut Rng) -> Value {
    let number = match rng.weighted(&[80, 16, 2, 2]) {
        0 => rng.below(100) as u32,
        1 => rng.draw() as u32,
        2 => 0,
        _ => u32::MAX,
    };
    number.to_be_bytes()
}

/// One value list in eight is cut, longer, or has another first count.
fn spoiled_sometimes(rng: &mut Rng, mut list: Vec<u8>) -> Vec<u8> {
    if !rng.percent(12) {
        return list;
    }
    match list.first() {
        Some(_) if rng.percent(60) => {
            list[0] = rng.between(0, usize::from(MOST_UPPER) + 2) as u8;
            if rng.percent(70) {
                list.resize(1 + 4 * usize::from(list[0]), 0);
            }
            list
        }
        _ => damaged_bytes(rng, &list),
    }
}

/// Guards of this table, legal most of the time: a guarded edge has 1 three times
/// in four.
pub fn guards(rng: &mut Rng, table: &[u8]) -> Vec<u8> {
    let mut bytes = Vec::new();
    if let Some(parts) = Parts::of(table) {
        for [.., guarded] in &parts.edges {
            let is_closed = *guarded == 1 && rng.percent(25);
            bytes.push(u8::from(!is_closed));
        }
    }
    match rng.below(40) {
        0 => damaged_bytes(rng, &bytes),
        1 => spoiled_guards(rng, bytes),
        _ => bytes,
    }
}

/// The guards with one byte at 0 that may belong to an unguarded edge.
fn spoiled_guards(rng: &mut Rng, mut guards: Vec<u8>) -> Vec<u8> {
    let place = rng.below(guards.len());
    if let Some(byte) = guards.get_mut(place) {
        *byte = 0;
    }
    guards
}

/// A choice among so many ends, mostly strictly rising.
pub fn choice(rng: &mut Rng, ends: usize) -> Vec<u8> {
    let share = rng.between(5, 70);
    let mut choice: Vec<u8> = (0..ends as u8).filter(|_| rng.percent(share)).collect();
    match rng.below(30) {
        0 => rng.shuffle(&mut choice),
        1 => choice.push(ends as u8),
        2 => choice.push(rng.byte()),
        _ => {}
    }
    choice
}

/// A good marking of this table, also one that no event leads to; one in twenty
/// is ended. No bytes for a table that is not good.
pub fn marking(rng: &mut Rng, table: &[u8]) -> Vec<u8> {
    let table = match Table::read(table) {
        Ok(table) => table,
        Err(_) => return Vec::new(),
    };
    let mut marking = Marking::empty(&table);
    let run = rng.between(0, 60);
    for action in table.nodes_of_kind(ACTION) {
        if rng.percent(run) {
            run_action(rng, &table, &mut marking, action);
        }
    }
    // of a larger table a smaller part, so that not all have too many offers
    let fill = rng.between(20, 100) * FORMER_EDGES / table.edges.len().max(FORMER_EDGES);
    for node in table.node_numbers().filter(|n| is_store(table.kind(*n))) {
        if rng.percent(fill) {
            let most = usize::from(table.nodes[node].upper);
            marking.stocks[node] = random_stock(rng, 0, most);
        }
    }
    for edge in counted_edges(&table) {
        if rng.percent(fill) {
            marking.counts[edge] = rng.one_of(&[1, 1, 1, 2, 3, 254, 255]).unwrap_or(1);
        }
    }
    if rng.percent(5) {
        marking.end(&table);
    }
    marking.write(&table)
}

/// The object nodes that hold values whether or not an action runs.
fn is_store(kind: u8) -> bool {
    is_object_node(kind) && kind != INPUT_PIN
}

/// Lets an action run, with values in its input pins.
fn run_action(rng: &mut Rng, table: &Table, marking: &mut Marking, action: usize) {
    marking.running[action] = true;
    for pin in table.pins_of(action, INPUT_PIN) {
        let node = &table.nodes[pin];
        marking.stocks[pin] = random_stock(rng, usize::from(node.lower), usize::from(node.upper));
    }
}

/// A random event at one point: what sheet, pick, why, step and finish are given.
#[derive(Debug, Clone)]
pub struct Event {
    /// A good table.
    pub table: Vec<u8>,
    /// A good marking of it, ended or live.
    pub marking: Vec<u8>,
    /// Guards, legal most of the time.
    pub guards: Vec<u8>,
    /// A bounds list, legal most of the time.
    pub bounds: Vec<u8>,
    moves: usize,
    tries: usize,
}

impl Event {
    /// An event of a random table, at its start.
    pub fn begin(rng: &mut Rng) -> Event {
        let table = table(rng);
        Event::start_of(rng, table)
    }

    /// An event of a random table, at a random marking.
    pub fn anywhere(rng: &mut Rng) -> Event {
        let table = table(rng);
        let marking = marking(rng, &table);
        Event::at(rng, table, marking)
    }

    /// An event of a random table that is as large as those before wish 6 or larger,
    /// at its start or at a random marking.
    pub fn larger(rng: &mut Rng) -> Event {
        let table = larger_table(rng);
        if rng.percent(50) {
            return Event::start_of(rng, table);
        }
        let marking = marking(rng, &table);
        Event::at(rng, table, marking)
    }

    /// An event of this table, at its start.
    fn start_of(rng: &mut Rng, table: Vec<u8>) -> Event {
        let values = legal_values(rng, &table);
        let marking = match start(&table, &values, usize::MAX) {
            Answer::Good(marking) => marking,
            Answer::Refused { .. } => marking(rng, &table),
        };
        Event::at(rng, table, marking)
    }

    /// An event of this table at this marking.
    pub fn at(rng: &mut Rng, table: Vec<u8>, marking: Vec<u8>) -> Event {
        Event {
            guards: guards(rng, &table),
            bounds: bounds(rng, &table, &marking),
            table,
            marking,
            moves: 0,
            tries: 0,
        }
    }

    /// Goes on to a new point: by a step, by the finish of an action or, where
    /// neither is to be had, by new guards and bounds alone. False once the event
    /// is over.
    pub fn go_on(&mut self, rng: &mut Rng) -> bool {
        let is_ended = self.marking.get(3) == Some(&1);
        if is_ended || self.moves >= MOST_MOVES || self.tries >= MOST_TRIES {
            return false;
        }
        let finishes_first = rng.percent(35) && self.finish_one(rng);
        let has_moved = finishes_first || self.step_once(rng) || self.finish_one(rng);
        self.moves += 1;
        self.tries = if has_moved { 0 } else { self.tries + 1 };
        self.guards = guards(rng, &self.table);
        self.bounds = bounds(rng, &self.table, &self.marking);
        true
    }

    /// The number of ends, if sheet answers.
    pub fn ends(&self) -> Option<usize> {
        Some(self.board()?.ends())
    }

    /// The board, unless sheet refuses it or it takes too long.
    fn board(&self) -> Option<Board> {
        let (table, marking) = (&self.table, &self.marking);
        Board::within(table, marking, &self.guards, &self.bounds, MOVE_BUDGET)?.ok()
    }

    /// The actions that run.
    pub fn running(&self) -> Vec<u8> {
        match read_both(&self.table, &self.marking) {
            Some((table, marking)) => {
                let running = table.node_numbers().filter(|node| marking.running[*node]);
                running.map(|node| node as u8).collect()
            }
            None => Vec::new(),
        }
    }

    /// A node to name to pick or why: most often one that an edge with an end enters,
    /// or its action; at times any number.
    pub fn node(&self, rng: &mut Rng) -> u8 {
        let targets = self.board().map_or(Vec::new(), |board| board.targets());
        self.node_among(rng, &targets)
    }

    /// The same, if these are the targets of the ends.
    fn node_among(&self, rng: &mut Rng, targets: &[u8]) -> u8 {
        let nodes = Parts::of(&self.table).unwrap_or_default().nodes;
        match rng.one_of(targets) {
            Some(target) if rng.percent(80) => {
                let [kind, owner, ..] = nodes[usize::from(target)];
                if is_pin(kind) && rng.percent(50) {
                    owner
                } else {
                    target
                }
            }
            _ if rng.percent(50) => rng.below(nodes.len() + 2) as u8,
            _ => rng.below(MOST_NODES + 2) as u8,
        }
    }

    /// Takes a step by any choice, by the pick for any node, or by the pick with
    /// none named. False if none of them moves anything.
    fn step_once(&mut self, rng: &mut Rng) -> bool {
        let board = match self.board() {
            Some(board) => board,
            None => return false,
        };
        let named = self.node_among(rng, &board.targets());
        let any_choice = choice(rng, board.ends());
        let has_stepped = match rng.below(3) {
            0 => self.step_by(&board, &any_choice),
            1 => self.step_by_pick(&board, named),
            _ => false,
        };
        has_stepped || self.step_by_pick(&board, NO_NODE)
    }

    /// Takes a step by what pick answers for this node.
    fn step_by_pick(&mut self, board: &Board, node: u8) -> bool {
        match board.pick_within(node, usize::MAX, MOVE_BUDGET) {
            Some(Answer::Good(choice)) => self.step_by(board, &choice),
            _ => false,
        }
    }

    /// Takes a step by this choice, unless it is empty or refused.
    fn step_by(&mut self, board: &Board, choice: &[u8]) -> bool {
        match board.step(choice, usize::MAX) {
            Answer::Good(after) if !choice.is_empty() => {
                self.marking = after;
                true
            }
            _ => false,
        }
    }

    /// Finishes an action that runs, if there is one.
    fn finish_one(&mut self, rng: &mut Rng) -> bool {
        let action = match rng.one_of(&self.running()) {
            Some(action) => action,
            None => return false,
        };
        let values = legal_outputs(rng, &self.table, &self.marking, action);
        match finish(&self.table, &self.marking, action, &values, usize::MAX) {
            Answer::Good(after) => {
                self.marking = after;
                true
            }
            Answer::Refused { .. } => false,
        }
    }
}
