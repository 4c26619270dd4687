//! The paper's small event and a day, which the examples play: drawn as an organiser would, with names for what a judge sees.

#![allow(dead_code)] // each example uses its part

use keshmirun::EdgeKind::{self, Control, Object};
use keshmirun::{Builder, EdgeId, NodeId, OwnedTable, Refusal};

/// The paper's small event.
pub fn small() -> Result<OwnedTable, Refusal> {
    let mut draw = Builder::new();
    let start = draw.initial();
    let results = draw.incoming_parameter(4);
    let which_way = draw.decision();
    let with_a_token = draw.join();
    let pin = draw.input_pin(5, 1..=1);
    draw.action(); // 5
    let buffer = draw.central_buffer(2);
    draw.control(start, with_a_token);
    draw.object(results, which_way);
    draw.guarded_object(which_way, with_a_token);
    draw.guarded_object(which_way, buffer);
    draw.object(with_a_token, pin);
    draw.table()
}

/// The table of a day, the names of its nodes, and what a judge deals with.
pub struct Day {
    pub table: OwnedTable,
    names: Vec<String>,
    /// The edge over which late entrants go to the reserve; the only guarded one.
    pub to_reserve: EdgeId,
    pub call_round: NodeId,
    pub match_a: NodeId,
    pub standings: NodeId,
}

impl Day {
    pub fn name(&self, node: NodeId) -> &str {
        &self.names[node.index()]
    }
}

/// A day for four players and a reserve: two matches, called together; a final and a match for third place, called together when both are over; and the
/// standings, which come all at once when these are over too, and end the day.
pub fn day() -> Result<Day, Refusal> {
    let mut hall = Hall::default();
    let doors = hall.node("doors open", Builder::initial);
    let entrants = hall.node("entrants", |draw| draw.incoming_parameter(8));
    let seating = hall.node("seating", Builder::decision);
    let seats = ["seat A1", "seat A2", "seat B1", "seat B2"].map(|name| hall.node(name, |draw| draw.central_buffer(1)));
    let reserve = hall.node("reserve", |draw| draw.central_buffer(4));
    let call_round = hall.node("call the round", Builder::action);
    let round = hall.node("round", Builder::fork);
    let (a, b) = (hall.game("match A"), hall.game("match B"));
    let both_over = hall.node("both over", Builder::join);
    let call_finals = hall.node("call the finals", Builder::action);
    let finals = hall.node("finals", Builder::fork);
    let (last, third) = (hall.game("final"), hall.game("third place"));
    let all_over = hall.node("all over", Builder::join);
    let announcement = hall.node("announcement", Builder::fork);
    let places = ["first", "second", "third", "fourth"].map(|name| hall.node(name, Builder::join));
    let standings = hall.node("standings", |draw| draw.outgoing_parameter(4));
    let end = hall.node("end of the day", Builder::activity_final);

    hall.edges(Control, [doors], [call_round]);
    hall.edges(Object, [entrants], [seating]);
    hall.edges(Object, [seating; 4], seats);
    let to_reserve = hall.draw.guarded_object(seating, reserve);
    hall.edges(Object, seats, [a.first, a.second, b.first, b.second]);
    hall.edges(Control, [call_round, round, round], [round, a.action, b.action]);
    hall.edges(Control, [a.action, b.action, both_over], [both_over, both_over, call_finals]);
    hall.edges(Control, [call_finals, finals, finals], [finals, last.action, third.action]);
    hall.edges(Object, [a.winner, b.winner, a.loser, b.loser], [last.first, last.second, third.first, third.second]);
    hall.edges(Control, [last.action, third.action, all_over], [all_over, all_over, announcement]);
    hall.edges(Control, [announcement; 4], places);
    hall.edges(Control, [announcement], [end]);
    hall.edges(Object, [last.winner, last.loser, third.winner, third.loser], places);
    hall.edges(Object, places, [standings; 4]);
    Ok(Day { table: hall.draw.table()?, names: hall.names, to_reserve, call_round, match_a: a.action, standings })
}

/// What is drawn, with a name for each node.
#[derive(Default)]
struct Hall {
    draw: Builder,
    names: Vec<String>,
}

/// A match of two players: its action, and a pin for each player and each result.
struct Game {
    action: NodeId,
    first: NodeId,
    second: NodeId,
    winner: NodeId,
    loser: NodeId,
}

impl Hall {
    fn node(&mut self, name: &str, drawn: impl FnOnce(&mut Builder) -> NodeId) -> NodeId {
        self.names.push(name.into());
        drawn(&mut self.draw)
    }

    fn game(&mut self, name: &str) -> Game {
        let action = self.node(name, Builder::action);
        let [first, second] = ["first", "second"].map(|pin| self.node(&format!("{name}, {pin}"), |draw| draw.input_pin(action, 1..=1)));
        let [winner, loser] = ["winner", "loser"].map(|pin| self.node(&format!("{name}, {pin}"), |draw| draw.output_pin(action, 1)));
        Game { action, first, second, winner, loser }
    }

    /// An edge from each of these to the one at its place.
    fn edges<const EDGES: usize>(&mut self, kind: EdgeKind, sources: [NodeId; EDGES], targets: [NodeId; EDGES]) {
        for (source, target) in sources.into_iter().zip(targets) {
            self.draw.edge(kind, source, target, false);
        }
    }
}
