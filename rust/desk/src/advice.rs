//! Refusals in words: what is wrong with a description, or with what a judge asked for, by name, and what to change.

use crate::drawing::{arrow, Drawing};
use crate::read::{Sketch, SketchedEdge, SketchedNode};
use crate::trouble::Trouble;
use keshmirun::{EdgeKind, Kind, NodeId, Place, Refusal, LONGEST_CHAIN, MOST_ENDS, MOST_OFFERS, MOST_PATHS, MOST_TOKENS, MOST_VALUES};

/// Why a description makes no table.
pub fn on_table(sketch: &Sketch, refusal: Refusal) -> Trouble {
    match refusal.at() {
        Place::Node(node) if refusal.number == 4 => on_shape(sketch, node),
        Place::Edge(edge) => on_edge(sketch, &sketch.edges[edge.index()]),
        Place::Node(node) => Trouble::at(sketch.nodes[node.index()].line, format!("`{}`: {}", sketch.nodes[node.index()].name, refusal.meaning())),
        _ => Trouble::new(refusal.to_string()),
    }
}

fn kind_of(sketch: &Sketch, name: &str) -> Option<Kind> {
    sketch.nodes.iter().find(|node| node.name == name).map(|node| node.kind)
}

/// Why an edge can't be drawn: what may not leave its source, or may not enter its target.
fn on_edge(sketch: &Sketch, edge: &SketchedEdge) -> Trouble {
    let SketchedEdge { line, kind, source, target, .. } = edge;
    let other = if *kind == EdgeKind::Control { EdgeKind::Object } else { EdgeKind::Control };
    let text = match (wrong_end(sketch, edge, *kind), wrong_end(sketch, edge, other)) {
        (Some((name, why, "")), None) => format!("`{name}` {why}: draw `{source} {} {target}`", arrow(other)),
        (Some((name, why, "")), Some((also, too, ""))) => {
            format!("`{name}` {why}, and `{also}` {too}: an action between them takes the one by a pin and gives the other")
        }
        (Some((name, why, "")), Some((also, too, change))) => format!("`{name}` {why}, and `{also}` {too}: {change}"),
        (Some((name, why, change)), _) => format!("`{name}` {why}: {change}"),
        (None, _) => format!("`{source} {} {target}` can't be drawn", arrow(*kind)),
    };
    Trouble::at(*line, text)
}

/// The node at which an edge can't be of this kind, why, and what to change.
fn wrong_end<'a>(sketch: &Sketch, edge: &'a SketchedEdge, kind: EdgeKind) -> Option<(&'a str, &'static str, &'static str)> {
    let leaving = kind_of(sketch, &edge.source).and_then(|from| cannot_leave(from, kind)).map(|(why, change)| (&edge.source[..], why, change));
    let entering = || kind_of(sketch, &edge.target).and_then(|to| cannot_enter(to, kind)).map(|(why, change)| (&edge.target[..], why, change));
    leaving.or_else(entering)
}

/// Why an edge of this kind can't leave a node of that kind, and what to change; nothing to say for the change where the other arrow will do.
fn cannot_leave(from: Kind, kind: EdgeKind) -> Option<(&'static str, &'static str)> {
    match (from, kind) {
        (Kind::InputPin, _) => Some(("is an input pin, from which only its action takes", "draw from an output pin of the action")),
        (Kind::OutgoingParameter, _) => {
            Some(("is an outgoing parameter, in which the day ends, so nothing leaves it", "draw from a buffer before it"))
        }
        (Kind::FlowFinal | Kind::ActivityFinal, _) => Some(("is a final, so nothing leaves it", "draw from a node before it")),
        (Kind::Initial, EdgeKind::Object) => Some(("is an initial node, which gives a token and no value", "")),
        (Kind::Action, EdgeKind::Object) => Some(("is an action, which gives values by its output pins alone", "draw from one of them")),
        (Kind::OutputPin | Kind::CentralBuffer | Kind::IncomingParameter, EdgeKind::Control) => Some(("holds values, and `->` is for tokens", "")),
        _ => None,
    }
}

/// The same of entering.
fn cannot_enter(to: Kind, kind: EdgeKind) -> Option<(&'static str, &'static str)> {
    match (to, kind) {
        (Kind::Initial, _) => Some(("is an initial node, where the day begins, so nothing enters it", "draw to a node behind it")),
        (Kind::OutputPin, _) => Some(("is an output pin, into which only its action gives", "draw to an input pin of the action")),
        (Kind::IncomingParameter, _) => {
            Some(("is an incoming parameter, filled when the day begins, so nothing enters it", "draw to a buffer behind it"))
        }
        (Kind::Action, EdgeKind::Object) => Some(("is an action, which takes values by its input pins alone", "draw to one of them")),
        (Kind::InputPin | Kind::CentralBuffer | Kind::OutgoingParameter, EdgeKind::Control) => Some(("takes values, and `->` is for tokens", "")),
        _ => None,
    }
}

/// Which rule on a node's edges is broken.
fn on_shape(sketch: &Sketch, node: NodeId) -> Trouble {
    let SketchedNode { line, name, kind, .. } = &sketch.nodes[node.index()];
    let incoming: Vec<&SketchedEdge> = sketch.edges.iter().filter(|edge| edge.target == *name).collect();
    let outgoing: Vec<&SketchedEdge> = sketch.edges.iter().filter(|edge| edge.source == *name).collect();
    let text = match kind {
        Kind::Action => Some(String::from("has nothing to begin with: draw a `->` to it, or give it an input pin that needs 1 or more")),
        Kind::Decision | Kind::Fork => one_way_in(*kind, incoming.len(), outgoing.len()),
        _ => one_way_out(*kind, incoming.len(), outgoing.len()),
    };
    let text = text.or_else(|| if *kind == Kind::Join { object_join(&incoming, &outgoing) } else { mixed(&incoming, &outgoing) });
    let chain = || {
        format!("ends a chain of more than {LONGEST_CHAIN} decisions, merges, forks and joins, or stands in a circle of them: put a buffer or an action between")
    };
    let article = if *kind == Kind::Action { "an" } else { "a" };
    Trouble::at(*line, format!("`{name}`, {article} {kind}, {}", text.unwrap_or_else(chain)))
}

/// A decision's or fork's edges.
fn one_way_in(kind: Kind, incoming: usize, outgoing: usize) -> Option<String> {
    let before =
        if kind == Kind::Decision { "a merge before it brings several together" } else { "a merge or join before it brings several together" };
    match (incoming, outgoing) {
        (0, _) => Some(String::from("has no edge that enters it: draw one")),
        (2.., _) => Some(format!("has {incoming} edges that enter it and may have one: {before}")),
        (_, 0) => Some(String::from("has no edge that leaves it: draw one or more")),
        _ => None,
    }
}

/// A merge's or join's edges.
fn one_way_out(kind: Kind, incoming: usize, outgoing: usize) -> Option<String> {
    let behind = if kind == Kind::Merge { "a decision or fork behind it parts them" } else { "a fork or decision behind it parts them" };
    match (incoming, outgoing) {
        (0, _) => Some(String::from("has no edge that enters it: draw one or more")),
        (_, 0) => Some(String::from("has no edge that leaves it: draw one")),
        (_, 2..) => Some(format!("has {outgoing} edges that leave it and may have one: {behind}")),
        _ => None,
    }
}

fn objects(edges: &[&SketchedEdge]) -> usize {
    edges.iter().filter(|edge| edge.kind == EdgeKind::Object).count()
}

/// Values at a join: from one edge at most, and on by the edge that leaves it.
fn object_join(incoming: &[&SketchedEdge], outgoing: &[&SketchedEdge]) -> Option<String> {
    match (objects(incoming), objects(outgoing)) {
        (2.., _) => Some(String::from("has values coming in by several `=>` and may have one: bring them together by a merge first, or join tokens")),
        (1, 0) => Some(String::from("has a value coming in by `=>`, so it goes on by `=>`, too")),
        (0, 1) => Some(String::from("has tokens alone coming in, so it goes on by `->`, too")),
        _ => None,
    }
}

fn mixed(incoming: &[&SketchedEdge], outgoing: &[&SketchedEdge]) -> Option<String> {
    let count = objects(incoming) + objects(outgoing);
    let all = incoming.len() + outgoing.len();
    Some(String::from("has both `->` and `=>` at it and may have one kind: what goes in as a token or a value goes out as such"))
        .filter(|_| count != 0 && count != all)
}

/// Why a call was refused, by name.
pub fn on_call(drawing: &Drawing, refusal: Refusal) -> Trouble {
    let name = |node: NodeId| drawing.name(node);
    let text = match (refusal.number, refusal.at()) {
        (5, _) => String::from("the marking is not one of this table: was the description changed since the day began? Begin it anew with `start`"),
        (6, _) => String::from("the day is over: `standings` says what it ended in"),
        (8, _) => format!("too much is on offer at once: more than {MOST_OFFERS} offers, {MOST_PATHS} paths to one end or {MOST_ENDS} ends; close a guard, or draw fewer ways"),
        (9, _) => String::from("there is no such end: `show` lists those there are"),
        (10, Place::End(end)) => format!("end {end} competes with another of these ends, as both need the same thing: take one of them alone"),
        (11, Place::Node(fork)) => format!("the fork `{}` must be passed whole: take an end behind each of its ways, too", name(fork)),
        (12, Place::Node(node)) => on_destination(drawing, node),
        (13, Place::Node(node)) => format!("nothing that may be taken serves `{}`: `why {}` says what is in the way", name(node), name(node)),
        (15, _) => format!("a list of values has more than {MOST_VALUES}"),
        (16, _) => format!("there is no room for so many values, or an edge has {MOST_TOKENS} tokens already"),
        _ => refusal.to_string(),
    };
    Trouble::new(text)
}

fn on_destination(drawing: &Drawing, node: NodeId) -> String {
    let name = drawing.name(node);
    match drawing.table.node(node).map(|node| (node.kind(), node.upper())) {
        Some((Kind::Action, _)) => {
            format!(
                "`{name}` doesn't begin with these: it must be idle, with a token from each `->` to it and on each pin as many values as it needs"
            )
        }
        Some((_, upper)) => format!("`{name}` has no room for so many: it holds {upper} at most"),
        None => format!("`{name}` doesn't agree"),
    }
}
