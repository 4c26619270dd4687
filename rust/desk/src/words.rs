//! What a judge is told, in words and by name: the ends on offer, why a node can't be served, the standings.

use crate::day::Day;
use crate::drawing::Drawing;
use crate::trouble::Trouble;
use keshmirun::{Edge, EdgeId, EdgeKind, End, Kind, Node, NodeId, OwnedSheet, Reason};
use std::ops::RangeInclusive;

/// An end on offer, as a judge reads it.
#[derive(Clone, Debug, PartialEq, Eq)]
pub struct OfferedEnd {
    pub number: u8,
    pub target: NodeId,
    /// The value, or what a token is called.
    pub what: String,
    /// Where it comes from and through which nodes, way by way.
    pub ways: Vec<String>,
    /// Whether the engine would take it.
    pub is_picked: bool,
}

/// The ends on offer, in the sheet's order.
pub fn ends(day: &Day) -> Result<Vec<OfferedEnd>, Trouble> {
    let (sheet, pick) = (day.sheet()?, day.pick()?);
    let offered = |end: End<'_>| OfferedEnd {
        number: end.id().number(),
        target: end.target(),
        what: end.value().map_or(String::from("token"), |value| value.to_string()),
        ways: end.paths().map(|path| way(&day.drawing, path.edges())).collect(),
        is_picked: pick.has(end.id()),
    };
    Ok(sheet.ends().map(offered).collect())
}

/// The nodes that a path leaves, by name.
fn way(drawing: &Drawing, path: impl Iterator<Item = EdgeId>) -> String {
    let names: Vec<&str> = path.filter_map(|edge| drawing.table.edge(edge)).map(|edge| drawing.name(edge.source().id())).collect();
    names.join(", ")
}

/// Values that an edge lets over, as the description says them.
pub fn bounds(values: &RangeInclusive<u32>) -> String {
    match (*values.start(), *values.end()) {
        (low, high) if low == high => low.to_string(),
        (0, high) => format!("up to {high}"),
        (low, u32::MAX) => format!("{low} or more"),
        (low, high) => format!("{low} to {high}"),
    }
}

/// What each outgoing parameter holds: the standings.
pub fn standings(day: &Day) -> Result<Vec<(NodeId, Vec<u32>)>, Trouble> {
    let contents = day.contents()?;
    Ok(day.drawing.of_kind(Kind::OutgoingParameter).map(|node| (node.id(), contents.values(node.id()).collect())).collect())
}

/// Whether ends can belong to a node.
pub fn is_destination(node: &Node<'_>) -> bool {
    let is_served = matches!(node.kind(), Kind::Action | Kind::InputPin | Kind::FlowFinal | Kind::ActivityFinal);
    is_served || matches!(node.kind(), Kind::CentralBuffer | Kind::OutgoingParameter)
}

/// Why a node can't be served, in words; none if it can.
pub fn why(day: &Day, node: NodeId) -> Result<Option<String>, Trouble> {
    let reason = day.why(node)?;
    let facts = match reason {
        Reason::Acceptable => return Ok(None),
        Reason::NoEnd => missing(day, node)?,
        Reason::OwnDestination => own_rule(day, node)?,
        Reason::Competing | Reason::Forks | Reason::Destinations => shared(day, node)?,
    };
    let said = match reason {
        Reason::Acceptable | Reason::NoEnd => "nothing is on its way to it",
        Reason::OwnDestination => "what is offered to it doesn't satisfy its own rule",
        Reason::Competing => "what it needs competes: two of its ends need the same thing, so they can't be taken together",
        Reason::Forks => "a fork on the way must be passed whole, and not every way behind it has an end that can be taken along",
        Reason::Destinations => "what must be taken along with it, behind a fork on the way, finds no room or can't begin",
    };
    Ok(Some(if facts.is_empty() { String::from(said) } else { format!("{said}: {}", facts.join("; ")) }))
}

/// A node with its pins, if it is an action; a pin as its action, since its own rule is its action's.
fn served(day: &Day, node: NodeId) -> Vec<Node<'_>> {
    let home = day.drawing.table.node(node).map_or(node, |node| node.home());
    let home = day.drawing.table.node(home);
    home.into_iter().flat_map(|home| std::iter::once(home).chain(home.input_pins())).collect()
}

// ---- 1: nothing is on its way

/// What is missing on the ways to a node, or to its pins if it is an action.
fn missing(day: &Day, node: NodeId) -> Result<Vec<String>, Trouble> {
    let asked: Vec<Node<'_>> = match day.drawing.table.node(node) {
        Some(node) if node.kind() == Kind::Action => served(day, node.id()),
        other => other.into_iter().collect(),
    };
    let mut facts = Vec::new();
    for edge in asked.iter().flat_map(|node| node.incoming()) {
        missing_over(day, edge, &mut Vec::new(), &mut facts)?;
    }
    facts.dedup();
    Ok(facts)
}

/// What is missing behind this edge, back to where offers begin, with the bounds that were met on the way.
fn missing_over(day: &Day, edge: Edge<'_>, bounded: &mut Vec<EdgeId>, facts: &mut Vec<String>) -> Result<(), Trouble> {
    if !day.guards.is_open(edge.id()) {
        facts.push(format!("`{}` is closed", day.drawing.edge_name(edge.id())));
        return Ok(());
    }
    bounded.push(edge.id());
    if edge.source().kind().is_control_node() {
        for before in edge.source().incoming() {
            missing_over(day, before, bounded, facts)?;
        }
    } else if let Some(fact) = missing_at(day, &edge, bounded)? {
        if !facts.contains(&fact) {
            facts.push(fact);
        }
    }
    bounded.pop();
    Ok(())
}

/// What an edge on which offers begin lacks.
fn missing_at(day: &Day, edge: &Edge<'_>, bounded: &[EdgeId]) -> Result<Option<String>, Trouble> {
    let contents = day.contents()?;
    let source = edge.source().id();
    let name = day.drawing.name(source);
    if edge.kind() == EdgeKind::Control {
        let is_running = contents.is_running(source);
        let text = if is_running { format!("`{name}` is still running") } else { format!("there is no token from `{name}`") };
        return Ok(Some(text).filter(|_| contents.tokens(edge.id()) == 0));
    }
    let oldest = match contents.values(source).next() {
        Some(oldest) => oldest,
        None => return Ok(Some(format!("`{name}` is empty"))),
    };
    let bars = |edge: &&EdgeId| day.bounds().of(**edge).map_or(false, |values| !values.contains(&oldest));
    Ok(bounded.iter().find(bars).map(|edge| {
        let said = day.bounds().of(*edge).map_or(String::new(), |values| bounds(&values));
        format!("{oldest}, the oldest in `{name}`, may not go over `{} [{said}]`", day.drawing.edge_name(*edge))
    }))
}

// ---- 2: its own rule

/// What an action's or a stock's own rule lacks.
fn own_rule(day: &Day, node: NodeId) -> Result<Vec<String>, Trouble> {
    let (sheet, contents) = (day.sheet()?, day.contents()?);
    let nodes = served(day, node);
    let mut facts = Vec::new();
    for node in &nodes {
        match node.kind() {
            Kind::Action if contents.is_running(node.id()) => return Ok(vec![String::from("it is running already")]),
            Kind::Action => facts.extend(missing_tokens(day, &sheet, node)),
            Kind::InputPin => facts.extend(missing_values(day, &sheet, node)),
            _ => facts.push(format!("it holds {} of {}", contents.values(node.id()).len(), node.upper())),
        }
    }
    Ok(facts)
}

fn missing_tokens(day: &Day, sheet: &OwnedSheet, action: &Node<'_>) -> Vec<String> {
    let has_end = |edge: &Edge<'_>| sheet.ends().any(|end| end.last_edge() == edge.id());
    action.incoming().filter(|edge| !has_end(edge)).map(|edge| format!("no token comes over `{}`", day.drawing.edge_name(edge.id()))).collect()
}

fn missing_values(day: &Day, sheet: &OwnedSheet, pin: &Node<'_>) -> Option<String> {
    let offered = sheet.ends().filter(|end| end.target() == pin.id()).count();
    let needed = usize::from(pin.lower());
    let name = day.drawing.short_name(pin);
    let trap =
        if offered > 0 { " (a stock offers only its oldest value at a time: feed the pin from as many stocks as it needs values)" } else { "" };
    Some(format!("`{name}` needs {needed} and is offered {offered}{trap}")).filter(|_| offered < needed)
}

// ---- 3 to 5: what is shared with others

/// The forks on the ways to a node, and the stocks from which several of its ends begin.
fn shared(day: &Day, node: NodeId) -> Result<Vec<String>, Trouble> {
    let sheet = day.sheet()?;
    let nodes: Vec<NodeId> = served(day, node).iter().map(|node| node.id()).collect();
    let ends: Vec<End<'_>> = sheet.ends().filter(|end| nodes.contains(&end.target())).collect();
    let is_competing = day.why(node)? == Reason::Competing;
    let mut facts = Vec::new();
    for source in ends.iter().flat_map(|end| sources(day, end)) {
        let fact = match source.kind() {
            Kind::Fork if !is_competing => format!("the fork is `{}`", day.drawing.name(source.id())),
            kind if is_competing && kind.is_object_node() && is_from_several(day, &ends, source.id()) => {
                format!("several come from `{}`, and a stock offers only its oldest value at a time", day.drawing.name(source.id()))
            }
            _ => continue,
        };
        if !facts.contains(&fact) {
            facts.push(fact);
        }
    }
    Ok(facts)
}

/// The nodes that an end's paths leave.
fn sources<'a>(day: &'a Day, end: &End<'a>) -> Vec<Node<'a>> {
    let edges = end.paths().flat_map(|path| path.edges());
    edges.filter_map(|edge| day.drawing.table.edge(edge)).map(|edge| edge.source()).collect()
}

fn is_from_several(day: &Day, ends: &[End<'_>], stock: NodeId) -> bool {
    ends.iter().filter(|end| sources(day, end).iter().any(|node| node.id() == stock)).count() > 1
}
