//! Texts that the desk prints: what the day holds, the sheet with names, why nodes can't be served, the standings.

use crate::day::Day;
use crate::trouble::Trouble;
use crate::words::{self, OfferedEnd};
use keshmirun::{Holding, Kind, Node, NodeId};
use std::fmt::Display;

/// Values with spaces between them.
pub fn listed(values: impl IntoIterator<Item = impl Display>) -> String {
    values.into_iter().map(|value| value.to_string()).collect::<Vec<_>>().join(" ")
}

/// What is held, what runs, what is offered, and what the engine would take.
pub fn sheet(day: &Day) -> Result<String, Trouble> {
    let held = section("held", &held(day)?) + &section("running", &running(day)?);
    if day.has_ended() {
        return Ok(format!("the day is over\n{held}"));
    }
    let ends = words::ends(day)?;
    if ends.is_empty() {
        return Ok(format!("{held}nothing is on offer\n"));
    }
    Ok(format!("{held}{}pick {}\n", offered(day, &ends), day.pick()?))
}

/// Rows of two columns below a heading; nothing where there are none.
fn section(heading: &str, rows: &[(String, String)]) -> String {
    let width = rows.iter().map(|(name, _)| name.chars().count()).max().unwrap_or(0);
    let lines: String = rows.iter().map(|(name, what)| format!("  {name:width$}  {what}").trim_end().to_string() + "\n").collect();
    if rows.is_empty() {
        String::new()
    } else {
        format!("{heading}\n{lines}")
    }
}

/// Stocks that aren't empty, but those of actions that run, and tokens.
fn held(day: &Day) -> Result<Vec<(String, String)>, Trouble> {
    let contents = day.contents()?;
    let stocks = contents.nodes().filter(|(node, _)| node.kind() != Kind::InputPin).filter_map(|(node, holding)| match holding {
        Holding::Stock(values) if values.len() > 0 => Some((day.drawing.name(node.id()).to_string(), listed(values))),
        _ => None,
    });
    let tokens = contents.edges().filter(|(_, count)| *count > 0).map(|(edge, count)| {
        let tokens = if count == 1 { String::from("a token") } else { format!("{count} tokens") };
        (day.drawing.edge_name(edge.id()), tokens)
    });
    Ok(stocks.chain(tokens).collect())
}

/// Actions that run, with what they began with.
fn running(day: &Day) -> Result<Vec<(String, String)>, Trouble> {
    let contents = day.contents()?;
    let with = |action: &NodeId| {
        let pins = day.drawing.table.node(*action).into_iter().flat_map(|node| node.input_pins());
        listed(pins.flat_map(|pin| contents.values(pin.id())))
    };
    Ok(day.running()?.iter().map(|action| (day.drawing.name(*action).to_string(), with(action))).collect())
}

/// A line for each end, those that the engine would take with a star before them.
fn offered(day: &Day, ends: &[OfferedEnd]) -> String {
    let name = |end: &OfferedEnd| day.drawing.name(end.target).to_string();
    let wide = ends.iter().map(|end| name(end).chars().count()).max().unwrap_or(0);
    let long = ends.iter().map(|end| end.what.chars().count()).max().unwrap_or(0);
    let line = |end: &OfferedEnd| {
        let mark = if end.is_picked { '*' } else { ' ' };
        format!("{mark} {:>2}  {:wide$}  {:long$}  from {}\n", end.number, name(end), end.what, end.ways.join(" and "))
    };
    format!("ends\n{}", ends.iter().map(line).collect::<String>())
}

/// Why each node that can't be served can't; pins where their reason is another than their action's.
pub fn why_all(day: &Day) -> Result<String, Trouble> {
    let lines = day.drawing.table.nodes().filter(words::is_destination).map(|node| why_line(day, &node));
    let text = lines.collect::<Result<String, Trouble>>()?;
    Ok(if text.is_empty() { String::from("every node can be served\n") } else { text })
}

fn why_line(day: &Day, node: &Node<'_>) -> Result<String, Trouble> {
    let of_home = if node.kind() == Kind::InputPin { words::why(day, node.home())? } else { None };
    let said = words::why(day, node.id())?.filter(|said| Some(said) != of_home.as_ref());
    Ok(said.map_or(String::new(), |said| format!("{}: {said}\n", day.drawing.name(node.id()))))
}

/// Why this node can't be served.
pub fn why(day: &Day, node: NodeId) -> Result<String, Trouble> {
    let name = day.drawing.name(node);
    let node = day.drawing.table.node(node);
    if let Some(node) = node.filter(|node| !words::is_destination(node)) {
        return Ok(format!("{name}: nothing is served there, as it is of kind `{}`\n", node.kind()));
    }
    Ok(match node.map(|node| words::why(day, node.id())).transpose()?.flatten() {
        Some(said) => format!("{name}: {said}\n"),
        None => format!("{name}: it can be served, `take for {name}` does so\n"),
    })
}

/// What each outgoing parameter holds, place by place.
pub fn standings(day: &Day) -> Result<String, Trouble> {
    let text: String = words::standings(day)?.iter().map(|(node, values)| format!("{}\n{}", day.drawing.name(*node), placed(values))).collect();
    Ok(if text.is_empty() { String::from("the drawing has no outgoing parameter, so the day ends in nothing\n") } else { text })
}

fn placed(values: &[u32]) -> String {
    match values {
        [] => String::from("  nobody yet\n"),
        _ => (1..).zip(values).map(|(place, value)| format!("  {place}. {value}\n")).collect(),
    }
}
