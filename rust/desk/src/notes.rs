//! What is good as a table, but hardly what was meant.

use crate::drawing::Drawing;
use keshmirun::{Kind, Node};

/// Notes on a drawing, in words, each with its line.
pub fn notes(drawing: &Drawing) -> Vec<String> {
    drawing.of_kind(Kind::InputPin).filter_map(|pin| never_fills(drawing, &pin)).collect()
}

/// A pin that needs more values than there are stocks to feed it. Each offers one at a time; a fork alone makes several of one.
fn never_fills(drawing: &Drawing, pin: &Node<'_>) -> Option<String> {
    let mut before = Vec::new();
    gather(pin, &mut before);
    let stocks = before.iter().filter(|node| node.kind().is_object_node()).count();
    let has_fork = before.iter().any(|node| node.kind() == Kind::Fork);
    let (needed, name) = (usize::from(pin.lower()), drawing.name(pin.id()));
    let text = format!(
        "line {}: `{name}` needs {needed} values and is fed from {stocks} stock{}; a stock offers only its oldest value at a time, so it never fills: feed it \
         from {needed} stocks, one for each seat",
        drawing.line(pin.id()),
        if stocks == 1 { "" } else { "s" },
    );
    Some(text).filter(|_| stocks < needed && !has_fork)
}

/// The nodes from which this one is fed, back to where offers begin, each once.
fn gather<'t>(node: &Node<'t>, before: &mut Vec<Node<'t>>) {
    for source in node.incoming().map(|edge| edge.source()) {
        let is_new = !before.iter().any(|known| known.id() == source.id());
        if is_new {
            before.push(source);
        }
        if is_new && source.kind().is_control_node() {
            gather(&source, before);
        }
    }
}
