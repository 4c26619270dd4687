//! A diagram with its names: the table of a description, what its edges are told, and where each node and edge stands in the text.

use crate::advice;
use crate::read::{nearest, EdgeTerms, Sketch, SketchedNode};
use crate::trouble::Trouble;
use keshmirun::{Bounds, Builder, EdgeId, EdgeKind, Guards, Kind, Node, NodeId, OwnedTable, MOST_EDGES, MOST_NODES};

/// A table with the names of its nodes and what its description says of its edges.
#[derive(Debug)]
pub struct Drawing {
    pub title: Option<String>,
    pub table: OwnedTable,
    /// By node.
    names: Vec<String>,
    /// Where each stands in the text, by node.
    lines: Vec<usize>,
    /// By edge.
    terms: Vec<EdgeTerms>,
}

impl Drawing {
    /// The drawing that these lines make.
    pub fn of(sketch: Sketch) -> Result<Drawing, Trouble> {
        are_few(&sketch)?;
        let mut draw = Builder::new();
        for (number, node) in sketch.nodes.iter().enumerate() {
            is_first_of_its_name(&sketch.nodes[..number], node)?;
            let owner = if node.kind.is_pin() { Some(owner(&sketch, node)?) } else { None };
            draw.node(node.kind, owner, node.values.clone());
        }
        for edge in &sketch.edges {
            let (source, target) = (named(&sketch, edge.line, &edge.source)?, named(&sketch, edge.line, &edge.target)?);
            draw.edge(edge.kind, source, target, edge.terms.is_guarded);
        }
        let table = draw.table().map_err(|refusal| advice::on_table(&sketch, refusal))?;
        let lines = sketch.nodes.iter().map(|node| node.line).collect();
        let names = sketch.nodes.into_iter().map(|node| node.name).collect();
        let terms = sketch.edges.into_iter().map(|edge| edge.terms).collect();
        Ok(Drawing { title: sketch.title, table, names, lines, terms })
    }

    /// A node's name; of a pin `ACTION.PIN`.
    pub fn name(&self, node: NodeId) -> &str {
        self.names.get(node.index()).map_or("no node", String::as_str)
    }

    /// The names of all nodes, by number.
    pub fn names(&self) -> &[String] {
        &self.names
    }

    /// The line in which a node is drawn, from 1.
    pub fn line(&self, node: NodeId) -> usize {
        self.lines.get(node.index()).copied().unwrap_or(0)
    }

    /// A pin's name without its action's; of other nodes the name.
    pub fn short_name(&self, node: &Node<'_>) -> &str {
        let name = self.name(node.id());
        match name.rsplit_once('.') {
            Some((_, pin)) if node.kind().is_pin() => pin,
            _ => name,
        }
    }

    /// The node of this name.
    pub fn node(&self, name: &str) -> Result<NodeId, Trouble> {
        match self.names.iter().position(|known| known == name) {
            Some(number) => Ok(NodeId::new(number as u8)),
            None => Err(Trouble::new(no_node(name, &mut self.names.iter().map(String::as_str)))),
        }
    }

    /// An edge by its nodes, `a => b`.
    pub fn edge_name(&self, edge: EdgeId) -> String {
        match self.table.edge(edge) {
            Some(edge) => format!("{} {} {}", self.name(edge.source().id()), arrow(edge.kind()), self.name(edge.target().id())),
            None => format!("no edge {edge}"),
        }
    }

    /// The edge of this number, or with this name.
    pub fn edge(&self, said: &str) -> Result<EdgeId, Trouble> {
        let said = said.split_whitespace().collect::<Vec<_>>().join(" ");
        if let Some(edge) = said.parse::<u8>().ok().and_then(|number| self.table.edge(number)) {
            return Ok(edge.id());
        }
        let named: Vec<EdgeId> = self.table.edges().map(|edge| edge.id()).filter(|edge| self.edge_name(*edge) == said).collect();
        match named[..] {
            [edge] => Ok(edge),
            [] => Err(Trouble::new(format!(
                "there is no edge `{said}`: write it as it is drawn, `a -> b` or `a => b` (in a shell within quotes), or its number"
            ))),
            [first, ..] => Err(Trouble::new(format!("`{said}` is drawn {} times: say which by its number, the first is {first}", named.len()))),
        }
    }

    /// What the description says of an edge.
    pub fn terms(&self, edge: EdgeId) -> EdgeTerms {
        self.terms.get(edge.index()).cloned().unwrap_or_default()
    }

    /// The guards with which the day begins: open, but where the description says `closed`.
    pub fn guards(&self) -> Guards {
        let mut guards = self.table.guards();
        for edge in self.table.edges().map(|edge| edge.id()).filter(|edge| self.terms(*edge).is_closed) {
            guards.close(edge).expect("what is closed is guarded");
        }
        guards
    }

    /// The bounds that the description says.
    pub fn bounds(&self) -> Bounds {
        let mut bounds = Bounds::none(&self.table);
        for edge in self.table.edges().map(|edge| edge.id()) {
            if let Some(values) = self.terms(edge).bounds {
                bounds.set(edge, values).expect("bounds are read of object edges, and of some values");
            }
        }
        bounds
    }

    /// The nodes of this kind, by number.
    pub fn of_kind(&self, kind: Kind) -> impl Iterator<Item = Node<'_>> {
        self.table.nodes().filter(move |node| node.kind() == kind)
    }
}

/// The arrow of a kind.
pub fn arrow(kind: EdgeKind) -> &'static str {
    match kind {
        EdgeKind::Control => "->",
        EdgeKind::Object => "=>",
    }
}

/// A table's limits, before numbers run out.
fn are_few(sketch: &Sketch) -> Result<(), Trouble> {
    let too_many =
        |line: usize, what: &str, most: usize| Trouble::at(line, format!("this is {what} {}, and a table has {most} at most: draw fewer", most + 1));
    if let Some(node) = sketch.nodes.get(MOST_NODES) {
        return Err(too_many(node.line, "node", MOST_NODES));
    }
    match sketch.edges.get(MOST_EDGES) {
        Some(edge) => Err(too_many(edge.line, "edge", MOST_EDGES)),
        None => Ok(()),
    }
}

fn is_first_of_its_name(before: &[SketchedNode], node: &SketchedNode) -> Result<(), Trouble> {
    match before.iter().find(|other| other.name == node.name) {
        Some(other) => {
            let text = format!("`{}` is drawn already, in line {}: give one of them another name", node.name, other.line);
            Err(Trouble::at(node.line, text))
        }
        None => Ok(()),
    }
}

/// The action whose pin this is, by its name.
fn owner(sketch: &Sketch, pin: &SketchedNode) -> Result<NodeId, Trouble> {
    let (action, _) = pin.name.rsplit_once('.').ok_or_else(|| {
        let text = format!("whose pin is `{}`? Write it further in, below its action, or name it `ACTION.{}`", pin.name, pin.name);
        Trouble::at(pin.line, text)
    })?;
    let node = named(sketch, pin.line, action)?;
    match sketch.nodes[node.index()].kind {
        Kind::Action => Ok(node),
        kind => Err(Trouble::at(
            pin.line,
            format!("`{}` can't be a pin of `{action}`, which is no action but of kind `{kind}`: write it below its action", pin.name),
        )),
    }
}

fn named(sketch: &Sketch, line: usize, name: &str) -> Result<NodeId, Trouble> {
    match sketch.nodes.iter().position(|node| node.name == name) {
        Some(number) => Ok(NodeId::new(number as u8)),
        None => Err(Trouble::at(line, no_node(name, &mut sketch.nodes.iter().map(|node| node.name.as_str())))),
    }
}

fn no_node(name: &str, names: &mut dyn Iterator<Item = &str>) -> String {
    match nearest(name, names) {
        Some(meant) => format!("there is no node `{name}`; did you mean `{meant}`?"),
        None => format!("there is no node `{name}`: draw it with a line like `{name}: action`, or mend the name"),
    }
}
