//! The diagram as text for Graphviz, in the look of UML 2, with what it holds now and which ends are on offer.
//!
//! Nodes go by their names there, too, so that the text can be read; pins are ports of their action. Whatever has a colour has a sign, a word or
//! another line as well, for paper and for eyes that don't tell colours apart.

use crate::day::Day;
use crate::trouble::Trouble;
use crate::words;
use keshmirun::{Contents, Edge, EdgeId, EdgeKind, End, Kind, Node};

/// Text for `dot -Tsvg` and its like; without tokens, values and ends where the day hasn't begun.
pub fn dot(day: &Day) -> Result<String, Trouble> {
    let contents = day.marking.as_ref().map(|_| day.contents()).transpose()?;
    let picture = Picture { day, contents, ends: offered(day) };
    let nodes: String = day.drawing.table.nodes().map(|node| picture.node(&node)).collect();
    let edges: String = day.drawing.table.edges().map(|edge| picture.edge(&edge)).collect();
    let title = day.drawing.title.as_deref().unwrap_or("a day");
    Ok(format!("digraph {} {{\n{LOOK}\n{nodes}\n{edges}}}\n", quoted(title)))
}

/// Text in HTML, wherever it stands there.
pub fn escaped(text: &str) -> String {
    let mut safe = String::new();
    for character in text.chars() {
        match character {
            '&' => safe += "&amp;",
            '<' => safe += "&lt;",
            '>' => safe += "&gt;",
            '"' => safe += "&quot;",
            '\'' => safe += "&#39;",
            _ => safe.push(if character.is_control() { ' ' } else { character }),
        }
    }
    safe
}

/// From top to bottom, as time goes, which fits a sheet of paper and a phone; from left to right a day of forty nodes is a strip that fits neither.
/// By the new ranks edges lead down to circles, too, though these stand in clusters.
const LOOK: &str = r##"  graph [rankdir=TB, newrank=true, nodesep=0.35, ranksep=0.5, bgcolor="white"];
  graph [fontname="Helvetica,Arial,sans-serif", fontsize=12];
  node [shape=plain, fontname="Helvetica,Arial,sans-serif", fontsize=12, color="#222222"];
  edge [fontname="Helvetica,Arial,sans-serif", fontsize=11, color="#222222"];
"##;

const INK: &str = "#222222";
const PALE_INK: &str = "#555555";
const IDLE: &str = "#f4f4f4";
const RUNNING: &str = "#ffb81c";
const OFFERED: &str = "#0a4fb3";
const CLOSED: &str = "#b00020";

/// Of a table whose cells have no lines and no space of their own.
const TIGHT: &str = "CELLBORDER=\"0\" CELLSPACING=\"0\" CELLPADDING=\"0\"";

const INITIAL: &str = "shape=circle, width=0.26, style=filled, fillcolor=\"#222222\", label=\"\"";
/// The little line above the cross puts it into the middle.
const FLOW_FINAL: &str = "shape=circle, width=0.34, fontsize=28, label=<<FONT POINT-SIZE=\"4\">&#160;<BR/></FONT>×>";
const ACTIVITY_FINAL: &str = "shape=doublecircle, width=0.24, style=filled, fillcolor=\"#222222\", label=\"\"";

// ---- text

/// A name between quotation marks. Graphviz reads the entities of HTML there, too.
fn quoted(name: &str) -> String {
    format!("\"{}\"", label(name))
}

/// Text in a label that is like HTML, where Graphviz makes other things of a lone backslash.
fn label(text: &str) -> String {
    escaped(text).replace('\\', r"\\")
}

/// In a line, unless a word is longer.
const LONGEST_LINE: usize = 18;

/// Words in lines.
fn wrapped(text: &str) -> String {
    let mut lines: Vec<String> = Vec::new();
    for word in text.split(' ') {
        let line = lines.last().map_or(String::new(), |line| format!("{line} {word}"));
        if line.is_empty() || line.chars().count() > LONGEST_LINE {
            lines.push(word.to_string());
        } else {
            lines.pop();
            lines.push(line);
        }
    }
    stacked(lines.iter().map(|line| label(line)).collect())
}

/// Lines one below the other, but for empty ones.
fn stacked(lines: Vec<String>) -> String {
    lines.into_iter().filter(|line| !line.is_empty()).collect::<Vec<_>>().join("<BR/>")
}

fn bold(text: String) -> String {
    if text.is_empty() {
        text
    } else {
        format!("<B>{text}</B>")
    }
}

fn pale(text: &str) -> String {
    format!("<FONT COLOR=\"{PALE_INK}\" POINT-SIZE=\"10\">{text}</FONT>")
}

// ---- ends

/// An end on offer, as it stands at its last edge.
struct Offered {
    edge: EdgeId,
    text: String,
    is_picked: bool,
}

/// The ends on offer; none before the day begins, when it is over, and where there are too many for a sheet.
fn offered(day: &Day) -> Vec<Offered> {
    let (sheet, pick) = match (day.sheet(), day.pick()) {
        (Ok(sheet), Ok(pick)) => (sheet, pick),
        _ => return Vec::new(),
    };
    let of = |end: End<'_>| {
        let what = end.value().map_or(String::from("token"), |value| value.to_string());
        Offered { edge: end.last_edge(), text: format!("{}: {what}", end.id()), is_picked: pick.has(end.id()) }
    };
    sheet.ends().map(of).collect()
}

/// A row for an end: filled and with a star if the engine would take it.
fn end_row(end: &Offered) -> String {
    let (fill, ink, star) = if end.is_picked { (OFFERED, "white", "★ ") } else { ("white", OFFERED, "") };
    let text = format!("<FONT COLOR=\"{ink}\"><B>{star}{}</B></FONT>", end.text);
    format!("<TR><TD ALIGN=\"LEFT\" BORDER=\"1\" COLOR=\"{OFFERED}\" BGCOLOR=\"{fill}\" CELLPADDING=\"2\">{text}</TD></TR>")
}

// ---- nodes

/// A day, with what its nodes and edges are asked for.
struct Picture<'a> {
    day: &'a Day,
    /// None before the day begins.
    contents: Option<Contents<'a>>,
    ends: Vec<Offered>,
}

impl<'a> Picture<'a> {
    fn name(&self, node: &Node<'_>) -> &'a str {
        self.day.drawing.name(node.id())
    }

    fn node(&self, node: &Node<'_>) -> String {
        match node.kind() {
            Kind::Initial => self.circle(node, "t", INITIAL),
            Kind::FlowFinal => self.circle(node, "b", FLOW_FINAL),
            Kind::ActivityFinal => self.circle(node, "b", ACTIVITY_FINAL),
            Kind::Action => self.action(node),
            Kind::InputPin | Kind::OutputPin => String::new(), // drawn with its action
            Kind::CentralBuffer | Kind::IncomingParameter | Kind::OutgoingParameter => self.stock(node),
            Kind::Decision | Kind::Merge => self.diamond(node),
            Kind::Fork | Kind::Join => self.bar(node),
        }
    }

    /// A node that is a table.
    fn table(&self, node: &Node<'_>, look: &str, rows: &str) -> String {
        format!("  {} [label=<<TABLE {look}>{rows}</TABLE>>];\n", quoted(self.name(node)))
    }

    /// A circle with its name at top (`t`) or bottom (`b`), where it has no edges. The cluster is there to give the name room.
    fn circle(&self, node: &Node<'_>, side: &str, look: &str) -> String {
        let name = self.name(node);
        let cluster = format!("label=<{}>, labelloc={side}, peripheries=0, margin=2", wrapped(name));
        format!("  subgraph \"cluster {}\" {{ graph [{cluster}]; {} [fixedsize=shape, {look}]; }}\n", node.id(), quoted(name))
    }

    fn diamond(&self, node: &Node<'_>) -> String {
        format!("  {} [shape=diamond, margin=\"0,0\", height=0.45, label=<{}>];\n", quoted(self.name(node)), wrapped(self.name(node)))
    }

    /// A bar with a port for each edge of the side that has many, and its name beside it.
    fn bar(&self, node: &Node<'_>) -> String {
        let edges: Vec<Edge<'_>> = if node.kind() == Kind::Fork { node.outgoing().collect() } else { node.incoming().collect() };
        let port = |edge: &Edge<'_>| format!("<TD PORT=\"e{}\" WIDTH=\"40\" HEIGHT=\"8\" FIXEDSIZE=\"TRUE\"></TD>", edge.id());
        let ports: String = edges.iter().map(port).collect();
        let look = format!("BORDER=\"0\" {TIGHT} BGCOLOR=\"{INK}\" WIDTH=\"{}\" HEIGHT=\"8\" FIXEDSIZE=\"TRUE\"", 40 * edges.len());
        let bar = format!("<TD><TABLE PORT=\"bar\" {look}><TR>{ports}</TR></TABLE></TD>");
        self.table(node, &format!("BORDER=\"0\" {TIGHT}"), &format!("<TR>{bar}<TD>&#160;{}</TD></TR>", wrapped(self.name(node))))
    }

    /// A box with its name, how much of its room is taken, and its values.
    fn stock(&self, node: &Node<'_>) -> String {
        let side = match node.kind() {
            Kind::IncomingParameter => pale("incoming"),
            Kind::OutgoingParameter => pale("outgoing"),
            _ => String::new(),
        };
        let lines = [side, bold(wrapped(self.name(node))), pale(&self.taken(node)), bold(self.values(node))];
        let rows: String = lines.iter().filter(|line| !line.is_empty()).map(|line| format!("<TR><TD CELLPADDING=\"3\">{line}</TD></TR>")).collect();
        self.table(node, &format!("BORDER=\"1\" {TIGHT} COLOR=\"{INK}\" BGCOLOR=\"white\""), &rows)
    }

    fn taken(&self, node: &Node<'_>) -> String {
        match self.contents {
            Some(contents) => format!("{} of {}", contents.values(node.id()).len(), node.upper()),
            None => format!("up to {}", node.upper()),
        }
    }

    /// Oldest first.
    fn values(&self, node: &Node<'_>) -> String {
        let values = self.contents.iter().flat_map(|contents| contents.values(node.id()));
        wrapped(&values.map(|value| value.to_string()).collect::<Vec<_>>().join(" "))
    }

    /// A rounded box with its pins set into its border.
    fn action(&self, node: &Node<'_>) -> String {
        let is_running = self.contents.map_or(false, |contents| contents.is_running(node.id()));
        let (fill, border, state) = if is_running { (RUNNING, 3, "running") } else { (IDLE, 1, "") };
        let name = bold(stacked(vec![wrapped(self.name(node)), String::from(state)]));
        let (above, below) = (self.pins(node.input_pins().collect(), "in"), self.pins(node.output_pins().collect(), "out"));
        let look = format!("BORDER=\"{border}\" {TIGHT} STYLE=\"ROUNDED\" COLOR=\"{INK}\" BGCOLOR=\"{fill}\"");
        self.table(node, &look, &format!("{above}<TR><TD CELLPADDING=\"6\">{name}</TD></TR>{below}"))
    }

    /// A row of pins, and amid them a gap for the control edges; nothing if there are none.
    fn pins(&self, pins: Vec<Node<'_>>, gap: &str) -> String {
        if pins.is_empty() {
            return String::new();
        }
        let mut cells: Vec<String> = pins.iter().map(|pin| self.pin(pin)).collect();
        cells.insert((pins.len() + 1) / 2, format!("<TD BORDER=\"0\" PORT=\"{gap}\" WIDTH=\"18\"></TD>"));
        let corner = "<TD BORDER=\"0\" WIDTH=\"10\"></TD>"; // which is rounded
        let row = format!("<TR>{corner}{}{corner}</TR>", cells.concat());
        format!("<TR><TD><TABLE BORDER=\"0\" CELLBORDER=\"1\" CELLSPACING=\"0\" CELLPADDING=\"3\" COLOR=\"{INK}\">{row}</TABLE></TD></TR>")
    }

    fn pin(&self, pin: &Node<'_>) -> String {
        let lines = vec![label(self.day.drawing.short_name(pin)), needs(pin), bold(self.values(pin))];
        format!("<TD PORT=\"p{}\" BGCOLOR=\"white\">{}</TD>", pin.id(), stacked(lines))
    }
}

/// How many values a pin takes, where that isn't just one.
fn needs(pin: &Node<'_>) -> String {
    match (pin.lower(), pin.upper()) {
        (1, 1) => String::new(),
        (0, 1) if pin.kind() == Kind::OutputPin => String::new(),
        (0, upper) => pale(&format!("up to {upper}")),
        (lower, upper) if lower == upper => pale(&upper.to_string()),
        (lower, upper) => pale(&format!("{lower} to {upper}")),
    }
}

// ---- edges

impl Picture<'_> {
    fn edge(&self, edge: &Edge<'_>) -> String {
        let ends: Vec<&Offered> = self.ends.iter().filter(|end| end.edge == edge.id()).collect();
        let rows = self.terms(edge) + &self.tokens(edge) + &ends.iter().map(|end| end_row(end)).collect::<String>();
        let signs = if rows.is_empty() { rows } else { format!(", label=<<TABLE BORDER=\"0\" CELLSPACING=\"1\" CELLPADDING=\"1\">{rows}</TABLE>>") };
        format!("  {} -> {} [{}{signs}];\n", self.tail(edge), self.head(edge), self.line(edge, &ends))
    }

    fn tail(&self, edge: &Edge<'_>) -> String {
        let source = edge.source();
        let home = quoted(self.day.drawing.name(source.home()));
        match source.kind() {
            Kind::OutputPin => format!("{home}:p{}:s", source.id()),
            Kind::Action if source.output_pins().next().is_some() => format!("{home}:out:s"),
            Kind::Fork => format!("{home}:e{}:s", edge.id()),
            Kind::Join => format!("{home}:bar:s"),
            _ => home,
        }
    }

    fn head(&self, edge: &Edge<'_>) -> String {
        let target = edge.target();
        let home = quoted(self.day.drawing.name(target.home()));
        match target.kind() {
            Kind::InputPin => format!("{home}:p{}:n", target.id()),
            Kind::Action if target.input_pins().next().is_some() => format!("{home}:in:n"),
            Kind::Fork => format!("{home}:bar:n"),
            Kind::Join => format!("{home}:e{}:n", edge.id()),
            _ => home,
        }
    }

    /// Values go over double lines with a full head, as `=>` is written; tokens over single ones with an open head.
    fn line(&self, edge: &Edge<'_>, ends: &[&Offered]) -> String {
        let is_object = edge.kind() == EdgeKind::Object;
        let head = if is_object { "normal" } else { "vee" };
        let doubled = |colour: &str| if is_object { format!("{colour}:white:{colour}") } else { String::from(colour) };
        let (colour, more) = if !self.day.guards.is_open(edge.id()) {
            (String::from(CLOSED), ", style=dashed")
        } else if ends.iter().any(|end| end.is_picked) {
            (String::from(OFFERED), ", penwidth=3")
        } else if !ends.is_empty() {
            (doubled(OFFERED), ", penwidth=1.5")
        } else {
            (doubled(INK), "")
        };
        format!("arrowhead={head}, color=\"{colour}\"{more}")
    }

    /// Rows for an edge's guard and bounds.
    fn terms(&self, edge: &Edge<'_>) -> String {
        let guard = match (self.day.guards.is_open(edge.id()), edge.is_guarded()) {
            (false, _) => format!("<TR><TD ALIGN=\"LEFT\"><FONT COLOR=\"{CLOSED}\"><B>[closed]</B></FONT></TD></TR>"),
            (true, true) => String::from("<TR><TD ALIGN=\"LEFT\">[open]</TD></TR>"),
            (true, false) => String::new(),
        };
        let bounds = self.day.bounds().of(edge.id());
        guard + &bounds.map_or(String::new(), |values| format!("<TR><TD ALIGN=\"LEFT\">[{}]</TD></TR>", words::bounds(&values)))
    }

    /// A row for the tokens on an edge.
    fn tokens(&self, edge: &Edge<'_>) -> String {
        let count = match self.contents.map_or(0, |contents| contents.tokens(edge.id())) {
            0 => return String::new(),
            1 => String::new(),
            count => format!("&#160;{count}"),
        };
        format!("<TR><TD ALIGN=\"LEFT\"><FONT POINT-SIZE=\"16\">●</FONT>{count}</TD></TR>")
    }
}
