//! The readable description of a diagram, line by line: `name: kind`, `a -> b` for tokens, `a => b` for values.
//!
//! What a line says is read here; whether the lines make a diagram is `drawing`'s to say.

use crate::trouble::Trouble;
use keshmirun::{EdgeKind, Kind, MOST_VALUES};
use std::ops::RangeInclusive;

/// A description, by its lines.
#[derive(Debug, Default)]
pub struct Sketch {
    /// The first comment, if the text begins with one.
    pub title: Option<String>,
    pub nodes: Vec<SketchedNode>,
    pub edges: Vec<SketchedEdge>,
}

#[derive(Clone, Debug)]
pub struct SketchedNode {
    pub line: usize,
    /// Of a pin `ACTION.PIN`.
    pub name: String,
    pub kind: Kind,
    /// The fewest and the most values.
    pub values: RangeInclusive<u8>,
}

#[derive(Clone, Debug)]
pub struct SketchedEdge {
    pub line: usize,
    pub kind: EdgeKind,
    pub source: String,
    pub target: String,
    pub terms: EdgeTerms,
}

/// What an edge's brackets say.
#[derive(Clone, Debug, Default, PartialEq, Eq)]
pub struct EdgeTerms {
    pub is_guarded: bool,
    /// Closed when the day begins.
    pub is_closed: bool,
    pub bounds: Option<RangeInclusive<u32>>,
}

/// Characters that mean something else than a name.
const MARKS: [char; 9] = [':', ',', '=', '[', ']', '#', '<', '>', '"'];

/// Reads a whole description.
pub fn read(text: &str) -> Result<Sketch, Trouble> {
    let mut sketch = Sketch { title: title(text), ..Sketch::default() };
    for (line, said) in (1..).zip(text.lines()) {
        sketch.read_line(line, said.split('#').next().unwrap_or(""))?;
    }
    if sketch.nodes.is_empty() {
        return Err(Trouble::new("there is no node: draw the first with a line like `doors open: initial`"));
    }
    Ok(sketch)
}

fn title(text: &str) -> Option<String> {
    let comment = text.lines().next()?.strip_prefix('#')?.trim();
    Some(comment.to_string()).filter(|comment| !comment.is_empty())
}

impl Sketch {
    fn read_line(&mut self, line: usize, said: &str) -> Result<(), Trouble> {
        if said.trim().is_empty() {
            return Ok(());
        }
        for (arrow, kind) in [("->", EdgeKind::Control), ("=>", EdgeKind::Object)] {
            if let Some((source, target)) = said.split_once(arrow) {
                self.edges.push(edge(line, kind, source, target)?);
                return Ok(());
            }
        }
        let (name, kind) = said.split_once(':').ok_or_else(|| {
            let text = "this is neither a node nor an edge: write `name: kind`, `a -> b` for tokens or `a => b` for values";
            Trouble::at(line, format!("{text}, not `{}`", said.trim()))
        })?;
        let name = self.full_name(line, name)?;
        self.nodes.push(node(line, name, kind)?);
        Ok(())
    }

    /// A name that stands further in is of a pin, and the action above it stands before it.
    fn full_name(&self, line: usize, name: &str) -> Result<String, Trouble> {
        let short = checked_name(line, name)?;
        if !name.starts_with(char::is_whitespace) {
            return Ok(short);
        }
        match self.nodes.iter().rev().find(|node| !node.kind.is_pin()) {
            Some(node) if node.kind == Kind::Action => Ok(format!("{}.{short}", node.name)),
            _ => Err(Trouble::at(
                line,
                format!("`{short}` stands further in, as a pin does, but no action stands above it: begin its line at the margin"),
            )),
        }
    }
}

fn checked_name(line: usize, name: &str) -> Result<String, Trouble> {
    let name = name.split_whitespace().collect::<Vec<_>>().join(" ");
    if name.is_empty() {
        return Err(Trouble::at(line, "a name is missing: write `name: kind`, `a -> b` or `a => b`"));
    }
    match name.chars().find(|character| MARKS.contains(character) || character.is_control()) {
        Some(mark) => Err(Trouble::at(line, format!("`{name}` has a `{mark}` in it, which no name may have: leave it out"))),
        None => Ok(name),
    }
}

fn node(line: usize, name: String, said: &str) -> Result<SketchedNode, Trouble> {
    let (kind, values) = match said.split_once(',') {
        Some((kind, values)) => (kind.trim(), Some(values.trim())),
        None => (said.trim(), None),
    };
    let kind = kind_named(kind).ok_or_else(|| no_kind(line, &name, kind))?;
    let values = match values {
        _ if !kind.is_object_node() => no_values(line, &name, kind, values)?,
        Some(values) => stock(line, &name, kind, values)?,
        None => return Err(Trouble::at(line, format!("how many values may `{name}` hold? Write `{name}: {kind}, {}`", example(kind)))),
    };
    Ok(SketchedNode { line, name, kind, values })
}

/// By the paper's name, or `buffer` for a central buffer.
fn kind_named(name: &str) -> Option<Kind> {
    Kind::named(if name == "buffer" { "central buffer" } else { name })
}

fn no_kind(line: usize, name: &str, kind: &str) -> Trouble {
    let kinds: Vec<&str> = Kind::ALL.iter().map(|kind| kind.name()).collect();
    let meant = nearest(kind, kinds.iter().copied()).map_or(String::new(), |kind| format!(" Did you mean `{name}: {kind}`?"));
    Trouble::at(line, format!("`{kind}` is no kind of node; there are {}.{meant}", kinds.join(", ")))
}

fn no_values(line: usize, name: &str, kind: Kind, values: Option<&str>) -> Result<RangeInclusive<u8>, Trouble> {
    match values {
        None => Ok(0..=0),
        Some(values) => Err(Trouble::at(line, format!("`{name}` holds no values, as a kind that is `{kind}` never does: leave `, {values}` out"))),
    }
}

fn example(kind: Kind) -> &'static str {
    match kind {
        Kind::InputPin => "1` for just one, `1 to 2` or `up to 2",
        _ => "up to 8",
    }
}

/// `up to 8`; of an input pin `1` and `1 to 2` too, the fewest and the most with which its action begins.
fn stock(line: usize, name: &str, kind: Kind, said: &str) -> Result<RangeInclusive<u8>, Trouble> {
    let wrong = |why: String| Trouble::at(line, format!("`{name}` {why}: write `{}`", example(kind)));
    let number = |word: &str| word.trim().parse::<u8>().map_err(|_| wrong(format!("can't hold `{said}`")));
    let (lower, upper) = if let Some(upper) = said.strip_prefix("up to ") {
        (0, number(upper)?)
    } else if kind != Kind::InputPin {
        return Err(wrong(format!("can't hold `{said}`, as only an input pin says how many it needs")));
    } else if let Some((lower, upper)) = said.split_once(" to ") {
        (number(lower)?, number(upper)?)
    } else {
        (number(said)?, number(said)?)
    };
    if !(1..=MOST_VALUES).contains(&usize::from(upper)) {
        return Err(wrong(format!("can't hold up to {upper} values, but only up to 1 to {MOST_VALUES}")));
    }
    if lower > upper {
        return Err(wrong(format!("needs {lower} values and holds {upper} at most, so its action could never begin")));
    }
    Ok(lower..=upper)
}

fn edge(line: usize, kind: EdgeKind, source: &str, rest: &str) -> Result<SketchedEdge, Trouble> {
    let (target, terms) = match rest.split_once('[') {
        None => (rest, EdgeTerms::default()),
        Some((target, terms)) => {
            let terms = terms.trim_end().strip_suffix(']').ok_or_else(|| Trouble::at(line, "the bracket `[` isn't closed: end the line with `]`"))?;
            (target, edge_terms(line, kind, terms)?)
        }
    };
    if target.contains("->") || target.contains("=>") {
        return Err(Trouble::at(line, "there are two arrows: write one edge a line"));
    }
    Ok(SketchedEdge { line, kind, source: checked_name(line, source)?, target: checked_name(line, target)?, terms })
}

fn edge_terms(line: usize, kind: EdgeKind, said: &str) -> Result<EdgeTerms, Trouble> {
    let mut terms = EdgeTerms::default();
    for word in said.split(',').map(str::trim) {
        match word {
            "guarded" => terms.is_guarded = true,
            "closed" => (terms.is_guarded, terms.is_closed) = (true, true),
            _ => terms.bounds = Some(bounds(line, kind, word)?),
        }
    }
    Ok(terms)
}

/// `6 or more`, `up to 5`, `3 to 7` or `4`.
fn bounds(line: usize, kind: EdgeKind, said: &str) -> Result<RangeInclusive<u32>, Trouble> {
    let forms = "`guarded`, `closed`, `6 or more`, `up to 5`, `3 to 7` or `4`";
    let wrong = |why: &str| Trouble::at(line, format!("`[{said}]` {why}"));
    let number = |word: &str| word.trim().parse::<u32>().map_err(|_| wrong(&format!("says nothing that an edge can be told: write {forms}")));
    let values = if let Some(low) = said.strip_suffix(" or more") {
        number(low)?..=u32::MAX
    } else if let Some(high) = said.strip_prefix("up to ") {
        0..=number(high)?
    } else if let Some((low, high)) = said.split_once(" to ") {
        number(low)?..=number(high)?
    } else {
        number(said)?..=number(said)?
    };
    match kind {
        _ if values.is_empty() => Err(wrong("lets nothing over the edge: write the lower number first")),
        EdgeKind::Control => Err(wrong("is about values, and over `->` go tokens, which have none: draw `=>`, or write `[guarded]`")),
        EdgeKind::Object => Ok(values),
    }
}

/// The name that is most like this one, if one is much like it.
pub fn nearest<'a>(name: &str, names: impl Iterator<Item = &'a str>) -> Option<&'a str> {
    let most = 1 + name.chars().count() / 4;
    names.map(|other| (distance(name, other), other)).filter(|(distance, _)| *distance <= most).min().map(|(_, other)| other)
}

/// How many letters are to be changed, put in or left out.
fn distance(one: &str, other: &str) -> usize {
    let other: Vec<char> = other.to_lowercase().chars().collect();
    let mut row: Vec<usize> = (0..=other.len()).collect();
    for (above, letter) in (1..).zip(one.to_lowercase().chars()) {
        let mut diagonal = std::mem::replace(&mut row[0], above);
        for (at, with) in other.iter().enumerate() {
            let changed = diagonal + usize::from(letter != *with);
            diagonal = row[at + 1];
            row[at + 1] = changed.min(diagonal + 1).min(row[at] + 1);
        }
    }
    row[other.len()]
}
