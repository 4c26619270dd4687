//! A day as one HTML file that fetches nothing: the diagram, the sheet, what runs, what is in the way, the standings; for screen, phone and paper.
//!
//! Graphviz draws the diagram, so its `dot` must be installed where a page is made, and nowhere else.

use crate::day::Day;
use crate::dot::{dot, escaped};
use crate::drawing::Drawing;
use crate::trouble::Trouble;
use crate::words::{self, OfferedEnd};
use keshmirun::{Kind, Node, NodeId};
use std::io::{Error, ErrorKind, Write};
use std::process::{Command, Stdio};

/// The page of a day that goes by this name, unless it has a title.
pub fn page(day: &Day, name: &str) -> Result<String, Trouble> {
    let title = escaped(day.drawing.title.as_deref().unwrap_or(name));
    let figure = figure(&drawn(&dot(day)?)?);
    let lists = if day.marking.is_some() { lists(day)? } else { String::new() };
    let head = format!("<head>\n{META}<title>{title}</title>\n{STYLE}</head>\n");
    let header = format!("<header>\n<h1>{title}</h1>\n<p>{}</p>\n</header>\n", state(day));
    Ok(format!("<!DOCTYPE html>\n<html lang=\"en\">\n{head}<body>\n{header}<main>\n{figure}{lists}</main>\n</body>\n</html>\n"))
}

const META: &str = "<meta charset=\"utf-8\">\n<meta name=\"viewport\" content=\"width=device-width, initial-scale=1\">\n";

/// Colours as `dot` has them. The diagram stands beside the lists where there is room, and scrolls in a frame where there isn't; on paper it has a
/// page.
const STYLE: &str = r##"<style>
* { box-sizing: border-box; }
body { margin: 0 auto; max-width: 110rem; padding: 1rem; font: 16px/1.4 Helvetica, Arial, sans-serif; color: #222; background: #fff; }
h1 { margin: 0; font-size: 1.5rem; }
h2 { margin: 0 0 .4rem; font-size: 1.15rem; border-bottom: 2px solid #222; }
h3 { margin: 0; font-size: 1rem; }
header p { margin: .3rem 0 1rem; font-size: 1.1rem; }
main { display: flex; flex-wrap: wrap; gap: 1.5rem; }
figure { margin: 0; flex: 3 1 auto; min-width: 0; max-width: 100%; }
figure > div { overflow-x: auto; }
figure svg { display: block; margin: 0 auto; max-width: 100%; height: auto; }
figcaption { display: flex; flex-wrap: wrap; gap: .2rem 1.2rem; margin-top: .6rem; font-size: .85rem; color: #444; }
figcaption i { display: inline-block; width: 1.8rem; margin-right: .4rem; vertical-align: middle; border-top: 1px solid #222; }
figcaption .values { border-top: 4px double #222; }
figcaption .closed { border-top: 2px dashed #b00020; }
figcaption .running { width: 1.1rem; height: 1.1rem; border: 3px solid #222; border-radius: .35rem; background: #ffb81c; }
.end { display: inline-block; padding: 0 .35rem; border: 1px solid #0a4fb3; color: #0a4fb3; background: #fff; font-weight: bold; white-space: nowrap }
.picked .end { color: #fff; background: #0a4fb3; }
.running, .end { -webkit-print-color-adjust: exact; print-color-adjust: exact; }
.lists { flex: 2 1 24rem; min-width: 0; max-width: 100%; columns: 26rem; column-gap: 2rem; }
section { margin-bottom: 1.4rem; }
tbody, dd, li { break-inside: avoid; }
h2, h3, dt { break-after: avoid; }
section p, dd { margin: 0 0 .4rem; }
table { width: 100%; border-collapse: collapse; }
th, td { padding: .2rem .5rem .2rem 0; text-align: left; vertical-align: top; overflow-wrap: break-word; }
td:last-child, dt, dd, li { overflow-wrap: anywhere; }
tbody { border-bottom: 1px solid #aaa; }
.picked td:nth-last-child(2) { font-weight: bold; }
dt { font-weight: bold; }
dl, ul, ol { margin: 0; }
ul, ol { padding-left: 1.6rem; }
ol { font-size: 1.15rem; }
@media print {
  body { padding: 0; font-size: 11pt; }
  main { display: block; }
  figure > div { overflow: visible; }
  figure svg { max-height: 215mm; min-width: 0 !important; }
  .lists { break-before: page; }
}
</style>
"##;

/// What the signs mean.
const KEY: &str = "<figcaption>
<span><i></i>tokens go here</span>
<span><i class=\"values\"></i>values go here</span>
<span>● a token waits</span>
<span><i class=\"running\"></i>running</span>
<span><b class=\"end\">1: 40</b> end 1 would bring 40</span>
<span class=\"picked\"><b class=\"end\">★ 1: 40</b> and the engine would take it</span>
<span><i class=\"closed\"></i>[closed]: nothing goes here now</span>
</figcaption>
";

// ---- the diagram

/// What Graphviz draws.
fn drawn(text: &str) -> Result<String, Trouble> {
    let mut child = Command::new("dot").arg("-Tsvg").stdin(Stdio::piped()).stdout(Stdio::piped()).stderr(Stdio::piped()).spawn().map_err(not_run)?;
    if let Some(mut stdin) = child.stdin.take() {
        // it reads all before it draws, so neither waits for the other; where it stops before that, it says why
        let _ = stdin.write_all(text.as_bytes());
    }
    let output = child.wait_with_output().map_err(not_run)?;
    match String::from_utf8(output.stdout) {
        Ok(svg) if output.status.success() => Ok(svg),
        _ => Err(Trouble::new(format!("Graphviz's `dot` can't draw this: {}", String::from_utf8_lossy(&output.stderr).trim()))),
    }
}

fn not_run(error: Error) -> Trouble {
    let what = "the page is drawn by Graphviz's `dot`";
    match error.kind() {
        ErrorKind::NotFound => {
            Trouble::new(format!("{what}, which isn't installed here: install the package graphviz, or take what `desk dot` prints to where it is"))
        }
        _ => Trouble::new(format!("{what}, which doesn't run: {error}")),
    }
}

/// The drawing as it stands within HTML: without what comes before it and the names of its spaces, which HTML knows; the signs on top.
fn figure(svg: &str) -> String {
    let svg = svg.find("<svg").map_or("", |begin| &svg[begin..]);
    let svg = svg.replace(" xmlns=\"http://www.w3.org/2000/svg\"", "").replace(" xmlns:xlink=\"http://www.w3.org/1999/xlink\"", "");
    let points = width(&svg).unwrap_or(0.0);
    let (beside, least) = (points * BESIDE_LISTS, points * LEAST);
    let svg = lifted(&svg.replacen("<svg", &format!("<svg style=\"min-width: {least:.0}pt\""), 1));
    format!("<figure style=\"flex-basis: {beside:.0}pt\">\n<div>\n{svg}</div>\n{KEY}</figure>\n")
}

/// How much of its width the drawing has where the lists stand beside it; where there is less, they stand below.
const BESIDE_LISTS: f64 = 0.7;

/// How much of its width it always has, and scrolls where there is less: smaller letters can't be read.
const LEAST: f64 = 0.6;

/// How wide Graphviz drew it, in points.
fn width(svg: &str) -> Option<f64> {
    let (_, behind) = svg.split_once(" width=\"")?;
    behind.split_once("pt\"")?.0.parse().ok()
}

const EDGE: &str = "<g id=\"edge";
const GROUP_ENDS: &str = "</g>\n";

/// With the edges that have signs drawn last, so that no other line goes over a sign.
fn lifted(svg: &str) -> String {
    let (mut others, mut signed, mut rest) = (String::new(), String::new(), svg);
    while let Some((before, after)) = rest.find(EDGE).map(|begin| rest.split_at(begin)) {
        let (edge, behind) = after.split_at(after.find(GROUP_ENDS).map_or(after.len(), |end| end + GROUP_ENDS.len()));
        others += before;
        if edge.contains("<text") {
            signed += edge;
        } else {
            others += edge;
        }
        rest = behind;
    }
    // what is left is drawn after the edges, or ends the whole
    others + &signed + rest
}

// ---- the lists

/// How the day stands.
fn state(day: &Day) -> String {
    if day.marking.is_none() {
        return escaped("The day hasn't begun.");
    }
    if day.has_ended() {
        return String::from("The day is over.");
    }
    let ends = match words::ends(day) {
        Ok(ends) => ends,
        Err(trouble) => return format!("Nothing can be taken now: {}.", named(&trouble.to_string())),
    };
    let picked: Vec<String> = ends.iter().filter(|end| end.is_picked).map(|end| end.number.to_string()).collect();
    let is_running = day.running().map_or(false, |running| !running.is_empty());
    match (&picked[..], is_running) {
        ([], true) => String::from("The day is under way. Nothing can be taken until something that runs is finished, or a guard is opened."),
        ([], false) => String::from("The day stands still: nothing can be taken, and nothing runs. Open a guard, or see below what is in the way."),
        ([end], _) => format!("The day is under way. The engine would take end {end}."),
        (ends, _) => format!("The day is under way. The engine would take ends {}.", ends.join(", ")),
    }
}

/// All lists of a day that has begun. When it is over, there are its standings alone.
fn lists(day: &Day) -> Result<String, Trouble> {
    let standings = section("Standings", &standings(day)?);
    if day.has_ended() {
        return Ok(format!("<div class=\"lists\">\n{standings}</div>\n"));
    }
    // where the engine refuses a sheet, the state says why
    let offered = words::ends(day).map_or(String::new(), |ends| section("On offer", &on_offer(day, &ends)));
    let why = in_the_way(day).map_or(String::new(), |reasons| section("What is in the way", &reasons));
    let (running, closed) = (section("Running", &running(day)?), section("Closed", &closed(day)));
    Ok(format!("<div class=\"lists\">\n{running}{offered}{closed}{why}{standings}</div>\n"))
}

/// A heading and what is below it; nothing if that is nothing.
fn section(heading: &str, text: &str) -> String {
    if text.is_empty() {
        String::new()
    } else {
        format!("<section>\n<h2>{heading}</h2>\n{text}</section>\n")
    }
}

/// Items between tags of a list; nothing if there are none.
fn list(tag: &str, items: String) -> String {
    if items.is_empty() {
        items
    } else {
        format!("<{tag}>\n{items}</{tag}>\n")
    }
}

/// The sheet, by destination.
fn on_offer(day: &Day, ends: &[OfferedEnd]) -> String {
    let home = |end: &OfferedEnd| day.drawing.table.node(end.target).map_or(end.target, |node| node.home());
    let mut homes: Vec<NodeId> = Vec::new();
    for end in ends {
        if !homes.contains(&home(end)) {
            homes.push(home(end));
        }
    }
    let of = |place: &NodeId| ends.iter().filter(|end| home(end) == *place).collect::<Vec<_>>();
    list("table", homes.iter().map(|home| destination(&day.drawing, *home, &of(home))).collect())
}

/// A row for each of a destination's ends, with its name before the first.
fn destination(drawing: &Drawing, home: NodeId, ends: &[&OfferedEnd]) -> String {
    let name = format!("<th rowspan=\"{}\" scope=\"rowgroup\">{}</th>", ends.len(), escaped(drawing.name(home)));
    let names = std::iter::once(name.as_str()).chain(std::iter::repeat(""));
    let class = |end: &OfferedEnd| if end.is_picked { " class=\"picked\"" } else { "" };
    let rows: String = ends.iter().zip(names).map(|(end, name)| format!("<tr{}>{name}{}</tr>\n", class(end), cells(drawing, end))).collect();
    format!("<tbody>\n{rows}</tbody>\n")
}

fn cells(drawing: &Drawing, end: &OfferedEnd) -> String {
    let star = if end.is_picked { "★ " } else { "" };
    let pin = drawing.table.node(end.target).filter(|node| node.kind().is_pin());
    let to = pin.map_or(String::new(), |pin| format!(" to {}", drawing.short_name(&pin)));
    let ways: Vec<String> = end.ways.iter().map(|way| escaped(way)).collect();
    let what = escaped(&format!("{}{to}", end.what));
    format!("<td><span class=\"end\">{star}{}</span></td><td>{what}</td><td>from {}</td>", end.number, ways.join("<br>and "))
}

/// What runs, with what it began and what it brings.
fn running(day: &Day) -> Result<String, Trouble> {
    let contents = day.contents()?;
    let with = |pin: Node<'_>| {
        let values = contents.values(pin.id()).map(|value| format!(" {value}"));
        values.fold(day.drawing.short_name(&pin).to_string(), |text, value| text + &value)
    };
    let item = |action: Node<'_>| {
        let begun = said(": ", action.input_pins().map(with).collect());
        let brings = said("; when it is finished: ", action.output_pins().map(|pin| day.drawing.short_name(&pin).to_string()).collect());
        format!("<li><b>{}</b>{}</li>\n", escaped(day.drawing.name(action.id())), escaped(&format!("{begun}{brings}")))
    };
    Ok(list("ul", day.drawing.of_kind(Kind::Action).filter(|action| contents.is_running(action.id())).map(item).collect()))
}

/// What is there, behind these words; nothing if nothing is.
fn said(words: &str, what: Vec<String>) -> String {
    if what.is_empty() {
        String::new()
    } else {
        format!("{words}{}", what.join(", "))
    }
}

/// The edges whose guards bar them.
fn closed(day: &Day) -> String {
    let edges = day.drawing.table.edges().filter(|edge| !day.guards.is_open(edge.id()));
    list("ul", edges.map(|edge| format!("<li>{}</li>\n", escaped(&day.drawing.edge_name(edge.id())))).collect())
}

/// Why each destination that doesn't run can't be served; a pin's reason is told with its action's.
fn in_the_way(day: &Day) -> Result<String, Trouble> {
    let contents = day.contents()?;
    let is_asked = |node: &Node<'_>| words::is_destination(node) && !node.kind().is_pin() && !contents.is_running(node.id());
    let mut reasons = Vec::new();
    for node in day.drawing.table.nodes().filter(is_asked) {
        if let Some(why) = words::why(day, node.id())? {
            reasons.push(format!("<dt>{}</dt>\n<dd>{}</dd>\n", escaped(day.drawing.name(node.id())), named(&why)));
        }
    }
    Ok(list("dl", reasons.concat()))
}

/// Text whose names stand between backticks, with the names set off; as it stands where they don't come in pairs, since a name has one.
fn named(text: &str) -> String {
    let parts: Vec<String> = text.split('`').map(escaped).collect();
    if parts.len() % 2 == 0 {
        return escaped(text);
    }
    parts.iter().enumerate().map(|(place, part)| if place % 2 == 1 { format!("<b>{part}</b>") } else { part.clone() }).collect()
}

/// What each outgoing parameter holds, place by place; with its name where there are several.
fn standings(day: &Day) -> Result<String, Trouble> {
    let all = words::standings(day)?;
    let name = |node: NodeId| if all.len() > 1 { format!("<h3>{}</h3>\n", escaped(day.drawing.name(node))) } else { String::new() };
    Ok(all.iter().map(|(node, values)| name(*node) + &places(values)).collect())
}

fn places(values: &[u32]) -> String {
    if values.is_empty() {
        String::from("<p>Nobody yet.</p>\n")
    } else {
        list("ol", values.iter().map(|value| format!("<li>{value}</li>\n")).collect())
    }
}
