//! The diagram and the page, as the program prints and writes them: everything is there, Graphviz takes it, names are safe, and the picture goes
//! with the day.

#[path = "../../examples/events/built.rs"]
mod built;
#[allow(dead_code)] // the other tests use the rest
#[path = "desk/common.rs"]
mod common;

use common::Folder;
use std::io::Write;
use std::path::Path;
use std::process::{Command, Stdio};

const DAY: &str = include_str!("../examples/day.txt");

/// What Graphviz draws of a text, in which it finds nothing to complain of. That it has no good font is none of ours.
#[track_caller]
fn svg(text: &str) -> String {
    let mut dot = Command::new("dot").arg("-Tsvg").stdin(Stdio::piped()).stdout(Stdio::piped()).stderr(Stdio::piped()).spawn().expect("graphviz");
    dot.stdin.take().expect("a pipe").write_all(text.as_bytes()).expect("all read");
    let drawn = dot.wait_with_output().expect("an end");
    let complaints = String::from_utf8(drawn.stderr).expect("text");
    assert!(drawn.status.success() && !["syntax", "unrecognized", "lost"].iter().any(|word| complaints.contains(word)), "{complaints}");
    String::from_utf8(drawn.stdout).expect("text")
}

/// The page as it is now, which is well-formed and fetches nothing.
#[track_caller]
fn page(folder: &Folder) -> String {
    assert_eq!(folder.told("page", ""), "day.html\n");
    let page = String::from_utf8(folder.read("day.html")).expect("text");
    assert_eq!(unbalanced(&page), None);
    for word in ["http://", "https://", "<script", "<link", "<img", "url("] {
        assert!(!page.contains(word), "{word}");
    }
    page
}

/// The first tag that isn't closed, or closes nothing.
fn unbalanced(page: &str) -> Option<String> {
    let mut open: Vec<&str> = Vec::new();
    for (begin, _) in page.match_indices('<').filter(|(begin, _)| !page[*begin..].starts_with("<!")) {
        let tag = page[begin + 1..].split('>').next().unwrap_or("");
        let name = tag.split_whitespace().next().unwrap_or("");
        match name.strip_prefix('/') {
            Some(closed) if open.last() == Some(&closed) => {
                open.pop();
            }
            Some(_) => return Some(tag.to_string()),
            None if tag.ends_with('/') || ["meta", "br"].contains(&name) => {}
            None => open.push(name),
        }
    }
    open.pop().map(String::from)
}

/// The line of Graphviz's text that draws this, a node or an edge.
#[track_caller]
fn line<'a>(text: &'a str, begins: &str) -> &'a str {
    text.lines().find(|line| line.trim_start().starts_with(begins)).unwrap_or_else(|| panic!("no {begins}"))
}

#[track_caller]
fn has(text: &str, parts: &[&str]) {
    for part in parts {
        assert!(text.contains(part), "no {part} in {text}");
    }
}

/// The day after both matches were called and one of them is over.
fn one_match_over(name: &str) -> Folder {
    let folder = Folder::with(name, DAY);
    folder.told("start", "entrants = 40 17 23 8 31");
    folder.told("take", "");
    folder.told("finish", "call the round");
    for _ in 0..4 {
        folder.told("take", "");
    }
    folder.told("finish", "match A: winner = 17, loser = 40");
    folder
}

#[test]
fn the_example_is_the_day_that_the_library_plays() {
    let folder = Folder::with("pictures example", DAY);
    folder.told("make", "");
    assert_eq!(folder.read("day.table"), built::day().expect("a table").table.as_bytes());
}

#[test]
fn every_node_is_drawn_once() {
    let folder = Folder::with("pictures nodes", DAY);
    folder.told("make", "");
    let text = folder.told("dot", "");
    let names = String::from_utf8(folder.read("day.names")).expect("text");
    for (number, name) in names.lines().enumerate() {
        match name.rsplit_once('.') {
            Some((action, pin)) => has(line(&text, &format!("\"{action}\" [")), &[&format!("<TD PORT=\"p{number}\" BGCOLOR=\"white\">{pin}</TD>")]),
            None => assert_eq!(text.lines().filter(|line| !line.contains(" -> ") && line.contains(&format!("\"{name}\" ["))).count(), 1, "{name}"),
        }
    }
    assert_eq!(names.lines().count(), 41);
}

#[test]
fn every_edge_is_drawn_in_its_order() {
    let folder = Folder::with("pictures edges", DAY);
    let text = folder.told("dot", "");
    let drawn: Vec<&str> = text.lines().filter(|line| line.contains(" -> ")).collect();
    let said: Vec<&str> = DAY.lines().filter(|line| line.contains("->") || line.contains("=>")).collect();
    assert_eq!(drawn.len(), said.len());
    let home = |name: &str| format!("\"{}\"", name.split(['.', '[']).next().unwrap_or("").trim());
    for (drawn, said) in drawn.iter().zip(said) {
        let (source, target) = said.split_once(" -> ").or_else(|| said.split_once(" => ")).expect("an arrow");
        assert!(drawn.trim_start().starts_with(&home(source)), "{said}: {drawn}");
        has(drawn, &[&format!(" -> {}", home(target)), if said.contains("=>") { "arrowhead=normal" } else { "arrowhead=vee" }]);
    }
    assert_eq!(svg(&text).matches("class=\"edge\"").count(), drawn.len());
}

#[test]
fn before_the_day_there_are_no_tokens_and_no_ends() {
    let folder = Folder::with("pictures before", DAY);
    let text = folder.told("dot", "");
    assert!(!["●", "★", ": 40", " of 8", "running"].iter().any(|sign| text.contains(sign)), "{text}");
    has(line(&text, "\"entrants\" ["), &["incoming", "up to 8"]);
    has(line(&text, "\"seating\" -> \"reserve\""), &["[closed]", "dashed"]);
    let page = page(&folder);
    has(&page, &["<h1>A day for four players and a reserve</h1>", "The day hasn&#39;t begun.", "<svg", "seat A1"]);
    assert!(!page.contains("<section>"));
}

#[test]
fn tokens_values_and_ends_are_drawn() {
    let folder = Folder::with("pictures start", DAY);
    folder.told("start", "entrants = 40 17 23 8 31");
    let text = folder.told("dot", "");
    has(line(&text, "\"entrants\" ["), &["5 of 8", "40 17 23 8 31"]);
    has(line(&text, "\"doors open\" -> \"call the round\""), &["●", "★ 4: token", "penwidth=3"]);
    has(line(&text, "\"seating\" -> \"seat A1\""), &["★ 0: 40", "penwidth=3"]);
    has(line(&text, "\"seating\" -> \"seat A2\""), &[">1: 40<", "#0a4fb3:white:#0a4fb3"]);
    assert!(!line(&text, "\"seating\" -> \"seat A2\"").contains('★'));
    has(&svg(&text), &["40 17 23 8 31", "★ 0: 40", "[closed]", "●"]);
    let page = page(&folder);
    has(&page, &["The engine would take ends 0, 4.", "<td><span class=\"end\">★ 0</span></td><td>40</td><td>from entrants, seating</td>"]);
    has(&page, &["<h2>Closed</h2>\n<ul>\n<li>seating =&gt; reserve</li>"]);
    has(&page, &["<dt>reserve</dt>\n<dd>nothing is on its way to it: <b>seating =&gt; reserve</b> is closed</dd>"]);
}

#[test]
fn what_runs_is_drawn() {
    let folder = one_match_over("pictures running");
    let text = folder.told("dot", "");
    has(line(&text, "\"match B\" ["), &["match B<BR/>running", "#ffb81c", "first<BR/><B>23</B>", "second<BR/><B>8</B>"]);
    has(line(&text, "\"match A\" ["), &["winner<BR/><B>17</B>", "loser<BR/><B>40</B>"]);
    assert!(!line(&text, "\"match A\" [").contains("running"));
    has(line(&text, "\"match A\":p13:s -> \"final\":p24:n"), &["4: 17"]);
    let page = page(&folder);
    has(&page, &["<li><b>match B</b>: first 23, second 8; when it is finished: winner, loser</li>"]);
    has(&page, &["<th rowspan=\"1\" scope=\"rowgroup\">final</th>", "<td>17 to first</td><td>from match A.winner</td>", "<p>Nobody yet.</p>"]);
}

#[test]
fn signs_are_drawn_above_all_lines() {
    let page = page(&one_match_over("pictures signs"));
    let edges = page.split("<g id=\"edge").skip(1).map(|edge| edge.split("</g>").next().unwrap_or(""));
    let has_sign: Vec<bool> = edges.map(|edge| edge.contains("<text")).collect();
    let bare = has_sign.iter().take_while(|has_sign| !**has_sign).count();
    assert!(bare > 0 && bare < has_sign.len() && has_sign[bare..].iter().all(|has_sign| *has_sign), "{has_sign:?}");
}

#[test]
fn the_picture_goes_with_the_day() {
    let folder = one_match_over("pictures end");
    let mut seen = vec![folder.told("dot", "")];
    let steps = ["finish match B: winner = 8, loser = 23", "open seating => reserve", "take", "finish call the finals", "take"];
    let finals = ["finish final: winner = 8, loser = 17", "finish third place: winner = 40, loser = 23", "take"];
    for step in steps.iter().chain(&finals) {
        let (command, rest) = step.split_once(' ').unwrap_or((step, ""));
        folder.told(command, rest);
        let text = folder.told("dot", "");
        assert!(!seen.contains(&text), "{step}");
        svg(&text);
        seen.push(text);
    }
    has(line(&seen[2], "\"seating\" -> \"reserve\""), &["[open]", "4: 31"]);
    has(line(&seen[8], "\"standings\" ["), &["outgoing", "4 of 4", "8 17 40 23"]);
    let page = page(&folder);
    has(&page, &["The day is over.", "<ol>\n<li>8</li>\n<li>17</li>\n<li>40</li>\n<li>23</li>\n</ol>"]);
    assert!(!page.contains("On offer"));
}

const ODD: &str = r#"# Tom & "Jerry" <b>isn't</b> \N closed
R&D's door: initial
\Nobody\: incoming parameter, up to 2
&lt;merge&gt;: merge
Žluťoučký `kůň|: action
  n: input pin, 1 to 2
  N: output pin, up to 3
`tick`: buffer, up to 1
名前: flow final

R&D's door -> Žluťoučký `kůň|
\Nobody\ => &lt;merge&gt;
&lt;merge&gt; => Žluťoučký `kůň|.n [6 or more, guarded]
Žluťoučký `kůň|.N => `tick`
Žluťoučký `kůň| -> 名前
"#;

#[test]
fn names_are_shown_as_they_are_written() {
    let folder = Folder::with("pictures names", ODD);
    folder.told("start", r"\Nobody\ = 7");
    let text = folder.told("dot", "");
    has(&text, &["[6 or more]", "[open]", "1 to 2", "up to 3", "×"]);
    let drawn = svg(&text);
    for name in ["R&amp;D&#39;s door", r">\Nobody\<", "&amp;lt;merge&amp;gt;", ">Žluťoučký `kůň|<", ">`tick`<", ">名前<", ">n<", ">N<"] {
        has(&drawn, &[name]);
    }
    let page = page(&folder);
    has(&page, &[r"<h1>Tom &amp; &quot;Jerry&quot; &lt;b&gt;isn&#39;t&lt;/b&gt; \N closed</h1>", "<dt>`tick`</dt>"]);
    has(&page, &["<td>from R&amp;D&#39;s door</td>", r"<td>from \Nobody\, &amp;lt;merge&amp;gt;</td>"]);
    has(&page, &["<dd>nothing is on its way to it: `Žluťoučký `kůň|.N` is empty</dd>"]);
}

const AGAIN: &str = "go: initial
again: merge
desk: action
never: action
  who: input pin, 1
go -> again
again -> desk
desk -> again
desk -> never
";

#[test]
fn several_tokens_are_counted() {
    let folder = Folder::with("pictures tokens", AGAIN);
    folder.told("start", "");
    for _ in 0..2 {
        folder.told("take", "");
        folder.told("finish", "desk");
    }
    let text = folder.told("dot", "");
    has(line(&text, "\"desk\" -> \"never\""), &["●</FONT>&#160;2<", ": token"]);
    has(line(&text, "\"desk\" -> \"again\""), &["●</FONT></TD>"]);
    has(&page(&folder), &["<h1>day</h1>", "● a token waits"]);
}

/// A drawing with a buffer and so many guarded ways out of it.
fn ways(count: usize) -> String {
    let finals: String = (0..count).map(|way| format!("way {way}: flow final\n")).collect();
    let edges: String = (0..count).map(|way| format!("which => way {way} [closed]\n")).collect();
    format!("from: incoming parameter, up to 1\nwhich: decision\n{finals}from => which\n{edges}")
}

#[test]
fn a_day_without_a_sheet_is_drawn_too() {
    let folder = Folder::with("pictures too many", &ways(21));
    folder.told("start", "from = 7");
    folder.write("day.guards", &[1; 22]);
    let text = folder.told("dot", "");
    has(line(&text, "\"from\" ["), &["1 of 1", "<B>7</B>"]);
    assert!(!text.contains("0: 7"));
    has(&page(&folder), &["Nothing can be taken now: too much is on offer at once"]);
}

#[test]
fn a_day_that_stands_still_says_so() {
    let folder = Folder::with("pictures still", &ways(2));
    folder.told("start", "from = 7");
    has(&page(&folder), &["The day stands still: nothing can be taken, and nothing runs.", "<li>which =&gt; way 1</li>"]);
}

#[test]
fn without_graphviz_the_page_says_what_to_install() {
    let folder = Folder::with("pictures no graphviz", DAY);
    let path = Path::new(env!("CARGO_TARGET_TMPDIR")).join("pictures no graphviz");
    let ran = Command::new(env!("CARGO_BIN_EXE_desk")).args(["page", "day.txt"]).env("PATH", "").current_dir(path).output().expect("the desk");
    let said = String::from_utf8(ran.stderr).expect("text");
    assert!(!ran.status.success() && ran.stdout.is_empty());
    has(&said, &["isn't installed here", "install the package graphviz", "`desk dot`"]);
    assert!(!folder.has("day.html"));
}
