//! docs/DRAWING.md: each drawing is made, each day is played, and the page shows just what the desk prints; the pictures show the drawings.

use crate::common::Folder;
use std::fs;
use std::path::{Path, PathBuf};

fn docs() -> PathBuf {
    Path::new(env!("CARGO_MANIFEST_DIR")).join("../../docs")
}

/// The text blocks of the page that stand behind `<!-- WHAT NAME -->`, by name.
fn blocks(what: &str) -> Vec<(String, String)> {
    let page = fs::read_to_string(docs().join("DRAWING.md")).expect("docs/DRAWING.md");
    let mark = format!("<!-- {what}");
    let parts = page.split(&mark).skip(1).map(|part| {
        let (name, rest) = part.split_once(" -->\n").expect("a name");
        let block = rest.strip_prefix("```text\n").and_then(|rest| rest.split_once("```\n")).expect("a block behind its name");
        (name.trim().to_string(), block.0.to_string())
    });
    parts.collect()
}

/// What shows how a day is written is a day.
#[test]
fn how_it_is_written() {
    let blocks = blocks("written");
    assert_eq!(blocks.len(), 1);
    assert_eq!(Folder::with("how_written", &blocks[0].1).told("make", ""), "day.table: 9 nodes, 6 edges\n");
}

#[test]
fn each_is_made_and_played() {
    let (drawings, plays) = (blocks("drawing"), blocks("played"));
    let names: Vec<&str> = drawings.iter().map(|(name, _)| name.as_str()).collect();
    assert_eq!(names, ["seats", "trap", "pairing", "cut", "late", "standings"]);
    assert_eq!(names, plays.iter().map(|(name, _)| name.as_str()).collect::<Vec<_>>());
    for ((name, drawing), (_, played)) in drawings.iter().zip(&plays) {
        let folder = Folder::with(&format!("drawing_{name}"), drawing);
        let script: String = played.lines().filter_map(|line| line.strip_prefix("> ")).map(|line| format!("{line}\n")).collect();
        folder.write("script", script.as_bytes());
        let made = folder.told("make", "");
        assert_eq!(made.contains("note: "), name == "trap", "{made}");
        assert_eq!(folder.told("play", "script"), *played, "{name}");
    }
}

/// A picture of each, in which every name stands.
#[test]
fn each_is_drawn() {
    for (name, drawing) in blocks("drawing") {
        let picture = fs::read_to_string(docs().join(format!("drawings/{name}.svg"))).expect("a picture");
        let nodes = drawing.lines().filter(|line| !line.starts_with('#')).filter_map(|line| line.split_once(':')).map(|(node, _)| node.trim());
        for node in nodes {
            assert!(node.split(' ').all(|word| picture.contains(word)), "{name}: {node}");
        }
    }
}
