//! docs/FORMATS.md says what the engine and the crate say: its examples are run, and its kinds, limits and refusals are those of the crate.

use keshmirun::*;
use std::fs::read_to_string;

fn page() -> String {
    read_to_string(concat!(env!("CARGO_MANIFEST_DIR"), "/../docs/FORMATS.md")).expect("docs/FORMATS.md")
}

/// The bytes of the block behind `<!-- WHAT small -->`: pairs of hex digits up to the first two spaces of each line.
fn bytes(what: &str) -> Vec<u8> {
    let page = page();
    let (_, rest) = page.split_once(&format!("<!-- {what} small -->\n```text\n")).expect(what);
    let (block, _) = rest.split_once("```").expect("the block's end");
    let pairs = block.lines().flat_map(|line| line.split("  ").next().unwrap_or("").split(' '));
    pairs.map(|pair| u8::from_str_radix(pair, 16).expect("a byte")).collect()
}

/// The cells of each row of the tables in this section.
fn rows(section: &str) -> Vec<Vec<String>> {
    let page = page();
    let (_, rest) = page.split_once(&format!("\n## {section}\n")).expect(section);
    let text = rest.split("\n## ").next().unwrap_or("");
    let rows = text.lines().filter_map(|line| line.strip_prefix("| ")?.strip_suffix('|'));
    rows.map(|row| row.split('|').map(|cell| cell.trim().to_string()).collect()).collect()
}

fn numbered(section: &str) -> Vec<(u8, Vec<String>)> {
    rows(section).into_iter().filter_map(|row| Some((row[0].parse().ok()?, row))).collect()
}

#[test]
fn the_round_trip() -> Result<(), Refusal> {
    let table = Table::new(bytes("table"))?;
    let started = table.start(&Values::new(bytes("values")))?;
    assert_eq!(started.as_bytes(), bytes("marking"));
    let marking = Marking::new(&table, bytes("marking"))?;
    let guards = Guards::new(&table, &bytes("guards"))?;
    let bounds = Bounds::new(&table, &bytes("bounds"))?;
    let sheet = table.sheet(&marking, guards.with(&bounds))?;
    assert_eq!(sheet.as_bytes(), bytes("sheet"));
    let choice = Choice::new(&bytes("choice"))?;
    assert_eq!(table.pick(&marking, guards.with(&bounds))?, choice);
    let next = table.step(&marking, guards.with(&bounds), &choice)?;
    assert_eq!(next.as_bytes(), bytes("next"));
    let finished = table.finish(&next, 5, &Values::NONE)?;
    assert_eq!(finished.as_bytes(), bytes("finished"));
    Ok(())
}

#[test]
fn kinds() {
    let named: Vec<(u8, String)> = numbered("Table").into_iter().map(|(number, row)| (number, row[1].clone())).collect();
    let kinds: Vec<(u8, String)> = Kind::ALL.iter().map(|kind| (kind.number(), kind.name().to_string())).collect();
    assert_eq!(named, kinds);
}

#[test]
fn limits() {
    let stated: Vec<String> = rows("Limits").into_iter().skip(1).map(|row| row[1].replace(',', "")).collect();
    let table = 5 + 4 * MOST_NODES + 4 * MOST_EDGES;
    let numbers =
        [MOST_NODES, MOST_EDGES, MOST_VALUES, MOST_VALUES, MOST_TOKENS, LONGEST_CHAIN, LONGEST_PATH, MOST_OFFERS, MOST_PATHS, MOST_ENDS, MOST_EDGES];
    let numbers = numbers.into_iter().chain([table, Room::MARKING, Room::SHEET, Room::CHOICE, 1]).map(|number| number.to_string());
    assert_eq!(stated, numbers.chain([format!("under {} KiB", Room::STACK / 1024)]).collect::<Vec<_>>());
}

#[test]
fn refusals() {
    let rows = numbered("Refusals");
    let order: Vec<u8> = rows.iter().map(|(number, _)| *number).collect();
    assert_eq!(order, [1, 2, 3, 4, 5, 6, 7, 18, 8, 9, 10, 11, 12, 13, 14, 15, 16, 17]);
    for (number, row) in rows {
        let place = match (Refusal { number, place: 0 }).at() {
            Place::None => "none",
            Place::Node(_) => "node",
            Place::Edge(_) => "edge",
            Place::End(_) => "end",
        };
        assert_eq!(row[2].split(',').next(), Some(place), "{number}");
    }
}

/// The answers of the calls that the page goes through, and of reasons.
#[test]
fn the_calls() {
    let (table, marking, guards, bounds) = (bytes("table"), bytes("marking"), bytes("guards"), bytes("bounds"));
    let terms = Terms::new(&guards).with_bounds(&bounds);
    let mut out = [0; Room::MARKING];
    assert_eq!(check(&table), Ok(()));
    assert_eq!(start(&table, &bytes("values"), &mut out), Ok(0x11));
    assert_eq!(sheet(&table, &marking, terms, &mut out), Ok(0x1c));
    assert_eq!(pick(&table, &marking, terms, NO_NODE, &mut out), Ok(1));
    assert_eq!(pick(&table, &marking, terms, 2, &mut out), Err(Refusal { number: 13, place: 2 }));
    assert_eq!(why(&table, &marking, terms, 2), Ok(Reason::NoEnd));
    assert_eq!(step(&table, &marking, terms, &[0, 1], &mut out), Err(Refusal { number: 10, place: 0 }));
    assert_eq!(step(&table, &marking, terms, &[0], &mut out), Ok(0x11));
    assert_eq!(finish(&table, &bytes("next"), 5, &[], &mut out), Ok(0x0d));
}
