//! What README.md shows of an app, run on a small day, and its lines over plain slices, on the paper's small event. They stand here as they stand there.

use crate::events;
use std::fs::read_to_string;

use keshmirun::{Marking, NodeId, Refusal, Table, Values};

fn game_over(table: &[u8], stored: &[u8], game: NodeId, winner: u32) -> Result<Vec<u8>, Refusal> {
    let table = Table::new(table)?; // a refusal has number, place and meaning; `refusal.at()` says node, edge or end
    let marking = Marking::new(&table, stored)?;
    let marking = table.finish(&marking, game, &Values::of([[winner]]))?; // a list for each output pin

    let guards = table.guards(); // all open; `guards.close(edge)?` closes one, `guards.with(&bounds)` says which values go over edges
    for end in table.sheet(&marking, &guards)?.ends() {
        println!("{}: {:?} for node {}", end.id(), end.value(), end.target());
    }
    let choice = table.pick(&marking, &guards)?; // or `pick_for` a node, or what the judge takes: `Choice::of([0, 2])?`
    let next = table.step(&marking, &guards, &choice)?;
    if choice.is_empty() {
        println!("{}", table.why(&next, &guards, game)?); // prints as a sentence
    }
    Ok(next.into_bytes())
}

/// Two players play, and the winner goes to the standings, where there is room for one.
#[test]
fn the_winner_is_listed() -> Result<(), Refusal> {
    let mut draw = keshmirun::Builder::new();
    let (entrants, game, standings) = (draw.incoming_parameter(4), draw.action(), draw.outgoing_parameter(1));
    let (players, winner) = (draw.input_pin(game, 1..=1), draw.output_pin(game, 2));
    draw.object(entrants, players);
    draw.object(winner, standings);
    let table = draw.table()?;
    let begun = table.start(&Values::of([[40, 17]]))?;
    let mut stored = table.step(&begun, &table.guards(), &table.pick(&begun, &table.guards())?)?.into_bytes();
    for (won, listed) in [(17, vec![17]), (40, vec![17])] {
        stored = game_over(table.as_bytes(), &stored, game, won)?;
        let marking = Marking::new(&table, &stored)?;
        assert_eq!(table.contents(&marking)?.values(standings).collect::<Vec<_>>(), listed);
    }
    Ok(())
}

#[test]
fn the_same_lines() {
    let readme = include_str!("../../../README.md");
    let (_, rest) = readme.split_once("```rust\n").expect("lines of Rust");
    let (lines, _) = rest.split_once("```").expect("their end");
    assert!(lines.lines().count() > 15 && include_str!("readme.rs").contains(lines), "{lines}");
}

// ---- over plain slices

/// What an app has when it comes to these lines: the table, what it starts with, and what it is asked.
#[allow(unused_variables, clippy::let_and_return)]
fn readme(table: Vec<u8>, entrants: Vec<u8>, guards: [u8; 5], node: u8, action: u8, results: Vec<u8>) -> Result<usize, Refusal> {
    use keshmirun::{Room, Terms};

    let mut marking = [0; Room::MARKING];
    let length = keshmirun::start(&table, &entrants, &mut marking)?;
    let marking = &marking[..length];

    let mut sheet = [0; Room::SHEET];
    let bounds = keshmirun::bounds_list(&[(3, 6..=u32::MAX)]);
    let terms = Terms::new(&guards).with_bounds(&bounds);
    let length = keshmirun::sheet(&table, marking, terms, &mut sheet)?;
    let mut choice = [0; Room::CHOICE];
    let taken = keshmirun::pick(&table, marking, terms, keshmirun::NO_NODE, &mut choice)?;
    let reason = keshmirun::why(&table, marking, terms, node)?;
    let mut next = [0; Room::MARKING];
    let length = keshmirun::step(&table, marking, terms, &choice[..taken], &mut next)?;
    let mut after = [0; Room::MARKING];
    let length = keshmirun::finish(&table, &next[..length], action, &results, &mut after)?;

    Ok(length)
}

#[test]
fn the_lines() {
    assert_eq!(readme(events::small().table, events::list(&[7, 9]), [1; 5], 6, 5, Vec::new()), Ok(13));
    let code = |text: &str| text.split("  //").next().unwrap_or("").trim().to_string();
    let read = |path: &str| read_to_string(path).expect(path);
    let here = read(concat!(env!("CARGO_MANIFEST_DIR"), "/tests/keshmirun/readme.rs"));
    let there = read(concat!(env!("CARGO_MANIFEST_DIR"), "/../README.md"));
    let begins = |line: &&str| line.trim() == "use keshmirun::{Room, Terms};";
    let compiled: Vec<String> = here.lines().skip_while(|line| !begins(line)).take_while(|line| !line.contains("Ok(length)")).map(code).collect();
    let shown: Vec<String> = there.lines().skip_while(|line| !begins(line)).take_while(|line| !line.starts_with('`')).map(code).collect();
    assert_eq!(compiled, shown);
    assert_eq!(compiled.len(), 18);
}
