//! Days at the desk: what each command does and says, that the files are those that any program over Keshmirun reads, and what is said of what can't be done.

use crate::common::Folder;
use keshmirun::{Bounds, Guards, Marking, Table, Terms};

const GAME: &str = "# A game
entrants: incoming parameter, up to 8
seating: decision
seat 1: buffer, up to 1
seat 2: buffer, up to 1
game: action
  first: input pin, 1
  second: input pin, 1
  winner: output pin, up to 1
  loser: output pin, up to 1
standings: outgoing parameter, up to 2

entrants => seating
seating => seat 1
seating => seat 2 [closed]
seat 1 => game.first
seat 2 => game.second
game.winner => standings [40 or more]
game.loser => standings
";

/// With both players seated, and the game running.
fn running(name: &str) -> Folder {
    let folder = Folder::with(name, GAME);
    folder.told("start", "entrants = 40 17 23");
    folder.told("take", "");
    folder.told("open", "2");
    folder.told("take", "for seat 2");
    folder.told("take", "for game");
    folder
}

#[test]
fn the_files_are_the_engines() {
    let folder = running("files");
    folder.told("make", "");
    let (table, marking, guards, bounds) =
        (folder.read("day.table"), folder.read("day.marking"), folder.read("day.guards"), folder.read("day.bounds"));
    let table = Table::new(&table).unwrap();
    let marking = Marking::new(&table, &marking).unwrap();
    let guards = Guards::new(&table, &guards).unwrap();
    let bounds = Bounds::new(&table, &bounds).unwrap();
    assert!(table.contents(&marking).unwrap().is_running(4));
    assert!(guards.is_open(2));
    assert_eq!(bounds.of(5), Some(40..=u32::MAX));
    let sheet = table.sheet(&marking, Terms::from(&guards).with_bounds(bounds.as_bytes())).unwrap();
    assert_eq!(sheet.ends().len(), 2);
}

#[test]
fn each_command() {
    let folder = Folder::with("each", GAME);
    let started = "held\n  entrants  40 17 23\nends\n*  0  seat 1  40  from entrants, seating\npick 0\n";
    assert_eq!(folder.told("start", "entrants = 40 17, 23"), started);
    assert_eq!(folder.told("show", ""), started);
    assert_eq!(folder.told("pick", ""), "pick 0\n");
    assert_eq!(folder.told("pick", "seat 1"), "pick 0\n");
    let seated =
        "held\n  entrants  17 23\n  seat 1    40\nends\n   0  seat 1      17  from entrants, seating\n   1  game.first  40  from seat 1\npick -\n";
    assert_eq!(folder.told("take", "0"), seated);
    let why = "seat 1: what is offered to it doesn't satisfy its own rule: it holds 1 of 1\n\
               seat 2: nothing is on its way to it: `seating => seat 2` is closed\n\
               game: what is offered to it doesn't satisfy its own rule: `second` needs 1 and is offered 0\n\
               game.second: nothing is on its way to it: `seat 2` is empty\n\
               standings: nothing is on its way to it: `game.winner` is empty; `game.loser` is empty\n";
    assert_eq!(folder.told("why", ""), why);
    assert_eq!(folder.told("why", "seat 2"), why.lines().nth(1).unwrap().to_string() + "\n");
    assert_eq!(folder.told("why", "seating"), "seating: nothing is served there, as it is of kind `decision`\n");
    let opened = folder.told("open", "seating => seat 2");
    assert!(opened.contains("*  1  seat 2      17  from entrants, seating\n"), "{opened}");
    assert_eq!(folder.told("why", "seat 2"), "seat 2: it can be served, `take for seat 2` does so\n");
    assert_eq!(folder.told("close", "2"), seated);
    folder.told("open", "2");
    folder.told("take", "");
    let playing = folder.told("take", "for game");
    assert!(playing.starts_with("held\n  entrants  23\nrunning\n  game  40 17\nends\n"), "{playing}");
    assert_eq!(folder.told("standings", ""), "standings\n  nobody yet\n");
    let over = folder.told("finish", "game: winner = 17, loser = 40");
    assert!(over.starts_with("held\n  entrants     23\n  game.winner  17\n  game.loser   40\nends\n"), "{over}");
    assert_eq!(folder.told("why", "game"), "game: nothing is on its way to it: `seat 1` is empty; `seat 2` is empty\n");
    folder.told("take", "for standings");
    assert_eq!(folder.told("standings", ""), "standings\n  1. 40\n");
    let barred = "standings: nothing is on its way to it: 17, the oldest in `game.winner`, may not go over `game.winner => standings [40 or more]`; `game.loser` is empty\n";
    assert_eq!(folder.told("why", "standings"), barred);
}

#[test]
fn what_cannot_be_done() {
    let folder = Folder::with("cannot", GAME);
    let begin = "desk: the day hasn't begun: begin it with `start entrants = 1 2 3`\n";
    for (command, rest) in [("show", ""), ("why", ""), ("pick", ""), ("take", ""), ("standings", ""), ("open", "2"), ("finish", "game")] {
        assert_eq!(folder.refused(command, rest), begin, "{command}");
    }
    let refused = |command: &str, rest: &str| folder.refused(command, rest);
    assert_eq!(refused("start", "entrants 40"), "desk: `entrants 40` names no values: write `NAME = 1 2 3, NAME = 4`\n");
    assert_eq!(
        refused("start", "entrants = many"),
        "desk: `many` is no value: values are whole numbers up to 4294967295, with spaces between them\n"
    );
    assert_eq!(refused("start", "seat 1 = 4"), "desk: `seat 1` is not an incoming parameter: there is `entrants`\n");
    assert_eq!(refused("start", "entrants = 1 2 3 4 5 6 7 8 9"), "desk: `entrants` holds 8 values at most, and these are 9: leave some out\n");
    assert_eq!(refused("start", "entrants = 1, entrants = 2"), "desk: `entrants` is named twice: put its values into one list\n");
    folder.told("start", "entrants = 40 17 23");
    assert_eq!(refused("take", "1"), "desk: there is no such end: `show` lists those there are\n");
    assert_eq!(refused("take", "20"), "desk: there is no such end: `show` lists those there are\n");
    assert_eq!(refused("take", "seat"), "desk: `seat` is no end: name ends by their numbers, as `take 0 2`, or a node, as `take for NODE`\n");
    assert_eq!(refused("take", "for game"), "desk: nothing that may be taken serves `game`: `why game` says what is in the way\n");
    assert_eq!(refused("take", "for gamme"), "desk: there is no node `gamme`; did you mean `game`?\n");
    assert_eq!(refused("finish", "game"), "desk: `game` isn't running, so it can't be finished; nothing is\n");
    let which = "desk: which action? Write `finish ACTION`, and what it brings behind a colon: `finish match A: winner = 8`\n";
    assert_eq!(refused("finish", ""), which);
    assert_eq!(refused("close", "0"), "desk: `entrants => seating` has no guard: draw it as `entrants => seating [guarded]`\n");
    let no_edge = "desk: there is no edge `a => b`: write it as it is drawn, `a -> b` or `a => b` (in a shell within quotes), or its number\n";
    assert_eq!(refused("open", "a => b"), no_edge);
    assert!(refused("jump", "").starts_with("desk: there is no command `jump`; there are\n  start "));
    folder.told("take", "");
    assert_eq!(refused("take", ""), "desk: nothing can be taken now: finish something that runs, open a guard, or ask `why`\n");
    assert_eq!(refused("take", "0"), "desk: `seat 1` has no room for so many: it holds 1 at most\n");
    let begins =
        "desk: `game` doesn't begin with these: it must be idle, with a token from each `->` to it and on each pin as many values as it needs\n";
    assert_eq!(refused("take", "1"), begins);
    folder.told("open", "2");
    assert_eq!(refused("take", "0 1"), "desk: end 0 competes with another of these ends, as both need the same thing: take one of them alone\n");
}

#[test]
fn what_a_running_game_refuses() {
    let folder = running("running");
    assert_eq!(folder.refused("finish", "game: third = 4"), "desk: `third` is not an output pin of `game`: there is `winner`, `loser`\n");
    assert_eq!(folder.refused("finish", "game: winner = 4 5"), "desk: `winner` holds 1 values at most, and these are 2: leave some out\n");
    assert_eq!(folder.refused("finish", "seat 1"), "desk: `seat 1` isn't running, so it can't be finished; running: `game`\n");
    folder.told("finish", "game: winner = 40");
}

/// A file that was cut, or is of another drawing, is said, and nothing is written over it.
#[test]
fn files_of_another_day() {
    let folder = running("another");
    let marking = folder.read("day.marking");
    folder.write("day.marking", &marking[..marking.len() - 1]);
    let said = "desk: day.marking is not of this drawing: it was cut, or the description was changed since; `desk start` begins the day anew\n";
    for command in ["show", "take", "dot", "page"] {
        assert_eq!(folder.refused(command, ""), said);
    }
    assert_eq!(folder.read("day.marking"), marking[..marking.len() - 1]);
    folder.write("day.marking", &marking);
    folder.write("day.guards", &[1, 1, 1, 1, 1, 1, 0]);
    assert_eq!(folder.refused("show", ""), said.replace("day.marking", "day.guards"));
    folder.told("start", "entrants = 1");
    folder.told("show", "");
    assert!(!folder.has("day.marking.new") && !folder.has("day.guards.new"));
}

#[test]
fn played() {
    let folder = Folder::with("played", GAME);
    folder.write("script", b"start entrants = 40 17\ntake\n\nnonsense\nback\nback\nback\nstart entrants = 8\ntake\nquit\ntake\n");
    let said = folder.desk("play", "script").out;
    let begins: Vec<&str> = said.lines().filter(|line| line.starts_with("> ")).collect();
    assert_eq!(
        begins,
        ["> start entrants = 40 17", "> take", "> ", "> nonsense", "> back", "> back", "> back", "> start entrants = 8", "> take", "> quit"]
    );
    assert!(said.contains("> back\nthe day hasn't begun: begin it with `start entrants = 1 2 3`\n> back\nthere is nothing to take back\n"), "{said}");
    // what was played is kept
    assert_eq!(folder.told("show", ""), "held\n  seat 1  8\nends\n   0  game.first  8  from seat 1\npick -\n");
}

/// Five players may each take any of five seats: 25 ends. The day goes on all the same, and a guard that is closed brings them back.
#[test]
fn too_much_on_offer() {
    let lists: String = (0..5).map(|list| format!("list {list}: incoming parameter, up to 1\n")).collect();
    let seats: String = (0..5).map(|seat| format!("seat {seat}: buffer, up to 5\n")).collect();
    let ways: String = (0..25).map(|way| format!("list {} => seat {} [guarded]\n", way / 5, way % 5)).collect();
    let folder = Folder::with("too_much", &(lists + &seats + &ways));
    let values: Vec<String> = (0..5).map(|list| format!("list {list} = {list}")).collect();
    let too_much = "too much is on offer at once: more than 64 offers, 8 paths to one end or 20 ends; close a guard, or draw fewer ways\n";
    assert_eq!(folder.told("start", &values.join(", ")), too_much);
    assert_eq!(folder.refused("show", ""), format!("desk: {too_much}"));
    (0..4).for_each(|way| assert_eq!(folder.told("close", &way.to_string()), too_much));
    assert!(folder.told("close", "4").ends_with("pick 0,1,2,3\n"), "20 ends");
    folder.told("take", "");
}

#[test]
fn an_ended_day() {
    let folder = Folder::with("ended", "doors: initial\nend: activity final\nall: outgoing parameter, up to 1\ndoors -> end\n");
    folder.told("start", "");
    assert_eq!(folder.told("take", ""), "the day is over\n");
    for command in ["take", "why", "pick"] {
        assert_eq!(folder.refused(command, ""), "desk: the day is over: `standings` says what it ended in\n");
    }
    assert_eq!(folder.told("standings", ""), "all\n  nobody yet\n");
    folder.told("page", "");
}

#[test]
fn help() {
    let folder = Folder::with("help", GAME);
    for words in [&["help"][..], &[], &["--help"]] {
        let said = folder.run(words);
        assert!(said.is_good && said.out.starts_with("desk: draws a tournament's day, and plays it\n"), "{said:?}");
        assert!(said.out.contains("\n  start [PARAMETER = VALUES, ..]"), "{said:?}");
    }
    assert_eq!(folder.run(&["make"]).err, "desk: `desk make` needs the file of a description: `desk make FILE`; `desk help` says more\n");
}
