//! `include/keshmirun.h` compiled by a C compiler, as its own line has it and as C99: its seven calls made from C, with slices of no bytes too, and
//! beside a library that has a `check`, `start` and `step` of its own; and its numbers, which are the crate's.

use crate::common::programs::{archive, compiled, printed, ran};
use keshmirun::{EdgeKind, Kind, Refusal, Room, LONGEST_CHAIN, LONGEST_PATH, NO_NODE};
use keshmirun::{MOST_EDGES, MOST_ENDS, MOST_NODES, MOST_OFFERS, MOST_PATHS, MOST_TOKENS, MOST_VALUES};
use std::env;
use std::fs;
use std::path::Path;
use std::process::Command;

#[test]
fn seven_calls() {
    let ended = ran("small_event", &[compiled("small_event.c"), archive()]);
    assert_eq!(ended, Some(0), "the line of small_event.c that doesn't hold");
}

#[test]
fn slices_of_no_bytes() {
    let ended = ran("null", &[compiled("null.c"), archive()]);
    assert_eq!(ended, Some(0), "the line of null.c that doesn't hold");
}

/// The line of the header that compiles and links a program, in a folder that is laid out as the repository is, for the target that is tested.
#[test]
fn as_the_header_has_it() {
    let (here, target) = (Path::new(env!("CARGO_MANIFEST_DIR")), env!("KESHMIRUN_TARGET"));
    let folder = Path::new(env!("CARGO_TARGET_TMPDIR")).join("as_the_header_has_it");
    for (from, to) in [
        (here.join("tests/keshmirun/small_event.c"), "app.c".into()),
        (here.join("include/keshmirun.h"), "rust/include/keshmirun.h".into()),
        (archive(), format!("target/archive/{target}/libkeshmirun.a")),
    ] {
        let to = folder.join(to);
        fs::create_dir_all(to.parent().expect("a folder")).expect("a folder");
        fs::copy(from, to).expect("a copy");
    }
    let header = fs::read_to_string(here.join("include/keshmirun.h")).expect("the header");
    let line = header.lines().find_map(|line| line.strip_prefix(" *     cc ")).expect("a line that compiles");
    assert_eq!(line.matches("$(uname -m)-unknown-linux-gnu").count(), 1);
    let compiler = env::var("CC").unwrap_or_else(|_| String::from("cc"));
    let command = format!("{compiler} {}", line.replace("$(uname -m)-unknown-linux-gnu", target));
    assert!(Command::new("sh").args(["-c", &command]).current_dir(folder).status().expect("a shell").success());
}

#[test]
fn the_same_numbers() {
    let any_reply = Room::MARKING.max(Room::SHEET).max(Room::CHOICE);
    let numbers = [
        ("MOST_NODES", MOST_NODES),
        ("MOST_EDGES", MOST_EDGES),
        ("Room::CHOICE", Room::CHOICE),
        ("Room::MARKING", Room::MARKING),
        ("Room::SHEET", Room::SHEET),
        ("Room::CHOICE", Room::CHOICE),
        ("any reply", any_reply),
        ("NO_NODE", usize::from(NO_NODE)),
    ];
    let lines: String = numbers.iter().map(|(name, number)| format!("{name} {number}\n")).collect();
    assert_eq!(printed("numbers", &[compiled("numbers.c")]), lines);
}

/// The limits, and the kinds of nodes and edges and the refusals, each of these with what its place is.
#[test]
fn all_the_same_numbers() {
    let any_reply = Room::MARKING.max(Room::SHEET).max(Room::CHOICE);
    let limits = [
        ("MOST_NODES", MOST_NODES),
        ("MOST_EDGES", MOST_EDGES),
        ("MOST_VALUES", MOST_VALUES),
        ("MOST_TOKENS", MOST_TOKENS),
        ("LONGEST_CHAIN", LONGEST_CHAIN),
        ("LONGEST_PATH", LONGEST_PATH),
        ("MOST_OFFERS", MOST_OFFERS),
        ("MOST_PATHS", MOST_PATHS),
        ("MOST_ENDS", MOST_ENDS),
        ("Room::MARKING", Room::MARKING),
        ("Room::SHEET", Room::SHEET),
        ("Room::CHOICE", Room::CHOICE),
        ("Room::STACK", Room::STACK),
        ("any reply", any_reply),
        ("NO_NODE", usize::from(NO_NODE)),
    ];
    let limits = limits.iter().map(|(name, number)| format!("{name} {number}\n"));
    let kinds = Kind::ALL.iter().map(|kind| format!("{kind} {}\n", kind.number()));
    let edges = [EdgeKind::Control, EdgeKind::Object].map(|kind| format!("{kind} {}\n", kind.number()));
    let refusals = (1..=18).map(|number| format!("{} {number}\n", Refusal { number, place: 0 }.at()));
    let lines: String = limits.chain(kinds).chain(edges).chain(refusals).collect();
    assert_eq!(printed("all_numbers", &[compiled("all_numbers.c")]), lines);
}

/// Whichever library the linker looks into first.
#[test]
fn beside_the_same_names() {
    let (program, other) = (compiled("own_names.c"), compiled("other_library.c"));
    let ours_first = ran("ours_first", &[program.clone(), archive(), other.clone()]);
    assert_eq!(ours_first, Some(0), "the line of own_names.c that doesn't hold");
    let theirs_first = ran("theirs_first", &[program, other, archive()]);
    assert_eq!(theirs_first, Some(0), "the line of own_names.c that doesn't hold");
}
