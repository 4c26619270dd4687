//! The program `sheet`, run as the gate runs it, on inputs of every kind: good ones, none, short and cut ones, longer ones than it reads, and ones that
//! each row refuses. It reads the first 16,384 bytes at most, and all that it prints is the paper's text of what the plain reading answers for their parts,
//! without bounds.

use crate::common::limits;
use crate::common::longest::Longest;
use crate::common::points::{varied, Walk, BUDGET};
use reading::random::{Event, Rng};
use reading::{pick_within, sheet_within, Answer, NO_BOUNDS, NO_NODE};
use std::collections::BTreeMap;
use std::fs::{read, read_to_string, remove_file, write, File};
use std::io::{Seek, Write};
use std::path::{Path, PathBuf};
use std::process::{Command, Stdio};
use std::thread;
use std::time::Duration;

/// "It reads the first" bytes, so many "at most", as wish 6 has it.
const MOST_INPUT: usize = 16_384;

fn repository() -> PathBuf {
    Path::new(env!("CARGO_MANIFEST_DIR")).join("..")
}

/// The paper's small event, as the gate's own run of the program has it.
fn small_event() -> Vec<u8> {
    read(repository().join("crates/sheet/stdin")).expect("crates/sheet/stdin")
}

/// The paper's text of it.
fn small_text() -> String {
    read_to_string(repository().join("crates/sheet/stdout")).expect("crates/sheet/stdout")
}

/// The program that was proved, with this as its standard input.
fn program(input: Stdio) -> Command {
    let sheet = repository().join("crates/sheet/out/sheet");
    assert!(sheet.exists(), "no crates/sheet/out/sheet: `make` proves and builds it");
    let mut program = Command::new(sheet);
    program.stdin(input);
    program
}

/// What the program prints for these bytes in a file, of which it reads the first 16,384 and no more.
fn printed(input: &[u8]) -> String {
    let path = Path::new(env!("CARGO_TARGET_TMPDIR")).join(format!("sheet-{:?}", thread::current().id()));
    write(&path, input).expect("a file for the input");
    let file = File::open(&path).expect("the input");
    // it shares with the program's input the place up to which it was read
    let mut read = file.try_clone().expect("the input");
    let ran = program(Stdio::from(file)).output().expect("crates/sheet/out/sheet");
    remove_file(&path).expect("the input");
    assert!(ran.status.success(), "{ran:?}");
    assert_eq!(read.stream_position().expect("a place"), input.len().min(MOST_INPUT) as u64, "bytes read of {}", input.len());
    String::from_utf8(ran.stdout).expect("text")
}

// ---- the paper's text

/// "Table and marking are the parts their length fields give; a short stream hands on what there is": the part in front, and the rest.
fn parted(stream: &[u8]) -> (&[u8], &[u8]) {
    match stream {
        [high, low, ..] => stream.split_at(stream.len().min(2 + usize::from(u16::from_be_bytes([*high, *low])))),
        _ => (stream, &[]),
    }
}

fn commas(numbers: &[u8]) -> String {
    match numbers {
        [] => String::from("-"),
        _ => numbers.iter().map(u8::to_string).collect::<Vec<_>>().join(","),
    }
}

/// "per end, in decimal: end, last edge, target, value or `-`, paths", from a sheet behind its head.
#[allow(clippy::format_push_string)] // a sheet has few lines
fn lines(table: &[u8], ends: u8, mut sheet: &[u8]) -> String {
    let mut text = String::new();
    for end in 0..ends {
        let (edge, paths) = (sheet[0], sheet[6]);
        let target = table[5 + 4 * usize::from(table[3]) + 4 * usize::from(edge) + 2];
        let value = match sheet[1] {
            0 => String::from("-"),
            _ => u32::from_be_bytes([sheet[2], sheet[3], sheet[4], sheet[5]]).to_string(),
        };
        text += &format!("{end} {edge} {target} {value}");
        sheet = &sheet[7..];
        for _ in 0..paths {
            let (path, rest) = sheet[1..].split_at(usize::from(sheet[0]));
            text += &format!(" {}", commas(path));
            sheet = rest;
        }
        text += "\n";
    }
    assert!(sheet.is_empty());
    text
}

/// The whole text for an input, and the refusal's number, 0 for none; `None` if the reading takes too long.
fn expected(input: &[u8]) -> Option<(String, u8)> {
    let (table, rest) = parted(&input[..input.len().min(MOST_INPUT)]);
    let (marking, guards) = parted(rest);
    let sheet = match sheet_within(table, marking, guards, &NO_BOUNDS, usize::MAX, BUDGET)? {
        Answer::Good(sheet) => sheet,
        Answer::Refused { number, place } => return Some((format!("refused {number} {place}\n"), number)),
    };
    let choice = match pick_within(table, marking, guards, &NO_BOUNDS, NO_NODE, usize::MAX, BUDGET)? {
        Answer::Good(choice) => choice,
        refused => panic!("a pick with no node named: {refused:?}"),
    };
    Some((format!("ends {}\n{}pick {}\n", sheet[3], lines(table, sheet[3], &sheet[4..]), commas(&choice)), 0))
}

/// Compares, and answers the refusal's number.
fn compared(input: &[u8]) -> Option<u8> {
    let (text, number) = expected(input)?;
    assert_eq!(printed(input), text, "{input:02x?}");
    Some(number)
}

// ---- the inputs

#[test]
fn the_small_event() {
    assert_eq!(expected(&small_event()), Some((small_text(), 0)));
    assert_eq!(printed(&small_event()), small_text());
}

/// An initial node with an edge to a flow final, which has a token or none.
#[test]
fn short_and_good() {
    for (tokens, text) in [(1, "ends 1\n0 0 1 - 0\npick 0\n"), (0, "ends 0\npick -\n")] {
        let input = [0, 15, 1, 2, 1, 1, 255, 0, 0, 12, 255, 0, 0, 0, 0, 1, 0, 0, 3, 1, 0, tokens, 1];
        assert_eq!(printed(&input), text);
        assert_eq!(expected(&input), Some((String::from(text), 0)));
    }
}

/// A buffer with a value and so many edges to a flow final.
fn rivals(edges: u8) -> Vec<u8> {
    let nodes = [5, 255, 0, 1, 12, 255, 0, 0];
    let table = [&[0, 11 + 4 * edges, 1, 2, edges][..], &nodes, &[1, 0, 1, 0].repeat(edges.into())].concat();
    [&table[..], &[0, 7, 1, 0, 1, 255, 255, 255, 255], &vec![1; edges.into()]].concat()
}

/// 20 ends, of which any two compete, and 21.
#[test]
fn most_ends_and_one_more() {
    let lines: String = (0..20).map(|end| format!("{end} {end} 1 4294967295 {end}\n")).collect();
    let text = format!("ends 20\n{lines}pick 0\n");
    assert_eq!(printed(&rivals(20)), text);
    assert_eq!(expected(&rivals(20)), Some((text, 0)));
    assert_eq!(printed(&rivals(21)), "refused 8 0\n");
    assert_eq!(expected(&rivals(21)), Some((String::from("refused 8 0\n"), 8)));
}

/// Nothing at all, and the small event cut in its table, its marking and its guards, and between them.
#[test]
fn short_and_cut() {
    assert_eq!(printed(&[]), "refused 1 0\n");
    let whole = small_event();
    for (lengths, number) in [([0, 1, 2, 20, 52], 1), ([53, 54, 55, 60, 69], 5), ([70, 71, 72, 73, 74], 7)] {
        for length in lengths {
            assert_eq!(compared(&whole[..length]), Some(number), "cut behind {length} bytes");
        }
    }
}

/// As many bytes as are read, one more and many more: behind a good event, and as a table or a marking that goes on and on.
#[test]
fn longer_than_what_is_read() {
    for length in [MOST_INPUT - 1, MOST_INPUT, MOST_INPUT + 1, 3 * MOST_INPUT] {
        let mut guards = small_event();
        guards.resize(length, 1);
        assert_eq!(compared(&guards), Some(7), "guards, {length} bytes");
        assert_eq!(compared(&vec![255; length]), Some(1), "a table, {length} bytes");
        let mut marking = small_event();
        marking[53..55].copy_from_slice(&[255, 255]);
        marking.resize(length, 0);
        assert_eq!(compared(&marking), Some(5), "a marking, {length} bytes");
    }
}

/// The largest table with a marking of nearly 8,192 bytes and 200 guards: more than a program of before read. Cut there, it has no marking; and what comes
/// behind the guards, up to what is read and past it, belongs to them.
#[test]
fn a_larger_event() {
    let Longest { table, marking, guards, .. } = Longest::new();
    let whole = [table, marking, guards].concat();
    assert_eq!(whole.len(), 9_420);
    let text = format!("ends 1\n0 199 119 {} 199\npick 0\n", u32::from_be_bytes([118, 0x5e, 0, !118]));
    assert_eq!(printed(&whole), text);
    assert_eq!(expected(&whole), Some((text, 0)));
    for (length, number) in [(8_192, 5), (1_285 + 7_934, 5), (9_419, 7), (9_421, 7), (MOST_INPUT, 7), (MOST_INPUT + 1, 7)] {
        let mut input = whole.clone();
        input.resize(length, 1);
        assert_eq!(compared(&input), Some(number), "{length} bytes");
    }
}

/// One change of the small event for each row from 1 to 7 (row 8 is tried above; no other can come).
#[test]
fn refused_by_each_row() {
    let changes = [
        ("version 2", 2, 2, "refused 1 0\n"),
        ("node 4 has upper 17", 24, 17, "refused 2 4\n"),
        ("edge 1 is guarded by 2", 40, 2, "refused 3 1\n"),
        ("node 2, the decision, made a merge", 13, 9, "refused 4 2\n"),
        ("the marking has version 2", 55, 2, "refused 5 0\n"),
        ("guard 0 is 0", 70, 0, "refused 7 0\n"),
        ("guard 4 is 2", 74, 2, "refused 7 0\n"),
    ];
    for (what, place, byte, text) in changes {
        let mut input = small_event();
        input[place] = byte;
        assert_eq!(printed(&input), text, "{what}");
        assert_eq!(expected(&input).map(|(text, _)| text).as_deref(), Some(text), "{what}");
    }
    let ended = [&small_event()[..53], &[0, 7, 1, 1, 0, 0, 0, 0, 0], &[1; 5]].concat();
    assert_eq!(printed(&ended), "refused 6 0\n");
    assert_eq!(expected(&ended), Some((String::from("refused 6 0\n"), 6)));
}

/// Events at any point, a third of them near the sizes' limits, and some of them damaged; one is too hard for the reading at most.
#[test]
fn random_events() {
    let (mut rng, mut walk, mut seen, mut skipped) = (Rng::new(81), Walk::default(), BTreeMap::new(), 0);
    for number in 0..90 {
        let event = if number % 3 == 0 { limits::event(&mut rng) } else { walk.next(&mut rng) };
        let Event { table, marking, guards, .. } = varied(&mut rng, &event);
        match compared(&[table, marking, guards].concat()) {
            Some(number) => *seen.entry(number).or_insert(0) += 1,
            None => skipped += 1,
        }
    }
    assert!([0, 5, 7, 8].iter().all(|number| seen.contains_key(number)) && skipped <= 1, "{seen:?}, {skipped} skipped");
}

/// A pipe that brings the input in pieces is read to its end.
#[test]
fn in_pieces() {
    let mut running = program(Stdio::piped()).stdout(Stdio::piped()).spawn().expect("crates/sheet/out/sheet");
    let mut pipe = running.stdin.take().expect("its input");
    for piece in small_event().chunks(20) {
        pipe.write_all(piece).expect("its input");
        pipe.flush().expect("its input");
        thread::sleep(Duration::from_millis(50));
    }
    drop(pipe);
    let ran = running.wait_with_output().expect("crates/sheet/out/sheet");
    assert_eq!(String::from_utf8_lossy(&ran.stdout), small_text());
}
