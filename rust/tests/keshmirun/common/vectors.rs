//! The outside calls of crates/vectors, with their right answers, as the program `vectors` reads and writes them.

use super::{called, whys};
use keshmirun::{Refusal, Terms};
use reading::Answer;
use std::fs;
use std::path::Path;

/// A call: its operation, the room to lend, a node or action, and the five slices that the program reads: table, marking, guards or values, bounds, choice.
pub struct Call {
    pub operation: Operation,
    pub room: usize,
    pub node: u8,
    pub slices: [Vec<u8>; 5],
}

#[derive(Clone, Copy, Debug, PartialEq, Eq, PartialOrd, Ord)]
pub enum Operation {
    Check,
    Start,
    Sheet,
    Pick,
    Step,
    Finish,
    /// How many states pick's search visits; it takes what pick takes, and is not exported.
    Visits,
    Why,
    /// How many states why's search visits at each level before the last; it takes what why takes, and is not exported.
    Levels,
}

impl Operation {
    /// Makes this call, visits' by pick and levels' by why.
    pub fn make(self, node: u8, [table, marking, given, bounds, choice]: [&[u8]; 5], out: &mut [u8]) -> Result<usize, Refusal> {
        let terms = Terms::new(given).with_bounds(bounds);
        match self {
            Operation::Check => keshmirun::check(table).map(|()| 0),
            Operation::Start => keshmirun::start(table, given, out),
            Operation::Sheet => keshmirun::sheet(table, marking, terms, out),
            Operation::Pick | Operation::Visits => keshmirun::pick(table, marking, terms, node, out),
            Operation::Why | Operation::Levels => whys::into(table, marking, given, bounds, node, out),
            Operation::Step => keshmirun::step(table, marking, terms, choice, out),
            Operation::Finish => keshmirun::finish(table, marking, node, given, out),
        }
    }

    /// Makes this call on lent copies, and holds it to its answer.
    pub fn hold(self, around: u8, node: u8, inputs: [&[u8]; 5], room: usize, expected: &Answer) -> Result<usize, Refusal> {
        called(around, &inputs, room, expected, |lent, out| self.make(node, [0, 1, 2, 3, 4].map(|number| lent[number].slice()), out))
    }
}

const OPERATIONS: [Operation; 9] = {
    use Operation::*;
    [Check, Start, Sheet, Pick, Step, Finish, Visits, Why, Levels]
};

/// All calls, in order, each with its answer (visits and levels have none).
pub fn all() -> Vec<(Call, Option<Answer>)> {
    let folder = Path::new(env!("CARGO_MANIFEST_DIR")).join("../crates/vectors");
    let stdin = fs::read(folder.join("stdin")).expect("the calls");
    let stdout = fs::read_to_string(folder.join("stdout")).expect("the answers");
    let mut rest = &stdin[..];
    let calls: Vec<_> = stdout.lines().map(|line| (call(&mut rest), answer(line))).collect();
    assert!(rest.is_empty(), "an answer for each call");
    calls
}

fn call(rest: &mut &[u8]) -> Call {
    let operation = OPERATIONS[usize::from(take(rest, 1)[0])];
    let room = length(rest);
    let node = take(rest, 1)[0];
    let mut slice = || {
        let length = length(rest);
        take(rest, length).to_vec()
    };
    Call { operation, room, node, slices: [slice(), slice(), slice(), slice(), slice()] }
}

fn length(rest: &mut &[u8]) -> usize {
    let bytes = take(rest, 2);
    usize::from(bytes[0]) * 256 + usize::from(bytes[1])
}

fn take<'a>(rest: &mut &'a [u8], count: usize) -> &'a [u8] {
    let (front, back) = rest.split_at(count);
    *rest = back;
    front
}

/// A line: refusal, place, and the reply in hex or `-`.
fn answer(line: &str) -> Option<Answer> {
    let words: Vec<&str> = line.split(' ').collect();
    match words[..] {
        ["visits", _] | ["levels", _, _, _, _] => None,
        ["0", "0", "-"] => Some(Answer::Good(Vec::new())),
        ["0", "0", reply] => Some(Answer::Good(hex(reply))),
        [number, place, "-"] => Some(Answer::Refused { number: number.parse().unwrap(), place: place.parse().unwrap() }),
        _ => panic!("{line}"),
    }
}

fn hex(text: &str) -> Vec<u8> {
    (0..text.len()).step_by(2).map(|at| u8::from_str_radix(&text[at..at + 2], 16).unwrap()).collect()
}
