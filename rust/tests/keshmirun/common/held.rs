//! Calls at a point that is drawn by hand: the engine is held to the plain reading, and both to the answer that a test has.

use super::drawn::*;
use super::vectors::Operation;
use super::{has_end_of, sets};
use keshmirun::{NO_BOUNDS, NO_NODE};
use reading::random::Parts;
use reading::Answer;

/// What stands beside the bytes that are lent.
pub const AROUND: u8 = 0x5a;

/// Last edge, value and paths.
pub type End<'a> = (u8, Option<u32>, &'a [&'a [u8]]);

impl Point {
    /// The reading's answer to this call, to which the engine is held.
    pub fn answer(&self, operation: Operation, bounds: &[u8], node: u8, choice: &[u8]) -> Answer {
        let Point { table, marking, guards } = self;
        let answer = match operation {
            Operation::Sheet => reading::sheet_within(table, marking, guards, bounds, ROOM, BUDGET),
            Operation::Pick => reading::pick_within(table, marking, guards, bounds, node, ROOM, BUDGET),
            Operation::Why => reading::why_within(table, marking, guards, bounds, node, ROOM, BUDGET),
            _ => reading::step_within(table, marking, guards, bounds, choice, ROOM, BUDGET),
        };
        let answer = answer.expect("a short call");
        let _ = operation.hold(AROUND, node, self.inputs(bounds, choice), ROOM, &answer);
        answer
    }

    pub fn sheet(&self, bounds: &[u8]) -> Vec<u8> {
        match self.answer(Operation::Sheet, bounds, 0, &[]) {
            Answer::Good(sheet) => sheet,
            refused => panic!("{refused:?}, {self:02x?}, {bounds:02x?}"),
        }
    }

    /// The values of the ends.
    pub fn values(&self, bounds: &[u8]) -> Vec<u32> {
        listed(&self.sheet(bounds)).into_iter().filter_map(|(_, value, _)| value).collect()
    }

    /// The sheet has these ends.
    pub fn assert_sheet(&self, ends: &[End]) {
        let mut body = vec![1, ends.len() as u8];
        for (edge, value, paths) in ends {
            body.extend([*edge, u8::from(value.is_some())]);
            body.extend(value.unwrap_or(0).to_be_bytes());
            body.push(paths.len() as u8);
            paths.iter().for_each(|path| body.extend([&[path.len() as u8], *path].concat()));
        }
        assert_eq!(self.sheet(&NO_BOUNDS), framed(&body), "{self:02x?}");
    }

    pub fn assert_step(&self, choice: &[u8], expected: Answer) {
        assert_eq!(self.answer(Operation::Step, &NO_BOUNDS, 0, choice), expected, "{choice:?}, {self:02x?}");
    }

    pub fn assert_pick(&self, node: u8, expected: Answer) {
        assert_eq!(self.answer(Operation::Pick, &NO_BOUNDS, node, &[]), expected, "node {node}, {self:02x?}");
    }

    /// Each of these choices is refused 10, with its place.
    pub fn assert_competing(&self, choices: &[(&[u8], u8)]) {
        choices.iter().for_each(|(choice, place)| self.assert_step(choice, refused(10, *place)));
    }

    /// Of all sets of ends these are acceptable, first choice first, and no others. Pick takes the first, and for a node the first that has an end of it.
    pub fn assert_acceptable(&self, bounds: &[u8], choices: &[&[u8]]) {
        let parts = Parts::of(&self.table).unwrap();
        let targets: Vec<u8> = listed(&self.sheet(bounds)).iter().map(|(edge, ..)| parts.edges[usize::from(*edge)][2]).collect();
        let is_taken = |choice: &Vec<u8>| matches!(self.answer(Operation::Step, bounds, 0, choice), Answer::Good(_));
        assert_eq!(sets(targets.len()).filter(is_taken).collect::<Vec<_>>(), choices, "{self:02x?}, {bounds:02x?}");
        for node in (0..=parts.nodes.len() as u8).chain([NO_NODE]) {
            let named = Some(node).filter(|node| *node != NO_NODE);
            let first = choices.iter().find(|choice| has_end_of(&parts, &targets, choice, named));
            let expected = first.map_or(refused(13, node), |choice| Answer::Good(choice.to_vec()));
            assert_eq!(self.answer(Operation::Pick, bounds, node, &[]), expected, "node {node}, {self:02x?}, {bounds:02x?}");
        }
    }
}
