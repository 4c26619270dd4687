//! `pick` beside the plain reading and a second way (`second.rs`) at random points: for no node, for nodes of every kind and for numbers that are none.

use super::points::{varied, BUDGET};
use super::second::Second;
use super::{called, has_end_of, room, rounds, sets, within, Seen};
use keshmirun::Terms;
use reading::random::{Event, Parts, Rng};
use reading::{Answer, Board, NO_NODE};

/// Up to so many ends, every set of them is judged.
const FEW: usize = 5;
/// How many enumeration steps the reading's pick may take.
const PICK_BUDGET: u64 = 300;

/// What came of some calls, and at how many points there were at least 12 ends.
#[derive(Debug, Default)]
pub struct Tally {
    pub seen: Seen,
    pub large: usize,
}

/// So many calls, at most six at each point.
pub fn tally(seed: u64, calls: usize, mut next: impl FnMut(&mut Rng) -> Event) -> Tally {
    let mut rng = Rng::new(seed);
    let mut tally = Tally::default();
    while tally.seen.calls() < calls {
        let event = next(&mut rng);
        let event = varied(&mut rng, &event);
        tally.compare(&mut rng, &event);
    }
    tally
}

impl Tally {
    fn compare(&mut self, rng: &mut Rng, event: &Event) {
        match Board::within(&event.table, &event.marking, &event.guards, &event.bounds, BUDGET) {
            Some(Ok(board)) => self.compare_at(rng, event, &board),
            Some(Err(refused)) => {
                if refused == (Answer::Refused { number: 8, place: 0 }) {
                    assert!(Second::of(&event.table, &event.marking, &event.guards, &event.bounds).is_none(), "{event:02x?}");
                }
                let node = rng.byte();
                self.call(rng, event, node, refused);
            }
            None => self.seen.skip(),
        }
    }

    fn compare_at(&mut self, rng: &mut Rng, event: &Event, board: &Board) {
        let parts = Parts::of(&event.table).unwrap();
        let second = Second::of(&event.table, &event.marking, &event.guards, &event.bounds).unwrap();
        let targets = second.targets();
        assert_eq!(targets.len(), board.ends(), "{event:02x?}");
        self.large += usize::from(targets.len() >= 12);
        let freed = board.freed_pairs();
        let acceptable = if targets.len() <= FEW { acceptable(board) } else { Vec::new() };
        for (turn, node) in nodes(rng, &parts, &targets).into_iter().enumerate() {
            let named = Some(node).filter(|node| *node != NO_NODE);
            let answer = picked(node, second.pick(named));
            if targets.len() <= FEW {
                let first = acceptable.iter().find(|choice| has_end_of(&parts, &targets, choice, named)).cloned();
                assert_eq!(answer, picked(node, first), "node {node}, {event:02x?}");
            } else if turn % 2 == 0 {
                let read = board.pick_within(node, usize::MAX, PICK_BUDGET);
                assert!(read.is_none() || read.as_ref() == Some(&answer), "node {node}, {answer:?}, {read:?}, {event:02x?}");
            }
            self.seen.note_freed(rounds::frees_pick(&freed, &answer));
            self.call(rng, event, node, answer);
        }
    }

    fn call(&mut self, rng: &mut Rng, Event { table, marking, guards, bounds, .. }: &Event, node: u8, full: Answer) {
        self.seen.note_bounds(&full, |out| keshmirun::pick(table, marking, Terms::new(guards), node, out));
        let room = room(rng, &full);
        let answer = called(rng.byte(), &[table, marking, guards, bounds, &[node]], room, &within(room, full), |lent, out| {
            keshmirun::pick(lent[0].slice(), lent[1].slice(), Terms::new(lent[2].slice()).with_bounds(lent[3].slice()), node, out)
        });
        self.seen.note(answer);
    }
}

/// What pick answers if this is the first such choice.
fn picked(node: u8, first: Option<Vec<u8>>) -> Answer {
    match first {
        Some(choice) => Answer::Good(choice),
        None => Answer::Refused { number: 13, place: node },
    }
}

/// Four that have an end or own a pin that has one, where there are ends; none; and one of any kind or any number.
fn nodes(rng: &mut Rng, parts: &Parts, targets: &[u8]) -> Vec<u8> {
    let mut served = targets.to_vec();
    served.extend(targets.iter().map(|target| parts.nodes[usize::from(*target)][1]).filter(|owner| *owner != NO_NODE));
    let kind = rng.between(3, 13) as u8;
    let mut nodes: Vec<u8> = (0..4).filter_map(|_| rng.one_of(&served)).collect();
    nodes.push(NO_NODE);
    nodes.push(match rng.below(4) {
        0 => rng.byte(),
        1 => parts.nodes.len() as u8,
        2 => rng.one_of(&parts.nodes_of(&[kind])).unwrap_or(kind),
        _ => rng.one_of(&parts.nodes_of(&[2])).unwrap_or(2),
    });
    nodes
}

/// All acceptable sets of a few ends by the reading's judge, first choice first.
fn acceptable(board: &Board) -> Vec<Vec<u8>> {
    sets(board.ends()).filter(|choice| matches!(board.step(choice, usize::MAX), Answer::Good(_))).collect()
}
