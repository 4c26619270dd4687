//! `why` as the archive has it, with any room; and beside the plain reading, a second way (`second.rs`) and `pick` at random points, for every node of the
//! table, for numbers that are none and for none named.

use super::points::{varied, BUDGET};
use super::second::Second;
use super::{answered, called, room, within, Seen};
use keshmirun::{Refusal, Terms};
use reading::random::{Event, Parts, Rng};
use reading::{Answer, Board, NO_NODE};

/// Up to so many ends the reading goes through every set of them.
const FEW: usize = 8;
/// Up to so many it does at one point in eight.
const MANY: usize = 12;

extern "C" {
    fn keshmirun_why(
        table: *const u8,
        table_len: usize,
        marking: *const u8,
        marking_len: usize,
        guards: *const u8,
        guards_len: usize,
        bounds: *const u8,
        bounds_len: usize,
        node: u8,
        out: *mut u8,
        out_len: usize,
    ) -> u64;
}

/// The call with a lent output of any length; the crate lends its own byte.
pub fn into(table: &[u8], marking: &[u8], guards: &[u8], bounds: &[u8], node: u8, out: &mut [u8]) -> Result<usize, Refusal> {
    // SAFETY: as in the crate, the archive reads and writes only the bytes behind the pointers, as many as their lengths say, and keeps nothing.
    let word = unsafe {
        keshmirun_why(
            table.as_ptr(),
            table.len(),
            marking.as_ptr(),
            marking.len(),
            guards.as_ptr(),
            guards.len(),
            bounds.as_ptr(),
            bounds.len(),
            node,
            out.as_mut_ptr(),
            out.len(),
        )
    };
    let number = |digits: u64| u8::try_from(digits).expect("a number of the paper");
    match (number(word >> 48), number(word >> 32 & 0xffff), word & 0xffff_ffff) {
        (0, 0, length) => Ok(length as usize),
        (number, place, 0) if number > 0 => Err(Refusal { number, place }),
        _ => panic!("no answer word: {word:#x}"),
    }
}

/// The crate's why, as an answer.
pub fn told(table: &[u8], marking: &[u8], terms: Terms, node: u8) -> Answer {
    match keshmirun::why(table, marking, terms, node) {
        Ok(reason) => Answer::Good(vec![reason.number()]),
        Err(Refusal { number, place }) => Answer::Refused { number, place },
    }
}

/// Whether pick is refused with 13.
pub fn is_without_pick(table: &[u8], marking: &[u8], terms: Terms, node: u8) -> bool {
    answered(|out| keshmirun::pick(table, marking, terms, node, out)) == Answer::Refused { number: 13, place: node }
}

/// What came of some calls: how often each reason; the same for pins, where results of one round may go together, and where without bounds it is another. At how
/// many points there were, and at how many of them at least 12 ends. How many reasons the reading told too, and how many of them among more than a few ends.
#[derive(Debug, Default)]
pub struct Tally {
    pub seen: Seen,
    pub reasons: [usize; 6],
    pub of_pins: [usize; 6],
    pub of_rounds: [usize; 6],
    pub bounded: [usize; 6],
    pub points: usize,
    pub large: usize,
    pub read: usize,
    pub read_many: usize,
}

/// Each reason came at least so often.
#[track_caller]
pub fn assert_least(counts: [usize; 6], least: [usize; 6]) {
    assert!(counts.iter().zip(least).all(|(count, least)| *count >= least), "{counts:?}");
}

/// So many calls, one for each number that may be named at a point.
pub fn tally(seed: u64, calls: usize, mut next: impl FnMut(&mut Rng) -> Event) -> Tally {
    let mut rng = Rng::new(seed);
    let mut tally = Tally::default();
    while tally.seen.calls() < calls {
        let event = next(&mut rng);
        let event = varied(&mut rng, &event);
        tally.compare(&mut rng, &event);
    }
    tally
}

impl Tally {
    fn compare(&mut self, rng: &mut Rng, event: &Event) {
        match Board::within(&event.table, &event.marking, &event.guards, &event.bounds, BUDGET) {
            Some(Ok(board)) => self.compare_at(rng, event, &board),
            Some(Err(refused)) => {
                let Event { table, marking, guards, bounds, .. } = event;
                let shown = answered(|out| keshmirun::sheet(table, marking, Terms::new(guards).with_bounds(bounds), out));
                assert_eq!(shown, refused, "{event:02x?}");
                for node in [0, rng.byte(), NO_NODE] {
                    self.call(rng, event, node, refused.clone());
                }
            }
            None => self.seen.skip(),
        }
    }

    fn compare_at(&mut self, rng: &mut Rng, event: &Event, board: &Board) {
        let parts = Parts::of(&event.table).unwrap();
        let second = Second::of(&event.table, &event.marking, &event.guards, &event.bounds).unwrap();
        let is_of_round = !board.freed_pairs().is_empty();
        self.large += usize::from(board.ends() >= 12);
        self.points += 1;
        let most = if self.points % 8 == 0 { MANY } else { FEW };
        let past = parts.nodes.len() as u8;
        for node in (0..=past).chain([rng.between(usize::from(past), 254) as u8, NO_NODE]) {
            let reason = if node == NO_NODE { 0 } else { second.why(node) };
            let answer = Answer::Good(vec![reason]);
            if board.ends() <= most {
                let read = board.why_within(node, usize::MAX, 1 << most).expect("a step for each set");
                assert_eq!(read, answer, "node {node}, {event:02x?}");
                self.read += 1;
                self.read_many += usize::from(board.ends() > FEW);
            }
            self.note(event, &parts, node, reason, is_of_round);
            self.call(rng, event, node, answer);
        }
    }

    fn note(&mut self, Event { table, marking, guards, bounds, .. }: &Event, parts: &Parts, node: u8, reason: u8, is_of_round: bool) {
        let number = usize::from(reason);
        self.reasons[number] += 1;
        self.of_rounds[number] += usize::from(is_of_round);
        self.of_pins[number] += usize::from(parts.nodes.get(usize::from(node)).map_or(false, |node| node[0] == super::drawn::INPUT_PIN));
        self.bounded[number] += usize::from(told(table, marking, Terms::new(guards), node) != Answer::Good(vec![reason]));
        let terms = Terms::new(guards).with_bounds(bounds);
        assert_eq!(reason != 0, is_without_pick(table, marking, terms, node), "node {node}, {parts:02x?}, {marking:02x?}, {terms:02x?}");
    }

    fn call(&mut self, rng: &mut Rng, Event { table, marking, guards, bounds, .. }: &Event, node: u8, full: Answer) {
        assert_eq!(told(table, marking, Terms::new(guards).with_bounds(bounds), node), full, "node {node}");
        let room = room(rng, &full);
        let answer = called(rng.byte(), &[table, marking, guards, bounds, &[node]], room, &within(room, full), |lent, out| {
            into(lent[0].slice(), lent[1].slice(), lent[2].slice(), lent[3].slice(), node, out)
        });
        self.seen.note(answer);
    }
}
