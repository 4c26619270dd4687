//! `step` beside the plain reading at random points: right and wrong choices, room to spare, exact and one short.

use super::points::{varied, BUDGET};
use super::{called, room, rounds, within, Seen};
use keshmirun::Terms;
use reading::random::{choice, Event, Rng};
use reading::{Answer, Board, NO_NODE};

/// How many steps the reading may take for a pick that is only there to be changed.
const PICK_BUDGET: u64 = 500;

/// So many calls, sixteen choices at each point.
pub fn seen(seed: u64, calls: usize, mut next: impl FnMut(&mut Rng) -> Event) -> Seen {
    let mut rng = Rng::new(seed);
    let mut seen = Seen::default();
    while seen.calls() < calls {
        let event = next(&mut rng);
        let event = varied(&mut rng, &event);
        compare(&mut rng, &mut seen, &event);
    }
    seen
}

fn compare(rng: &mut Rng, seen: &mut Seen, event: &Event) {
    match Board::within(&event.table, &event.marking, &event.guards, &event.bounds, BUDGET) {
        Some(Ok(board)) => {
            let freed = board.freed_pairs();
            for choice in choices(rng, &board) {
                let full = board.step(&choice, usize::MAX);
                seen.note_freed(rounds::frees_step(&freed, &choice, &full));
                call(rng, seen, event, &choice, full);
            }
        }
        Some(Err(refused)) => {
            let ends = rng.below(4);
            let choice = choice(rng, ends);
            call(rng, seen, event, &choice, refused);
        }
        None => seen.skip(),
    }
}

fn call(rng: &mut Rng, seen: &mut Seen, Event { table, marking, guards, bounds, .. }: &Event, choice: &[u8], full: Answer) {
    seen.note_bounds(&full, |out| keshmirun::step(table, marking, Terms::new(guards), choice, out));
    let room = room(rng, &full);
    let answer = called(rng.byte(), &[table, marking, guards, bounds, choice], room, &within(room, full), |lent, out| {
        keshmirun::step(lent[0].slice(), lent[1].slice(), Terms::new(lent[2].slice()).with_bounds(lent[3].slice()), lent[4].slice(), out)
    });
    seen.note(answer);
}

/// Picks, with an end more or less or with some of their ends alone, and any choices.
pub fn choices(rng: &mut Rng, board: &Board) -> Vec<Vec<u8>> {
    let mut choices: Vec<Vec<u8>> = (0..6).map(|_| choice(rng, board.ends())).collect();
    let node = rng.one_of(&board.targets()).unwrap_or(0);
    for node in [NO_NODE, node] {
        if let Some(Answer::Good(picked)) = board.pick_within(node, usize::MAX, PICK_BUDGET) {
            choices.extend((0..2).map(|_| one_changed(rng, &picked, board.ends())));
            choices.extend((0..2).map(|_| picked.iter().copied().filter(|_| rng.percent(60)).collect()));
            choices.push(picked);
        }
    }
    choices
}

/// The choice with one end more or one less.
fn one_changed(rng: &mut Rng, choice: &[u8], ends: usize) -> Vec<u8> {
    let changed = rng.below(ends) as u8;
    (0..ends as u8).filter(|end| choice.contains(end) != (*end == changed)).collect()
}
