//! `finish` against the plain reading of the paper, with fixed seeds: whole random events and markings from anywhere, running and idle actions, good and
//! damaged markings, edge counts up to 254 and 255, good and spoiled values, room to spare, exact and one short.

use crate::common::points::Walk;
use crate::common::{called, room, within, Seen};
use reading::random::{damaged, damaged_bytes, outputs, Event, Rng};

/// Most often an action that runs; at times any number.
fn action(rng: &mut Rng, event: &Event) -> u8 {
    match rng.one_of(&event.running()) {
        Some(action) if rng.percent(85) => action,
        _ => rng.below(usize::from(event.table[3]) + 2) as u8,
    }
}

/// Calls at so many points of events, four at each.
fn seen(seed: u64, points: usize, mut next: impl FnMut(&mut Rng) -> Event) -> Seen {
    let mut rng = Rng::new(seed);
    let mut seen = Seen::default();
    for _ in 0..points {
        let event = next(&mut rng);
        for _ in 0..4 {
            compare(&mut rng, &mut seen, &event);
        }
    }
    seen
}

fn compare(rng: &mut Rng, seen: &mut Seen, event: &Event) {
    let action = action(rng, event);
    let Event { mut table, mut marking, .. } = event.clone();
    let lists = outputs(rng, &table, &marking, action);
    if rng.percent(10) {
        marking = damaged_bytes(rng, &marking);
    }
    if rng.percent(10) {
        table = damaged(rng, &table);
    }
    let full = reading::finish(&table, &marking, action, &lists, usize::MAX);
    let room = room(rng, &full);
    let answer = called(rng.byte(), &[&table, &marking, &lists], room, &within(room, full), |lent, out| {
        keshmirun::finish(lent[0].slice(), lent[1].slice(), action, lent[2].slice(), out)
    });
    seen.note(answer);
}

#[test]
fn whole_events() {
    let mut walk = Walk::default();
    seen(14, 10_000, |rng| walk.next(rng)).assert_each(100, &[0, 1, 2, 3, 4, 5, 6, 14, 15, 16, 17]);
}

#[test]
fn larger_events() {
    let mut walk = Walk::larger();
    let seen = seen(15, 2_000, |rng| walk.next(rng));
    seen.assert_each(20, &[0, 1, 2, 3, 4, 5, 6, 14, 15, 16, 17]);
    seen.assert_place_over(48, &[2, 3, 4]);
}

#[test]
fn from_anywhere() {
    seen(12, 15_000, Event::anywhere).assert_each(100, &[0, 1, 2, 3, 4, 5, 6, 14, 15, 16, 17]);
}
