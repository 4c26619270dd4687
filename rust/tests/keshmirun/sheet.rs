//! `sheet` against the plain reading of the paper, with fixed seeds: whole random events, markings from anywhere, tables at the sizes' limits, with bounds
//! and without, good and damaged inputs, room to spare, exact and one short.

use crate::common::points::{varied, Walk, BUDGET};
use crate::common::{called, limits, room, within, Seen};
use keshmirun::{Refusal, Room, Terms};
use reading::random::{Event, Parts, Rng};

/// So many calls, four at each point.
fn seen(seed: u64, calls: usize, mut next: impl FnMut(&mut Rng) -> Event) -> Seen {
    let mut rng = Rng::new(seed);
    let mut seen = Seen::default();
    while seen.calls() < calls {
        let event = next(&mut rng);
        for _ in 0..4 {
            let event = varied(&mut rng, &event);
            compare(&mut rng, &mut seen, &event);
        }
    }
    seen
}

fn compare(rng: &mut Rng, seen: &mut Seen, Event { table, marking, guards, bounds, .. }: &Event) {
    let full = match reading::sheet_within(table, marking, guards, bounds, usize::MAX, BUDGET) {
        Some(full) => full,
        None => return seen.skip(),
    };
    seen.note_bounds(&full, |out| keshmirun::sheet(table, marking, Terms::new(guards), out));
    let room = room(rng, &full);
    let answer = called(rng.byte(), &[table, marking, guards, bounds], room, &within(room, full), |lent, out| {
        keshmirun::sheet(lent[0].slice(), lent[1].slice(), Terms::new(lent[2].slice()).with_bounds(lent[3].slice()), out)
    });
    seen.note(answer);
}

#[test]
fn whole_events() {
    let mut walk = Walk::default();
    let seen = seen(21, 50_000, |rng| walk.next(rng));
    seen.assert_each(100, &[0, 1, 2, 3, 4, 5, 6, 7, 8, 17]);
    seen.assert_each(2_000, &[18]);
    seen.assert_bounded(3_000);
}

#[test]
fn from_anywhere() {
    let seen = seen(22, 35_000, Event::anywhere);
    seen.assert_each(100, &[0, 1, 2, 3, 4, 5, 6, 7, 8, 17]);
    seen.assert_each(1_000, &[18]);
    seen.assert_bounded(3_000);
}

#[test]
fn larger_events() {
    let mut walk = Walk::larger();
    let seen = seen(25, 6_000, |rng| walk.next(rng));
    seen.assert_each(20, &[0, 1, 2, 3, 4, 5, 6, 7, 8, 17]);
    seen.assert_each(150, &[18]);
    seen.assert_bounded(300);
}

#[test]
fn near_the_sizes() {
    let seen = seen(23, 15_000, limits::event);
    seen.assert_each(1_000, &[0, 8, 17, 18]);
    seen.assert_bounded(1_000);
}

#[test]
fn sizes_met_and_passed_by_one() {
    let mut rng = Rng::new(24);
    for (made, most) in [(limits::offers as fn(&mut Rng, usize) -> Parts, 64), (limits::paths, 8), (limits::ends, 20)] {
        for _ in 0..100 {
            let met = made(&mut rng, most);
            assert!(first_sheet(&mut rng, &met).is_ok(), "{met:?}");
            let passed = made(&mut rng, most + 1);
            assert_eq!(first_sheet(&mut rng, &passed), Err(Refusal { number: 8, place: 0 }), "{passed:?}");
        }
    }
}

/// The sheet with every source full, every guard 1 and no bounds.
fn first_sheet(rng: &mut Rng, parts: &Parts) -> Result<usize, Refusal> {
    let marking = limits::full(rng, parts);
    keshmirun::sheet(&parts.write(), &marking, Terms::new(&vec![1; parts.edges.len()]), &mut [0; Room::SHEET])
}
