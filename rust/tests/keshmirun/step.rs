//! `step` against the plain reading of the paper, with fixed seeds: right and wrong choices at the points of whole random events, at markings from anywhere and
//! near the sizes' limits, with bounds and without, good and damaged inputs, room to spare, exact and one short. Each refusal is held to its place.

use crate::common::points::Walk;
use crate::common::{limits, steps};
use reading::random::Event;

#[test]
fn whole_events() {
    let mut walk = Walk::default();
    let seen = steps::seen(31, 120_000, |rng| walk.next(rng));
    seen.assert_each(100, &[0, 1, 2, 3, 4, 5, 6, 7, 8, 17]);
    seen.assert_each(500, &[18]);
    seen.assert_each(2_000, &[9, 10, 11, 12]);
    seen.assert_bounded(2_000);
    seen.assert_freed(800);
    seen.assert_places(12, &[10, 11, 12]);
}

#[test]
fn from_anywhere() {
    let seen = steps::seen(32, 60_000, Event::anywhere);
    seen.assert_each(50, &[0, 1, 2, 3, 4, 5, 6, 7, 8, 17]);
    seen.assert_each(200, &[18]);
    seen.assert_each(1_000, &[9, 10, 11, 12]);
    seen.assert_bounded(2_000);
    seen.assert_freed(700);
    seen.assert_places(12, &[10, 11, 12]);
}

#[test]
fn larger_events() {
    let mut walk = Walk::larger();
    let seen = steps::seen(34, 10_000, |rng| walk.next(rng));
    seen.assert_each(5, &[0, 1, 2, 3, 4, 5, 6, 7, 8, 17]);
    seen.assert_each(20, &[18]);
    seen.assert_each(100, &[9, 10, 11, 12]);
    seen.assert_bounded(200);
    seen.assert_place_over(100, &[11, 12]);
}

#[test]
fn near_the_sizes() {
    let seen = steps::seen(33, 24_000, limits::event);
    seen.assert_each(300, &[0, 8, 9, 10, 11, 17]);
    seen.assert_each(100, &[18]);
    seen.assert_bounded(1_000);
    seen.assert_freed(600);
    seen.assert_places(12, &[10, 11]);
}
