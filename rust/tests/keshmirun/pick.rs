//! `pick` against the plain reading of the paper and a second way (`common/second.rs`), with fixed seeds: with no node named, and for nodes of every kind and
//! numbers that are none, at the points of whole random events, at markings from anywhere and near the sizes' limits, with bounds and without, good and
//! damaged inputs, room to spare, exact and one short.
//!
//! The second way gives the answer; where the ends are few, so does the reading's judge on every set of ends, and elsewhere the reading's pick, where it is
//! not too long.

use crate::common::points::Walk;
use crate::common::{limits, picks};
use reading::random::Event;

#[test]
fn whole_events() {
    let mut walk = Walk::default();
    let tally = picks::tally(41, 60_000, |rng| walk.next(rng));
    tally.seen.assert_each(100, &[0, 1, 2, 3, 4, 5, 6, 7, 8, 13, 17]);
    tally.seen.assert_each(500, &[18]);
    tally.seen.assert_bounded(1_000);
    tally.seen.assert_freed(350);
    tally.seen.assert_places(200, &[13]);
}

#[test]
fn from_anywhere() {
    let tally = picks::tally(42, 30_000, Event::anywhere);
    tally.seen.assert_each(50, &[0, 1, 2, 3, 4, 5, 6, 7, 8, 13, 17]);
    tally.seen.assert_each(300, &[18]);
    tally.seen.assert_bounded(1_000);
    tally.seen.assert_freed(450);
    assert!(tally.large >= 50, "{tally:?}");
}

#[test]
fn larger_events() {
    let mut walk = Walk::larger();
    let tally = picks::tally(44, 6_000, |rng| walk.next(rng));
    tally.seen.assert_each(5, &[0, 1, 2, 3, 4, 5, 6, 7, 8, 13, 17]);
    tally.seen.assert_each(20, &[18]);
    tally.seen.assert_bounded(200);
    tally.seen.assert_place_over(110, &[13]);
}

#[test]
fn near_the_sizes() {
    let tally = picks::tally(43, 10_000, limits::event);
    tally.seen.assert_each(200, &[0, 8, 13, 17]);
    tally.seen.assert_each(150, &[18]);
    tally.seen.assert_bounded(1_000);
    tally.seen.assert_freed(300);
    assert!(tally.large >= 300, "{tally:?}");
}
