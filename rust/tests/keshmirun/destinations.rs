//! The sheet by destination: ends are ordered by target node first, then by last edge and paths. Events that are drawn by hand, a tournament's each, on which
//! that is another order than the one by last edge, with their sheets, picks, steps and refusals: every answer is written here, and held to the plain reading
//! of the paper. Then random events: sheets are in that order and have the reading's ends; values arrive at each stock by last edge and paths; picks are the
//! second way's (`common/second.rs`) and the reading's, and others than those among ends by last edge.

#![allow(clippy::drop_copy)] // what is drawn gives its number back, which not every test asks for

use crate::common::arrivals::{self, by_edge};
use crate::common::drawn::*;
use crate::common::held::AROUND;
use crate::common::points::{Walk, BUDGET};
use crate::common::second::Second;
use crate::common::vectors::Operation;
use crate::common::{answered, pairings, rounds, steps};
use crate::events;
use keshmirun::Reason::{Acceptable, Competing, Destinations, Forks, NoEnd, OwnDestination};
use keshmirun::{bounds_list, Terms, NO_BOUNDS, NO_NODE};
use reading::random::{Event, Parts, Rng};
use reading::{Answer, Board};
use std::collections::BTreeSet;

/// Target, last edge, value and paths.
type Line<'a> = (u8, u8, Option<u32>, &'a [&'a [u8]]);

impl Point {
    /// The sheet has these lines. Their targets don't fall, and somewhere their last edges do.
    fn assert_lines(&self, lines: &[Line]) {
        let edges = Parts::of(&self.table).unwrap().edges;
        assert!(lines.iter().all(|(target, edge, ..)| edges[usize::from(*edge)][2] == *target), "{lines:?}");
        assert!(lines.windows(2).all(|pair| pair[0].0 <= pair[1].0), "{lines:?}");
        assert!(lines.windows(2).any(|pair| pair[0].1 > pair[1].1), "{lines:?}");
        self.assert_sheet(&lines.iter().map(|(_, edge, value, paths)| (*edge, *value, *paths)).collect::<Vec<_>>());
    }
}

fn good(bytes: &[u8]) -> Answer {
    Answer::Good(bytes.to_vec())
}

// ---- the paper's small event

/// The end at the pin, node 4, on edge 4 comes before the one at the buffer, node 6, on edge 3. The paper's cases with these numbers.
#[test]
fn the_small_event() {
    let marking = vec![0, 15, 1, 0, 2, 0, 0, 0, 7, 0, 0, 0, 9, 0, 0, 0, 1];
    let point = Point { table: events::small().table, marking, guards: vec![1; 5] };
    let (at_pin, at_buffer) = ([4, 1, 0, 0, 0, 7, 2, 2, 0, 4, 3, 1, 2, 4], [3, 1, 0, 0, 0, 7, 1, 2, 1, 3]);
    assert_eq!(point.sheet(&NO_BOUNDS), [&[0, 26, 1, 2][..], &at_pin, &at_buffer].concat());
    [(NO_NODE, 0), (5, 0), (4, 0), (6, 1)].iter().for_each(|(node, end)| point.assert_pick(*node, good(&[*end])));
    point.assert_pick(2, refused(13, 2));
    point.assert_step(&[0, 1], refused(10, 0));
    point.assert_step(&[0], good(&[0, 15, 1, 0, 1, 0, 0, 0, 9, 1, 0, 0, 0, 7, 1, 0, 0]));
    point.assert_step(&[1], good(&[0, 15, 1, 0, 1, 0, 0, 0, 9, 0, 0, 1, 0, 0, 0, 7, 1]));
    point.assert_step(&[], good(&point.marking));

    let to_buffer_shut = Point { guards: vec![1, 1, 1, 0, 1], ..point.clone() };
    assert_eq!(to_buffer_shut.sheet(&NO_BOUNDS), [&[0, 16, 1, 1][..], &at_pin].concat());
    let to_join_shut = Point { guards: vec![1, 1, 0, 1, 1], ..point.clone() };
    assert_eq!(to_join_shut.sheet(&NO_BOUNDS), [&[0, 12, 1, 1][..], &at_buffer].concat());

    let full = Point { marking: vec![0, 23, 1, 0, 2, 0, 0, 0, 7, 0, 0, 0, 9, 0, 0, 2, 0, 0, 0, 1, 0, 0, 0, 2, 1], ..point.clone() };
    full.assert_step(&[1], refused(12, 6));

    let mut forked = point;
    forked.table[5 + 4 * 2] = FORK;
    [&[0][..], &[1]].iter().for_each(|taken| forked.assert_step(taken, refused(11, 2)));
    forked.assert_pick(NO_NODE, good(&[0, 1]));
    forked.assert_step(&[0, 1], good(&[0, 19, 1, 0, 1, 0, 0, 0, 9, 1, 0, 0, 0, 7, 1, 1, 0, 0, 0, 7, 0]));
}

// ---- edges to one node that are no neighbours

/// Four results that go in turns to the losers' list, 1, and to the winners', 0, which has room for so many.
fn in_turns(room: u8) -> Drawing {
    let mut desk = Drawing::default();
    let (winners, losers) = (desk.node(BUFFER, room), desk.node(OUTGOING_PARAMETER, 4));
    for (value, list) in [(20, losers), (21, winners), (22, losers), (23, winners)] {
        desk.result(value, list);
    }
    desk
}

#[test]
fn two_lists_in_turns() {
    let desk = in_turns(4);
    let point = desk.point();
    point.assert_lines(&[(0, 1, Some(21), &[&[1]]), (0, 3, Some(23), &[&[3]]), (1, 0, Some(20), &[&[0]]), (1, 2, Some(22), &[&[2]])]);
    let lines = [1, 1, 0, 0, 0, 21, 1, 1, 1, 3, 1, 0, 0, 0, 23, 1, 1, 3, 0, 1, 0, 0, 0, 20, 1, 1, 0, 2, 1, 0, 0, 0, 22, 1, 1, 2];
    assert_eq!(point.sheet(&NO_BOUNDS), [&[0, 38, 1, 4][..], &lines].concat());
    point.assert_step(&[0, 1, 2, 3], desk.holding(&[(0, 21), (0, 23), (1, 20), (1, 22)], &[]));
    point.assert_step(&[1, 2], desk.holding(&[(3, 21), (4, 22), (0, 23), (1, 20)], &[]));
    point.assert_step(&[0, 3], desk.holding(&[(2, 20), (5, 23), (0, 21), (1, 22)], &[]));
    point.assert_pick(NO_NODE, good(&[0, 1, 2, 3]));
}

/// Of 21 and 23, ends 0 and 1, one goes at most.
#[test]
fn room_for_one_winner() {
    let with_first: [&[u8]; 4] = [&[0, 2, 3], &[0, 2], &[0, 3], &[0]];
    let with_second: [&[u8]; 4] = [&[1, 2, 3], &[1, 2], &[1, 3], &[1]];
    let with_neither: [&[u8]; 4] = [&[2, 3], &[2], &[3], &[]];
    in_turns(1).point().assert_acceptable(&NO_BOUNDS, &[with_first, with_second, with_neither].concat());
    in_turns(1).point().assert_step(&[0, 1, 2], refused(12, 0));
}

/// What is shut or barred has no number, and the others close up.
#[test]
fn guards_and_bounds() {
    let mut desk = in_turns(4);
    desk.parts.edges.iter_mut().for_each(|edge| edge[3] = 1);
    let point = desk.point();
    for (edge, values) in [(0, [21, 23, 22]), (1, [23, 20, 22]), (2, [21, 23, 20]), (3, [21, 20, 22])] {
        let mut shut = point.clone();
        shut.guards[usize::from(edge)] = 0;
        assert_eq!(shut.values(&NO_BOUNDS), values);
        let barred = bounds_list(&[(edge, 0..=9)]);
        assert_eq!(point.values(&barred), values);
        assert_eq!(point.answer(Operation::Pick, &barred, NO_NODE, &[]), good(&[0, 1, 2]));
        assert_eq!(point.answer(Operation::Step, &barred, 0, &[3]), refused(9, 0));
    }
    let two_left = bounds_list(&[(0, 21..=22), (1, 0..=20)]);
    assert_eq!(point.values(&two_left), [23, 22]);
    assert_eq!(point.answer(Operation::Step, &two_left, 0, &[0]), desk.holding(&[(2, 20), (3, 21), (4, 22), (0, 23)], &[]));
}

#[test]
fn room_exact_and_one_short() {
    let point = in_turns(4).point();
    for (operation, length) in [(Operation::Sheet, 40), (Operation::Pick, 4), (Operation::Step, 26)] {
        let full = point.answer(operation, &NO_BOUNDS, NO_NODE, &[0, 1, 2, 3]);
        for (room, expected) in [(length, full), (length - 1, refused(17, 0)), (0, refused(17, 0))] {
            let _ = operation.hold(AROUND, NO_NODE, point.inputs(&NO_BOUNDS, &[0, 1, 2, 3]), room, &expected);
        }
    }
}

/// Two judges' calls for each of two matches, 0 and 1.
#[test]
fn calls_in_turns() {
    let mut hall = Drawing::default();
    let games = [hall.node(ACTION, 0), hall.node(ACTION, 0)];
    for game in [1, 0, 1, 0] {
        hall.token(games[game]);
    }
    let point = hall.point();
    point.assert_lines(&[(0, 1, None, &[&[1]]), (0, 3, None, &[&[3]]), (1, 0, None, &[&[0]]), (1, 2, None, &[&[2]])]);
    point.assert_acceptable(&NO_BOUNDS, &[&[0, 1, 2, 3], &[0, 1], &[2, 3], &[]]);
    point.assert_step(&[0, 1], good(&[0, 8, 1, 0, 1, 0, 1, 0, 1, 0]));
    point.assert_step(&[2, 3], good(&[0, 8, 1, 0, 0, 1, 0, 1, 0, 1]));
    for (taken, place) in [(&[0, 2][..], 0), (&[0, 1, 3], 1), (&[1, 2, 3], 0)] {
        point.assert_step(taken, refused(12, place));
    }
}

/// Edge 0 enters list 3, edge 1 list 2, edge 2 list 1, edge 3 list 0, edge 4 list 3 again, and so on: 20 ends, five to a list.
#[test]
fn twenty_ends() {
    let four_lists = |room: u8, results: u32| {
        let mut desk = Drawing::default();
        let lists = [(); 4].map(|()| desk.node(BUFFER, room));
        for result in 0..results {
            desk.result(result, lists[3 - result as usize % 4]);
        }
        desk
    };
    let by_list = [3, 7, 11, 15, 19, 2, 6, 10, 14, 18, 1, 5, 9, 13, 17, 0, 4, 8, 12, 16];
    let all: Vec<u8> = (0..20).collect();
    let ample = four_lists(5, 20);
    let lines: Vec<_> = by_list.iter().map(|edge| (*edge, Some(u32::from(*edge)), 1)).collect();
    assert_eq!(listed(&ample.point().sheet(&NO_BOUNDS)), lines);
    let arrived: Vec<(u8, u32)> = (0..20).map(|result| (3 - result as u8 % 4, result)).collect();
    ample.point().assert_step(&all, ample.holding(&arrived, &[]));
    ample.point().assert_pick(NO_NODE, good(&all));
    // with room for three of five on each list; the reading would take long
    let first_three = good(&[0, 1, 2, 5, 6, 7, 10, 11, 12, 15, 16, 17]);
    let _ = Operation::Pick.hold(AROUND, NO_NODE, four_lists(3, 20).point().inputs(&NO_BOUNDS, &[]), ROOM, &first_three);
    assert_eq!(four_lists(5, 21).point().answer(Operation::Sheet, &NO_BOUNDS, 0, &[]), refused(8, 0));
}

// ---- seats, which are targets of their own

/// Nodes 0 to 3 are a match, its two seats and a list; edge 0 enters node 3, edge 1 node 2, and so on. The match's number is above those of its seats, below
/// or between them.
#[test]
fn seats_and_their_match() {
    for (game, list, seats) in [(3, 1, [0, 2]), (0, 2, [1, 3]), (1, 2, [0, 3]), (2, 1, [0, 3])] {
        let mut hall = Drawing::default();
        for node in 0..4 {
            match node {
                _ if node == game => hall.node(ACTION, 0),
                _ if node == list => hall.node(BUFFER, 2),
                _ => hall.parts.add_pin(INPUT_PIN, game, 1, 1),
            };
        }
        for node in (0..4).rev() {
            let _ = if node == game { hall.token(game) } else { hall.result(10 + u32::from(node), node) };
        }
        let point = hall.point();
        let paths: [[&[u8]; 1]; 4] = [[&[3]], [&[2]], [&[1]], [&[0]]];
        let value = |node: u8| Some(10 + u32::from(node)).filter(|_| node != game);
        let lines: Vec<Line> = (0..4).zip(&paths).map(|(node, paths)| (node, 3 - node, value(node), &paths[..])).collect();
        point.assert_lines(&lines);
        let of_match: Vec<u8> = (0..4).filter(|node| *node != list).collect();
        point.assert_acceptable(&NO_BOUNDS, &[&[0, 1, 2, 3], &of_match, &[list], &[]]);
        let all = [seats[0], seats[1], list].map(|node| (node, 10 + u32::from(node)));
        point.assert_step(&[0, 1, 2, 3], hall.holding(&all, &[0]));
        [game, seats[0], seats[1]].iter().for_each(|end| point.assert_step(&[*end], refused(12, game)));
    }
}

/// Seats A1, B1, A2, B2 (0 to 3) of matches A and B (4 and 5), which wait for a word each.
#[test]
fn seats_of_two_matches_in_turns() {
    let (a, b) = (4, 5);
    let mut hall = Drawing::default();
    [a, b, a, b].iter().for_each(|game| drop(hall.parts.add_pin(INPUT_PIN, *game, 1, 1)));
    [a, b].iter().for_each(|_| drop(hall.node(ACTION, 0)));
    for (player, seat) in [(13, 3), (11, 1), (12, 2), (10, 0)] {
        hall.result(player, seat);
    }
    hall.token(b);
    hall.token(a);
    let point = hall.point();
    point.assert_lines(&[
        (0, 3, Some(10), &[&[3]]),
        (1, 1, Some(11), &[&[1]]),
        (2, 2, Some(12), &[&[2]]),
        (3, 0, Some(13), &[&[0]]),
        (a, 5, None, &[&[5]]),
        (b, 4, None, &[&[4]]),
    ]);
    point.assert_acceptable(&NO_BOUNDS, &[&[0, 1, 2, 3, 4, 5], &[0, 2, 4], &[1, 3, 5], &[]]);
    for (taken, place) in [(&[0, 2][..], a), (&[1, 5], b), (&[1, 3, 4, 5], a), (&[0, 2, 3, 4], b)] {
        point.assert_step(taken, refused(12, place));
    }

    hall.held.retain(|(_, player)| *player != 10);
    let without_a1 = hall.point();
    [NO_NODE, 1, 3, b].iter().for_each(|node| without_a1.assert_pick(*node, good(&[0, 2, 4])));
    [0, 2, a].iter().for_each(|node| without_a1.assert_pick(*node, refused(13, *node)));
}

/// A team's seat, 0, for two players or three, of match 2, and a list, 1. Edges 1, 3, 4 and 5 enter the seat, 0 and 2 the list.
#[test]
fn a_seat_of_several_edges() {
    let mut hall = Drawing::default();
    let seat = hall.parts.add_pin(INPUT_PIN, 2, 2, 3);
    let (list, game) = (hall.node(BUFFER, 4), hall.node(ACTION, 0));
    for (player, to) in [(20, list), (21, seat), (22, list), (23, seat), (24, seat), (25, seat)] {
        hall.result(player, to);
    }
    let point = hall.point();
    assert_eq!(point.values(&NO_BOUNDS), [21, 23, 24, 25, 20, 22]);
    [NO_NODE, seat, list, game].iter().for_each(|node| point.assert_pick(*node, good(&[0, 1, 2, 4, 5])));
    let (in_seat, on_list) = ([3, 0, 0, 0, 21, 0, 0, 0, 23, 0, 0, 0, 24], [2, 0, 0, 0, 20, 0, 0, 0, 22]);
    let left = [0, 0, 0, 0, 0, 1, 0, 0, 0, 25];
    point.assert_step(&[0, 1, 2, 4, 5], good(&[&[0, 35, 1, 0][..], &in_seat, &on_list, &[1], &left].concat()));
    point.assert_step(&[1, 3], hall.holding(&[(3, 20), (4, 21), (5, 22), (7, 24), (seat, 23), (seat, 25)], &[]));
    [&[0][..], &[0, 1, 2, 3], &[3, 4, 5]].iter().for_each(|taken| point.assert_step(taken, refused(12, game)));
}

// ---- every kind of target

/// Activity final 0, outgoing parameter 1, flow final 2, buffer 3, pin 4 and its action 5; edge 0 enters node 5, edge 1 node 4, and so on.
#[test]
fn every_kind_of_target() {
    let mut hall = Drawing::default();
    hall.node(ACTIVITY_FINAL, 0);
    hall.node(OUTGOING_PARAMETER, 4);
    hall.node(FLOW_FINAL, 0);
    hall.node(BUFFER, 4);
    hall.parts.add_pin(INPUT_PIN, 5, 1, 1);
    hall.node(ACTION, 0);
    hall.token(5);
    for (value, node) in [(21, 4), (22, 3), (23, 2), (24, 1)] {
        hall.result(value, node);
    }
    hall.token(0);
    let point = hall.point();
    point.assert_lines(&[
        (0, 5, None, &[&[5]]),
        (1, 4, Some(24), &[&[4]]),
        (2, 3, Some(23), &[&[3]]),
        (3, 2, Some(22), &[&[2]]),
        (4, 1, Some(21), &[&[1]]),
        (5, 0, None, &[&[0]]),
    ]);
    point.assert_pick(NO_NODE, good(&[0, 1, 2, 3, 4, 5]));
    point.assert_step(&[1, 2, 3, 4, 5], hall.holding(&[(1, 24), (3, 22), (4, 21)], &[0, 1]));
    point.assert_step(&[2, 3], hall.holding(&[(7, 21), (10, 24), (3, 22)], &[1, 1]));
    // the end of the activity has number 0, and what comes behind it arrives all the same
    let with_24 = good(&[0, 16, 1, 1, 1, 0, 0, 0, 24, 0, 0, 0, 0, 0, 0, 0, 0, 0]);
    [&[0, 1][..], &[0, 1, 2, 3, 4, 5]].iter().for_each(|taken| point.assert_step(taken, with_24.clone()));
    point.assert_step(&[0, 2, 3], good(&[0, 12, 1, 1, 0, 0, 0, 0, 0, 0, 0, 0, 0, 0]));
}

// ---- at one node as before

/// Two results that a merge, 2, brings to list 1 over edge 0, told apart by their paths; and two for list 0.
#[test]
fn two_ends_on_one_edge() {
    let mut desk = Drawing::default();
    let lists = [desk.node(BUFFER, 4), desk.node(BUFFER, 4)];
    let merge = desk.node(MERGE, 0);
    desk.edge(OBJECT, merge, lists[1]);
    for (value, to) in [(20, merge), (21, lists[0]), (22, merge), (23, lists[0])] {
        desk.result(value, to);
    }
    let point = desk.point();
    point.assert_lines(&[(0, 2, Some(21), &[&[2]]), (0, 4, Some(23), &[&[4]]), (1, 0, Some(20), &[&[1, 0]]), (1, 0, Some(22), &[&[3, 0]])]);
    point.assert_step(&[0, 1, 2, 3], desk.holding(&[(0, 21), (0, 23), (1, 20), (1, 22)], &[]));
    point.assert_step(&[0, 3], desk.holding(&[(3, 20), (6, 23), (0, 21), (1, 22)], &[]));
}

/// A result that goes by a join, 2, with one token or another: both its ends are on edge 0, and their first paths are the same.
#[test]
fn told_apart_by_their_second_paths() {
    let mut desk = Drawing::default();
    let lists = [desk.node(BUFFER, 4), desk.node(BUFFER, 4)];
    let join = desk.node(JOIN, 0);
    desk.edge(OBJECT, join, lists[1]);
    desk.result(20, join);
    desk.either_token(join);
    desk.result(21, lists[0]);
    let point = desk.point();
    point.assert_lines(&[(0, 5, Some(21), &[&[5]]), (1, 0, Some(20), &[&[1, 0], &[2, 4, 0]]), (1, 0, Some(20), &[&[1, 0], &[3, 4, 0]])]);
    point.assert_competing(&[(&[1, 2], 1), (&[0, 1, 2], 1)]);
    point.assert_acceptable(&NO_BOUNDS, &[&[0, 1], &[0, 2], &[0], &[1], &[2], &[]]);
    point.assert_step(&[0, 2], desk.holding(&[(0, 21), (1, 20)], &[1, 0]));
}

/// List 0 is entered by edge 2, and by edge 3 on a path that begins with edge 0: the lower last edge comes first. List 1 is entered by edge 1.
#[test]
fn last_edges_before_paths() {
    let mut desk = Drawing::default();
    let lists = [desk.node(BUFFER, 4), desk.node(BUFFER, 4)];
    let merge = desk.node(MERGE, 0);
    for (value, to) in [(20, merge), (21, lists[1]), (22, lists[0])] {
        desk.result(value, to);
    }
    desk.edge(OBJECT, merge, lists[0]);
    let point = desk.point();
    point.assert_lines(&[(0, 2, Some(22), &[&[2]]), (0, 3, Some(20), &[&[0, 3]]), (1, 1, Some(21), &[&[1]])]);
    point.assert_step(&[0, 1, 2], good(&[0, 19, 1, 0, 2, 0, 0, 0, 22, 0, 0, 0, 20, 1, 0, 0, 0, 21, 0, 0, 0]));
    point.assert_step(&[1, 2], desk.holding(&[(5, 22), (0, 20), (1, 21)], &[]));
}

// ---- picks and refusals

/// A queue's player for list 1 by the lower edge or for list 0 by the higher, over two edges or by a decision: it is the higher edge's end that is picked.
#[test]
fn another_list() {
    for by in [None, Some(DECISION)] {
        let mut desk = Drawing::default();
        let lists = [desk.node(BUFFER, 1), desk.node(BUFFER, 1)];
        let queue = desk.queue(&[7, 8]);
        let from = by.map_or(queue, |kind| desk.behind(OBJECT, queue, kind, 0));
        desk.edge(OBJECT, from, lists[1]);
        desk.edge(OBJECT, from, lists[0]);
        let point = desk.point();
        match by {
            None => point.assert_lines(&[(0, 1, Some(7), &[&[1]]), (1, 0, Some(7), &[&[0]])]),
            Some(_) => point.assert_lines(&[(0, 2, Some(7), &[&[0, 2]]), (1, 1, Some(7), &[&[0, 1]])]),
        }
        point.assert_acceptable(&NO_BOUNDS, &[&[0], &[1], &[]]);
        point.assert_step(&[0], desk.holding(&[(queue, 8), (0, 7)], &[]));
        point.assert_step(&[1], desk.holding(&[(queue, 8), (1, 7)], &[]));
    }
}

/// The first of two players of a match is wanted on list 0 too, by a higher edge: the list is picked, where the match was before. Who asks for the match gets it.
#[test]
fn a_list_before_a_match() {
    let mut hall = Drawing::default();
    let list = hall.node(BUFFER, 4);
    let (game, seats) = hall.game([(1, 1), (1, 1)]);
    let first = hall.result(7, seats[0]);
    let second = hall.result(8, seats[1]);
    hall.edge(OBJECT, first, list);
    let point = hall.point();
    point.assert_lines(&[(list, 2, Some(7), &[&[2]]), (seats[0], 0, Some(7), &[&[0]]), (seats[1], 1, Some(8), &[&[1]])]);
    point.assert_acceptable(&NO_BOUNDS, &[&[0], &[1, 2], &[]]);
    point.assert_step(&[0], hall.holding(&[(second, 8), (list, 7)], &[]));
    point.assert_pick(game, good(&[1, 2]));
    point.assert_step(&[1, 2], hall.holding(&[(seats[0], 7), (seats[1], 8)], &[]));
}

/// Both results of a round, behind their join (2) and a decision (4), for list 1 by the lower edge or for list 0 by the higher.
#[test]
fn a_round_for_another_list() {
    let mut desk = Drawing::default();
    let lists = [desk.node(BUFFER, 2), desk.node(BUFFER, 2)];
    let (join, merge, decision) = (desk.node(JOIN, 0), desk.node(MERGE, 0), desk.node(DECISION, 0));
    desk.edge(OBJECT, merge, join);
    desk.result(7, merge);
    desk.result(8, merge);
    desk.token(join);
    desk.edge(OBJECT, join, decision);
    desk.edge(OBJECT, decision, lists[1]);
    desk.edge(OBJECT, decision, lists[0]);
    let point = desk.point();
    point.assert_lines(&[
        (0, 6, Some(7), &[&[1, 0, 4, 6], &[3, 4, 6]]),
        (0, 6, Some(8), &[&[2, 0, 4, 6], &[3, 4, 6]]),
        (1, 5, Some(7), &[&[1, 0, 4, 5], &[3, 4, 5]]),
        (1, 5, Some(8), &[&[2, 0, 4, 5], &[3, 4, 5]]),
    ]);
    point.assert_competing(&[(&[0, 2], 0), (&[1, 3], 1), (&[0, 1, 3], 1)]);
    point.assert_acceptable(&NO_BOUNDS, &[&[0, 1], &[0, 3], &[0], &[1, 2], &[1], &[2, 3], &[2], &[3], &[]]);
    point.assert_step(&[0, 1], desk.holding(&[(0, 7), (0, 8)], &[0]));
}

/// Queues of 7, for lists 2 and 1, and of 9, for lists 4 and 3; 8 goes to list 0. The place of 10 is the lowest of the new numbers.
#[test]
fn the_lowest_that_competes() {
    let mut desk = Drawing::default();
    (0..5).for_each(|_| drop(desk.node(BUFFER, 2)));
    let queue = desk.queue(&[7]);
    desk.edge(OBJECT, queue, 2);
    desk.edge(OBJECT, queue, 1);
    desk.result(8, 0);
    let other = desk.queue(&[9]);
    desk.edge(OBJECT, other, 4);
    desk.edge(OBJECT, other, 3);
    let point = desk.point();
    point.assert_lines(&[
        (0, 2, Some(8), &[&[2]]),
        (1, 1, Some(7), &[&[1]]),
        (2, 0, Some(7), &[&[0]]),
        (3, 4, Some(9), &[&[4]]),
        (4, 3, Some(9), &[&[3]]),
    ]);
    point.assert_competing(&[(&[1, 2], 1), (&[0, 1, 2], 1), (&[1, 2, 3, 4], 1), (&[0, 1, 2, 3, 4], 1)]);
    point.assert_competing(&[(&[3, 4], 3), (&[0, 3, 4], 3), (&[2, 3, 4], 3)]);
    point.assert_pick(NO_NODE, good(&[0, 1, 3]));
    point.assert_step(&[0, 2, 4], desk.holding(&[(0, 8), (2, 7), (4, 9)], &[]));
}

/// 7 and 8, by forks 3 and 2, go to both lists, to list 1 by the lower edges. The places of 11 and 12 are nodes, whatever the ends' numbers are.
#[test]
fn forks_and_full_lists() {
    let forked = |rooms: [u8; 2]| {
        let mut desk = Drawing::default();
        rooms.iter().for_each(|room| drop(desk.node(BUFFER, *room)));
        let forks = [desk.node(FORK, 0), desk.node(FORK, 0)];
        desk.result(7, forks[1]);
        desk.result(8, forks[0]);
        for list in [1, 0] {
            desk.edge(OBJECT, forks[1], list);
            desk.edge(OBJECT, forks[0], list);
        }
        desk
    };
    let desk = forked([2, 2]);
    let point = desk.point();
    point.assert_lines(&[(0, 4, Some(7), &[&[0, 4]]), (0, 5, Some(8), &[&[1, 5]]), (1, 2, Some(7), &[&[0, 2]]), (1, 3, Some(8), &[&[1, 3]])]);
    for (taken, fork) in [(&[0][..], 3), (&[2], 3), (&[1], 2), (&[3], 2), (&[0, 1], 2), (&[0, 3], 2), (&[0, 1, 3], 3)] {
        point.assert_step(taken, refused(11, fork));
    }
    point.assert_acceptable(&NO_BOUNDS, &[&[0, 1, 2, 3], &[0, 2], &[1, 3], &[]]);
    point.assert_step(&[0, 1, 2, 3], desk.holding(&[(0, 7), (0, 8), (1, 7), (1, 8)], &[]));
    for (rooms, place) in [([2, 1], 1), ([1, 2], 0), ([1, 1], 0)] {
        forked(rooms).point().assert_step(&[0, 1, 2, 3], refused(12, place));
        forked(rooms).point().assert_acceptable(&NO_BOUNDS, &[&[0, 2], &[1, 3], &[]]);
    }
}

/// An event with every reason, its edges as they are drawn and the other way round: 13 and why speak of sets of ends, whatever their numbers are.
#[test]
fn reasons_as_before() {
    let mut hall = Drawing::default();
    let full = hall.full_list();
    let seats = [(); 2].map(|()| hall.parts.add_pin(INPUT_PIN, 3, 1, 1));
    let game = hall.node(ACTION, 0);
    let [beside_full, nobodys, open, beside_waiting] = [(); 4].map(|()| hall.node(BUFFER, 2));
    hall.result(20, open);
    let fork = hall.node(FORK, 0);
    hall.result(21, fork);
    hall.edge(OBJECT, fork, beside_waiting);
    let join = hall.behind(OBJECT, fork, JOIN, 0);
    hall.token(join);
    let waiting = hall.behind(OBJECT, join, BUFFER, 2);
    let other_fork = hall.node(FORK, 0);
    hall.result(22, other_fork);
    hall.edge(OBJECT, other_fork, beside_full);
    hall.edge(OBJECT, other_fork, full);
    let queue = hall.queue(&[7]);
    hall.edge(OBJECT, queue, seats[1]);
    hall.edge(OBJECT, queue, seats[0]);
    hall.with_tokens(&[0]).assert_lines(&[
        (full, 8, Some(22), &[&[6, 8]]),
        (seats[0], 10, Some(7), &[&[10]]),
        (seats[1], 9, Some(7), &[&[9]]),
        (beside_full, 7, Some(22), &[&[6, 7]]),
        (open, 0, Some(20), &[&[0]]),
        (beside_waiting, 2, Some(21), &[&[1, 2]]),
    ]);
    for _ in 0..2 {
        let point = hall.with_tokens(&[0]);
        for (node, reason) in [
            (full, OwnDestination),
            (seats[0], Competing),
            (seats[1], Competing),
            (game, Competing),
            (beside_full, Destinations),
            (nobodys, NoEnd),
            (open, Acceptable),
            (beside_waiting, Forks),
            (waiting, NoEnd),
            (fork, NoEnd),
            (254, NoEnd),
            (NO_NODE, Acceptable),
        ] {
            assert_eq!(point.answer(Operation::Why, &NO_BOUNDS, node, &[]), good(&[reason.number()]));
            point.assert_pick(node, if reason == Acceptable { good(&[4]) } else { refused(13, node) });
        }
        hall.parts.edges.reverse();
    }
}

// ---- a day

/// The example's day when its round has been called and a fifth player waits: seats and reserve (3 to 7), match A (10) and its pins, match B (15) and its pins.
#[test]
fn the_day() {
    let table = events::day().table;
    let mut guards = [1; 40];
    guards[events::TO_RESERVE] = 0;
    let step = |marking: &[u8], taken: &[u8]| answered(|out| keshmirun::step(&table, marking, Terms::new(&guards), taken, out));
    let bytes = |answer: Answer| match answer {
        Answer::Good(bytes) => bytes,
        refused => panic!("{refused:?}"),
    };
    let mut marking = bytes(answered(|out| keshmirun::start(&table, &events::list(&[40, 17, 23, 8, 31]), out)));
    // the seats are ends 0 to 3, and the call of the round is end 4, where it is offered
    for taken in [&[0, 4][..], &[1], &[2], &[3]] {
        marking = bytes(step(&marking, taken));
    }
    let marking = bytes(answered(|out| keshmirun::finish(&table, &marking, 8, &[], out)));
    let point = Point { table: table.clone(), marking, guards: vec![1; 40] };
    point.assert_lines(&[
        (3, 2, Some(31), &[&[1, 2]]),
        (4, 3, Some(31), &[&[1, 3]]),
        (5, 4, Some(31), &[&[1, 4]]),
        (6, 5, Some(31), &[&[1, 5]]),
        (7, 6, Some(31), &[&[1, 6]]),
        (10, 12, None, &[&[11, 12]]),
        (11, 7, Some(40), &[&[7]]),
        (12, 8, Some(17), &[&[8]]),
        (15, 13, None, &[&[11, 13]]),
        (16, 9, Some(23), &[&[9]]),
        (17, 10, Some(8), &[&[10]]),
    ]);
    point.assert_pick(NO_NODE, good(&[4, 5, 6, 7, 8, 9, 10]));
    point.assert_step(&[4, 5, 6, 7], refused(11, 9));
    point.assert_step(&[4, 5, 6, 8, 9, 10], refused(12, 10));
}

// ---- random events

/// Points of random events, of each kind in turn.
#[derive(Default)]
struct Points {
    walk: Walk,
    turn: usize,
}

impl Points {
    /// The next at which there is a board, with it.
    fn next(&mut self, rng: &mut Rng) -> (Event, Board) {
        loop {
            self.turn += 1;
            let event = match self.turn % 4 {
                0 => self.walk.next(rng),
                1 => Event::anywhere(rng),
                2 => rounds::event(rng),
                _ => pairings::event(rng),
            };
            if let Some(Ok(board)) = Board::within(&event.table, &event.marking, &event.guards, &event.bounds, BUDGET) {
                return (event, board);
            }
        }
    }
}

/// The ends of the engine's sheet.
fn ends_of(Event { table, marking, guards, bounds, .. }: &Event) -> Vec<arrivals::End> {
    match answered(|out| keshmirun::sheet(table, marking, Terms::new(guards).with_bounds(bounds), out)) {
        Answer::Good(sheet) => decoded(&sheet),
        refused => panic!("{refused:?}, {table:02x?}, {marking:02x?}"),
    }
}

/// Ends rise by target, last edge and paths, and are the reading's. Those at one node are in the order that they have by last edge and paths.
#[test]
fn random_sheets() {
    let (mut rng, mut points) = (Rng::new(91), Points::default());
    let (mut regrouped, mut on_one_edge) = (0, 0);
    for _ in 0..24_000 {
        let (event, _) = points.next(&mut rng);
        let edges = Parts::of(&event.table).unwrap().edges;
        let target = |end: &arrivals::End| edges[usize::from(end.0)][2];
        let ends = ends_of(&event);
        assert!(ends.windows(2).all(|pair| (target(&pair[0]), pair[0].0, &pair[0].2) < (target(&pair[1]), pair[1].0, &pair[1].2)), "{event:02x?}");
        let Event { table, marking, guards, bounds, .. } = &event;
        let read = match reading::sheet_within(table, marking, guards, bounds, ROOM, BUDGET) {
            Some(Answer::Good(sheet)) => decoded(&sheet),
            refused => panic!("{refused:?}, {event:02x?}"),
        };
        let ungrouped = by_edge(&ends);
        assert_eq!(ungrouped, by_edge(&read), "{event:02x?}");
        for node in ends.iter().map(target).collect::<BTreeSet<u8>>() {
            let at_node = |ends: &[arrivals::End]| ends.iter().filter(|end| target(end) == node).cloned().collect::<Vec<_>>();
            assert_eq!(at_node(&ends), at_node(&ungrouped), "node {node}, {event:02x?}");
        }
        regrouped += usize::from(ends != ungrouped);
        on_one_edge += usize::from(ends != ungrouped && ends.windows(2).any(|pair| pair[0].0 == pair[1].0));
    }
    assert!(regrouped >= 7_000 && on_one_edge >= 1_500, "{regrouped}, {on_one_edge}");
}

/// Steps are refused as the reading refuses them, at its places. The marking after one that is taken has in each stock what arrives by last edge and paths.
#[test]
fn random_steps() {
    let (mut rng, mut points) = (Rng::new(92), Points::default());
    let (mut taken, mut arrived, mut at_other_numbers) = (0, 0, 0);
    for _ in 0..10_000 {
        let (event, board) = points.next(&mut rng);
        let Event { table, marking, guards, bounds, .. } = &event;
        let parts = Parts::of(table).unwrap();
        let (ends, ungrouped) = (ends_of(&event), by_edge(&ends_of(&event)));
        for choice in steps::choices(&mut rng, &board) {
            let answer = answered(|out| keshmirun::step(table, marking, Terms::new(guards).with_bounds(bounds), &choice, out));
            assert_eq!(answer, board.step(&choice, ROOM), "{choice:?}, {event:02x?}");
            if let Answer::Good(next) = answer {
                let chosen: Vec<_> = choice.iter().map(|end| ends[usize::from(*end)].clone()).collect();
                assert_eq!(next, arrivals::after(&parts, marking, &chosen), "{choice:?}, {event:02x?}");
                taken += 1;
                at_other_numbers += usize::from(chosen.iter().zip(&choice).any(|(end, number)| ungrouped[usize::from(*number)] != *end));
                let is_stock = |node: u8| matches!(parts.nodes[usize::from(node)][0], INPUT_PIN | BUFFER | OUTGOING_PARAMETER);
                let arriving: Vec<_> = chosen.iter().map(|(edge, value, _)| (parts.edges[usize::from(*edge)][2], value)).collect();
                arrived += usize::from(arriving.windows(2).any(|pair| pair[0].0 == pair[1].0 && is_stock(pair[0].0) && pair[0].1 != pair[1].1));
            }
        }
    }
    assert!(taken >= 50_000 && arrived >= 2_500 && at_other_numbers >= 9_000, "{taken}, {arrived}, {at_other_numbers}");
}

/// For no node and for each that has an end: the first choice by the new numbers. Where another is the first by the old ones, the lowest end that only one of
/// the two holds is the one's by the new numbers and the other's by the old. Both are refused 13, or neither.
#[test]
fn random_picks() {
    let (mut rng, mut points) = (Rng::new(93), Points::default());
    let (mut picks, mut refusals, mut others) = (0, 0, 0);
    for _ in 0..9_000 {
        let (event, board) = points.next(&mut rng);
        let Event { table, marking, guards, bounds, .. } = &event;
        let (grouped, ungrouped) = (Second::of(table, marking, guards, bounds).unwrap(), Second::ungrouped(table, marking, guards, bounds).unwrap());
        let numbers = ungrouped.numbers_in(&grouped);
        let nodes: BTreeSet<u8> = grouped.targets().into_iter().chain([NO_NODE]).collect();
        for node in nodes {
            let named = Some(node).filter(|node| *node != NO_NODE);
            let first = grouped.pick(named);
            let answer = answered(|out| keshmirun::pick(table, marking, Terms::new(guards).with_bounds(bounds), node, out));
            assert_eq!(answer, first.clone().map_or(refused(13, node), Answer::Good), "node {node}, {event:02x?}");
            let read = board.pick_within(node, ROOM, 300);
            assert!(read.is_none() || read == Some(answer), "node {node}, {event:02x?}");
            match (first, ungrouped.pick(named)) {
                (Some(first), Some(before)) => {
                    let renumbered: BTreeSet<u8> = before.iter().map(|end| numbers[usize::from(*end)]).collect();
                    let first: BTreeSet<u8> = first.into_iter().collect();
                    let alone: Vec<u8> = first.symmetric_difference(&renumbered).copied().collect();
                    let lowest_before = numbers.iter().find(|end| alone.contains(end));
                    assert!(alone.first().map_or(true, |lowest| first.contains(lowest)), "node {node}, {event:02x?}");
                    assert!(lowest_before.map_or(true, |lowest| renumbered.contains(lowest)), "node {node}, {event:02x?}");
                    picks += 1;
                    others += usize::from(!alone.is_empty());
                }
                (None, None) => refusals += 1,
                differ => panic!("node {node}, {differ:?}, {event:02x?}"),
            }
        }
    }
    assert!(picks >= 14_000 && refusals >= 7_500 && others >= 1_500, "{picks}, {refusals}, {others}");
}
