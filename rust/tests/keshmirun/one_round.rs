//! Results of one round: offers of a join whose object offers differ and whose control offers are all the same don't compete, so one token lets all results
//! through. Which offers are of one round, what is spent and gained, what happens behind such a join, and that all other offers of a join compete as before.
//! Every call is held to an answer that is written here and to the plain reading of the paper. Then `step` and `pick` beside the reading at random rounds.

use crate::common::drawn::*;
use crate::common::held::AROUND;
use crate::common::vectors::Operation;
use crate::common::{picks, rounds, steps};
use keshmirun::{bounds_list, NO_BOUNDS, NO_NODE};
use reading::Answer;

const JOINED: u8 = 0;
const MERGED: u8 = 1;

/// Results that a merge (node 1) brings to a join (node 0), and no token yet. Edge 0 leads from the one to the other, 1, 2 .. are the results'.
fn results(values: &[u32]) -> Drawing {
    let mut drawing = Drawing::default();
    let (join, merge) = (drawing.node(JOIN, 0), drawing.node(MERGE, 0));
    drawing.edge(OBJECT, merge, join);
    for value in values {
        drawing.result(*value, merge);
    }
    drawing
}

/// The same with a token. Its edge to the join comes behind those of the results.
fn round(values: &[u32]) -> Drawing {
    let mut drawing = results(values);
    drawing.token(JOINED);
    drawing
}

// ---- one token for all results

/// By a buffer or an outgoing parameter. Nodes: join 0, merge 1, the results' 2 and 3, the token's 4, and where they go 5.
#[test]
fn two_results_and_one_token() {
    for kind in [BUFFER, OUTGOING_PARAMETER] {
        let mut round = round(&[7, 8]);
        round.behind(OBJECT, JOINED, kind, 2);
        let point = round.point();
        assert_eq!(point.marking, [0, 14, 1, 0, 1, 0, 0, 0, 7, 1, 0, 0, 0, 8, 0, 1]);
        let ends = [4, 1, 0, 0, 0, 7, 2, 3, 1, 0, 4, 2, 3, 4, 4, 1, 0, 0, 0, 8, 2, 3, 2, 0, 4, 2, 3, 4];
        assert_eq!(point.sheet(&NO_BOUNDS), [&[0, 30, 1, 2][..], &ends].concat());
        point.assert_step(&[], Answer::Good(point.marking.clone()));
        point.assert_step(&[0], Answer::Good(vec![0, 14, 1, 0, 0, 1, 0, 0, 0, 8, 1, 0, 0, 0, 7, 0]));
        point.assert_step(&[1], Answer::Good(vec![0, 14, 1, 0, 1, 0, 0, 0, 7, 0, 1, 0, 0, 0, 8, 0]));
        point.assert_step(&[0, 1], Answer::Good(vec![0, 14, 1, 0, 0, 0, 2, 0, 0, 0, 7, 0, 0, 0, 8, 0]));
        [NO_NODE, 5].iter().for_each(|node| point.assert_pick(*node, Answer::Good(vec![0, 1])));
        [0, 1, 2, 3, 4, 6, 254].iter().for_each(|node| point.assert_pick(*node, refused(13, *node)));
        point.assert_acceptable(&NO_BOUNDS, &[&[0, 1], &[0], &[1], &[]]);
    }
}

/// By a pin, 5, of action 6. It may need both.
#[test]
fn two_results_for_an_action() {
    for lower in [1, 2] {
        let mut round = round(&[7, 8]);
        round.pin_behind(JOINED, lower, 2);
        let point = round.point();
        assert_eq!(point.marking, [0, 15, 1, 0, 1, 0, 0, 0, 7, 1, 0, 0, 0, 8, 0, 0, 1]);
        point.assert_step(&[0, 1], Answer::Good(vec![0, 15, 1, 0, 0, 0, 2, 0, 0, 0, 7, 0, 0, 0, 8, 1, 0]));
        [NO_NODE, 5, 6].iter().for_each(|node| point.assert_pick(*node, Answer::Good(vec![0, 1])));
        [0, 1, 2, 3, 4, 7].iter().for_each(|node| point.assert_pick(*node, refused(13, *node)));
        if lower == 1 {
            point.assert_step(&[0], Answer::Good(vec![0, 15, 1, 0, 0, 1, 0, 0, 0, 8, 1, 0, 0, 0, 7, 1, 0]));
            point.assert_step(&[1], Answer::Good(vec![0, 15, 1, 0, 1, 0, 0, 0, 7, 0, 1, 0, 0, 0, 8, 1, 0]));
            point.assert_acceptable(&NO_BOUNDS, &[&[0, 1], &[0], &[1], &[]]);
        } else {
            point.assert_step(&[0], refused(12, 6));
            point.assert_step(&[1], refused(12, 6));
            point.assert_acceptable(&NO_BOUNDS, &[&[0, 1], &[]]);
        }
    }
}

#[test]
fn room_exact_and_one_short() {
    let mut round = round(&[7, 8]);
    round.behind(OBJECT, JOINED, BUFFER, 2);
    let point = round.point();
    for (operation, length) in [(Operation::Pick, 2), (Operation::Step, 16)] {
        let full = point.answer(operation, &NO_BOUNDS, NO_NODE, &[0, 1]);
        for (room, expected) in [(length, full), (length - 1, refused(17, 0)), (0, refused(17, 0))] {
            let _ = operation.hold(AROUND, NO_NODE, point.inputs(&NO_BOUNDS, &[0, 1]), room, &expected);
        }
    }
}

#[test]
fn three_results_and_one_token() {
    let mut round = round(&[9, 8, 7]);
    let to = round.behind(OBJECT, JOINED, BUFFER, 3);
    let point = round.point();
    point.assert_acceptable(&NO_BOUNDS, &[&[0, 1, 2], &[0, 1], &[0, 2], &[0], &[1, 2], &[1], &[2], &[]]);
    point.assert_step(&[0, 1, 2], round.holding(&[(to, 9), (to, 8), (to, 7)], &[0]));
    point.assert_step(&[0, 2], round.holding(&[round.held[1], (to, 9), (to, 7)], &[0]));
}

/// Room for two of three: the first two in the order of ends.
#[test]
fn little_room() {
    let some_two: [&[u8]; 7] = [&[0, 1], &[0, 2], &[0], &[1, 2], &[1], &[2], &[]];
    let mut by_pin = round(&[7, 8, 9]);
    let pin = by_pin.pin_behind(JOINED, 1, 2);
    by_pin.point().assert_step(&[0, 1, 2], refused(12, pin + 1));
    by_pin.point().assert_step(&[0, 1], by_pin.holding(&[by_pin.held[2], (pin, 7), (pin, 8)], &[0]));
    by_pin.point().assert_acceptable(&NO_BOUNDS, &some_two);
    for (kind, before) in [(BUFFER, 0), (BUFFER, 1), (OUTGOING_PARAMETER, 0), (OUTGOING_PARAMETER, 14)] {
        let mut by_stock = round(&[7, 8, 9]);
        let to = by_stock.behind(OBJECT, JOINED, kind, before + 2);
        by_stock.held.extend((0..before).map(|_| (to, 6)));
        by_stock.point().assert_step(&[0, 1, 2], refused(12, to));
        by_stock.point().assert_acceptable(&NO_BOUNDS, &some_two);
    }
}

/// As many as a sheet has ends at most, all in one step; a buffer takes the first 16.
#[test]
fn twenty_results_and_one_token() {
    let values: Vec<u32> = (0..20).collect();
    let all: Vec<u8> = (0..20).collect();
    let mut dropped = round(&values);
    dropped.behind(OBJECT, JOINED, FLOW_FINAL, 0);
    dropped.point().assert_pick(NO_NODE, Answer::Good(all.clone()));
    dropped.point().assert_step(&all, dropped.holding(&[], &[0]));

    let mut kept = round(&values);
    let to = kept.behind(OBJECT, JOINED, BUFFER, 16);
    kept.point().assert_pick(to, Answer::Good(all[..16].to_vec()));
    kept.point().assert_step(&all[..17], refused(12, to));
    let after: Vec<(u8, u32)> = kept.held[16..].iter().copied().chain((0..16).map(|value| (to, value))).collect();
    kept.point().assert_step(&all[..16], kept.holding(&after, &[0]));

    let mut too_many = round(&[&values[..], &[20]].concat());
    too_many.behind(OBJECT, JOINED, FLOW_FINAL, 0);
    too_many.point().assert_pick(NO_NODE, refused(8, 0));
}

/// However many tokens there are, they go as one, and all go.
#[test]
fn the_token_is_spent_once() {
    let mut round = round(&[7, 8]);
    let to = round.behind(OBJECT, JOINED, BUFFER, 2);
    for tokens in [1, 2, 7, 255] {
        let point = Point { marking: marking(&round.parts, &round.held, &[tokens]), ..round.point() };
        point.assert_acceptable(&NO_BOUNDS, &[&[0, 1], &[0], &[1], &[]]);
        point.assert_step(&[0, 1], round.holding(&[(to, 7), (to, 8)], &[0]));
        point.assert_step(&[0], round.holding(&[round.held[1], (to, 7)], &[0]));
        point.assert_step(&[], round.holding(&round.held, &[tokens]));
    }
    let spent = Point { marking: marking(&round.parts, &round.held, &[0]), ..round.point() };
    assert_eq!(spent.values(&NO_BOUNDS), []);
    spent.assert_acceptable(&NO_BOUNDS, &[&[]]);
}

/// Of each stock the oldest value goes, and what is behind it waits for the next round.
#[test]
fn one_value_of_each_stock() {
    let mut round = round(&[7, 8]);
    let to = round.behind(OBJECT, JOINED, BUFFER, 4);
    let (first, _) = round.held[0];
    round.parts.nodes[usize::from(first)][3] = 2;
    round.held.push((first, 9));
    assert_eq!(round.point().values(&NO_BOUNDS), [7, 8]);
    round.point().assert_step(&[0, 1], round.holding(&[(first, 9), (to, 7), (to, 8)], &[0]));
}

// ---- the same control offers, edge by edge

/// Tokens of one initial node, or of one each, or the branches of a fork, as many as paths allow at most: both results have all of them.
#[test]
fn the_same_on_every_control_edge() {
    for edges in [2, 3, 7] {
        let (mut of_one, mut of_each, mut forked) = (results(&[7, 8]), results(&[7, 8]), results(&[7, 8]));
        let start = of_one.node(INITIAL, 0);
        let fork = forked.node(FORK, 0);
        forked.token(fork);
        for _ in 0..edges {
            of_one.edge(CONTROL, start, JOINED);
            of_each.token(JOINED);
            forked.edge(CONTROL, fork, JOINED);
        }
        for (mut round, tokens) in [(of_one, edges), (of_each, edges), (forked, 1)] {
            let to = round.behind(OBJECT, JOINED, BUFFER, 2);
            round.point().assert_acceptable(&NO_BOUNDS, &[&[0, 1], &[0], &[1], &[]]);
            round.point().assert_step(&[0, 1], round.holding(&[(to, 7), (to, 8)], &vec![0; tokens]));
        }
    }
}

/// Ends 0 and 1 are 7 with either token, 2 and 3 are 8.
#[test]
fn one_in_common_and_another_not() {
    let mut round = round(&[7, 8]);
    round.either_token(JOINED);
    round.behind(OBJECT, JOINED, FLOW_FINAL, 0);
    let point = round.point();
    assert_eq!(point.values(&NO_BOUNDS), [7, 7, 8, 8]);
    point.assert_competing(&[(&[0, 3], 0), (&[1, 2], 1), (&[0, 1], 0), (&[2, 3], 2), (&[0, 2, 3], 0), (&[1, 2, 3], 1), (&[0, 1, 2, 3], 0)]);
    point.assert_acceptable(&NO_BOUNDS, &[&[0, 2], &[0], &[1, 3], &[1], &[2], &[3], &[]]);
    point.assert_step(&[1, 3], round.holding(&[], &[0, 1, 0]));
}

/// The same without the first token: with one token each, results have no offer in common, and went together before.
#[test]
fn one_token_for_both_or_one_each() {
    let mut round = results(&[7, 8]);
    round.either_token(JOINED);
    round.behind(OBJECT, JOINED, FLOW_FINAL, 0);
    let point = round.point();
    point.assert_competing(&[(&[0, 1], 0), (&[2, 3], 2), (&[0, 1, 2, 3], 0)]);
    point.assert_acceptable(&NO_BOUNDS, &[&[0, 2], &[0, 3], &[0], &[1, 2], &[1, 3], &[1], &[2], &[3], &[]]);
    point.assert_step(&[0, 2], round.holding(&[], &[0, 1]));
    point.assert_step(&[0, 3], round.holding(&[], &[0, 0]));
}

/// The same result with one token or another; and so where a third waits with both.
#[test]
fn the_same_object_offer() {
    for mut round in [results(&[7]), round(&[7])] {
        round.either_token(JOINED);
        round.behind(OBJECT, JOINED, FLOW_FINAL, 0);
        round.point().assert_competing(&[(&[0, 1], 0)]);
        round.point().assert_acceptable(&NO_BOUNDS, &[&[0], &[1], &[]]);
    }
}

/// Ends 3 and 4 alone compete, the same 9 by the join and past it.
#[test]
fn the_lowest_that_competes() {
    let mut round = round(&[7, 8, 9]);
    let to = round.behind(OBJECT, JOINED, FLOW_FINAL, 0);
    round.result(6, to);
    round.parts.edges.rotate_right(1); // the end of 6 comes first
    let (third, _) = round.held[2];
    round.edge(OBJECT, third, to);
    let point = round.point();
    assert_eq!(point.values(&NO_BOUNDS), [6, 7, 8, 9, 9]);
    point.assert_competing(&[(&[3, 4], 3), (&[0, 1, 2, 3, 4], 3), (&[1, 3, 4], 3)]);
    point.assert_step(&[0, 1, 2, 3], round.holding(&[], &[0]));
    point.assert_step(&[0, 1, 2, 4], round.holding(&[], &[0]));
}

/// Two tokens that a merge brings, and one or two that wait with either: nothing has changed.
#[test]
fn control_edges_only() {
    for waiting in [1, 2] {
        let mut drawing = Drawing::default();
        let join = drawing.node(JOIN, 0);
        drawing.either_token(join);
        for _ in 0..waiting {
            drawing.token(join);
        }
        drawing.behind(CONTROL, join, FLOW_FINAL, 0);
        drawing.point().assert_competing(&[(&[0, 1], 0)]);
        drawing.point().assert_acceptable(&NO_BOUNDS, &[&[0], &[1], &[]]);
    }
}

/// Two tokens and two more: ends 0 and 3 have none in common, as 1 and 2.
#[test]
fn control_edges_only_and_none_in_common() {
    let mut drawing = Drawing::default();
    let join = drawing.node(JOIN, 0);
    (0..2).for_each(|_| drawing.either_token(join));
    drawing.behind(CONTROL, join, FLOW_FINAL, 0);
    let point = drawing.point();
    point.assert_competing(&[(&[0, 1], 0), (&[0, 2], 0), (&[1, 3], 1), (&[2, 3], 2), (&[0, 1, 3], 0)]);
    point.assert_acceptable(&NO_BOUNDS, &[&[0, 3], &[0], &[1, 2], &[1], &[2], &[3], &[]]);
}

// ---- object offers that differ

/// A value (node 2) that goes by a node of this kind (3), if one is named, and by two edges to the merge; and a token.
fn twice(by: Option<u8>) -> Drawing {
    let mut round = results(&[]);
    let value = round.node(INCOMING_PARAMETER, 1);
    round.held.push((value, 7));
    let from = by.map_or(value, |kind| round.behind(OBJECT, value, kind, 0));
    (0..2).for_each(|_| round.edge(OBJECT, from, MERGED));
    round.token(JOINED);
    round
}

/// A value forked into the join twice makes two offers, which differ although their values don't. Before, neither went: the fork wants both.
#[test]
fn one_value_by_a_fork() {
    let mut round = twice(Some(FORK));
    let to = round.behind(OBJECT, JOINED, BUFFER, 2);
    let point = round.point();
    assert_eq!(point.values(&NO_BOUNDS), [7, 7]);
    point.assert_step(&[0], refused(11, 3));
    point.assert_step(&[1], refused(11, 3));
    point.assert_step(&[0, 1], round.holding(&[(to, 7), (to, 7)], &[0]));
    point.assert_acceptable(&NO_BOUNDS, &[&[0, 1], &[]]);
}

/// Equal values of two stocks.
#[test]
fn equal_values() {
    let mut round = round(&[7, 7]);
    let to = round.behind(OBJECT, JOINED, BUFFER, 2);
    round.point().assert_acceptable(&NO_BOUNDS, &[&[0, 1], &[0], &[1], &[]]);
    round.point().assert_step(&[0, 1], round.holding(&[(to, 7), (to, 7)], &[0]));
}

/// They compete still by what they were made from: a stock, or a decision, in common.
#[test]
fn one_value_by_two_edges_or_a_decision() {
    for by in [None, Some(DECISION)] {
        let mut round = twice(by);
        round.behind(OBJECT, JOINED, BUFFER, 2);
        round.point().assert_competing(&[(&[0, 1], 0)]);
        round.point().assert_acceptable(&NO_BOUNDS, &[&[0], &[1], &[]]);
    }
}

/// Two results that each had a token of their own, which went either way at a decision.
#[test]
fn tokens_by_a_decision() {
    let mut round = results(&[]);
    let decision = round.node(DECISION, 0);
    round.token(decision);
    for value in [7, 8] {
        let join = round.behind(CONTROL, decision, JOIN, 0);
        round.result(value, join);
        round.edge(OBJECT, join, MERGED);
    }
    round.token(JOINED);
    round.behind(OBJECT, JOINED, FLOW_FINAL, 0);
    round.point().assert_competing(&[(&[0, 1], 0)]);
    round.point().assert_acceptable(&NO_BOUNDS, &[&[0], &[1], &[]]);
}

/// Of one round at the second join, but at the first the same result with one token or another.
#[test]
fn of_one_round_at_the_second_join_alone() {
    let mut round = results(&[7]);
    round.either_token(JOINED);
    let second = round.behind(OBJECT, JOINED, JOIN, 0);
    round.token(second);
    round.behind(OBJECT, second, FLOW_FINAL, 0);
    round.point().assert_competing(&[(&[0, 1], 0)]);
    round.point().assert_acceptable(&NO_BOUNDS, &[&[0], &[1], &[]]);
}

// ---- behind the join

/// Results of one round differ at the second join too, and have its token in common.
#[test]
fn two_joins_in_a_row() {
    let mut round = round(&[7, 8]);
    let second = round.behind(OBJECT, JOINED, JOIN, 0);
    round.token(second);
    let to = round.behind(OBJECT, second, BUFFER, 2);
    round.point().assert_acceptable(&NO_BOUNDS, &[&[0, 1], &[0], &[1], &[]]);
    round.point().assert_step(&[0, 1], round.holding(&[(to, 7), (to, 8)], &[0, 0]));
    round.point().assert_step(&[1], round.holding(&[round.held[0], (to, 8)], &[0, 0]));
}

/// At the second join there are two tokens. With different ones, too, results of one round go together; the same result with both doesn't.
#[test]
fn a_second_join_with_either_token() {
    let mut round = round(&[7, 8]);
    let second = round.behind(OBJECT, JOINED, JOIN, 0);
    round.either_token(second);
    round.behind(OBJECT, second, FLOW_FINAL, 0);
    let point = round.point();
    assert_eq!(point.values(&NO_BOUNDS), [7, 7, 8, 8]);
    point.assert_competing(&[(&[0, 1], 0), (&[2, 3], 2), (&[1, 2, 3], 2)]);
    point.assert_acceptable(&NO_BOUNDS, &[&[0, 2], &[0, 3], &[0], &[1, 2], &[1, 3], &[1], &[2], &[3], &[]]);
}

/// The same token by a fork to both joins.
#[test]
fn one_token_for_two_joins_in_a_row() {
    let mut round = results(&[7, 8]);
    let fork = round.node(FORK, 0);
    round.token(fork);
    round.edge(CONTROL, fork, JOINED);
    let second = round.behind(OBJECT, JOINED, JOIN, 0);
    round.edge(CONTROL, fork, second);
    let to = round.behind(OBJECT, second, OUTGOING_PARAMETER, 2);
    round.point().assert_acceptable(&NO_BOUNDS, &[&[0, 1], &[0], &[1], &[]]);
    round.point().assert_step(&[0, 1], round.holding(&[(to, 7), (to, 8)], &[0]));
}

/// One token for all tables: a fork brings it to two joins, each with two results. It goes to both or to neither, with any of the results that wait there.
#[test]
fn one_token_for_two_joins_side_by_side() {
    let mut round = results(&[7, 8]);
    let (fork, merge) = (round.node(FORK, 0), round.node(MERGE, 0));
    round.token(fork);
    round.edge(CONTROL, fork, JOINED);
    let other = round.behind(CONTROL, fork, JOIN, 0);
    round.edge(OBJECT, merge, other);
    for value in [5, 6] {
        round.result(value, merge);
    }
    let one_to = round.behind(OBJECT, JOINED, BUFFER, 2);
    let other_to = round.behind(OBJECT, other, BUFFER, 2);
    let point = round.point();
    assert_eq!(point.values(&NO_BOUNDS), [7, 8, 5, 6]);
    point.assert_step(&[0, 1], refused(11, fork));
    point.assert_step(&[0, 1, 2, 3], round.holding(&[(one_to, 7), (one_to, 8), (other_to, 5), (other_to, 6)], &[0]));
    let of_both: [&[u8]; 10] = [&[0, 1, 2, 3], &[0, 1, 2], &[0, 1, 3], &[0, 2, 3], &[0, 2], &[0, 3], &[1, 2, 3], &[1, 2], &[1, 3], &[]];
    point.assert_acceptable(&NO_BOUNDS, &of_both);
}

/// Ends 0 and 1 are 7 and 8 by one branch, 2 and 3 by the other. Each result passes whole.
#[test]
fn a_fork_behind_the_join() {
    let mut round = round(&[7, 8]);
    let fork = round.behind(OBJECT, JOINED, FORK, 0);
    let (one, other) = (round.behind(OBJECT, fork, BUFFER, 2), round.behind(OBJECT, fork, BUFFER, 2));
    let point = round.point();
    assert_eq!(point.values(&NO_BOUNDS), [7, 8, 7, 8]);
    for choice in [&[0][..], &[0, 1], &[0, 3], &[1, 2], &[2, 3], &[0, 1, 2], &[1, 2, 3]] {
        point.assert_step(choice, refused(11, fork));
    }
    point.assert_acceptable(&NO_BOUNDS, &[&[0, 1, 2, 3], &[0, 2], &[1, 3], &[]]);
    point.assert_step(&[0, 1, 2, 3], round.holding(&[(one, 7), (one, 8), (other, 7), (other, 8)], &[0]));
}

/// The same at a decision: each result goes one way, both the same or not.
#[test]
fn a_decision_behind_the_join() {
    let mut round = round(&[7, 8]);
    let decision = round.behind(OBJECT, JOINED, DECISION, 0);
    let (one, other) = (round.behind(OBJECT, decision, BUFFER, 2), round.behind(OBJECT, decision, BUFFER, 1));
    let point = round.point();
    point.assert_competing(&[(&[0, 2], 0), (&[1, 3], 1), (&[0, 1, 3], 1), (&[1, 2, 3], 1), (&[0, 1, 2, 3], 0)]);
    point.assert_step(&[2, 3], refused(12, other));
    point.assert_acceptable(&NO_BOUNDS, &[&[0, 1], &[0, 3], &[0], &[1, 2], &[1], &[2], &[3], &[]]);
    point.assert_step(&[1, 2], round.holding(&[(one, 8), (other, 7)], &[0]));
}

/// Both results of a round may end the activity; outgoing parameters keep all that arrived, 6 too.
#[test]
fn an_activity_final_behind_the_join() {
    let mut alone = round(&[7, 8]);
    alone.behind(OBJECT, JOINED, ACTIVITY_FINAL, 0);
    alone.point().assert_acceptable(&NO_BOUNDS, &[&[0, 1], &[0], &[1], &[]]);
    let ended = Answer::Good(vec![0, 5, 1, 1, 0, 0, 0]);
    [&[0, 1][..], &[0], &[1]].iter().for_each(|choice| alone.point().assert_step(choice, ended.clone()));

    let mut forked = round(&[7, 8]);
    let fork = forked.behind(OBJECT, JOINED, FORK, 0);
    let to = forked.behind(OBJECT, fork, OUTGOING_PARAMETER, 3);
    forked.behind(OBJECT, fork, ACTIVITY_FINAL, 0);
    forked.held.push((to, 6));
    let kept = vec![0, 18, 1, 1, 0, 0, 3, 0, 0, 0, 6, 0, 0, 0, 7, 0, 0, 0, 8, 0];
    forked.point().assert_step(&[0, 1, 2, 3], Answer::Good(kept));
    forked.point().assert_acceptable(&NO_BOUNDS, &[&[0, 1, 2, 3], &[0, 2], &[1, 3], &[]]);
}

// ---- guards and bounds

/// Bounds that bar one of three results, on its own edge, on the one to the join or on the one behind it.
#[test]
fn bounds_bar_one() {
    let mut round = round(&[7, 8, 9]);
    let to = round.behind(OBJECT, JOINED, BUFFER, 3);
    let point = round.point();
    for (bounds, values) in [
        (bounds_list(&[(2, 9..=9)]), [7, 9]),
        (bounds_list(&[(0, 0..=8)]), [7, 8]),
        (bounds_list(&[(5, 8..=9)]), [8, 9]),
        (bounds_list(&[(1, 8..=9), (2, 8..=9), (3, 8..=9)]), [8, 9]),
    ] {
        assert_eq!(point.values(&bounds), values);
        point.assert_acceptable(&bounds, &[&[0, 1], &[0], &[1], &[]]);
        let left = round.held.iter().filter(|(_, value)| !values.contains(value)).copied();
        let after: Vec<(u8, u32)> = left.chain(values.map(|value| (to, value))).collect();
        assert_eq!(point.answer(Operation::Step, &bounds, 0, &[0, 1]), round.holding(&after, &[0]));
    }
    let one_left = bounds_list(&[(5, 8..=8)]);
    assert_eq!(point.values(&one_left), [8]);
    point.assert_acceptable(&one_left, &[&[0], &[]]);
    assert_eq!(point.answer(Operation::Step, &one_left, 0, &[0, 1]), refused(9, 0));
}

/// With the edge of a result shut the others go; with the merge's, the token's or the join's own, none.
#[test]
fn closed_guards() {
    let mut round = round(&[7, 8, 9]);
    round.behind(OBJECT, JOINED, BUFFER, 3);
    round.parts.edges.iter_mut().for_each(|edge| edge[3] = 1);
    for (shut, values) in [(1, &[8, 9][..]), (2, &[7, 9]), (3, &[7, 8]), (0, &[]), (4, &[]), (5, &[])] {
        let mut point = round.point();
        point.guards[shut] = 0;
        assert_eq!(point.values(&NO_BOUNDS), values);
        let choices: [&[u8]; 4] = [&[0, 1], &[0], &[1], &[]];
        point.assert_acceptable(&NO_BOUNDS, if values.is_empty() { &choices[3..] } else { &choices });
    }
}

// ---- sheets

/// Ends, values and paths are those of before: it is not what is offered that has changed, but what goes together.
#[test]
fn sheets_as_before() {
    let mut forked = twice(Some(FORK));
    forked.behind(OBJECT, JOINED, BUFFER, 2);
    forked.point().assert_sheet(&[(5, Some(7), &[&[1, 2, 0, 5], &[4, 5]]), (5, Some(7), &[&[1, 3, 0, 5], &[4, 5]])]);

    let mut in_a_row = round(&[7, 8]);
    let second = in_a_row.behind(OBJECT, JOINED, JOIN, 0);
    in_a_row.token(second);
    in_a_row.behind(OBJECT, second, BUFFER, 2);
    let (seven, eight): ([&[u8]; 3], [&[u8]; 3]) = ([&[1, 0, 4, 6], &[3, 4, 6], &[5, 6]], [&[2, 0, 4, 6], &[3, 4, 6], &[5, 6]]);
    in_a_row.point().assert_sheet(&[(6, Some(7), &seven), (6, Some(8), &eight)]);

    let mut either = round(&[7, 8]);
    either.either_token(JOINED);
    either.behind(OBJECT, JOINED, FLOW_FINAL, 0);
    either.point().assert_sheet(&[
        (7, Some(7), &[&[1, 0, 7], &[3, 7], &[4, 6, 7]]),
        (7, Some(7), &[&[1, 0, 7], &[3, 7], &[5, 6, 7]]),
        (7, Some(8), &[&[2, 0, 7], &[3, 7], &[4, 6, 7]]),
        (7, Some(8), &[&[2, 0, 7], &[3, 7], &[5, 6, 7]]),
    ]);

    let mut control = Drawing::default();
    let join = control.node(JOIN, 0);
    control.either_token(join);
    control.token(join);
    control.behind(CONTROL, join, FLOW_FINAL, 0);
    control.point().assert_sheet(&[(4, None, &[&[0, 2, 4], &[3, 4]]), (4, None, &[&[1, 2, 4], &[3, 4]])]);
}

/// A fork behind a join of three results: six ends.
#[test]
fn a_sheet_of_a_fork_behind_the_join() {
    let mut round = round(&[9, 8, 7]);
    let fork = round.behind(OBJECT, JOINED, FORK, 0);
    for _ in 0..2 {
        round.behind(OBJECT, fork, FLOW_FINAL, 0);
    }
    round.point().assert_sheet(&[
        (6, Some(9), &[&[1, 0, 5, 6], &[4, 5, 6]]),
        (6, Some(8), &[&[2, 0, 5, 6], &[4, 5, 6]]),
        (6, Some(7), &[&[3, 0, 5, 6], &[4, 5, 6]]),
        (7, Some(9), &[&[1, 0, 5, 7], &[4, 5, 7]]),
        (7, Some(8), &[&[2, 0, 5, 7], &[4, 5, 7]]),
        (7, Some(7), &[&[3, 0, 5, 7], &[4, 5, 7]]),
    ]);
}

// ---- random rounds

#[test]
fn random_steps() {
    let seen = steps::seen(71, 100_000, rounds::event);
    seen.assert_freed(20_000);
    seen.assert_each(4_000, &[0, 10, 11, 12]);
    seen.assert_places(12, &[10, 11, 12]);
}

#[test]
fn random_picks() {
    let tally = picks::tally(72, 100_000, rounds::event);
    tally.seen.assert_freed(30_000);
    tally.seen.assert_each(20_000, &[0, 13]);
    assert!(tally.large >= 500, "{tally:?}");
}
