//! `why` names the reason for a node: events that are drawn by hand, a tournament's each, for every reason; room and refusals; all outside calls; and random
//! events beside the plain reading of the paper and a second way (`common/second.rs`), with fixed seeds.
//!
//! Every answer is held to `pick`'s, which is refused with 13 exactly if there is a reason, and a refused call to `sheet`'s.

use crate::common::drawn::*;
use crate::common::held::AROUND;
use crate::common::points::{self, Walk};
use crate::common::second::Second;
use crate::common::vectors::{all, Call, Operation};
use crate::common::{answered, limits, pairings, rounds, whys, within};
use keshmirun::Reason::{self, Acceptable, Competing, Destinations, Forks, NoEnd, OwnDestination};
use keshmirun::{bounds_list, Terms, NO_BOUNDS, NO_NODE};
use reading::random::Event;
use reading::{Answer, Board};
use std::collections::BTreeSet;

impl Point {
    /// These are the reasons for these nodes. No end belongs to any other, nor to a number that is no node, and 255 names none.
    fn assert_reasons(&self, expected: &[(u8, Reason)]) {
        self.assert_reasons_under(&NO_BOUNDS, expected);
    }

    fn assert_reasons_under(&self, bounds: &[u8], expected: &[(u8, Reason)]) {
        for node in 0..=NO_NODE {
            let named = expected.iter().find(|(named, _)| *named == node);
            let other = if node == NO_NODE { Acceptable } else { NoEnd };
            self.assert_reason(bounds, node, named.map_or(other, |(_, reason)| *reason));
        }
    }

    /// The reading gives this reason, and so does the engine in any room but none.
    fn assert_reason(&self, bounds: &[u8], node: u8, reason: Reason) {
        let Point { table, marking, guards } = self;
        let answer = Answer::Good(vec![reason.number()]);
        let read = reading::why_within(table, marking, guards, bounds, node, ROOM, BUDGET);
        assert_eq!(read, Some(answer.clone()), "node {node}, {self:02x?}");
        for room in [0, 1, 2, 20] {
            let _ = Operation::Why.hold(AROUND, node, self.inputs(bounds, &[]), room, &within(room, answer.clone()));
        }
        let terms = Terms::new(guards).with_bounds(bounds);
        assert_eq!(keshmirun::why(table, marking, terms, node), Ok(reason));
        assert_eq!(whys::is_without_pick(table, marking, terms, node), reason != Acceptable, "node {node}, {self:02x?}");
    }
}

// ---- 1: no end belongs to it

/// A player for a match comes only with the round's token, through a gate, and with the score that is asked for.
#[test]
fn nobody_comes() {
    let mut hall = Drawing::default();
    let (game, [seat]) = hall.game([(1, 1)]);
    let join = hall.node(JOIN, 0);
    hall.result(7, join);
    hall.token(join);
    hall.edge(OBJECT, join, seat);
    hall.parts.edges[0][3] = 1;
    let point = hall.point();
    let paired = [(game, Acceptable), (seat, Acceptable)];
    point.assert_reasons(&paired);
    point.assert_reasons_under(&bounds_list(&[(2, 7..=7)]), &paired);

    let nobody = Point::of(&hall.parts, &[]);
    nobody.assert_reasons(&[]);
    let round_not_open = hall.with_tokens(&[0]);
    round_not_open.assert_reasons(&[]);
    let gate_shut = Point { guards: vec![0, 1, 1], ..point.clone() };
    gate_shut.assert_reasons(&[]);
    let eight_or_more = bounds_list(&[(2, 8..=u32::MAX)]);
    point.assert_reasons_under(&eight_or_more, &[]);
}

// ---- 2: its own destination rule

/// Lists with room for the result that waits, and without.
#[test]
fn a_full_list() {
    for kind in [BUFFER, OUTGOING_PARAMETER] {
        for (upper, names, reason) in
            [(1, 0, Acceptable), (2, 1, Acceptable), (1, 1, OwnDestination), (2, 2, OwnDestination), (16, 16, OwnDestination)]
        {
            let mut desk = Drawing::default();
            let list = desk.node(kind, upper);
            desk.held.extend((0..names).map(|name| (list, name)));
            desk.result(7, list);
            desk.point().assert_reasons(&[(list, reason)]);
        }
    }
}

/// One player is there for two seats that differ. The seat has all that it needs, but its own rule is the match's. To the other seat no end belongs.
#[test]
fn an_empty_seat() {
    for (lower, reason) in [(1, OwnDestination), (0, Acceptable)] {
        let mut hall = Drawing::default();
        let (game, [taken, _]) = hall.game([(1, 1), (lower, 1)]);
        hall.result(7, taken);
        hall.point().assert_reasons(&[(game, reason), (taken, reason)]);
    }
}

/// A team's seat takes two players or three.
#[test]
fn a_team_of_two() {
    for (players, reason) in [(1, OwnDestination), (2, Acceptable), (3, Acceptable), (4, Acceptable)] {
        let mut hall = Drawing::default();
        let (game, [seat]) = hall.game([(2, 3)]);
        for player in 0..players {
            hall.result(player, seat);
        }
        hall.point().assert_reasons(&[(game, reason), (seat, reason)]);
    }
}

/// The seat of a match that runs would have room for one more. Where its results will be, no end belongs.
#[test]
fn a_match_that_runs() {
    let mut hall = Drawing::default();
    let (game, [seat]) = hall.game([(1, 2)]);
    hall.parts.add_pin(OUTPUT_PIN, game, 0, 1);
    hall.result(7, seat);
    hall.point().assert_reasons(&[(game, Acceptable), (seat, Acceptable)]);
    hall.held.push((seat, 5));
    hall.point().assert_reasons(&[(game, OwnDestination), (seat, OwnDestination)]);
}

/// A match that needs a player and the word that its table is clear: one of them is not enough.
#[test]
fn a_table_to_be_cleared() {
    let mut hall = Drawing::default();
    let (game, [seat]) = hall.game([(1, 1)]);
    hall.token(game);
    hall.result(7, seat);
    hall.point().assert_reasons(&[(game, Acceptable), (seat, Acceptable)]);
    let not_clear = hall.with_tokens(&[0]);
    not_clear.assert_reasons(&[(game, OwnDestination), (seat, OwnDestination)]);
    let nobody = Point::of(&hall.parts, &[]);
    nobody.assert_reasons(&[(game, OwnDestination)]);
}

// ---- 3: competing ends

/// Both seats are served by one queue, of which the first in front alone is offered, whether by two edges or by a decision. By a fork, one player sits at both.
#[test]
fn one_player_for_two_seats() {
    for (by, reason) in [(None, Competing), (Some(DECISION), Competing), (Some(FORK), Acceptable)] {
        for players in [&[7][..], &[7, 8]] {
            let mut hall = Drawing::default();
            let (game, seats) = hall.game([(1, 1), (1, 1)]);
            let queue = hall.queue(players);
            let from = by.map_or(queue, |kind| hall.behind(OBJECT, queue, kind, 0));
            seats.iter().for_each(|seat| hall.edge(OBJECT, from, *seat));
            hall.point().assert_reasons(&[(game, reason), (seats[0], reason), (seats[1], reason)]);
        }
    }
}

/// A match with two judges' calls, and one judge who can go to either.
#[test]
fn one_judge_for_two_calls() {
    let mut hall = Drawing::default();
    let (game, decision) = (hall.node(ACTION, 0), hall.node(DECISION, 0));
    hall.token(decision);
    hall.edge(CONTROL, decision, game);
    hall.point().assert_reasons(&[(game, Acceptable)]);
    hall.edge(CONTROL, decision, game);
    hall.point().assert_reasons(&[(game, Competing)]);
}

/// Two results of a round go with one token, and the same result with two tokens goes once.
#[test]
fn two_results_of_one_round() {
    for (results, tokens, reason) in [(2, 1, Acceptable), (1, 2, Competing), (2, 2, Acceptable), (1, 1, OwnDestination)] {
        let mut round = Drawing::default();
        let (table, [seat]) = round.game([(2, 2)]);
        let (join, merge) = (round.node(JOIN, 0), round.node(MERGE, 0));
        round.edge(OBJECT, merge, join);
        for result in 0..results {
            round.result(result, merge);
        }
        if tokens == 1 {
            round.token(join);
        } else {
            round.either_token(join);
        }
        round.edge(OBJECT, join, seat);
        round.point().assert_reasons(&[(table, reason), (seat, reason)]);
    }
}

// ---- 4: forks

/// A player sits down and is listed for the draft, once its judge is there. A way that is shut or barred isn't missed.
#[test]
fn a_branch_that_waits() {
    let mut hall = Drawing::default();
    let (game, [seat]) = hall.game([(1, 1)]);
    let (fork, join) = (hall.node(FORK, 0), hall.node(JOIN, 0));
    hall.result(7, fork);
    hall.edge(OBJECT, fork, seat);
    hall.edge(OBJECT, fork, join);
    hall.parts.edges[2][3] = 1;
    hall.token(join);
    let draft = hall.behind(OBJECT, join, BUFFER, 4);
    hall.point().assert_reasons(&[(game, Acceptable), (seat, Acceptable), (draft, Acceptable)]);
    let no_judge = hall.with_tokens(&[0]);
    no_judge.assert_reasons(&[(game, Forks), (seat, Forks)]);
    let shut = Point { guards: vec![1, 1, 0, 1, 1], ..no_judge.clone() };
    shut.assert_reasons(&[(game, Acceptable), (seat, Acceptable)]);
    no_judge.assert_reasons_under(&bounds_list(&[(2, 8..=9)]), &[(game, Acceptable), (seat, Acceptable)]);
}

/// The judge goes to the match, or to the draft in which the same player is to be listed. Without the match, the draft alone would leave its rule unsatisfied.
#[test]
fn a_judge_who_is_wanted_twice() {
    let mut hall = Drawing::default();
    let (game, [seat]) = hall.game([(1, 1)]);
    let (fork, join, decision) = (hall.node(FORK, 0), hall.node(JOIN, 0), hall.node(DECISION, 0));
    hall.result(7, fork);
    hall.edge(OBJECT, fork, seat);
    hall.edge(OBJECT, fork, join);
    hall.token(decision);
    hall.edge(CONTROL, decision, game);
    hall.edge(CONTROL, decision, join);
    let draft = hall.behind(OBJECT, join, BUFFER, 4);
    hall.point().assert_reasons(&[(game, Forks), (seat, Forks), (draft, Destinations)]);
}

/// A name that is forked to one list twice. With room for one, the list's rule and the fork are satisfied each by itself and never together.
#[test]
fn twice_on_one_list() {
    for (upper, reason) in [(1, Forks), (2, Acceptable)] {
        let mut desk = Drawing::default();
        let fork = desk.node(FORK, 0);
        desk.result(7, fork);
        let list = desk.behind(OBJECT, fork, BUFFER, upper);
        desk.edge(OBJECT, fork, list);
        desk.point().assert_reasons(&[(list, reason)]);
    }
}

// ---- 5: all destinations

/// Who sits down is also put on a list, which is full.
#[test]
fn the_other_list_is_full() {
    let mut hall = Drawing::default();
    let (game, [seat]) = hall.game([(1, 1)]);
    let (fork, list) = (hall.node(FORK, 0), hall.full_list());
    hall.result(7, fork);
    hall.edge(OBJECT, fork, seat);
    hall.edge(OBJECT, fork, list);
    hall.point().assert_reasons(&[(game, Destinations), (seat, Destinations), (list, OwnDestination)]);
    hall.held.retain(|(node, _)| *node != list);
    hall.point().assert_reasons(&[(game, Acceptable), (seat, Acceptable), (list, Acceptable)]);
}

/// A player is forked to two matches, of which one runs, or lacks another player.
#[test]
fn the_other_match_cannot_begin() {
    let mut hall = Drawing::default();
    let (first, [first_seat]) = hall.game([(1, 1)]);
    let (second, [second_seat, last_seat]) = hall.game([(1, 1), (1, 1)]);
    let fork = hall.node(FORK, 0);
    hall.result(7, fork);
    hall.edge(OBJECT, fork, first_seat);
    hall.edge(OBJECT, fork, second_seat);
    let lacks_one = [(first, Destinations), (first_seat, Destinations), (second, OwnDestination), (second_seat, OwnDestination)];
    hall.point().assert_reasons(&lacks_one);
    hall.held.extend([(second_seat, 5), (last_seat, 6)]);
    let runs = lacks_one;
    hall.point().assert_reasons(&runs);
    hall.held.truncate(1);
    hall.result(8, last_seat);
    let all = [first, first_seat, second, second_seat, last_seat].map(|node| (node, Acceptable));
    hall.point().assert_reasons(&all);
}

/// Two players, each for a team's seat and for a list with room for one: the team needs both, and either name on the list brings one player alone.
#[test]
fn room_for_one_of_two() {
    for (team, upper, reason) in [(2, 1, Destinations), (1, 1, Acceptable), (2, 2, Acceptable)] {
        let mut hall = Drawing::default();
        let (game, [seat]) = hall.game([(team, 2)]);
        let list = hall.node(OUTGOING_PARAMETER, upper);
        for player in [7, 8] {
            let fork = hall.node(FORK, 0);
            hall.result(player, fork);
            hall.edge(OBJECT, fork, seat);
            hall.edge(OBJECT, fork, list);
        }
        hall.point().assert_reasons(&[(game, reason), (seat, reason), (list, reason)]);
    }
}

// ---- the first level at which no choice is left

/// A queue's one player for both seats, for the second by a fork. Its other branch waits, or leads to a full list.
#[test]
fn competing_comes_first() {
    for other in [None, Some(OwnDestination)] {
        let mut hall = Drawing::default();
        let (game, seats) = hall.game([(1, 1), (1, 1)]);
        let queue = hall.queue(&[7]);
        hall.edge(OBJECT, queue, seats[0]);
        let fork = hall.behind(OBJECT, queue, FORK, 0);
        hall.edge(OBJECT, fork, seats[1]);
        let mut expected = vec![(game, Competing), (seats[0], Competing), (seats[1], Competing)];
        match other {
            None => {
                let join = hall.behind(OBJECT, fork, JOIN, 0);
                hall.token(join);
                hall.behind(OBJECT, join, BUFFER, 1);
            }
            Some(reason) => {
                let list = hall.full_list();
                hall.edge(OBJECT, fork, list);
                expected.push((list, reason));
            }
        }
        hall.with_tokens(&[0]).assert_reasons(&expected);
    }
}

/// A fork of three branches: to a seat, to a full list, and to a join that waits.
#[test]
fn forks_come_before_other_destinations() {
    let mut hall = Drawing::default();
    let (game, [seat]) = hall.game([(1, 1)]);
    let (fork, list) = (hall.node(FORK, 0), hall.full_list());
    hall.result(7, fork);
    hall.edge(OBJECT, fork, seat);
    hall.edge(OBJECT, fork, list);
    let join = hall.behind(OBJECT, fork, JOIN, 0);
    hall.token(join);
    let draft = hall.behind(OBJECT, join, BUFFER, 1);
    hall.with_tokens(&[0]).assert_reasons(&[(game, Forks), (seat, Forks), (list, OwnDestination)]);
    hall.point().assert_reasons(&[(game, Destinations), (seat, Destinations), (list, OwnDestination), (draft, Destinations)]);
}

/// A match that runs is refused by its own rule, whatever else is wrong: both seats want one player, who is also forked to a full list.
#[test]
fn its_own_rule_comes_first() {
    let mut hall = Drawing::default();
    let (game, seats) = hall.game([(1, 1), (1, 1)]);
    let (queue, list) = (hall.queue(&[7]), hall.full_list());
    for seat in seats {
        let fork = hall.behind(OBJECT, queue, FORK, 0);
        hall.edge(OBJECT, fork, seat);
        hall.edge(OBJECT, fork, list);
        hall.held.push((seat, 5));
    }
    let runs = [game, seats[0], seats[1], list].map(|node| (node, OwnDestination));
    hall.point().assert_reasons(&runs);
    hall.held.retain(|(node, _)| !seats.contains(node));
    hall.point().assert_reasons(&[(game, Competing), (seats[0], Competing), (seats[1], Competing), (list, OwnDestination)]);
}

// ---- room and refusals

/// As `sheet` refuses, at its place, whatever node is named and however much is lent.
#[test]
fn refused_as_sheet_is() {
    let mut hall = Drawing::default();
    let (game, [seat]) = hall.game([(1, 1)]);
    hall.result(7, seat);
    hall.token(game);
    let good = hall.point();
    good.assert_reasons(&[(game, Acceptable), (seat, Acceptable)]);
    let changed = |change: fn(&mut Point)| {
        let mut point = good.clone();
        change(&mut point);
        point
    };
    let decision = hall.node(DECISION, 0); // which no edge enters or leaves
    let alone = hall.point();
    assert_eq!(decision, 4);
    let mut many = Drawing::default();
    let (queue, list) = (many.queue(&[7]), many.node(BUFFER, 4));
    (0..21).for_each(|_| many.edge(OBJECT, queue, list));
    for (point, bounds, number, place) in [
        (changed(|point| point.table[2] = 2), &NO_BOUNDS[..], 1, 0),
        (changed(|point| point.table.truncate(9)), &NO_BOUNDS, 1, 0),
        (changed(|point| point.table[5 + 4] = 14), &NO_BOUNDS, 2, 1),
        (changed(|point| point.table[5 + 4 * 4 + 3] = 2), &NO_BOUNDS, 3, 0),
        (alone, &NO_BOUNDS, 4, 4),
        (changed(|point| point.marking.truncate(7)), &NO_BOUNDS, 5, 0),
        (changed(|point| point.marking = vec![0, 6, 1, 1, 0, 0, 0, 0]), &NO_BOUNDS, 6, 0),
        (changed(|point| point.guards[1] = 0), &NO_BOUNDS, 7, 0),
        (changed(|point| point.guards.push(1)), &NO_BOUNDS, 7, 0),
        (good.clone(), &[], 18, 0),
        (good.clone(), &bounds_list(&[(1, 0..=9)]), 18, 0),
        (many.point(), &NO_BOUNDS, 8, 0),
    ] {
        let Point { table, marking, guards } = &point;
        let terms = Terms::new(guards).with_bounds(bounds);
        assert_eq!(answered(|out| keshmirun::sheet(table, marking, terms, out)), refused(number, place), "{point:02x?}");
        for node in [0, game, seat, 4, 254, NO_NODE] {
            assert_eq!(reading::why(table, marking, guards, bounds, node, ROOM), refused(number, place));
            assert_eq!(whys::told(table, marking, terms, node), refused(number, place));
            for room in [0, 1, ROOM] {
                let _ = Operation::Why.hold(AROUND, node, point.inputs(bounds, &[]), room, &refused(number, place));
            }
        }
    }
}

// ---- outside calls

/// At every board of the outside calls, for every number up to the one past the last node, for the call's own node and for none: 0 exactly if pick isn't refused
/// with 13. Where sheet is refused, so is why. Where the ends are few and the reading comes to the board, the reasons are the second way's and its own.
#[test]
fn at_every_outside_board() {
    let mut boards: BTreeSet<([Vec<u8>; 4], u8)> = BTreeSet::new();
    for (Call { operation, node, slices: [table, marking, guards, bounds, _], .. }, _) in all() {
        if !matches!(operation, Operation::Check | Operation::Start | Operation::Finish) {
            boards.insert(([table, marking, guards, bounds], node));
        }
    }
    let (mut reasons, mut refusals, mut read) = ([0; 6], 0, 0);
    for ([table, marking, guards, bounds], node) in &boards {
        let terms = Terms::new(guards).with_bounds(bounds);
        if let refused @ Answer::Refused { .. } = answered(|out| keshmirun::sheet(table, marking, terms, out)) {
            assert_eq!(whys::told(table, marking, terms, *node), refused);
            refusals += 1;
            continue;
        }
        let board =
            Board::within(table, marking, guards, bounds, points::BUDGET).map(|board| board.expect("a board")).filter(|board| board.ends() <= 10);
        let second = board.as_ref().map(|_| Second::of(table, marking, guards, bounds).expect("a board"));
        for node in (0..=table[3]).chain([*node, NO_NODE]) {
            let reason = keshmirun::why(table, marking, terms, node).expect("a reason").number();
            assert_eq!(reason != 0, whys::is_without_pick(table, marking, terms, node), "node {node}, {table:02x?}, {marking:02x?}, {terms:02x?}");
            if let (Some(board), Some(second)) = (&board, &second) {
                assert_eq!(
                    board.why_within(node, ROOM, BUDGET),
                    Some(Answer::Good(vec![reason])),
                    "node {node}, {table:02x?}, {marking:02x?}, {terms:02x?}"
                );
                assert!(node == NO_NODE || second.why(node) == reason, "node {node}, {table:02x?}, {marking:02x?}, {terms:02x?}");
                read += 1;
            }
            reasons[usize::from(reason)] += 1;
        }
    }
    whys::assert_least(reasons, [5_000, 20_000, 2_000, 300, 250, 450]);
    assert!(refusals >= 500 && read >= 25_000, "{refusals}, {read}");
}

// ---- random events

#[test]
fn whole_events() {
    let mut walk = Walk::default();
    let tally = whys::tally(119, 40_000, |rng| walk.next(rng));
    tally.seen.assert_each(30, &[0, 1, 2, 3, 4, 5, 6, 7, 8, 17]);
    tally.seen.assert_each(250, &[18]);
    whys::assert_least(tally.reasons, [1_400, 15_000, 900, 3, 50, 45]);
    whys::assert_least(tally.of_pins, [150, 1_000, 350, 2, 20, 12]);
    whys::assert_least(tally.bounded, [35, 500, 15, 0, 5, 1]);
    assert!(tally.read >= 15_000, "{tally:?}");
}

#[test]
fn from_anywhere() {
    let tally = whys::tally(82, 40_000, Event::anywhere);
    tally.seen.assert_each(40, &[0, 1, 2, 3, 4, 5, 6, 7, 8, 17]);
    tally.seen.assert_each(250, &[18]);
    whys::assert_least(tally.reasons, [1_700, 15_000, 900, 7, 40, 30]);
    whys::assert_least(tally.of_pins, [180, 1_000, 350, 4, 14, 9]);
    whys::assert_least(tally.bounded, [45, 700, 50, 0, 8, 2]);
    assert!(tally.read >= 15_000, "{tally:?}");
}

#[test]
fn larger_events() {
    let mut walk = Walk::larger();
    let tally = whys::tally(86, 15_000, |rng| walk.next(rng));
    tally.seen.assert_each(3, &[0, 1, 2, 3, 4, 5, 6, 7, 8, 17]);
    tally.seen.assert_each(10, &[18]);
    whys::assert_least(tally.reasons, [300, 5_000, 200, 0, 5, 5]);
    assert!(tally.read >= 5_000, "{tally:?}");
}

/// Nothing but finals is behind these events, so forks alone are in the way.
#[test]
fn near_the_sizes() {
    let tally = whys::tally(83, 20_000, limits::event);
    tally.seen.assert_each(300, &[0, 8, 17]);
    tally.seen.assert_each(150, &[18]);
    whys::assert_least(tally.reasons, [1_000, 7_000, 0, 0, 6, 0]);
    assert!(tally.large >= 150, "{tally:?}");
}

#[test]
fn random_rounds() {
    let tally = whys::tally(84, 100_000, rounds::event);
    tally.seen.assert_each(30, &[0, 1, 2, 3, 4, 5, 6, 7, 8, 17]);
    whys::assert_least(tally.reasons, [5_000, 30_000, 400, 30, 200, 200]);
    whys::assert_least(tally.of_rounds, [4_000, 20_000, 300, 10, 120, 150]);
    whys::assert_least(tally.bounded, [150, 1_500, 70, 15, 100, 20]);
    assert!(tally.read >= 30_000 && tally.read_many >= 600 && tally.large >= 150, "{tally:?}");
}

#[test]
fn random_pairings() {
    let tally = whys::tally(85, 120_000, pairings::event);
    tally.seen.assert_each(40, &[0, 1, 2, 3, 4, 5, 6, 7, 8, 17]);
    whys::assert_least(tally.reasons, [8_000, 40_000, 5_000, 500, 500, 1_300]);
    whys::assert_least(tally.of_pins, [1_100, 4_000, 2_900, 350, 190, 390]);
    whys::assert_least(tally.bounded, [450, 2_800, 500, 80, 120, 160]);
    assert!(tally.read >= 27_000 && tally.read_many >= 2_000 && tally.large >= 600, "{tally:?}");
}
