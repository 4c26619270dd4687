//! Wish 4, "Why can't we pair?": each reason on small tables made by hand, the
//! refusals, and what must hold of the reason on random boards.

mod common;

use common::{
    bounds, ends_of, for_each_point, framed, hex, number, refused, reply, small_guards,
    small_marking, small_table, Ends, Point, ACTION, ACTIVITY_FINAL, BUFFER, CONTROL, DECISION,
    FLOW_FINAL, FORK, INCOMING, INITIAL, INPUT_PIN, JOIN, MERGE, MOST, OBJECT, OUTGOING,
    OUTPUT_PIN, ROOM,
};
use reading::random::{self, Event, Parts, Rng};
use reading::{sheet_within, start, why, why_within, Answer, Board, NO_BOUNDS, NO_NODE};

impl Point {
    /// The reason for this node.
    fn why(&self, node: u8) -> u8 {
        let (table, marking) = (&self.table, &self.marking);
        match reply(why(table, marking, &self.guards, &NO_BOUNDS, node, ROOM))[..] {
            [reason] => reason,
            ref other => panic!("{other:?} is not one byte"),
        }
    }

    /// The reasons for all its nodes, in order. Each is 0 exactly if pick answers.
    fn reasons(&self) -> Vec<u8> {
        let nodes = 0..self.table[3];
        let reason_of = |node: u8| {
            let reason = self.why(node);
            assert_eq!(reason == 0, number(&self.pick(node)) == 0, "node {node}");
            reason
        };
        nodes.map(reason_of).collect()
    }

    fn board(&self) -> Board {
        let (table, marking) = (&self.table, &self.marking);
        let board = Board::within(table, marking, &self.guards, &NO_BOUNDS, 1_000);
        board.unwrap().unwrap()
    }
}

/// The small event at this marking.
fn small_point(marking: Vec<u8>) -> Point {
    Point {
        table: small_table(),
        marking,
        guards: small_guards(),
    }
}

/// The same with node 2 made a fork, as in C12.
fn forked_point(marking: Vec<u8>) -> Point {
    let mut point = small_point(marking);
    point.table[5 + 4 * 2] = FORK;
    point
}

/// The small event's marking, with node 6 holding two as in C11.
fn full_marking() -> Vec<u8> {
    hex("0017 01 00 02 00000007 00000009 00 00 02 00000001 00000002 01")
}

/// The small event's marking, with the action, 5, running on a value in its pin, 4.
fn running_marking() -> Vec<u8> {
    hex("0013 01 00 02 00000007 00000009 01 00000003 01 00 01")
}

#[test]
fn the_small_event() {
    // End 0 belongs to the pin, 4, and to its action, 5, end 1 to the buffer, 6. Either
    // alone is acceptable (C3 to C5). No end belongs to the others.
    let point = small_point(small_marking());
    assert_eq!(point.reasons(), [1, 1, 1, 1, 0, 0, 0]);
}

#[test]
fn nodes_that_do_not_exist_get_1_and_255_gets_0() {
    let no_ends = small_point(hex("0007 01 00 00 00 00 00 00"));
    for point in [small_point(small_marking()), no_ends] {
        for node in 7..=254 {
            assert_eq!(point.why(node), 1, "node {node}");
        }
        assert_eq!(point.why(NO_NODE), 0);
    }
}

#[test]
fn a_full_buffer_gets_2() {
    // End 1 would be a third value where two is the most, whatever is taken with it.
    let point = small_point(full_marking());
    assert_eq!(point.reasons(), [1, 1, 1, 1, 0, 0, 2]);
}

#[test]
fn a_running_action_and_its_pin_get_2() {
    // "An action with any taken end is idle", and this one is not. The pin's own rule
    // is its action's, so the pin gets 2 too, though one end lies within 1 and 1.
    let point = small_point(running_marking());
    assert_eq!(point.reasons(), [1, 1, 1, 1, 2, 2, 0]);
}

#[test]
fn a_fork_binds_a_node_to_the_destinations_of_its_other_branches() {
    // The fork is passed whole by both ends only (C12), which both destinations take.
    let point = forked_point(small_marking());
    assert_eq!(point.reasons(), [1, 1, 1, 1, 0, 0, 0]);
    // With the buffer full: end 0 alone satisfies the action, competes with none and
    // leaves the fork in parts. Both ends pass it whole, but 6 does not agree. So 5 for
    // the pin and the action, and for 6 itself it is its own rule.
    let point = forked_point(full_marking());
    assert_eq!(point.reasons(), [1, 1, 1, 1, 5, 5, 2]);
    // With the action running it is the other way round.
    let point = forked_point(running_marking());
    assert_eq!(point.reasons(), [1, 1, 1, 1, 2, 2, 5]);
}

#[test]
fn a_blocked_branch_of_a_fork_gives_4_and_a_barred_one_nothing() {
    let point = forked_point(small_marking());
    let reasons = |guards: &[u8], list: &[u8]| -> Vec<u8> {
        let (table, marking) = (&point.table, &point.marking);
        let reason_of = |node: u8| reply(why(table, marking, guards, list, node, ROOM))[0];
        (4..=6).map(reason_of).collect()
    };
    // The value goes over edge 2 and not on over 4. So end 0 is the only one, for the
    // buffer, and the fork's extension over edge 2 makes no end.
    assert_eq!(reasons(&[1; 5], &bounds(&[(4, 8, MOST)])), [1, 1, 4]);
    // The value does not go over edge 3, by its bounds or its guard. So the end on edge
    // 4 is the only one, and it is all that leaves the fork.
    assert_eq!(reasons(&[1; 5], &bounds(&[(3, 8, MOST)])), [0, 0, 1]);
    assert_eq!(reasons(&[1, 1, 1, 0, 1], &NO_BOUNDS), [0, 0, 1]);
}

/// Action 0 with an input pin, 1, of this lower and upper 2. Two edges lead to it: from
/// parameter 2, and from 2 or 3, another one.
fn action_fed_by(lower: u8, second_source: u8) -> Point {
    let mut parts = Parts::default();
    parts.add_node(ACTION, 0);
    parts.add_pin(INPUT_PIN, 0, lower, 2);
    parts.add_node(INCOMING, 1);
    parts.add_node(INCOMING, 1);
    parts.add_edge(OBJECT, 2, 1, 0);
    parts.add_edge(OBJECT, second_source, 1, 0);
    Point::started(&parts, &[7, 9])
}

#[test]
fn ends_that_are_needed_together_and_compete_give_3() {
    // The pin needs both ends, and they are first offers of one parameter: (a).
    assert_eq!(action_fed_by(2, 2).reasons(), [3, 3, 1, 1]);
    // Of two parameters they don't compete; and one end is enough for a lower of 1.
    assert_eq!(action_fed_by(2, 3).reasons(), [0, 0, 1, 1]);
    assert_eq!(action_fed_by(1, 2).reasons(), [0, 0, 1, 1]);
}

#[test]
fn two_control_edges_from_a_decision_give_3_and_from_a_fork_0() {
    // The action needs one end on each edge. A decision's two compete by (b), a fork's
    // don't and pass it whole.
    for (kind, reason) in [(DECISION, 3), (FORK, 0)] {
        let mut parts = Parts::default();
        parts.add_node(INITIAL, 0);
        parts.add_node(kind, 0);
        parts.add_node(ACTION, 0);
        parts.add_edge(CONTROL, 0, 1, 0);
        parts.add_edge(CONTROL, 1, 2, 0);
        parts.add_edge(CONTROL, 1, 2, 0);
        let point = Point::started(&parts, &[]);
        assert_eq!(point.reasons(), [1, 1, reason]);
    }
}

/// Action 0 with an input pin, 1, of lower 2. A join, 2, leads to it, from a merge, 3, of
/// what is still to be added, and the edges 1 and 2, an object and a control edge.
fn action_behind_join(merged: u8) -> Parts {
    let mut parts = Parts::default();
    parts.add_node(ACTION, 0);
    parts.add_pin(INPUT_PIN, 0, 2, 2);
    parts.add_node(JOIN, 0);
    parts.add_node(MERGE, 0);
    parts.add_node(INCOMING, 1);
    parts.add_node(INITIAL, 0);
    parts.add_edge(OBJECT, 2, 1, 0);
    parts.add_edge(merged, 3, 2, 0);
    parts
}

#[test]
fn two_results_with_one_round_token_get_0_and_one_with_two_tokens_3() {
    // Two results merge and wait for one token. By wish 2 the ends don't compete.
    let mut parts = action_behind_join(OBJECT);
    parts.add_node(INCOMING, 1);
    parts.add_edge(OBJECT, 4, 3, 0);
    parts.add_edge(OBJECT, 6, 3, 0);
    parts.add_edge(CONTROL, 5, 2, 0);
    let point = Point::started(&parts, &[7, 9]);
    assert_eq!(point.ends(), ["7 2,1,0 4,0", "9 3,1,0 4,0"]);
    assert_eq!(point.why(0), 0);
    assert_eq!(point.why(1), 0);
    // Two tokens merge and wait for one result. Both ends have it, so they compete by
    // (c), and the pin needs both.
    let mut parts = action_behind_join(CONTROL);
    parts.add_edge(CONTROL, 5, 3, 0);
    parts.add_edge(CONTROL, 5, 3, 0);
    parts.add_edge(OBJECT, 4, 2, 0);
    let point = Point::started(&parts, &[7]);
    assert_eq!(point.ends(), ["7 2,1,0 4,0", "7 3,1,0 4,0"]);
    assert_eq!(point.why(0), 3);
    assert_eq!(point.why(1), 3);
}

#[test]
fn a_pin_may_have_another_reason_than_its_action() {
    // Pin 1 needs its end. Pin 2 may go without, and its end competes with that of pin
    // 1: both are of parameter 3. So the action and pin 1 have the choice of end 0, and
    // of the two choices with end 1, which is pin 2's, one leaves pin 1 without and the
    // other competes.
    let mut parts = Parts::default();
    parts.add_node(ACTION, 0);
    parts.add_pin(INPUT_PIN, 0, 1, 1);
    parts.add_pin(INPUT_PIN, 0, 0, 1);
    parts.add_node(INCOMING, 1);
    parts.add_edge(OBJECT, 3, 1, 0);
    parts.add_edge(OBJECT, 3, 2, 0);
    let point = Point::started(&parts, &[7]);
    assert_eq!(point.reasons(), [0, 0, 3, 1]);
    // If pin 1 may go without too, a single end is enough for either.
    parts.nodes[1][2] = 0;
    parts.add_node(INITIAL, 0);
    parts.add_edge(CONTROL, 4, 0, 0); // for the action must wait for something
    let point = Point::started(&parts, &[7]);
    assert_eq!(point.reasons(), [0, 0, 0, 1, 1]);
}

#[test]
fn a_pin_has_the_rule_of_its_whole_action() {
    // One end at pin 1, which takes 0 to 2. But pin 2 of the same action takes at least
    // 1, and no edge leads to it: 2 for the action and for pin 1, 1 for pin 2.
    let mut parts = Parts::default();
    parts.add_node(ACTION, 0);
    parts.add_pin(INPUT_PIN, 0, 0, 2);
    parts.add_pin(INPUT_PIN, 0, 1, 1);
    parts.add_pin(OUTPUT_PIN, 0, 0, 1);
    parts.add_node(INCOMING, 1);
    parts.add_edge(OBJECT, 4, 1, 0);
    let point = Point::started(&parts, &[7]);
    assert_eq!(point.reasons(), [2, 2, 1, 1, 1]);
    // If pin 2 takes 0 too, the action needs a control edge to be good. Without an
    // end on that edge pin 1 still gets 2, with one it gets 0, and pin 2 keeps 1.
    parts.nodes[2][2] = 0;
    parts.add_node(INITIAL, 0);
    parts.add_edge(CONTROL, 5, 0, 1);
    let mut point = Point::started(&parts, &[7]);
    assert_eq!(point.reasons(), [0, 0, 1, 1, 1, 1]);
    point.guards[1] = 0;
    assert_eq!(point.reasons(), [2, 2, 1, 1, 1, 1]);
}

#[test]
fn an_action_needs_one_end_on_each_control_edge() {
    // Edges 1 and 2 bring two tokens to a merge, edge 3 either of them to action 2: two
    // ends on one edge, of which one is taken. Edge 0 leads to the action too.
    let mut parts = Parts::default();
    parts.add_node(INITIAL, 0);
    parts.add_node(MERGE, 0);
    parts.add_node(ACTION, 0);
    parts.add_edge(CONTROL, 0, 2, 1);
    parts.add_edge(CONTROL, 0, 1, 0);
    parts.add_edge(CONTROL, 0, 1, 0);
    parts.add_edge(CONTROL, 1, 2, 0);
    let mut point = Point::started(&parts, &[]);
    assert_eq!(point.reasons(), [1, 1, 0]);
    // With edge 0 closed no choice has an end on it.
    point.guards[0] = 0;
    assert_eq!(point.reasons(), [1, 1, 2]);
}

#[test]
fn a_pin_with_too_few_ends_gets_2() {
    // Lower is 3, and there are two ends.
    let mut parts = Parts::default();
    parts.add_node(ACTION, 0);
    parts.add_pin(INPUT_PIN, 0, 3, 4);
    parts.add_node(INCOMING, 1);
    parts.add_node(INCOMING, 1);
    parts.add_edge(OBJECT, 2, 1, 0);
    parts.add_edge(OBJECT, 3, 1, 0);
    let point = Point::started(&parts, &[7, 9]);
    assert_eq!(point.reasons(), [2, 2, 1, 1]);
}

#[test]
fn room_is_judged_before_the_step() {
    // The buffer, 1, is full. The step could empty it, but "stock before the step plus
    // ends taken is at most upper". The outgoing parameter, 2, has room.
    let mut parts = Parts::default();
    parts.add_node(INCOMING, 1);
    parts.add_node(BUFFER, 1);
    parts.add_node(OUTGOING, 1);
    parts.add_edge(OBJECT, 0, 1, 0);
    parts.add_edge(OBJECT, 1, 2, 0);
    let both_hold = framed("01 00 01 00000007 01 00000009 00");
    assert_eq!(Point::at(&parts, both_hold).reasons(), [1, 2, 0]);
    let all_hold = framed("01 00 01 00000007 01 00000009 01 00000005");
    assert_eq!(Point::at(&parts, all_hold).reasons(), [1, 2, 2]);
}

#[test]
fn the_levels_are_nested() {
    // Both branches of a fork lead to one buffer of upper 1. One end alone has room and
    // competes with none; only both pass the fork whole, and those have no room. So no
    // choice that satisfies the buffer's own rule passes the fork whole: 4, though some
    // choice satisfies each of the rules.
    let mut parts = Parts::default();
    parts.add_node(INCOMING, 1);
    parts.add_node(FORK, 0);
    parts.add_node(BUFFER, 1);
    parts.add_edge(OBJECT, 0, 1, 0);
    parts.add_edge(OBJECT, 1, 2, 0);
    parts.add_edge(OBJECT, 1, 2, 0);
    let point = Point::started(&parts, &[7]);
    assert_eq!(point.reasons(), [1, 1, 4]);
    assert_eq!(point.step(&[0]), refused(11, 1));
    assert_eq!(point.step(&[0, 1]), refused(12, 2));
    parts.nodes[2][3] = 2;
    assert_eq!(Point::started(&parts, &[7]).reasons(), [1, 1, 0]);
}

/// A fork, 1, sends a token to two joins, 2 and 3. Each waits for a value too, join 2
/// for one of parameter 4, join 3 for one of `second_source`, 4 or 7. They lead to the
/// buffers 5 and 6.
fn fork_to_two_joins(second_source: u8) -> Point {
    let mut parts = Parts::default();
    parts.add_node(INITIAL, 0);
    parts.add_node(FORK, 0);
    parts.add_node(JOIN, 0);
    parts.add_node(JOIN, 0);
    parts.add_node(INCOMING, 1);
    parts.add_node(BUFFER, 1);
    parts.add_node(BUFFER, 1);
    parts.add_node(INCOMING, 1);
    parts.add_edge(CONTROL, 0, 1, 0);
    parts.add_edge(CONTROL, 1, 2, 0);
    parts.add_edge(CONTROL, 1, 3, 0);
    parts.add_edge(OBJECT, 4, 2, 0);
    parts.add_edge(OBJECT, second_source, 3, 0);
    parts.add_edge(OBJECT, 2, 5, 0);
    parts.add_edge(OBJECT, 3, 6, 0);
    Point::started(&parts, &[7, 9])
}

#[test]
fn competing_is_asked_of_ends_of_other_nodes_too() {
    // Either end alone leaves the fork in parts. Both pass it whole, but they take from
    // one parameter and compete, though they belong to different nodes. So 4 for both.
    let point = fork_to_two_joins(4);
    assert_eq!(point.ends(), ["7 0,1,5 3,5", "7 0,2,6 4,6"]);
    assert_eq!(point.reasons(), [1, 1, 1, 1, 1, 4, 4, 1]);
    assert_eq!(point.step(&[0]), refused(11, 1));
    assert_eq!(point.step(&[0, 1]), refused(10, 0));
    // From two parameters they don't.
    let point = fork_to_two_joins(7);
    assert_eq!(point.reasons(), [1, 1, 1, 1, 1, 0, 0, 1]);
}

#[test]
fn forks_are_asked_of_ends_of_other_nodes_too() {
    // Fork 1 leads to the final, 2, and to a join, 3. Fork 5 leads to that join and to
    // join 6, which waits for action 7 as well, which idles. Join 3 leads to final 8.
    let mut parts = Parts::default();
    parts.add_node(INITIAL, 0);
    parts.add_node(FORK, 0);
    parts.add_node(FLOW_FINAL, 0);
    parts.add_node(JOIN, 0);
    parts.add_node(INITIAL, 0);
    parts.add_node(FORK, 0);
    parts.add_node(JOIN, 0);
    parts.add_node(ACTION, 0);
    parts.add_node(ACTIVITY_FINAL, 0);
    parts.add_edge(CONTROL, 0, 1, 0);
    parts.add_edge(CONTROL, 1, 2, 0);
    parts.add_edge(CONTROL, 1, 3, 0);
    parts.add_edge(CONTROL, 4, 5, 0);
    parts.add_edge(CONTROL, 5, 3, 0);
    parts.add_edge(CONTROL, 5, 6, 1);
    parts.add_edge(CONTROL, 3, 8, 0);
    parts.add_edge(CONTROL, 7, 6, 0);
    parts.add_edge(CONTROL, 6, 7, 0);
    let mut point = Point::started(&parts, &[]);
    assert_eq!(point.ends(), ["- 0,1", "- 0,2,6 3,4,6"]);
    // Final 2's end is 0. Alone it leaves fork 1 in parts. With end 1 it passes fork 1
    // whole, but end 1 leaves fork 5 in parts, which end 0 does not pass at all.
    assert_eq!(point.step(&[0]), refused(11, 1));
    assert_eq!(point.step(&[0, 1]), refused(11, 5));
    assert_eq!(point.reasons(), [1, 1, 4, 1, 1, 1, 1, 1, 4]);
    // With edge 5 closed, fork 5 has one branch.
    point.guards[5] = 0;
    assert_eq!(point.reasons(), [1, 1, 0, 1, 1, 1, 1, 1, 0]);
}

/// A fork, 1, to node 2 and to action 3, which idles or runs.
fn fork_to_action(second_kind: u8, running: u8) -> Point {
    let mut parts = Parts::default();
    parts.add_node(INITIAL, 0);
    parts.add_node(FORK, 0);
    parts.add_node(second_kind, 0);
    parts.add_node(ACTION, 0);
    parts.add_edge(CONTROL, 0, 1, 0);
    parts.add_edge(CONTROL, 1, 2, 0);
    parts.add_edge(CONTROL, 1, 3, 0);
    let first_action = if second_kind == ACTION { "00" } else { "" };
    let marking = framed(&format!("01 00 {first_action} {running:02X} 01"));
    Point::at(&parts, marking)
}

#[test]
fn a_running_action_is_in_the_way_of_others_by_5() {
    for second_kind in [ACTION, FLOW_FINAL, ACTIVITY_FINAL] {
        // Node 2's own rule is met, and its end competes with none. The fork is passed
        // whole only with the end of action 3. That action's own rule is not met.
        let point = fork_to_action(second_kind, 1);
        assert_eq!(point.reasons(), [1, 1, 5, 2]);
        let point = fork_to_action(second_kind, 0);
        assert_eq!(point.reasons(), [1, 1, 0, 0]);
    }
}

/// A table and so on with every fault, in the order of the refusals. Each call of
/// `repair` takes one away.
struct Faulty {
    parts: Parts,
    is_cut: bool,
    marking: Vec<u8>,
    guards: Vec<u8>,
    bounds: Vec<u8>,
    room: usize,
}

impl Faulty {
    /// An initial node, 0, and 21 edges to a final, 1: one end too many. Action 2 waits
    /// for nothing, edge 20 is of kind 2 and node 1 has an owner.
    fn new() -> Faulty {
        let mut parts = Parts::default();
        parts.add_node(INITIAL, 0);
        parts.add_node(FLOW_FINAL, 0);
        parts.add_node(ACTION, 0);
        for _ in 0..21 {
            parts.add_edge(CONTROL, 0, 1, 0);
        }
        parts.edges[20][0] = 2;
        parts.nodes[1][1] = 0;
        Faulty {
            parts,
            is_cut: true,
            marking: vec![],
            guards: vec![],
            bounds: vec![],
            room: 0,
        }
    }

    /// The table, without its last byte if it is cut.
    fn table(&self) -> Vec<u8> {
        let mut table = self.parts.write();
        if self.is_cut {
            table.pop();
        }
        table
    }

    fn sheet(&self) -> Answer {
        let (marking, guards, bounds) = (&self.marking, &self.guards, &self.bounds);
        sheet_within(&self.table(), marking, guards, bounds, self.room, 0).unwrap()
    }

    fn why(&self, node: u8) -> Answer {
        let (marking, guards, bounds) = (&self.marking, &self.guards, &self.bounds);
        why(&self.table(), marking, guards, bounds, node, self.room)
    }

    /// Takes away the fault of this number.
    fn repair(&mut self, number: u8) {
        match number {
            1 => self.is_cut = false,
            2 => self.parts.nodes[1][1] = 255,
            3 => self.parts.edges[20][0] = CONTROL,
            4 => self.parts.nodes[2][0] = FLOW_FINAL,
            5 => self.marking = framed(&format!("01 01 {}", "00".repeat(21))),
            6 => self.marking = reply(start(&self.table(), &[], ROOM)),
            7 => self.guards = vec![1; 21],
            18 => self.bounds = NO_BOUNDS.to_vec(),
            8 => self.marking[4] = 0, // so edge 0 carries no offer
            _ => self.room = ROOM,
        }
    }
}

#[test]
fn refusals_are_those_of_sheet_in_its_order() {
    let mut faulty = Faulty::new();
    for (number, place) in [
        (1, 0),
        (2, 1),
        (3, 20),
        (4, 2),
        (5, 0),
        (6, 0),
        (7, 0),
        (18, 0),
        (8, 0),
        (17, 0),
    ] {
        for node in [0, 1, 200, NO_NODE] {
            assert_eq!(faulty.why(node), refused(number, place));
        }
        assert_eq!(faulty.sheet(), refused(number, place));
        faulty.repair(number);
    }
    for (node, reason) in [(0, 1), (1, 0), (200, 1), (NO_NODE, 0)] {
        assert_eq!(faulty.why(node), Answer::Good(vec![reason]));
    }
    assert_eq!(number(&faulty.sheet()), 0);
}

#[test]
fn one_byte_of_room_is_enough_and_none_is_not() {
    let point = forked_point(full_marking());
    for (node, reason) in [(0, 1), (4, 5), (6, 2), (7, 1), (NO_NODE, 0)] {
        let why = |room: usize| {
            let (table, marking) = (&point.table, &point.marking);
            why(table, marking, &point.guards, &NO_BOUNDS, node, room)
        };
        assert_eq!(why(0), refused(17, 0));
        assert_eq!(why(1), Answer::Good(vec![reason]));
        assert_eq!(why(ROOM), Answer::Good(vec![reason]));
    }
}

#[test]
fn twelve_ends_take_4096_steps_at_most() {
    // Ten edges more from the initial node to a final, 4.
    let mut parts = Parts::of(&fork_to_action(FLOW_FINAL, 1).table).unwrap();
    parts.add_node(FLOW_FINAL, 0);
    for _ in 0..10 {
        parts.add_edge(CONTROL, 0, 4, 0);
    }
    let point = Point::at(&parts, framed(&format!("01 00 01 {}", "01".repeat(11))));
    let board = point.board();
    assert_eq!(board.ends(), 12);
    for (node, reason) in [(0, 1), (3, 2), (2, 5)] {
        let within = |steps: u64| {
            let (table, marking) = (&point.table, &point.marking);
            why_within(table, marking, &point.guards, &NO_BOUNDS, node, ROOM, steps)
        };
        assert_eq!(within(4_096), Some(Answer::Good(vec![reason])));
        assert_eq!(within(4_095), None);
        assert_eq!(board.why_within(node, ROOM, 4_096), within(4_096));
        assert_eq!(board.why_within(node, ROOM, 4_095), None);
        assert_eq!(board.is_left_within(reason, node, 4_096), Some(false));
        assert_eq!(board.is_left_within(reason, node, 4_095), None);
    }
    // An acceptable choice is found before all are tried.
    assert_eq!(point.why(4), 0);
    assert_eq!(
        board.why_within(4, ROOM, 4_095),
        Some(Answer::Good(vec![0]))
    );
    assert_eq!(board.why_within(4, ROOM, 0), None);
    assert_eq!(
        board.why_within(NO_NODE, ROOM, 0),
        Some(Answer::Good(vec![0]))
    );
}

/// Steps for all sets of twelve ends.
const BUDGET: u64 = 4_096;

/// The board of this point of an event, if sheet answers with so many ends at most.
fn board_of(event: &Event, most_ends: usize) -> Option<Board> {
    let (table, marking) = (&event.table, &event.marking);
    let board = Board::within(table, marking, &event.guards, &event.bounds, BUDGET)?.ok()?;
    if board.ends() <= most_ends {
        Some(board)
    } else {
        None
    }
}

/// The nodes that ends of this board belong to, and two numbers more, one of them a
/// node's or not far from it.
fn nodes_to_ask(rng: &mut Rng, parts: &Parts, board: &Board) -> Vec<u8> {
    let mut nodes = vec![rng.below(parts.nodes.len() + 3) as u8, rng.below(255) as u8];
    for target in board.targets() {
        nodes.push(target);
        if parts.nodes[usize::from(target)][0] == INPUT_PIN {
            nodes.push(parts.nodes[usize::from(target)][1]);
        }
    }
    nodes.sort_unstable();
    nodes.dedup();
    nodes
}

/// The reason for this node.
fn reason_on(board: &Board, node: u8) -> u8 {
    reply(board.why_within(node, ROOM, BUDGET).unwrap())[0]
}

/// The reasons for many nodes on the boards of so many random events, with so many ends
/// at most. How often each came.
fn for_each_reason(
    seed: u64,
    events: usize,
    most_ends: usize,
    mut visit: impl FnMut(&Event, &Board, u8, u8),
) -> [usize; 6] {
    let mut counts = [0; 6];
    for_each_point(seed, events, |rng, event| {
        if let Some(board) = board_of(event, most_ends) {
            let parts = Parts::of(&event.table).unwrap();
            assert_eq!(reason_on(&board, NO_NODE), 0);
            for node in nodes_to_ask(rng, &parts, &board) {
                let reason = reason_on(&board, node);
                counts[usize::from(reason)] += 1;
                visit(event, &board, node, reason);
            }
        }
    });
    println!("reasons 0 to 5: {counts:?}");
    assert!(counts.iter().all(|count| *count >= 40), "{counts:?}");
    counts
}

#[test]
fn the_reason_is_0_exactly_if_pick_is_not_refused_with_13() {
    let counts = for_each_reason(21, 1_000, 12, |event, board, node, reason| {
        let pick = board.pick_within(node, ROOM, 2 * BUDGET).unwrap();
        if reason == 0 {
            assert_eq!(number(&pick), 0, "node {node} {event:?}");
        } else {
            assert_eq!(pick, refused(13, node), "{event:?}");
        }
    });
    assert!(counts.iter().sum::<usize>() >= 10_000);
}

#[test]
fn the_reason_is_the_first_level_at_which_no_choice_is_left() {
    for_each_reason(22, 600, 9, |event, board, node, reason| {
        let is_left = |level: u8| board.is_left_within(level, node, BUDGET).unwrap();
        let first_without = (1..=5).find(|level| !is_left(*level));
        assert_eq!(reason, first_without.unwrap_or(0), "node {node} {event:?}");
        // What is left at a level was left at those before it.
        let left: Vec<bool> = (1..=5).map(is_left).collect();
        let is_nested = left.windows(2).all(|pair| pair[0] || !pair[1]);
        assert!(is_nested, "node {node} {left:?} {event:?}");
    });
}

#[test]
fn the_reason_is_what_step_and_the_own_rule_say_of_all_sets() {
    for_each_reason(23, 1_000, 6, |event, board, node, reason| {
        let told = ends_at(event).reason_by_steps(board, node);
        assert_eq!(reason, told, "node {node} {event:?}");
    });
}

/// What the sheet of this point of an event tells of its ends.
fn ends_at(event: &Event) -> Ends {
    let (table, marking) = (&event.table, &event.marking);
    let sheet = sheet_within(table, marking, &event.guards, &event.bounds, ROOM, BUDGET);
    let ends = ends_of(&reply(sheet.unwrap()));
    Ends::of(&Parts::of(table).unwrap(), marking, &ends)
}

impl Ends {
    /// The reason, from what step answers to every set: it refuses by competing ends,
    /// forks and destinations in the order of levels 3 to 5.
    fn reason_by_steps(&self, board: &Board, node: u8) -> u8 {
        let mut furthest = 1;
        for set in 0..1 << self.last_edges.len() {
            let taken = |end: &usize| set >> end & 1 == 1;
            let choice: Vec<usize> = (0..self.last_edges.len()).filter(taken).collect();
            if choice.iter().any(|end| self.belongs_to(*end, node)) {
                furthest = furthest.max(self.fails_at(board, &choice, node));
            }
        }
        if furthest == 6 {
            0
        } else {
            furthest
        }
    }

    /// The level at which this choice is not left, 6 if it is at all.
    fn fails_at(&self, board: &Board, choice: &[usize], node: u8) -> u8 {
        if !self.own_rule(choice, node) {
            return 2;
        }
        let bytes: Vec<u8> = choice.iter().map(|end| *end as u8).collect();
        match number(&board.step(&bytes, ROOM)) {
            10 => 3,
            11 => 4,
            12 => 5,
            _ => 6,
        }
    }
}

#[test]
fn some_reasons_are_for_some_kinds_only() {
    let mut pins = 0;
    for_each_reason(24, 1_000, 9, |event, board, node, reason| {
        let parts = Parts::of(&event.table).unwrap();
        let record = parts.nodes.get(usize::from(node));
        let possible: &[u8] = match record.map_or(0, |record| record[0]) {
            ACTION | INPUT_PIN => &[0, 1, 2, 3, 4, 5],
            // An end alone competes with none, and it has room if any choice with an
            // end of the node has.
            BUFFER | OUTGOING => &[0, 1, 2, 4, 5],
            // And finals take any number.
            FLOW_FINAL | ACTIVITY_FINAL => &[0, 1, 4, 5],
            // No end belongs to other nodes, nor to one that doesn't exist.
            _ => &[1],
        };
        assert!(possible.contains(&reason), "{node} {reason} {event:?}");
        // An end of a pin is one of its action, and they have one rule. So a choice that
        // is left for the pin is left for the action.
        if let Some([INPUT_PIN, action, ..]) = record {
            let furthest = |reason: u8| if reason == 0 { 6 } else { reason };
            let of_action = reason_on(board, *action);
            assert!(furthest(reason) <= furthest(of_action), "{node} {event:?}");
            pins += 1;
        }
    });
    assert!(pins >= 500);
}

#[test]
fn on_random_bytes_too_the_refusals_are_those_of_sheet() {
    let mut rng = Rng::new(25);
    let (mut refusals, mut skipped) = ([0; 19], 0);
    for _ in 0..6_000 {
        let event = Event::anywhere(&mut rng);
        let mut spoil = |bytes: &[u8], percent: usize| match rng.percent(percent) {
            true => random::damaged_bytes(&mut rng, bytes),
            false => bytes.to_vec(),
        };
        let table = spoil(&event.table, 10);
        let marking = spoil(&event.marking, 10);
        let guards = spoil(&event.guards, 10);
        let bounds = spoil(&event.bounds, 10);
        let room = rng.below(2); // none is too short for both; a byte is enough for why
        let sheet = sheet_within(&table, &marking, &guards, &bounds, ROOM * room, BUDGET);
        let node = rng.byte();
        let why = why_within(&table, &marking, &guards, &bounds, node, room, BUDGET);
        match (sheet, why) {
            (Some(Answer::Good(_)), Some(Answer::Good(reason))) => {
                assert!(reason.len() == 1 && reason[0] <= 5);
                refusals[0] += 1;
            }
            (Some(sheet), Some(why)) => {
                assert_eq!(why, sheet);
                refusals[usize::from(number(&sheet))] += 1;
            }
            _ => skipped += 1,
        }
    }
    println!("good and refusals 1 to 18: {refusals:?}, skipped {skipped}");
    for number in [0, 1, 2, 3, 4, 5, 6, 7, 8, 17, 18] {
        assert!(refusals[number] >= 10, "{refusals:?}");
    }
    assert!(skipped < 300);
}
