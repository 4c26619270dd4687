//! Wish 2, "One round token for all tables": which offers of a join compete by (c),
//! and what comes of it in choices, picks and steps.

mod common;

use common::{
    framed, number, refused, reply, Point, ACTION, BUFFER, CONTROL, DECISION, FLOW_FINAL, FORK,
    INCOMING, INITIAL, INPUT_PIN, JOIN, MERGE, OBJECT, OUTGOING,
};
use reading::random::Parts;
use reading::{Answer, Board, NO_BOUNDS, NO_NODE};

impl Point {
    /// The pairs of ends that step refuses with 10, at the lower one.
    fn competing(&self) -> Vec<(u8, u8)> {
        let ends = self.ends().len() as u8;
        let mut pairs = Vec::new();
        for higher in 0..ends {
            for lower in 0..higher {
                let answer = self.step(&[lower, higher]);
                if number(&answer) == 10 {
                    assert_eq!(answer, refused(10, lower));
                    pairs.push((lower, higher));
                }
            }
        }
        pairs
    }

    /// The pairs of ends that wish 2 frees.
    fn freed(&self) -> Vec<(u8, u8)> {
        let (table, marking) = (&self.table, &self.marking);
        let board = Board::within(table, marking, &self.guards, &NO_BOUNDS, 1_000);
        board.unwrap().unwrap().freed_pairs()
    }
}

/// Two results and a token: edges 0 and 1 of parameters 0 and 1 lead to a merge,
/// node 2; its edge 2 and edge 3, of an initial node, 3, lead to a join, node 4.
/// Edge 4 leaves the join for node 5, which is still to be added.
fn round() -> Parts {
    let mut parts = Parts::default();
    parts.add_node(INCOMING, 2);
    parts.add_node(INCOMING, 2);
    parts.add_node(MERGE, 0);
    parts.add_node(INITIAL, 0);
    parts.add_node(JOIN, 0);
    parts.add_edge(OBJECT, 0, 2, 0);
    parts.add_edge(OBJECT, 1, 2, 0);
    parts.add_edge(OBJECT, 2, 4, 0);
    parts.add_edge(CONTROL, 3, 4, 0);
    parts.add_edge(OBJECT, 4, 5, 0);
    parts
}

/// The same, with a buffer of this upper for node 5.
fn round_into_buffer(upper: u8) -> Parts {
    let mut parts = round();
    parts.add_node(BUFFER, upper);
    parts
}

#[test]
fn two_results_go_through_with_one_token() {
    let point = Point::started(&round_into_buffer(2), &[7, 9]);
    assert_eq!(point.ends(), ["7 0,2,4 3,4", "9 1,2,4 3,4"]);
    assert_eq!(point.competing(), []);
    assert_eq!(point.freed(), [(0, 1)]);
    assert_eq!(point.pick(NO_NODE), Answer::Good(vec![0, 1]));
    assert_eq!(point.pick(5), Answer::Good(vec![0, 1]));
    let both = framed("01 00 00 00 02 00000007 00000009 00");
    assert_eq!(reply(point.step(&[0, 1])), both);
}

#[allow(clippy::redundant_clone)] // the last answer is written as the others
#[test]
fn each_result_still_goes_through_alone() {
    let point = Point::started(&round_into_buffer(2), &[7, 9]);
    let first = framed("01 00 00 01 00000009 01 00000007 00");
    assert_eq!(reply(point.step(&[0])), first);
    let second = framed("01 00 01 00000007 00 01 00000009 00");
    assert_eq!(reply(point.step(&[1])), second);
    assert_eq!(point.step(&[]), Answer::Good(point.marking.clone()));
}

#[test]
fn values_arrive_in_end_order() {
    let mut parts = round_into_buffer(2);
    parts.edges.swap(0, 1);
    let point = Point::started(&parts, &[7, 9]);
    assert_eq!(point.ends(), ["9 0,2,4 3,4", "7 1,2,4 3,4"]);
    let both = framed("01 00 00 00 02 00000009 00000007 00");
    assert_eq!(reply(point.step(&[0, 1])), both);
}

#[test]
fn results_wait_in_buffers_and_tokens_go_as_one() {
    // Buffers for the parameters, an action that idles for the initial node, and 3
    // tokens on its edge.
    let mut parts = round_into_buffer(4);
    parts.nodes[0][0] = BUFFER;
    parts.nodes[1][0] = BUFFER;
    parts.nodes[3][0] = ACTION;
    parts.add_edge(CONTROL, 3, 3, 0); // which it needs to be good
    let marking = framed("01 00 02 00000007 00000008 01 00000009 00 01 00000001 03 00");
    let point = Point::at(&parts, marking);
    assert_eq!(point.pick(NO_NODE), Answer::Good(vec![0, 1]));
    let both = framed("01 00 01 00000008 00 00 03 00000001 00000007 00000009 00 00");
    assert_eq!(reply(point.step(&[0, 1])), both);
}

#[test]
fn three_results_go_through_with_one_token() {
    let mut parts = round_into_buffer(3);
    parts.add_node(INCOMING, 1);
    parts.add_edge(OBJECT, 6, 2, 0);
    let point = Point::started(&parts, &[7, 8, 9]);
    assert_eq!(point.competing(), []);
    assert_eq!(point.freed(), [(0, 1), (0, 2), (1, 2)]);
    assert_eq!(point.pick(NO_NODE), Answer::Good(vec![0, 1, 2]));
    let all = framed("01 00 00 00 03 00000007 00000008 00000009 00 00");
    assert_eq!(reply(point.step(&[0, 1, 2])), all);
}

#[test]
fn a_destination_without_room_refuses_by_rule_3() {
    let point = Point::started(&round_into_buffer(1), &[7, 9]);
    assert_eq!(point.step(&[0, 1]), refused(12, 5));
    assert_eq!(point.pick(NO_NODE), Answer::Good(vec![0]));
    assert_eq!(number(&point.step(&[0])), 0);
    assert_eq!(number(&point.step(&[1])), 0);
    // The same with upper 2, if one value is there.
    let marking = framed("01 00 01 00000007 01 00000009 01 00000001 01");
    let point = Point::at(&round_into_buffer(2), marking);
    assert_eq!(point.step(&[0, 1]), refused(12, 5));
}

#[test]
fn an_action_that_asks_for_two_results_can_run() {
    let mut parts = round();
    parts.add_pin(INPUT_PIN, 6, 2, 2);
    parts.add_node(ACTION, 0);
    let point = Point::started(&parts, &[7, 9]);
    for node in [5, 6, NO_NODE] {
        assert_eq!(point.pick(node), Answer::Good(vec![0, 1]));
    }
    assert_eq!(point.step(&[0]), refused(12, 6));
    let running = framed("01 00 00 00 02 00000007 00000009 01 00");
    assert_eq!(reply(point.step(&[0, 1])), running);
}

#[test]
fn joins_of_control_edges_only_stand() {
    // Two tokens merge and wait for a third.
    let mut parts = Parts::default();
    parts.add_node(INITIAL, 0);
    parts.add_node(MERGE, 0);
    parts.add_node(JOIN, 0);
    parts.add_node(FLOW_FINAL, 0);
    parts.add_edge(CONTROL, 0, 1, 0);
    parts.add_edge(CONTROL, 0, 1, 0);
    parts.add_edge(CONTROL, 1, 2, 0);
    parts.add_edge(CONTROL, 0, 2, 0);
    parts.add_edge(CONTROL, 2, 3, 0);
    let point = Point::started(&parts, &[]);
    assert_eq!(point.ends(), ["- 0,2,4 3,4", "- 1,2,4 3,4"]);
    assert_eq!(point.step(&[0, 1]), refused(10, 0));
    assert_eq!(point.pick(NO_NODE), Answer::Good(vec![0]));
    assert_eq!(point.freed(), []);
}

#[test]
fn a_join_of_an_object_edge_only_has_nothing_in_common() {
    let mut parts = round_into_buffer(2);
    parts.edges[3] = [CONTROL, 3, 6, 0];
    parts.add_node(FLOW_FINAL, 0);
    let point = Point::started(&parts, &[7, 9]);
    assert_eq!(point.ends(), ["7 0,2,4", "9 1,2,4", "- 3"]); // at 5, 5 and 6
    assert_eq!(point.competing(), []);
    assert_eq!(point.freed(), []);
}

#[test]
fn offers_with_the_same_object_offer_compete() {
    // One result. Edges 1 and 2 bring two tokens to a merge, edge 3 one of them to
    // the join.
    let mut parts = Parts::default();
    parts.add_node(INCOMING, 1);
    parts.add_node(INITIAL, 0);
    parts.add_node(MERGE, 0);
    parts.add_node(JOIN, 0);
    parts.add_node(BUFFER, 2);
    parts.add_edge(OBJECT, 0, 3, 0);
    parts.add_edge(CONTROL, 1, 2, 0);
    parts.add_edge(CONTROL, 1, 2, 0);
    parts.add_edge(CONTROL, 2, 3, 0);
    parts.add_edge(OBJECT, 3, 4, 0);
    let point = Point::started(&parts, &[7]);
    assert_eq!(point.ends(), ["7 0,4 1,3,4", "7 0,4 2,3,4"]);
    assert_eq!(point.step(&[0, 1]), refused(10, 0));
    assert_eq!(point.pick(NO_NODE), Answer::Good(vec![0]));
    assert_eq!(point.freed(), []);
    // So they do where a token on one more edge is the same.
    parts.add_edge(CONTROL, 1, 3, 0);
    let point = Point::started(&parts, &[7]);
    assert_eq!(point.ends(), ["7 0,4 1,3,4 5,4", "7 0,4 2,3,4 5,4"]);
    assert_eq!(point.step(&[0, 1]), refused(10, 0));
    assert_eq!(point.freed(), []);
}

/// The round with one more control edge, 7, into its join: from a merge, node 6, of
/// so many tokens, edges 5 and 6 at most.
fn round_with_second_control_edge(tokens: usize) -> Parts {
    let mut parts = round_into_buffer(4);
    parts.add_node(MERGE, 0);
    for edge in 0..2 {
        let target = if edge < tokens { 6 } else { 7 };
        parts.add_edge(CONTROL, 3, target, 0);
    }
    parts.add_edge(CONTROL, 6, 4, 0);
    parts.add_node(FLOW_FINAL, 0);
    parts
}

#[test]
fn a_token_on_each_of_two_edges_lets_two_results_through() {
    let point = Point::started(&round_with_second_control_edge(1), &[7, 9]);
    let ends = ["7 0,2,4 3,4 5,7,4", "9 1,2,4 3,4 5,7,4", "- 6"];
    assert_eq!(point.ends(), ends);
    assert_eq!(point.competing(), []);
    assert_eq!(point.freed(), [(0, 1)]);
    assert_eq!(point.pick(5), Answer::Good(vec![0, 1, 2]));
}

#[test]
fn control_offers_must_be_the_same_on_every_edge() {
    let point = Point::started(&round_with_second_control_edge(2), &[7, 9]);
    let ends = [
        "7 0,2,4 3,4 5,7,4",
        "7 0,2,4 3,4 6,7,4",
        "9 1,2,4 3,4 5,7,4",
        "9 1,2,4 3,4 6,7,4",
    ];
    assert_eq!(point.ends(), ends);
    // All have edge 3's token. 0 and 3, and 1 and 2, differ in the other token too.
    assert_eq!(point.competing(), [(0, 1), (1, 2), (0, 3), (2, 3)]);
    assert_eq!(point.freed(), [(0, 2), (1, 3)]);
    assert_eq!(point.pick(NO_NODE), Answer::Good(vec![0, 2]));
    // Edge 3's and 5's tokens are spent, 6's is left.
    let both = framed("01 00 00 00 02 00000007 00000009 00 00 01");
    assert_eq!(reply(point.step(&[0, 2])), both);
    assert_eq!(number(&point.step(&[1, 3])), 0);
    assert_eq!(point.step(&[0, 1, 2, 3]), refused(10, 0));
    assert_eq!(point.step(&[1, 2, 3]), refused(10, 1));
}

#[test]
fn a_token_forked_twice_makes_two_offers_that_differ() {
    // Edge 5 leads its token to a fork, node 8; edges 6 and 8 from there to the merge.
    let mut parts = round_with_second_control_edge(2);
    parts.add_node(FORK, 0);
    parts.edges[5][2] = 8;
    parts.edges[6][1] = 8;
    parts.add_edge(CONTROL, 8, 6, 0);
    let point = Point::started(&parts, &[7, 9]);
    let ends = [
        "7 0,2,4 3,4 5,6,7,4",
        "7 0,2,4 3,4 5,8,7,4",
        "9 1,2,4 3,4 5,6,7,4",
        "9 1,2,4 3,4 5,8,7,4",
    ];
    assert_eq!(point.ends(), ends);
    assert_eq!(point.competing(), [(0, 1), (1, 2), (0, 3), (2, 3)]);
    assert_eq!(point.freed(), [(0, 2), (1, 3)]);
    // So no choice passes the fork whole.
    assert_eq!(point.step(&[0, 2]), refused(11, 8));
    assert_eq!(point.pick(NO_NODE), Answer::Good(vec![]));
}

#[test]
fn place_10_passes_over_freed_ends() {
    // The same without edge 3, which leads to 7: each result with each of two tokens.
    let mut parts = round_with_second_control_edge(2);
    parts.edges[3][2] = 7;
    let point = Point::started(&parts, &[7, 9]);
    let ends = [
        "7 0,2,4 5,7,4",
        "7 0,2,4 6,7,4",
        "9 1,2,4 5,7,4",
        "9 1,2,4 6,7,4",
        "- 3",
    ];
    assert_eq!(point.ends(), ends);
    assert_eq!(point.competing(), [(0, 1), (2, 3)]);
    assert_eq!(point.freed(), [(0, 2), (1, 3)]); // 0 and 3, 1 and 2 were free before
    assert_eq!(point.step(&[0, 2, 3]), refused(10, 2)); // before, at 0
    assert_eq!(point.step(&[0, 1, 2]), refused(10, 0));
    assert_eq!(number(&point.step(&[0, 3])), 0);
}

/// One result in parameter 0, whose edge 0 leads to node 1; its edges 1 and 2 lead to
/// a merge, and the merge's, 3, with edge 4 of an initial node to a join. From there
/// edge 5 leads to a buffer.
fn split_result(kind: u8) -> Parts {
    let mut parts = Parts::default();
    parts.add_node(INCOMING, 2);
    parts.add_node(kind, 0);
    parts.add_node(MERGE, 0);
    parts.add_node(INITIAL, 0);
    parts.add_node(JOIN, 0);
    parts.add_node(BUFFER, 2);
    parts.add_edge(OBJECT, 0, 1, 0);
    parts.add_edge(OBJECT, 1, 2, 0);
    parts.add_edge(OBJECT, 1, 2, 0);
    parts.add_edge(OBJECT, 2, 4, 0);
    parts.add_edge(CONTROL, 3, 4, 0);
    parts.add_edge(OBJECT, 4, 5, 0);
    parts
}

#[test]
fn a_value_forked_twice_makes_two_offers_that_differ() {
    let marking = framed("01 00 02 00000007 00000009 00 01");
    let point = Point::at(&split_result(FORK), marking);
    assert_eq!(point.ends(), ["7 0,1,3,5 4,5", "7 0,2,3,5 4,5"]);
    assert_eq!(point.freed(), [(0, 1)]);
    assert_eq!(point.step(&[0]), refused(11, 1));
    assert_eq!(point.step(&[1]), refused(11, 1));
    assert_eq!(point.pick(NO_NODE), Answer::Good(vec![0, 1]));
    // The parameter loses one value, and the buffer gains it twice.
    let both = framed("01 00 01 00000009 02 00000007 00000007 00");
    assert_eq!(reply(point.step(&[0, 1])), both);
}

#[test]
fn equal_values_make_two_offers_that_differ() {
    let point = Point::started(&round_into_buffer(2), &[7, 7]);
    assert_eq!(point.ends(), ["7 0,2,4 3,4", "7 1,2,4 3,4"]);
    let both = framed("01 00 00 00 02 00000007 00000007 00");
    assert_eq!(reply(point.step(&[0, 1])), both);
}

#[test]
fn branches_of_a_decision_compete_by_b() {
    let point = Point::started(&split_result(DECISION), &[7]);
    assert_eq!(point.ends(), ["7 0,1,3,5 4,5", "7 0,2,3,5 4,5"]);
    assert_eq!(point.step(&[0, 1]), refused(10, 0));
    assert_eq!(point.pick(NO_NODE), Answer::Good(vec![0]));
    assert_eq!(point.freed(), []);
}

#[test]
fn edges_of_one_object_node_compete_by_a() {
    let mut parts = round_into_buffer(2);
    parts.edges[1][1] = 0; // both edges leave parameter 0
    let marking = framed("01 00 02 00000007 00000009 00 00 01");
    let point = Point::at(&parts, marking);
    assert_eq!(point.ends(), ["7 0,2,4 3,4", "7 1,2,4 3,4"]);
    assert_eq!(point.step(&[0, 1]), refused(10, 0));
    assert_eq!(point.pick(NO_NODE), Answer::Good(vec![0]));
    assert_eq!(point.freed(), []);
}

#[test]
fn behind_the_join_a_merge_keeps_them_free() {
    // The join and parameter 6 lead to a merge, node 5, and it to a parameter.
    let mut parts = round();
    parts.add_node(MERGE, 0);
    parts.add_node(INCOMING, 1);
    parts.add_node(OUTGOING, 3);
    parts.add_edge(OBJECT, 6, 5, 0);
    parts.add_edge(OBJECT, 5, 7, 0);
    let point = Point::started(&parts, &[7, 8, 9]);
    assert_eq!(
        point.ends(),
        ["7 0,2,4,6 3,4,6", "8 1,2,4,6 3,4,6", "9 5,6"]
    );
    assert_eq!(point.competing(), []);
    assert_eq!(point.freed(), [(0, 1)]);
    let all = framed("01 00 00 00 00 03 00000007 00000008 00000009 00");
    assert_eq!(reply(point.step(&[0, 1, 2])), all);
}

/// The round whose join leads to node 5; its edges 5 and 6 lead to two buffers, nodes
/// 6 and 7, of these uppers.
fn round_split_after(kind: u8, uppers: [u8; 2]) -> Point {
    let mut parts = round();
    parts.add_node(kind, 0);
    parts.add_node(BUFFER, uppers[0]);
    parts.add_node(BUFFER, uppers[1]);
    parts.add_edge(OBJECT, 5, 6, 0);
    parts.add_edge(OBJECT, 5, 7, 0);
    let point = Point::started(&parts, &[7, 9]);
    let ends = [
        "7 0,2,4,5 3,4,5",
        "9 1,2,4,5 3,4,5",
        "7 0,2,4,6 3,4,6",
        "9 1,2,4,6 3,4,6",
    ];
    assert_eq!(point.ends(), ends);
    assert_eq!(point.freed(), [(0, 1), (1, 2), (0, 3), (2, 3)]);
    point
}

#[test]
fn behind_the_join_a_fork_is_passed_whole_by_each() {
    let point = round_split_after(FORK, [2, 2]);
    assert_eq!(point.competing(), []);
    assert_eq!(point.pick(NO_NODE), Answer::Good(vec![0, 1, 2, 3]));
    let both = framed("01 00 00 00 02 00000007 00000009 02 00000007 00000009 00");
    assert_eq!(reply(point.step(&[0, 1, 2, 3])), both);
    for part in [&[0, 1][..], &[0, 3], &[1, 2], &[0, 1, 2]] {
        assert_eq!(point.step(part), refused(11, 5));
    }
    assert_eq!(number(&point.step(&[0, 2])), 0);
    assert_eq!(number(&point.step(&[1, 3])), 0);
    let point = round_split_after(FORK, [2, 1]);
    assert_eq!(point.step(&[0, 1, 2, 3]), refused(12, 7));
    assert_eq!(point.pick(NO_NODE), Answer::Good(vec![0, 2]));
}

#[test]
fn behind_the_join_a_decision_sends_each_one_way() {
    let point = round_split_after(DECISION, [2, 2]);
    assert_eq!(point.competing(), [(0, 2), (1, 3)]);
    assert_eq!(point.pick(NO_NODE), Answer::Good(vec![0, 1]));
    let point = round_split_after(DECISION, [1, 2]);
    assert_eq!(point.step(&[0, 1]), refused(12, 6));
    assert_eq!(point.pick(NO_NODE), Answer::Good(vec![0, 3]));
    let parted = framed("01 00 00 00 01 00000007 01 00000009 00");
    assert_eq!(reply(point.step(&[0, 3])), parted);
}

// A join has one object edge at most, and an offer with a value goes over object
// edges only. So two offers that wish 2 frees never meet in one offer of a later
// join: there they are object offers of two, which differ.

/// The round whose join leads to a second join, node 5, as edge 5 of initial node 6
/// does. Edge 6 leaves it for a buffer.
fn two_rounds() -> Parts {
    let mut parts = round();
    parts.add_node(JOIN, 0);
    parts.add_node(INITIAL, 0);
    parts.add_node(BUFFER, 4);
    parts.add_edge(CONTROL, 6, 5, 0);
    parts.add_edge(OBJECT, 5, 7, 0);
    parts
}

#[test]
fn at_a_later_join_one_token_lets_both_through() {
    let point = Point::started(&two_rounds(), &[7, 9]);
    let ends = ["7 0,2,4,6 3,4,6 5,6", "9 1,2,4,6 3,4,6 5,6"];
    assert_eq!(point.ends(), ends);
    assert_eq!(point.competing(), []);
    assert_eq!(point.freed(), [(0, 1)]);
    assert_eq!(point.pick(NO_NODE), Answer::Good(vec![0, 1]));
    let both = framed("01 00 00 00 02 00000007 00000009 00 00");
    assert_eq!(reply(point.step(&[0, 1])), both);
}

#[test]
fn at_a_later_join_each_may_take_its_own_token() {
    // Edges 5 and 7 bring two tokens to a merge, node 8, edge 8 one of them to the
    // second join.
    let mut parts = two_rounds();
    parts.add_node(MERGE, 0);
    parts.edges[5][2] = 8;
    parts.add_edge(CONTROL, 6, 8, 0);
    parts.add_edge(CONTROL, 8, 5, 0);
    let point = Point::started(&parts, &[7, 9]);
    let ends = [
        "7 0,2,4,6 3,4,6 5,8,6",
        "7 0,2,4,6 3,4,6 7,8,6",
        "9 1,2,4,6 3,4,6 5,8,6",
        "9 1,2,4,6 3,4,6 7,8,6",
    ];
    assert_eq!(point.ends(), ends);
    // 0 and 2 have the first join's token and the second's in common, 0 and 3 the
    // first's alone; 0 and 1 have the result in common.
    assert_eq!(point.competing(), [(0, 1), (2, 3)]);
    assert_eq!(point.freed(), [(0, 2), (1, 2), (0, 3), (1, 3)]);
    assert_eq!(point.pick(NO_NODE), Answer::Good(vec![0, 2]));
    assert_eq!(number(&point.step(&[0, 3])), 0);
    // With one more token that all have, tokens that differ compete there.
    parts.add_edge(CONTROL, 6, 5, 0);
    let point = Point::started(&parts, &[7, 9]);
    assert_eq!(point.competing(), [(0, 1), (1, 2), (0, 3), (2, 3)]);
    assert_eq!(point.freed(), [(0, 2), (1, 3)]);
}

#[test]
fn at_a_later_join_offers_compete_that_did_so_before_it() {
    // Edges 3 and 7 bring two tokens to a merge, node 8, edge 8 one of them to the
    // first join.
    let mut parts = two_rounds();
    parts.add_node(MERGE, 0);
    parts.edges[3][2] = 8;
    parts.add_edge(CONTROL, 3, 8, 0);
    parts.add_edge(CONTROL, 8, 4, 0);
    let point = Point::started(&parts, &[7, 9]);
    let ends = [
        "7 0,2,4,6 3,8,4,6 5,6",
        "7 0,2,4,6 5,6 7,8,4,6",
        "9 1,2,4,6 3,8,4,6 5,6",
        "9 1,2,4,6 5,6 7,8,4,6",
    ];
    assert_eq!(point.ends(), ends);
    // At the second join all object offers differ and all control offers are the
    // same. But 0 and 1, and 2 and 3, have makers at the first join that have their
    // result in common.
    assert_eq!(point.competing(), [(0, 1), (2, 3)]);
    assert_eq!(point.freed(), [(0, 2), (1, 2), (0, 3), (1, 3)]);
    assert_eq!(point.step(&[0, 2, 3]), refused(10, 2));
    assert_eq!(point.pick(NO_NODE), Answer::Good(vec![0, 2]));
}

#[test]
fn forked_after_a_join_and_merged_again_all_pass_a_later_one() {
    // A fork, node 8, and a merge, node 9, between the joins, linked by edges 7 and 8.
    let mut parts = two_rounds();
    parts.edges[4][2] = 8;
    parts.add_node(FORK, 0);
    parts.add_node(MERGE, 0);
    parts.add_edge(OBJECT, 8, 9, 0);
    parts.add_edge(OBJECT, 8, 9, 0);
    parts.add_edge(OBJECT, 9, 5, 0);
    let point = Point::started(&parts, &[7, 9]);
    let ends = [
        "7 0,2,4,7,9,6 3,4,7,9,6 5,6",
        "7 0,2,4,8,9,6 3,4,8,9,6 5,6",
        "9 1,2,4,7,9,6 3,4,7,9,6 5,6",
        "9 1,2,4,8,9,6 3,4,8,9,6 5,6",
    ];
    assert_eq!(point.ends(), ends);
    assert_eq!(point.competing(), []);
    assert_eq!(point.freed().len(), 6);
    assert_eq!(point.step(&[0, 2]), refused(11, 8));
    assert_eq!(number(&point.step(&[0, 1])), 0);
    assert_eq!(point.pick(NO_NODE), Answer::Good(vec![0, 1, 2, 3]));
    let all = framed("01 00 00 00 04 00000007 00000007 00000009 00000009 00 00");
    assert_eq!(reply(point.step(&[0, 1, 2, 3])), all);
}

#[test]
fn a_token_may_open_two_rounds_in_turn_by_a_fork() {
    // Edge 7 leads the token to node 6, and edges 3 and 5 from there to the joins.
    for (kind, ends, choice) in [(FORK, 2, vec![0, 1]), (DECISION, 0, vec![])] {
        let mut parts = two_rounds();
        parts.nodes[6][0] = kind;
        parts.edges[3] = [CONTROL, 6, 4, 0];
        parts.add_edge(CONTROL, 3, 6, 0);
        let point = Point::started(&parts, &[7, 9]);
        assert_eq!(point.ends().len(), ends);
        assert_eq!(point.pick(NO_NODE), Answer::Good(choice));
    }
}

/// The round, into a buffer, and a second one, with results 7 and 8 merged in 9 and a
/// join, 10, that leads to buffer 11. Edge 3 leads the token to node 6, and edges 5
/// and 6 from there to the joins. The ends are on edges 4 and 10.
fn two_rounds_side_by_side(kind: u8) -> Point {
    let mut parts = round_into_buffer(2);
    parts.add_node(kind, 0);
    parts.add_node(INCOMING, 1);
    parts.add_node(INCOMING, 1);
    parts.add_node(MERGE, 0);
    parts.add_node(JOIN, 0);
    parts.add_node(BUFFER, 2);
    parts.edges[3][2] = 6;
    parts.add_edge(CONTROL, 6, 4, 0);
    parts.add_edge(CONTROL, 6, 10, 0);
    parts.add_edge(OBJECT, 7, 9, 0);
    parts.add_edge(OBJECT, 8, 9, 0);
    parts.add_edge(OBJECT, 9, 10, 0);
    parts.add_edge(OBJECT, 10, 11, 0);
    let point = Point::started(&parts, &[1, 2, 3, 4]);
    assert_eq!(point.ends().len(), 4);
    assert_eq!(point.freed(), [(0, 1), (2, 3)]);
    point
}

#[test]
fn a_token_may_open_two_rounds_at_once_by_a_fork() {
    let point = two_rounds_side_by_side(FORK);
    assert_eq!(point.competing(), []);
    assert_eq!(point.step(&[0, 1]), refused(11, 6));
    assert_eq!(number(&point.step(&[0, 3])), 0);
    assert_eq!(point.pick(NO_NODE), Answer::Good(vec![0, 1, 2, 3]));
}

#[test]
fn a_token_opens_one_of_two_rounds_by_a_decision() {
    let point = two_rounds_side_by_side(DECISION);
    assert_eq!(point.competing(), [(0, 2), (1, 2), (0, 3), (1, 3)]);
    assert_eq!(point.pick(NO_NODE), Answer::Good(vec![0, 1]));
    assert_eq!(point.pick(11), Answer::Good(vec![2, 3]));
}
