//! The limits under the paper's "To run", those of tables as wish 6 raises them, each met
//! and passed by one, and the sentences that are easily read in another way; then the
//! same for wish 1.

mod common;

use common::{
    bounds, framed, hex, number, refused, reply, small_guards, small_marking, small_table, ACTION,
    ACTIVITY_FINAL, BUFFER, CONTROL, DECISION, FLOW_FINAL, FORK, INCOMING, INITIAL, INPUT_PIN,
    JOIN, MERGE, MOST, OBJECT, OUTGOING, OUTPUT_PIN, ROOM,
};
use reading::random::Parts;
use reading::{check, finish, pick, sheet, sheet_within, start, step, Answer, NO_BOUNDS, NO_NODE};

/// So many control edges from node 0, initial, to node 1.
fn parts_with_edges(second_kind: u8, edges: usize) -> Parts {
    let mut parts = Parts::default();
    parts.add_node(INITIAL, 0);
    parts.add_node(second_kind, 0);
    for _ in 0..edges {
        parts.add_edge(CONTROL, 0, 1, 0);
    }
    parts
}

/// An initial node, so many merges in a row, and a flow final.
fn chain(length: u8) -> Parts {
    let mut parts = Parts::default();
    parts.add_node(INITIAL, 0);
    for _ in 0..length {
        let merge = parts.add_node(MERGE, 0);
        parts.add_edge(CONTROL, merge - 1, merge, 0);
    }
    let end = parts.add_node(FLOW_FINAL, 0);
    parts.add_edge(CONTROL, end - 1, end, 0);
    parts
}

fn started(table: &[u8]) -> Vec<u8> {
    reply(start(table, &[], ROOM))
}

/// The sheet from the start, all guards 1.
fn first_sheet(parts: &Parts) -> Answer {
    let table = parts.write();
    sheet(
        &table,
        &started(&table),
        &vec![1; parts.edges.len()],
        &NO_BOUNDS,
        ROOM,
    )
}

/// The choice picked from the start, all guards 1, no node named.
fn first_pick(parts: &Parts) -> Answer {
    let table = parts.write();
    pick(
        &table,
        &started(&table),
        &vec![1; parts.edges.len()],
        &NO_BOUNDS,
        NO_NODE,
        ROOM,
    )
}

#[test]
fn nodes_120_and_121() {
    for (nodes, answer) in [
        (0, refused(1, 0)),
        (1, Answer::Good(vec![])),
        (48, Answer::Good(vec![])),
        (49, Answer::Good(vec![])),
        (120, Answer::Good(vec![])),
        (121, refused(1, 0)),
        (255, refused(1, 0)),
    ] {
        let parts = Parts {
            nodes: vec![[FLOW_FINAL, 255, 0, 0]; nodes],
            edges: Vec::new(),
        };
        assert_eq!(check(&parts.write()), answer, "{nodes} nodes");
    }
}

#[test]
fn edges_200_and_201() {
    for (edges, answer) in [
        (0, Answer::Good(vec![])),
        (64, Answer::Good(vec![])),
        (65, Answer::Good(vec![])),
        (200, Answer::Good(vec![])),
        (201, refused(1, 0)),
        (255, refused(1, 0)),
    ] {
        let parts = parts_with_edges(FLOW_FINAL, edges);
        assert_eq!(check(&parts.write()), answer, "{edges} edges");
    }
}

/// "A marking may now take up to 8,192 bytes." The longest has a running action with
/// 200 edges to itself, and 119 stocks of 16: 4 + 119 * 65 + 1 + 200 bytes.
#[test]
fn the_longest_marking() {
    let mut parts = Parts::default();
    let action = parts.add_node(ACTION, 0);
    for _ in 0..200 {
        parts.add_edge(CONTROL, action, action, 0);
    }
    for _ in 0..119 {
        parts.add_node(OUTGOING, 16);
    }
    let stocks = [&[16][..], &[9; 64]].concat().repeat(119);
    let body = [&[1, 0, 1][..], &stocks, &[254; 200]].concat();
    let length = (body.len() as u16).to_be_bytes();
    let marking = [&length[..], &body].concat();
    assert_eq!(marking.len(), 7_940);

    let table = parts.write();
    let mut after = marking.clone();
    after[4] = 0;
    after[5 + 119 * 65..].fill(255);
    assert_eq!(
        finish(&table, &marking, action, &[], 7_940),
        Answer::Good(after)
    );
    assert_eq!(finish(&table, &marking, action, &[], 7_939), refused(17, 0));
}

#[test]
fn upper_16_and_17() {
    for (upper, answer) in [
        (0, refused(2, 1)),
        (1, Answer::Good(vec![])),
        (16, Answer::Good(vec![])),
        (17, refused(2, 1)),
    ] {
        let mut parts = Parts::default();
        parts.add_node(INITIAL, 0);
        parts.add_node(BUFFER, upper);
        assert_eq!(check(&parts.write()), answer, "upper {upper}");
    }
}

#[test]
fn chains_of_15_and_16() {
    assert_eq!(check(&chain(15).write()), Answer::Good(vec![]));
    assert_eq!(check(&chain(16).write()), refused(4, 16));
    // The longest path, of 16 edges.
    let sheet = reply(first_sheet(&chain(15)));
    assert_eq!(
        sheet[10..],
        hex("01 10 000102030405060708090A0B0C0D0E0F")[..]
    );
}

#[test]
fn control_nodes_behind_a_cycle() {
    let mut parts = chain(4);
    parts.nodes[2][0] = DECISION;
    parts.add_edge(CONTROL, 2, 1, 0); // back to the first merge
    assert_eq!(check(&parts.write()), refused(4, 1));
    // A cycle at 4 leads to 3, which is the lowest at which a chain ends.
    let mut parts = Parts::default();
    parts.add_node(INITIAL, 0);
    parts.add_node(FLOW_FINAL, 0);
    parts.add_edge(CONTROL, 0, 4, 0);
    parts.add_node(FLOW_FINAL, 0);
    parts.add_node(MERGE, 0);
    parts.add_node(MERGE, 0);
    parts.add_node(FORK, 0);
    parts.add_edge(CONTROL, 4, 5, 0);
    parts.add_edge(CONTROL, 5, 4, 0);
    parts.add_edge(CONTROL, 5, 3, 0);
    parts.add_edge(CONTROL, 3, 1, 0);
    assert_eq!(check(&parts.write()), refused(4, 3));
}

#[test]
fn offers_64_and_65() {
    // Four edges into a row of fifteen merges: 4 + 15 * 4 offers.
    let mut parts = chain(15);
    for _ in 0..3 {
        parts.add_edge(CONTROL, 0, 1, 0);
    }
    assert_eq!(reply(first_sheet(&parts))[3], 4);
    parts.add_edge(CONTROL, 0, 16, 0);
    assert_eq!(first_sheet(&parts), refused(8, 0));
    assert_eq!(first_pick(&parts), refused(8, 0));
}

#[test]
fn ends_20_and_21() {
    assert_eq!(reply(first_sheet(&parts_with_edges(FLOW_FINAL, 20)))[3], 20);
    assert_eq!(
        first_sheet(&parts_with_edges(FLOW_FINAL, 21)),
        refused(8, 0)
    );
    let all: Vec<u8> = (0..20).collect();
    assert_eq!(
        first_pick(&parts_with_edges(FLOW_FINAL, 20)),
        Answer::Good(all)
    );
}

#[test]
fn paths_8_and_9() {
    for (edges, number_given) in [(8, 0), (9, 8)] {
        let mut parts = parts_with_edges(JOIN, edges);
        parts.add_node(FLOW_FINAL, 0);
        parts.add_edge(CONTROL, 1, 2, 0);
        assert_eq!(number(&first_sheet(&parts)), number_given);
    }
}

/// An action that runs, with an edge to itself of this count.
fn with_count(count: u8) -> (Vec<u8>, Vec<u8>) {
    let mut parts = Parts::default();
    parts.add_node(ACTION, 0);
    parts.add_edge(CONTROL, 0, 0, 0);
    (parts.write(), vec![0, 4, 1, 0, 1, count])
}

#[test]
fn edge_254_and_255_before_finish() {
    let (table, marking) = with_count(254);
    let answer = finish(&table, &marking, 0, &[], ROOM);
    assert_eq!(answer, Answer::Good(vec![0, 4, 1, 0, 0, 255]));
    let (table, marking) = with_count(255);
    assert_eq!(finish(&table, &marking, 0, &[], ROOM), refused(16, 0));
}

#[test]
fn sheet_room_exact_and_one_short() {
    let (table, marking, guards) = (small_table(), small_marking(), small_guards());
    let whole = reply(sheet(&table, &marking, &guards, &NO_BOUNDS, ROOM));
    let exact = sheet(&table, &marking, &guards, &NO_BOUNDS, whole.len());
    assert_eq!(exact, Answer::Good(whole.clone()));
    assert_eq!(
        sheet(&table, &marking, &guards, &NO_BOUNDS, whole.len() - 1),
        refused(17, 0)
    );
}

#[test]
fn an_empty_pick_fits_no_room() {
    let (table, guards) = (small_table(), small_guards());
    let nothing = reply(start(&table, &[0], ROOM));
    assert_eq!(
        pick(&table, &nothing, &guards, &NO_BOUNDS, NO_NODE, 0),
        Answer::Good(vec![])
    );
    assert_eq!(
        pick(&table, &small_marking(), &guards, &NO_BOUNDS, NO_NODE, 0),
        refused(17, 0)
    );
}

#[test]
fn a_frame_is_the_whole_slice() {
    let mut table = small_table();
    table.push(0);
    assert_eq!(check(&table), refused(1, 0));
    table.truncate(table.len() - 2);
    assert_eq!(check(&table), refused(1, 0));
    for marking in [
        hex(""),
        hex("00"),
        hex("000F 01 00 02 00000007 00000009 00 00 00 01 00"),
        hex("000F 01 00 02 00000007 00000009 00 00 00"),
        hex("0010 01 00 02 00000007 00000009 00 00 00 01 00"),
    ] {
        let answer = sheet(&small_table(), &marking, &small_guards(), &NO_BOUNDS, ROOM);
        assert_eq!(answer, refused(5, 0));
    }
}

#[test]
fn ended_markings() {
    let (table, guards) = (small_table(), small_guards());
    let clean = hex("0007 01 01 00 00 00 00 00");
    assert_eq!(
        sheet(&table, &clean, &guards, &NO_BOUNDS, ROOM),
        refused(6, 0)
    );
    assert_eq!(finish(&table, &clean, 5, &[], ROOM), refused(6, 0));
    let unclean = hex("0007 01 01 00 00 00 00 01");
    assert_eq!(
        sheet(&table, &unclean, &guards, &NO_BOUNDS, ROOM),
        refused(5, 0)
    );
    assert_eq!(finish(&table, &unclean, 5, &[], ROOM), refused(5, 0));
}

#[test]
fn first_offers_need_their_guard() {
    let mut parts = parts_with_edges(FLOW_FINAL, 2);
    parts.edges[0][3] = 1;
    let table = parts.write();
    let sheet_with = |guards: &[u8]| sheet(&table, &started(&table), guards, &NO_BOUNDS, ROOM);
    assert_eq!(reply(sheet_with(&[1, 1]))[3], 2);
    assert_eq!(
        reply(sheet_with(&[0, 1])),
        hex("000B 01 01 01 00 00000000 01 01 01")
    );
    assert_eq!(sheet_with(&[1, 0]), refused(7, 0));
    assert_eq!(sheet_with(&[1]), refused(7, 0));
    assert_eq!(sheet_with(&[1, 1, 1]), refused(7, 0));
    assert_eq!(sheet_with(&[2, 1]), refused(7, 0));
}

/// A fork over guarded edges to a final and to a join that also waits for an
/// action, which idles.
fn fork_with_a_blocked_branch() -> Parts {
    let mut parts = Parts::default();
    parts.add_node(INITIAL, 0);
    parts.add_node(FORK, 0);
    parts.add_node(FLOW_FINAL, 0);
    parts.add_node(JOIN, 0);
    parts.add_node(ACTION, 0);
    parts.add_edge(CONTROL, 0, 1, 0);
    parts.add_edge(CONTROL, 1, 2, 1);
    parts.add_edge(CONTROL, 1, 3, 1);
    parts.add_edge(CONTROL, 4, 3, 0);
    parts.add_edge(CONTROL, 3, 4, 0);
    parts
}

#[test]
fn a_closed_branch_is_not_missed_and_a_blocked_one_is() {
    let table = fork_with_a_blocked_branch().write();
    let marking = started(&table);
    let step_0 = |guards: &[u8]| step(&table, &marking, guards, &NO_BOUNDS, &[0], ROOM);
    assert_eq!(number(&step_0(&[1, 1, 0, 1, 1])), 0);
    assert_eq!(step_0(&[1, 1, 1, 1, 1]), refused(11, 1));
    let pick = pick(
        &table,
        &marking,
        &[1, 1, 1, 1, 1],
        &NO_BOUNDS,
        NO_NODE,
        ROOM,
    );
    assert_eq!(pick, Answer::Good(vec![]));
}

#[test]
fn two_branches_of_a_decision_never_meet_at_a_join() {
    for (kind, ends) in [(DECISION, 0), (FORK, 1)] {
        let mut parts = Parts::default();
        parts.add_node(INITIAL, 0);
        parts.add_node(kind, 0);
        parts.add_node(JOIN, 0);
        parts.add_node(FLOW_FINAL, 0);
        parts.add_edge(CONTROL, 0, 1, 0);
        parts.add_edge(CONTROL, 1, 2, 0);
        parts.add_edge(CONTROL, 1, 2, 0);
        parts.add_edge(CONTROL, 2, 3, 0);
        assert_eq!(reply(first_sheet(&parts))[3], ends);
    }
}

#[test]
fn offers_of_one_join_compete_if_they_share_an_offer() {
    // Two edges into a merge, the merge and a third edge into a join.
    let mut parts = Parts::default();
    parts.add_node(INITIAL, 0);
    parts.add_node(MERGE, 0);
    parts.add_node(JOIN, 0);
    parts.add_node(FLOW_FINAL, 0);
    parts.add_edge(CONTROL, 0, 1, 0);
    parts.add_edge(CONTROL, 0, 1, 0);
    parts.add_edge(CONTROL, 0, 2, 0);
    parts.add_edge(CONTROL, 1, 2, 0);
    parts.add_edge(CONTROL, 2, 3, 0);
    let table = parts.write();
    let two_ends = framed(
        "01 02
         04 00 00000000 02 03 00 03 04 02 02 04
         04 00 00000000 02 03 01 03 04 02 02 04",
    );
    assert_eq!(reply(first_sheet(&parts)), two_ends);
    let both = step(&table, &started(&table), &[1; 5], &NO_BOUNDS, &[0, 1], ROOM);
    assert_eq!(both, refused(10, 0));
    assert_eq!(first_pick(&parts), Answer::Good(vec![0]));
}

#[test]
fn edges_of_one_object_node_compete_and_of_one_initial_do_not() {
    let mut parts = Parts::default();
    parts.add_node(INCOMING, 2);
    parts.add_node(OUTGOING, 16);
    parts.add_edge(OBJECT, 0, 1, 0);
    parts.add_edge(OBJECT, 0, 1, 0);
    let table = parts.write();
    let marking = reply(start(&table, &hex("02 00000001 00000002"), ROOM));
    assert_eq!(
        step(&table, &marking, &[1, 1], &NO_BOUNDS, &[0, 1], ROOM),
        refused(10, 0)
    );
    let stepped = step(&table, &marking, &[1, 1], &NO_BOUNDS, &[1], ROOM);
    assert_eq!(reply(stepped), hex("000C 01 00 01 00000002 01 00000001"));
    assert_eq!(
        first_pick(&parts_with_edges(FLOW_FINAL, 2)),
        Answer::Good(vec![0, 1])
    );
}

/// An action with a pin of lower 1 and upper 2, fed by three parameters, and two
/// control edges from an initial node.
fn action_with_pin() -> (Vec<u8>, Vec<u8>) {
    let mut parts = Parts::default();
    parts.add_node(ACTION, 0);
    parts.add_pin(INPUT_PIN, 0, 1, 2);
    parts.add_node(INITIAL, 0);
    for _ in 0..3 {
        let parameter = parts.add_node(INCOMING, 1);
        parts.add_edge(OBJECT, parameter, 1, 0);
    }
    parts.add_edge(CONTROL, 2, 0, 0);
    parts.add_edge(CONTROL, 2, 0, 0);
    let table = parts.write();
    let values = hex("01 00000001 01 00000002 01 00000003");
    let marking = reply(start(&table, &values, ROOM));
    (table, marking)
}

#[test]
fn an_action_agrees_as_a_whole() {
    let (table, marking) = action_with_pin();
    let step = |choice: &[u8]| step(&table, &marking, &[1; 5], &NO_BOUNDS, choice, ROOM);
    // Ends 0 and 1 are the action's, on edges 3 and 4; 2 to 4 the pin's, on 0 to 2.
    assert_eq!(step(&[2]), refused(12, 0)); // the pin is 1, its action 0
    assert_eq!(step(&[0, 1]), refused(12, 0)); // the pin has too few
    assert_eq!(step(&[0, 2]), refused(12, 0)); // edge 4 has none
    assert_eq!(step(&[0, 1, 2, 3, 4]), refused(12, 0)); // the pin has too many
    assert_eq!(number(&step(&[0, 1, 2, 3])), 0);
    assert_eq!(step(&[0, 0]), refused(9, 0));
    assert_eq!(step(&[1, 0]), refused(9, 0));
    assert_eq!(step(&[5]), refused(9, 0));
    for node in [0, 1, NO_NODE] {
        let pick = pick(&table, &marking, &[1; 5], &NO_BOUNDS, node, ROOM);
        assert_eq!(pick, Answer::Good(vec![0, 1, 2, 3]));
    }
    let running = reply(step(&[0, 1, 2, 3]));
    assert_eq!(
        running,
        framed("01 00 01 02 00000001 00000002 00 00 01 00000003 00 00")
    );
    let again = pick(&table, &running, &[1; 5], &NO_BOUNDS, 0, ROOM);
    assert_eq!(again, refused(13, 0)); // it runs
}

#[test]
fn tokens_of_an_edge_go_as_one() {
    let mut parts = Parts::default();
    parts.add_node(ACTION, 0);
    parts.add_edge(CONTROL, 0, 0, 0);
    let table = parts.write();
    let three = vec![0, 4, 1, 0, 0, 3];
    let stepped = step(&table, &three, &[1], &NO_BOUNDS, &[0], ROOM);
    assert_eq!(reply(stepped), vec![0, 4, 1, 0, 1, 0]);
}

#[test]
fn an_activity_final_ends_and_parameters_keep_all() {
    let mut parts = Parts::default();
    parts.add_node(INCOMING, 2);
    parts.add_node(FORK, 0);
    parts.add_node(ACTIVITY_FINAL, 0);
    parts.add_node(OUTGOING, 2);
    parts.add_edge(OBJECT, 0, 1, 0);
    parts.add_edge(OBJECT, 1, 2, 0);
    parts.add_edge(OBJECT, 1, 3, 0);
    let table = parts.write();
    let marking = framed("01 00 02 00000001 00000002 01 00000009");
    let stepped = step(&table, &marking, &[1; 3], &NO_BOUNDS, &[0, 1], ROOM);
    assert_eq!(reply(stepped), hex("000C 01 01 00 02 00000009 00000001"));
}

#[test]
fn room_that_the_same_step_frees_does_not_count() {
    let mut parts = Parts::default();
    parts.add_node(BUFFER, 2);
    parts.add_edge(OBJECT, 0, 0, 0);
    let table = parts.write();
    let one = hex("0007 01 00 01 00000005");
    assert_eq!(reply(step(&table, &one, &[1], &NO_BOUNDS, &[0], ROOM)), one);
    let two = hex("000B 01 00 02 00000005 00000006");
    assert_eq!(
        step(&table, &two, &[1], &NO_BOUNDS, &[0], ROOM),
        refused(12, 0)
    );
}

#[test]
fn value_lists() {
    let mut parts = Parts::default();
    parts.add_node(INCOMING, 1);
    parts.add_node(INCOMING, 16);
    let table = parts.write();
    let start = |values: &[u8]| start(&table, values, ROOM);
    assert_eq!(start(&hex("00")), refused(15, 0));
    assert_eq!(start(&hex("00 00 00")), refused(15, 0));
    assert_eq!(start(&hex("00 01 000000")), refused(15, 0));
    assert_eq!(start(&[&[17], &[0; 80][..]].concat()), refused(15, 0));
    assert_eq!(start(&hex("02 00000001 00000002 00")), refused(16, 0));
    // The list as a whole comes before any stock.
    assert_eq!(start(&hex("02 00000001 00000002")), refused(15, 0));
    assert_eq!(start(&hex("02 00000001 00000002 11")), refused(15, 0));
    let full = [&[0, 16], &[0; 64][..]].concat();
    assert_eq!(number(&start(&full)), 0);
}

#[test]
fn finish_takes_the_lists_of_the_actions_own_pins() {
    let mut parts = Parts::default();
    parts.add_node(ACTION, 0);
    parts.add_node(ACTION, 0);
    parts.add_pin(OUTPUT_PIN, 1, 0, 2);
    parts.add_pin(OUTPUT_PIN, 0, 0, 2);
    parts.add_edge(CONTROL, 0, 0, 0);
    parts.add_edge(CONTROL, 1, 1, 0);
    let table = parts.write();
    let marking = framed("01 00 01 00 00 01 00000005 00 00");
    let finish = |action: u8, values: &[u8]| finish(&table, &marking, action, values, ROOM);
    let finished = framed("01 00 00 00 00 02 00000005 00000006 01 00");
    assert_eq!(finish(0, &hex("01 00000006")), Answer::Good(finished));
    assert_eq!(finish(0, &hex("02 00000006 00000007")), refused(16, 0));
    assert_eq!(finish(0, &hex("00 00")), refused(15, 0));
    assert_eq!(finish(0, &hex("")), refused(15, 0));
    for action in [1, 2, 4, 255] {
        assert_eq!(finish(action, &hex("00 00")), refused(14, 0)); // idle, a pin, none
    }
}

#[test]
fn a_budget_runs_out() {
    let mut parts = parts_with_edges(JOIN, 2);
    parts.add_node(FLOW_FINAL, 0);
    parts.add_edge(CONTROL, 1, 2, 0);
    let table = parts.write();
    let sheet =
        |budget: u64| sheet_within(&table, &started(&table), &[1; 3], &NO_BOUNDS, ROOM, budget);
    assert_eq!(sheet(2), None);
    assert_eq!(sheet(3).as_ref().map(number), Some(0));
}

/// Node 0, an incoming parameter, and node 1, with so many object edges between
/// them.
fn parameter_with_edges(second_kind: u8, edges: usize) -> Parts {
    let mut parts = Parts::default();
    parts.add_node(INCOMING, 1);
    parts.add_node(second_kind, 0);
    for _ in 0..edges {
        parts.add_edge(OBJECT, 0, 1, 0);
    }
    parts
}

/// The sheet under this bounds list, all guards 1, after a start with these values,
/// one in each incoming parameter.
fn sheet_with_values(parts: &Parts, values: &[u32], list: &[u8]) -> Answer {
    let table = parts.write();
    let stocks: String = values
        .iter()
        .map(|value| format!("01{value:08X}"))
        .collect();
    let marking = reply(start(&table, &hex(&stocks), ROOM));
    sheet(&table, &marking, &vec![1; parts.edges.len()], list, ROOM)
}

/// The number of ends in that sheet.
fn ends_with_values(parts: &Parts, values: &[u32], list: &[u8]) -> u8 {
    reply(sheet_with_values(parts, values, list))[3]
}

#[test]
fn values_are_compared_as_unsigned_big_endian_numbers() {
    let parts = parameter_with_edges(FLOW_FINAL, 1);
    for (value, low, high, ends) in [
        (0, 0, 0, 1),
        (0, 0, MOST, 1),
        (0, 1, MOST, 0),
        (0, MOST, MOST, 0),
        (1, 0, 0, 0),
        (MOST, MOST, MOST, 1),
        (MOST, 0, MOST, 1),
        (MOST, 0, MOST - 1, 0),
        (MOST, 0, 0, 0),
        (MOST - 1, MOST, MOST, 0),
        // A sign bit is none.
        (0x8000_0000, 0x7FFF_FFFF, MOST, 1),
        (0x8000_0000, 0, 0x7FFF_FFFF, 0),
        (0x7FFF_FFFF, 0, 0x8000_0000, 1),
        (0x7FFF_FFFF, 0x8000_0000, MOST, 0),
        // The first byte weighs most, and all four weigh.
        (0x0000_0100, 0x0000_00FF, 0x0000_0101, 1),
        (0x0000_0100, 0, 0x0000_00FF, 0),
        (0x0001_0000, 0x0000_FFFF, MOST, 1),
        (0x0001_0000, 0, 0x0000_FFFF, 0),
        (0x0100_0000, 0x0100_0001, MOST, 0),
    ] {
        let list = bounds(&[(0, low, high)]);
        let counted = ends_with_values(&parts, &[value], &list);
        assert_eq!(counted, ends, "{value} in {low} to {high}");
    }
}

/// Two parameters, 0 and 1, whose edges 0 and 1 lead to a merge, node 2; edge 2
/// leaves it for node 3.
fn parameters_into_merge() -> Parts {
    let mut parts = Parts::default();
    parts.add_node(INCOMING, 1);
    parts.add_node(INCOMING, 1);
    parts.add_node(MERGE, 0);
    parts.add_edge(OBJECT, 0, 2, 0);
    parts.add_edge(OBJECT, 1, 2, 0);
    parts.add_edge(OBJECT, 2, 3, 0);
    parts
}

#[test]
fn bounds_after_a_merge_let_each_value_over_or_not() {
    let mut parts = parameters_into_merge();
    parts.add_node(FLOW_FINAL, 0);
    let six_or_more = bounds(&[(2, 6, MOST)]);
    let only_edge_1 = framed("01 01 02 01 00000006 01 02 01 02");
    let sheet = sheet_with_values(&parts, &[5, 6], &six_or_more);
    assert_eq!(reply(sheet), only_edge_1);
    assert_eq!(ends_with_values(&parts, &[6, 6], &six_or_more), 2);
    assert_eq!(ends_with_values(&parts, &[5, 5], &six_or_more), 0);
}

#[test]
fn bounds_after_a_split_hold_each_branch_on_its_own() {
    for kind in [DECISION, FORK] {
        let mut parts = parameter_with_edges(kind, 1);
        parts.add_node(FLOW_FINAL, 0);
        parts.add_edge(OBJECT, 1, 2, 0);
        parts.add_edge(OBJECT, 1, 2, 0);
        let parted = bounds(&[(1, 0, 5), (2, 6, MOST)]);
        for (value, edge) in [(0, 1), (5, 1), (6, 2), (MOST, 2)] {
            let sheet = reply(sheet_with_values(&parts, &[value], &parted));
            assert_eq!((sheet[3], sheet[4]), (1, edge), "value {value}");
        }
    }
}

#[test]
fn bounds_after_a_join_hold_the_object_edges_value() {
    // The merge and an initial node lead to the join, edge 4 from there to a final.
    let mut parts = parameters_into_merge();
    parts.add_node(JOIN, 0);
    parts.add_node(INITIAL, 0);
    parts.add_node(FLOW_FINAL, 0);
    parts.add_edge(CONTROL, 4, 3, 0);
    parts.add_edge(OBJECT, 3, 5, 0);
    let six_or_more = bounds(&[(4, 6, MOST)]);
    assert_eq!(ends_with_values(&parts, &[6, 7], &six_or_more), 2);
    assert_eq!(ends_with_values(&parts, &[5, 5], &six_or_more), 0);
    let sheet = sheet_with_values(&parts, &[5, 6], &six_or_more);
    let only_edge_1 = framed("01 01 04 01 00000006 02 03 01 02 04 02 03 04");
    assert_eq!(reply(sheet), only_edge_1);
}

/// What sheet, pick and step answer in the small event under these guards and this
/// list, where the room is too short and the choice has no such end.
fn three_answers(guards: &[u8], list: &[u8]) -> [Answer; 3] {
    let (table, marking) = (small_table(), small_marking());
    [
        sheet(&table, &marking, guards, list, 0),
        pick(&table, &marking, guards, list, 2, 0),
        step(&table, &marking, guards, list, &[9], 0),
    ]
}

#[test]
fn bad_bounds_lists() {
    let good = "000B 01 01 01 00000007 00000007";
    let under_good = [refused(17, 0), refused(13, 2), refused(9, 0)];
    assert_eq!(three_answers(&[1; 5], &hex(good)), under_good);
    for bad in [
        "",                                                     // no bytes
        "00",                                                   // cut
        "0000",                                                 // cut
        "0001 01",                                              // cut
        "000A 01 01 01 00000007 00000007",                      // length
        "000C 01 01 01 00000007 00000007",                      // length
        "000B 00 01 01 00000007 00000007",                      // version
        "000B 02 01 01 00000007 00000007",                      // version
        "000B 01 00 01 00000007 00000007",                      // count
        "000B 01 02 01 00000007 00000007",                      // count
        "000A 01 01 01 00000007 000000",                        // cut
        "000B 01 01 01 00000007 000000",                        // cut
        "0002 01 01",                                           // cut
        "000C 01 01 01 00000007 00000007 00",                   // bytes left over
        "000B 01 01 01 00000007 00000007 00",                   // bytes left over
        "0003 01 00 00",                                        // bytes left over
        "000B 01 01 05 00000007 00000007",                      // no such edge
        "000B 01 01 FF 00000007 00000007",                      // no such edge
        "000B 01 01 00 00000007 00000007",                      // a control edge
        "000B 01 01 00 00000000 FFFFFFFF",                      // a control edge
        "000B 01 01 01 00000008 00000007",                      // low above high
        "000B 01 01 01 80000000 7FFFFFFF",                      // low above high
        "000B 01 01 01 00000100 00000001",                      // low above high
        "000B 01 01 01 FFFFFFFF 00000000",                      // low above high
        "0014 01 02 01 00000007 00000007 01 00000007 00000007", // an edge twice
        "0014 01 02 02 00000007 00000007 01 00000007 00000007", // edges falling
        "0014 01 02 01 00000007 00000007 02 00000007 00000006", // low above high, second
        "0014 01 02 01 00000007 00000007 05 00000007 00000007", // no such edge, second
    ] {
        let eighteens = [18; 3].map(|number| refused(number, 0));
        assert_eq!(three_answers(&[1; 5], &hex(bad)), eighteens, "{bad}");
    }
}

#[test]
fn bad_bounds_come_after_tables_markings_and_guards() {
    let (table, marking, guards) = (small_table(), small_marking(), small_guards());
    let ended = hex("0007 01 01 00 00 00 00 00");
    assert_eq!(
        sheet(&table[1..], &marking, &guards, &[], ROOM),
        refused(1, 0)
    );
    assert_eq!(
        sheet(&table, &marking[1..], &guards, &[], ROOM),
        refused(5, 0)
    );
    assert_eq!(sheet(&table, &ended, &guards, &[], ROOM), refused(6, 0));
    for bad_guards in [&[1, 1, 1, 1][..], &[1, 0, 1, 1, 1], &[1, 1, 2, 1, 1]] {
        let sevens = [7; 3].map(|number| refused(number, 0));
        assert_eq!(three_answers(bad_guards, &[]), sevens);
        assert_eq!(three_answers(bad_guards, &NO_BOUNDS), sevens);
    }
}

#[test]
fn bad_bounds_come_before_sizes() {
    let parts = parameter_with_edges(FLOW_FINAL, 21);
    assert_eq!(sheet_with_values(&parts, &[7], &NO_BOUNDS), refused(8, 0));
    let sheet_under = |low: u32, high: u32| {
        let list = bounds(&[(0, low, high)]);
        sheet_with_values(&parts, &[7], &list)
    };
    assert_eq!(sheet_under(7, 7), refused(8, 0));
    assert_eq!(sheet_under(8, 7), refused(18, 0));
    assert_eq!(number(&sheet_under(8, 8)), 0); // 20 ends are left
}

#[test]
fn ends_that_bounds_bar_count_for_no_size() {
    let parts = parameter_with_edges(FLOW_FINAL, 21);
    assert_eq!(ends_with_values(&parts, &[7], &bounds(&[(20, 8, 8)])), 20);
}

#[test]
fn offers_that_bounds_bar_count_for_no_size() {
    // Five edges into a row of fifteen merges: 5 + 15 * 5 offers, or 4 + 15 * 4.
    let mut parts = chain(15);
    parts.nodes[0] = [INCOMING, 255, 0, 1];
    for _ in 0..4 {
        parts.add_edge(OBJECT, 0, 1, 0);
    }
    for edge in &mut parts.edges {
        edge[0] = OBJECT;
    }
    let without_edge_19 = bounds(&[(19, 8, 8)]);
    assert_eq!(sheet_with_values(&parts, &[7], &NO_BOUNDS), refused(8, 0));
    assert_eq!(ends_with_values(&parts, &[7], &without_edge_19), 4);
    parts.add_edge(OBJECT, 0, 16, 0); // one offer more
    assert_eq!(
        sheet_with_values(&parts, &[7], &without_edge_19),
        refused(8, 0)
    );
}

#[test]
fn paths_that_bounds_bar_count_for_no_size() {
    // Eight control edges and an object edge into a join: 9 paths over edge 9.
    let mut parts = parts_with_edges(JOIN, 8);
    parts.add_node(INCOMING, 1);
    parts.add_node(FLOW_FINAL, 0);
    parts.add_edge(OBJECT, 2, 1, 0);
    parts.add_edge(OBJECT, 1, 3, 0);
    assert_eq!(
        sheet_with_values(&parts, &[7], &bounds(&[(9, 7, 7)])),
        refused(8, 0)
    );
    assert_eq!(ends_with_values(&parts, &[7], &bounds(&[(9, 8, 8)])), 0);
}

#[test]
fn the_longest_list() {
    let parts = parameter_with_edges(FLOW_FINAL, 200);
    let barred = (0..180).map(|edge| (edge, 8, 8));
    let open = (180..200).map(|edge| (edge, 7, 7));
    let mut entries: Vec<(u8, u32, u32)> = barred.chain(open).collect();
    let longest = bounds(&entries);
    assert_eq!(longest.len(), 1_804);
    assert_eq!(ends_with_values(&parts, &[7], &longest), 20);
    entries.push((200, 7, 7));
    let too_long = bounds(&entries);
    assert_eq!(sheet_with_values(&parts, &[7], &too_long), refused(18, 0));
}
