//! Larger events: tables of up to 120 nodes and 200 edges, their limits met and passed by one; the highest numbers in sheets, choices, guards, bounds lists and
//! places; the longest markings and the longest sheet; and joins of many edges. Every answer is the plain reading's too. Random larger events stand with each
//! operation.

#![allow(clippy::redundant_clone)] // a point that is varied for the last time is varied as before

use crate::common::drawn::*;
use crate::common::held::AROUND;
use crate::common::longest::{stock, with_action, Longest, FULL, TOKENS};
use crate::common::vectors::Operation::{self, Check, Finish, Pick, Sheet, Start, Step, Why};
use crate::common::within;
use keshmirun::{bounds_list, Room, MOST_EDGES, MOST_NODES, NO_BOUNDS, NO_NODE};
use reading::random::{Parts, Rng};
use reading::Answer;

const LONE_FINAL: [u8; 4] = [FLOW_FINAL, 255, 0, 0];

fn good() -> Answer {
    Answer::Good(Vec::new())
}

impl Point {
    /// The reading's answer to check, start or finish, to which the engine is held.
    fn plain(&self, operation: Operation, node: u8, values: &[u8]) -> Answer {
        let Point { table, marking, .. } = self;
        let answer = match operation {
            Check => reading::check(table),
            Start => reading::start(table, values, ROOM),
            _ => reading::finish(table, marking, node, values, ROOM),
        };
        let _ = operation.hold(AROUND, node, [table, marking, values, &[], &[]], ROOM, &answer);
        answer
    }

    /// What all seven answer without bounds, values or a choice, for node 0.
    fn all_seven(&self) -> [Answer; 7] {
        let plain = |operation| self.plain(operation, 0, &[]);
        let of_board = |operation| self.answer(operation, &NO_BOUNDS, 0, &[]);
        [plain(Check), plain(Start), of_board(Sheet), of_board(Pick), of_board(Why), of_board(Step), plain(Finish)]
    }

    /// Under these guards.
    fn under(&self, guards: Vec<u8>) -> Point {
        Point { guards, ..self.clone() }
    }
}

/// The answers of all seven where a table has nodes and edges, but nothing is on offer: the marking that start writes has so many tokens, and node 0 doesn't run.
fn with_nothing_on_offer(point: &Point, tokens: usize) -> [Answer; 7] {
    let started = framed(&[&[1, 0][..], &vec![1; tokens]].concat());
    let held = Answer::Good(point.marking.clone());
    [good(), Answer::Good(started), Answer::Good(vec![0, 2, 1, 0]), refused(13, 0), Answer::Good(vec![1]), held, refused(14, 0)]
}

// ---- how many nodes and edges

/// 48 was the limit before.
#[test]
fn nodes_120_and_121() {
    for nodes in [0, 1, 47, 48, 49, 64, 65, 119, 120, 121, 127, 128, 129, 255] {
        let parts = Parts { nodes: vec![LONE_FINAL; nodes], ..Parts::default() };
        let point = Point::of(&parts, &[]);
        let is_good = (1..=MOST_NODES).contains(&nodes);
        let expected = if is_good { with_nothing_on_offer(&point, 0) } else { [(); 7].map(|()| refused(1, 0)) };
        assert_eq!(point.all_seven(), expected, "{nodes} nodes");
    }
}

/// 64 was the limit before.
#[test]
fn edges_200_and_201() {
    for edges in [0, 1, 63, 64, 65, 127, 128, 199, 200, 201, 202, 255] {
        let mut drawing = Drawing::default();
        let (start, end) = (drawing.node(INITIAL, 0), drawing.node(FLOW_FINAL, 0));
        (0..edges).for_each(|_| drawing.edge(CONTROL, start, end));
        let point = drawing.with_tokens(&vec![0; edges]);
        let is_good = edges <= MOST_EDGES;
        let expected = if is_good { with_nothing_on_offer(&point, edges) } else { [(); 7].map(|()| refused(1, 0)) };
        assert_eq!(point.all_seven(), expected, "{edges} edges");
    }
}

/// Both at once, and each passed while the other is met.
#[test]
fn nodes_and_edges() {
    for (nodes, edges, answer) in [(120, 200, good()), (121, 200, refused(1, 0)), (120, 201, refused(1, 0)), (48, 65, good()), (49, 64, good())] {
        let mut parts = Parts { nodes: vec![LONE_FINAL; nodes], edges: vec![[OBJECT, 0, 1, 0]; edges] };
        parts.nodes[0] = [BUFFER, 255, 0, 1];
        assert_eq!(checked(&parts), answer, "{nodes} nodes, {edges} edges");
    }
}

// ---- places

/// 120 nodes, of which the first is an empty buffer with 200 edges to the last.
fn largest() -> Parts {
    let mut parts = Parts { nodes: vec![LONE_FINAL; MOST_NODES], edges: vec![[OBJECT, 0, 119, 0]; MOST_EDGES] };
    parts.nodes[0] = [BUFFER, 255, 0, 1];
    parts
}

fn checked(parts: &Parts) -> Answer {
    Point { table: parts.write(), marking: Vec::new(), guards: Vec::new() }.plain(Check, 0, &[])
}

/// Each node with a field that is wrong; and with the last one's wrong too.
#[test]
fn fields_of_each_node() {
    assert_eq!(checked(&largest()), good());
    for place in 0..120 {
        let mut parts = largest();
        parts.nodes[usize::from(place)][1] = 120;
        assert_eq!(checked(&parts), refused(2, place));
        parts.nodes[119][3] = 1;
        assert_eq!(checked(&parts), refused(2, place));
    }
}

/// Pins of an action with the highest number, and of a number that no node has.
#[test]
fn owners_up_to_the_last_node() {
    for (owner, answer) in [(119, good()), (118, refused(2, 2)), (120, refused(2, 2)), (255, refused(2, 2))] {
        let mut parts = largest();
        parts.nodes[2] = [INPUT_PIN, owner, 1, 1];
        parts.nodes[119] = [ACTION, 255, 0, 0];
        parts.edges.fill([OBJECT, 0, 2, 0]);
        assert_eq!(checked(&parts), answer, "owner {owner}");
    }
}

/// Each edge with a field that is wrong or an end that doesn't exist; and with the last one's wrong too.
#[test]
fn fields_of_each_edge() {
    for place in 0..200 {
        for (field, byte) in [(0, 2), (1, 120), (2, 120), (2, 0x80), (3, 2)] {
            let mut parts = largest();
            parts.edges[usize::from(place)][field] = byte;
            assert_eq!(checked(&parts), refused(3, place));
            parts.edges[199][3] = 2;
            assert_eq!(checked(&parts), refused(3, place));
        }
    }
}

/// Each node as a decision that no edge touches; what a node's fields or an edge's are is judged before.
#[test]
fn shape_of_each_node() {
    for place in 1..119 {
        let mut parts = largest();
        parts.nodes[usize::from(place)][0] = DECISION;
        parts.nodes[118][0] = DECISION;
        assert_eq!(checked(&parts), refused(4, place));
        parts.edges[199][3] = 2;
        assert_eq!(checked(&parts), refused(3, 199));
        parts.nodes[119][2] = 1;
        assert_eq!(checked(&parts), refused(2, 119));
    }
    let mut parts = largest();
    parts.nodes[119][0] = MERGE;
    assert_eq!(checked(&parts), refused(4, 119));
}

/// A chain of 15 control nodes that ends at the last node, and one of 16; the nodes of the chain stand in the table in both orders.
#[test]
fn chains_at_the_highest_numbers() {
    for (length, is_good) in [(15, true), (16, false)] {
        for is_rising in [true, false] {
            let mut parts = Parts { nodes: vec![LONE_FINAL; MOST_NODES], edges: Vec::new() };
            parts.nodes[0] = [INITIAL, 255, 0, 0];
            let mut last = 0;
            for number in 0..length {
                let merge = if is_rising { 120 - length + number } else { 119 - number };
                parts.nodes[usize::from(merge)][0] = MERGE;
                parts.add_edge(CONTROL, last, merge, 0);
                last = merge;
            }
            parts.add_edge(CONTROL, last, 1, 0);
            assert_eq!(checked(&parts), if is_good { good() } else { refused(4, last) });
        }
    }
}

/// Nodes from which places are told: some below the limit of before, some above, and the last.
const PLACES: [u8; 8] = [3, 47, 48, 63, 64, 100, 118, 119];

/// 120 nodes with edges at the highest numbers; those before lead from an empty buffer, node 1, to node 2.
fn late(nodes: &[(u8, [u8; 4])], edges: &[[u8; 4]], held: &[(u8, u32)]) -> Point {
    let mut parts = Parts { nodes: vec![LONE_FINAL; MOST_NODES], edges: vec![[OBJECT, 1, 2, 0]; MOST_EDGES - edges.len()] };
    parts.nodes[1] = [BUFFER, 255, 0, 1];
    nodes.iter().for_each(|(number, node)| parts.nodes[usize::from(*number)] = *node);
    parts.edges.extend(edges);
    Point::of(&parts, held)
}

#[test]
fn forks_of_each_number() {
    for place in PLACES {
        let nodes = [(0, [INITIAL, 255, 0, 0]), (place, [FORK, 255, 0, 0])];
        let point = late(&nodes, &[[CONTROL, 0, place, 0], [CONTROL, place, 2, 0], [CONTROL, place, 2, 0]], &[]);
        point.assert_sheet(&[(198, None, &[&[197, 198]]), (199, None, &[&[197, 199]])]);
        point.assert_step(&[0], refused(11, place));
        point.assert_step(&[1], refused(11, place));
        point.assert_pick(2, Answer::Good(vec![0, 1]));
        point.assert_pick(place, refused(13, place));
    }
}

/// A buffer that is full, and a match that needs two players.
#[test]
fn destinations_of_each_number() {
    for place in PLACES {
        let full = late(&[(0, [BUFFER, 255, 0, 1]), (place, [BUFFER, 255, 0, 1])], &[[OBJECT, 0, place, 0]], &[(0, 7), (place, 8)]);
        full.assert_sheet(&[(199, Some(7), &[&[199]])]);
        full.assert_step(&[0], refused(12, place));
        full.assert_pick(place, refused(13, place));
        assert_eq!(full.answer(Why, &NO_BOUNDS, place, &[]), Answer::Good(vec![2]));

        let seat = if place == 119 { 5 } else { place + 1 };
        let game = [(0, [BUFFER, 255, 0, 1]), (place, [ACTION, 255, 0, 0]), (seat, [INPUT_PIN, place, 2, 2])];
        let alone = late(&game, &[[OBJECT, 0, seat, 0]], &[(0, 7)]);
        alone.assert_step(&[0], refused(12, place));
        alone.assert_pick(place, refused(13, place));
        alone.assert_pick(seat, refused(13, seat));
    }
}

// ---- the paper's small event, whose 7 nodes and 5 edges are the last of 120 and 200

fn small() -> Drawing {
    let mut small = Drawing::default();
    let empty = small.node(BUFFER, 16);
    let end = small.node(FLOW_FINAL, 0);
    (2..113).for_each(|_| {
        small.node(FLOW_FINAL, 0);
    });
    (0..195).for_each(|_| small.edge(OBJECT, empty, end));
    let nodes = [[1, 255, 0, 0], [6, 255, 0, 4], [8, 255, 0, 0], [11, 255, 0, 0], [3, 118, 1, 1], [2, 255, 0, 0], [5, 255, 0, 2]];
    small.parts.nodes.extend(nodes);
    small.parts.edges.extend([[0, 113, 116, 0], [1, 114, 115, 0], [1, 115, 116, 1], [1, 115, 119, 1], [1, 116, 117, 0]]);
    small.held = vec![(114, 7), (114, 9)];
    assert_eq!((small.parts.nodes.len(), small.parts.edges.len()), (MOST_NODES, MOST_EDGES));
    small
}

/// C1 to C10.
#[test]
fn the_small_event() {
    let small = small();
    let point = small.point();
    point.assert_sheet(&[(199, Some(7), &[&[195, 199], &[196, 197, 199]]), (198, Some(7), &[&[196, 198]])]);
    point.assert_competing(&[(&[0, 1], 0)]);
    for (node, answer) in [(NO_NODE, 0), (118, 0), (117, 0), (119, 1)] {
        point.assert_pick(node, Answer::Good(vec![answer]));
        assert_eq!(point.answer(Why, &NO_BOUNDS, node, &[]), Answer::Good(vec![0]));
    }
    for node in [0, 63, 64, 113, 114, 115, 116, 120, 199, 254] {
        point.assert_pick(node, refused(13, node));
        assert_eq!(point.answer(Why, &NO_BOUNDS, node, &[]), Answer::Good(vec![1]));
    }
    point.assert_step(&[], Answer::Good(point.marking.clone()));
    let stepped = small.holding(&[(114, 9), (117, 7)], &[0]);
    point.assert_step(&[0], stepped.clone());
    if let Answer::Good(marking) = stepped {
        let running = Point { marking, ..point.clone() };
        assert_eq!(running.plain(Finish, 118, &[]), small.holding(&[(114, 9)], &[0]));
        assert_eq!(running.plain(Finish, 119, &[]), refused(14, 0));
    }
    point.assert_step(&[1], small.holding(&[(114, 9), (119, 7)], &[1]));
}

/// C11 and C12.
#[test]
fn the_small_event_refused() {
    let mut full = small();
    full.held.extend([(119, 1), (119, 2)]);
    full.point().assert_step(&[1], refused(12, 119));
    full.point().assert_pick(119, refused(13, 119));
    let mut forked = small();
    forked.parts.nodes[115][0] = FORK;
    forked.point().assert_step(&[0], refused(11, 115));
    forked.point().assert_pick(NO_NODE, Answer::Good(vec![0, 1]));
}

/// C9, and 200 guards that are no guards of this table.
#[test]
fn guards_of_200_edges() {
    let point = small().point();
    let with = |edge: usize, byte: u8| {
        let mut guards = vec![1; MOST_EDGES];
        guards[edge] = byte;
        point.under(guards)
    };
    with(198, 0).assert_sheet(&[(199, Some(7), &[&[195, 199], &[196, 197, 199]])]);
    with(197, 0).assert_sheet(&[(198, Some(7), &[&[196, 198]])]);
    for (edge, byte) in [(0, 0), (63, 0), (64, 0), (127, 0), (128, 0), (199, 0), (199, 2), (198, 2), (0, 255)] {
        assert_eq!(with(edge, byte).answer(Sheet, &NO_BOUNDS, 0, &[]), refused(7, 0), "edge {edge}");
    }
    for length in [0, 5, 64, 65, 199, 201, 255, 256, 456] {
        assert_eq!(point.under(vec![1; length]).answer(Sheet, &NO_BOUNDS, 0, &[]), refused(7, 0), "{length} guards");
    }
}

/// Up to the last edge, and to one that isn't there; 195 is a control edge.
#[test]
fn bounds_of_200_edges() {
    let point = small().point();
    let sheet = |edge: u8, low: u32, high: u32| point.answer(Sheet, &bounds_list(&[(edge, low..=high)]), 0, &[]);
    let whole = Answer::Good(point.sheet(&NO_BOUNDS));
    assert_eq!(sheet(199, 7, 7), whole);
    assert_eq!(listed(&point.sheet(&bounds_list(&[(199, 8..=9)]))), [(198, Some(7), 1)]);
    assert_eq!(listed(&point.sheet(&bounds_list(&[(198, 0..=6)]))), [(199, Some(7), 2)]);
    assert_eq!(listed(&point.sheet(&bounds_list(&[(196, 8..=8)]))), []);
    assert_eq!(sheet(194, 8, 9), whole);
    for edge in [195, 200, 201, 255] {
        assert_eq!(sheet(edge, 0, u32::MAX), refused(18, 0), "edge {edge}");
    }
    // all object edges, and the last of them once more
    let mut all: Vec<_> = (0..200).filter(|edge| *edge != 195).map(|edge| (edge, 0..=7)).collect();
    assert_eq!(point.answer(Sheet, &bounds_list(&all), 0, &[]), whole);
    assert_eq!(point.answer(Pick, &bounds_list(&all), 118, &[]), Answer::Good(vec![0]));
    all.push((199, 0..=7));
    assert_eq!(point.answer(Sheet, &bounds_list(&all), 0, &[]), refused(18, 0));
}

// ---- the longest markings

/// Held to the reading's answer, which is this one, in room to spare, exact and one byte short.
fn assert_in_any_room(operation: Operation, node: u8, inputs: [&[u8]; 5], read: Answer, reply: &[u8]) {
    assert_eq!(read, Answer::Good(reply.to_vec()));
    for room in [Room::MARKING, reply.len() + 1, reply.len(), reply.len() - 1, 4_096, 0] {
        let _ = operation.hold(AROUND, node, inputs, room, &within(room, read.clone()));
    }
}

/// All nodes but an action are incoming parameters, each begins full, and all edges are the action's: there is no longer marking. So it is in the largest
/// table of before, too.
#[test]
fn start_with_the_longest() {
    for (nodes, edges, longest) in [(48, 64, 3_124), (49, 65, 3_190), (MOST_NODES, MOST_EDGES, 7_940)] {
        let (parts, _) = with_action(INCOMING_PARAMETER, nodes - 1, edges);
        let table = parts.write();
        let values: Vec<u8> = (1..nodes as u8).flat_map(|node| stock(node, 0..FULL)).collect();
        let marking = framed(&[&[1, 0, 0][..], &values, &vec![0; edges]].concat());
        assert_eq!(marking.len(), longest);
        assert_in_any_room(Start, 0, [&table, &[], &values, &[], &[]], reading::start(&table, &values, ROOM), &marking);
        let cut = &values[..values.len() - 1];
        assert_eq!(Point::of(&parts, &[]).plain(Start, 0, cut), refused(15, 0));
    }
}

/// All nodes but an action are its output pins, which have room for one each.
#[test]
fn finish_with_the_longest() {
    for (nodes, edges, longest) in [(48, 64, 3_124), (49, 65, 3_190), (MOST_NODES, MOST_EDGES, 7_940)] {
        let (mut parts, action) = with_action(OUTPUT_PIN, nodes - 1, edges);
        parts.nodes[1..].iter_mut().for_each(|pin| pin[1] = action);
        let table = parts.write();
        let of_all = |values: std::ops::Range<u8>| (1..nodes as u8).flat_map(move |node| stock(node, values.clone())).collect::<Vec<u8>>();
        let marking = |runs: u8, values, tokens| framed(&[&[1, 0, runs][..], &of_all(values), &vec![tokens; edges]].concat());
        let (before, results) = (marking(1, 0..FULL - 1, TOKENS), of_all(FULL - 1..FULL));
        let after = marking(0, 0..FULL, TOKENS + 1);
        assert_eq!(after.len(), longest);
        let read = reading::finish(&table, &before, action, &results, ROOM);
        assert_in_any_room(Finish, action, [&table, &before, &results, &[], &[]], read, &after);

        let point = |marking: Vec<u8>| Point { table: table.clone(), marking, guards: Vec::new() };
        assert_eq!(point(marking(1, 0..FULL, TOKENS)).plain(Finish, action, &results), refused(16, 0));
        assert_eq!(point(marking(1, 0..FULL - 1, TOKENS + 1)).plain(Finish, action, &results), refused(16, 0));
        assert_eq!(point(after).plain(Finish, action, &results), refused(14, 0));
    }
}

/// A value goes from one buffer to the next, and all else stays; or the action ends.
#[test]
fn step_with_the_longest() {
    let Longest { table, marking, guards, action } = Longest::new();
    assert_eq!(marking.len(), 7_935);
    let point = Point { table: table.clone(), marking: marking.clone(), guards: guards.clone() };
    let value = u32::from_be_bytes([118, 0x5e, 0, !118]);
    point.assert_sheet(&[(199, Some(value), &[&[199]])]);
    point.assert_pick(NO_NODE, Answer::Good(vec![0]));
    point.assert_pick(119, Answer::Good(vec![0]));
    point.assert_pick(118, refused(13, 118));

    let stepped = Longest::holding(true, FULL - 1, FULL, TOKENS);
    assert_eq!(stepped.len(), marking.len());
    for (choice, after) in [(&[0][..], &stepped), (&[], &marking)] {
        let read = reading::step(&table, &marking, &guards, &NO_BOUNDS, choice, ROOM);
        assert_in_any_room(Step, 0, point.inputs(&NO_BOUNDS, choice), read, after);
    }
    let finished = Longest::holding(false, FULL, FULL - 1, TOKENS + 1);
    let read = reading::finish(&table, &marking, action, &[], ROOM);
    assert_in_any_room(Finish, action, [&table, &marking, &[], &[], &[]], read, &finished);

    // the last buffer is full now, so no more can go there
    let full = Point { marking: stepped, ..point.clone() };
    full.assert_step(&[0], refused(12, 119));
    full.assert_pick(119, refused(13, 119));
}

/// What is not quite the longest marking: cut, longer, with a stock that is over its upper, another length, version or state, or an action that is neither
/// idle nor runs.
#[test]
fn no_markings() {
    let Longest { table, marking, guards, .. } = Longest::new();
    let assert_none = |marking: Vec<u8>| {
        let point = Point { table: table.clone(), marking, guards: guards.clone() };
        assert_eq!(point.answer(Sheet, &NO_BOUNDS, 0, &[]), refused(5, 0));
        assert_eq!(point.answer(Step, &NO_BOUNDS, 0, &[]), refused(5, 0));
        assert_eq!(point.plain(Finish, 0, &[]), refused(5, 0));
    };
    let body = &marking[2..];
    assert_none(marking[..marking.len() - 1].to_vec());
    assert_none([&marking[..], &[0]].concat());
    assert_none(framed(&body[..body.len() - 1]));
    assert_none(framed(&[body, &[0]].concat()));
    assert_none(framed(&[body, &vec![0; Room::MARKING]].concat()));
    for (place, byte) in [(0, 0), (1, 0), (2, 2), (3, 2), (4, 2), (5, 15), (5, 17), (5 + 65 * 118, 16), (5 + 65 * 118, 14)] {
        let mut other = marking.clone();
        other[place] = byte;
        assert_none(other);
    }
    // ended, but not clear
    let mut ended = marking.clone();
    ended[3] = 1;
    assert_none(ended);
}

/// An activity ends whose outgoing parameters are all full: they keep all.
#[test]
fn the_longest_that_has_ended() {
    let mut parts = Parts::default();
    let (start, end) = (parts.add_node(INITIAL, 0), parts.add_node(ACTIVITY_FINAL, 0));
    (2..MOST_NODES).for_each(|_| {
        parts.add_node(OUTGOING_PARAMETER, FULL);
    });
    (0..MOST_EDGES).for_each(|_| parts.add_edge(CONTROL, start, end, 1));
    let kept: Vec<u8> = (2..MOST_NODES as u8).flat_map(|node| stock(node, 0..FULL)).collect();
    let marking = |state: u8, tokens: u8| framed(&[&[1, state][..], &kept, &[tokens; MOST_EDGES]].concat());
    // the guards of all edges but the last are closed
    let mut guards = vec![0; MOST_EDGES];
    guards[199] = 1;
    let point = Point { table: parts.write(), marking: marking(0, 3), guards };
    point.assert_sheet(&[(199, None, &[&[199]])]);
    let ended = marking(1, 0);
    assert_eq!(ended.len(), 4 + 118 * 65 + 200);
    let read = reading::step(&point.table, &point.marking, &point.guards, &NO_BOUNDS, &[0], ROOM);
    assert_in_any_room(Step, 0, point.inputs(&NO_BOUNDS, &[0]), read, &ended);
    let after = Point { marking: ended, ..point.clone() };
    assert_eq!(after.answer(Sheet, &NO_BOUNDS, 0, &[]), refused(6, 0));
}

// ---- the longest sheet

/// 20 ends, which are branches of a decision, with 8 paths of 16 edges each: eight edges into a join, 13 merges behind it, and the decision. All edges are the
/// last of 200.
#[test]
fn the_longest_sheet() {
    let mut hall = Drawing::default();
    let empty = hall.node(BUFFER, 1);
    let end = hall.node(FLOW_FINAL, 0);
    (0..158).for_each(|_| hall.edge(OBJECT, empty, end));
    let (start, mut last) = (hall.node(INITIAL, 0), hall.node(JOIN, 0));
    (0..8).for_each(|_| hall.edge(CONTROL, start, last));
    (0..13).for_each(|_| last = hall.behind(CONTROL, last, MERGE, 0));
    let decision = hall.behind(CONTROL, last, DECISION, 0);
    (0..20).for_each(|_| hall.edge(CONTROL, decision, end));
    assert_eq!(hall.parts.edges.len(), MOST_EDGES);

    let mut body = vec![1, 20];
    for last in 180..200 {
        body.extend([last, 0, 0, 0, 0, 0, 8]);
        (158..166).for_each(|first| {
            body.extend([16, first]);
            body.extend(166..180);
            body.push(last);
        });
    }
    let sheet = framed(&body);
    assert_eq!(sheet.len(), 2_864);
    let point = hall.point();
    let read = reading::sheet(&point.table, &point.marking, &point.guards, &NO_BOUNDS, ROOM);
    assert_in_any_room(Sheet, 0, point.inputs(&NO_BOUNDS, &[]), read, &sheet);
    assert!(sheet.len() <= Room::SHEET);
}

// ---- joins of many edges

/// A join of so many edges of an initial node, of which the first so many have a token, with one edge to a final behind it; and values that go to a buffer each,
/// so many, past the join.
fn many(edges: usize, served: usize, past: usize) -> Point {
    let mut hall = Drawing::default();
    let (start, join) = (hall.node(INITIAL, 0), hall.node(JOIN, 0));
    (0..edges).for_each(|_| hall.edge(CONTROL, start, join));
    hall.behind(CONTROL, join, FLOW_FINAL, 0);
    for number in 0..past {
        let buffer = hall.node(BUFFER, 1);
        hall.result(number as u32, buffer);
    }
    let tokens: Vec<u8> = (0..edges).map(|edge| u8::from(edge < served)).collect();
    hall.with_tokens(&tokens)
}

/// The last edges of the ends, or the refusal.
fn ends(point: &Point) -> Result<Vec<u8>, Answer> {
    match point.answer(Sheet, &NO_BOUNDS, 0, &[]) {
        Answer::Good(sheet) => Ok(listed(&sheet).into_iter().map(|(edge, ..)| edge).collect()),
        refused => Err(refused),
    }
}

/// Eight paths are the most in an offer, and each edge brings one.
#[test]
fn joins_of_8_and_9_edges() {
    assert_eq!(ends(&many(8, 8, 0)), Ok(vec![8]));
    assert_eq!(ends(&many(9, 9, 0)), Err(refused(8, 0)));
    assert_eq!(ends(&many(9, 8, 1)), Ok(vec![10]));
}

/// 64 offers wait there, and what they would make is the 65th. With one fewer nothing comes through, and what goes past the join is on offer.
#[test]
fn a_join_of_64_edges() {
    assert_eq!(ends(&many(64, 64, 0)), Err(refused(8, 0)));
    assert_eq!(ends(&many(64, 63, 0)), Ok(vec![]));
    assert_eq!(ends(&many(64, 63, 1)), Ok(vec![65]));
    assert_eq!(ends(&many(64, 63, 2)), Err(refused(8, 0)));
    assert_eq!(ends(&many(64, 44, 20)), Ok((65..85).collect()));
    assert_eq!(ends(&many(64, 43, 21)), Err(refused(8, 0)));
    let point = many(64, 63, 1);
    point.assert_pick(NO_NODE, Answer::Good(vec![0]));
    point.assert_pick(2, refused(13, 2));
}

/// As many offers as there may be can't serve them all. 200 edges can't enter a join, since one leaves it.
#[test]
fn joins_of_more_than_64_edges() {
    for edges in [65, 66, 100, 128, 192, 198, 199] {
        let past = usize::from(edges < 199);
        let end: Vec<u8> = (0..past).map(|_| edges as u8 + 1).collect();
        assert_eq!(ends(&many(edges, edges, past)), Err(refused(8, 0)), "{edges} edges");
        assert_eq!(ends(&many(edges, 65, 0)), Err(refused(8, 0)), "{edges} edges");
        assert_eq!(ends(&many(edges, 64, 0)), Ok(vec![]), "{edges} edges");
        assert_eq!(ends(&many(edges, 64 - past, past)), Ok(end.clone()), "{edges} edges");
        assert_eq!(ends(&many(edges, 1, past)), Ok(end.clone()), "{edges} edges");
        let idle = many(edges, 0, past);
        assert_eq!(ends(&idle), Ok(end), "{edges} edges");
        idle.assert_pick(2, refused(13, 2));
    }
    assert_eq!(many(200, 0, 0).plain(Check, 0, &[]), refused(1, 0));
    let mut open = Parts { nodes: vec![[INITIAL, 255, 0, 0], [JOIN, 255, 0, 0]], edges: vec![[CONTROL, 0, 1, 0]; 200] };
    assert_eq!(checked(&open), refused(4, 1));
    // and with an edge out of it in place of the last
    open.nodes.push(LONE_FINAL);
    open.edges[199] = [CONTROL, 1, 2, 0];
    assert_eq!(checked(&open), good());
}

/// All edges of the join are served, but two by branches of one decision, which never meet: 59 tokens, one at the decision and two behind it are 62 offers, and
/// the join makes none.
#[test]
fn a_join_of_61_edges_that_compete() {
    let mut hall = Drawing::default();
    let join = hall.node(JOIN, 0);
    let start = hall.node(INITIAL, 0);
    (0..59).for_each(|_| hall.edge(CONTROL, start, join));
    let decision = hall.behind(CONTROL, start, DECISION, 0);
    hall.edge(CONTROL, decision, join);
    hall.edge(CONTROL, decision, join);
    hall.behind(CONTROL, join, FLOW_FINAL, 0);
    assert_eq!(ends(&hall.point()), Ok(vec![]));
    for number in 0..2 {
        let buffer = hall.node(BUFFER, 1);
        hall.result(number, buffer);
    }
    assert_eq!(ends(&hall.point()), Ok(vec![63, 64]));
    // with one of them closed an edge isn't served at all
    let mut closed = hall;
    closed.parts.edges[61][3] = 1;
    let mut guards = vec![1; 65];
    guards[61] = 0;
    assert_eq!(ends(&closed.point().under(guards)), Ok(vec![63, 64]));
}

/// A value waits with 40 tokens at a join that takes 120, and may go past it too.
#[test]
fn a_join_with_a_value() {
    for served in [0, 1, 40, 60] {
        let mut hall = Drawing::default();
        let (start, join) = (hall.node(INITIAL, 0), hall.node(JOIN, 0));
        (0..60).for_each(|_| hall.edge(CONTROL, start, join));
        let waiting = hall.result(7, join);
        (61..121).for_each(|_| hall.edge(CONTROL, start, join));
        hall.behind(OBJECT, join, BUFFER, 1);
        let past = hall.behind(OBJECT, waiting, BUFFER, 1);
        let tokens: Vec<u8> = (0..120).map(|edge| u8::from(edge % 2 == 0 && edge / 2 < served)).collect();
        let point = hall.with_tokens(&tokens);
        point.assert_sheet(&[(122, Some(7), &[&[122]])]);
        point.assert_step(&[0], hall.holding(&[(past, 7)], &tokens));
        // and 62 offers are enough to see that nothing comes through
        point.assert_pick(join + 2, refused(13, join + 2));
    }
}

/// A join of so many edges or a few fewer, in a random numbering: some come straight from an initial node, some by a merge, and some are branches of a fork or a
/// decision; one may bring a value. So many in a hundred of the initial node's edges have a token. Values go past the join.
fn random_join(rng: &mut Rng, edges: usize, served: usize) -> Point {
    let mut hall = Drawing::default();
    let (start, join) = (hall.node(INITIAL, 0), hall.node(JOIN, 0));
    let mut splits: Vec<u8> = Vec::new();
    let mut entering = 0;
    while entering < edges && hall.parts.edges.len() < 190 && hall.parts.nodes.len() < 110 {
        match (rng.below(40), rng.one_of(&splits)) {
            (0, _) => {
                let merge = hall.node(MERGE, 0);
                (0..rng.between(1, 3)).for_each(|_| hall.edge(CONTROL, start, merge));
                hall.edge(CONTROL, merge, join);
            }
            (1..=2, _) => {
                let kind = if rng.percent(70) { FORK } else { DECISION };
                splits.push(hall.behind(CONTROL, start, kind, 0));
                hall.edge(CONTROL, splits[splits.len() - 1], join);
            }
            (3..=6, Some(split)) => hall.edge(CONTROL, split, join),
            _ => hall.edge(CONTROL, start, join),
        }
        entering += 1;
    }
    let brings_value = rng.percent(30);
    if brings_value {
        hall.result(0, join);
    }
    hall.behind(u8::from(brings_value), join, FLOW_FINAL, 0);
    for _ in 0..rng.below(3) {
        let stock = hall.node(OUTGOING_PARAMETER, 1);
        hall.result(0, stock);
    }
    let mut parts = hall.parts;
    parts.shuffle(rng);
    let tokens: Vec<u8> = parts.edges.iter().map(|_| u8::from(rng.percent(served))).collect();
    let held: Vec<(u8, u32)> = parts.nodes_of(&[BUFFER]).into_iter().map(|buffer| (buffer, u32::from(buffer))).collect();
    let of_start = parts.edges.iter().filter(|edge| parts.nodes[usize::from(edge[1])][0] == INITIAL).count();
    Point { marking: marking(&parts, &held, &tokens[..of_start]), ..Point::of(&parts, &held) }
}

/// Few edges, about as many as there are offers, and many; all served, nearly all, half of them, or a few.
#[test]
fn random_joins() {
    let mut rng = Rng::new(91);
    let (mut good, mut through, mut over, mut skipped) = ([0; 3], 0, [0; 3], 0);
    for number in 0..9_000 {
        let size = number % 3;
        let (least, most) = [(2, 12), (50, 66), (67, 199)][size];
        let edges = rng.between(least, most);
        let served = [[100, 98, 50, 10], [100, 98, 50, 10], [90, 40, 25, 10]][size][rng.below(4)];
        let point = random_join(&mut rng, edges, served);
        let Point { table, marking, guards } = &point;
        let answer = match reading::sheet_within(table, marking, guards, &NO_BOUNDS, ROOM, 5_000) {
            Some(answer) => answer,
            None => {
                skipped += 1;
                continue;
            }
        };
        let _ = Sheet.hold(AROUND, 0, point.inputs(&NO_BOUNDS, &[]), ROOM, &answer);
        match &answer {
            Answer::Good(sheet) => {
                good[size] += 1;
                through += usize::from(decoded(sheet).iter().any(|(_, _, paths)| paths.len() > 1));
                point.answer(Pick, &NO_BOUNDS, NO_NODE, &[]);
                point.answer(Step, &NO_BOUNDS, 0, &[]);
            }
            refusal => {
                assert_eq!(*refusal, refused(8, 0));
                over[size] += 1;
            }
        }
    }
    println!("{good:?} good, {through} with ends behind the join, {over:?} over, {skipped} skipped");
    assert!(good.iter().chain(&over).all(|count| *count >= 300) && through >= 200 && skipped <= 90, "{good:?}, {through}, {over:?}, {skipped}");
}
