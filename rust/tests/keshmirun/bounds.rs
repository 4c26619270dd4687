//! Bounds on the values that go over edges: which values they let go and on which edges they are asked, that ways which they bar neither count nor take time,
//! every damage of a bounds list, in which order 18 is judged, and that bounds which bar nothing change nothing. Every call is held to an answer that is
//! written here, and to the plain reading of the paper where it isn't too long for that.

use crate::common::drawn::*;
use crate::common::points::Walk;
use crate::common::vectors::{all, Call, Operation};
use crate::common::{answered, limits, whys};
use keshmirun::{bounds_list, Refusal, Terms, MOST_EDGES, NO_BOUNDS, NO_NODE};
use reading::random::{choice, Event, Parts, Rng};
use reading::Answer;
use std::ops::RangeInclusive;
use std::sync::mpsc::{self, RecvTimeoutError};
use std::thread;
use std::time::Duration;

/// What stands beside the bytes that are lent: whoever reads on there finds object edges, and entries that look good.
const AROUND: u8 = 1;

const BAD_LIST: Answer = refused(18, 0);

impl Point {
    /// The paper's small event. Edge 0 is a control edge, 1 to 4 are object edges.
    fn small() -> Point {
        let nodes = [[1, 255, 0, 0], [6, 255, 0, 4], [8, 255, 0, 0], [11, 255, 0, 0], [3, 5, 1, 1], [2, 255, 0, 0], [5, 255, 0, 2]];
        let edges = [[0, 0, 3, 0], [1, 1, 2, 0], [1, 2, 3, 1], [1, 2, 6, 1], [1, 3, 4, 0]];
        Point::of(&Parts { nodes: nodes.to_vec(), edges: edges.to_vec() }, &[(1, 7), (1, 9)])
    }

    /// The reading's answers to sheet, pick with no node named, and step with this choice.
    fn read(&self, bounds: &[u8], choice: &[u8]) -> [Answer; 3] {
        let Point { table, marking, guards } = self;
        [
            reading::sheet_within(table, marking, guards, bounds, ROOM, BUDGET).expect("a short sheet"),
            reading::pick_within(table, marking, guards, bounds, NO_NODE, ROOM, BUDGET).expect("a short pick"),
            reading::step_within(table, marking, guards, bounds, choice, ROOM, BUDGET).expect("a short step"),
        ]
    }

    /// Makes these three calls, and holds them to their answers.
    fn hold(&self, bounds: &[u8], choice: &[u8], [sheet, pick, step]: &[Answer; 3]) {
        for (operation, expected) in [(Operation::Sheet, sheet), (Operation::Pick, pick), (Operation::Step, step)] {
            let _ = operation.hold(AROUND, NO_NODE, self.inputs(bounds, choice), ROOM, expected);
        }
    }

    /// Sheet, pick and step are refused so, and the reading agrees.
    fn assert_refused(&self, bounds: &[u8], expected: Answer) {
        assert_eq!(self.read(bounds, &[]), [0; 3].map(|_| expected.clone()), "{self:02x?}, {bounds:02x?}");
        self.hold(bounds, &[], &[0; 3].map(|_| expected.clone()));
    }

    /// The ends on offer, each by its last edge, value and number of paths. Sheet, pick, and step with what is picked are held to the reading.
    fn ends(&self, bounds: &[u8]) -> Vec<(u8, Option<u32>, u8)> {
        let picked = match &self.read(bounds, &[])[1] {
            Answer::Good(picked) => picked.clone(),
            refused => panic!("{refused:?}, {self:02x?}, {bounds:02x?}"),
        };
        let answers = self.read(bounds, &picked);
        self.hold(bounds, &picked, &answers);
        match &answers[0] {
            Answer::Good(sheet) => listed(sheet),
            refused => panic!("{refused:?}"),
        }
    }

    /// The last edges of the ends.
    fn edges(&self, bounds: &[u8]) -> Vec<u8> {
        self.ends(bounds).into_iter().map(|(edge, ..)| edge).collect()
    }
}

/// The list that lets this value alone go over each of these edges.
fn only(value: u32, edges: &[u8]) -> Vec<u8> {
    bounds_list(&edges.iter().map(|edge| (*edge, value..=value)).collect::<Vec<_>>())
}

// ---- which values go

/// Least, greatest, and neighbours of numbers where a byte or a sign turns.
const VALUES: [u32; 14] = [0, 1, 6, 7, 8, 255, 256, 257, 0x00ff_ffff, 0x0100_0000, 0x7fff_ffff, 0x8000_0000, 0xffff_fffe, 0xffff_ffff];

/// A value with one edge, to a flow final.
fn lone(value: u32) -> Point {
    let mut parts = Parts::default();
    let (from, to) = (parts.add_node(BUFFER, 1), parts.add_node(FLOW_FINAL, 0));
    parts.add_edge(OBJECT, from, to, 0);
    Point::of(&parts, &[(from, value)])
}

#[test]
fn low_and_high_are_within() {
    for value in VALUES {
        let point = lone(value);
        for low in VALUES {
            for high in VALUES {
                let bounds = bounds_list(&[(0, RangeInclusive::new(low, high))]);
                match (low <= high, low <= value && value <= high) {
                    (false, _) => point.assert_refused(&bounds, BAD_LIST),
                    (true, false) => assert_eq!(point.ends(&bounds), [], "{value} in {low} to {high}"),
                    (true, true) => assert_eq!(point.ends(&bounds), [(0, Some(value), 1)], "{value} in {low} to {high}"),
                }
            }
        }
    }
}

/// The oldest value is the one that is asked, and those behind it wait.
#[test]
fn the_oldest_is_asked() {
    let mut parts = Parts::default();
    let (from, to) = (parts.add_node(BUFFER, 4), parts.add_node(FLOW_FINAL, 0));
    parts.add_edge(OBJECT, from, to, 0);
    let point = Point::of(&parts, &[(from, 5), (from, 6), (from, 7)]);
    assert_eq!(point.ends(&bounds_list(&[(0, 6..=u32::MAX)])), []);
    assert_eq!(point.ends(&bounds_list(&[(0, 0..=5)])), [(0, Some(5), 1)]);
}

// ---- on which edges

#[test]
fn guarded_or_not_open_or_shut() {
    let within = [bounds_list(&[(0, 7..=7)]), bounds_list(&[(0, 0..=u32::MAX)]), NO_BOUNDS.to_vec()];
    let barred = [bounds_list(&[(0, 8..=9)]), bounds_list(&[(0, 0..=6)])];
    for guarded in [0, 1] {
        for byte in [0, 1] {
            let mut parts = Parts::of(&lone(7).table).unwrap();
            parts.edges[0][3] = guarded;
            let point = Point { table: parts.write(), guards: vec![byte], ..lone(7) };
            for (bounds, goes) in within.iter().map(|list| (list, true)).chain(barred.iter().map(|list| (list, false))) {
                match (guarded, byte) {
                    (0, 0) => point.assert_refused(bounds, refused(7, 0)),
                    _ => assert_eq!(point.edges(bounds), if goes && byte == 1 { vec![0] } else { vec![] }, "{guarded}, {byte}, {bounds:?}"),
                }
            }
        }
    }
}

/// Calls with each of two edges unlisted, listed with the value and listed without it: the value goes to the end exactly if no list bars it.
fn assert_both_asked(what: &str, point: &Point, value: u32, edges: [u8; 2]) {
    let lists: [&[RangeInclusive<u32>]; 3] = [&[], &[value..=value], &[value + 1..=u32::MAX]];
    for (first, on_first) in lists.iter().enumerate() {
        for (second, on_second) in lists.iter().enumerate() {
            let mut entries: Vec<_> = on_first.iter().map(|range| (edges[0], range.clone())).collect();
            entries.extend(on_second.iter().map(|range| (edges[1], range.clone())));
            entries.sort_by_key(|(edge, _)| *edge);
            let ends = point.ends(&bounds_list(&entries));
            let values: Vec<Option<u32>> = ends.iter().map(|(_, value, _)| *value).collect();
            assert_eq!(values, if first < 2 && second < 2 { vec![Some(value)] } else { vec![] }, "{what}, {entries:?}");
        }
    }
}

/// From each kind of object node that has edges, through each kind of control node, to each kind of node that object edges enter.
#[test]
fn first_offers_extensions_and_joins() {
    for source in [OUTPUT_PIN, BUFFER, INCOMING_PARAMETER] {
        for passes in [DECISION, MERGE, FORK, JOIN] {
            for target in [INPUT_PIN, BUFFER, OUTGOING_PARAMETER, FLOW_FINAL, ACTIVITY_FINAL] {
                let mut parts = Parts::default();
                let (start, action) = (parts.add_node(INITIAL, 0), parts.add_node(ACTION, 0));
                let from = if source == OUTPUT_PIN { parts.add_pin(source, action, 0, 2) } else { parts.add_node(source, 2) };
                let through = parts.add_node(passes, 0);
                let to = match target {
                    INPUT_PIN => parts.add_pin(target, action, 1, 1),
                    FLOW_FINAL | ACTIVITY_FINAL => parts.add_node(target, 0),
                    _ => parts.add_node(target, 1),
                };
                parts.add_pin(INPUT_PIN, action, 1, 1); // an action must wait for something
                parts.add_edge(OBJECT, through, to, 0);
                if passes == JOIN {
                    parts.add_edge(CONTROL, start, through, 0);
                }
                parts.add_edge(OBJECT, from, through, 0);
                let last = parts.edges.len() as u8 - 1;
                assert_both_asked(&format!("{source} by {passes} to {target}"), &Point::of(&parts, &[(from, 7)]), 7, [last, 0]);
            }
        }
    }
}

/// "Score 6 or more" one way, all others the other way.
#[test]
fn a_decision_by_the_result() {
    let mut parts = Parts::default();
    let (from, which) = (parts.add_node(INCOMING_PARAMETER, 16), parts.add_node(DECISION, 0));
    let (top, rest) = (parts.add_node(BUFFER, 16), parts.add_node(BUFFER, 16));
    for (source, target) in [(from, which), (which, top), (which, rest)] {
        parts.add_edge(OBJECT, source, target, 0);
    }
    let bounds = bounds_list(&[(1, 6..=u32::MAX), (2, 0..=5)]);
    for (score, edge) in [(0, 2), (5, 2), (6, 1), (7, 1), (u32::MAX, 1)] {
        let point = Point::of(&parts, &[(from, score)]);
        assert_eq!(point.ends(&NO_BOUNDS).len(), 2);
        assert_eq!(point.ends(&bounds), [(edge, Some(score), 1)]);
    }
}

/// A branch of a fork that bounds bar is not missed, as one that a guard shuts is not.
#[test]
fn a_barred_branch_is_not_missed() {
    let mut parts = Parts::default();
    let (from, fork, to) = (parts.add_node(BUFFER, 1), parts.add_node(FORK, 0), parts.add_node(FLOW_FINAL, 0));
    for (source, target) in [(from, fork), (fork, to), (fork, to), (fork, to)] {
        parts.add_edge(OBJECT, source, target, 0);
    }
    let point = Point::of(&parts, &[(from, 7)]);
    let spent = Point::of(&parts, &[]).marking;
    let step = |bounds: &[u8], choice: &[u8], expected| {
        let _ = Operation::Step.hold(AROUND, 0, point.inputs(bounds, choice), ROOM, &expected);
    };
    step(&NO_BOUNDS, &[0, 1], refused(11, fork));
    step(&NO_BOUNDS, &[0, 1, 2], Answer::Good(spent.clone()));
    let barred = only(8, &[2]);
    assert_eq!(point.edges(&barred), [1, 3]);
    step(&barred, &[0], refused(11, fork));
    step(&barred, &[0, 1], Answer::Good(spent));
    assert_eq!(point.edges(&only(8, &[1, 2, 3])), []);
}

/// Values that meet at a merge, before it or behind it, are asked each by itself; and so at the join behind it.
#[test]
fn each_value_by_itself() {
    let mut parts = Parts::default();
    let buffers = [7, 8, 9].map(|value| (parts.add_node(BUFFER, 1), value));
    let (start, merge, join, to) = (parts.add_node(INITIAL, 0), parts.add_node(MERGE, 0), parts.add_node(JOIN, 0), parts.add_node(FLOW_FINAL, 0));
    for (buffer, _) in buffers {
        parts.add_edge(OBJECT, buffer, merge, 0);
    }
    parts.add_edge(OBJECT, merge, join, 0);
    parts.add_edge(CONTROL, start, join, 0);
    parts.add_edge(OBJECT, join, to, 0);
    let point = Point::of(&parts, &buffers);
    let values = |bounds: &[u8]| -> Vec<u32> { point.ends(bounds).into_iter().filter_map(|(_, value, _)| value).collect() };
    assert_eq!(values(&NO_BOUNDS), [7, 8, 9]);
    for edge in [3, 5] {
        assert_eq!(values(&bounds_list(&[(edge, 8..=9)])), [8, 9]);
        assert_eq!(values(&only(8, &[edge])), [8]);
        assert_eq!(values(&only(10, &[edge])), []);
    }
    assert_eq!(values(&bounds_list(&[(3, 0..=8), (5, 8..=9)])), [8]);
    assert_eq!(values(&bounds_list(&[(0, 8..=9), (1, 8..=9), (2, 8..=9)])), [8, 9]);
}

// ---- barred ways take no time

/// Three tokens that a merge brings to a fork; so many branches of it into a join, with three offers each; into the same join these values, by a merge if they
/// are several; and an edge from the join to the node that is returned.
fn crossing(branches: usize, values: &[u32]) -> (Parts, Vec<(u8, u32)>, u8) {
    let mut parts = Parts::default();
    let (merge, fork, join, to) = (parts.add_node(MERGE, 0), parts.add_node(FORK, 0), parts.add_node(JOIN, 0), parts.add_node(FLOW_FINAL, 0));
    for _ in 0..3 {
        let start = parts.add_node(INITIAL, 0);
        parts.add_edge(CONTROL, start, merge, 0);
    }
    parts.add_edge(CONTROL, merge, fork, 0);
    (0..branches).for_each(|_| parts.add_edge(CONTROL, fork, join, 0));
    let held: Vec<(u8, u32)> = values.iter().map(|value| (parts.add_node(BUFFER, 1), *value)).collect();
    match held[..] {
        [(buffer, _)] => parts.add_edge(OBJECT, buffer, join, 0),
        _ => {
            let together = parts.add_node(MERGE, 0);
            held.iter().for_each(|(buffer, _)| parts.add_edge(OBJECT, *buffer, together, 0));
            parts.add_edge(OBJECT, together, join, 0);
        }
    }
    parts.add_edge(OBJECT, join, to, 0);
    (parts, held, to)
}

/// The list that lets value 8 alone go over the edge to this node, whatever its number.
fn only_8_to(parts: &Parts, node: u8) -> Vec<u8> {
    let edge = parts.edges.iter().position(|edge| edge[2] == node).unwrap();
    only(8, &[edge as u8])
}

/// Makes these calls with the edges in 50 orders, 20 times each. They end within two seconds, or it fails then: a search through every way would go on.
fn assert_in_time(mut parts: Parts, held: Vec<(u8, u32)>, to: u8, calls: fn(&Point, Terms, u8)) {
    let (ended, end) = mpsc::channel();
    let running = thread::spawn(move || {
        let mut rng = Rng::new(61);
        for _ in 0..50 {
            rng.shuffle(&mut parts.edges);
            let (point, bounds) = (Point::of(&parts, &held), only_8_to(&parts, to));
            (0..20).for_each(|_| calls(&point, Terms::new(&point.guards).with_bounds(&bounds), to));
        }
        ended.send(()).expect("in time");
    });
    if end.recv_timeout(Duration::from_secs(2)) == Err(RecvTimeoutError::Timeout) {
        panic!("1,000 rounds of calls take more than two seconds");
    }
    running.join().expect("every answer as it should be");
}

/// Nothing is offered beyond the join: pick takes nothing, no node has an end, and the empty choice leaves the marking.
fn assert_nothing_in_time(parts: Parts, held: Vec<(u8, u32)>, to: u8) {
    assert_in_time(parts, held, to, |Point { table, marking, .. }, terms, to| {
        let mut out = [0; ROOM];
        assert_eq!(keshmirun::sheet(table, marking, terms, &mut out), Ok(4));
        assert_eq!(out[..4], [0, 2, 1, 0]);
        assert_eq!(keshmirun::pick(table, marking, terms, NO_NODE, &mut out), Ok(0));
        assert_eq!(keshmirun::pick(table, marking, terms, to, &mut out), Err(Refusal { number: 13, place: to }));
        assert_eq!(keshmirun::step(table, marking, terms, &[], &mut out), Ok(marking.len()));
        assert_eq!(out[..marking.len()], *marking);
    });
}

/// 19 control edges of three offers each would be more than a thousand million ways. They and the value are 64 offers.
#[test]
fn a_join_with_a_barred_value() {
    let (parts, held, to) = crossing(19, &[7]);
    assert_nothing_in_time(parts.clone(), held.clone(), to);
    let point = Point::of(&parts, &held);
    assert_eq!(point.ends(&only_8_to(&parts, to)), []);
    point.assert_refused(&only(7, &[24]), refused(8, 0));
}

/// 20 such edges are too many offers, whatever is barred; with 18, and two that carry one offer each, there are 20 edges.
#[test]
fn a_join_of_20_edges_and_a_barred_value() {
    let (parts, held, to) = crossing(20, &[7]);
    assert_in_time(parts.clone(), held.clone(), to, |Point { table, marking, .. }, terms, _| {
        assert_eq!(keshmirun::sheet(table, marking, terms, &mut [0; ROOM]), Err(Refusal { number: 8, place: 0 }));
    });
    Point::of(&parts, &held).assert_refused(&only_8_to(&parts, to), refused(8, 0));
    let (mut parts, held, to) = crossing(18, &[7]);
    let (start, join) = (parts.add_node(INITIAL, 0), 2);
    (0..2).for_each(|_| parts.add_edge(CONTROL, start, join, 0));
    assert_nothing_in_time(parts.clone(), held.clone(), to);
    assert_eq!(Point::of(&parts, &held).ends(&only_8_to(&parts, to)), []);
}

#[test]
fn a_join_with_barred_values() {
    let (parts, held, to) = crossing(17, &[7, 9, u32::MAX]);
    assert_nothing_in_time(parts.clone(), held.clone(), to);
    assert_eq!(Point::of(&parts, &held).ends(&only_8_to(&parts, to)), []);
}

/// Two values are barred behind the join, and the third, which is not, competes with the token that the join needs beside it: its own token went the other way
/// at a decision.
#[test]
fn a_join_with_barred_values_and_a_rival() {
    for branches in [2, 15] {
        let (mut parts, mut held, to) = crossing(branches, &[7, 9]);
        let (together, join) = (parts.nodes.len() as u8 - 1, 2);
        let (start, which) = (parts.add_node(INITIAL, 0), parts.add_node(DECISION, 0));
        let (with, buffer) = (parts.add_node(JOIN, 0), parts.add_node(BUFFER, 1));
        for (source, target) in [(start, which), (which, join), (which, with)] {
            parts.add_edge(CONTROL, source, target, 0);
        }
        for (source, target) in [(buffer, with), (with, together)] {
            parts.add_edge(OBJECT, source, target, 0);
        }
        held.push((buffer, 8));
        assert_nothing_in_time(parts.clone(), held.clone(), to);
        if branches == 2 {
            let point = Point::of(&parts, &held);
            assert_eq!(point.ends(&only_8_to(&parts, to)), []);
            assert_eq!(point.ends(&NO_BOUNDS).len(), 18); // 9 ways with 7, and 9 with 9
        }
    }
}

// ---- barred ways don't count

/// A value goes by ten edges and a row of five nodes, the last of this kind, to a flow final, which is 60 offers, and past them by as many edges as are wanted.
fn offers(past: usize, last: u8) -> Point {
    let mut parts = Parts::default();
    let (from, to) = (parts.add_node(BUFFER, 1), parts.add_node(FLOW_FINAL, 0));
    let row = [MERGE, DECISION, FORK, JOIN, last].map(|kind| parts.add_node(kind, 0));
    (0..past).for_each(|_| parts.add_edge(OBJECT, from, to, 0));
    (0..10).for_each(|_| parts.add_edge(OBJECT, from, row[0], 0));
    row.windows(2).for_each(|pair| parts.add_edge(OBJECT, pair[0], pair[1], 0));
    parts.add_edge(OBJECT, row[4], to, 0);
    Point::of(&parts, &[(from, 7)])
}

#[test]
fn not_to_64_offers() {
    assert_eq!(offers(4, MERGE).ends(&NO_BOUNDS).len(), 14);
    let point = offers(5, MERGE);
    point.assert_refused(&NO_BOUNDS, refused(8, 0));
    for edge in 0..20 {
        let ends = if edge < 15 { 14 } else { 5 };
        assert_eq!(point.ends(&only(8, &[edge])).len(), ends, "edge {edge}");
        point.assert_refused(&only(7, &[edge]), refused(8, 0));
    }
    let point = offers(6, MERGE);
    point.assert_refused(&only(8, &[3]), refused(8, 0));
    assert_eq!(point.ends(&only(8, &[3, 4])).len(), 14);
}

/// 64 offers are there when the barred edge is come to, the last of the row.
#[test]
fn not_behind_64_offers() {
    for last in [DECISION, MERGE, FORK, JOIN] {
        assert_eq!(offers(14, last).ends(&only(8, &[28])).len(), 14);
        offers(14, last).assert_refused(&only(7, &[28]), refused(8, 0));
        offers(15, last).assert_refused(&only(8, &[29]), refused(8, 0));
    }
}

/// The first value comes to the join on one path, the second on two; seven tokens are there already.
#[test]
fn not_to_8_paths() {
    let mut parts = Parts::default();
    let (start, one, two) = (parts.add_node(INITIAL, 0), parts.add_node(BUFFER, 1), parts.add_node(BUFFER, 1));
    let (with, merge, join, to) = (parts.add_node(JOIN, 0), parts.add_node(MERGE, 0), parts.add_node(JOIN, 0), parts.add_node(FLOW_FINAL, 0));
    (0..7).for_each(|_| parts.add_edge(CONTROL, start, join, 0));
    parts.add_edge(CONTROL, start, with, 0);
    for (source, target) in [(one, merge), (two, with), (with, merge), (merge, join), (join, to)] {
        parts.add_edge(OBJECT, source, target, 0);
    }
    let point = Point::of(&parts, &[(one, 1), (two, 2)]);
    point.assert_refused(&NO_BOUNDS, refused(8, 0));
    for edge in [11, 12] {
        assert_eq!(point.ends(&only(1, &[edge])), [(12, Some(1), 8)]);
        point.assert_refused(&only(2, &[edge]), refused(8, 0));
    }
    for edge in [9, 10] {
        assert_eq!(point.ends(&only(1, &[edge])), [(12, Some(1), 8)]);
        point.assert_refused(&only(2, &[edge]), refused(8, 0));
    }
    assert_eq!(point.ends(&only(3, &[12])), []);
}

/// A value with so many edges to a flow final.
fn rivals(edges: usize) -> Point {
    let mut parts = Parts::default();
    let (from, to) = (parts.add_node(BUFFER, 1), parts.add_node(FLOW_FINAL, 0));
    (0..edges).for_each(|_| parts.add_edge(OBJECT, from, to, 0));
    Point::of(&parts, &[(from, 7)])
}

#[test]
fn not_to_20_ends() {
    rivals(21).assert_refused(&NO_BOUNDS, refused(8, 0));
    rivals(21).assert_refused(&only(7, &[0]), refused(8, 0));
    for edge in 0..21 {
        let left: Vec<u8> = (0..21).filter(|other| *other != edge).collect();
        assert_eq!(rivals(21).edges(&only(8, &[edge])), left);
    }
    rivals(22).assert_refused(&only(8, &[4]), refused(8, 0));
    for edges in [64, 200] {
        let all_but_20: Vec<u8> = (20..edges).collect();
        assert_eq!(rivals(edges.into()).edges(&only(8, &all_but_20)).len(), 20);
        rivals(edges.into()).assert_refused(&only(8, &all_but_20[1..]), refused(8, 0));
    }
}

// ---- damaged lists

/// A good list of the small event, of which 7 goes over edges 1 and 4 but not over 3.
fn three_entries() -> Vec<u8> {
    bounds_list(&[(1, 0..=7), (3, 8..=8), (4, 6..=u32::MAX)])
}

#[test]
fn every_byte_changed() {
    let (point, good) = (Point::small(), three_entries());
    assert_eq!(point.edges(&good), [4]);
    let mut refusals = [0; 31];
    for (place, byte) in (0..good.len()).flat_map(|place| (0..=255).map(move |byte| (place, byte))) {
        let mut list = good.clone();
        list[place] = byte;
        let answers = point.read(&list, &[0]);
        point.hold(&list, &[0], &answers);
        assert_eq!(answers[0] == BAD_LIST, answers[1] == BAD_LIST && answers[2] == BAD_LIST);
        refusals[place] += usize::from(answers[0] == BAD_LIST);
    }
    // the length, version and count that are good are one each; so is each edge between its neighbours, but for 1, which may be 2 too, and 3
    assert_eq!(refusals[..4], [255; 4]);
    assert_eq!([refusals[4], refusals[13], refusals[22]], [254, 254, 255]);
    // low and high: 0 to 7, 8 to 8, 6 to the greatest
    assert_eq!(refusals[5..13], [255, 255, 255, 248, 0, 0, 0, 0]);
    assert_eq!(refusals[14..22], [255, 255, 255, 247, 0, 0, 0, 8]);
    assert_eq!(refusals[23..31], [0; 8]);
}

#[test]
fn cut_longer_and_empty() {
    let (point, good) = (Point::small(), three_entries());
    for length in 0..good.len() {
        point.assert_refused(&good[..length], BAD_LIST);
        if length >= 2 {
            point.assert_refused(&framed(&good[2..length]), BAD_LIST);
        }
    }
    for longer in [0, 1, 4, 255] {
        let list = [&good[..], &[longer]].concat();
        point.assert_refused(&list, BAD_LIST);
        point.assert_refused(&framed(&list[2..]), BAD_LIST);
    }
    for list in
        [vec![], vec![0], vec![0, 0], vec![0, 1, 1], vec![0, 0, 1, 0], vec![0, 2, 1, 0, 0], vec![0, 3, 1, 0, 0], vec![0, 2, 0, 0], vec![2, 0, 1, 0]]
    {
        point.assert_refused(&list, BAD_LIST);
    }
}

#[test]
fn every_field_wrong() {
    let point = Point::small();
    let body = &three_entries()[2..];
    for version in [0, 2, 3, 255] {
        point.assert_refused(&framed(&[&[version], &body[1..]].concat()), BAD_LIST);
    }
    for count in [0, 1, 2, 4, 255] {
        point.assert_refused(&framed(&[&[1, count], &body[2..]].concat()), BAD_LIST);
    }
    let all = 0..=u32::MAX;
    for edges in [
        &[1, 1][..],      // twice
        &[4, 4],          //
        &[1, 2, 2, 3],    //
        &[2, 1],          // falling
        &[1, 2, 4, 3],    //
        &[3, 1, 2],       //
        &[5],             // no such edge
        &[1, 2, 3, 4, 5], //
        &[1, 64],         //
        &[255],           //
        &[0],             // a control edge
        &[0, 1, 2, 3, 4], //
        &[0, 4, 255],     //
    ] {
        let entries: Vec<_> = edges.iter().map(|edge| (*edge, all.clone())).collect();
        point.assert_refused(&bounds_list(&entries), BAD_LIST);
    }
    for (low, high) in [(1, 0), (8, 7), (256, 255), (u32::MAX, 0), (u32::MAX, u32::MAX - 1), (0x8000_0000, 0x7fff_ffff)] {
        for place in 0..3 {
            let mut entries = [1, 3, 4].map(|edge| (edge, all.clone()));
            entries[place].1 = RangeInclusive::new(low, high);
            point.assert_refused(&bounds_list(&entries), BAD_LIST);
        }
    }
    assert_eq!(point.ends(&bounds_list(&[1, 2, 3, 4].map(|edge| (edge, all.clone())))), point.ends(&NO_BOUNDS));
}

/// A table without edges has no list but that of none.
#[test]
fn no_edges() {
    let mut parts = Parts::default();
    parts.add_node(FLOW_FINAL, 0);
    let point = Point::of(&parts, &[]);
    assert_eq!(point.ends(&NO_BOUNDS), []);
    point.assert_refused(&bounds_list(&[(0, 0..=0)]), BAD_LIST);
    point.assert_refused(&[], BAD_LIST);
}

/// As many entries as a table has edges at most, and more than a count or a length can say: nothing is cut off that would make a good list.
#[test]
fn long_lists() {
    let point = rivals(MOST_EDGES);
    let entries = |count: usize| -> Vec<(u8, RangeInclusive<u32>)> { (0..count).map(|edge| (edge as u8, u32::from(edge >= 20) * 8..=9)).collect() };
    assert_eq!(point.edges(&bounds_list(&entries(MOST_EDGES))).len(), 20);
    for count in [201, 255, 256, 257, 256 + 200, 512 + 200, 7_281, 7_282, 7_283, 7_281 + 200, 65_536, 65_536 + 200] {
        let list = bounds_list(&entries(count));
        assert_eq!(list.len(), 4 + 9 * count);
        point.assert_refused(&list, BAD_LIST);
    }
    // of the same edge, as many as a count of 0, 1 or 2 would be right for if its other digits were cut off
    for count in [256, 257, 258] {
        lone(7).assert_refused(&bounds_list(&vec![(0, 7..=7); count]), BAD_LIST);
    }
}

#[test]
fn the_last_list_is_the_one() {
    let (point, bad, barred) = (lone(7), [0, 2, 2, 0], only(8, &[0]));
    let Point { table, marking, guards } = &point;
    let terms = Terms::new(guards).with_bounds(&bad);
    assert_eq!(answered(|out| keshmirun::sheet(table, marking, terms, out)), BAD_LIST);
    assert_eq!(answered(|out| keshmirun::sheet(table, marking, terms.with_bounds(&barred), out)), Answer::Good(vec![0, 2, 1, 0]));
    assert_eq!(answered(|out| keshmirun::sheet(table, marking, terms.with_bounds(&NO_BOUNDS), out)), point.read(&NO_BOUNDS, &[])[0]);
}

// ---- the order of refusals

/// Lists that are bad for any table.
fn bad_lists() -> Vec<Vec<u8>> {
    vec![vec![], vec![0, 2, 2, 0], vec![0, 2, 1, 1], bounds_list(&[(255, 0..=9)]), bounds_list(&[(1, RangeInclusive::new(9, 8))])]
}

/// What is judged before the list stays with a bad one; what is judged behind it, 17 too, comes with a good one alone.
fn assert_order(operation: Operation, point: &Point, node: u8, choice: &[u8], room: usize, number: u8, place: u8) {
    let _ = operation.hold(AROUND, node, point.inputs(&NO_BOUNDS, choice), room, &refused(number, place));
    let expected = if number <= 7 { refused(number, place) } else { BAD_LIST };
    for list in bad_lists() {
        let _ = operation.hold(AROUND, node, point.inputs(&list, choice), room, &expected);
    }
}

#[test]
fn after_7_and_before_8() {
    let small = Point::small();
    let changed = |place: usize, byte: u8| {
        let mut point = small.clone();
        point.table[place] = byte;
        point
    };
    let mut shut = small.guards.clone();
    shut[0] = 0;
    for (point, number, place) in [
        (changed(2, 2), 1, 0),
        (changed(24, 17), 2, 4),
        (changed(40, 2), 3, 1),
        (changed(13, 9), 4, 2),
        (Point { marking: small.marking[..16].to_vec(), ..small.clone() }, 5, 0),
        (Point { marking: vec![0, 7, 1, 1, 0, 0, 0, 0, 0], ..small.clone() }, 6, 0),
        (Point { guards: shut, ..small.clone() }, 7, 0),
        (Point { guards: vec![1; 4], ..small.clone() }, 7, 0),
        (rivals(21), 8, 0),
        (offers(5, MERGE), 8, 0),
    ] {
        for operation in [Operation::Sheet, Operation::Pick, Operation::Why, Operation::Step] {
            for room in [0, ROOM] {
                assert_order(operation, &point, 255, &[9, 9], room, number, place);
            }
        }
    }
}

#[test]
fn before_9_to_13_and_17() {
    let small = Point::small();
    let full = Point { marking: vec![0, 23, 1, 0, 2, 0, 0, 0, 7, 0, 0, 0, 9, 0, 0, 2, 0, 0, 0, 1, 0, 0, 0, 2, 1], ..small.clone() };
    let mut forked = small.clone();
    forked.table[13] = FORK;
    for (choice, number, place) in [(&[1, 0][..], 9, 0), (&[2], 9, 0), (&[0, 1], 10, 0)] {
        assert_order(Operation::Step, &small, 0, choice, ROOM, number, place);
    }
    assert_order(Operation::Step, &forked, 0, &[0], ROOM, 11, 2);
    assert_order(Operation::Step, &full, 0, &[1], ROOM, 12, 6);
    assert_order(Operation::Pick, &small, 2, &[], ROOM, 13, 2);
    assert_order(Operation::Pick, &small, 254, &[], ROOM, 13, 254);
    assert_order(Operation::Sheet, &small, 0, &[], 27, 17, 0);
    assert_order(Operation::Pick, &small, NO_NODE, &[], 0, 17, 0);
    assert_order(Operation::Why, &small, 5, &[], 0, 17, 0);
    assert_order(Operation::Why, &small, NO_NODE, &[], 0, 17, 0);
    assert_order(Operation::Step, &small, 0, &[], 16, 17, 0);
}

// ---- what bars nothing changes nothing

/// The list of all object edges of a table, with all values.
fn all_values(table: &[u8]) -> Vec<u8> {
    let edges = Parts::of(table).unwrap_or_default().edges;
    let entries: Vec<_> = edges.iter().zip(0..).filter(|(edge, _)| edge[0] == OBJECT).map(|(_, number)| (number, 0..=u32::MAX)).collect();
    bounds_list(&entries)
}

/// Of the outside calls, those with the list of no edge: terms of guards alone give the same, and so does a list of all edges with all values.
#[test]
fn outside_calls_without_bounds() {
    let mut made = 0;
    for (Call { operation, room, node, slices: [table, marking, guards, bounds, choice] }, answer) in all() {
        let is_bounded = matches!(operation, Operation::Sheet | Operation::Pick | Operation::Why | Operation::Step);
        if let (Some(expected), true, true) = (&answer, is_bounded, bounds == NO_BOUNDS) {
            let terms = Terms::new(&guards);
            let mut out = vec![0; room];
            let alone = match operation {
                Operation::Sheet => keshmirun::sheet(&table, &marking, terms, &mut out),
                Operation::Pick => keshmirun::pick(&table, &marking, terms, node, &mut out),
                Operation::Why => whys::into(&table, &marking, &guards, &NO_BOUNDS, node, &mut out),
                _ => keshmirun::step(&table, &marking, terms, &choice, &mut out),
            };
            let alone = alone.map_or_else(|Refusal { number, place }| refused(number, place), |length| Answer::Good(out[..length].to_vec()));
            assert_eq!(alone, *expected);
            let _ = operation.hold(made as u8, node, [&table, &marking, &guards, &all_values(&table), &choice], room, expected);
            made += 1;
        }
    }
    assert!(made >= 2_400, "{made}");
}

/// The three answers of the engine in room to spare.
fn three(table: &[u8], marking: &[u8], terms: Terms, node: u8, choice: &[u8]) -> [Answer; 3] {
    [
        answered(|out| keshmirun::sheet(table, marking, terms, out)),
        answered(|out| keshmirun::pick(table, marking, terms, node, out)),
        answered(|out| keshmirun::step(table, marking, terms, choice, out)),
    ]
}

/// At random points: a list of all edges with all values is as none, and an edge whose bounds no value meets is as one that is shut.
#[test]
fn all_values_and_none() {
    let (mut rng, mut walk) = (Rng::new(62), Walk::default());
    let mut changed = 0;
    for number in 0..4_000 {
        let Event { table, marking, .. } = if number % 4 == 0 { limits::event(&mut rng) } else { walk.next(&mut rng) };
        let mut parts = Parts::of(&table).unwrap();
        parts.edges.iter_mut().for_each(|edge| edge[3] = 1);
        let table = parts.write();
        let guards: Vec<u8> = parts.edges.iter().map(|_| u8::from(rng.percent(90))).collect();
        let (node, ends) = (rng.below(parts.nodes.len()) as u8, rng.below(8));
        let choice = choice(&mut rng, ends);
        let without = three(&table, &marking, Terms::new(&guards), node, &choice);
        let whole = all_values(&table);
        assert_eq!(three(&table, &marking, Terms::new(&guards).with_bounds(&whole), node, &choice), without, "{table:02x?}, {marking:02x?}");
        let barred: Vec<u8> = (0..parts.edges.len() as u8).filter(|edge| parts.edges[usize::from(*edge)][0] == OBJECT && rng.percent(30)).collect();
        let shut: Vec<u8> = (0..).zip(&guards).map(|(edge, byte)| if barred.contains(&edge) { 0 } else { *byte }).collect();
        // a number that no marking here holds
        let bounds = only(0x5eed_0f07, &barred);
        let answers = three(&table, &marking, Terms::new(&guards).with_bounds(&bounds), node, &choice);
        assert_eq!(answers, three(&table, &marking, Terms::new(&shut), node, &choice), "{table:02x?}, {marking:02x?}, {bounds:02x?}");
        changed += usize::from(answers != without);
    }
    assert!(changed >= 1_000, "{changed}");
}
