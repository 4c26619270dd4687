//! Wish 5, "Group the sheet by destination": the order of ends, what follows the new
//! numbers and what stays, on small tables made by hand and on random events. "Before"
//! is here always the paper's own order, and "now" that of the wish.

mod common;

use common::{
    big_endian, ends_of, framed, number, refused, reply, End, Ends, Point, ACTION, ACTIVITY_FINAL,
    BUFFER, CONTROL, DECISION, FLOW_FINAL, FORK, INCOMING, INITIAL, INPUT_PIN, JOIN, MERGE, OBJECT,
    OUTGOING, ROOM,
};
use reading::random::{Event, Parts, Rng};
use reading::{sheet, sheet_within, why, Answer, Board, NO_BOUNDS, NO_NODE};

/// The paths of this end, as its record has them.
fn paths(end: &End) -> Vec<Vec<u8>> {
    let mut paths = Vec::new();
    let mut rest = &end.record[7..];
    while let Some((length, bytes)) = rest.split_first() {
        let (path, after) = bytes.split_at(usize::from(*length));
        paths.push(path.to_vec());
        rest = after;
    }
    paths
}

/// What the paper orders ends by: "by last edge number; then by their paths".
fn key_before(end: &End) -> (u8, Vec<Vec<u8>>) {
    (end.record[0], paths(end))
}

/// The target of this end's last edge.
fn target(parts: &Parts, end: &End) -> u8 {
    parts.edges[usize::from(end.record[0])][2]
}

/// The numbers of the same ends before and now.
struct Numbers {
    /// The ends in the order of before, by their numbers now.
    now: Vec<u8>,
}

impl Numbers {
    /// The numbers of the ends of a sheet.
    fn of(ends: &[End]) -> Numbers {
        let mut now: Vec<u8> = (0..ends.len() as u8).collect();
        now.sort_by_key(|end| key_before(&ends[usize::from(*end)]));
        Numbers { now }
    }

    /// Whether the order of before is another one.
    fn differ(&self) -> bool {
        self.now.windows(2).any(|pair| pair[0] > pair[1])
    }

    /// The number before of the end with this number now.
    fn before(&self, now: u8) -> u8 {
        self.now.iter().position(|end| *end == now).unwrap() as u8
    }

    /// The choice of the ends that had these numbers before, by their numbers now.
    fn choice_now(&self, before: &[u8]) -> Vec<u8> {
        let now_of = |end: &u8| self.now[usize::from(*end)];
        let mut choice: Vec<u8> = before.iter().map(now_of).collect();
        choice.sort_unstable();
        choice
    }

    /// The same the other way round.
    fn choice_before(&self, now: &[u8]) -> Vec<u8> {
        let mut choice: Vec<u8> = now.iter().map(|end| self.before(*end)).collect();
        choice.sort_unstable();
        choice
    }
}

impl Point {
    /// The ends of its sheet.
    fn sheet(&self) -> Vec<End> {
        let (table, marking) = (&self.table, &self.marking);
        let answer = sheet(table, marking, &self.guards, &NO_BOUNDS, ROOM);
        ends_of(&reply(answer))
    }

    /// The ends, each with its target before it: "4: 7 0,4 1,2,4".
    fn by_node(&self) -> Vec<String> {
        let parts = Parts::of(&self.table).unwrap();
        let targets = self.sheet().into_iter().map(|end| target(&parts, &end));
        let ends = targets.zip(self.ends());
        ends.map(|(target, end)| format!("{target}: {end}"))
            .collect()
    }

    /// The ends in the order of before, by their numbers now.
    fn numbers_now(&self) -> Vec<u8> {
        Numbers::of(&self.sheet()).now
    }

    /// The reasons for all its nodes, in order.
    fn reasons(&self) -> Vec<u8> {
        let (table, marking) = (&self.table, &self.marking);
        let answer = |node: u8| why(table, marking, &self.guards, &NO_BOUNDS, node, ROOM);
        (0..table[3]).map(|node| reply(answer(node))[0]).collect()
    }
}

/// The live marking of a table without actions and initial nodes. For each stock its
/// values, of one digit each, or - if it is empty: "6 - 78".
fn holding(stocks: &str) -> Vec<u8> {
    let value = |digit: char| digit.to_digit(10).map(|value| format!("{value:08X}"));
    let stock = |digits: &str| {
        let values: Vec<String> = digits.chars().filter_map(value).collect();
        format!("{:02X}{}", values.len(), values.concat())
    };
    let stocks: Vec<String> = stocks.split(' ').map(stock).collect();
    framed(&format!("01 00 {}", stocks.concat()))
}

/// Four results, in parameters 0 to 3. Their edges, 0 to 3, lead by turns to an outgoing
/// parameter, 5, and to a buffer, 4.
fn results_by_turns() -> Point {
    let mut parts = Parts::default();
    for _ in 0..4 {
        parts.add_node(INCOMING, 1);
    }
    parts.add_node(BUFFER, 2);
    parts.add_node(OUTGOING, 2);
    parts.add_edge(OBJECT, 0, 5, 0);
    parts.add_edge(OBJECT, 1, 4, 0);
    parts.add_edge(OBJECT, 2, 5, 0);
    parts.add_edge(OBJECT, 3, 4, 0);
    Point::started(&parts, &[6, 7, 8, 9])
}

#[test]
fn edges_to_one_node_stand_together() {
    let point = results_by_turns();
    assert_eq!(point.by_node(), ["4: 7 1", "4: 9 3", "5: 6 0", "5: 8 2"]);
    assert_eq!(point.numbers_now(), [2, 0, 3, 1]);
    assert_eq!(point.pick(NO_NODE), Answer::Good(vec![0, 1, 2, 3]));
    // In either order 7 comes before 9, and 6 before 8.
    let all = holding("- - - - 79 68");
    assert_eq!(reply(point.step(&[0, 1, 2, 3])), all);
}

#[test]
fn the_same_ends_have_new_numbers_and_move_the_same() {
    let point = results_by_turns();
    let numbers = Numbers::of(&point.sheet());
    for (before, now, stocks) in [
        (&[][..], &[][..], "6 7 8 9 - -"),
        (&[0], &[2], "- 7 8 9 - 6"),
        (&[1], &[0], "6 - 8 9 7 -"),
        (&[2], &[3], "6 7 - 9 - 8"),
        (&[3], &[1], "6 7 8 - 9 -"),
        (&[0, 1], &[0, 2], "- - 8 9 7 6"),
        (&[0, 2], &[2, 3], "- 7 - 9 - 68"),
        (&[1, 3], &[0, 1], "6 - 8 - 79 -"),
        (&[0, 1, 3], &[0, 1, 2], "- - 8 - 79 6"),
        (&[1, 2, 3], &[0, 1, 3], "6 - - - 79 8"),
    ] {
        assert_eq!(numbers.choice_now(before), now);
        assert_eq!(numbers.choice_before(now), before);
        assert_eq!(reply(point.step(now)), holding(stocks), "{before:?}");
    }
    // It is the new numbers that rise in a choice.
    assert_eq!(point.step(&[2, 0]), refused(9, 0));
    assert_eq!(point.step(&[0, 4]), refused(9, 0));
}

#[test]
fn two_ends_on_one_edge_stay_in_the_order_of_their_paths() {
    // Edges 1 and 2 bring two results to a merge, 6, and edge 3 both to the outgoing
    // parameter, 4, as edge 4 brings a third. Edge 0 leads to the buffer, 5.
    let mut parts = Parts::default();
    for _ in 0..4 {
        parts.add_node(INCOMING, 1);
    }
    parts.add_node(OUTGOING, 4);
    parts.add_node(BUFFER, 4);
    parts.add_node(MERGE, 0);
    parts.add_edge(OBJECT, 3, 5, 0);
    parts.add_edge(OBJECT, 2, 6, 0);
    parts.add_edge(OBJECT, 0, 6, 0);
    parts.add_edge(OBJECT, 6, 4, 0);
    parts.add_edge(OBJECT, 1, 4, 0);
    let point = Point::at(&parts, holding("6 7 8 9 1 -"));
    let ends = ["4: 8 1,3", "4: 6 2,3", "4: 7 4", "5: 9 0"];
    assert_eq!(point.by_node(), ends);
    assert_eq!(point.numbers_now(), [3, 0, 1, 2]);
    let all = holding("- - - - 1867 9");
    assert_eq!(reply(point.step(&[0, 1, 2, 3])), all);
    assert_eq!(point.pick(NO_NODE), Answer::Good(vec![0, 1, 2, 3]));
}

#[test]
fn paths_are_compared_path_by_path_where_edges_are_the_same() {
    // Edges 2 and 3 bring two tokens to a merge, 2; its edge, 4, and edge 1 of the result
    // to a join, 3, and edge 5 from there to a buffer, 4. Edge 0 leads to a final, 5.
    let mut parts = Parts::default();
    parts.add_node(INCOMING, 1);
    parts.add_node(INITIAL, 0);
    parts.add_node(MERGE, 0);
    parts.add_node(JOIN, 0);
    parts.add_node(BUFFER, 2);
    parts.add_node(FLOW_FINAL, 0);
    parts.add_edge(CONTROL, 1, 5, 0);
    parts.add_edge(OBJECT, 0, 3, 0);
    parts.add_edge(CONTROL, 1, 2, 0);
    parts.add_edge(CONTROL, 1, 2, 0);
    parts.add_edge(CONTROL, 2, 3, 0);
    parts.add_edge(OBJECT, 3, 4, 0);
    let point = Point::started(&parts, &[7]);
    let ends = ["4: 7 1,5 2,4,5", "4: 7 1,5 3,4,5", "5: - 0"];
    assert_eq!(point.by_node(), ends);
    assert_eq!(point.numbers_now(), [2, 0, 1]);
    assert_eq!(point.step(&[0, 1, 2]), refused(10, 0)); // before, at 1
    assert_eq!(point.pick(NO_NODE), Answer::Good(vec![0, 2]));
}

/// Two matches, actions 2 and 4, each with two pins: 1 and 5 are those of action 2, 0 and
/// 3 those of action 4. Parameter 9 has an edge to pin 0 and one to pin 1, so only one of
/// the matches can begin. The higher the target, the lower the edge.
fn two_matches() -> Parts {
    let mut parts = Parts::default();
    parts.add_pin(INPUT_PIN, 4, 1, 1);
    parts.add_pin(INPUT_PIN, 2, 1, 1);
    parts.add_node(ACTION, 0);
    parts.add_pin(INPUT_PIN, 4, 1, 1);
    parts.add_node(ACTION, 0);
    parts.add_pin(INPUT_PIN, 2, 1, 1);
    parts.add_node(INITIAL, 0);
    parts.add_node(INCOMING, 1);
    parts.add_node(INCOMING, 1);
    parts.add_node(INCOMING, 1);
    parts.add_edge(OBJECT, 7, 5, 0);
    parts.add_edge(CONTROL, 6, 4, 0);
    parts.add_edge(OBJECT, 8, 3, 0);
    parts.add_edge(CONTROL, 6, 2, 0);
    parts.add_edge(OBJECT, 9, 1, 0);
    parts.add_edge(OBJECT, 9, 0, 0);
    parts
}

#[test]
fn the_target_of_an_end_at_a_pin_is_the_pin() {
    // Not its action, whether that has a higher number or a lower one.
    let point = Point::started(&two_matches(), &[5, 6, 7]);
    let ends = ["0: 7 5", "1: 7 4", "2: - 3", "3: 6 2", "4: - 1", "5: 5 0"];
    assert_eq!(point.by_node(), ends);
    assert_eq!(point.numbers_now(), [5, 4, 3, 2, 1, 0]);
}

#[test]
fn pick_takes_the_match_with_the_lowest_pin() {
    // Before, end 0 was that of pin 5, and pick took ends 0, 3 and 4 of action 2. Now end
    // 0 is that of pin 0, and the same numbers are those of action 4.
    let point = Point::started(&two_matches(), &[5, 6, 7]);
    for node in [NO_NODE, 0, 3, 4] {
        assert_eq!(point.pick(node), Answer::Good(vec![0, 3, 4]));
    }
    for node in [1, 2, 5] {
        assert_eq!(point.pick(node), Answer::Good(vec![1, 2, 5]));
    }
    let action_4 = "01 00 01 00000007 00 00 01 00000006 01 00 01 00000005 00 00 00 01";
    assert_eq!(reply(point.step(&[0, 3, 4])), framed(action_4));
    let action_2 = "01 00 00 01 00000007 01 00 00 01 00000005 00 01 00000006 00 01 00";
    assert_eq!(reply(point.step(&[1, 2, 5])), framed(action_2));
}

#[test]
fn places_of_12_are_nodes_and_stay() {
    let point = Point::started(&two_matches(), &[5, 6, 7]);
    assert_eq!(point.step(&[0]), refused(12, 4));
    assert_eq!(point.step(&[1]), refused(12, 2));
    assert_eq!(point.step(&[2, 4]), refused(12, 2));
    assert_eq!(point.step(&[0, 5]), refused(12, 2)); // end 0 is of the higher action
    assert_eq!(point.step(&[0, 1, 2, 3, 4, 5]), refused(10, 0));
}

#[test]
fn pick_for_an_action_fills_its_lowest_pin() {
    // One result for either pin, 1 or 3, of action 2. Each may go without.
    let mut parts = Parts::default();
    parts.add_node(INITIAL, 0);
    parts.add_pin(INPUT_PIN, 2, 0, 1);
    parts.add_node(ACTION, 0);
    parts.add_pin(INPUT_PIN, 2, 0, 1);
    parts.add_node(INCOMING, 1);
    parts.add_edge(OBJECT, 4, 3, 0);
    parts.add_edge(OBJECT, 4, 1, 0);
    parts.add_edge(CONTROL, 0, 2, 0);
    let point = Point::started(&parts, &[7]);
    assert_eq!(point.by_node(), ["1: 7 1", "2: - 2", "3: 7 0"]);
    assert_eq!(point.numbers_now(), [2, 0, 1]);
    // Before, pick took ends 0 and 2, those of pin 3 and of the action.
    assert_eq!(point.pick(2), Answer::Good(vec![0, 1]));
    assert_eq!(point.pick(NO_NODE), Answer::Good(vec![0, 1]));
    assert_eq!(point.pick(1), Answer::Good(vec![0, 1]));
    assert_eq!(point.pick(3), Answer::Good(vec![1, 2]));
    let pin_1 = framed("01 00 01 00000007 01 00 00 00");
    assert_eq!(reply(point.step(&[0, 1])), pin_1);
    let pin_3 = framed("01 00 00 01 01 00000007 00 00");
    assert_eq!(reply(point.step(&[1, 2])), pin_3);
    assert_eq!(point.step(&[0, 1, 2]), refused(10, 0));
    assert_eq!(point.step(&[0, 2]), refused(10, 0));
}

/// Two players, in parameters 0 and 1, and two tables with one seat left each, buffers 2
/// and 3. Edges 0 and 1 lead the two to table 3, edges 2 and 3 to table 2.
fn two_players() -> Point {
    let mut parts = Parts::default();
    parts.add_node(INCOMING, 1);
    parts.add_node(INCOMING, 1);
    parts.add_node(BUFFER, 1);
    parts.add_node(BUFFER, 1);
    parts.add_edge(OBJECT, 0, 3, 0);
    parts.add_edge(OBJECT, 1, 3, 0);
    parts.add_edge(OBJECT, 0, 2, 0);
    parts.add_edge(OBJECT, 1, 2, 0);
    Point::started(&parts, &[7, 9])
}

#[test]
fn the_choice_comes_first_that_fills_the_lowest_table() {
    let point = two_players();
    assert_eq!(point.by_node(), ["2: 7 2", "2: 9 3", "3: 7 0", "3: 9 1"]);
    assert_eq!(point.numbers_now(), [2, 3, 0, 1]);
    // Before, pick took ends 0 and 3 too, which were 7 at table 3 and 9 at table 2.
    for node in [NO_NODE, 2, 3] {
        assert_eq!(point.pick(node), Answer::Good(vec![0, 3]));
    }
    assert_eq!(reply(point.step(&[0, 3])), holding("- - 7 9"));
    assert_eq!(reply(point.step(&[1, 2])), holding("- - 9 7"));
    assert_eq!(point.step(&[0, 1]), refused(12, 2));
    assert_eq!(point.step(&[2, 3]), refused(12, 3));
}

#[test]
fn ends_of_all_kinds_of_nodes_go_by_their_numbers() {
    // An activity final, 0, outgoing parameter 1, action 2 with pin 5, flow final 3 and
    // buffer 4. An initial node, 6, and parameters 7 to 10 lead there.
    let mut parts = Parts::default();
    parts.add_node(ACTIVITY_FINAL, 0);
    parts.add_node(OUTGOING, 1);
    parts.add_node(ACTION, 0);
    parts.add_node(FLOW_FINAL, 0);
    parts.add_node(BUFFER, 1);
    parts.add_pin(INPUT_PIN, 2, 0, 1);
    parts.add_node(INITIAL, 0);
    for _ in 7..=10 {
        parts.add_node(INCOMING, 1);
    }
    parts.add_edge(OBJECT, 9, 5, 0);
    parts.add_edge(OBJECT, 8, 4, 0);
    parts.add_edge(CONTROL, 6, 3, 0);
    parts.add_edge(CONTROL, 6, 2, 0);
    parts.add_edge(OBJECT, 7, 1, 0);
    parts.add_edge(CONTROL, 6, 0, 0);
    parts.add_edge(OBJECT, 10, 0, 0);
    let point = Point::started(&parts, &[6, 7, 8, 9]);
    let ends = [
        "0: - 5", "0: 9 6", "1: 6 4", "2: - 3", "3: - 2", "4: 7 1", "5: 8 0",
    ];
    assert_eq!(point.by_node(), ends);
    assert_eq!(point.numbers_now(), [6, 5, 4, 3, 2, 0, 1]);
    let all = point.pick(NO_NODE);
    assert_eq!(all, Answer::Good(vec![0, 1, 2, 3, 4, 5, 6]));
    // All but the ends at the activity final: the final 3 drops its token.
    let live = "01 00 01 00000006 01 01 00000007 01 00000008 00 00 00 01 00000009 00 00 01";
    assert_eq!(reply(point.step(&[2, 3, 4, 5, 6])), framed(live));
    // The end at the activity final comes first, and "the marking is ended after that":
    // 6 arrives all the same.
    let ended = framed("01 01 01 00000006 00 00 00 00 00 00 00 00 00 00");
    assert_eq!(reply(point.step(&[0, 2])), ended);
    assert_eq!(reply(point.step(&[0, 1, 2, 3, 4, 5, 6])), ended);
}

#[test]
fn control_edges_to_one_action_stand_together() {
    // Edges 0 and 2 lead to action 2, edges 1 and 3 to action 1.
    let mut parts = Parts::default();
    parts.add_node(INITIAL, 0);
    parts.add_node(ACTION, 0);
    parts.add_node(ACTION, 0);
    for target in [2, 1, 2, 1] {
        parts.add_edge(CONTROL, 0, target, 0);
    }
    let point = Point::started(&parts, &[]);
    assert_eq!(point.by_node(), ["1: - 1", "1: - 3", "2: - 0", "2: - 2"]);
    assert_eq!(point.numbers_now(), [2, 0, 3, 1]);
    // Actions 1 and 2, then their edges: 1 and 3 are spent, or 0 and 2.
    let action_1 = framed("01 00 01 00 01 00 01 00");
    assert_eq!(reply(point.step(&[0, 1])), action_1);
    let action_2 = framed("01 00 00 01 00 01 00 01");
    assert_eq!(reply(point.step(&[2, 3])), action_2);
    assert_eq!(point.step(&[0, 2]), refused(12, 1));
    assert_eq!(point.step(&[0, 1, 3]), refused(12, 2));
}

#[test]
fn place_10_is_the_lowest_end_now() {
    // Parameter 0 has edges 0 and 2, parameter 1 has edges 1 and 3. Edges 0 and 3 lead to
    // the outgoing parameter, 4, edge 1 to buffer 2 and edge 2 to buffer 3.
    let mut parts = Parts::default();
    parts.add_node(INCOMING, 1);
    parts.add_node(INCOMING, 1);
    parts.add_node(BUFFER, 2);
    parts.add_node(BUFFER, 2);
    parts.add_node(OUTGOING, 2);
    parts.add_edge(OBJECT, 0, 4, 0);
    parts.add_edge(OBJECT, 1, 2, 0);
    parts.add_edge(OBJECT, 0, 3, 0);
    parts.add_edge(OBJECT, 1, 4, 0);
    let point = Point::started(&parts, &[7, 9]);
    assert_eq!(point.by_node(), ["2: 9 1", "3: 7 2", "4: 7 0", "4: 9 3"]);
    assert_eq!(point.numbers_now(), [2, 0, 1, 3]);
    // So 1 competes with 2, and 0 with 3. Before, it was 0 with 2, and 1 with 3.
    assert_eq!(point.step(&[1, 2]), refused(10, 1)); // before, at 0, the other end
    assert_eq!(point.step(&[0, 3]), refused(10, 0)); // before, at 1, the same end
    assert_eq!(point.step(&[0, 1, 2]), refused(10, 1)); // before, at 0
    assert_eq!(point.step(&[1, 2, 3]), refused(10, 1)); // before, at 0
    assert_eq!(point.step(&[0, 1, 3]), refused(10, 0)); // before, at 1
    assert_eq!(point.step(&[0, 1, 2, 3]), refused(10, 0)); // before, at 0, another end
    for free in [&[0, 1][..], &[0, 2], &[1, 3], &[2, 3]] {
        assert_eq!(number(&point.step(free)), 0);
    }
    assert_eq!(point.pick(NO_NODE), Answer::Good(vec![0, 1])); // before, those at 4 and 2
    assert_eq!(point.pick(4), Answer::Good(vec![0, 2]));
}

/// A fork, 1, of a result to buffers 2 and 3, of upper 1. The edge to 2 is 2 and that to
/// 3 is 1, or the other way round.
fn forked_result(edge_to_2: usize, stocks: &str) -> Point {
    let mut parts = Parts::default();
    parts.add_node(INCOMING, 1);
    parts.add_node(FORK, 0);
    parts.add_node(BUFFER, 1);
    parts.add_node(BUFFER, 1);
    parts.add_edge(OBJECT, 0, 1, 0);
    parts.add_edge(OBJECT, 1, 3, 0);
    parts.add_edge(OBJECT, 1, 3, 0);
    parts.edges[edge_to_2][2] = 2;
    Point::at(&parts, holding(stocks))
}

#[test]
fn places_of_11_and_12_and_reasons_are_the_same_whichever_edge_is_lower() {
    for edge_to_2 in [1, 2] {
        let ends = match edge_to_2 {
            1 => ["2: 7 0,1", "3: 7 0,2"],
            _ => ["2: 7 0,2", "3: 7 0,1"],
        };
        for (stocks, reasons, both) in [
            ("7 - -", [1, 1, 0, 0], Answer::Good(holding("- 7 7"))),
            ("7 5 -", [1, 1, 2, 5], refused(12, 2)),
            ("7 - 5", [1, 1, 5, 2], refused(12, 3)),
            ("7 5 5", [1, 1, 2, 2], refused(12, 2)),
        ] {
            let point = forked_result(edge_to_2, stocks);
            assert_eq!(point.by_node(), ends);
            assert_eq!(point.reasons(), reasons);
            assert_eq!(point.step(&[0]), refused(11, 1));
            assert_eq!(point.step(&[1]), refused(11, 1));
            assert_eq!(point.step(&[0, 1]), both);
        }
    }
}

#[test]
fn reasons_go_by_nodes_and_stay() {
    // Either match can begin: pins, actions and no others.
    let parts = two_matches();
    let point = Point::started(&parts, &[5, 6, 7]);
    assert_eq!(point.reasons(), [0, 0, 0, 0, 0, 0, 1, 1, 1, 1]);
    // Without a result in parameter 8, pin 3 has no end, and match 4 can't begin.
    let without_8 = "01 00 00 00 00 00 00 00 01 00000005 00 01 00000007 01 01";
    let point = Point::at(&parts, framed(without_8));
    let ends = ["0: 7 5", "1: 7 4", "2: - 3", "4: - 1", "5: 5 0"];
    assert_eq!(point.by_node(), ends);
    assert_eq!(point.reasons(), [2, 0, 0, 1, 2, 0, 1, 1, 1, 1]);
    assert_eq!(point.pick(NO_NODE), Answer::Good(vec![1, 2, 4]));
    assert_eq!(point.pick(4), refused(13, 4));
    // If both edges of parameter 9 lead to pin 1, and it needs both ends, they compete.
    let mut parts = two_matches();
    parts.nodes[1] = [INPUT_PIN, 2, 2, 2];
    parts.edges[5][2] = 1;
    let point = Point::started(&parts, &[5, 6, 7]);
    assert_eq!(point.by_node()[..2], ["1: 7 4", "1: 7 5"]);
    assert_eq!(point.reasons(), [1, 3, 3, 2, 2, 3, 1, 1, 1, 1]);
    assert_eq!(point.pick(NO_NODE), Answer::Good(vec![]));
    // Both tables can be filled.
    assert_eq!(two_players().reasons(), [1, 1, 0, 0]);
}

#[test]
fn twenty_ends_in_the_opposite_order() {
    // An initial node, and an edge to each of so many finals before it, the last first.
    let finals = |number: u8| {
        let mut parts = Parts::default();
        for _ in 0..number {
            parts.add_node(FLOW_FINAL, 0);
        }
        parts.add_node(INITIAL, 0);
        for target in (0..number).rev() {
            parts.add_edge(CONTROL, number, target, 0);
        }
        Point::started(&parts, &[])
    };
    let point = finals(20);
    let ends: Vec<String> = (0..20).map(|n| format!("{n}: - {}", 19 - n)).collect();
    assert_eq!(point.by_node(), ends);
    assert_eq!(point.pick(NO_NODE), Answer::Good((0..20).collect()));
    // The ends at finals 0 and 10 are on the edges 19 and 9.
    let counts: Vec<&str> = (0..20)
        .map(|edge| if [9, 19].contains(&edge) { "00" } else { "01" })
        .collect();
    let after = framed(&format!("01 00 {}", counts.concat()));
    assert_eq!(reply(point.step(&[0, 10])), after);
    assert_eq!(finals(21).pick(NO_NODE), refused(8, 0));
}

/// Enumeration steps per call, so that no point takes long.
const BUDGET: u64 = 8_192;

/// What sheet, pick, why and step are given at a point of a random event.
struct Given {
    parts: Parts,
    marking: Vec<u8>,
    guards: Vec<u8>,
    bounds: Vec<u8>,
}

impl Given {
    fn of(event: &Event) -> Given {
        Given {
            parts: Parts::of(&event.table).unwrap(),
            marking: event.marking.clone(),
            guards: event.guards.clone(),
            bounds: event.bounds.clone(),
        }
    }

    /// The board, unless sheet refuses it or it takes too long.
    fn board(&self) -> Option<Board> {
        let table = self.parts.write();
        Board::within(&table, &self.marking, &self.guards, &self.bounds, BUDGET)?.ok()
    }

    /// The ends of its sheet, which is not refused.
    fn ends(&self) -> Vec<End> {
        let table = self.parts.write();
        let (marking, guards) = (&self.marking, &self.guards);
        let sheet = sheet_within(&table, marking, guards, &self.bounds, ROOM, BUDGET);
        ends_of(&reply(sheet.unwrap()))
    }

    /// The nodes that this end belongs to.
    fn nodes_of(&self, end: &End) -> Vec<u8> {
        let target = target(&self.parts, end);
        match self.parts.nodes[usize::from(target)] {
            [INPUT_PIN, action, ..] => vec![target, action],
            _ => vec![target],
        }
    }

    /// The nodes that these ends belong to.
    fn nodes_of_all(&self, ends: &[End]) -> Vec<u8> {
        let mut nodes: Vec<u8> = ends.iter().flat_map(|end| self.nodes_of(end)).collect();
        nodes.sort_unstable();
        nodes.dedup();
        nodes
    }

    /// Its edges in the order of their targets, those to control nodes before all
    /// others. Else they stay as they are.
    fn edges_by_target(&self) -> Vec<u8> {
        let mut edges: Vec<u8> = (0..self.parts.edges.len() as u8).collect();
        edges.sort_by_key(|edge| {
            let target = self.parts.edges[usize::from(*edge)][2];
            match self.is_control_node(target) {
                true => (0, 0),
                false => (1, target),
            }
        });
        edges
    }

    fn is_control_node(&self, node: u8) -> bool {
        let kind = self.parts.nodes[usize::from(node)][0];
        (DECISION..=JOIN).contains(&kind)
    }

    /// The same under guards that are all 1 and no bounds.
    fn all_open(&self) -> Given {
        Given {
            parts: self.parts.clone(),
            marking: self.marking.clone(),
            guards: vec![1; self.parts.edges.len()],
            bounds: NO_BOUNDS.to_vec(),
        }
    }

    /// The same diagram at the same point, with its edges in this order.
    fn with_edges(&self, order: &[u8]) -> Given {
        let edge = |number: &u8| self.parts.edges[usize::from(*number)];
        let entry = |entry: &[u8]| [&[name(order, entry[0])], &entry[1..]].concat();
        let mut entries: Vec<Vec<u8>> = self.bounds[4..].chunks(9).map(entry).collect();
        entries.sort();
        Given {
            parts: Parts {
                nodes: self.parts.nodes.clone(),
                edges: order.iter().map(edge).collect(),
            },
            marking: self.marking_with(order, &self.marking),
            guards: order
                .iter()
                .map(|number| self.guards[usize::from(*number)])
                .collect(),
            bounds: [&self.bounds[..4], &entries.concat()].concat(),
        }
    }

    /// The edges that have counts in a marking, in order.
    fn counted_edges(&self) -> Vec<u8> {
        let is_counted = |edge: &u8| {
            let [kind, source, ..] = self.parts.edges[usize::from(*edge)];
            let source_kind = self.parts.nodes[usize::from(source)][0];
            kind == CONTROL && [INITIAL, ACTION].contains(&source_kind)
        };
        (0..self.parts.edges.len() as u8)
            .filter(is_counted)
            .collect()
    }

    /// This marking for the table with its edges in this order: its counts are moved.
    fn marking_with(&self, order: &[u8], marking: &[u8]) -> Vec<u8> {
        let counted = self.counted_edges();
        let (nodes, counts) = marking.split_at(marking.len() - counted.len());
        let in_order = order.iter().filter(|edge| counted.contains(edge));
        let count_of = |edge: &u8| counts[usize::from(name(&counted, *edge))];
        let moved: Vec<u8> = in_order.map(count_of).collect();
        [nodes, &moved].concat()
    }
}

/// The place of this edge in this order.
fn name(order: &[u8], edge: u8) -> u8 {
    order.iter().position(|other| *other == edge).unwrap() as u8
}

/// The record of this end, with its edges named by their places in this order.
fn renamed(end: &End, order: &[u8]) -> Vec<u8> {
    let mut record = end.record[..7].to_vec();
    record[0] = name(order, record[0]);
    for path in paths(end) {
        record.push(path.len() as u8);
        record.extend(path.iter().map(|edge| name(order, *edge)));
    }
    record
}

/// The boards of so many random events, at their start or at any marking, that have two
/// ends or more, and so many at most. On at least this many of them the order of before
/// must be another one.
fn for_each_board(
    seed: u64,
    events: usize,
    most_ends: usize,
    least_differing: usize,
    mut visit: impl FnMut(&mut Rng, &Given, &Board, &[End]),
) {
    let mut rng = Rng::new(seed);
    let (mut boards, mut differing) = (0, 0);
    for number in 0..events {
        let event = match number % 3 {
            0 => Event::begin(&mut rng),
            _ => Event::anywhere(&mut rng),
        };
        let given = Given::of(&event);
        if let Some(board) = given.board() {
            if (2..=most_ends).contains(&board.ends()) {
                let ends = given.ends();
                boards += 1;
                differing += usize::from(Numbers::of(&ends).differ());
                visit(&mut rng, &given, &board, &ends);
            }
        }
    }
    println!("boards: {boards}, in another order than before: {differing}");
    assert!(differing >= least_differing);
}

#[test]
fn ends_rise_by_target_then_as_before() {
    let (mut pins_before_actions, mut pins_after, mut on_one_edge) = (0, 0, 0);
    for_each_board(31, 4_000, 20, 700, |_, given, board, ends| {
        let targets: Vec<u8> = ends.iter().map(|end| target(&given.parts, end)).collect();
        assert_eq!(board.targets(), targets);
        let key = |end: &End| (target(&given.parts, end), key_before(end));
        let keys: Vec<_> = ends.iter().map(key).collect();
        assert!(keys.windows(2).all(|pair| pair[0] < pair[1]), "{keys:?}");
        for pair in ends.windows(2) {
            on_one_edge += usize::from(pair[0].record[0] == pair[1].record[0]);
        }
        for end in ends {
            if let [pin, action] = given.nodes_of(end)[..] {
                pins_before_actions += usize::from(pin < action);
                pins_after += usize::from(action < pin);
            }
        }
    });
    println!("ends at pins: {pins_before_actions} and {pins_after}, on one edge: {on_one_edge}");
    assert!(pins_before_actions >= 500);
    assert!(pins_after >= 500);
    assert!(on_one_edge >= 500);
}

#[test]
fn ends_at_one_node_stand_in_the_order_of_before() {
    let mut together = 0;
    for_each_board(32, 4_000, 20, 700, |_, given, _, ends| {
        let numbers = Numbers::of(ends);
        for node in 0..given.parts.nodes.len() as u8 {
            let is_at = |end: &u8| target(&given.parts, &ends[usize::from(*end)]) == node;
            let now: Vec<u8> = (0..ends.len() as u8).filter(is_at).collect();
            let before: Vec<u8> = numbers.now.iter().copied().filter(is_at).collect();
            assert_eq!(now, before, "node {node}");
            // They are neighbours now.
            assert!(now.windows(2).all(|pair| pair[0] + 1 == pair[1]));
            let places: Vec<u8> = now.iter().map(|end| numbers.before(*end)).collect();
            together += usize::from(places.windows(2).any(|pair| pair[0] + 1 != pair[1]));
        }
    });
    println!("nodes whose ends were no neighbours: {together}");
    assert!(together >= 500);
}

/// Whether this edge carries a first offer, under guards that are all 1 and no bounds.
fn carries_first_offer(given: &Given, edge: u8) -> bool {
    let [_, source, ..] = given.parts.edges[usize::from(edge)];
    let counted = given.counted_edges();
    let counts = &given.marking[given.marking.len() - counted.len()..];
    let is_full = |place: usize| counts[place] > 0;
    let place = counted.iter().position(|other| *other == edge);
    let holds_value = !stocks(&given.parts, &given.marking)[usize::from(source)].is_empty();
    holds_value || place.map_or(false, is_full)
}

/// All ways from a first offer to a node that is no control node.
fn walks(given: &Given) -> Vec<Vec<u8>> {
    let edges = 0..given.parts.edges.len() as u8;
    let first_edges = edges.clone().filter(|e| carries_first_offer(given, *e));
    let mut open: Vec<Vec<u8>> = first_edges.map(|edge| vec![edge]).collect();
    let mut walks = Vec::new();
    while let Some(walk) = open.pop() {
        let [_, _, target, _] = given.parts.edges[usize::from(walk[walk.len() - 1])];
        if given.is_control_node(target) {
            let leaves_it = |edge: &u8| given.parts.edges[usize::from(*edge)][1] == target;
            let longer = |edge: u8| [&walk[..], &[edge]].concat();
            open.extend(edges.clone().filter(leaves_it).map(longer));
        } else {
            walks.push(walk);
        }
    }
    walks
}

#[test]
fn without_joins_the_ends_are_all_walks() {
    let mut compared = 0;
    for_each_board(38, 4_000, 20, 700, |_, given, _, _| {
        let is_join = |node: &[u8; 4]| node[0] == JOIN;
        let all_open = given.all_open();
        if given.parts.nodes.iter().any(is_join) || all_open.board().is_none() {
            return;
        }
        let ends = all_open.ends();
        let mut expected = walks(given);
        expected.sort_by_key(|walk| {
            let last = walk[walk.len() - 1];
            let [_, _, target, _] = given.parts.edges[usize::from(last)];
            (target, last, walk.clone())
        });
        let found: Vec<Vec<u8>> = ends.iter().flat_map(paths).collect();
        assert_eq!(found, expected);
        compared += usize::from(Numbers::of(&ends).differ());
    });
    println!("compared, in another order than before: {compared}");
    assert!(compared >= 100);
}

// A table whose edges are numbered in the order of their targets is one that the wish
// does not touch: there the order by target is the order by last edge. So what it answers
// is what it answered before. Any diagram can be numbered so. If edges that enter control
// nodes, and edges that enter one node, keep their order, all paths compare as they did:
// the edges of a path but its last enter control nodes, and two paths that have the last
// edge in common differ before it. So the ends have the same numbers in both tables.

#[test]
fn the_ends_are_those_of_before() {
    for_each_board(33, 4_000, 20, 700, |_, given, _, ends| {
        let order = given.edges_by_target();
        let ends_there = given.with_edges(&order).ends();
        assert!(!Numbers::of(&ends_there).differ());
        let records: Vec<Vec<u8>> = ends.iter().map(|end| renamed(end, &order)).collect();
        let records_there: Vec<Vec<u8>> = ends_there.into_iter().map(|end| end.record).collect();
        assert_eq!(records, records_there);
    });
}

/// Any two choices and what pick answers for two nodes, by the numbers of before.
fn some_choices(rng: &mut Rng, given: &Given, board: &Board, ends: &[End]) -> Vec<Vec<u8>> {
    let mut choices = Vec::new();
    for _ in 0..2 {
        let share = rng.between(15, 60);
        let all = 0..ends.len() as u8;
        choices.push(all.filter(|_| rng.percent(share)).collect());
    }
    let any_end = &ends[rng.below(ends.len())];
    for node in [NO_NODE, target(&given.parts, any_end)] {
        if let Some(Answer::Good(choice)) = board.pick_within(node, ROOM, BUDGET) {
            choices.push(Numbers::of(ends).choice_before(&choice));
        }
    }
    choices
}

#[test]
fn a_choice_of_the_same_ends_is_judged_as_before() {
    let mut counts = [0; 13];
    let mut other_ends = 0;
    for_each_board(34, 4_000, 12, 700, |rng, given, board, ends| {
        let numbers = Numbers::of(ends);
        let order = given.edges_by_target();
        let board_there = given.with_edges(&order).board().unwrap();
        for before in some_choices(rng, given, board, ends) {
            let now = numbers.choice_now(&before);
            let answer = board.step(&now, ROOM);
            let answer_there = match &answer {
                Answer::Good(after) => Answer::Good(given.marking_with(&order, after)),
                refusal => refusal.clone(),
            };
            assert_eq!(board_there.step(&now, ROOM), answer_there);
            counts[usize::from(number(&answer))] += 1;
            other_ends += usize::from(board.step(&before, ROOM) != answer);
        }
    });
    println!("good and refusals 1 to 12: {counts:?}");
    println!("the old numbers would be judged otherwise: {other_ends}");
    for number in [0, 10, 11, 12] {
        assert!(counts[number] >= 200, "{counts:?}");
    }
    assert!(other_ends >= 1_000);
}

/// Those ends of this choice that compete with another of it, asked pair by pair.
fn competing(board: &Board, choice: &[u8]) -> Vec<u8> {
    let mut ends = Vec::new();
    for (place, higher) in choice.iter().enumerate() {
        for lower in &choice[..place] {
            if number(&board.step(&[*lower, *higher], ROOM)) == 10 {
                ends.extend([*lower, *higher]);
            }
        }
    }
    ends
}

#[test]
fn place_10_is_the_lowest_of_the_competing_ends_now() {
    let (mut at_another_end, mut at_the_same) = (0, 0);
    for_each_board(35, 4_000, 12, 700, |rng, given, board, ends| {
        let numbers = Numbers::of(ends);
        for before in some_choices(rng, given, board, ends) {
            let now = numbers.choice_now(&before);
            let rivals = competing(board, &now);
            let answer = board.step(&now, ROOM);
            match rivals.iter().min() {
                Some(lowest) => assert_eq!(answer, refused(10, *lowest)),
                None => assert_ne!(number(&answer), 10),
            }
            if let Some(end) = rivals.iter().min_by_key(|end| numbers.before(**end)) {
                let is_same = answer == refused(10, *end);
                at_another_end += usize::from(!is_same);
                at_the_same += usize::from(is_same);
            }
        }
    });
    println!("10 at the end of before: {at_the_same}, at another: {at_another_end}");
    assert!(at_another_end >= 60);
    assert!(at_the_same >= 60);
}

#[test]
fn place_12_is_the_lowest_destination_that_does_not_agree() {
    let (mut compared, mut of_a_later_end) = (0, 0);
    for_each_board(37, 4_000, 12, 700, |rng, given, board, ends| {
        let numbers = Numbers::of(ends);
        let told = Ends::of(&given.parts, &given.marking, ends);
        for before in some_choices(rng, given, board, ends) {
            let now = numbers.choice_now(&before);
            let answer = board.step(&now, ROOM);
            if [10, 11].contains(&number(&answer)) {
                continue;
            }
            let choice: Vec<usize> = now.iter().map(|end| usize::from(*end)).collect();
            let destinations = choice.iter().map(|end| told.destination(told.target(*end)));
            let against: Vec<u8> = destinations
                .filter(|node| !told.own_rule(&choice, *node))
                .collect();
            match against.iter().min() {
                Some(lowest) => assert_eq!(answer, refused(12, *lowest)),
                None => assert_eq!(number(&answer), 0),
            }
            compared += 1;
            of_a_later_end += usize::from(against.first() != against.iter().min());
        }
    });
    println!("compared: {compared}, at the destination of a later end: {of_a_later_end}");
    assert!(compared >= 2_000);
    assert!(of_a_later_end >= 20);
}

/// Whether this node holds values.
fn is_stock(parts: &Parts, node: u8) -> bool {
    let kind = parts.nodes[usize::from(node)][0];
    (INPUT_PIN..=OUTGOING).contains(&kind)
}

/// Per node, the values that it holds in this marking.
fn stocks(parts: &Parts, marking: &[u8]) -> Vec<Vec<u32>> {
    let mut place = 4;
    let mut stocks = Vec::new();
    for node in 0..parts.nodes.len() as u8 {
        let mut stock = Vec::new();
        if is_stock(parts, node) {
            let next = place + 1 + 4 * usize::from(marking[place]);
            stock = marking[place + 1..next].chunks(4).map(big_endian).collect();
            place = next;
        } else if parts.nodes[usize::from(node)][0] == ACTION {
            place += 1;
        }
        stocks.push(stock);
    }
    stocks
}

/// Per node, the values that it holds after a step by these ends, if they arrive in the
/// order given.
fn stocks_after(given: &Given, taken: &[&End]) -> Vec<Vec<u32>> {
    let parts = &given.parts;
    let mut after = stocks(parts, &given.marking);
    for (node, stock) in after.iter_mut().enumerate() {
        let leaves_it = |path: &Vec<u8>| parts.edges[usize::from(path[0])][1] == node as u8;
        let is_spent = taken.iter().any(|end| paths(end).iter().any(leaves_it));
        if is_spent && !stock.is_empty() {
            stock.remove(0);
        }
    }
    for end in taken {
        let target = target(parts, end);
        if is_stock(parts, target) {
            after[usize::from(target)].push(end.value);
        }
    }
    let kind_of = |node: u8| parts.nodes[usize::from(node)][0];
    let is_at_final = |end: &&End| kind_of(target(parts, end)) == ACTIVITY_FINAL;
    if taken.iter().any(is_at_final) {
        for (node, stock) in after.iter_mut().enumerate() {
            if kind_of(node as u8) != OUTGOING {
                stock.clear();
            }
        }
    }
    after
}

/// Whether two of these ends, which differ in their values, arrive at one stock.
fn meet_at_stock(parts: &Parts, taken: &[&End]) -> bool {
    let meet = |one: &End, other: &End| {
        let node = target(parts, one);
        is_stock(parts, node) && node == target(parts, other) && one.value != other.value
    };
    let meets_any = |one: &&End| taken.iter().any(|other| meet(one, other));
    taken.iter().any(meets_any)
}

#[test]
fn values_arrive_at_each_stock_in_the_order_of_before() {
    let (mut steps, mut meeting) = (0, 0);
    for_each_board(36, 4_000, 12, 700, |rng, given, board, ends| {
        let numbers = Numbers::of(ends);
        for before in some_choices(rng, given, board, ends) {
            let answer = board.step(&numbers.choice_now(&before), ROOM);
            if let Answer::Good(after) = answer {
                let end_before = |end: &u8| &ends[usize::from(numbers.now[usize::from(*end)])];
                let taken: Vec<&End> = before.iter().map(end_before).collect();
                let expected = stocks_after(given, &taken);
                assert_eq!(stocks(&given.parts, &after), expected, "{before:?}");
                let is_meeting = numbers.differ() && meet_at_stock(&given.parts, &taken);
                steps += 1;
                meeting += usize::from(is_meeting);
            }
        }
    });
    println!("steps: {steps}, with two values at one stock: {meeting}");
    assert!(steps >= 2_000);
    assert!(meeting >= 100);
}

/// All sets of so many ends that step takes.
fn acceptable_choices(board: &Board, ends: usize) -> Vec<Vec<u8>> {
    let choice_of = |set: u32| (0..ends as u8).filter(|end| set >> end & 1 == 1).collect();
    let is_taken = |choice: &Vec<u8>| number(&board.step(choice, ROOM)) == 0;
    (0..1 << ends).map(choice_of).filter(is_taken).collect()
}

/// The one of these choices that comes first, if ends are numbered so: "the one that
/// holds the lowest end held by only one of them". So the lowest end weighs most.
fn first_of<'a>(choices: &[&'a Vec<u8>], number: impl Fn(u8) -> u8) -> Option<&'a Vec<u8>> {
    let weight = |choice: &&&Vec<u8>| -> u32 {
        let weights = choice.iter().map(|end| 1 << (31 - number(*end)));
        weights.sum()
    };
    choices.iter().max_by_key(weight).copied()
}

#[test]
fn pick_is_the_first_choice_by_the_new_numbers() {
    let (mut other_picks, mut other_named_picks) = (0, 0);
    for_each_board(39, 8_000, 7, 1_000, |_, given, board, ends| {
        let numbers = Numbers::of(ends);
        let acceptable = acceptable_choices(board, ends.len());
        for node in given.nodes_of_all(ends).into_iter().chain([NO_NODE]) {
            let is_of_node = |end: &u8| given.nodes_of(&ends[usize::from(*end)]).contains(&node);
            let is_asked = |choice: &&Vec<u8>| node == NO_NODE || choice.iter().any(is_of_node);
            let asked: Vec<&Vec<u8>> = acceptable.iter().filter(is_asked).collect();
            let first = first_of(&asked, |end| end);
            let expected = match first {
                Some(choice) => Answer::Good(choice.clone()),
                None => refused(13, node),
            };
            assert_eq!(board.pick_within(node, ROOM, BUDGET), Some(expected));
            let is_other = first != first_of(&asked, |end| numbers.before(end));
            match node {
                NO_NODE => other_picks += usize::from(is_other),
                _ => other_named_picks += usize::from(is_other),
            }
        }
    });
    println!("other ends than before: {other_picks}, with a node named: {other_named_picks}");
    assert!(other_picks >= 60);
    assert!(other_named_picks >= 60);
}

#[test]
fn pick_and_why_answer_as_where_the_order_is_that_of_before() {
    let mut reasons = [0; 6];
    for_each_board(40, 8_000, 7, 1_000, |_, given, board, ends| {
        let order = given.edges_by_target();
        let board_there = given.with_edges(&order).board().unwrap();
        for node in given.nodes_of_all(ends).into_iter().chain([NO_NODE]) {
            let pick = |board: &Board| board.pick_within(node, ROOM, BUDGET).unwrap();
            assert_eq!(pick(board), pick(&board_there));
            let why = |board: &Board| reply(board.why_within(node, ROOM, BUDGET).unwrap())[0];
            assert_eq!(why(board), why(&board_there));
            reasons[usize::from(why(board))] += 1;
        }
    });
    println!("reasons 0 to 5: {reasons:?}");
    for reason in [0, 2, 3, 4, 5] {
        assert!(reasons[reason] >= 40, "{reasons:?}");
    }
}
