//! The paper's small event: start, and C1 to C12; then the same event under the
//! bounds lists of wish 1. Ends are numbered by the order of wish 5: "Cases follow."
//! So the end on edge 4, at node 4, is 0 and the end on edge 3, at node 6, is 1.

mod common;

use common::{bounds, hex, refused, reply, small_guards, small_marking, small_table, MOST, ROOM};
use reading::{check, finish, pick, sheet, start, step, Answer, Board, NO_BOUNDS, NO_NODE};

/// The sheet of C1: ends on edges 4 and 3, at nodes 4 and 6, both with value 7.
fn small_sheet() -> Vec<u8> {
    hex("001A 01 02
         04 01 00000007 02 02 00 04 03 01 02 04
         03 01 00000007 01 02 01 03")
}

/// The sheet of C9: the end on edge 4 alone.
fn sheet_of_edge_4() -> Vec<u8> {
    hex("0010 01 01 04 01 00000007 02 02 00 04 03 01 02 04")
}

/// The end on edge 3 alone.
fn sheet_of_edge_3() -> Vec<u8> {
    hex("000C 01 01 03 01 00000007 01 02 01 03")
}

/// No ends.
fn sheet_of_none() -> Vec<u8> {
    hex("0002 01 00")
}

fn small_pick(node: u8) -> Answer {
    pick(
        &small_table(),
        &small_marking(),
        &small_guards(),
        &NO_BOUNDS,
        node,
        ROOM,
    )
}

fn small_step(choice: &[u8]) -> Answer {
    step(
        &small_table(),
        &small_marking(),
        &small_guards(),
        &NO_BOUNDS,
        choice,
        ROOM,
    )
}

#[test]
fn the_table_is_good() {
    assert_eq!(check(&small_table()), Answer::Good(vec![]));
}

#[test]
fn start_gives_the_marking() {
    let values = hex("02 00000007 00000009");
    assert_eq!(
        start(&small_table(), &values, ROOM),
        Answer::Good(small_marking())
    );
}

#[test]
fn c1_two_ends() {
    let sheet = sheet(
        &small_table(),
        &small_marking(),
        &small_guards(),
        &NO_BOUNDS,
        ROOM,
    );
    assert_eq!(reply(sheet), small_sheet());
}

#[test]
fn c2_both_ends_compete() {
    assert_eq!(small_step(&[0, 1]), refused(10, 0));
}

#[test]
fn c3_pick() {
    assert_eq!(small_pick(NO_NODE), Answer::Good(vec![0]));
}

#[test]
fn c4_c5_c6_pick_for_a_node() {
    assert_eq!(small_pick(5), Answer::Good(vec![0]));
    assert_eq!(small_pick(4), Answer::Good(vec![0]));
    assert_eq!(small_pick(2), refused(13, 2));
    assert_eq!(small_pick(6), Answer::Good(vec![1]));
    assert_eq!(small_pick(7), refused(13, 7));
    assert_eq!(small_pick(254), refused(13, 254));
}

#[test]
fn c7_c8_step_and_finish() {
    let stepped = hex("000F 01 00 01 00000009 01 00000007 01 00 00");
    assert_eq!(small_step(&[0]), Answer::Good(stepped.clone()));
    let finished = hex("000B 01 00 01 00000009 00 00 00 00");
    assert_eq!(
        finish(&small_table(), &stepped, 5, &[], ROOM),
        Answer::Good(finished)
    );
}

#[test]
fn the_other_step() {
    // 7 goes to the buffer, 6, and the token stays.
    let stepped = hex("000F 01 00 01 00000009 00 00 01 00000007 01");
    assert_eq!(small_step(&[1]), Answer::Good(stepped));
}

#[test]
fn c9_one_end_under_a_closed_guard() {
    let sheet = sheet(
        &small_table(),
        &small_marking(),
        &[1, 1, 1, 0, 1],
        &NO_BOUNDS,
        ROOM,
    );
    assert_eq!(reply(sheet), sheet_of_edge_4());
}

#[test]
fn c10_the_empty_choice_changes_nothing() {
    assert_eq!(small_step(&[]), Answer::Good(small_marking()));
}

#[test]
fn c11_a_full_buffer() {
    let full = hex("0017 01 00 02 00000007 00000009 00 00 02 00000001 00000002 01");
    let (table, guards) = (small_table(), small_guards());
    let step = |choice: &[u8]| step(&table, &full, &guards, &NO_BOUNDS, choice, ROOM);
    assert_eq!(step(&[1]), refused(12, 6));
    // The end at node 4 asks nothing of node 6.
    let stepped = hex("0017 01 00 01 00000009 01 00000007 01 02 00000001 00000002 00");
    assert_eq!(step(&[0]), Answer::Good(stepped));
}

#[test]
fn c12_a_fork_is_passed_whole() {
    let mut table = small_table();
    table[5 + 4 * 2] = 10;
    let (marking, guards) = (small_marking(), small_guards());
    for end in [0, 1] {
        let alone = step(&table, &marking, &guards, &NO_BOUNDS, &[end], ROOM);
        assert_eq!(alone, refused(11, 2));
    }
    assert_eq!(
        pick(&table, &marking, &guards, &NO_BOUNDS, NO_NODE, ROOM),
        Answer::Good(vec![0, 1])
    );
}

/// The sheet under these guards and this bounds list.
fn sheet_under(guards: &[u8], entries: &[(u8, u32, u32)]) -> Vec<u8> {
    let (table, marking) = (small_table(), small_marking());
    reply(sheet(&table, &marking, guards, &bounds(entries), ROOM))
}

#[test]
fn count_0_is_the_list_of_no_entries() {
    assert_eq!(bounds(&[]), NO_BOUNDS);
    assert_eq!(sheet_under(&[1; 5], &[]), small_sheet());
}

#[test]
fn the_value_goes_over_if_it_lies_in_the_bounds() {
    // It is 7: within, equal to low, equal to high, or both.
    for (low, high) in [(0, MOST), (6, 8), (7, 8), (7, MOST), (6, 7), (0, 7), (7, 7)] {
        for edge in 1..=4 {
            let sheet = sheet_under(&[1; 5], &[(edge, low, high)]);
            assert_eq!(sheet, small_sheet(), "edge {edge}, {low} to {high}");
        }
        let all = [1, 2, 3, 4].map(|edge| (edge, low, high));
        assert_eq!(sheet_under(&[1; 5], &all), small_sheet());
    }
}

#[test]
fn the_value_stays_if_it_lies_outside() {
    // Edge 1 carries the first offer; 2 and 3 leave the decision, 2 for the join
    // that 4 leaves.
    let left = [
        (1, sheet_of_none()),
        (2, sheet_of_edge_3()),
        (3, sheet_of_edge_4()),
        (4, sheet_of_edge_3()),
    ];
    // It is 7: one below low, one above high, and far off.
    for (low, high) in [(8, 8), (8, MOST), (6, 6), (0, 6), (0, 0), (MOST, MOST)] {
        for (edge, sheet) in &left {
            let under = sheet_under(&[1; 5], &[(*edge, low, high)]);
            assert_eq!(under, *sheet, "edge {edge}, {low} to {high}");
        }
        let both = sheet_under(&[1; 5], &[(3, low, high), (4, low, high)]);
        assert_eq!(both, sheet_of_none());
    }
}

#[test]
fn each_listed_edge_has_its_own_bounds() {
    let in_bounds_on_4 = [(3, 8, 9), (4, 6, 7)];
    assert_eq!(sheet_under(&[1; 5], &in_bounds_on_4), sheet_of_edge_4());
    let in_bounds_on_3 = [(3, 6, 7), (4, 8, 9)];
    assert_eq!(sheet_under(&[1; 5], &in_bounds_on_3), sheet_of_edge_3());
}

#[test]
fn a_listed_edge_needs_its_byte_too() {
    for (guards, bounds, left) in [
        ([1, 1, 1, 1, 1], (3, 7, 7), small_sheet()),
        ([1, 1, 1, 1, 1], (3, 8, 8), sheet_of_edge_4()),
        ([1, 1, 1, 0, 1], (3, 7, 7), sheet_of_edge_4()),
        ([1, 1, 1, 0, 1], (3, 8, 8), sheet_of_edge_4()),
        ([1, 1, 0, 1, 1], (3, 7, 7), sheet_of_edge_3()),
        ([1, 1, 0, 1, 1], (3, 8, 8), sheet_of_none()),
    ] {
        assert_eq!(sheet_under(&guards, &[bounds]), left, "{guards:?}");
    }
}

#[test]
fn only_the_oldest_value_is_offered() {
    // 9 waits behind 7.
    let nine = bounds(&[(1, 9, 9)]);
    assert_eq!(sheet_under(&[1; 5], &[(1, 9, 9)]), sheet_of_none());
    let stepped = reply(small_step(&[0])); // C7
    let sheet = sheet(&small_table(), &stepped, &small_guards(), &nine, ROOM);
    assert_eq!(reply(sheet), hex("000C 01 01 03 01 00000009 01 02 01 03"));
}

#[test]
fn pick_and_step_go_by_the_ends_under_bounds() {
    let (table, marking, guards) = (small_table(), small_marking(), small_guards());
    let eight_or_more = bounds(&[(3, 8, MOST)]); // so end 0, on edge 4, is the only one
    let pick = |node: u8| pick(&table, &marking, &guards, &eight_or_more, node, ROOM);
    assert_eq!(pick(NO_NODE), Answer::Good(vec![0]));
    assert_eq!(pick(5), Answer::Good(vec![0]));
    assert_eq!(pick(6), refused(13, 6));
    let step = |choice: &[u8]| step(&table, &marking, &guards, &eight_or_more, choice, ROOM);
    assert_eq!(step(&[0]), small_step(&[0])); // C7
    assert_eq!(step(&[1]), refused(9, 0));
    assert_eq!(step(&[]), Answer::Good(marking.clone()));
}

#[test]
fn a_barred_branch_of_a_fork_is_not_missed_and_a_blocked_one_is() {
    let mut table = small_table();
    table[5 + 4 * 2] = 10; // as in C12
    let (marking, guards) = (small_marking(), small_guards());
    let pick = |list: &[u8]| pick(&table, &marking, &guards, list, NO_NODE, ROOM);
    let step_0 = |list: &[u8]| step(&table, &marking, &guards, list, &[0], ROOM);
    let barred = bounds(&[(3, 8, MOST)]);
    assert_eq!(pick(&barred), Answer::Good(vec![0]));
    assert_eq!(step_0(&barred), small_step(&[0])); // C7
    let blocked = bounds(&[(4, 8, MOST)]); // over edge 2, but not on from the join
    assert_eq!(pick(&blocked), Answer::Good(vec![]));
    assert_eq!(step_0(&blocked), refused(11, 2));
}

#[test]
fn a_board_is_under_bounds_too() {
    let (table, marking, guards) = (small_table(), small_marking(), small_guards());
    let board = |list: &[u8]| Board::within(&table, &marking, &guards, list, 100).unwrap();
    assert_eq!(board(&NO_BOUNDS).unwrap().targets(), [4, 6]);
    assert_eq!(board(&bounds(&[(3, 8, MOST)])).unwrap().targets(), [4]);
    assert_eq!(board(&bounds(&[(3, 8, 7)])).unwrap_err(), refused(18, 0));
}
