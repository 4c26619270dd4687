//! The example's day ends with its standings.

#[allow(dead_code, clippy::module_inception)] // its main, and its name
#[path = "../../examples/day.rs"]
pub mod day;

use crate::events;

#[test]
fn the_lower_number_wins() {
    let told = day::play(&[40, 17, 23, 8, 31]).unwrap();
    assert!(told.ends_with("1. player 8\n2. player 17\n3. player 23\n4. player 40\n"), "{told}");
    // the fifth is in the reserve, and both matches begin in one step
    assert!(told.contains("pick 4,5,6,7,8,9,10\n"), "{told}");
    // node by node: match A, by its last edge the last but one, stands before its pins
    let of_match_a = format!("*  5  {:20} {:10} 11,12\n*  6  {:20} {:10} 7\n", "match A", "", "match A, first", "player 40");
    assert!(told.contains(&of_match_a), "{told}");
}

#[test]
fn three_are_too_few() {
    let told = day::play(&[40, 17, 23]).unwrap();
    assert!(told.ends_with("pick -\n\n"), "{told}");
}

/// The tables that are built are those that are saved, byte for byte, and their nodes have the same names.
#[test]
fn built_as_saved() {
    assert_eq!(day::built::small().unwrap().as_bytes(), events::small().table);
    let (built, saved) = (day::built::day().unwrap(), events::day());
    assert_eq!(built.table.as_bytes(), saved.table);
    assert_eq!(built.table.nodes().map(|node| built.name(node.id())).collect::<Vec<_>>(), saved.names);
    assert_eq!(built.to_reserve.index(), events::TO_RESERVE);
}
