//! This program has functions `check`, `start`, `step` .. of its own under their plain names, beside the crate's: each call reaches the one that is meant.

use keshmirun::{Reason, Room, Terms};

#[no_mangle]
pub extern "C" fn check(value: u64) -> u64 {
    value + 1
}

#[no_mangle]
pub extern "C" fn start() -> u64 {
    2
}

#[no_mangle]
pub extern "C" fn sheet() -> u64 {
    3
}

#[no_mangle]
pub extern "C" fn pick() -> u64 {
    4
}

#[no_mangle]
pub extern "C" fn step(value: u64) -> u64 {
    value - 1
}

#[no_mangle]
pub extern "C" fn finish() -> u64 {
    6
}

#[no_mangle]
pub extern "C" fn why() -> u64 {
    7
}

#[test]
fn each_has_its_own() {
    // one initial node, one action, and the control edge between them
    let table = [0, 15, 1, 2, 1, 1, 255, 0, 0, 2, 255, 0, 0, 0, 0, 1, 0];
    let mut out = [0; Room::MARKING];
    assert_eq!(keshmirun::check(&table), Ok(()));
    assert_eq!(keshmirun::start(&table, &[], &mut out), Ok(6));
    let marking = [0, 4, 1, 0, 0, 1];
    assert_eq!(out[..6], marking);
    assert_eq!(keshmirun::sheet(&table, &marking, Terms::new(&[1]), &mut out), Ok(13));
    assert_eq!(keshmirun::pick(&table, &marking, Terms::new(&[1]), 1, &mut out), Ok(1));
    assert_eq!(keshmirun::why(&table, &marking, Terms::new(&[1]), 0), Ok(Reason::NoEnd));
    assert_eq!(keshmirun::step(&table, &marking, Terms::new(&[1]), &[0], &mut out), Ok(6));
    let running = [0, 4, 1, 0, 1, 0];
    assert_eq!(out[..6], running);
    assert_eq!(keshmirun::finish(&table, &running, 1, &[], &mut out), Ok(6));
    assert_eq!((check(1), start(), sheet(), pick(), step(6), finish(), why()), (2, 2, 3, 4, 5, 6, 7));
}
