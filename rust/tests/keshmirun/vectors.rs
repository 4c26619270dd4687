//! The outside calls that the program `vectors` answers, made through the crate: the archive of this processor gives the same answers, to the byte.

use crate::common::points::BUDGET;
use crate::common::rounds;
use crate::common::vectors::{all, Call, Operation};
use keshmirun::Refusal;
use reading::{Answer, Board};
use std::collections::BTreeMap;

/// Whether the answer was another before results of one round could be taken together.
fn is_freed(call: &Call, answer: &Answer) -> bool {
    let [table, marking, guards, bounds, choice] = &call.slices;
    let freed = match Board::within(table, marking, guards, bounds, BUDGET) {
        Some(Ok(board)) => board.freed_pairs(),
        _ => Vec::new(),
    };
    match call.operation {
        Operation::Pick => rounds::frees_pick(&freed, answer),
        Operation::Step => rounds::frees_step(&freed, choice, answer),
        _ => false,
    }
}

/// Whether the table is one that an engine of before wish 6 refused with 1, and this one doesn't.
fn is_larger(call: &Call, answer: Result<usize, Refusal>) -> bool {
    let is_over = call.slices[0].get(3..5).map_or(false, |counts| counts[0] > 48 || counts[1] > 64);
    is_over && answer != Err(Refusal { number: 1, place: 0 })
}

#[test]
fn every_call() {
    let mut made: BTreeMap<Operation, usize> = BTreeMap::new();
    let mut larger = BTreeMap::new();
    let (mut bounds_refused, mut freed) = (0, 0);
    for (number, (call, answer)) in all().iter().enumerate() {
        if let Some(expected) = answer {
            let [table, marking, given, bounds, choice] = &call.slices;
            let answer = call.operation.hold(number as u8, call.node, [table, marking, given, bounds, choice], call.room, expected);
            *made.entry(call.operation).or_default() += 1;
            *larger.entry(call.operation).or_insert(0) += usize::from(is_larger(call, answer));
            bounds_refused += usize::from(answer == Err(Refusal { number: 18, place: 0 }));
            freed += usize::from(is_freed(call, expected));
        }
    }
    assert_eq!(made.len(), 7, "{made:?}");
    assert!(made.values().sum::<usize>() >= 10_700 && made[&Operation::Why] >= 320, "{made:?}");
    assert!(larger.values().all(|calls| *calls >= 9) && larger.values().sum::<usize>() >= 160, "{larger:?}");
    assert!(bounds_refused >= 60, "{bounds_refused}");
    assert!(freed >= 70, "{freed}");
}
