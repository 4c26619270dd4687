//! Each reason of the wish in words.

use keshmirun::{Reason, Terms};
use std::collections::BTreeSet;

const ALL: [Reason; 6] = {
    use Reason::*;
    [Acceptable, NoEnd, OwnDestination, Competing, Forks, Destinations]
};

#[test]
fn six_meanings() {
    let meanings: BTreeSet<&str> = ALL.iter().map(|reason| reason.meaning()).collect();
    assert_eq!(meanings.len(), 6, "{meanings:?}");
    assert_eq!(ALL.map(Reason::number), [0, 1, 2, 3, 4, 5]);
}

#[test]
fn number_and_meaning_are_shown() {
    // one initial node, one action, and the control edge between them; the action runs, and another token waits for it
    let table = [0, 15, 1, 2, 1, 1, 255, 0, 0, 2, 255, 0, 0, 0, 0, 1, 0];
    let running = [0, 4, 1, 0, 1, 1];
    let reason = keshmirun::why(&table, &running, Terms::new(&[1]), 1).unwrap();
    assert_eq!(reason.to_string(), "reason 2: no choice that takes an end of the node satisfies its own destination rule");
}
