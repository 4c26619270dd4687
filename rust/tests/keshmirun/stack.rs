//! The deepest call's stack, held to what a small worker thread has: no theorem bounds the machine's stack, so this does. The calls are those of the outside
//! vectors and of the worst events known for the searches of pick and why, events with everything at its limit, in tables of 48 and of 120 nodes, one with the
//! longest marking, one with the longest bounds list, and random ones near the sizes and in larger tables.

#[path = "../../examples/events/full.rs"]
mod full;
#[allow(clippy::module_inception)]
#[path = "../../examples/events/stack.rs"]
mod stack;

use crate::common::longest::Longest;
use crate::common::vectors::{all, Call};
use crate::common::{limits, points};
use crate::events;
use full::Full;
use keshmirun::{bounds_list, Bounds, Marking, Reason, Refusal, Room, Terms, MOST_EDGES, MOST_ENDS, MOST_NODES, NO_NODE};
use reading::random::{Event, Rng};
use stack::taken;

/// What a call may take, in bytes.
const MOST: usize = 32_768;
/// Less than any call takes that lays out a board: the paint is seen to have been reached.
const BOARD: usize = 8_192;

/// The stack of a call whose reply is lent elsewhere.
fn depth(operation: impl Fn(&mut [u8]) -> Result<usize, Refusal> + Sync) -> usize {
    taken(|| {
        let mut lent = vec![0; Room::MARKING];
        let _ = operation(&mut lent);
    })
}

/// The deepest of sheet, step by what is picked, and pick and why for none and for each node.
fn deepest_of_board(table: &[u8], marking: &[u8], terms: Terms) -> usize {
    let mut choice = [0; Room::CHOICE];
    let picked = keshmirun::pick(table, marking, terms, NO_NODE, &mut choice).unwrap_or(0);
    let sheet = depth(|out| keshmirun::sheet(table, marking, terms, out));
    let step = depth(|out| keshmirun::step(table, marking, terms, &choice[..picked], out));
    let nodes = || (0..table[3]).chain([NO_NODE]);
    let pick = nodes().map(|node| depth(|out| keshmirun::pick(table, marking, terms, node, out))).max();
    let why = nodes().map(|node| depth(|_| keshmirun::why(table, marking, terms, node).map(|_| 1))).max();
    sheet.max(step).max(pick.max(why).unwrap_or(0))
}

#[track_caller]
fn assert_fits(deepest: usize) {
    assert!(deepest > BOARD, "the paint was not reached: {deepest}");
    assert!(deepest <= MOST, "{deepest} bytes");
}

#[test]
fn outside_calls() {
    let calls = all();
    let depths = calls.iter().map(|(Call { operation, node, slices, .. }, _)| {
        let [table, marking, given, bounds, choice] = slices;
        depth(|out| operation.make(*node, [table, marking, given, bounds, choice], out))
    });
    assert_fits(depths.max().unwrap());
}

/// What callers are told.
#[test]
fn the_most_that_is_told() {
    assert_eq!(Room::STACK, MOST);
}

/// As callers are told: with twice that for a thread, room for the reply on its own stack.
fn in_a_small_thread(calls: impl Fn(&mut [u8]) + Sync) {
    std::thread::scope(|scope| {
        let small = std::thread::Builder::new().stack_size(2 * Room::STACK);
        small.spawn_scoped(scope, || calls(&mut [0; Room::MARKING])).expect("a thread").join().expect("it ends");
    });
}

#[test]
fn outside_calls_in_64_kib() {
    let calls = all();
    in_a_small_thread(|out| {
        for (Call { operation, node, slices, .. }, _) in &calls {
            let [table, marking, given, bounds, choice] = slices;
            let _ = operation.make(*node, [table, marking, given, bounds, choice], out);
        }
    });
}

/// The largest table by its types, for every node.
#[test]
fn typed_calls_in_64_kib() {
    let full = full::larger().unwrap();
    let (table, marking) = (&full.table, full.marking(false));
    let marking = Marking::new(table, &marking).unwrap();
    in_a_small_thread(|out| {
        let (guards, bounds) = (table.guards(), Bounds::none(table));
        let terms = guards.with(&bounds);
        assert_eq!(table.sheet_in(&marking, terms, out).unwrap().ends().len(), MOST_ENDS);
        for node in table.nodes() {
            assert_eq!(table.pick_for(&marking, terms, node).is_ok(), table.why(&marking, terms, node) == Ok(Reason::Acceptable));
        }
        let choice = table.pick(&marking, terms).unwrap();
        assert!(table.step_in(&marking, terms, &choice, out).is_ok());
    });
}

/// The deepest of check, start, finish of this action, and all calls of the board.
fn deepest(table: &[u8], marking: &[u8], running: &[u8], action: u8, terms: Terms) -> usize {
    let check = depth(|_| keshmirun::check(table).map(|()| 0));
    let start = depth(|out| keshmirun::start(table, &[], out));
    let finish = depth(|out| keshmirun::finish(table, running, action, &[], out));
    check.max(start).max(finish).max(deepest_of_board(table, marking, terms))
}

#[test]
fn at_the_limits() {
    let (marking, running) = (events::limits_marking(false), events::limits_marking(true));
    assert_fits(deepest(&events::limits().table, &marking, &running, 13, Terms::new(&[1; 64])));
}

#[test]
fn in_the_largest_table() {
    let (table, terms) = (events::larger().table, Terms::new(&[1; MOST_EDGES]));
    let (marking, running) = (events::larger_marking(false), events::larger_marking(true));
    assert_eq!((usize::from(table[3]), usize::from(table[4])), (MOST_NODES, MOST_EDGES));
    let mut sheet = [0; Room::SHEET];
    assert!(keshmirun::sheet(&table, &marking, terms, &mut sheet).is_ok());
    assert_eq!(sheet[3], 20);
    assert_fits(deepest(&table, &marking, &running, 106, terms));
}

/// What is built is what is saved, with markings as long, and the ends, all at one node, are as many as there may be.
#[track_caller]
fn assert_as_saved(full: &Full, table: &[u8], marking: fn(bool) -> Vec<u8>, action: u8) {
    assert_eq!((full.table.as_bytes(), full.action.number()), (table, action));
    assert_eq!([false, true].map(|runs| full.marking(runs).len()), [false, true].map(|runs| marking(runs).len()));
    let idle = full.marking(false);
    let sheet = full.table.sheet(&Marking::new(&full.table, &idle).unwrap(), &full.table.guards()).unwrap();
    assert_eq!(sheet.ends().filter(|listed| listed.target() == full.end).count(), MOST_ENDS);
}

#[test]
fn built_as_saved() {
    assert_as_saved(&full::limits().unwrap(), &events::limits().table, events::limits_marking, 13);
    assert_as_saved(&full::larger().unwrap(), &events::larger().table, events::larger_marking, 106);
}

#[test]
fn with_the_longest_marking() {
    let Longest { table, marking, guards, action } = Longest::new();
    let terms = Terms::new(&guards);
    assert!(keshmirun::step(&table, &marking, terms, &[0], &mut [0; Room::MARKING]).is_ok());
    assert_fits(deepest(&table, &marking, &marking, action, terms));
}

/// A value of a buffer and 200 edges for it, all of them listed, of which 20 let it go.
#[test]
fn under_the_longest_list() {
    let nodes = [5, 255, 0, 16, 12, 255, 0, 0];
    let table = [&[3, 43, 1, 2, 200][..], &nodes, &[1, 0, 1, 0].repeat(200)].concat();
    let marking = [0, 7, 1, 0, 1, 0, 0, 0, 7];
    let entries: Vec<_> = (0..200).map(|edge| if edge % 10 == 9 { (edge, 0..=7) } else { (edge, 8..=u32::MAX) }).collect();
    let bounds = bounds_list(&entries);
    let terms = Terms::new(&[1; 200]).with_bounds(&bounds);
    let mut sheet = [0; Room::SHEET];
    assert!(keshmirun::sheet(&table, &marking, terms, &mut sheet).is_ok());
    assert_eq!(sheet[3], 20);
    assert_fits(deepest_of_board(&table, &marking, terms));
}

#[test]
fn near_the_sizes() {
    let mut rng = Rng::new(51);
    let mut walk = points::Walk::default();
    let mut points: Vec<Event> = (0..40).map(|_| limits::event(&mut rng)).collect();
    points.extend((0..40).map(|_| walk.next(&mut rng)));
    let mut walk = points::Walk::larger();
    points.extend((0..20).map(|_| walk.next(&mut rng)));
    let depths = points.iter().flat_map(|Event { table, marking, guards, bounds, .. }| {
        let terms = Terms::new(guards);
        [deepest_of_board(table, marking, terms), deepest_of_board(table, marking, terms.with_bounds(bounds))]
    });
    assert_fits(depths.max().unwrap());
}
