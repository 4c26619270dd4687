//! Storage that shows other bytes from one call to the next, as no honest one does: what is made of it was judged by bytes that are gone. It may say anything, but
//! no call panics.

use crate::common::points::Mixed;
use crate::common::rewritten;
use crate::common::walked::Walked;
use keshmirun::{Bounds, Choice, Guards, Marking, Room, Sheet, Table, Terms, Values, NO_BOUNDS, NO_NODE};
use reading::random::{damaged_bytes, Event, Parts, Rng};
use std::cell::RefCell;
use std::fmt;

/// Good bytes at the first call; these or any of some others at each later one.
struct Shifty<'a> {
    good: &'a [u8],
    others: &'a [Vec<u8>],
    calls: RefCell<(usize, Rng)>,
}

impl<'a> Shifty<'a> {
    fn new(rng: &mut Rng, good: &'a [u8], others: &'a [Vec<u8>]) -> Shifty<'a> {
        Shifty { good, others, calls: RefCell::new((0, Rng::new(rng.draw()))) }
    }
}

impl AsRef<[u8]> for Shifty<'_> {
    fn as_ref(&self) -> &[u8] {
        let (calls, rng) = &mut *self.calls.borrow_mut();
        *calls += 1;
        match calls {
            1 => self.good,
            _ if rng.percent(30) => self.good,
            _ => &self.others[rng.below(self.others.len())],
        }
    }
}

impl fmt::Debug for Shifty<'_> {
    fn fmt(&self, f: &mut fmt::Formatter<'_>) -> fmt::Result {
        self.as_ref().fmt(f)
    }
}

/// As many nodes and edges as a byte can count, whose fields are good by themselves: no table, but it has all the records that it says.
fn overfull() -> Vec<u8> {
    Parts { nodes: vec![[12, 255, 0, 0]; 255], edges: vec![[1, 0, 1, 1]; 255] }.write()
}

/// What stands in tables, markings and sheets of events; the same damaged; records without end; and nothing.
fn others(rng: &mut Rng, points: &mut Mixed) -> Vec<Vec<u8>> {
    let mut others = vec![Vec::new(), NO_BOUNDS.to_vec(), vec![0; 9_000], vec![255; 9_000], vec![1; 700], overfull()];
    for _ in 0..6 {
        let Event { table, marking, guards, .. } = points.next(rng);
        let mut sheet = vec![0; Room::SHEET];
        let length = keshmirun::sheet(&table, &marking, Terms::new(&guards), &mut sheet).unwrap_or(0);
        sheet.truncate(length);
        others.extend([damaged_bytes(rng, &table), damaged_bytes(rng, &marking), damaged_bytes(rng, &sheet), table, marking, sheet]);
    }
    others
}

/// Rounds, each at a point of an event and beside other bytes.
fn rounds(seed: u64, mut play: impl FnMut(&mut Rng, &mut Walked, &Event, &[Vec<u8>])) {
    let (mut rng, mut points, mut walked) = (Rng::new(seed), Mixed::new(), Walked::shifty());
    for _ in 0..50 {
        let others = others(&mut rng, &mut points);
        for _ in 0..8 {
            let event = points.next(&mut rng);
            play(&mut rng, &mut walked, &event, &others);
        }
    }
    println!("{} seen", walked.seen());
}

/// All seven, whatever they answer; how many were granted.
fn all_seven<T: AsRef<[u8]>, M: AsRef<[u8]>>(table: &Table<T>, marking: &Marking<M>, guards: &Guards) -> usize {
    let mut room = [0; Room::MARKING];
    let choice = table.pick(marking, guards).unwrap_or_else(|_| Choice::none());
    let granted = [
        table.start(&Values::NONE).is_ok(),
        table.start_in(&Values::new([0; 3]), &mut room).is_ok(),
        table.sheet(marking, guards).is_ok(),
        table.sheet_in(marking, guards, &mut room).is_ok(),
        table.pick_for(marking, guards, 1).is_ok(),
        table.why(marking, guards, NO_NODE).is_ok(),
        table.step(marking, guards, &choice).is_ok(),
        table.step_in(marking, guards, &choice, &mut room).is_ok(),
        table.finish(marking, 0, &Values::NONE).is_ok(),
        table.finish_in(marking, 1, &Values::NONE, &mut room).is_ok(),
    ];
    granted.iter().filter(|granted| **granted).count()
}

#[test]
fn tables() {
    let mut granted = [0; 2];
    rounds(231, |rng, walked, event, others| {
        let table = Table::new(Shifty::new(rng, &event.table, others)).unwrap();
        walked.table(&table);
        walked.neighbours(table.nodes());
        walked.show(&table);
        walked.show(&(table.nodes(), table.edges()));
        walked.show(&rewritten::table(&table));
        for bytes in others.iter().chain([&vec![1; 255], &vec![0; 255], &event.guards]) {
            walked.show(&(Guards::new(&table, bytes), Bounds::new(&table, bytes), Sheet::new(&table, bytes).is_ok(), Choice::new(bytes)));
        }
        for bytes in others.iter().chain([&event.marking]) {
            if let Ok(marking) = Marking::new(&table, bytes) {
                granted[0] += usize::from(table.contents(&marking).map(|contents| walked.contents(&contents)).is_ok());
                granted[1] += all_seven(&table, &marking, &table.guards());
            }
        }
    });
    assert!(granted.iter().all(|granted| *granted >= 30), "{granted:?}");
}

/// Bounds and guards that were made of a table of other bytes have as many edges as these.
#[test]
fn guards_and_bounds() {
    let records = overfull();
    let good = crate::built::small().unwrap().into_bytes();
    let mut lengths = [0; 2];
    for seed in 0..200 {
        let mut rng = Rng::new(seed);
        let others = [records.clone()];
        let table = Table::new(Shifty::new(&mut rng, &good, &others)).unwrap();
        for closed in [0, 1] {
            for length in [5, 200, 254, 255, 256] {
                let guards = Guards::new(&table, &vec![closed; length]);
                lengths[usize::from(closed)] += usize::from(guards.is_ok() && length == 255);
            }
        }
        let mut bounds = Bounds::none(&table);
        let set = (0..=255).filter(|edge| bounds.set(*edge, ..).is_ok()).count();
        assert!(set <= 200 && bounds.entries().count() == set, "{set}");
    }
    assert!(lengths[1] >= 10, "{lengths:?}");
}

#[test]
fn markings() {
    let mut granted = [0; 2];
    rounds(232, |rng, walked, event, others| {
        let table = Table::new(&event.table[..]).unwrap();
        let marking = Marking::new(&table, Shifty::new(rng, &event.marking, others)).unwrap();
        walked.show(&(marking.has_ended(), marking.as_bytes().len()));
        walked.show(&marking);
        for _ in 0..5 {
            if let Ok(contents) = table.contents(&marking) {
                walked.contents(&contents);
                walked.show(&contents);
                walked.show(&rewritten::marking(&contents, marking.has_ended()));
                granted[0] += 1;
            }
            granted[1] += all_seven(&table, &marking, &table.guards());
        }
    });
    assert!(granted.iter().all(|granted| *granted >= 100), "{granted:?}");
}

#[test]
fn sheets() {
    let mut taken = 0;
    rounds(233, |rng, walked, event, others| {
        let table = Table::new(&event.table[..]).unwrap();
        let marking = Marking::new(&table, &event.marking).unwrap();
        if let Ok(good) = table.sheet(&marking, &table.guards()) {
            let sheet = Sheet::new(&table, Shifty::new(rng, good.as_bytes(), others)).unwrap();
            for _ in 0..10 {
                walked.sheet(&sheet);
                walked.show(&sheet.ends());
                walked.show(&rewritten::sheet(&sheet));
            }
            walked.show(&sheet);
            taken += 1;
        }
    });
    assert!(taken >= 100, "{taken}");
}
