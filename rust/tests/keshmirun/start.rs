//! `start` against the plain reading of the paper, with fixed seeds: good and damaged tables, good and spoiled values, room to spare, exact and
//! one short.

use crate::common::{called, room, within, Seen};
use reading::random::{damaged, larger_table, table, values, Rng};

/// Calls on so many random tables, four on each, with one table in `times` damaged.
fn seen(seed: u64, tables: usize, times: usize, drawn: impl Fn(&mut Rng) -> Vec<u8>) -> Seen {
    let mut rng = Rng::new(seed);
    let mut seen = Seen::default();
    for _ in 0..tables {
        let good = drawn(&mut rng);
        for _ in 0..4 {
            let lists = values(&mut rng, &good);
            let table = if rng.below(times) == 0 { damaged(&mut rng, &good) } else { good.clone() };
            let full = reading::start(&table, &lists, usize::MAX);
            let room = room(&mut rng, &full);
            let answer =
                called(rng.byte(), &[&table, &lists], room, &within(room, full), |lent, out| keshmirun::start(lent[0].slice(), lent[1].slice(), out));
            seen.note(answer);
        }
    }
    seen
}

#[test]
fn good_tables() {
    seen(11, 12_500, usize::MAX, table).assert_each(100, &[0, 15, 16, 17]);
}

#[test]
fn some_damaged() {
    seen(13, 12_500, 3, table).assert_each(100, &[0, 1, 2, 3, 4, 15, 16, 17]);
}

#[test]
fn larger_tables() {
    let seen = seen(15, 1_500, 6, larger_table);
    seen.assert_each(100, &[0, 1, 2, 3, 4, 15, 17]);
    seen.assert_each(5, &[16]);
    seen.assert_place_over(64, &[2, 3, 4]);
}
