//! `check` against the plain reading of the paper, on good, bad and damaged tables with fixed seeds.

use keshmirun::Refusal;
use reading::random::{damaged, larger_table, table, Parts, Rng};
use reading::Answer;

/// Calls on a copy that stands amid other bytes, and sees that none of them changed.
fn watched(table: &[u8], around: u8) -> Result<(), Refusal> {
    let mut bytes = vec![around; 64];
    bytes.extend_from_slice(table);
    bytes.extend_from_slice(&[around; 64]);
    let before = bytes.clone();
    let answer = keshmirun::check(&bytes[64..64 + table.len()]);
    assert_eq!(bytes, before, "check changed a byte");
    answer
}

fn expected(table: &[u8]) -> Result<(), Refusal> {
    match reading::check(table) {
        Answer::Good(reply) => {
            assert!(reply.is_empty());
            Ok(())
        }
        Answer::Refused { number, place } => Err(Refusal { number, place }),
    }
}

/// How often each answer came: 0 good, else the refusal's number.
fn compare(seed: u64, calls: usize, mut next: impl FnMut(&mut Rng) -> Vec<u8>) -> [usize; 5] {
    let mut rng = Rng::new(seed);
    let mut seen = [0; 5];
    for k in 0..calls {
        let table = next(&mut rng);
        let answer = watched(&table, k as u8);
        assert_eq!(answer, expected(&table), "call {k} of seed {seed}: {table:02x?}");
        seen[answer.err().map_or(0, |refusal| refusal.number as usize)] += 1;
    }
    seen
}

#[test]
fn good_tables() {
    let mut parts = Parts::default();
    let mut turn = 0;
    let seen = compare(1, 40_000, |rng| {
        if turn % 4 == 0 {
            parts = Parts::of(&table(rng)).unwrap();
        }
        turn += 1;
        parts.shuffle(rng); // the same diagram, numbered anew
        parts.write()
    });
    assert!(seen[0] > 30_000, "{seen:?}");
}

#[test]
fn damaged_tables() {
    let mut good = Vec::new();
    let mut turn = 0;
    let seen = compare(2, 100_000, |rng| {
        if turn % 4 == 0 {
            good = table(rng);
        }
        turn += 1;
        damaged(rng, &good)
    });
    assert!(seen.iter().all(|&count| count > 1_000), "{seen:?}");
}

/// Good and damaged ones.
#[test]
fn larger_tables() {
    let mut good = Vec::new();
    let mut turn = 0;
    let seen = compare(4, 8_000, |rng| {
        turn += 1;
        if turn % 4 == 1 {
            good = larger_table(rng);
            return good.clone();
        }
        damaged(rng, &good)
    });
    assert!(seen.iter().all(|&count| count > 200), "{seen:?}");
}

#[test]
fn any_bytes() {
    let seen = compare(3, 20_000, |rng| (0..rng.below(600)).map(|_| rng.below(256) as u8).collect());
    assert_eq!(seen[1], 20_000, "{seen:?}");
}
