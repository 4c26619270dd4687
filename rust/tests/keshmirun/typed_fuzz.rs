//! A million byte strings for the types that bytes are made into: good ones, damaged in every way, and any. None makes a call panic. Each is refused with a number
//! of its own, or taken; and what is taken is walked to its end and, rewritten from what it says, is the same bytes.

use crate::common::drawn::framed;
use crate::common::points::Mixed;
use crate::common::rewritten;
use crate::common::walked::Walked;
use keshmirun::{Bounds, Choice, Guards, Marking, OwnedMarking, OwnedTable, Refusal, Sheet, Table, Terms, Values};
use reading::random::{self, damaged, damaged_bytes, outputs, Parts, Rng};

/// How many strings are for which type.
const TABLES: usize = 200_000;
const MARKINGS: usize = 200_000;
const SHEETS: usize = 200_000;
const GUARDS: usize = 100_000;
const BOUNDS: usize = 100_000;
const CHOICES: usize = 100_000;
const VALUES: usize = 100_000;

#[test]
fn a_million() {
    assert_eq!(TABLES + MARKINGS + SHEETS + GUARDS + BOUNDS + CHOICES + VALUES, 1_000_000);
}

/// The longest of the strings that are just any bytes: more than a marking has.
const LONGEST: usize = 9_000;

// ---- the strings

/// Any bytes: of few sorts or of all, most often few.
fn any_bytes(rng: &mut Rng) -> Vec<u8> {
    let most = [8, 64, 600, LONGEST][rng.weighted(&[30, 40, 25, 5])];
    let length = rng.below(most + 1);
    match rng.below(4) {
        0 => vec![0; length],
        1 => vec![255; length],
        2 => (0..length).map(|place| place as u8).collect(),
        _ => (0..length.div_euclid(8) + 1).flat_map(|_| rng.draw().to_be_bytes()).take(length).collect(),
    }
}

/// One change of these bytes.
fn changed(rng: &mut Rng, good: &[u8], other: &[u8]) -> Vec<u8> {
    let mut bytes = good.to_vec();
    let place = rng.below(bytes.len());
    match rng.below(8) {
        0 | 1 => bytes.iter_mut().skip(place).take(1).for_each(|byte| *byte ^= 1 << rng.below(8)),
        2 => bytes.truncate(place),
        3 => bytes.extend(any_bytes(rng)),
        4 => bytes.splice(place.., other.iter().copied().skip(place)).for_each(drop),
        5 => bytes.splice(..place, other.iter().copied().take(place)).for_each(drop),
        6 => bytes.iter_mut().take(2).for_each(|byte| *byte = rng.byte()), // the length
        _ => bytes = damaged_bytes(rng, &bytes),
    }
    bytes
}

/// These bytes as they are, changed once or more, with the length that is right for them or not; another's; or any.
fn string(rng: &mut Rng, good: &[u8], other: &[u8]) -> Vec<u8> {
    let mut bytes = match rng.weighted(&[15, 5, 15, 65]) {
        0 => return good.to_vec(),
        1 => return other.to_vec(),
        2 => return any_bytes(rng),
        _ => changed(rng, good, other),
    };
    for _ in 0..rng.weighted(&[70, 20, 10]) {
        bytes = changed(rng, &bytes, other);
    }
    match bytes.get(2..) {
        Some(body) if rng.percent(50) => framed(body),
        _ => bytes,
    }
}

// ---- what they are for

/// What is good at a point of an event.
struct Good {
    table: OwnedTable,
    marking: OwnedMarking,
    guards: Guards,
    bounds: Bounds,
    sheet: Vec<u8>,
    choice: Choice,
    /// One that runs.
    action: Option<u8>,
    /// What the action brings, or the day starts with.
    values: Vec<u8>,
}

/// Points of every sort at which something can be taken.
fn good_points(seed: u64) -> Vec<Good> {
    let (mut rng, mut points) = (Rng::new(seed), Mixed::new());
    let mut good = Vec::new();
    while good.len() < 400 {
        let event = points.next(&mut rng);
        let action = rng.one_of(&event.running());
        let values = match action {
            Some(action) => outputs(&mut rng, &event.table, &event.marking, action),
            None => random::values(&mut rng, &event.table),
        };
        let table = Table::new(event.table).expect("a table");
        let marking = Marking::new(&table, event.marking).expect("a marking");
        if let (Ok(guards), Ok(bounds)) = (Guards::new(&table, &event.guards), Bounds::new(&table, &event.bounds)) {
            let picked = table.pick(&marking, &guards).ok().filter(|choice| !choice.is_empty());
            if let (Ok(sheet), Some(choice)) = (table.sheet(&marking, &guards), picked) {
                good.push(Good { table, marking, guards, bounds, sheet: sheet.into_bytes(), choice, action, values });
            }
        }
    }
    good
}

/// So many strings, each for one of the points: of what is good there, and of what is good at another.
struct Strings {
    seed: u64,
    count: usize,
    of: fn(&Good) -> &[u8],
}

/// How many strings were taken, and how often each refusal came.
struct Fed {
    taken: usize,
    refused: [usize; 256],
    walked: Walked,
}

impl Strings {
    fn feed(self, mut feed: impl FnMut(&mut Walked, &Good, Vec<u8>) -> Result<(), Refusal>) -> Fed {
        let (mut rng, points) = (Rng::new(self.seed), good_points(self.seed));
        let mut fed = Fed { taken: 0, refused: [0; 256], walked: Walked::default() };
        for _ in 0..self.count {
            let (point, other) = (&points[rng.below(points.len())], &points[rng.below(points.len())]);
            let bytes = string(&mut rng, (self.of)(point), (self.of)(other));
            match feed(&mut fed.walked, point, bytes) {
                Ok(()) => fed.taken += 1,
                Err(refusal) => {
                    fed.walked.refusal(&refusal);
                    fed.refused[usize::from(refusal.number)] += 1;
                }
            }
        }
        fed
    }
}

impl Fed {
    /// So many were taken at least, each of these refusals came so often, and no others.
    fn assert_each(&self, taken: usize, refused: &[(usize, usize)]) {
        let counts: Vec<(usize, usize)> = self.refused.iter().copied().enumerate().filter(|(_, count)| *count > 0).collect();
        println!("{} taken, refused {counts:?}, seen {}", self.taken, self.walked.seen());
        assert!(self.taken >= taken, "{} taken", self.taken);
        assert!(counts.iter().map(|(number, _)| number).eq(refused.iter().map(|(number, _)| number)), "{counts:?}");
        assert!(counts.iter().zip(refused).all(|((_, count), (_, least))| count >= least), "{counts:?}");
    }
}

/// Whether this is one of a few, which are shown.
fn is_one_of_a_few(bytes: &[u8]) -> bool {
    bytes.iter().fold(0_u8, |sum, byte| sum.wrapping_mul(31).wrapping_add(*byte)) % 16 == 0
}

#[test]
fn tables() {
    let mut rng = Rng::new(221);
    let fed = Strings { seed: 222, count: TABLES, of: |good| good.table.as_bytes() }.feed(|walked, good, bytes| {
        // half of them damaged where it matters
        let bytes = if rng.percent(50) { damaged(&mut rng, good.table.as_bytes()) } else { bytes };
        let table = Table::new(&bytes[..])?;
        assert_eq!(rewritten::table(&table), bytes);
        walked.table(&table);
        walked.neighbours(table.nodes().skip(bytes.len() / 4 % 5).step_by(5));
        if is_one_of_a_few(&bytes) {
            walked.show(&(&table, table.nodes(), table.edges()));
        }
        Ok(())
    });
    fed.assert_each(20_000, &[(1, 40_000), (2, 15_000), (3, 10_000), (4, 10_000)]);
}

#[test]
fn markings() {
    let fed = Strings { seed: 223, count: MARKINGS, of: |good| good.marking.as_bytes() }.feed(|walked, good, bytes| {
        let marking = Marking::new(&good.table, &bytes)?;
        let contents = good.table.contents(&marking)?;
        assert_eq!(rewritten::marking(&contents, marking.has_ended()), bytes);
        walked.contents(&contents);
        if is_one_of_a_few(&bytes) {
            walked.show(&(&marking, contents, contents.nodes(), contents.edges()));
        }
        assert!(good.table.sheet(&marking, &good.guards).map_or_else(|refusal| [6, 8].contains(&refusal.number), |_| true));
        Ok(())
    });
    fed.assert_each(30_000, &[(5, 70_000)]);
}

#[test]
fn sheets() {
    let fed = Strings { seed: 224, count: SHEETS, of: |good| &good.sheet }.feed(|walked, good, bytes| {
        let sheet = Sheet::new(&good.table, &bytes)?;
        assert_eq!(rewritten::sheet(&sheet), bytes);
        let parts = Parts::of(good.table.as_bytes()).expect("a table");
        sheet.ends().for_each(|end| rewritten::assert_can_be_of(&parts, &end));
        walked.sheet(&sheet);
        if is_one_of_a_few(&bytes) {
            walked.show(&sheet);
            walked.show(&sheet.ends());
            sheet.ends().for_each(|end| walked.show(&end.paths()));
        }
        Ok(())
    });
    fed.assert_each(25_000, &[(255, 70_000)]);
}

#[test]
fn guards() {
    let fed = Strings { seed: 225, count: GUARDS, of: |good| good.guards.as_bytes() }.feed(|walked, good, bytes| {
        let guards = Guards::new(&good.table, &bytes)?;
        assert_eq!(guards.as_bytes(), bytes);
        walked.guards(&guards);
        walked.show(&guards);
        assert!(good.table.pick(&good.marking, &guards).map_or_else(|refusal| refusal.number == 8, |_| true));
        Ok(())
    });
    fed.assert_each(9_000, &[(7, 40_000)]);
}

#[test]
fn bounds() {
    let fed = Strings { seed: 226, count: BOUNDS, of: |good| good.bounds.as_bytes() }.feed(|walked, good, bytes| {
        let bounds = Bounds::new(&good.table, &bytes)?;
        assert_eq!((bounds.as_bytes(), rewritten::bounds(&bounds)), (&bytes[..], bytes.clone()));
        walked.bounds(&bounds);
        walked.show(&bounds);
        assert!(good.table.pick(&good.marking, good.guards.with(&bounds)).map_or_else(|refusal| refusal.number == 8, |_| true));
        Ok(())
    });
    fed.assert_each(15_000, &[(18, 30_000)]);
}

#[test]
fn choices() {
    let fed = Strings { seed: 227, count: CHOICES, of: |good| good.choice.as_bytes() }.feed(|walked, good, bytes| {
        let choice = Choice::new(&bytes)?;
        assert_eq!(choice.as_bytes(), bytes);
        walked.choice(&choice);
        walked.show(&choice);
        let after = good.table.step(&good.marking, &good.guards, &choice);
        assert!(after.map_or_else(|refusal| (9..=12).contains(&refusal.number), |after| Marking::new(&good.table, after.as_bytes()).is_ok()));
        Ok(())
    });
    fed.assert_each(30_000, &[(9, 20_000)]);
}

/// Lists for start, or for the finish of an action.
#[test]
fn values() {
    let fed = Strings { seed: 228, count: VALUES, of: |good| &good.values }.feed(|walked, Good { table, marking, action, .. }, bytes| {
        let values = Values::new(&bytes);
        let after = match action {
            Some(action) => table.finish(marking, *action, &values)?,
            None => table.start(&values)?,
        };
        let contents = table.contents(&after)?;
        assert_eq!(rewritten::marking(&contents, false), after.as_bytes());
        walked.contents(&contents);
        Ok(())
    });
    fed.assert_each(15_000, &[(15, 30_000), (16, 300)]);
}

/// Every string for every type, mostly for what it isn't; but no bounds, an empty sheet and a marking that holds nothing are the same bytes.
#[test]
fn one_for_another() {
    let mut taken = [0; 6];
    for Good { table, marking, guards, bounds, sheet, choice, .. } in &good_points(229) {
        let strings = [table.as_bytes(), marking.as_bytes(), sheet, guards.as_bytes(), bounds.as_bytes(), choice.as_bytes()];
        for bytes in strings {
            let mut note = |number: usize, rewritten: Option<Vec<u8>>| {
                assert!(rewritten.iter().all(|rewritten| rewritten == bytes));
                taken[number] += rewritten.iter().count();
            };
            note(0, Table::new(bytes).ok().map(|table| rewritten::table(&table)));
            note(1, Marking::new(table, bytes).ok().map(|other| rewritten::marking(&table.contents(&other).unwrap(), other.has_ended())));
            note(2, Sheet::new(table, bytes).ok().map(|sheet| rewritten::sheet(&sheet)));
            note(3, Guards::new(table, bytes).ok().map(|guards| guards.as_bytes().to_vec()));
            note(4, Bounds::new(table, bytes).ok().map(|bounds| rewritten::bounds(&bounds)));
            note(5, Choice::new(bytes).ok().map(|choice| choice.as_bytes().to_vec()));
            assert!(matches!(table.sheet(marking, Terms::new(bytes).with_bounds(bytes)), Err(Refusal { number: 7 | 18, .. })));
        }
    }
    assert!(taken[0] == 400 && taken[1..].iter().all(|count| (400..=800).contains(count)), "{taken:?}");
}
