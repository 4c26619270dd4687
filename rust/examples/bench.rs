//! The seven operations timed beside the plain reading of the paper, in one run and build: the small event, a day of 41 nodes and 40 edges with 11 ends, 48
//! nodes and 64 edges ("limits") and 120 and 200 ("larger") with 64 offers and 20 ends, and events on which joins or picks are hard: forks of decisions,
//! and what was hunted for by climbing (`crates/vectors/worst.txt`). Prints medians in microseconds, how many times as long the reading takes, the bytes of
//! stack that the engine's call takes, and for the last the states that the searches of pick and why visit (why's at its levels before the last, all in
//! all): the archive doesn't count them, the gate holds the engine to the numbers of that file. The day's sheet and pick are timed under a long bounds list
//! too, and a line says how many times as long that takes as without bounds. Lines say how many times as long why takes as pick for the same node.
//!
//!     cargo run --release --example bench

#[path = "events/built.rs"]
mod built;
#[path = "events/full.rs"]
mod full;
#[path = "events/hard.rs"]
mod hard;
#[path = "events/stack.rs"]
mod stack;

use built::Day;
use full::Full;
use hard::HARD;
use keshmirun::{Bounds, Choice, EdgeKind, Guards, NodeId, OwnedTable, Refusal, Room, Terms, Values, NO_BOUNDS, NO_NODE};
use reading::Answer;
use std::time::{Duration, Instant};

const ROUNDS: usize = 7;
const LEAST_ROUND: Duration = Duration::from_millis(2);
/// The reading stops after so many enumeration steps; what it then took is a lower bound.
const BUDGET: u64 = 300_000;
/// For why the reading goes through every set of ends, and stops after so many: the day's are fewer.
const SETS: u64 = 4_096;

/// What the operations are given at one point of an event.
struct Point {
    name: &'static str,
    table: OwnedTable,
    /// For start.
    values: Values<Vec<u8>>,
    /// For sheet, pick, why and step.
    marking: Vec<u8>,
    guards: Guards,
    choice: Choice,
    /// For why, and pick beside it: a node that has ends.
    node: NodeId,
    /// For finish: a marking in which the action runs, and its results.
    running: Vec<u8>,
    action: NodeId,
    results: Values<Vec<u8>>,
}

fn main() -> Result<(), Refusal> {
    println!("{:8} {:18} {:>11} {:>12} {:>9} {:>7} {:>7}", "", "", "engine us", "reading us", "ratio", "stack", "states");
    all_seven(&small()?);
    let day = day()?;
    let without = all_seven(&day);
    under_bounds(&day, without)?;
    all_seven(&at_its_limits("limits", full::limits()?)?);
    all_seven(&at_its_limits("larger", full::larger()?)?);
    for (number, event) in HARD.iter().enumerate() {
        let name = format!("hard {}", number + 1);
        let (table, marking, guards) = (hex(event.table), hex(event.marking), hex(event.guards));
        sheet(&name, &table, &marking, &guards, &NO_BOUNDS);
        for node in event.nodes {
            pick(&format!("{name} for {node}"), &table, &marking, &guards, &NO_BOUNDS, *node);
        }
    }
    let times: Vec<(f64, Option<f64>)> = worst().collect();
    let slowest = times.iter().map(|(pick, _)| *pick).fold(0.0, f64::max);
    println!("slowest of the picks with states: {slowest:.1} us");
    let named: Vec<(f64, f64)> = times.into_iter().filter_map(|(pick, why)| Some((pick, why?))).collect();
    let (picks, whys) = named.iter().fold((0.0, 0.0), |(picks, whys), (pick, why)| (picks + pick, whys + why));
    let ratios = named.iter().map(|(pick, why)| why / pick);
    let (least, most) = (ratios.clone().fold(f64::MAX, f64::min), ratios.fold(0.0, f64::max));
    let slowest = named.iter().map(|(_, why)| *why).fold(0.0, f64::max);
    println!("why for their nodes: {:.2} times as long as pick in all, {least:.2} to {most:.2} times each; slowest {slowest:.1} us", whys / picks);
    Ok(())
}

/// The events on which searches are known to be hard, with the states that they visit: how long pick takes and, where a node is named, why.
fn worst() -> impl Iterator<Item = (f64, Option<f64>)> {
    let lines = include_str!("../../crates/vectors/worst.txt").lines().enumerate();
    lines.filter(|(_, line)| !line.starts_with('#')).map(|(number, line)| {
        let words: Vec<&str> = line.split(' ').collect();
        let (table, marking, guards) = (hex(words[0]), hex(words[1]), hex(words[2]));
        let node: u8 = words[3].parse().expect("a node");
        let name = format!("worst {} for {node}", number + 1);
        let pick = row(
            "pick",
            &name,
            words[4],
            |out| keshmirun::pick(&table, &marking, Terms::new(&guards), node, out),
            || reading::pick_within(&table, &marking, &guards, &NO_BOUNDS, node, Room::CHOICE, BUDGET),
        );
        let levels: usize = words[5..].iter().map(|states| states.parse::<usize>().expect("a number")).sum();
        (pick, (node != NO_NODE).then(|| why(&name, &levels.to_string(), &table, &marking, &guards, node)))
    })
}

/// The paper's small event; the first end is taken, and the action finished.
fn small() -> Result<Point, Refusal> {
    let table = built::small()?;
    let (values, guards, choice) = (Values::of([[7, 9]]), table.guards(), Choice::of([0])?);
    let marking = table.start(&values)?;
    let running = table.step(&marking, &guards, &choice)?.into_bytes();
    let (action, results) = (NodeId::new(5), no_values());
    Ok(Point { name: "small event", table, values, marking: marking.into_bytes(), guards, choice, node: action, running, action, results })
}

/// The day when its round is called: the seats are full, two are left over, and both matches begin; then the first of them ends.
fn day() -> Result<Point, Refusal> {
    let Day { table, to_reserve, call_round, match_a, .. } = built::day()?;
    let (values, results) = (Values::of([[40, 17, 23, 8, 31, 5]]), Values::of([[17], [40]]));
    let mut guards = table.guards();
    guards.close(to_reserve)?;
    let mut marking = table.start(&values)?;
    for _ in 0..4 {
        marking = table.step(&marking, &guards, &table.pick(&marking, &guards)?)?;
    }
    marking = table.finish(&marking, call_round, &Values::NONE)?;
    guards.open(to_reserve)?;
    let choice = table.pick(&marking, &guards)?;
    let running = table.step(&marking, &guards, &choice)?.into_bytes();
    Ok(Point { name: "day", table, values, marking: marking.into_bytes(), guards, choice, node: match_a, running, action: match_a, results })
}

/// All ends are taken, and the action finished.
fn at_its_limits(name: &'static str, full: Full) -> Result<Point, Refusal> {
    let (marking, running) = (full.marking(false), full.marking(true));
    let Full { table, action, end } = full;
    let (guards, choice) = (table.guards(), Choice::of(0..20)?);
    Ok(Point { name, table, values: no_values(), marking, guards, choice, node: end, running, action, results: no_values() })
}

fn no_values() -> Values<Vec<u8>> {
    Values::new(Vec::new())
}

/// How long sheet takes, and pick with none named.
fn all_seven(point: &Point) -> [f64; 2] {
    let Point { name, table, values, marking, guards, choice, node, running, action, results } = point;
    let (table, guards, choice, node, action) = (table.as_bytes(), guards.as_bytes(), choice.as_bytes(), node.number(), action.number());
    let (values, results) = (values.as_bytes(), results.as_bytes());
    row("check", name, "", |_| keshmirun::check(table).map(|_| 0), || Some(reading::check(table)));
    row("start", name, "", |out| keshmirun::start(table, values, out), || Some(reading::start(table, values, Room::MARKING)));
    let sheet = sheet(name, table, marking, guards, &NO_BOUNDS);
    let none_named = pick(name, table, marking, guards, &NO_BOUNDS, NO_NODE);
    let for_node = format!("{name} for {node}");
    let named = pick(&for_node, table, marking, guards, &NO_BOUNDS, node);
    let why = why(&for_node, "", table, marking, guards, node);
    println!("{for_node}: why takes {:.2} times as long as pick", why / named);
    row(
        "step",
        name,
        "",
        |out| keshmirun::step(table, marking, Terms::new(guards), choice, out),
        || reading::step_within(table, marking, guards, &NO_BOUNDS, choice, Room::MARKING, BUDGET),
    );
    row(
        "finish",
        name,
        "",
        |out| keshmirun::finish(table, running, action, results, out),
        || Some(reading::finish(table, running, action, results, Room::MARKING)),
    );
    [sheet, none_named]
}

/// Sheet and pick with all object edges listed and nothing barred, so that all else is as without bounds.
fn under_bounds(Point { name, table, marking, guards, .. }: &Point, without: [f64; 2]) -> Result<(), Refusal> {
    let mut bounds = Bounds::none(table);
    for edge in table.edges().filter(|edge| edge.kind() == EdgeKind::Object) {
        bounds.set(edge.id(), ..)?;
    }
    let name = format!("{name}, {} bounded", bounds.entries().count());
    let sheet = sheet(&name, table.as_bytes(), marking, guards.as_bytes(), bounds.as_bytes()) / without[0];
    let pick = pick(&name, table.as_bytes(), marking, guards.as_bytes(), bounds.as_bytes(), NO_NODE) / without[1];
    println!("{name}: sheet takes {sheet:.2} times as long as without bounds, pick {pick:.2} times");
    Ok(())
}

fn sheet(name: &str, table: &[u8], marking: &[u8], guards: &[u8], bounds: &[u8]) -> f64 {
    row(
        "sheet",
        name,
        "",
        |out| keshmirun::sheet(table, marking, Terms::new(guards).with_bounds(bounds), out),
        || reading::sheet_within(table, marking, guards, bounds, Room::SHEET, BUDGET),
    )
}

fn pick(name: &str, table: &[u8], marking: &[u8], guards: &[u8], bounds: &[u8], node: u8) -> f64 {
    row(
        "pick",
        name,
        "",
        |out| keshmirun::pick(table, marking, Terms::new(guards).with_bounds(bounds), node, out),
        || reading::pick_within(table, marking, guards, bounds, node, Room::CHOICE, BUDGET),
    )
}

fn why(name: &str, states: &str, table: &[u8], marking: &[u8], guards: &[u8], node: u8) -> f64 {
    row(
        "why",
        name,
        states,
        |out| {
            let reason = keshmirun::why(table, marking, Terms::new(guards), node)?;
            out[0] = reason.number();
            Ok(1)
        },
        || reading::why_within(table, marking, guards, &NO_BOUNDS, node, 1, SETS),
    )
}

/// Times both, and prints a line: how long the engine takes. Both must say the same, where the reading comes to its answer.
fn row(
    operation: &str,
    event: &str,
    states: &str,
    engine: impl Fn(&mut [u8]) -> Result<usize, Refusal> + Sync,
    plain: impl Fn() -> Option<Answer>,
) -> f64 {
    let mut out = [0; Room::MARKING];
    let answer = match engine(&mut out) {
        Ok(length) => Answer::Good(out[..length].to_vec()),
        Err(Refusal { number, place }) => Answer::Refused { number, place },
    };
    let read = plain();
    assert!(read.is_none() || read.as_ref() == Some(&answer), "{operation} of {event}: {answer:?} and {read:?}");
    let fast = median(|| engine(&mut out).unwrap_or_else(|refusal| usize::from(refusal.number)));
    let slow = median(|| usize::from(plain() == read));
    let bound = if read.is_none() { ">" } else { "" };
    let deep = stack::taken(|| {
        // what is lent stands elsewhere
        let mut lent = vec![0; Room::MARKING];
        let _ = engine(&mut lent);
    });
    let (slow, ratio) = (format!("{bound}{slow:.2}"), format!("{bound}{:.1}", slow / fast));
    println!("{operation:8} {event:18} {fast:>11.2} {slow:>12} {ratio:>9} {deep:>7} {states:>7}");
    fast
}

/// The median time of a call over some rounds, in microseconds. The calls of a round fill a while, and what they answer is used.
fn median(mut call: impl FnMut() -> usize) -> f64 {
    let once = time(1, &mut call);
    let calls = (LEAST_ROUND.as_secs_f64() / once.as_secs_f64().max(1e-9)).clamp(1.0, 100_000.0) as u32;
    let rounds = if once > 20 * LEAST_ROUND { 1 } else { ROUNDS };
    let mut times: Vec<Duration> = (0..rounds).map(|_| time(calls, &mut call) / calls).collect();
    times.sort_unstable();
    times[rounds / 2].as_secs_f64() * 1e6
}

fn time(calls: u32, call: &mut impl FnMut() -> usize) -> Duration {
    let begin = Instant::now();
    let used = (0..calls).fold(0_usize, |used, _| used.wrapping_add(call()));
    let took = begin.elapsed();
    assert!(used < usize::MAX);
    took
}

fn hex(text: &str) -> Vec<u8> {
    let digit = |byte: u8| (byte as char).to_digit(16).unwrap_or(0) as u8;
    text.as_bytes().chunks(2).map(|pair| 16 * digit(pair[0]) + digit(pair[1])).collect()
}
