//! Counts over random tables and events: what they reach, and what must hold at
//! every point of them.

mod common;

use common::{big_endian, ends_of, for_each_point, number, reply, End, MOST, ROOM};
use reading::random::{self, Event, Parts, Rng};
use reading::{
    check, finish, pick, pick_within, sheet, sheet_within, start, step, step_within, why_within,
    Answer, Board, NO_BOUNDS, NO_NODE,
};
use std::collections::{BTreeMap, BTreeSet};

/// Enumeration steps per call, so that no point takes long.
const BUDGET: u64 = 2_000;

#[test]
fn random_tables_are_good_and_of_every_size() {
    let mut rng = Rng::new(1);
    let (mut nodes, mut edges, mut chains) = (BTreeSet::new(), BTreeSet::new(), BTreeSet::new());
    for _ in 0..20_000 {
        let table = random::table(&mut rng);
        assert_eq!(check(&table), Answer::Good(vec![]), "{table:?}");
        let parts = Parts::of(&table).unwrap();
        nodes.insert(parts.nodes.len());
        edges.insert(parts.edges.len());
        chains.insert(longest_chain(&parts));
    }
    assert!(nodes.into_iter().eq(1..=120));
    assert!([0, 64, 65, 200].iter().all(|number| edges.contains(number)));
    assert!(edges.len() >= 150, "{edges:?}");
    assert!(chains.into_iter().eq(0..=15));
}

/// The number of control nodes in the longest chain of a table without cycles.
fn longest_chain(parts: &Parts) -> usize {
    let mut longest = vec![0; parts.nodes.len()];
    for _ in 0..16 {
        for [_, source, target, _] in &parts.edges {
            let target = usize::from(*target);
            if (8..=11).contains(&parts.nodes[target][0]) {
                longest[target] = longest[target].max(longest[usize::from(*source)] + 1);
            }
        }
    }
    longest.into_iter().max().unwrap_or(0)
}

#[test]
fn damaged_tables_are_refused_in_every_way() {
    let mut rng = Rng::new(2);
    let mut counts = [0; 5];
    let mut places = vec![BTreeSet::new(); 5];
    for _ in 0..20_000 {
        let table = random::table(&mut rng);
        match check(&random::damaged(&mut rng, &table)) {
            Answer::Good(_) => counts[0] += 1,
            Answer::Refused { number, place } => {
                counts[usize::from(number)] += 1;
                places[usize::from(number)].insert(place);
            }
        }
    }
    println!("good and refusals 1 to 4: {counts:?}");
    assert!(counts.iter().all(|count| *count >= 2_000), "{counts:?}");
    assert_eq!(places[1].len(), 1);
    assert!(places[2].len() >= 45);
    assert!(places[3].len() >= 60);
    assert!(places[4].len() >= 45);
}

#[test]
fn the_same_seed_gives_the_same_event() {
    let play = |seed: u64| {
        let mut rng = Rng::new(seed);
        let mut event = Event::begin(&mut rng);
        while event.go_on(&mut rng) {}
        (event.table, event.marking, event.guards, event.bounds)
    };
    assert_eq!(play(7), play(7));
    assert_ne!(play(7), play(8));
}

/// What a random call at this point answers, `None` if it takes too long.
fn random_call(rng: &mut Rng, event: &Event) -> Option<Answer> {
    let (table, guards, bounds) = (&event.table, &event.guards, &event.bounds);
    let marking = match rng.below(20) {
        0 => random::damaged_bytes(rng, &event.marking),
        _ => event.marking.clone(),
    };
    let room = match rng.below(20) {
        0 => rng.below(12),
        _ => ROOM,
    };
    match rng.below(5) {
        0 => Some(start(table, &random::values(rng, table), room)),
        1 => sheet_within(table, &marking, guards, bounds, room, BUDGET),
        2 => {
            let node = event.node(rng);
            pick_within(table, &marking, guards, bounds, node, room, BUDGET)
        }
        3 => {
            let choice = random::choice(rng, event.ends().unwrap_or(1));
            step_within(table, &marking, guards, bounds, &choice, room, BUDGET)
        }
        _ => {
            let running = event.running();
            let any = rng.below(50) as u8;
            let action = rng.one_of(&running).unwrap_or(any);
            let values = random::outputs(rng, table, &marking, action);
            Some(finish(table, &marking, action, &values, room))
        }
    }
}

#[test]
fn random_events_reach_every_refusal() {
    let mut counts = [0; 19];
    let mut skipped = 0;
    for_each_point(3, 500, |rng, event| {
        for _ in 0..3 {
            match random_call(rng, event) {
                Some(answer) => counts[usize::from(number(&answer))] += 1,
                None => skipped += 1,
            }
        }
    });
    println!("good and refusals 1 to 18: {counts:?}, skipped {skipped}");
    assert_eq!(counts[1..=4], [0; 4]);
    assert!(counts[5..].iter().all(|count| *count >= 40), "{counts:?}");
    assert!(counts[0] >= 2_000);
    assert!(skipped * 50 < counts[0]);
}

#[test]
fn every_marking_written_is_a_marking() {
    for_each_point(4, 200, |_, event| {
        let guards = vec![1; usize::from(event.table[4])];
        let answer = sheet_within(
            &event.table,
            &event.marking,
            &guards,
            &NO_BOUNDS,
            ROOM,
            BUDGET,
        );
        assert!(!matches!(answer.as_ref().map(number), Some(5)), "{event:?}");
    });
}

#[test]
fn pick_is_the_first_acceptable_choice() {
    let mut compared = 0;
    for_each_point(5, 200, |rng, event| {
        let ends = event.ends().unwrap_or(99);
        if ends > 0 && ends <= 6 {
            compared += 1;
            compare_pick(event, ends as u32, NO_NODE);
            let node = event.node(rng);
            compare_pick(event, ends as u32, node);
        }
    });
    println!("picks compared with all sets of ends: {compared}");
    assert!(compared >= 500);
}

/// Compares pick with step, tried on all sets of ends. The lowest end is the
/// highest bit, so that a choice comes earlier the higher its number is.
fn compare_pick(event: &Event, ends: u32, node: u8) {
    let (table, marking) = (&event.table, &event.marking);
    let (guards, bounds) = (&event.guards, &event.bounds);
    let is_accepted =
        |choice: &[u8]| number(&step(table, marking, guards, bounds, choice, ROOM)) == 0;
    let choice_of = |set: u32| -> Vec<u8> {
        let holds = |end: &u32| set >> (ends - 1 - end) & 1 == 1;
        (0..ends).filter(holds).map(|end| end as u8).collect()
    };
    let targets = targets(event);
    let first = (0..1 << ends).rev().map(choice_of).find(|choice| {
        let has_node = choice
            .iter()
            .any(|end| targets[usize::from(*end)].contains(&node));
        (node == NO_NODE || has_node) && is_accepted(choice)
    });
    let expected = match first {
        Some(choice) => Answer::Good(choice),
        None => common::refused(13, node),
    };
    assert_eq!(pick(table, marking, guards, bounds, node, ROOM), expected);
}

/// For each end the nodes it belongs to: the target of its last edge and, for a
/// pin, its action.
fn targets(event: &Event) -> Vec<Vec<u8>> {
    let parts = Parts::of(&event.table).unwrap();
    let (table, marking) = (&event.table, &event.marking);
    let sheet = reply(sheet(table, marking, &event.guards, &event.bounds, ROOM));
    let nodes_of = |end: End| {
        let target = parts.edges[usize::from(end.record[0])][2];
        let [kind, owner, ..] = parts.nodes[usize::from(target)];
        if kind == 3 {
            vec![target, owner]
        } else {
            vec![target]
        }
    };
    ends_of(&sheet).into_iter().map(nodes_of).collect()
}

/// The entries of a bounds list, as many as are whole: edge, low, high.
fn entries_of(list: &[u8]) -> Vec<(u8, u32, u32)> {
    let records = list.get(4..).unwrap_or(&[]).chunks_exact(9);
    records
        .map(|record| {
            (
                record[0],
                big_endian(&record[1..5]),
                big_endian(&record[5..9]),
            )
        })
        .collect()
}

#[test]
fn bounds_bar_exactly_the_ends_with_a_value_outside_on_their_paths() {
    let (mut compared, mut barred) = (0, 0);
    let mut near = [0; 8];
    for_each_point(7, 400, |_, event| {
        let sheet_under = |bounds: &[u8]| {
            let (table, marking) = (&event.table, &event.marking);
            sheet_within(table, marking, &event.guards, bounds, ROOM, BUDGET)
        };
        let all = sheet_under(&NO_BOUNDS);
        let left = sheet_under(&event.bounds);
        if let (Some(Answer::Good(all)), Some(Answer::Good(left))) = (all, left) {
            let entries = entries_of(&event.bounds);
            let mut expected = ends_of(&all);
            for end in &expected {
                count_near(end, &entries, &mut near);
            }
            expected.retain(|end| lies_in_bounds(end, &entries));
            assert_eq!(ends_of(&left), expected, "{event:?}");
            compared += 1;
            barred += usize::from(all != left);
        }
    });
    println!("sheets compared: {compared}, with ends barred: {barred}, values near: {near:?}");
    assert!(compared >= 2_500);
    assert!(barred >= 500);
    assert!(near.iter().all(|count| *count >= 20), "{near:?}");
}

/// Whether the end's value lies in the bounds of each listed edge on its paths. A
/// value is the same all the way, and no path to an end without a value has an
/// object edge.
fn lies_in_bounds(end: &End, entries: &[(u8, u32, u32)]) -> bool {
    let mut on_paths = entries.iter().filter(|(edge, ..)| end.edges.contains(edge));
    on_paths.all(|(_, low, high)| (*low..=*high).contains(&end.value))
}

/// Counts how the end's value lies to the bounds on its paths: equal to low, one
/// below it, equal to high, one above it, equal to both, in the whole range; and
/// whether it is 0 or 4294967295.
fn count_near(end: &End, entries: &[(u8, u32, u32)], near: &mut [usize; 8]) {
    let value = u64::from(end.value);
    for (edge, low, high) in entries {
        let (low, high) = (u64::from(*low), u64::from(*high));
        let is_so = [
            value == low,
            value + 1 == low,
            value == high,
            value == high + 1,
            value == low && value == high,
            low == 0 && high == u64::from(MOST),
            value == 0,
            value == u64::from(MOST),
        ];
        for (count, is_so) in near.iter_mut().zip(is_so) {
            *count += usize::from(is_so && end.edges.contains(edge));
        }
    }
}

#[test]
fn random_bounds_lists_are_good_or_bad_in_every_way() {
    let mut rng = Rng::new(8);
    let (mut empty, mut listing) = (0, 0);
    let mut bad = BTreeMap::new();
    for _ in 0..4_000 {
        let table = random::table(&mut rng);
        let parts = Parts::of(&table).unwrap();
        let marking = live_marking(&mut rng, &table);
        let guards = vec![1; parts.edges.len()];
        for _ in 0..10 {
            let list = random::bounds(&mut rng, &table, &marking);
            let answer = sheet_within(&table, &marking, &guards, &list, ROOM, BUDGET);
            let is_refused = answer == Some(common::refused(18, 0));
            let fault = fault_of(&list, &parts);
            assert_eq!(is_refused, fault.is_some(), "{list:?} {fault:?}");
            match fault {
                Some(fault) => *bad.entry(fault).or_insert(0) += 1,
                None if list == NO_BOUNDS => empty += 1,
                None => listing += 1,
            }
        }
    }
    println!("lists with count 0: {empty}, that list edges: {listing}, bad: {bad:?}");
    let refused: i32 = bad.values().sum();
    assert!((12_000..15_000).contains(&empty));
    assert!((24_000..27_000).contains(&listing));
    assert!((900..1_300).contains(&refused));
    assert!(
        bad.len() == 10 && bad.values().all(|count| *count >= 40),
        "{bad:?}"
    );
}

/// A random marking of this table that is not ended.
fn live_marking(rng: &mut Rng, table: &[u8]) -> Vec<u8> {
    loop {
        let marking = random::marking(rng, table);
        if marking[3] == 0 {
            return marking;
        }
    }
}

/// What is wrong with this bounds list, the first of these things, if any is.
fn fault_of(list: &[u8], parts: &Parts) -> Option<&'static str> {
    if list.is_empty() {
        return Some("no bytes");
    }
    if list.len() < 2 || list.len() - 2 != big_endian(&list[..2]) as usize {
        return Some("length");
    }
    if list.get(2) != Some(&1) {
        return Some("version");
    }
    let asked_for = list.get(3).map_or(4, |count| 4 + 9 * usize::from(*count));
    if list.len() < asked_for {
        return Some("cut");
    }
    if list.len() > asked_for {
        return Some("bytes left over");
    }
    fault_of_entries(&entries_of(list), parts)
}

/// The same for the entries of a list of which nothing is cut.
fn fault_of_entries(entries: &[(u8, u32, u32)], parts: &Parts) -> Option<&'static str> {
    let kind_of = |edge: u8| parts.edges.get(usize::from(edge)).map(|record| record[0]);
    if entries.iter().any(|(edge, ..)| kind_of(*edge).is_none()) {
        return Some("no such edge");
    }
    if entries.iter().any(|(edge, ..)| kind_of(*edge) == Some(0)) {
        return Some("a control edge");
    }
    if entries.windows(2).any(|pair| pair[0].0 == pair[1].0) {
        return Some("an edge twice");
    }
    if entries.windows(2).any(|pair| pair[0].0 > pair[1].0) {
        return Some("edges falling");
    }
    if entries.iter().any(|(_, low, high)| low > high) {
        return Some("low above high");
    }
    None
}

#[test]
fn most_events_move_on_under_bounds() {
    let (mut movable, mut left) = (0, 0);
    for_each_point(9, 300, |_, event| {
        let can_move = |bounds: &[u8]| {
            let (table, marking) = (&event.table, &event.marking);
            match pick_within(table, marking, &event.guards, bounds, NO_NODE, ROOM, BUDGET) {
                Some(Answer::Good(choice)) => !choice.is_empty(),
                _ => false,
            }
        };
        if can_move(&NO_BOUNDS) {
            movable += 1;
            left += usize::from(can_move(&event.bounds));
        }
    });
    println!("points with a move: {movable}, left under bounds: {left}");
    assert!(movable >= 600);
    assert!(10 * left >= 8 * movable && left < movable);
}

#[test]
fn wish_2_changes_picks_and_steps() {
    let (mut calls, mut new_picks) = (0, 0);
    let mut new_steps = BTreeMap::new();
    for_each_point(10, 1_300, |rng, event| {
        if calls == 10_000 {
            return;
        }
        calls += 1;
        let freed = freed_pairs(event);
        let (table, marking) = (&event.table, &event.marking);
        let (guards, bounds) = (&event.guards, &event.bounds);
        let any_node = event.node(rng);
        let node = rng.one_of(&[NO_NODE, any_node]).unwrap();
        let pick = pick_within(table, marking, guards, bounds, node, ROOM, BUDGET);
        new_picks += usize::from(pick.map_or(false, |answer| is_new_pick(&answer, &freed)));
        let choice = random::choice(rng, event.ends().unwrap_or(1));
        let step = step_within(table, marking, guards, bounds, &choice, ROOM, BUDGET);
        if let Some(answer) = step.filter(|answer| is_new_step(&choice, answer, &freed)) {
            *new_steps.entry(number(&answer)).or_insert(0) += 1;
        }
    });
    println!("new of {calls} picks: {new_picks}; of as many steps, by number: {new_steps:?}");
    assert_eq!(calls, 10_000);
    assert!(new_picks >= 50);
    assert!(new_steps.values().sum::<i32>() >= 40);
    assert!(new_steps.keys().eq(&[0, 10, 11, 12]));
}

/// The pairs of ends that wish 2 frees at this point, none if sheet refuses it.
fn freed_pairs(event: &Event) -> Vec<(u8, u8)> {
    let (table, marking) = (&event.table, &event.marking);
    match Board::within(table, marking, &event.guards, &event.bounds, BUDGET) {
        Some(Ok(board)) => board.freed_pairs(),
        _ => Vec::new(),
    }
}

/// The lowest end of a freed pair that this choice holds.
fn lowest_freed(choice: &[u8], freed: &[(u8, u8)]) -> Option<u8> {
    let is_held = |pair: &&(u8, u8)| choice.contains(&pair.0) && choice.contains(&pair.1);
    freed.iter().filter(is_held).map(|pair| pair.0).min()
}

/// Whether pick answered something else before wish 2. A choice that holds a freed
/// pair was not acceptable then; all others were judged as now.
fn is_new_pick(answer: &Answer, freed: &[(u8, u8)]) -> bool {
    match answer {
        Answer::Good(choice) => lowest_freed(choice, freed).is_some(),
        Answer::Refused { .. } => false,
    }
}

/// Whether step answered something else before wish 2. A choice that holds a freed
/// pair got 10 then, at the lowest end of such a pair or of one that still competes.
fn is_new_step(choice: &[u8], answer: &Answer, freed: &[(u8, u8)]) -> bool {
    match (lowest_freed(choice, freed), answer) {
        (None, _) => false,
        (Some(lowest), Answer::Refused { number: 10, place }) => lowest < *place,
        (Some(_), answer) => number(answer) != 9,
    }
}

#[test]
fn no_bytes_are_too_strange() {
    let mut rng = Rng::new(6);
    for _ in 0..4_000 {
        let event = Event::anywhere(&mut rng);
        let table = random::damaged(&mut rng, &event.table);
        let marking = random::damaged_bytes(&mut rng, &event.marking);
        let guards = random::damaged_bytes(&mut rng, &event.guards);
        let bounds = random::damaged_bytes(&mut rng, &event.bounds);
        let bytes: Vec<u8> = (0..rng.below(40)).map(|_| rng.byte()).collect();
        let (node, room) = (rng.byte(), rng.below(100));
        let table = if rng.percent(50) {
            &event.table
        } else {
            &table
        };
        let marking = if rng.percent(50) {
            &event.marking
        } else {
            &marking
        };
        let guards = if rng.percent(50) {
            &event.guards
        } else {
            &guards
        };
        let bounds = if rng.percent(50) {
            &event.bounds
        } else {
            &bounds
        };
        check(&bytes);
        start(table, &bytes, room);
        sheet_within(table, marking, guards, bounds, room, BUDGET);
        sheet_within(table, marking, guards, &bytes, room, BUDGET);
        pick_within(table, marking, guards, bounds, node, room, BUDGET);
        why_within(table, marking, guards, bounds, node, room, BUDGET);
        step_within(table, marking, guards, bounds, &bytes, room, BUDGET);
        finish(table, marking, node, &bytes, room);
        random::values(&mut rng, &bytes);
        random::marking(&mut rng, &bytes);
        random::guards(&mut rng, &bytes);
        random::bounds(&mut rng, &bytes, marking);
        random::bounds(&mut rng, table, &bytes);
        random::outputs(&mut rng, table, &bytes, node);
        random::damaged(&mut rng, &bytes);
        let mut strange = Event::at(&mut rng, table.clone(), marking.clone());
        strange.go_on(&mut rng);
    }
}
