//! Random bounds lists of a table, drawn near the values of a marking.

use super::damage::{change_byte, change_length};
use super::event::read_both;
use super::{Parts, Rng};
use crate::bytes::{unsigned, with_length, Value};
use crate::table::{CONTROL, OBJECT};
use crate::terms::{write_bounds, Entry};

/// A bounds list of this table, legal most of the time: one in three has count 0,
/// the others list object edges with bounds near the values of this marking.
pub fn bounds(rng: &mut Rng, table: &[u8], marking: &[u8]) -> Vec<u8> {
    let edges = Parts::of(table).unwrap_or_default().edges;
    let oldest = oldest_values(table, marking);
    let entries = random_entries(rng, &edges, &oldest);
    match rng.weighted(&[1, 10, 24]) {
        0 => spoiled_list(rng, &edges, entries),
        1 => write_bounds(&[]),
        _ => write_bounds(&entries),
    }
}

/// Per node, the oldest value it holds. No nodes if table or marking is not good.
fn oldest_values(table: &[u8], marking: &[u8]) -> Vec<Option<u32>> {
    let oldest_of = |stock: &Vec<Value>| stock.first().map(|value| unsigned(*value));
    match read_both(table, marking) {
        Some((_, marking)) => marking.stocks.iter().map(oldest_of).collect(),
        None => Vec::new(),
    }
}

/// Entries for some of the object edges, guarded or not, at least one if there is
/// one.
fn random_entries(rng: &mut Rng, edges: &[[u8; 4]], oldest: &[Option<u32>]) -> Vec<Entry> {
    let objects = edges_of_kind(edges, OBJECT);
    let share = rng.between(0, 60);
    let always = rng.one_of(&objects);
    let mut entries = Vec::new();
    for edge in objects {
        if always == Some(edge) || rng.percent(share) {
            let source = usize::from(edges[edge][1]);
            let (low, high) = random_bounds(rng, &values_near(source, oldest));
            entries.push(Entry { edge, low, high });
        }
    }
    entries
}

/// The edges of this kind, in order.
fn edges_of_kind(edges: &[[u8; 4]], kind: u8) -> Vec<usize> {
    (0..edges.len())
        .filter(|edge| edges[*edge][0] == kind)
        .collect()
}

/// The values near which bounds on an edge from this source matter: the oldest
/// that it holds or, if it holds none, the oldest that each node holds.
fn values_near(source: usize, oldest: &[Option<u32>]) -> Vec<u32> {
    match oldest.get(source) {
        Some(Some(value)) => vec![*value],
        _ => oldest.iter().flatten().copied().collect(),
    }
}

/// A low and a high. Most often one is near one of these values, and the other is
/// the least or the greatest number.
fn random_bounds(rng: &mut Rng, values: &[u32]) -> (u32, u32) {
    let one = number_near(rng, values);
    let other = number_near(rng, values);
    match rng.weighted(&[35, 25, 15, 15, 10]) {
        0 => (one, u32::MAX), // "6 or more"
        1 => (0, one),
        2 => (one.min(other), one.max(other)),
        3 => (one, one),
        _ => (0, u32::MAX),
    }
}

/// One of these values, one above or one below it; at times the least or the
/// greatest number.
fn number_near(rng: &mut Rng, values: &[u32]) -> u32 {
    let value = rng.one_of(values).unwrap_or(0);
    match rng.weighted(&[40, 20, 20, 10, 10]) {
        0 => value,
        1 => value.saturating_add(1),
        2 => value.saturating_sub(1),
        3 => 0,
        _ => u32::MAX,
    }
}

/// A list of these entries with one damage. A few stay good all the same.
fn spoiled_list(rng: &mut Rng, edges: &[[u8; 4]], mut entries: Vec<Entry>) -> Vec<u8> {
    match rng.below(11) {
        0 => list_no_edge(rng, edges, &mut entries),
        1 => list_control_edge(rng, edges, &mut entries),
        2 => list_edge_twice(rng, &mut entries),
        3 => let_edges_fall(rng, &mut entries),
        4 => put_low_above_high(rng, &mut entries),
        _ => return damaged_list(rng, write_bounds(&entries)),
    }
    write_bounds(&entries)
}

/// Adds an edge that the table does not have, most often the number after its
/// last.
fn list_no_edge(rng: &mut Rng, edges: &[[u8; 4]], entries: &mut Vec<Entry>) {
    let after_last = edges.len();
    let edge = if rng.percent(60) {
        after_last
    } else {
        rng.between(after_last, 255)
    };
    list_whole_range(edge, entries);
}

/// Adds a control edge, if there is one.
fn list_control_edge(rng: &mut Rng, edges: &[[u8; 4]], entries: &mut Vec<Entry>) {
    if let Some(edge) = rng.one_of(&edges_of_kind(edges, CONTROL)) {
        list_whole_range(edge, entries);
    }
}

/// Adds an entry for this edge, whose bounds any value lies in, at the place where
/// the edges go on rising.
fn list_whole_range(edge: usize, entries: &mut Vec<Entry>) {
    let (low, high) = (0, u32::MAX);
    entries.push(Entry { edge, low, high });
    entries.sort_by_key(|entry| entry.edge);
}

/// Lists one of the edges a second time, next to the first.
fn list_edge_twice(rng: &mut Rng, entries: &mut Vec<Entry>) {
    let place = rng.below(entries.len());
    if let Some(entry) = entries.get(place).cloned() {
        entries.insert(place, entry);
    }
}

/// Swaps an entry with the next, if there are two.
fn let_edges_fall(rng: &mut Rng, entries: &mut [Entry]) {
    if entries.len() >= 2 {
        let place = rng.below(entries.len() - 1);
        entries.swap(place, place + 1);
    }
}

/// Gives one of the entries a low above its high, most often by one.
fn put_low_above_high(rng: &mut Rng, entries: &mut [Entry]) {
    let place = rng.below(entries.len());
    if let Some(entry) = entries.get_mut(place) {
        entry.high = entry.high.min(u32::MAX - 1);
        entry.low = if rng.percent(60) {
            entry.high + 1
        } else {
            u32::MAX
        };
    }
}

/// The list with one damage to its bytes: another length, version or count, cut,
/// with bytes left over, or no bytes at all.
fn damaged_list(rng: &mut Rng, mut list: Vec<u8>) -> Vec<u8> {
    let place = rng.below(list.len());
    match rng.below(6) {
        0 => change_length(rng, &mut list),
        1 => change_byte(rng, &mut list, 2), // version
        2 => change_byte(rng, &mut list, 3), // count
        3 => {
            list.truncate(place);
            list = with_its_length_sometimes(rng, list);
        }
        4 => {
            list.extend((0..=rng.below(9)).map(|_| 0));
            list = with_its_length_sometimes(rng, list);
        }
        _ => list.clear(),
    }
    list
}

/// The list as it is, or with the length that its bytes have.
fn with_its_length_sometimes(rng: &mut Rng, list: Vec<u8>) -> Vec<u8> {
    match list.get(2..) {
        Some(body) if rng.percent(50) => with_length(body),
        _ => list,
    }
}
