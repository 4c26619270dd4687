//! A step as a judge would take it with the sheet in hand: what begins the paths of the taken ends is spent, and then each node gains by last edge and paths,
//! which is the order in which values arrived before ends were grouped by target. It judges nothing, and shares nothing with the reading.

use super::drawn::*;
use reading::random::Parts;
use std::collections::BTreeSet;

/// An end of a sheet: last edge, value, paths.
pub type End = (u8, Option<u32>, Vec<Vec<u8>>);

/// These ends by last edge, then by paths.
pub fn by_edge(ends: &[End]) -> Vec<End> {
    let mut ends = ends.to_vec();
    ends.sort_by(|one, other| (one.0, &one.2).cmp(&(other.0, &other.2)));
    ends
}

/// The marking after these ends are taken.
pub fn after(parts: &Parts, marking: &[u8], taken: &[End]) -> Vec<u8> {
    let mut stand = Stand::read(parts, marking);
    let first_edges: BTreeSet<u8> = taken.iter().flat_map(|(_, _, paths)| paths).map(|path| path[0]).collect();
    first_edges.into_iter().for_each(|edge| stand.spend(parts, usize::from(edge)));
    for (edge, value, _) in by_edge(taken) {
        stand.gain(parts, usize::from(parts.edges[usize::from(edge)][2]), value);
    }
    stand.write(parts)
}

/// What a marking says: per node its values and whether it runs, per edge its tokens.
struct Stand {
    has_ended: bool,
    stocks: Vec<Vec<u32>>,
    runs: Vec<bool>,
    tokens: Vec<u8>,
}

impl Stand {
    fn read(parts: &Parts, marking: &[u8]) -> Stand {
        let mut fields = marking[4..].iter().copied();
        let mut next = || fields.next().expect("a marking of this table");
        let mut stand = Stand { has_ended: false, stocks: Vec::new(), runs: Vec::new(), tokens: Vec::new() };
        for [kind, ..] in &parts.nodes {
            let count = if (INPUT_PIN..=OUTGOING_PARAMETER).contains(kind) { next() } else { 0 };
            stand.stocks.push((0..count).map(|_| u32::from_be_bytes([next(), next(), next(), next()])).collect());
            stand.runs.push(*kind == ACTION && next() == 1);
        }
        for edge in &parts.edges {
            stand.tokens.push(if has_tokens(parts, edge) { next() } else { 0 });
        }
        stand
    }

    #[allow(clippy::drop_copy)] // the value is let go
    fn spend(&mut self, parts: &Parts, edge: usize) {
        match parts.edges[edge] {
            [OBJECT, source, ..] => drop(self.stocks[usize::from(source)].remove(0)),
            _ => self.tokens[edge] = 0,
        }
    }

    fn gain(&mut self, parts: &Parts, node: usize, value: Option<u32>) {
        let [kind, owner, ..] = parts.nodes[node];
        match kind {
            ACTION => self.runs[node] = true,
            INPUT_PIN => self.runs[usize::from(owner)] = true,
            ACTIVITY_FINAL => self.has_ended = true,
            _ => {}
        }
        if matches!(kind, INPUT_PIN | BUFFER | OUTGOING_PARAMETER) {
            self.stocks[node].extend(value);
        }
    }

    fn write(&self, parts: &Parts) -> Vec<u8> {
        let mut body = vec![1, u8::from(self.has_ended)];
        for (node, [kind, ..]) in parts.nodes.iter().enumerate() {
            let is_kept = !self.has_ended || *kind == OUTGOING_PARAMETER;
            match *kind {
                ACTION => body.push(u8::from(is_kept && self.runs[node])),
                INPUT_PIN..=OUTGOING_PARAMETER => {
                    let values: &[u32] = if is_kept { &self.stocks[node] } else { &[] };
                    body.push(values.len() as u8);
                    body.extend(values.iter().flat_map(|value| value.to_be_bytes()));
                }
                _ => {}
            }
        }
        let counted = parts.edges.iter().zip(&self.tokens).filter(|(edge, _)| has_tokens(parts, edge));
        body.extend(counted.map(|(_, tokens)| if self.has_ended { 0 } else { *tokens }));
        framed(&body)
    }
}

/// Whether the edge leaves an initial node or, as a control edge, an action.
fn has_tokens(parts: &Parts, [_, source, ..]: &[u8; 4]) -> bool {
    matches!(parts.nodes[usize::from(*source)][0], INITIAL | ACTION)
}
