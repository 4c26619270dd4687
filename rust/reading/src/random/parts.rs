//! A table taken apart into its records, good or not.

use super::Rng;
use crate::bytes::with_length;
use crate::table::{is_pin, NO_OWNER};

/// The node and edge records of a table, which need not be a good one.
#[derive(Debug, Clone, Default, PartialEq, Eq)]
pub struct Parts {
    /// Per node: kind, owner, lower, upper.
    pub nodes: Vec<[u8; 4]>,
    /// Per edge: kind, source, target, guarded.
    pub edges: Vec<[u8; 4]>,
}

impl Parts {
    /// The parts of a table that has as many bytes as its counts ask for, else
    /// none.
    pub fn of(table: &[u8]) -> Option<Parts> {
        let n = usize::from(*table.get(3)?);
        let e = usize::from(*table.get(4)?);
        let records: Vec<[u8; 4]> = table[5..]
            .chunks(4)
            .filter(|record| record.len() == 4)
            .map(|record| [record[0], record[1], record[2], record[3]])
            .collect();
        if table.len() != 5 + 4 * n + 4 * e {
            return None;
        }
        Some(Parts {
            nodes: records[..n].to_vec(),
            edges: records[n..].to_vec(),
        })
    }

    /// The table's bytes, with a length and counts that agree.
    pub fn write(&self) -> Vec<u8> {
        let mut body = vec![1, self.nodes.len() as u8, self.edges.len() as u8];
        for record in self.nodes.iter().chain(&self.edges) {
            body.extend_from_slice(record);
        }
        with_length(&body)
    }

    /// Adds a node that is no pin and holds at most `upper` values. Its number.
    pub fn add_node(&mut self, kind: u8, upper: u8) -> u8 {
        self.nodes.push([kind, NO_OWNER, 0, upper]);
        (self.nodes.len() - 1) as u8
    }

    /// Adds a pin of this action. Its number.
    pub fn add_pin(&mut self, kind: u8, action: u8, lower: u8, upper: u8) -> u8 {
        self.nodes.push([kind, action, lower, upper]);
        (self.nodes.len() - 1) as u8
    }

    /// Adds an edge.
    pub fn add_edge(&mut self, kind: u8, source: u8, target: u8, guarded: u8) {
        self.edges.push([kind, source, target, guarded]);
    }

    /// The numbers of the nodes whose kind is one of these.
    pub fn nodes_of(&self, kinds: &[u8]) -> Vec<u8> {
        let numbers = 0..self.nodes.len();
        let is_wanted = |number: &usize| kinds.contains(&self.nodes[*number][0]);
        numbers
            .filter(is_wanted)
            .map(|number| number as u8)
            .collect()
    }

    /// Numbers nodes and edges in a random new order; the diagram is the same.
    pub fn shuffle(&mut self, rng: &mut Rng) {
        let mut order: Vec<usize> = (0..self.nodes.len()).collect();
        rng.shuffle(&mut order);
        let renamed = |old: u8| match order.iter().position(|number| *number == usize::from(old)) {
            Some(new) => new as u8,
            None => old,
        };
        let mut nodes: Vec<[u8; 4]> = order.iter().map(|old| self.nodes[*old]).collect();
        for node in nodes.iter_mut().filter(|node| is_pin(node[0])) {
            node[1] = renamed(node[1]);
        }
        for edge in &mut self.edges {
            edge[1] = renamed(edge[1]);
            edge[2] = renamed(edge[2]);
        }
        self.nodes = nodes;
        rng.shuffle(&mut self.edges);
    }
}
