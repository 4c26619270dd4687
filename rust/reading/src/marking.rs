//! The paper's heading "Marking": what lies where between two steps.

use crate::bytes::{after_length, with_length, write_stock, Reader, Value};
use crate::refusal::{Refusal, NO_MARKING};
use crate::table::{
    is_object_node, Table, ACTION, CONTROL, INITIAL, INPUT_PIN, OUTGOING_PARAMETER,
};

/// A marking of one table.
#[derive(Debug, Clone)]
pub struct Marking {
    /// "state (0 live, 1 ended)"
    pub ended: bool,
    /// Per node, its values, oldest first. Always empty for kinds other than 3
    /// to 7.
    pub stocks: Vec<Vec<Value>>,
    /// Per node, whether it runs. Always false for kinds other than 2.
    pub running: Vec<bool>,
    /// Per edge, its count. Always 0 for edges that have none in a marking.
    pub counts: Vec<u8>,
}

impl Marking {
    /// The live marking in which "all [...] is empty", idle and 0.
    pub fn empty(table: &Table) -> Marking {
        Marking {
            ended: false,
            stocks: vec![Vec::new(); table.nodes.len()],
            running: vec![false; table.nodes.len()],
            counts: vec![0; table.edges.len()],
        }
    }

    /// The marking of this table in these bytes, or refusal 5.
    pub fn read(table: &Table, bytes: &[u8]) -> Result<Marking, Refusal> {
        after_length(bytes)
            .and_then(|body| Marking::from_body(table, body))
            .filter(|marking| marking.pins_agree(table))
            .filter(|marking| !marking.ended || marking.is_clean(table))
            .ok_or_else(|| Refusal::new(NO_MARKING, 0))
    }

    /// "version 1, state (0 live, 1 ended). Then per node in order: kinds 3 to 7,
    /// a count and that many 4-byte values, oldest first; kind 2, a running byte
    /// 0 or 1; others nothing. Then, for each control edge leaving an initial
    /// node or action, a count 0 to 255. A stock never exceeds upper."
    fn from_body(table: &Table, body: &[u8]) -> Option<Marking> {
        let mut reader = Reader::new(body);
        if reader.byte()? != 1 {
            return None;
        }
        let mut marking = Marking::empty(table);
        marking.ended = reader.byte_up_to(1)? == 1;
        for (number, node) in table.nodes.iter().enumerate() {
            if is_object_node(node.kind) {
                marking.stocks[number] = reader.stock(node.upper)?;
            } else if node.kind == ACTION {
                marking.running[number] = reader.byte_up_to(1)? == 1;
            }
        }
        for edge in counted_edges(table) {
            marking.counts[edge] = reader.byte()?;
        }
        if reader.is_at_end() {
            Some(marking)
        } else {
            None
        }
    }

    /// "Input pins are empty if their action is idle, and hold lower to upper
    /// values while it runs."
    fn pins_agree(&self, table: &Table) -> bool {
        table.nodes_of_kind(INPUT_PIN).into_iter().all(|pin| {
            let node = &table.nodes[pin];
            let held = self.stocks[pin].len();
            if self.running[usize::from(node.owner)] {
                held >= usize::from(node.lower) && held <= usize::from(node.upper)
            } else {
                held == 0
            }
        })
    }

    /// "In an ended marking all but outgoing parameters is empty, idle and 0."
    fn is_clean(&self, table: &Table) -> bool {
        let is_kept = |node: usize| table.kind(node) == OUTGOING_PARAMETER;
        table
            .node_numbers()
            .all(|node| is_kept(node) || self.stocks[node].is_empty())
            && self.running.iter().all(|running| !running)
            && self.counts.iter().all(|count| *count == 0)
    }

    /// "the marking is ended after that: outgoing parameters keep all, the rest
    /// is cleared."
    pub fn end(&mut self, table: &Table) {
        let mut ended = Marking::empty(table);
        ended.ended = true;
        for parameter in table.nodes_of_kind(OUTGOING_PARAMETER) {
            ended.stocks[parameter] = self.stocks[parameter].clone();
        }
        *self = ended;
    }

    /// The bytes of this marking, as `read` takes them.
    pub fn write(&self, table: &Table) -> Vec<u8> {
        let mut body = vec![1, u8::from(self.ended)];
        for (number, node) in table.nodes.iter().enumerate() {
            if is_object_node(node.kind) {
                write_stock(&mut body, &self.stocks[number]);
            } else if node.kind == ACTION {
                body.push(u8::from(self.running[number]));
            }
        }
        for edge in counted_edges(table) {
            body.push(self.counts[edge]);
        }
        with_length(&body)
    }
}

/// "each control edge leaving an initial node or action", in order.
pub fn counted_edges(table: &Table) -> Vec<usize> {
    table
        .edge_numbers()
        .filter(|number| {
            let edge = &table.edges[*number];
            edge.kind == CONTROL && matches!(table.kind(edge.source), INITIAL | ACTION)
        })
        .collect()
}
