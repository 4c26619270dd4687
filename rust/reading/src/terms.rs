//! On which terms an offer goes over an edge: the guard bytes, under the paper's
//! heading "Offers", and beside them the bounds list of the customers' wish 1,
//! "Guards that read the result".

use crate::bytes::{after_length, unsigned, with_length, Reader, Value};
use crate::refusal::{require, Refusal, BOUNDS, GUARDS};
use crate::table::{Table, OBJECT};

/// The guards and the bounds list of one call, read together.
#[derive(Debug)]
pub struct Terms {
    /// Per edge, whether its guard byte is 1.
    is_open: Vec<bool>,
    /// What the bounds list lists, each edge once at most.
    entries: Vec<Entry>,
}

/// "per entry an edge, a low and a high unsigned value of 4 bytes"
#[derive(Debug, Clone)]
pub struct Entry {
    pub edge: usize,
    pub low: u32,
    pub high: u32,
}

impl Terms {
    /// The terms in these bytes, or refusal 7, or refusal 18, which comes "after 7
    /// and before 8".
    pub fn read(table: &Table, guards: &[u8], bounds: &[u8]) -> Result<Terms, Refusal> {
        let is_open = read_guards(table, guards)?;
        let entries = read_bounds(table, bounds)?;
        Ok(Terms { is_open, entries })
    }

    /// Whether an offer with this value, or with none, goes over this edge. "No
    /// offer goes over an edge whose byte is 0." "An offer with a value goes over a
    /// listed edge exactly if its byte is 1 and its value lies in the bounds."
    pub fn allow(&self, edge: usize, value: Option<Value>) -> bool {
        match value {
            Some(value) => self.is_open[edge] && self.lies_in_bounds(edge, unsigned(value)),
            None => self.is_open[edge],
        }
    }

    /// Whether this value lies in the bounds of this edge, as any does if the edge
    /// is not listed.
    fn lies_in_bounds(&self, edge: usize, value: u32) -> bool {
        let mut of_edge = self.entries.iter().filter(|entry| entry.edge == edge);
        of_edge.all(|entry| entry.low <= value && value <= entry.high)
    }
}

/// "Guards come as e bytes, 0 or 1; an unguarded edge must have 1." Refusal 7, or
/// for each edge whether its byte is 1.
fn read_guards(table: &Table, bytes: &[u8]) -> Result<Vec<bool>, Refusal> {
    require(GUARDS, bytes.len() == table.edges.len())?;
    let is_good = |edge: usize| match bytes[edge] {
        0 => table.edges[edge].guarded == 1,
        byte => byte == 1,
    };
    require(GUARDS, table.edge_numbers().all(is_good))?;
    Ok(bytes.iter().map(|byte| *byte == 1).collect())
}

/// "a bounds list: length, version 1, a count, then per entry an edge, a low and a
/// high unsigned value of 4 bytes, edges rising, guarded or not." Refusal 18, "bad
/// bounds list (also low above high), place 0", or its entries.
fn read_bounds(table: &Table, bytes: &[u8]) -> Result<Vec<Entry>, Refusal> {
    after_length(bytes)
        .and_then(entries_in_body)
        .filter(|entries| are_rising(entries))
        .filter(|entries| entries.iter().all(|entry| entry.is_good(table)))
        .ok_or_else(|| Refusal::new(BOUNDS, 0))
}

/// "version 1, a count, then per entry" its bytes, and nothing after them.
fn entries_in_body(body: &[u8]) -> Option<Vec<Entry>> {
    let mut reader = Reader::new(body);
    if reader.byte()? != 1 {
        return None;
    }
    let count = reader.byte()?;
    let entries: Option<Vec<Entry>> = (0..count).map(|_| Entry::read(&mut reader)).collect();
    entries.filter(|_| reader.is_at_end())
}

/// "edges rising": each higher than the one before it, so that none comes twice.
fn are_rising(entries: &[Entry]) -> bool {
    entries.windows(2).all(|pair| pair[0].edge < pair[1].edge)
}

impl Entry {
    /// "an edge, a low and a high unsigned value of 4 bytes"
    fn read(reader: &mut Reader) -> Option<Entry> {
        Some(Entry {
            edge: usize::from(reader.byte()?),
            low: unsigned(reader.value()?),
            high: unsigned(reader.value()?),
        })
    }

    /// "Control edges may not be listed", so an object edge of the table is; and
    /// "low above high" is bad.
    fn is_good(&self, table: &Table) -> bool {
        let is_of_object = match table.edges.get(self.edge) {
            Some(edge) => edge.kind == OBJECT,
            None => false,
        };
        is_of_object && self.low <= self.high
    }
}

/// The bytes of a list of these entries, as [`Terms::read`] takes them.
pub fn write_bounds(entries: &[Entry]) -> Vec<u8> {
    let mut body = vec![1, entries.len() as u8];
    for entry in entries {
        body.push(entry.edge as u8);
        body.extend_from_slice(&entry.low.to_be_bytes());
        body.extend_from_slice(&entry.high.to_be_bytes());
    }
    with_length(&body)
}
