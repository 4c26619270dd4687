//! Events with everything at its limit: 64 offers, 20 ends, and stocks of 16 that are all full. The edges that are left are an action's, to finish.

use keshmirun::{Builder, Edge, Kind, NodeId, OwnedTable, Refusal};

pub struct Full {
    pub table: OwnedTable,
    pub action: NodeId,
    /// Where all ends are.
    pub end: NodeId,
}

/// 48 nodes and 64 edges, the most there were before larger events, of which 33 are the action's.
pub fn limits() -> Result<Full, Refusal> {
    let mut draw = Builder::new();
    let (start, merges) = (draw.initial(), times(11, || draw.merge()));
    let (end, action) = (draw.flow_final(), draw.action());
    times(34, || draw.outgoing_parameter(16));
    offer(&mut draw, start, &merges, end);
    draw.control(action, action);
    times(32, || draw.control(action, end));
    Ok(Full { table: draw.table()?, action, end })
}

/// The largest table: 120 nodes and 200 edges, of which 169 are the action's. What is offered has the highest numbers.
pub fn larger() -> Result<Full, Refusal> {
    let mut draw = Builder::new();
    times(106, || draw.outgoing_parameter(16));
    let (action, start) = (draw.action(), draw.initial());
    let (merges, end) = (times(11, || draw.merge()), draw.flow_final());
    draw.control(action, action);
    times(168, || draw.control(action, end));
    offer(&mut draw, start, &merges, end);
    Ok(Full { table: draw.table()?, action, end })
}

/// Four edges that lead to the end by all merges, which makes 48 offers, and sixteen that lead there at once.
fn offer(draw: &mut Builder, start: NodeId, merges: &[NodeId], end: NodeId) {
    times(4, || draw.control(start, merges[0]));
    for (merge, next) in merges.iter().zip(merges[1..].iter().chain([&end])) {
        draw.control(*merge, *next);
    }
    times(16, || draw.control(start, end));
}

fn times<T>(count: usize, mut drawn: impl FnMut() -> T) -> Vec<T> {
    (0..count).map(|_| drawn()).collect()
}

impl Full {
    /// The marking in which the action runs or not.
    pub fn marking(&self, runs: bool) -> Vec<u8> {
        let mut body = vec![1, 0];
        for node in self.table.nodes() {
            match node.kind() {
                Kind::Action => body.push(u8::from(runs)),
                Kind::OutgoingParameter => body.extend([16].into_iter().chain((0..16).flat_map(|value| [0, 0, node.id().number(), value]))),
                _ => {}
            }
        }
        let counted = self.table.edges().filter(Edge::is_counted);
        body.extend(counted.map(|edge| u8::from(edge.source().kind() == Kind::Initial)));
        [&(body.len() as u16).to_be_bytes()[..], &body].concat()
    }
}
