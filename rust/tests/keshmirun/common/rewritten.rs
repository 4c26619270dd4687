//! What the crate's views say, written as bytes again, field by field: a view is right if these are the bytes that it was made of, since each has one encoding.
//! Nothing here is the crate's but what the views say. And what the bytes of a sheet don't say by themselves: whether an end can be one of a table.

use super::drawn::{framed, DECISION, JOIN, OBJECT};
use keshmirun::{Bounds, Contents, End, Holding, Path, Sheet, Table, LONGEST_PATH, MOST_PATHS, NO_NODE};
use reading::random::Parts;

pub fn table<B: AsRef<[u8]>>(table: &Table<B>) -> Vec<u8> {
    let owner = |node: &keshmirun::Node| node.owner().map_or(NO_NODE, u8::from);
    let nodes = table.nodes().map(|node| [node.kind().number(), owner(&node), node.lower(), node.upper()]);
    let edges = table.edges().map(|edge| [edge.kind().number(), edge.source().id().into(), edge.target().id().into(), u8::from(edge.is_guarded())]);
    Parts { nodes: nodes.collect(), edges: edges.collect() }.write()
}

pub fn marking(contents: &Contents, has_ended: bool) -> Vec<u8> {
    let mut body = vec![1, u8::from(has_ended)];
    for (_, holding) in contents.nodes() {
        match holding {
            Holding::Stock(values) => {
                body.push(values.len() as u8);
                body.extend(values.flat_map(u32::to_be_bytes));
            }
            Holding::Running(runs) => body.push(u8::from(runs)),
            Holding::Nothing => {}
        }
    }
    body.extend(contents.edges().map(|(_, tokens)| tokens));
    framed(&body)
}

pub fn sheet<B: AsRef<[u8]>>(sheet: &Sheet<B>) -> Vec<u8> {
    let mut body = vec![1, sheet.ends().len() as u8];
    sheet.ends().for_each(|end| add_end(&mut body, &end));
    framed(&body)
}

fn add_end(body: &mut Vec<u8>, end: &End) {
    body.extend([end.last_edge().number(), u8::from(end.value().is_some())]);
    body.extend(end.value().unwrap_or(0).to_be_bytes());
    body.push(end.paths().len() as u8);
    for path in end.paths() {
        body.push(path.edges().len() as u8);
        body.extend(path.edges().map(u8::from));
    }
}

pub fn bounds(bounds: &Bounds) -> Vec<u8> {
    let mut entries = Vec::new();
    for (edge, values) in bounds.entries() {
        entries.push(edge.number());
        entries.extend(values.start().to_be_bytes());
        entries.extend(values.end().to_be_bytes());
    }
    framed(&[&[1, (entries.len() / 9) as u8][..], &entries].concat())
}

/// The end can be one of the table of these parts: it has a value if its last edge is for values, paths that can be walked to where that edge leads, and no
/// control node is there.
pub fn assert_can_be_of(parts: &Parts, end: &End) {
    let [kind, _, target, _] = parts.edges[end.last_edge().index()];
    assert_eq!((end.target().number(), end.value().is_some()), (target, kind == OBJECT), "{end:?}, {parts:?}");
    assert!(!is_control_node(parts, target) && (1..=MOST_PATHS).contains(&end.paths().len()), "{end:?}, {parts:?}");
    assert!(end.paths().all(|path| path.edges().last() == Some(end.last_edge()) && can_be_walked(parts, &path)), "{end:?}, {parts:?}");
}

/// From a node that is no control node through control nodes alone, and not too far.
fn can_be_walked(parts: &Parts, path: &Path) -> bool {
    let edges: Vec<[u8; 4]> = path.edges().map(|edge| parts.edges[edge.index()]).collect();
    let is_passed = |pair: &[[u8; 4]]| pair[0][2] == pair[1][1] && is_control_node(parts, pair[1][1]);
    !is_control_node(parts, edges[0][1]) && edges.windows(2).all(is_passed) && edges.len() <= LONGEST_PATH
}

fn is_control_node(parts: &Parts, node: u8) -> bool {
    (DECISION..=JOIN).contains(&parts.nodes[usize::from(node)][0])
}
