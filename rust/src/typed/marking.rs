//! A marking, and what each node and edge of its table holds, read where the bytes stand.

use super::table::Records;
use crate::{finish, Edge, EdgeId, Edges, Kind, Node, NodeId, Nodes, Refusal, Table, NO_NODE};
use core::fmt;

/// A marking that was judged, over bytes that are lent or its own (`Marking<&[u8]>`, [`OwnedMarking`](crate::OwnedMarking)).
///
/// It doesn't hold on to its table, so that an app can keep both side by side. [`Table::contents`] shows what stands in it.
///
/// # Examples
/// ```
/// use keshmirun::{Marking, Table};
///
/// let table = Table::new([0, 15, 1, 2, 1, 1, 255, 0, 0, 2, 255, 0, 0, 0, 0, 1, 0])?;
/// let stored = [0, 4, 1, 0, 0, 1]; // live, the action idle, and a token on the edge
/// let marking = Marking::new(&table, &stored)?;
/// assert!(!marking.has_ended());
/// let contents = table.contents(&marking)?;
/// assert_eq!((contents.is_running(1), contents.tokens(0)), (false, 1));
///
/// assert_eq!(Marking::new(&table, &stored[..5]).unwrap_err().number, 5);
/// # Ok::<(), keshmirun::Refusal>(())
/// ```
#[derive(Clone, Copy, Debug, PartialEq, Eq, Hash)]
pub struct Marking<B> {
    bytes: B,
}

const STATE: usize = 3;
const HEAD: usize = 4;
const ENDED: u8 = 1;
const ALREADY_ENDED: u8 = 6;
const NOT_RUNNING: u8 = 14;

impl<B: AsRef<[u8]>> Marking<B> {
    /// The marking of these bytes under this table; it may be an ended one.
    ///
    /// # Errors
    /// Refusal 5: the bytes are no marking of the table.
    pub fn new<T: AsRef<[u8]>>(table: &Table<T>, bytes: B) -> Result<Marking<B>, Refusal> {
        judge(table.as_bytes(), bytes.as_ref())?;
        Ok(Marking { bytes })
    }

    /// What the engine wrote.
    pub(crate) fn written(bytes: B) -> Marking<B> {
        Marking { bytes }
    }

    /// Its bytes: what is stored, and what every screen reads.
    pub fn as_bytes(&self) -> &[u8] {
        self.bytes.as_ref()
    }

    /// The bytes that it was made of.
    pub fn into_bytes(self) -> B {
        self.bytes
    }

    /// Whether the day is over.
    pub fn has_ended(&self) -> bool {
        self.as_bytes().get(STATE) == Some(&ENDED)
    }
}

/// Whether the engine takes the bytes for a marking of the table: the finish of no action is refused with 5 exactly if they are none.
fn judge(table: &[u8], marking: &[u8]) -> Result<(), Refusal> {
    match finish(table, marking, NO_NODE, &[], &mut []) {
        Err(Refusal { number: ALREADY_ENDED | NOT_RUNNING, .. }) => Ok(()),
        answer => answer.map(|_| ()),
    }
}

impl<T: AsRef<[u8]>> Table<T> {
    /// What each node and edge holds in this marking.
    ///
    /// # Errors
    /// Refusal 5: it is a marking of another table.
    ///
    /// # Examples
    /// ```
    /// use keshmirun::{Holding, Marking, Table};
    ///
    /// // the paper's small event: results (node 1) go by a decision (2) to a buffer (6), or by a join (3) to the pin (4) of an action (5)
    /// let table = Table::new([
    ///     0, 0x33, 1, 7, 5, //
    ///     1, 255, 0, 0, 6, 255, 0, 4, 8, 255, 0, 0, 11, 255, 0, 0, 3, 5, 1, 1, 2, 255, 0, 0, 5, 255, 0, 2, //
    ///     0, 0, 3, 0, 1, 1, 2, 0, 1, 2, 3, 1, 1, 2, 6, 1, 1, 3, 4, 0,
    /// ])?;
    /// let marking = Marking::new(&table, [0, 15, 1, 0, 2, 0, 0, 0, 7, 0, 0, 0, 9, 0, 0, 0, 1])?;
    /// let contents = table.contents(&marking)?;
    /// assert!(contents.values(1).eq([7, 9]));
    /// assert_eq!(contents.tokens(0), 1);
    /// for (node, holding) in contents.nodes() {
    ///     match holding {
    ///         Holding::Stock(values) => assert_eq!(values.len(), if node.id() == 1 { 2 } else { 0 }),
    ///         Holding::Running(is_running) => assert!(!is_running),
    ///         Holding::Nothing => assert!(!node.kind().is_object_node()),
    ///     }
    /// }
    /// # Ok::<(), keshmirun::Refusal>(())
    /// ```
    pub fn contents<'a, B: AsRef<[u8]>>(&'a self, marking: &'a Marking<B>) -> Result<Contents<'a>, Refusal> {
        judge(self.as_bytes(), marking.as_bytes())?;
        Ok(Contents { records: self.records(), fields: marking.as_bytes().get(HEAD..).unwrap_or(&[]) })
    }
}

/// What each node and edge of a table holds in a marking ([`Table::contents`]).
#[derive(Clone, Copy)]
pub struct Contents<'a> {
    records: Records<'a>,
    /// The marking behind its head.
    fields: &'a [u8],
}

impl<'a> Contents<'a> {
    /// Each node with what it holds.
    pub fn nodes(&self) -> Holdings<'a> {
        Holdings { nodes: self.records.nodes(), rest: self.fields }
    }

    /// What this node holds; of a node that the table doesn't have, nothing.
    pub fn of(&self, node: impl Into<NodeId>) -> Holding<'a> {
        self.nodes().nth(node.into().index()).map_or(Holding::Nothing, |(_, holding)| holding)
    }

    /// The values of this node, oldest first; none if it is no object node.
    pub fn values(&self, node: impl Into<NodeId>) -> Stock<'a> {
        match self.of(node) {
            Holding::Stock(values) => values,
            _ => Stock { bytes: &[] },
        }
    }

    /// Whether this node is an action that runs.
    pub fn is_running(&self, action: impl Into<NodeId>) -> bool {
        self.of(action) == Holding::Running(true)
    }

    /// Each edge that has a count, with its tokens.
    pub fn edges(&self) -> Tokens<'a> {
        let mut nodes = self.nodes();
        nodes.by_ref().for_each(drop);
        Tokens { edges: self.records.edges(), rest: nodes.rest }
    }

    /// The tokens on this edge; 0 if it has no count.
    pub fn tokens(&self, edge: impl Into<EdgeId>) -> u8 {
        let edge = edge.into();
        self.edges().find(|(counted, _)| counted.id() == edge).map_or(0, |(_, tokens)| tokens)
    }
}

impl fmt::Debug for Contents<'_> {
    fn fmt(&self, f: &mut fmt::Formatter<'_>) -> fmt::Result {
        f.debug_map().entries(self.nodes()).entries(self.edges()).finish()
    }
}

/// What a node holds.
#[derive(Clone, PartialEq, Eq)]
pub enum Holding<'a> {
    /// An object node's values.
    Stock(Stock<'a>),
    /// Whether an action runs.
    Running(bool),
    /// Other nodes hold nothing.
    Nothing,
}

impl fmt::Debug for Holding<'_> {
    fn fmt(&self, f: &mut fmt::Formatter<'_>) -> fmt::Result {
        match self {
            Holding::Stock(values) => values.fmt(f),
            Holding::Running(is_running) => f.write_str(if *is_running { "running" } else { "idle" }),
            Holding::Nothing => f.write_str("nothing"),
        }
    }
}

/// The front of the rest, so many bytes or all that there are, which is then behind it.
pub(crate) fn taken<'a>(rest: &mut &'a [u8], count: usize) -> &'a [u8] {
    let (front, back) = rest.split_at(count.min(rest.len()));
    *rest = back;
    front
}

/// The byte in front of the rest, which is then behind it.
fn byte(rest: &mut &[u8]) -> u8 {
    taken(rest, 1).first().copied().unwrap_or(0)
}

const VALUE: usize = 4;

/// The nodes of a table, each with what it holds.
#[derive(Clone, Debug)]
pub struct Holdings<'a> {
    nodes: Nodes<'a>,
    rest: &'a [u8],
}

impl<'a> Iterator for Holdings<'a> {
    type Item = (Node<'a>, Holding<'a>);

    fn next(&mut self) -> Option<(Node<'a>, Holding<'a>)> {
        let node = self.nodes.next()?;
        let holding = match node.kind() {
            Kind::Action => Holding::Running(byte(&mut self.rest) == 1),
            kind if kind.is_object_node() => {
                let count = usize::from(byte(&mut self.rest));
                Holding::Stock(Stock { bytes: taken(&mut self.rest, VALUE * count) })
            }
            _ => Holding::Nothing,
        };
        Some((node, holding))
    }
}

/// The edges of a table that have a count, each with its tokens.
#[derive(Clone, Debug)]
pub struct Tokens<'a> {
    edges: Edges<'a>,
    rest: &'a [u8],
}

impl<'a> Iterator for Tokens<'a> {
    type Item = (Edge<'a>, u8);

    fn next(&mut self) -> Option<(Edge<'a>, u8)> {
        let edge = self.edges.find(Edge::is_counted)?;
        Some((edge, byte(&mut self.rest)))
    }
}

/// The values of an object node, oldest first.
#[derive(Clone, PartialEq, Eq)]
pub struct Stock<'a> {
    bytes: &'a [u8],
}

impl Iterator for Stock<'_> {
    type Item = u32;

    fn next(&mut self) -> Option<u32> {
        let value = self.bytes.get(..VALUE)?.try_into().ok()?;
        self.bytes = &self.bytes[VALUE..];
        Some(u32::from_be_bytes(value))
    }

    fn size_hint(&self) -> (usize, Option<usize>) {
        let left = self.bytes.len() / VALUE;
        (left, Some(left))
    }
}

impl ExactSizeIterator for Stock<'_> {}

impl core::iter::FusedIterator for Stock<'_> {}

impl fmt::Debug for Stock<'_> {
    fn fmt(&self, f: &mut fmt::Formatter<'_>) -> fmt::Result {
        f.debug_list().entries(self.clone()).finish()
    }
}
