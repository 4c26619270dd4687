//! A sheet by its ends, their values and paths, read where its bytes stand.

use super::marking::taken;
use super::table::Records;
use crate::{EdgeId, EdgeKind, EndId, NodeId, Refusal, Table, LONGEST_PATH, MOST_ENDS, MOST_PATHS};
use core::fmt;

/// A sheet of offered ends, over bytes that are lent or its own (`Sheet<&[u8]>`, [`OwnedSheet`](crate::OwnedSheet)).
///
/// [`Table::sheet`] asks the engine for one. It knows the targets of its ends and doesn't hold on to its table.
///
/// # Examples
/// ```
/// use keshmirun::{EdgeId, Marking, Table};
///
/// // the paper's small event: results (node 1) go by a decision (2) to a buffer (6), or by a join (3) to the pin (4) of an action (5)
/// let table = Table::new([
///     0, 0x33, 1, 7, 5, //
///     1, 255, 0, 0, 6, 255, 0, 4, 8, 255, 0, 0, 11, 255, 0, 0, 3, 5, 1, 1, 2, 255, 0, 0, 5, 255, 0, 2, //
///     0, 0, 3, 0, 1, 1, 2, 0, 1, 2, 3, 1, 1, 2, 6, 1, 1, 3, 4, 0,
/// ])?;
/// let marking = Marking::new(&table, [0, 15, 1, 0, 2, 0, 0, 0, 7, 0, 0, 0, 9, 0, 0, 0, 1])?;
/// let sheet = table.sheet(&marking, &table.guards())?;
/// assert_eq!(sheet.ends().len(), 2);
/// for end in sheet.ends() {
///     println!("{}: {:?} for node {}", end.id(), end.value(), end.target());
/// }
/// let at_the_pin = sheet.end(0).unwrap();
/// assert_eq!((at_the_pin.target().number(), at_the_pin.value()), (4, Some(7)));
/// // a join brought two paths together: edges 0 and 4, and edges 1, 2 and 4
/// let paths: Vec<Vec<EdgeId>> = at_the_pin.paths().map(|path| path.edges().collect()).collect();
/// assert_eq!(paths, [vec![EdgeId::new(0), EdgeId::new(4)], vec![EdgeId::new(1), EdgeId::new(2), EdgeId::new(4)]]);
/// assert_eq!(at_the_pin.paths().map(|path| path.to_string()).collect::<Vec<_>>(), ["0,4", "1,2,4"]);
/// # Ok::<(), keshmirun::Refusal>(())
/// ```
#[derive(Clone, Copy, Debug, PartialEq, Eq, Hash)]
pub struct Sheet<B> {
    bytes: B,
    /// By end.
    targets: [u8; MOST_ENDS],
}

const VERSION: u8 = 1;
const HEAD: usize = 4;
const END_HEAD: usize = 7;

impl<B: AsRef<[u8]>> Sheet<B> {
    /// The sheet of these bytes, as the engine wrote them for this table somewhere else. That they have the form of one is judged: frame, version and counts,
    /// and that edges, values and paths can be the table's; not that they are the sheet of any marking.
    ///
    /// # Errors
    /// [`Refusal::NOT_A_SHEET`].
    pub fn new<T: AsRef<[u8]>>(table: &Table<T>, bytes: B) -> Result<Sheet<B>, Refusal> {
        let targets = targets(table.records(), bytes.as_ref()).ok_or(Refusal::NOT_A_SHEET)?;
        Ok(Sheet { bytes, targets })
    }

    /// What the engine wrote for this table, which has the form of a sheet.
    pub(crate) fn written<T: AsRef<[u8]>>(table: &Table<T>, bytes: B) -> Sheet<B> {
        let mut sheet = Sheet { bytes, targets: [0; MOST_ENDS] };
        let mut targets = sheet.targets;
        for (target, end) in targets.iter_mut().zip(sheet.ends()) {
            *target = table.edge(end.last_edge()).map_or(0, |edge| edge.target().id().number());
        }
        sheet.targets = targets;
        sheet
    }

    /// Its bytes.
    pub fn as_bytes(&self) -> &[u8] {
        self.bytes.as_ref()
    }

    /// The bytes that it was made of.
    pub fn into_bytes(self) -> B {
        self.bytes
    }

    /// Its ends, by number.
    pub fn ends(&self) -> Ends<'_> {
        let bytes = self.as_bytes();
        let count = bytes.get(HEAD - 1).map_or(0, |count| usize::from(*count).min(MOST_ENDS));
        Ends { next: 0, targets: &self.targets[..count], rest: bytes.get(HEAD..).unwrap_or(&[]) }
    }

    /// The end of this number, if it has one.
    pub fn end(&self, end: impl Into<EndId>) -> Option<End<'_>> {
        self.ends().nth(end.into().index())
    }
}

/// The targets of the ends, if the bytes have the form of a sheet of this table.
fn targets(table: Records<'_>, bytes: &[u8]) -> Option<[u8; MOST_ENDS]> {
    let mut targets = [0; MOST_ENDS];
    let mut rest = bytes;
    let head = taken(&mut rest, HEAD);
    let ends = match head {
        [high, low, VERSION, ends] if usize::from(u16::from_be_bytes([*high, *low])) + 2 == bytes.len() => usize::from(*ends),
        _ => return None,
    };
    for target in targets.get_mut(..ends)? {
        *target = end_target(table, &mut rest)?;
    }
    Some(targets).filter(|_| rest.is_empty())
}

/// The target of the end in front, which is then behind; if it can be one of this table.
fn end_target(table: Records<'_>, rest: &mut &[u8]) -> Option<u8> {
    let end = EndHead::taken(rest)?;
    let edge = table.edge(end.edge).filter(|edge| !edge.target().kind().is_control_node())?;
    let is_of_kind = match edge.kind() {
        EdgeKind::Control => !end.has_value && end.value == 0,
        EdgeKind::Object => end.has_value,
    };
    let has_paths = (1..=MOST_PATHS).contains(&usize::from(end.paths));
    for _ in 0..end.paths {
        let length = taken(rest, 1).first()?;
        let path = taken(rest, usize::from(*length));
        Some(path).filter(|path| path.len() == usize::from(*length) && is_path(table, path, end.edge))?;
    }
    Some(edge.target().id().number()).filter(|_| is_of_kind && has_paths)
}

/// Whether these are edges of the table, each but the first leaving the control node that the one before it enters, and this the last.
fn is_path(table: Records<'_>, path: &[u8], last: u8) -> bool {
    let mut at = None;
    for number in path {
        let edge = match table.edge(*number) {
            Some(edge) => edge,
            None => return false,
        };
        let source = edge.source();
        if at.map_or(source.kind().is_control_node(), |before| before != source.id() || !source.kind().is_control_node()) {
            return false;
        }
        at = Some(edge.target().id());
    }
    path.len() <= LONGEST_PATH && path.last() == Some(&last)
}

/// What stands before an end's paths.
struct EndHead {
    edge: u8,
    has_value: bool,
    value: u32,
    paths: u8,
}

impl EndHead {
    /// The one in front, which is then behind.
    fn taken(rest: &mut &[u8]) -> Option<EndHead> {
        match *taken(rest, END_HEAD) {
            [edge, flag @ 0..=1, a, b, c, d, paths] => Some(EndHead { edge, has_value: flag == 1, value: u32::from_be_bytes([a, b, c, d]), paths }),
            _ => None,
        }
    }
}

/// The ends of a sheet, by number.
#[derive(Clone)]
pub struct Ends<'a> {
    next: u8,
    /// Of those that are left.
    targets: &'a [u8],
    rest: &'a [u8],
}

impl<'a> Iterator for Ends<'a> {
    type Item = End<'a>;

    fn next(&mut self) -> Option<End<'a>> {
        let (target, targets) = self.targets.split_first()?;
        let head = EndHead::taken(&mut self.rest)?;
        let end = End {
            number: self.next,
            target: *target,
            edge: head.edge,
            value: Some(head.value).filter(|_| head.has_value),
            paths: Paths { left: head.paths, rest: self.rest },
        };
        for path in end.paths() {
            taken(&mut self.rest, 1 + path.as_bytes().len());
        }
        (self.next, self.targets) = (self.next + 1, targets);
        Some(end)
    }

    fn size_hint(&self) -> (usize, Option<usize>) {
        (self.targets.len(), Some(self.targets.len()))
    }
}

impl ExactSizeIterator for Ends<'_> {}

impl core::iter::FusedIterator for Ends<'_> {}

impl fmt::Debug for Ends<'_> {
    fn fmt(&self, f: &mut fmt::Formatter<'_>) -> fmt::Result {
        f.debug_list().entries(self.clone()).finish()
    }
}

/// An end on offer: a value or a token that would arrive at a node.
#[derive(Clone, Debug)]
pub struct End<'a> {
    number: u8,
    target: u8,
    edge: u8,
    value: Option<u32>,
    paths: Paths<'a>,
}

impl<'a> End<'a> {
    /// Its number.
    pub fn id(&self) -> EndId {
        EndId::new(self.number)
    }

    /// The edge over which it would arrive.
    pub fn last_edge(&self) -> EdgeId {
        EdgeId::new(self.edge)
    }

    /// The node where it would arrive: of a pin the pin, not its action.
    pub fn target(&self) -> NodeId {
        NodeId::new(self.target)
    }

    /// Its value; none where a token would arrive.
    pub fn value(&self) -> Option<u32> {
        self.value
    }

    /// The paths that it is made of, in their order.
    pub fn paths(&self) -> Paths<'a> {
        self.paths.clone()
    }
}

/// The paths of an end, in their order.
#[derive(Clone)]
pub struct Paths<'a> {
    left: u8,
    rest: &'a [u8],
}

impl<'a> Iterator for Paths<'a> {
    type Item = Path<'a>;

    fn next(&mut self) -> Option<Path<'a>> {
        self.left = self.left.checked_sub(1)?;
        let length = *taken(&mut self.rest, 1).first()?;
        Some(Path { edges: taken(&mut self.rest, usize::from(length)) })
    }

    fn size_hint(&self) -> (usize, Option<usize>) {
        (usize::from(self.left), Some(usize::from(self.left)))
    }
}

impl ExactSizeIterator for Paths<'_> {}

impl core::iter::FusedIterator for Paths<'_> {}

impl fmt::Debug for Paths<'_> {
    fn fmt(&self, f: &mut fmt::Formatter<'_>) -> fmt::Result {
        f.debug_list().entries(self.clone()).finish()
    }
}

/// A path: edges from where an offer began to where it ends.
#[derive(Clone, Copy, Debug, PartialEq, Eq, PartialOrd, Ord, Hash)]
pub struct Path<'a> {
    edges: &'a [u8],
}

impl<'a> Path<'a> {
    /// Its edges, the first one first.
    pub fn edges(&self) -> impl ExactSizeIterator<Item = EdgeId> + DoubleEndedIterator + 'a {
        self.edges.iter().map(|edge| EdgeId::new(*edge))
    }

    /// Their numbers.
    pub fn as_bytes(&self) -> &'a [u8] {
        self.edges
    }
}

/// The numbers of its edges with commas between them.
impl fmt::Display for Path<'_> {
    fn fmt(&self, f: &mut fmt::Formatter<'_>) -> fmt::Result {
        for (place, edge) in self.edges().enumerate() {
            write!(f, "{}{edge}", if place > 0 { "," } else { "" })?;
        }
        Ok(())
    }
}
