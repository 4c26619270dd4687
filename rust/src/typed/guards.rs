//! Guards and bounds that are good for their table, without allocation.

use crate::{Edge, EdgeId, EdgeKind, Refusal, Table, MOST_EDGES};
use core::fmt;
use core::ops::{Bound, RangeBounds, RangeInclusive};

/// A guard for each edge of a table: open, or closed if the table calls the edge guarded.
///
/// # Examples
/// ```
/// use keshmirun::{Guards, Table};
///
/// // the paper's small event, whose edges 2 and 3 are guarded
/// let table = Table::new([
///     0, 0x33, 1, 7, 5, //
///     1, 255, 0, 0, 6, 255, 0, 4, 8, 255, 0, 0, 11, 255, 0, 0, 3, 5, 1, 1, 2, 255, 0, 0, 5, 255, 0, 2, //
///     0, 0, 3, 0, 1, 1, 2, 0, 1, 2, 3, 1, 1, 2, 6, 1, 1, 3, 4, 0,
/// ])?;
/// let mut guards = table.guards();
/// guards.close(3)?;
/// assert_eq!(guards.as_bytes(), [1, 1, 1, 0, 1]);
/// assert!(guards.is_open(2) && !guards.is_open(3));
///
/// assert_eq!(guards.close(4).unwrap_err().number, 7); // not a guarded edge
/// assert_eq!(Guards::new(&table, &[1; 4]).unwrap_err().number, 7);
/// # Ok::<(), keshmirun::Refusal>(())
/// ```
#[derive(Clone, Copy, PartialEq, Eq)]
pub struct Guards {
    bytes: [u8; MOST_EDGES],
    is_guarded: [bool; MOST_EDGES],
    edges: u8,
}

const OPEN: u8 = 1;
const CLOSED: u8 = 0;
const BAD_GUARDS: Refusal = Refusal::placeless(7);
const BAD_BOUNDS: Refusal = Refusal::placeless(18);

/// What is asked of each edge of a table, by number; false for numbers that it doesn't have.
fn asked<T: AsRef<[u8]>>(table: &Table<T>, ask: impl Fn(&Edge<'_>) -> bool) -> [bool; MOST_EDGES] {
    let mut answers = [false; MOST_EDGES];
    for (answer, edge) in answers.iter_mut().zip(table.edges()) {
        *answer = ask(&edge);
    }
    answers
}

impl Guards {
    /// All open.
    pub fn all_open<T: AsRef<[u8]>>(table: &Table<T>) -> Guards {
        Guards { bytes: [OPEN; MOST_EDGES], is_guarded: asked(table, |edge| edge.is_guarded()), edges: table.edges().len() as u8 }
    }

    /// The guards of these bytes, one for each edge of the table, 1 or 0; of an edge that isn't guarded 1.
    ///
    /// # Errors
    /// Refusal 7: their number or values.
    pub fn new<T: AsRef<[u8]>>(table: &Table<T>, bytes: &[u8]) -> Result<Guards, Refusal> {
        let mut guards = Guards::all_open(table);
        Some(bytes).filter(|bytes| bytes.len() == usize::from(guards.edges)).ok_or(BAD_GUARDS)?;
        for (byte, edge) in bytes.iter().zip(0..) {
            match *byte {
                OPEN => {}
                CLOSED => guards.close(edge)?,
                _ => return Err(BAD_GUARDS),
            }
        }
        Ok(guards)
    }

    /// Lets tokens go over this edge again.
    ///
    /// # Errors
    /// Refusal 7: the table has no such edge, or doesn't call it guarded.
    pub fn open(&mut self, edge: impl Into<EdgeId>) -> Result<(), Refusal> {
        self.set(edge.into(), OPEN)
    }

    /// Lets nothing go over this edge.
    ///
    /// # Errors
    /// Refusal 7: the table has no such edge, or doesn't call it guarded.
    pub fn close(&mut self, edge: impl Into<EdgeId>) -> Result<(), Refusal> {
        self.set(edge.into(), CLOSED)
    }

    fn set(&mut self, edge: EdgeId, byte: u8) -> Result<(), Refusal> {
        let is_guarded = self.is_guarded.get(edge.index()) == Some(&true);
        *self.bytes.get_mut(edge.index()).filter(|_| is_guarded).ok_or(BAD_GUARDS)? = byte;
        Ok(())
    }

    /// Whether tokens may go over this edge; of an edge that the table doesn't have, no.
    pub fn is_open(&self, edge: impl Into<EdgeId>) -> bool {
        self.as_bytes().get(edge.into().index()) == Some(&OPEN)
    }

    /// The bytes.
    pub fn as_bytes(&self) -> &[u8] {
        self.bytes.get(..usize::from(self.edges)).unwrap_or(&self.bytes)
    }
}

impl fmt::Debug for Guards {
    fn fmt(&self, f: &mut fmt::Formatter<'_>) -> fmt::Result {
        f.debug_list().entries(self.as_bytes()).finish()
    }
}

const HEAD: usize = 4;
const ENTRY: usize = 9;
const VERSION: u8 = 1;

/// Bounds on the values that may go over some object edges of a table.
///
/// # Examples
/// ```
/// use keshmirun::{Bounds, Table};
///
/// // the paper's small event
/// let table = Table::new([
///     0, 0x33, 1, 7, 5, //
///     1, 255, 0, 0, 6, 255, 0, 4, 8, 255, 0, 0, 11, 255, 0, 0, 3, 5, 1, 1, 2, 255, 0, 0, 5, 255, 0, 2, //
///     0, 0, 3, 0, 1, 1, 2, 0, 1, 2, 3, 1, 1, 2, 6, 1, 1, 3, 4, 0,
/// ])?;
/// let mut bounds = Bounds::none(&table);
/// bounds.set(3, 6..)?; // "score 6 or more"
/// bounds.set(2, ..6)?;
/// assert_eq!((bounds.of(2), bounds.of(3), bounds.of(4)), (Some(0..=5), Some(6..=u32::MAX), None));
/// assert_eq!(bounds.as_bytes(), keshmirun::bounds_list(&[(2, 0..=5), (3, 6..=u32::MAX)]));
///
/// assert_eq!(bounds.set(0, 6..).unwrap_err().number, 18); // tokens have no value
/// assert_eq!(bounds.set(3, 6..6).unwrap_err().number, 18); // no value is in there: close its guard
/// # Ok::<(), keshmirun::Refusal>(())
/// ```
#[derive(Clone, Copy, PartialEq, Eq)]
pub struct Bounds {
    bytes: [u8; HEAD + ENTRY * MOST_EDGES],
    is_object: [bool; MOST_EDGES],
}

impl Bounds {
    /// None: every value goes over every edge that is open.
    pub fn none<T: AsRef<[u8]>>(table: &Table<T>) -> Bounds {
        let mut bounds = Bounds { bytes: [0; HEAD + ENTRY * MOST_EDGES], is_object: asked(table, |edge| edge.kind() == EdgeKind::Object) };
        bounds.count_to(0);
        bounds
    }

    /// The bounds of this list: its length (2 bytes), version 1 and a count; then, for each entry, an edge, a low and a high, both 4 bytes, edges rising.
    ///
    /// # Errors
    /// Refusal 18: its frame, an edge that isn't an object edge of the table, their order, or low above high.
    pub fn new<T: AsRef<[u8]>>(table: &Table<T>, list: &[u8]) -> Result<Bounds, Refusal> {
        let mut bounds = Bounds::none(table);
        for entry in list.get(HEAD..).ok_or(BAD_BOUNDS)?.chunks(ENTRY) {
            match *entry {
                [edge, a, b, c, d, e, f, g, h] => bounds.set(edge, u32::from_be_bytes([a, b, c, d])..=u32::from_be_bytes([e, f, g, h]))?,
                _ => return Err(BAD_BOUNDS),
            }
        }
        // what was set is written in one way, so the list is good if it is that
        Some(bounds).filter(|bounds| bounds.as_bytes() == list).ok_or(BAD_BOUNDS)
    }

    /// Lets only these values go over this edge, in place of what was set for it before.
    ///
    /// # Errors
    /// Refusal 18: the table has no such edge, it is a control edge, or there are no such values.
    pub fn set(&mut self, edge: impl Into<EdgeId>, values: impl RangeBounds<u32>) -> Result<(), Refusal> {
        let edge = edge.into();
        let (low, high) = limits(&values).ok_or(BAD_BOUNDS)?;
        Some(edge).filter(|edge| self.is_object.get(edge.index()) == Some(&true)).ok_or(BAD_BOUNDS)?;
        self.clear(edge);
        let at = self.before(edge);
        let end = self.as_bytes().len();
        self.bytes.copy_within(at..end, at + ENTRY);
        if let Some([number, a, b, c, d, e, f, g, h]) = self.bytes.get_mut(at..at + ENTRY) {
            *number = edge.number();
            [*a, *b, *c, *d] = low.to_be_bytes();
            [*e, *f, *g, *h] = high.to_be_bytes();
        }
        self.count_to(self.count() + 1);
        Ok(())
    }

    /// Lets every value go over this edge again.
    pub fn clear(&mut self, edge: impl Into<EdgeId>) {
        let edge = edge.into();
        let (at, end) = (self.before(edge), self.as_bytes().len());
        if self.bytes.get(at) == Some(&edge.number()) && at < end {
            self.bytes.copy_within(at + ENTRY..end, at);
            self.count_to(self.count() - 1);
        }
    }

    /// The values that may go over this edge, if it is bounded.
    pub fn of(&self, edge: impl Into<EdgeId>) -> Option<RangeInclusive<u32>> {
        let edge = edge.into();
        self.entries().find(|(listed, _)| *listed == edge).map(|(_, values)| values)
    }

    /// Each edge that is bounded, with the values that may go over it.
    pub fn entries(&self) -> impl Iterator<Item = (EdgeId, RangeInclusive<u32>)> + '_ {
        self.as_bytes()[HEAD..].chunks_exact(ENTRY).map(|entry| {
            let value = |at: usize| entry[at..at + 4].iter().fold(0, |value, byte| value << 8 | u32::from(*byte));
            (EdgeId::new(entry[0]), value(1)..=value(5))
        })
    }

    /// The bytes of the list.
    pub fn as_bytes(&self) -> &[u8] {
        self.bytes.get(..HEAD + ENTRY * usize::from(self.count())).unwrap_or(&self.bytes)
    }

    fn count(&self) -> u8 {
        self.bytes[HEAD - 1]
    }

    /// Writes the head for so many entries, and nothing behind the last.
    fn count_to(&mut self, count: u8) {
        let length = HEAD + ENTRY * usize::from(count);
        let [high, low] = ((length - 2) as u16).to_be_bytes();
        self.bytes[..HEAD].copy_from_slice(&[high, low, VERSION, count]);
        self.bytes[length..].fill(0);
    }

    /// Where the first entry stands whose edge is not before this one, or where the next one would.
    fn before(&self, edge: EdgeId) -> usize {
        HEAD + ENTRY * self.entries().take_while(|(listed, _)| *listed < edge).count()
    }
}

/// The least and the greatest of these values, if there are any.
fn limits(values: &impl RangeBounds<u32>) -> Option<(u32, u32)> {
    let low = match values.start_bound() {
        Bound::Included(low) => *low,
        Bound::Excluded(below) => below.checked_add(1)?,
        Bound::Unbounded => 0,
    };
    let high = match values.end_bound() {
        Bound::Included(high) => *high,
        Bound::Excluded(above) => above.checked_sub(1)?,
        Bound::Unbounded => u32::MAX,
    };
    Some((low, high)).filter(|(low, high)| low <= high)
}

impl fmt::Debug for Bounds {
    fn fmt(&self, f: &mut fmt::Formatter<'_>) -> fmt::Result {
        f.debug_map().entries(self.entries()).finish()
    }
}
