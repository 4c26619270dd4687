//! How large things may be, and how much room any reply and any call take.

/// The most nodes that a table may have; one with more is refused with 1.
pub const MOST_NODES: usize = 120;

/// The most edges that a table may have; one with more is refused with 1.
pub const MOST_EDGES: usize = 200;

/// The most values that a stock may be drawn for, which is the greatest upper, and the most in one list of a [`start`](crate::start) or
/// [`finish`](crate::finish).
pub const MOST_VALUES: usize = 16;

/// The most tokens on one control edge; a finish that would add to them is refused with 16.
pub const MOST_TOKENS: usize = 255;

/// The most control nodes (decisions, merges, forks, joins) in a chain; a longer one is refused with 4.
pub const LONGEST_CHAIN: usize = 15;

/// The most edges in a path.
pub const LONGEST_PATH: usize = 16;

/// The most offers at a time; more are refused with 8.
pub const MOST_OFFERS: usize = 64;

/// The most paths of an offer, and so of an end; more are refused with 8.
pub const MOST_PATHS: usize = 8;

/// The most ends on a sheet; more are refused with 8.
pub const MOST_ENDS: usize = 20;

/// How many bytes to lend for a reply, so that no call is refused with 17, and how much stack a call takes. It has no values, only these names.
///
/// # Examples
/// ```
/// use keshmirun::Room;
///
/// // one initial node, one action, and the control edge between them
/// let table = [0, 15, 1, 2, 1, 1, 255, 0, 0, 2, 255, 0, 0, 0, 0, 1, 0];
/// let mut marking = [0; Room::MARKING];
/// assert_eq!(keshmirun::start(&table, &[], &mut marking), Ok(6));
/// ```
#[derive(Debug)]
pub enum Room {}

impl Room {
    /// Room for any marking, which [`start`](crate::start), [`step`](crate::step) and [`finish`](crate::finish) write.
    pub const MARKING: usize = 8_192;

    /// Room for any [`sheet`](crate::sheet); the longest has 2,864 bytes.
    pub const SHEET: usize = 4_096;

    /// Room for any choice that [`pick`](crate::pick) writes: a byte for each end.
    pub const CHOICE: usize = MOST_ENDS;

    /// More stack than any call of the engine takes. It is tested and not proved; the deepest call that is known takes 28,139 bytes. Give a thread that calls
    /// the engine twice as much at least, for the caller's own.
    pub const STACK: usize = 32_768;
}
