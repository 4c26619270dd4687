//! The seven operations over slices: safe calls that hand the archive what they are lent and take its answer word apart.

use crate::archive::{self, unpacked};
use crate::{Reason, Refusal, Terms};

/// Checks a diagram table, which has up to [`MOST_NODES`](crate::MOST_NODES) nodes and [`MOST_EDGES`](crate::MOST_EDGES) edges.
///
/// # Errors
/// Refusals 1 (frame, version, counts), 2 (a node's fields), 3 (an edge's fields or ends) and 4 (shape); the place is the lowest node or edge that breaks
/// the rule.
///
/// # Examples
/// ```
/// // one initial node, one action, and the control edge between them
/// let table = [0, 15, 1, 2, 1, 1, 255, 0, 0, 2, 255, 0, 0, 0, 0, 1, 0];
/// assert_eq!(keshmirun::check(&table), Ok(()));
///
/// let refusal = keshmirun::check(&table[..16]).unwrap_err();
/// assert_eq!((refusal.number, refusal.place), (1, 0));
/// ```
pub fn check(table: &[u8]) -> Result<(), Refusal> {
    // SAFETY: the archive reads the `table.len()` bytes behind the pointer and keeps nothing.
    let word = unsafe { archive::check(table.as_ptr(), table.len()) };
    unpacked(word).map(|_| ())
}

/// Writes the marking with which an activity begins to the front of `out`, and returns its length.
///
/// `values` holds, for each incoming parameter in the table's order, a count and that many 4-byte values. [`Room::MARKING`](crate::Room::MARKING) bytes hold any marking. A refused
/// call leaves `out` as it was.
///
/// # Errors
/// Refusals 1 to 4 as for [`check`], 15 (the lists are cut, count over 16, or leave bytes), 16 (a stock over its upper) and 17 (`out` is shorter than the
/// marking); the places of 15 to 17 are 0.
///
/// # Examples
/// ```
/// let table = [0, 15, 1, 2, 1, 1, 255, 0, 0, 2, 255, 0, 0, 0, 0, 1, 0];
/// let mut out = [0; keshmirun::Room::MARKING];
/// let length = keshmirun::start(&table, &[], &mut out).unwrap();
/// // live, the action idle, and a token on the edge
/// assert_eq!(out[..length], [0, 4, 1, 0, 0, 1]);
///
/// assert_eq!(keshmirun::start(&table, &[], &mut out[..5]).unwrap_err().number, 17);
/// ```
pub fn start(table: &[u8], values: &[u8], out: &mut [u8]) -> Result<usize, Refusal> {
    // SAFETY: the archive reads and writes only the bytes behind the pointers, as many as their lengths say, and keeps nothing.
    let word = unsafe { archive::start(table.as_ptr(), table.len(), values.as_ptr(), values.len(), out.as_mut_ptr(), out.len()) };
    unpacked(word)
}

/// Writes the sheet of offered ends to the front of `out`, and returns its length.
///
/// [`Terms`] say over which edges tokens may go now, and with which values. The sheet is its length (2 bytes), version 1 and the number of ends; then, for each
/// end in order, its last edge, 1 or 0 for value or none, four value bytes, the number of its paths, and each path as its length and its edges. Ends are
/// ordered by target node, which for a pin is the pin and not its action, then by last edge, then by paths; they are numbered from 0. [`Room::SHEET`](crate::Room::SHEET) bytes
/// hold any sheet. A refused call leaves `out` as it was.
///
/// # Errors
/// In the order in which they are judged: refusals 1 to 4 as for [`check`], 5 (the bytes are no marking of the table), 6 (the activity has ended), 7 (the
/// guards' number or values), 18 (the bounds list: its frame, an edge, their order, or low above high), 8 (more than 64 offers, 8 paths in an offer, or 20
/// ends) and 17 (`out` is shorter than the sheet); all places from 5 on are 0.
///
/// # Examples
/// ```
/// use keshmirun::Terms;
///
/// // the paper's small event: results (node 1) go by a decision (2) to a buffer (6), or by a join (3) to the pin (4) of an action (5)
/// let table = [
///     0, 0x33, 1, 7, 5, //
///     1, 255, 0, 0, 6, 255, 0, 4, 8, 255, 0, 0, 11, 255, 0, 0, 3, 5, 1, 1, 2, 255, 0, 0, 5, 255, 0, 2, //
///     0, 0, 3, 0, 1, 1, 2, 0, 1, 2, 3, 1, 1, 2, 6, 1, 1, 3, 4, 0,
/// ];
/// let marking = [0, 15, 1, 0, 2, 0, 0, 0, 7, 0, 0, 0, 9, 0, 0, 0, 1];
/// let mut out = [0; keshmirun::Room::SHEET];
/// let length = keshmirun::sheet(&table, &marking, Terms::new(&[1; 5]), &mut out).unwrap();
/// // two ends, the pin's on edge 4 and the buffer's on edge 3, both with value 7; the first needs two paths, since a join brings them together
/// let ends = [4, 1, 0, 0, 0, 7, 2, 2, 0, 4, 3, 1, 2, 4, 3, 1, 0, 0, 0, 7, 1, 2, 1, 3];
/// assert_eq!(out[..length], [&[0, 26, 1, 2][..], &ends].concat());
///
/// // edge 3 closed: the first alone is left
/// let length = keshmirun::sheet(&table, &marking, Terms::new(&[1, 1, 1, 0, 1]), &mut out).unwrap();
/// assert_eq!(out[..length], [&[0, 16, 1, 1][..], &ends[..14]].concat());
/// ```
pub fn sheet(table: &[u8], marking: &[u8], terms: Terms, out: &mut [u8]) -> Result<usize, Refusal> {
    let Terms { guards, bounds } = terms;
    // SAFETY: the archive reads and writes only the bytes behind the pointers, as many as their lengths say, and keeps nothing.
    let word = unsafe {
        archive::sheet(
            table.as_ptr(),
            table.len(),
            marking.as_ptr(),
            marking.len(),
            guards.as_ptr(),
            guards.len(),
            bounds.as_ptr(),
            bounds.len(),
            out.as_mut_ptr(),
            out.len(),
        )
    };
    unpacked(word)
}

/// The number that names no node to [`pick`] and [`why`].
pub const NO_NODE: u8 = 255;

/// Writes the first acceptable choice of ends to the front of `out`, one byte an end, and returns how many it has.
///
/// With a node named it is the first that has an end of that node, or of a pin of it if it is an action; [`NO_NODE`] names none. Of two choices the one that
/// holds the lowest end held by only one of them comes first. All results that wait at a join with one token may be in it. [`step`] takes what `pick` answers
/// on the same terms. [`Room::CHOICE`](crate::Room::CHOICE) bytes hold any choice. A refused call leaves `out` as it was.
///
/// # Errors
/// Refusals 1 to 8 and 18 as for [`sheet`], 13 (a node is named and no acceptable choice has an end of it; the place is that node, and [`why`] says what is in
/// the way) and 17 (`out` is shorter than the choice).
///
/// # Examples
/// ```
/// use keshmirun::Terms;
///
/// // the paper's small event, as in the example of `sheet`
/// let table = [
///     0, 0x33, 1, 7, 5, //
///     1, 255, 0, 0, 6, 255, 0, 4, 8, 255, 0, 0, 11, 255, 0, 0, 3, 5, 1, 1, 2, 255, 0, 0, 5, 255, 0, 2, //
///     0, 0, 3, 0, 1, 1, 2, 0, 1, 2, 3, 1, 1, 2, 6, 1, 1, 3, 4, 0,
/// ];
/// let marking = [0, 15, 1, 0, 2, 0, 0, 0, 7, 0, 0, 0, 9, 0, 0, 0, 1];
/// let mut out = [0; keshmirun::Room::CHOICE];
/// assert_eq!(keshmirun::pick(&table, &marking, Terms::new(&[1; 5]), keshmirun::NO_NODE, &mut out), Ok(1));
/// assert_eq!(out[0], 0);
///
/// // that is the action's, which gets the value by its pin; for the buffer it is the other end
/// assert_eq!(keshmirun::pick(&table, &marking, Terms::new(&[1; 5]), 5, &mut out), Ok(1));
/// assert_eq!(out[0], 0);
/// assert_eq!(keshmirun::pick(&table, &marking, Terms::new(&[1; 5]), 6, &mut out), Ok(1));
/// assert_eq!(out[0], 1);
///
/// // nothing ends at a decision
/// let refusal = keshmirun::pick(&table, &marking, Terms::new(&[1; 5]), 2, &mut out).unwrap_err();
/// assert_eq!((refusal.number, refusal.place), (13, 2));
/// ```
pub fn pick(table: &[u8], marking: &[u8], terms: Terms, node: u8, out: &mut [u8]) -> Result<usize, Refusal> {
    let Terms { guards, bounds } = terms;
    // SAFETY: the archive reads and writes only the bytes behind the pointers, as many as their lengths say, and keeps nothing.
    let word = unsafe {
        archive::pick(
            table.as_ptr(),
            table.len(),
            marking.as_ptr(),
            marking.len(),
            guards.as_ptr(),
            guards.len(),
            bounds.as_ptr(),
            bounds.len(),
            node,
            out.as_mut_ptr(),
            out.len(),
        )
    };
    unpacked(word)
}

/// Names the reason for which no acceptable choice has an end of a node: the first level at which no choice is left.
///
/// It takes what [`pick`] takes but room, since it writes one byte, and lends that itself. An end belongs to its target and, for a pin, to its action too; a
/// pin's own rule is its action's. It is [`Reason::Acceptable`] exactly if `pick` isn't refused with 13 on the same terms, as for [`NO_NODE`], and a node that
/// doesn't exist has no end.
///
/// # Errors
/// Refusals 1 to 8 and 18 as for [`sheet`].
///
/// # Examples
/// ```
/// use keshmirun::{Reason, Terms};
///
/// // the paper's small event with a fork (2) in place of the decision: results go to the buffer (6) and, by the join, to the pin (4) of the action (5)
/// let table = [
///     0, 0x33, 1, 7, 5, //
///     1, 255, 0, 0, 6, 255, 0, 4, 10, 255, 0, 0, 11, 255, 0, 0, 3, 5, 1, 1, 2, 255, 0, 0, 5, 255, 0, 2, //
///     0, 0, 3, 0, 1, 1, 2, 0, 1, 2, 3, 1, 1, 2, 6, 1, 1, 3, 4, 0,
/// ];
/// let marking = [0, 15, 1, 0, 2, 0, 0, 0, 7, 0, 0, 0, 9, 0, 0, 0, 1];
/// assert_eq!(keshmirun::why(&table, &marking, Terms::new(&[1; 5]), 5), Ok(Reason::Acceptable));
///
/// // the buffer full: it has no room by its own rule, and the action's ends would pass the fork whole only with the buffer's
/// let full = [0, 23, 1, 0, 2, 0, 0, 0, 7, 0, 0, 0, 9, 0, 0, 2, 0, 0, 0, 1, 0, 0, 0, 2, 1];
/// assert_eq!(keshmirun::why(&table, &full, Terms::new(&[1; 5]), 6), Ok(Reason::OwnDestination));
/// assert_eq!(keshmirun::why(&table, &full, Terms::new(&[1; 5]), 5), Ok(Reason::Destinations));
/// assert_eq!(keshmirun::pick(&table, &full, Terms::new(&[1; 5]), 5, &mut [0; keshmirun::Room::CHOICE]).unwrap_err().number, 13);
///
/// // nothing ends at a fork
/// assert_eq!(keshmirun::why(&table, &full, Terms::new(&[1; 5]), 2), Ok(Reason::NoEnd));
/// ```
pub fn why(table: &[u8], marking: &[u8], terms: Terms, node: u8) -> Result<Reason, Refusal> {
    let Terms { guards, bounds } = terms;
    // no reason, so that a byte that isn't written can't be taken for one
    let mut byte = [u8::MAX];
    // SAFETY: the archive reads and writes only the bytes behind the pointers, as many as their lengths say, and keeps nothing.
    let word = unsafe {
        archive::why(
            table.as_ptr(),
            table.len(),
            marking.as_ptr(),
            marking.len(),
            guards.as_ptr(),
            guards.len(),
            bounds.as_ptr(),
            bounds.len(),
            node,
            byte.as_mut_ptr(),
            byte.len(),
        )
    };
    unpacked(word).map(|_| Reason::of(byte[0]))
}

/// Writes the marking after a choice of ends is taken to the front of `out`, and returns its length.
///
/// `choice` names ends by their numbers on the [`sheet`] of the same table, marking and terms, in rising order; it may be empty. What its ends were made from
/// is spent, and then their targets gain in the order of ends, which at one stock is by last edge, then by paths. Results of one round may be taken together,
/// and spend its token once: two offers of a join don't compete for its tokens if "their object offers differ and their control offers are all the same".
/// [`Room::MARKING`](crate::Room::MARKING) bytes hold any marking. A refused call leaves `out` as it was.
///
/// # Errors
/// Refusals 1 to 8 and 18 as for [`sheet`], 9 (the choice is not strictly rising, or names no end), 10 (two of its ends compete; the place is the lowest that
/// does), 11 (a fork is not passed whole; the lowest such fork), 12 (a destination doesn't agree; the lowest such node, an action for its pins) and 17 (`out`
/// is shorter than the marking).
///
/// # Examples
/// ```
/// use keshmirun::Terms;
///
/// // the paper's small event, as in the example of `sheet`
/// let table = [
///     0, 0x33, 1, 7, 5, //
///     1, 255, 0, 0, 6, 255, 0, 4, 8, 255, 0, 0, 11, 255, 0, 0, 3, 5, 1, 1, 2, 255, 0, 0, 5, 255, 0, 2, //
///     0, 0, 3, 0, 1, 1, 2, 0, 1, 2, 3, 1, 1, 2, 6, 1, 1, 3, 4, 0,
/// ];
/// let marking = [0, 15, 1, 0, 2, 0, 0, 0, 7, 0, 0, 0, 9, 0, 0, 0, 1];
/// let mut out = [0; keshmirun::Room::MARKING];
/// let length = keshmirun::step(&table, &marking, Terms::new(&[1; 5]), &[0], &mut out).unwrap();
/// // 7 went to the pin and the initial node's token with it, so the action runs
/// assert_eq!(out[..length], [0, 15, 1, 0, 1, 0, 0, 0, 9, 1, 0, 0, 0, 7, 1, 0, 0]);
///
/// // both ends are made from the value 7
/// let refusal = keshmirun::step(&table, &marking, Terms::new(&[1; 5]), &[0, 1], &mut out).unwrap_err();
/// assert_eq!((refusal.number, refusal.place), (10, 0));
/// ```
pub fn step(table: &[u8], marking: &[u8], terms: Terms, choice: &[u8], out: &mut [u8]) -> Result<usize, Refusal> {
    let Terms { guards, bounds } = terms;
    // SAFETY: the archive reads and writes only the bytes behind the pointers, as many as their lengths say, and keeps nothing.
    let word = unsafe {
        archive::step(
            table.as_ptr(),
            table.len(),
            marking.as_ptr(),
            marking.len(),
            guards.as_ptr(),
            guards.len(),
            bounds.as_ptr(),
            bounds.len(),
            choice.as_ptr(),
            choice.len(),
            out.as_mut_ptr(),
            out.len(),
        )
    };
    unpacked(word)
}

/// Writes the marking after an action ends to the front of `out`, and returns its length.
///
/// The action's input pins are emptied, it is idle, `values` (for each of its output pins in the table's order a count and that many 4-byte values) are
/// appended, and each of its outgoing control edges gains a token. [`Room::MARKING`](crate::Room::MARKING) bytes hold any marking. A refused call leaves `out` as it was.
///
/// # Errors
/// Refusals 1 to 4 as for [`check`], 5 (the bytes are no marking of the table), 6 (the activity has ended), 14 (no running action), and 15 to 17 as for
/// [`start`], 16 also where an edge's count is at 255; all places from 5 on are 0.
///
/// # Examples
/// ```
/// let table = [0, 15, 1, 2, 1, 1, 255, 0, 0, 2, 255, 0, 0, 0, 0, 1, 0];
/// let running = [0, 4, 1, 0, 1, 0];
/// let mut out = [0; keshmirun::Room::MARKING];
/// let length = keshmirun::finish(&table, &running, 1, &[], &mut out).unwrap();
/// assert_eq!(out[..length], [0, 4, 1, 0, 0, 0]);
///
/// let idle = out;
/// assert_eq!(keshmirun::finish(&table, &idle[..length], 1, &[], &mut out).unwrap_err().number, 14);
/// ```
pub fn finish(table: &[u8], marking: &[u8], action: u8, values: &[u8], out: &mut [u8]) -> Result<usize, Refusal> {
    // SAFETY: the archive reads and writes only the bytes behind the pointers, as many as their lengths say, and keeps nothing.
    let word = unsafe {
        archive::finish(
            table.as_ptr(),
            table.len(),
            marking.as_ptr(),
            marking.len(),
            action,
            values.as_ptr(),
            values.len(),
            out.as_mut_ptr(),
            out.len(),
        )
    };
    unpacked(word)
}
