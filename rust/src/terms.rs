//! The terms on which tokens may go over edges: guards, and bounds on the values.

use crate::{Bounds, Guards};
#[cfg(feature = "alloc")]
use core::ops::RangeInclusive;

/// The bounds list of no edge, with which every answer is the guards' alone.
pub const NO_BOUNDS: [u8; 4] = [0, 2, 1, 0];

/// The terms of a [`sheet`](crate::sheet), [`pick`](crate::pick), [`why`](crate::why) or [`step`](crate::step): guards, with a bounds list beside them or none.
///
/// They are lent as bytes and judged by the call: 7 is its refusal for the guards, 18 for the bounds list. [`Guards`] and [`Bounds`] are such bytes that are good
/// for their table. What the engine comes to take beside these two will
/// be a further `with_..`, and callers of today's stay as they are.
///
/// # Examples
/// ```
/// use keshmirun::{bounds_list, Room, Terms};
///
/// // the paper's small event, as in the example of `sheet`
/// let table = [
///     0, 0x33, 1, 7, 5, //
///     1, 255, 0, 0, 6, 255, 0, 4, 8, 255, 0, 0, 11, 255, 0, 0, 3, 5, 1, 1, 2, 255, 0, 0, 5, 255, 0, 2, //
///     0, 0, 3, 0, 1, 1, 2, 0, 1, 2, 3, 1, 1, 2, 6, 1, 1, 3, 4, 0,
/// ];
/// let marking = [0, 15, 1, 0, 2, 0, 0, 0, 7, 0, 0, 0, 9, 0, 0, 0, 1];
/// let mut out = [0; Room::SHEET];
///
/// // edge 3, to the buffer, is for 8 and 9: 7 doesn't go over it, and the end on edge 4 is left
/// let bounds = bounds_list(&[(3, 8..=9)]);
/// let terms = Terms::new(&[1; 5]).with_bounds(&bounds);
/// let length = keshmirun::sheet(&table, &marking, terms, &mut out).unwrap();
/// assert_eq!(out[..length], [0, 16, 1, 1, 4, 1, 0, 0, 0, 7, 2, 2, 0, 4, 3, 1, 2, 4]);
///
/// // bounds are inclusive, so from 7 on both ends are there
/// let bounds = bounds_list(&[(3, 7..=u32::MAX)]);
/// assert_eq!(keshmirun::sheet(&table, &marking, Terms::new(&[1; 5]).with_bounds(&bounds), &mut out), Ok(28));
/// assert_eq!(out[3], 2);
///
/// // edge 0 is a control edge, whose tokens have no value
/// let bounds = bounds_list(&[(0, 8..=9)]);
/// let refusal = keshmirun::sheet(&table, &marking, Terms::new(&[1; 5]).with_bounds(&bounds), &mut out).unwrap_err();
/// assert_eq!((refusal.number, refusal.place), (18, 0));
/// ```
#[derive(Clone, Copy, Debug)]
pub struct Terms<'a> {
    pub(crate) guards: &'a [u8],
    pub(crate) bounds: &'a [u8],
}

impl<'a> Terms<'a> {
    /// These guards, and no bounds ([`NO_BOUNDS`]).
    ///
    /// There is a byte for each edge, 1 if tokens may go over it now; an edge that the table doesn't call guarded has 1.
    pub const fn new(guards: &'a [u8]) -> Terms<'a> {
        Terms { guards, bounds: &NO_BOUNDS }
    }

    /// The same with this bounds list, in place of the one before.
    ///
    /// The list is its length (2 bytes), version 1 and a count; then, for each entry, an edge, a low and a high, both 4 bytes. Edges rise strictly, each is an
    /// object edge of the table, guarded or not, and low is at most high. A value goes over an edge that is listed only if it lies in the bounds, low and high
    /// included. [`bounds_list`] writes such a list.
    pub const fn with_bounds(self, bounds: &'a [u8]) -> Terms<'a> {
        Terms { bounds, ..self }
    }
}

impl<'a> From<&'a Guards> for Terms<'a> {
    /// These guards, and no bounds.
    fn from(guards: &'a Guards) -> Terms<'a> {
        Terms::new(guards.as_bytes())
    }
}

impl Guards {
    /// These guards with these bounds beside them.
    pub fn with<'a>(&'a self, bounds: &'a Bounds) -> Terms<'a> {
        Terms::from(self).with_bounds(bounds.as_bytes())
    }
}

/// The bytes of a bounds list: for each entry an edge, and the values that may go over it.
///
/// It writes what it is given, in that order, and judges nothing; the engine does, with 18. Of more than 255 entries none is cut off: the count is then 255
/// with all of them behind it, and the engine refuses that as it does any list that goes on behind its last entry.
///
/// # Examples
/// ```
/// assert_eq!(keshmirun::bounds_list(&[]), keshmirun::NO_BOUNDS);
///
/// // 6 or more over edge 2, and 0 alone over edge 3
/// let bounds = keshmirun::bounds_list(&[(2, 6..=u32::MAX), (3, 0..=0)]);
/// assert_eq!(bounds, [0, 20, 1, 2, 2, 0, 0, 0, 6, 255, 255, 255, 255, 3, 0, 0, 0, 0, 0, 0, 0, 0]);
/// ```
#[cfg(feature = "alloc")]
pub fn bounds_list(entries: &[(u8, RangeInclusive<u32>)]) -> alloc::vec::Vec<u8> {
    // where a count or length doesn't fit, the greatest stands, and what is behind it is more
    let count = u8::try_from(entries.len()).unwrap_or(u8::MAX);
    let length = u16::try_from(2 + 9 * entries.len()).unwrap_or(u16::MAX);
    let mut bytes = [&length.to_be_bytes()[..], &[1, count]].concat();
    for (edge, values) in entries {
        bytes.push(*edge);
        bytes.extend(values.start().to_be_bytes());
        bytes.extend(values.end().to_be_bytes());
    }
    bytes
}
