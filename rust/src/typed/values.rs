//! Lists of values that an activity starts with, or that an action brings when it is finished.

/// Values for [`Table::start`](crate::Table::start), a list for each incoming parameter, or for [`Table::finish`](crate::Table::finish), a list for each output
/// pin of the action; in the table's order. Over bytes that are lent or its own. The engine judges them, with 15 and 16.
///
/// # Examples
/// ```
/// use keshmirun::Values;
///
/// // 7 and 9 for the first, nothing for the second
/// let values = Values::of([&[7, 9][..], &[]]);
/// assert_eq!(values.as_bytes(), [2, 0, 0, 0, 7, 0, 0, 0, 9, 0]);
/// assert_eq!(Values::NONE.as_bytes(), []);
/// ```
#[derive(Clone, Copy, Debug, PartialEq, Eq, Hash)]
pub struct Values<B> {
    bytes: B,
}

impl Values<[u8; 0]> {
    /// No list: for a table without incoming parameters, or an action without output pins.
    pub const NONE: Values<[u8; 0]> = Values { bytes: [] };
}

impl<B: AsRef<[u8]>> Values<B> {
    /// The lists of these bytes: of each a count, and that many 4-byte values.
    pub const fn new(bytes: B) -> Values<B> {
        Values { bytes }
    }

    /// Their bytes.
    pub fn as_bytes(&self) -> &[u8] {
        self.bytes.as_ref()
    }
}

#[cfg(feature = "alloc")]
impl Values<alloc::vec::Vec<u8>> {
    /// These lists, which the call takes in this order. It judges nothing: of more than 255 values in a list none is cut off, but the count is then 255, and
    /// the engine refuses any that is over 16.
    pub fn of<L: AsRef<[u32]>>(lists: impl IntoIterator<Item = L>) -> Values<alloc::vec::Vec<u8>> {
        let mut bytes = alloc::vec::Vec::new();
        for list in lists {
            let values = list.as_ref();
            bytes.push(u8::try_from(values.len()).unwrap_or(u8::MAX));
            bytes.extend(values.iter().flat_map(|value| value.to_be_bytes()));
        }
        Values { bytes }
    }
}
