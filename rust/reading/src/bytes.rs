//! Bytes as the paper writes them: length first, counts with values, big-endian.

/// A 4-byte value. Values are copied far more often than compared, so they stay
/// bytes.
pub type Value = [u8; 4];

/// The number that this value is, which lies in bounds or not: "unsigned" by wish
/// 1, and "Big-endian" like all the paper's numbers.
pub fn unsigned(value: Value) -> u32 {
    u32::from_be_bytes(value)
}

/// "Bytes 0-1 give the number of bytes after them, L; every 2-byte length here
/// and later does so." The bytes after the length, if they are as many as it
/// gives: neither fewer nor more.
pub fn after_length(bytes: &[u8]) -> Option<&[u8]> {
    let high = *bytes.first()?;
    let low = *bytes.get(1)?;
    let length = usize::from(u16::from_be_bytes([high, low]));
    let rest = &bytes[2..];
    if rest.len() == length {
        Some(rest)
    } else {
        None
    }
}

/// The same sentence, for writing: `rest` with its length before it.
pub fn with_length(rest: &[u8]) -> Vec<u8> {
    let length = rest.len() as u16;
    let mut bytes = length.to_be_bytes().to_vec();
    bytes.extend_from_slice(rest);
    bytes
}

/// "a count and that many 4-byte values, oldest first", for writing.
pub fn write_stock(bytes: &mut Vec<u8>, stock: &[Value]) {
    bytes.push(stock.len() as u8);
    for value in stock {
        bytes.extend_from_slice(value);
    }
}

/// Takes bytes one after another. Each answer is `None` once they run out.
pub struct Reader<'a> {
    rest: &'a [u8],
}

impl<'a> Reader<'a> {
    /// A reader at the first of these bytes.
    pub fn new(bytes: &'a [u8]) -> Reader<'a> {
        Reader { rest: bytes }
    }

    /// The next byte.
    pub fn byte(&mut self) -> Option<u8> {
        let (first, rest) = self.rest.split_first()?;
        self.rest = rest;
        Some(*first)
    }

    /// The next byte, if it is at most `most`.
    pub fn byte_up_to(&mut self, most: u8) -> Option<u8> {
        self.byte().filter(|byte| *byte <= most)
    }

    /// The next 4 bytes.
    pub fn value(&mut self) -> Option<Value> {
        Some([self.byte()?, self.byte()?, self.byte()?, self.byte()?])
    }

    /// "a count and that many 4-byte values, oldest first", if the count is at
    /// most `most`.
    pub fn stock(&mut self, most: u8) -> Option<Vec<Value>> {
        let count = self.byte_up_to(most)?;
        (0..count).map(|_| self.value()).collect()
    }

    /// Whether no byte is left.
    pub fn is_at_end(&self) -> bool {
        self.rest.is_empty()
    }
}
