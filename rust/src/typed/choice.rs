//! A choice of ends.

use crate::{EndId, Refusal, MOST_ENDS};
use core::fmt;

/// A set of ends, by their numbers on a sheet. It takes no room of its own to build, and may be empty.
///
/// # Examples
/// ```
/// use keshmirun::Choice;
///
/// let taken = Choice::of([6, 4, 4])?; // as a judge taps them
/// assert_eq!(taken.as_bytes(), [4, 6]);
/// assert!(taken.has(6) && !taken.has(5));
/// assert_eq!(taken.to_string(), "4,6");
///
/// // as bytes they must rise
/// assert_eq!(Choice::new(&[4, 6])?, taken);
/// assert_eq!(Choice::new(&[6, 4]).unwrap_err().number, 9);
/// // no sheet has an end 20
/// assert_eq!(Choice::of([20]).unwrap_err().number, 9);
/// # Ok::<(), keshmirun::Refusal>(())
/// ```
#[derive(Clone, Copy, PartialEq, Eq, Hash)]
pub struct Choice {
    /// Rising; 0 behind the last.
    ends: [u8; MOST_ENDS],
    count: u8,
}

const NO_CHOICE: Refusal = Refusal::placeless(9);

impl Choice {
    /// The empty choice, which is always acceptable.
    pub const fn none() -> Choice {
        Choice { ends: [0; MOST_ENDS], count: 0 }
    }

    /// The choice of these bytes, as [`pick`](crate::pick) writes them.
    ///
    /// # Errors
    /// Refusal 9: they don't rise strictly, or name an end that no sheet has. Whether the sheet at hand has it is for the engine to say.
    pub fn new(bytes: &[u8]) -> Result<Choice, Refusal> {
        let choice = Choice::of(bytes.iter().copied())?;
        Some(choice).filter(|choice| choice.as_bytes() == bytes).ok_or(NO_CHOICE)
    }

    /// The choice of these ends, in any order.
    ///
    /// # Errors
    /// Refusal 9: one is an end that no sheet has.
    pub fn of<E: Into<EndId>>(ends: impl IntoIterator<Item = E>) -> Result<Choice, Refusal> {
        let mut is_taken = [false; MOST_ENDS];
        for end in ends {
            *is_taken.get_mut(end.into().index()).ok_or(NO_CHOICE)? = true;
        }
        let mut choice = Choice::none();
        let taken = (0..).zip(is_taken).filter(|(_, is_taken)| *is_taken).map(|(end, _)| end);
        for (place, end) in choice.ends.iter_mut().zip(taken) {
            *place = end;
            choice.count += 1;
        }
        Ok(choice)
    }

    /// The bytes: rising numbers.
    pub fn as_bytes(&self) -> &[u8] {
        self.ends.get(..usize::from(self.count)).unwrap_or(&self.ends)
    }

    /// Its ends, rising.
    pub fn ends(&self) -> impl ExactSizeIterator<Item = EndId> + DoubleEndedIterator + '_ {
        self.as_bytes().iter().map(|end| EndId::new(*end))
    }

    /// Whether it has this end.
    pub fn has(&self, end: impl Into<EndId>) -> bool {
        self.as_bytes().contains(&end.into().number())
    }

    /// Whether it has none.
    pub fn is_empty(&self) -> bool {
        self.count == 0
    }
}

/// `-` for none, else the numbers with commas between them.
impl fmt::Display for Choice {
    fn fmt(&self, f: &mut fmt::Formatter<'_>) -> fmt::Result {
        for (place, end) in self.ends().enumerate() {
            write!(f, "{}{end}", if place > 0 { "," } else { "" })?;
        }
        f.write_str(if self.is_empty() { "-" } else { "" })
    }
}

impl fmt::Debug for Choice {
    fn fmt(&self, f: &mut fmt::Formatter<'_>) -> fmt::Result {
        f.debug_set().entries(self.as_bytes()).finish()
    }
}
