//! Why no acceptable choice has an end of a node: the wish's number, and what it means.

use core::fmt;

/// The reason that [`why`](crate::why) tells for a node: the first level at which no choice is left, over all sets of ends.
///
/// Each level asks for what those before it ask and for one thing more, so a higher number means that more went well.
///
/// # Examples
/// ```
/// use keshmirun::Reason;
///
/// assert_eq!(Reason::NoEnd.number(), 1);
/// assert_eq!(Reason::NoEnd.to_string(), "reason 1: no end belongs to the node");
/// ```
#[derive(Debug, Clone, Copy, PartialEq, Eq)]
pub enum Reason {
    /// 0: an acceptable choice with an end of the node exists, and [`pick`](crate::pick) finds the first; or no node is named.
    Acceptable = 0,
    /// 1: no end belongs to the node. So it is for a node that doesn't exist.
    NoEnd = 1,
    /// 2: no choice that takes an end of the node satisfies its own destination rule, a pin's being its action's.
    OwnDestination = 2,
    /// 3: none that does so is free of competing ends.
    Competing = 3,
    /// 4: none of those passes all forks whole.
    Forks = 4,
    /// 5: none of those satisfies all destinations.
    Destinations = 5,
}

impl Reason {
    /// The reason of a byte that the engine wrote, which is proved to be 0 to 5.
    pub(crate) fn of(byte: u8) -> Reason {
        match byte {
            0 => Reason::Acceptable,
            1 => Reason::NoEnd,
            2 => Reason::OwnDestination,
            3 => Reason::Competing,
            4 => Reason::Forks,
            _ => Reason::Destinations,
        }
    }

    /// The wish's number, 0 to 5.
    pub fn number(self) -> u8 {
        self as u8
    }

    /// What the number means. A choice for the node is one that takes an end of it.
    pub fn meaning(self) -> &'static str {
        match self {
            Reason::Acceptable => "a choice for the node is acceptable, or no node is named",
            Reason::NoEnd => "no end belongs to the node",
            Reason::OwnDestination => "no choice that takes an end of the node satisfies its own destination rule",
            Reason::Competing => "no choice for the node that satisfies its own rule is free of competing ends",
            Reason::Forks => "no choice for the node that satisfies its own rule, free of competing ends, passes all forks whole",
            Reason::Destinations => {
                "no choice for the node that satisfies its own rule, free of competing ends and with all forks whole, satisfies all destinations"
            }
        }
    }
}

impl fmt::Display for Reason {
    fn fmt(&self, f: &mut fmt::Formatter<'_>) -> fmt::Result {
        write!(f, "reason {}: {}", self.number(), self.meaning())
    }
}
