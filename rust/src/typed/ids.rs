//! Numbers of nodes, edges and ends, each of a type of its own, so that none is taken for another.

use core::fmt;

macro_rules! id {
    ($(#[$doc:meta])* $name:ident) => {
        $(#[$doc])*
        #[derive(Clone, Copy, Debug, PartialEq, Eq, PartialOrd, Ord, Hash)]
        pub struct $name(u8);

        impl $name {
            /// The one of this number, whether a table or sheet has it or not.
            pub const fn new(number: u8) -> $name {
                $name(number)
            }

            /// Its number, as it stands in bytes.
            pub const fn number(self) -> u8 {
                self.0
            }

            /// Its number, for an index.
            pub const fn index(self) -> usize {
                self.0 as usize
            }
        }

        impl From<u8> for $name {
            fn from(number: u8) -> $name {
                $name(number)
            }
        }

        impl From<$name> for u8 {
            fn from(id: $name) -> u8 {
                id.0
            }
        }

        impl PartialEq<u8> for $name {
            fn eq(&self, number: &u8) -> bool {
                self.0 == *number
            }
        }

        impl fmt::Display for $name {
            fn fmt(&self, f: &mut fmt::Formatter<'_>) -> fmt::Result {
                self.0.fmt(f)
            }
        }
    };
}

id! {
    /// A node's number in its table, from 0.
    ///
    /// # Examples
    /// ```
    /// use keshmirun::NodeId;
    ///
    /// let seat = NodeId::new(4);
    /// assert_eq!((seat.number(), seat.to_string()), (4, "4".into()));
    /// ```
    ///
    /// An edge's number is none:
    /// ```compile_fail
    /// fn target(edge: keshmirun::EdgeId) -> keshmirun::NodeId {
    ///     edge
    /// }
    /// ```
    NodeId
}

id! {
    /// An edge's number in its table, from 0.
    ///
    /// # Examples
    /// ```
    /// assert_eq!(keshmirun::EdgeId::new(4), 4);
    /// ```
    EdgeId
}

id! {
    /// An end's number on its sheet, from 0.
    ///
    /// # Examples
    /// ```
    /// assert!(keshmirun::EndId::new(0) < keshmirun::EndId::new(1));
    /// ```
    EndId
}
