//! Kinds of nodes and of edges: the paper's numbers and names.

use core::fmt;

/// A node's kind, with the paper's number and name.
///
/// # Examples
/// ```
/// use keshmirun::Kind;
///
/// assert_eq!((Kind::CentralBuffer.number(), Kind::CentralBuffer.name()), (5, "central buffer"));
/// assert_eq!(Kind::of(13), Some(Kind::ActivityFinal));
/// assert_eq!(Kind::named("join"), Some(Kind::Join));
/// assert_eq!((Kind::of(0), Kind::of(14)), (None, None));
/// ```
#[derive(Clone, Copy, Debug, PartialEq, Eq, PartialOrd, Ord, Hash)]
pub enum Kind {
    /// 1: where the day begins; each of its edges has a token at the start.
    Initial = 1,
    /// 2: something that is done, idle or running.
    Action = 2,
    /// 3: a stock of values for its action, filled when the action begins.
    InputPin = 3,
    /// 4: a stock of values that its action made.
    OutputPin = 4,
    /// 5: a stock of values.
    CentralBuffer = 5,
    /// 6: a stock of values that are there when the day begins.
    IncomingParameter = 6,
    /// 7: a stock of values that the day ends in: the standings.
    OutgoingParameter = 7,
    /// 8: what comes goes one of the ways that leave it.
    Decision = 8,
    /// 9: what comes by any way goes on by one.
    Merge = 9,
    /// 10: what comes goes all the ways that leave it.
    Fork = 10,
    /// 11: goes on when something has come by each way.
    Join = 11,
    /// 12: drops what arrives.
    FlowFinal = 12,
    /// 13: ends the day.
    ActivityFinal = 13,
}

impl Kind {
    /// All kinds, by number.
    pub const ALL: [Kind; 13] = {
        use Kind::*;
        [
            Initial,
            Action,
            InputPin,
            OutputPin,
            CentralBuffer,
            IncomingParameter,
            OutgoingParameter,
            Decision,
            Merge,
            Fork,
            Join,
            FlowFinal,
            ActivityFinal,
        ]
    };

    /// The kind of this number, 1 to 13.
    pub fn of(number: u8) -> Option<Kind> {
        Kind::ALL.get(usize::from(number.checked_sub(1)?)).copied()
    }

    /// The kind of this name, such as `"input pin"`.
    pub fn named(name: &str) -> Option<Kind> {
        Kind::ALL.into_iter().find(|kind| kind.name() == name)
    }

    /// The paper's number, 1 to 13.
    pub const fn number(self) -> u8 {
        self as u8
    }

    /// The paper's name.
    pub const fn name(self) -> &'static str {
        match self {
            Kind::Initial => "initial",
            Kind::Action => "action",
            Kind::InputPin => "input pin",
            Kind::OutputPin => "output pin",
            Kind::CentralBuffer => "central buffer",
            Kind::IncomingParameter => "incoming parameter",
            Kind::OutgoingParameter => "outgoing parameter",
            Kind::Decision => "decision",
            Kind::Merge => "merge",
            Kind::Fork => "fork",
            Kind::Join => "join",
            Kind::FlowFinal => "flow final",
            Kind::ActivityFinal => "activity final",
        }
    }

    /// Whether it is a pin of an action.
    pub const fn is_pin(self) -> bool {
        matches!(self, Kind::InputPin | Kind::OutputPin)
    }

    /// Whether it is an object node, which holds a stock of values: pins, buffers, parameters.
    pub const fn is_object_node(self) -> bool {
        matches!(self, Kind::InputPin | Kind::OutputPin | Kind::CentralBuffer | Kind::IncomingParameter | Kind::OutgoingParameter)
    }

    /// Whether it is a control node, through which offers go without rest: decisions, merges, forks, joins.
    pub const fn is_control_node(self) -> bool {
        matches!(self, Kind::Decision | Kind::Merge | Kind::Fork | Kind::Join)
    }
}

impl fmt::Display for Kind {
    fn fmt(&self, f: &mut fmt::Formatter<'_>) -> fmt::Result {
        f.write_str(self.name())
    }
}

/// An edge's kind: what goes over it.
///
/// # Examples
/// ```
/// use keshmirun::EdgeKind;
///
/// assert_eq!((EdgeKind::Object.number(), EdgeKind::Object.to_string()), (1, "object".into()));
/// ```
#[derive(Clone, Copy, Debug, PartialEq, Eq, PartialOrd, Ord, Hash)]
pub enum EdgeKind {
    /// 0: tokens, which have no value.
    Control = 0,
    /// 1: values.
    Object = 1,
}

impl EdgeKind {
    /// The paper's number, 0 or 1.
    pub const fn number(self) -> u8 {
        self as u8
    }
}

impl fmt::Display for EdgeKind {
    fn fmt(&self, f: &mut fmt::Formatter<'_>) -> fmt::Result {
        f.write_str(match self {
            EdgeKind::Control => "control",
            EdgeKind::Object => "object",
        })
    }
}
