//! The refusals of the paper's table of numbers and of the customers' wish 1, and
//! two ways to ask for them.

use std::ops::Range;

/// A refusal: its number and its place.
#[derive(Debug, Clone, Copy, PartialEq, Eq)]
pub struct Refusal {
    /// The column "No."
    pub number: u8,
    /// The column "Place".
    pub place: u8,
}

/// 1: table frame, version, counts.
pub const TABLE_FRAME: u8 = 1;
/// 2: node field.
pub const NODE_FIELD: u8 = 2;
/// 3: edge field or end.
pub const EDGE_FIELD: u8 = 3;
/// 4: shape.
pub const SHAPE: u8 = 4;
/// 5: marking is not one of this table.
pub const NO_MARKING: u8 = 5;
/// 6: marking ended.
pub const MARKING_ENDED: u8 = 6;
/// 7: guards: number of bytes or values.
pub const GUARDS: u8 = 7;
/// 8: a size under Offers is passed.
pub const SIZE_PASSED: u8 = 8;
/// 9: choice not strictly rising, or no such end.
pub const NO_CHOICE: u8 = 9;
/// 10: rule 1.
pub const RULE_1: u8 = 10;
/// 11: rule 2.
pub const RULE_2: u8 = 11;
/// 12: rule 3.
pub const RULE_3: u8 = 12;
/// 13: pick: a node is named and no acceptable choice has an end of it.
pub const NO_PICK: u8 = 13;
/// 14: finish: not a running action.
pub const NOT_RUNNING: u8 = 14;
/// 15: value list: cut, a count over 16, or bytes left.
pub const VALUE_LIST: u8 = 15;
/// 16: start, finish: stock over upper, or edge at 255.
pub const TOO_FULL: u8 = 16;
/// 17: lent output shorter than the reply.
pub const OUTPUT_SHORT: u8 = 17;
/// 18: bad bounds list (also low above high). It comes "after 7 and before 8".
pub const BOUNDS: u8 = 18;

impl Refusal {
    /// The refusal of this number at this place.
    pub fn new(number: u8, place: usize) -> Refusal {
        Refusal {
            number,
            place: place as u8,
        }
    }
}

/// Refuses with `number` at place 0 unless `good`.
pub fn require(number: u8, good: bool) -> Result<(), Refusal> {
    if good {
        Ok(())
    } else {
        Err(Refusal::new(number, 0))
    }
}

/// Refuses with `number` at the lowest of the places that is not good.
pub fn require_each(
    number: u8,
    mut places: Range<usize>,
    is_good: impl Fn(usize) -> bool,
) -> Result<(), Refusal> {
    match places.find(|place| !is_good(*place)) {
        Some(lowest) => Err(Refusal::new(number, lowest)),
        None => Ok(()),
    }
}
