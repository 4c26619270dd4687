//! How many enumeration steps a call may take. The paper knows no such limit;
//! it lets a caller skip the few tables on which plain enumeration is slow.

use crate::refusal::Refusal;

/// Why a call stops before its reply.
#[derive(Debug, Clone, Copy, PartialEq, Eq)]
pub enum Stop {
    /// The paper refuses the call.
    Refused(Refusal),
    /// The steps ran out, and the answer is not known.
    OutOfSteps,
}

impl From<Refusal> for Stop {
    fn from(refusal: Refusal) -> Stop {
        Stop::Refused(refusal)
    }
}

/// The enumeration steps a call has left.
pub struct Budget {
    left: u64,
}

impl Budget {
    /// A budget of this many steps.
    pub fn new(steps: u64) -> Budget {
        Budget { left: steps }
    }

    /// Takes one step, or stops.
    pub fn take_step(&mut self) -> Result<(), Stop> {
        if self.left == 0 {
            return Err(Stop::OutOfSteps);
        }
        self.left -= 1;
        Ok(())
    }
}
