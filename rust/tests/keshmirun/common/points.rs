//! Points of random events at which sheet, pick and step are called.

use super::{limits, pairings, rounds};
use reading::random::{bounds, damaged, damaged_bytes, guards, Event, Rng};

/// How many enumeration steps the reading may take for a call; what passes them is skipped, and counted.
pub const BUDGET: u64 = 20_000;

/// Whole events, one after another: most are played from their start, one in four, of larger events every other, from anywhere.
#[derive(Default)]
pub struct Walk {
    event: Option<Event>,
    is_larger: bool,
}

impl Walk {
    /// Of tables that are as large as any was before wish 6, or larger.
    pub fn larger() -> Walk {
        Walk { event: None, is_larger: true }
    }

    /// The next point: the event goes on, or another one begins.
    pub fn next(&mut self, rng: &mut Rng) -> Event {
        let event = match self.event.take() {
            Some(event) => event,
            None if self.is_larger => Event::larger(rng),
            None if rng.percent(25) => Event::anywhere(rng),
            None => Event::begin(rng),
        };
        let mut after = event.clone();
        if after.go_on(rng) {
            self.event = Some(after);
        }
        event
    }
}

/// Points of events of every sort in turn: walked, in larger tables, near the sizes, with rounds, with pairings, and from anywhere.
pub struct Mixed {
    walk: Walk,
    larger: Walk,
    turn: usize,
}

impl Mixed {
    pub fn new() -> Mixed {
        Mixed { walk: Walk::default(), larger: Walk::larger(), turn: 0 }
    }

    pub fn next(&mut self, rng: &mut Rng) -> Event {
        self.turn += 1;
        match self.turn % 8 {
            0 => self.larger.next(rng),
            1 => limits::event(rng),
            2 => rounds::event(rng),
            3 => pairings::event(rng),
            4 => Event::anywhere(rng),
            _ => self.walk.next(rng),
        }
    }
}

/// The same point under other guards and bounds, and once in four times with a damaged table, marking, guards or bounds list.
pub fn varied(rng: &mut Rng, event: &Event) -> Event {
    let mut event = event.clone();
    event.guards = guards(rng, &event.table);
    event.bounds = bounds(rng, &event.table, &event.marking);
    match rng.below(16) {
        0 => event.table = damaged(rng, &event.table),
        1 => event.marking = damaged_bytes(rng, &event.marking),
        2 => event.guards = damaged_bytes(rng, &event.guards),
        3 => event.bounds = damaged_bytes(rng, &event.bounds),
        _ => {}
    }
    event
}
