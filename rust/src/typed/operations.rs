//! The operations on a table that was checked, with what they take and answer by type: a marking can't be taken for guards, nor a node for an edge.
//!
//! Those that end in `_in` write to room that is lent; the others return bytes of their own.

use crate::{calls, Choice, Marking, NodeId, Reason, Refusal, Room, Sheet, Table, Terms, Values, NO_NODE};
#[cfg(feature = "alloc")]
use crate::{OwnedMarking, OwnedSheet, MOST_VALUES};
#[cfg(feature = "alloc")]
use alloc::vec::Vec;

/// The bytes of a reply of this length in front of the room.
fn reply(room: &mut [u8], length: usize) -> &[u8] {
    room.get(..length).unwrap_or(&[])
}

impl<T: AsRef<[u8]>> Table<T> {
    /// [`start`](Table::start), written to the front of the room.
    ///
    /// # Errors
    /// Those of `start`, and 17: the room is shorter than the marking. [`Room::MARKING`] bytes hold any.
    pub fn start_in<'r>(&self, values: &Values<impl AsRef<[u8]>>, room: &'r mut [u8]) -> Result<Marking<&'r [u8]>, Refusal> {
        let length = calls::start(self.as_bytes(), values.as_bytes(), room)?;
        Ok(Marking::written(reply(room, length)))
    }

    /// [`sheet`](Table::sheet), written to the front of the room.
    ///
    /// # Errors
    /// Those of `sheet`, and 17: the room is shorter than the sheet. [`Room::SHEET`] bytes hold any.
    pub fn sheet_in<'a, 'r>(
        &self,
        marking: &Marking<impl AsRef<[u8]>>,
        terms: impl Into<Terms<'a>>,
        room: &'r mut [u8],
    ) -> Result<Sheet<&'r [u8]>, Refusal> {
        let length = calls::sheet(self.as_bytes(), marking.as_bytes(), terms.into(), room)?;
        Ok(Sheet::written(self, reply(room, length)))
    }

    /// The first acceptable choice of ends, which is empty if nothing can be taken.
    ///
    /// # Errors
    /// Those of [`sheet`](Table::sheet).
    pub fn pick<'a>(&self, marking: &Marking<impl AsRef<[u8]>>, terms: impl Into<Terms<'a>>) -> Result<Choice, Refusal> {
        self.pick_for(marking, terms, NO_NODE)
    }

    /// The first acceptable choice that has an end of this node, or of a pin of it if it is an action. [`NO_NODE`] names none.
    ///
    /// # Errors
    /// Those of [`sheet`](Table::sheet), and 13: there is none; [`why`](Table::why) says what is in the way.
    pub fn pick_for<'a>(&self, marking: &Marking<impl AsRef<[u8]>>, terms: impl Into<Terms<'a>>, node: impl Into<NodeId>) -> Result<Choice, Refusal> {
        let mut room = [0; Room::CHOICE];
        let length = calls::pick(self.as_bytes(), marking.as_bytes(), terms.into(), node.into().number(), &mut room)?;
        Choice::new(reply(&mut room, length))
    }

    /// Why no acceptable choice has an end of this node: the first level at which no choice is left.
    ///
    /// # Errors
    /// Those of [`sheet`](Table::sheet).
    pub fn why<'a>(&self, marking: &Marking<impl AsRef<[u8]>>, terms: impl Into<Terms<'a>>, node: impl Into<NodeId>) -> Result<Reason, Refusal> {
        calls::why(self.as_bytes(), marking.as_bytes(), terms.into(), node.into().number())
    }

    /// [`step`](Table::step), written to the front of the room.
    ///
    /// # Errors
    /// Those of `step`, and 17: the room is shorter than the marking. [`Room::MARKING`] bytes hold any.
    pub fn step_in<'a, 'r>(
        &self,
        marking: &Marking<impl AsRef<[u8]>>,
        terms: impl Into<Terms<'a>>,
        choice: &Choice,
        room: &'r mut [u8],
    ) -> Result<Marking<&'r [u8]>, Refusal> {
        let length = calls::step(self.as_bytes(), marking.as_bytes(), terms.into(), choice.as_bytes(), room)?;
        Ok(Marking::written(reply(room, length)))
    }

    /// [`finish`](Table::finish), written to the front of the room.
    ///
    /// # Errors
    /// Those of `finish`, and 17: the room is shorter than the marking. [`Room::MARKING`] bytes hold any.
    pub fn finish_in<'r>(
        &self,
        marking: &Marking<impl AsRef<[u8]>>,
        action: impl Into<NodeId>,
        values: &Values<impl AsRef<[u8]>>,
        room: &'r mut [u8],
    ) -> Result<Marking<&'r [u8]>, Refusal> {
        let length = calls::finish(self.as_bytes(), marking.as_bytes(), action.into().number(), values.as_bytes(), room)?;
        Ok(Marking::written(reply(room, length)))
    }
}

/// What an operation writes in so much room, in bytes of its own.
#[cfg(feature = "alloc")]
fn owned(most: usize, operation: impl FnOnce(&mut [u8]) -> Result<usize, Refusal>) -> Result<Vec<u8>, Refusal> {
    let mut room = alloc::vec![0; most];
    let length = operation(&mut room)?;
    room.truncate(length);
    room.shrink_to_fit();
    Ok(room)
}

#[cfg(feature = "alloc")]
impl<T: AsRef<[u8]>> Table<T> {
    /// Room for any marking of this table: each node takes a count and 16 values at most, each edge a count. That is less to clear than `Room::MARKING`.
    fn marking_room(&self) -> usize {
        4 + (1 + 4 * MOST_VALUES) * self.nodes().len() + self.edges().len()
    }

    /// The marking with which the activity begins, with a list of values for each incoming parameter.
    ///
    /// # Errors
    /// Refusals 15 (the lists: one is missing, too many, or has over 16 values) and 16 (more values than a parameter holds).
    pub fn start(&self, values: &Values<impl AsRef<[u8]>>) -> Result<OwnedMarking, Refusal> {
        owned(self.marking_room(), |room| calls::start(self.as_bytes(), values.as_bytes(), room)).map(Marking::written)
    }

    /// The ends that are on offer.
    ///
    /// The terms are [`Guards`](crate::Guards), or [`Guards::with`](crate::Guards::with) bounds, or [`Terms`] of bytes.
    ///
    /// # Errors
    /// Refusals 5 (a marking of another table), 6 (the day is over), 7 and 18 (terms of another table, or of bad bytes), and 8 (more than 64 offers, 8 paths in
    /// an offer, or 20 ends).
    ///
    /// # Examples
    /// Guards in the marking's place, and the other way round, don't compile:
    /// ```compile_fail
    /// # use keshmirun::{Guards, OwnedMarking, OwnedSheet, OwnedTable, Refusal};
    /// fn shown(table: &OwnedTable, marking: &OwnedMarking, guards: &Guards) -> Result<OwnedSheet, Refusal> {
    ///     table.sheet(guards, marking)
    /// }
    /// ```
    /// ```
    /// # use keshmirun::{Guards, OwnedMarking, OwnedSheet, OwnedTable, Refusal};
    /// fn shown(table: &OwnedTable, marking: &OwnedMarking, guards: &Guards) -> Result<OwnedSheet, Refusal> {
    ///     table.sheet(marking, guards)
    /// }
    /// ```
    pub fn sheet<'a>(&self, marking: &Marking<impl AsRef<[u8]>>, terms: impl Into<Terms<'a>>) -> Result<OwnedSheet, Refusal> {
        let bytes = owned(Room::SHEET, |room| calls::sheet(self.as_bytes(), marking.as_bytes(), terms.into(), room))?;
        Ok(Sheet::written(self, bytes))
    }

    /// The marking after a choice is taken, of ends of the [`sheet`](Table::sheet) of the same marking and terms.
    ///
    /// # Errors
    /// Those of `sheet`, 9 (the sheet has no such end), 10 (two ends compete), 11 (a fork isn't passed whole) and 12 (a destination doesn't agree);
    /// [`Refusal::at`] says where.
    pub fn step<'a>(&self, marking: &Marking<impl AsRef<[u8]>>, terms: impl Into<Terms<'a>>, choice: &Choice) -> Result<OwnedMarking, Refusal> {
        owned(self.marking_room(), |room| calls::step(self.as_bytes(), marking.as_bytes(), terms.into(), choice.as_bytes(), room))
            .map(Marking::written)
    }

    /// The marking after an action ends, with a list of values for each of its output pins.
    ///
    /// # Errors
    /// Refusals 5 (a marking of another table), 6 (the day is over), 14 (the action doesn't run, or is none), 15 (the lists: one is missing, too many, or has
    /// over 16 values) and 16 (more values than a pin holds, or an edge has 255 tokens already).
    pub fn finish(
        &self,
        marking: &Marking<impl AsRef<[u8]>>,
        action: impl Into<NodeId>,
        values: &Values<impl AsRef<[u8]>>,
    ) -> Result<OwnedMarking, Refusal> {
        let action = action.into().number();
        owned(self.marking_room(), |room| calls::finish(self.as_bytes(), marking.as_bytes(), action, values.as_bytes(), room)).map(Marking::written)
    }
}
