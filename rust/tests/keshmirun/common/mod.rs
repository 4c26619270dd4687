//! Lent slices amid other bytes, and answers of the plain reading as the crate gives them.

pub mod arrivals;
pub mod drawn;
pub mod held;
pub mod limits;
pub mod longest;
pub mod pairings;
pub mod picks;
pub mod points;
pub mod programs;
pub mod rewritten;
pub mod rounds;
pub mod second;
pub mod steps;
pub mod vectors;
pub mod walked;
pub mod whys;

use keshmirun::{Refusal, Room};
use reading::random::{Parts, Rng};
use reading::Answer;
use std::collections::BTreeSet;

const MARGIN: usize = 64;

/// Bytes that stand amid others, so that a change beside them is seen.
pub struct Lent {
    bytes: Vec<u8>,
    before: Vec<u8>,
}

impl Lent {
    pub fn new(bytes: &[u8], around: u8) -> Lent {
        let mut all = vec![around; MARGIN];
        all.extend_from_slice(bytes);
        all.extend_from_slice(&[around; MARGIN]);
        Lent { before: all.clone(), bytes: all }
    }

    pub fn slice(&self) -> &[u8] {
        &self.bytes[MARGIN..self.bytes.len() - MARGIN]
    }

    pub fn slice_mut(&mut self) -> &mut [u8] {
        let end = self.bytes.len() - MARGIN;
        &mut self.bytes[MARGIN..end]
    }

    /// Nothing changed but the reply, which stands at the front.
    pub fn assert_written(&self, reply: &[u8]) {
        let mut expected = self.before.clone();
        expected[MARGIN..MARGIN + reply.len()].copy_from_slice(reply);
        assert_eq!(self.bytes, expected, "a byte that is not the reply's");
    }
}

/// A room to lend for this reply: plenty, as it is, one byte short, or any small one.
pub fn room(rng: &mut Rng, full: &Answer) -> usize {
    let exact = match full {
        Answer::Good(reply) => reply.len(),
        Answer::Refused { .. } => 0,
    };
    match rng.below(10) {
        0 => exact,
        1 => exact.saturating_sub(1),
        2 => rng.below(200),
        _ => Room::MARKING,
    }
}

/// What an answer with room to spare becomes in this room: 17 is judged last, so every other refusal stays.
pub fn within(room: usize, full: Answer) -> Answer {
    match full {
        Answer::Good(reply) if reply.len() > room => Answer::Refused { number: 17, place: 0 },
        answer => answer,
    }
}

/// Calls the engine on lent copies of `inputs` and so much room. Its answer is the reading's, it wrote just the reply, and the inputs are as they were.
pub fn called(
    around: u8,
    inputs: &[&[u8]],
    room: usize,
    expected: &Answer,
    operation: impl FnOnce(&[Lent], &mut [u8]) -> Result<usize, Refusal>,
) -> Result<usize, Refusal> {
    let lent: Vec<Lent> = inputs.iter().map(|bytes| Lent::new(bytes, around)).collect();
    let mut out = Lent::new(&vec![!around; room], around);
    let answer = operation(&lent, out.slice_mut());
    let (right, reply) = match expected {
        Answer::Good(reply) => (Ok(reply.len()), &reply[..]),
        Answer::Refused { number, place } => (Err(Refusal { number: *number, place: *place }), &[][..]),
    };
    assert_eq!(answer, right, "room {room}, inputs {inputs:02x?}");
    out.assert_written(reply);
    lent.iter().for_each(|lent| lent.assert_written(&[]));
    answer
}

/// What the engine answers in room to spare.
pub fn answered(operation: impl FnOnce(&mut [u8]) -> Result<usize, Refusal>) -> Answer {
    let mut out = [0; Room::MARKING];
    match operation(&mut out) {
        Ok(length) => Answer::Good(out[..length].to_vec()),
        Err(Refusal { number, place }) => Answer::Refused { number, place },
    }
}

/// All sets of so many ends, first choice first: the lowest end is the highest digit.
pub fn sets(ends: usize) -> impl Iterator<Item = Vec<u8>> {
    let set = move |digits: u32| (0..ends as u8).filter(|end| digits >> (ends as u8 - 1 - end) & 1 == 1).collect();
    (0..1 << ends).rev().map(set)
}

/// Whether an end of the choice belongs to the node, if one is named: as its target, or as a pin of it.
pub fn has_end_of(parts: &Parts, targets: &[u8], choice: &[u8], named: Option<u8>) -> bool {
    named.map_or(true, |node| {
        choice.iter().any(|end| {
            let target = targets[usize::from(*end)];
            let [kind, owner, ..] = parts.nodes[usize::from(target)];
            target == node || kind == drawn::INPUT_PIN && owner == node
        })
    })
}

/// How often each answer came, 0 good, else the refusal's number; at which places; how many answers the bounds made others, and how many wish 2; and how many
/// calls the reading left out.
#[derive(Debug, Default)]
pub struct Seen {
    counts: [usize; 19],
    places: [BTreeSet<u8>; 19],
    bounded: usize,
    freed: usize,
    skipped: usize,
}

impl Seen {
    pub fn note(&mut self, answer: Result<usize, Refusal>) {
        let refusal = answer.err().unwrap_or(Refusal { number: 0, place: 0 });
        self.counts[usize::from(refusal.number)] += 1;
        self.places[usize::from(refusal.number)].insert(refusal.place);
    }

    /// Counts an answer in room to spare that a good bounds list made another than the same call without bounds has.
    pub fn note_bounds(&mut self, full: &Answer, without: impl FnOnce(&mut [u8]) -> Result<usize, Refusal>) {
        let is_refused = matches!(full, Answer::Refused { number: 18, .. });
        self.bounded += usize::from(!is_refused && answered(without) != *full);
    }

    /// Counts an answer that was another before results of one round could be taken together.
    pub fn note_freed(&mut self, is_freed: bool) {
        self.freed += usize::from(is_freed);
    }

    /// A call whose answer the reading didn't find within its steps.
    pub fn skip(&mut self) {
        self.skipped += 1;
    }

    pub fn calls(&self) -> usize {
        self.counts.iter().sum()
    }

    /// Every one of these answers came at least so often, and a call in a thousand was left out at most.
    pub fn assert_each(&self, least: usize, numbers: &[usize]) {
        assert!(numbers.iter().all(|&number| self.counts[number] >= least), "{self:?}");
        assert!(self.skipped * 1_000 <= self.calls(), "{self:?}");
    }

    /// So many answers were others than without bounds.
    pub fn assert_bounded(&self, least: usize) {
        assert!(self.bounded >= least, "{self:?}");
    }

    /// So many answers were others before results of one round could be taken together.
    pub fn assert_freed(&self, least: usize) {
        assert!(self.freed >= least, "{self:?}");
    }

    /// Every one of these refusals came at a place over this one.
    pub fn assert_place_over(&self, place: u8, numbers: &[usize]) {
        assert!(numbers.iter().all(|&number| self.places[number].iter().max() > Some(&place)), "{self:?}");
    }

    /// Every one of these refusals came at so many places.
    pub fn assert_places(&self, least: usize, numbers: &[usize]) {
        assert!(numbers.iter().all(|&number| self.places[number].len() >= least), "{self:?}");
    }
}
