//! The paper's heading "Operations and their numbers": its six operations, and
//! [`why`], the new tool of wish 4.
//!
//! "The lowest number that applies to the operation is given": every function
//! here judges its refusals in the order of their numbers and stops at the first.
//! Only 18 is not judged last: wish 1 puts it "after 7 and before 8".

use crate::budget::{Budget, Stop};
use crate::bytes::{with_length, Reader, Value};
use crate::choices::Choices;
use crate::marking::Marking;
use crate::offers::Offers;
use crate::refusal::{
    require, Refusal, MARKING_ENDED, NOT_RUNNING, NO_PICK, OUTPUT_SHORT, TOO_FULL, VALUE_LIST,
};
use crate::table::{Table, ACTION, INCOMING_PARAMETER, INITIAL, INPUT_PIN, MOST_UPPER, OUTPUT_PIN};
use crate::terms::Terms;

/// What an operation answers.
#[derive(Debug, Clone, PartialEq, Eq)]
pub enum Answer {
    /// The call is refused, with the number and place of the paper, or for 18 of
    /// wish 1.
    Refused {
        /// The refusal's number, 1 to 18.
        number: u8,
        /// The refusal's place, 0 where they give 0.
        place: u8,
    },
    /// The call succeeds. These are the reply's bytes, none for check.
    Good(Vec<u8>),
}

/// "a node number, or 255 for none named"
pub const NO_NODE: u8 = 255;

/// The bounds list that lists no edge: "With count 0, which the program passes,
/// all answers are today's".
pub const NO_BOUNDS: [u8; 4] = [0, 2, 1, 0];

/// "check: table. Writes nothing."
pub fn check(table: &[u8]) -> Answer {
    answer(Table::read(table).map(|_| Vec::new()))
}

/// "start: table, and per incoming parameter in order a count and values. Initial
/// nodes' edges get count 1, all else is empty." `room` is the length of the lent
/// output.
pub fn start(table: &[u8], values: &[u8], room: usize) -> Answer {
    answer(started(table, values).and_then(|reply| fit(reply, room)))
}

/// "sheet: table, marking, guards. Writes length (2), version 1, number of ends,
/// then per end: last edge, 1 or 0 for value or none, 4 value bytes (zero if
/// none), number of paths, and per path, in sorted order, its length and edges."
/// And by wish 1: "Beside the guard bytes, sheet, pick and step take a bounds
/// list". By wish 5 "Ends are to be ordered by target node first, then as before".
pub fn sheet(table: &[u8], marking: &[u8], guards: &[u8], bounds: &[u8], room: usize) -> Answer {
    unbudgeted(|steps| sheet_within(table, marking, guards, bounds, room, steps))
}

/// "pick: as sheet, with a node number, or 255 for none named. Writes a choice."
/// The first acceptable choice, and if a node is named, the first that has an end
/// of it. Wish 5: "Step and pick follow the new numbers."
pub fn pick(
    table: &[u8],
    marking: &[u8],
    guards: &[u8],
    bounds: &[u8],
    node: u8,
    room: usize,
) -> Answer {
    unbudgeted(|steps| pick_within(table, marking, guards, bounds, node, room, steps))
}

/// Wish 4: "A new tool names the reason for a node: 1 no end belongs to it; 2 no
/// choice that takes an end of it satisfies its own destination rule; 3 none that
/// does so is free of competing ends; 4 none of those passes all forks whole; 5 none
/// of those satisfies all destinations; 0 an acceptable one exists." "It takes what
/// pick takes and writes that byte. Refusals: those of sheet."
pub fn why(
    table: &[u8],
    marking: &[u8],
    guards: &[u8],
    bounds: &[u8],
    node: u8,
    room: usize,
) -> Answer {
    unbudgeted(|steps| why_within(table, marking, guards, bounds, node, room, steps))
}

/// "step: as sheet, with a choice. Writes the marking." Wish 5: "Step and pick follow
/// the new numbers", so the choice and the place of 10 are in the numbers of sheet.
pub fn step(
    table: &[u8],
    marking: &[u8],
    guards: &[u8],
    bounds: &[u8],
    choice: &[u8],
    room: usize,
) -> Answer {
    unbudgeted(|steps| step_within(table, marking, guards, bounds, choice, room, steps))
}

/// "finish: table, marking, action, and per output pin in order a count and
/// values. Input pins empty, the action is idle, values append, each outgoing
/// control edge gains 1."
pub fn finish(table: &[u8], marking: &[u8], action: u8, values: &[u8], room: usize) -> Answer {
    let reply = finished(table, marking, usize::from(action), values);
    answer(reply.and_then(|reply| fit(reply, room)))
}

/// [`sheet`] with at most `budget` enumeration steps, `None` if they run out.
pub fn sheet_within(
    table: &[u8],
    marking: &[u8],
    guards: &[u8],
    bounds: &[u8],
    room: usize,
    budget: u64,
) -> Option<Answer> {
    let mut budget = Budget::new(budget);
    budgeted_answer(
        Board::of(table, marking, guards, bounds, &mut budget)
            .and_then(|board| Ok(fit(written_sheet(&board.offers), room)?)),
    )
}

/// [`pick`] with at most `budget` enumeration steps, `None` if they run out.
pub fn pick_within(
    table: &[u8],
    marking: &[u8],
    guards: &[u8],
    bounds: &[u8],
    node: u8,
    room: usize,
    budget: u64,
) -> Option<Answer> {
    let mut budget = Budget::new(budget);
    budgeted_answer(
        Board::of(table, marking, guards, bounds, &mut budget)
            .and_then(|board| board.picked(node, room, &mut budget)),
    )
}

/// [`why`] with at most `budget` enumeration steps, `None` if they run out. Each set of
/// ends that is tried takes one.
pub fn why_within(
    table: &[u8],
    marking: &[u8],
    guards: &[u8],
    bounds: &[u8],
    node: u8,
    room: usize,
    budget: u64,
) -> Option<Answer> {
    let mut budget = Budget::new(budget);
    budgeted_answer(
        Board::of(table, marking, guards, bounds, &mut budget)
            .and_then(|board| board.explained(node, room, &mut budget)),
    )
}

/// [`step`] with at most `budget` enumeration steps, `None` if they run out.
pub fn step_within(
    table: &[u8],
    marking: &[u8],
    guards: &[u8],
    bounds: &[u8],
    choice: &[u8],
    room: usize,
    budget: u64,
) -> Option<Answer> {
    let mut budget = Budget::new(budget);
    budgeted_answer(
        Board::of(table, marking, guards, bounds, &mut budget)
            .and_then(|board| Ok(board.stepped(choice, room)?)),
    )
}

/// What sheet, pick, why and step judge first: a table, a marking and the offers
/// under some guards and bounds. Read once, so that many choices can be tried on it.
#[derive(Debug)]
pub struct Board {
    table: Table,
    marking: Marking,
    offers: Offers,
}

impl Board {
    /// The board of these, or the refusal, 1 to 8 or 18, that sheet, pick, why and
    /// step share; `None` if it takes more than `budget` enumeration steps.
    pub fn within(
        table: &[u8],
        marking: &[u8],
        guards: &[u8],
        bounds: &[u8],
        budget: u64,
    ) -> Option<Result<Board, Answer>> {
        match Board::of(table, marking, guards, bounds, &mut Budget::new(budget)) {
            Ok(board) => Some(Ok(board)),
            Err(stop) => budgeted_answer(Err(stop)).map(Err),
        }
    }

    /// Refusals 1 to 7, then 18, then 8, or the board.
    fn of(
        table: &[u8],
        marking: &[u8],
        guards: &[u8],
        bounds: &[u8],
        budget: &mut Budget,
    ) -> Result<Board, Stop> {
        let table = Table::read(table)?;
        let marking = live_marking(&table, marking)?;
        let terms = Terms::read(&table, guards, bounds)?;
        let offers = Offers::of(&table, &marking, &terms, budget)?;
        Ok(Board {
            table,
            marking,
            offers,
        })
    }

    /// The choices among its ends.
    fn choices(&self) -> Choices<'_> {
        Choices {
            table: &self.table,
            marking: &self.marking,
            offers: &self.offers,
        }
    }

    /// The number of its ends.
    pub fn ends(&self) -> usize {
        self.offers.ends.len()
    }

    /// The targets of its ends, in their order. By wish 5 they never fall.
    pub fn targets(&self) -> Vec<u8> {
        let ends = (0..self.ends()).map(|end| self.offers.end(end));
        ends.map(|end| self.table.edges[end.edge].target as u8)
            .collect()
    }

    /// The pairs of its ends, the lower first, that wish 2 frees: they would compete
    /// by the paper's own (c), and don't. No answer asks for them; they say where the
    /// wish changes one.
    pub fn freed_pairs(&self) -> Vec<(u8, u8)> {
        let ends = &self.offers.ends;
        let are_freed = |lower: usize, higher: usize| {
            let (one, other) = (ends[lower], ends[higher]);
            self.offers.are_freed(&self.table, one, other)
        };
        let mut pairs = Vec::new();
        for higher in 0..ends.len() {
            let freed = (0..higher).filter(|lower| are_freed(*lower, higher));
            pairs.extend(freed.map(|lower| (lower as u8, higher as u8)));
        }
        pairs
    }

    /// What [`step`] answers here.
    pub fn step(&self, choice: &[u8], room: usize) -> Answer {
        answer(self.stepped(choice, room))
    }

    /// What [`pick`] answers here, `None` if it takes more than `budget`
    /// enumeration steps.
    pub fn pick_within(&self, node: u8, room: usize, budget: u64) -> Option<Answer> {
        budgeted_answer(self.picked(node, room, &mut Budget::new(budget)))
    }

    /// What [`why`] answers here, `None` if it takes more than `budget` enumeration
    /// steps.
    pub fn why_within(&self, node: u8, room: usize, budget: u64) -> Option<Answer> {
        budgeted_answer(self.explained(node, room, &mut Budget::new(budget)))
    }

    /// Whether a choice is left at this level of wish 4, 1 to 5, for this node, `None`
    /// if it takes more than `budget` enumeration steps. No answer asks for one level
    /// alone; it says in the wish's own words what [`why`] tells: "the first level at
    /// which no choice is left". 255 is here the number of a node that doesn't exist.
    pub fn is_left_within(&self, level: u8, node: u8, budget: u64) -> Option<bool> {
        let node = usize::from(node);
        let is_left = self
            .choices()
            .is_left(level, node, &mut Budget::new(budget));
        is_left.ok() // it is never refused
    }

    /// The marking that step writes.
    fn stepped(&self, choice: &[u8], room: usize) -> Result<Vec<u8>, Refusal> {
        let choices = self.choices();
        let choice = choices.read(choice)?;
        choices.accept(&choice)?;
        fit(choices.step(&choice).write(&self.table), room)
    }

    /// The choice that pick writes.
    fn picked(&self, node: u8, room: usize, budget: &mut Budget) -> Result<Vec<u8>, Stop> {
        let choice = picked(&self.choices(), node, budget)?;
        Ok(fit(choice.iter().map(|end| *end as u8).collect(), room)?)
    }

    /// The reason that why writes.
    fn explained(&self, node: u8, room: usize, budget: &mut Budget) -> Result<Vec<u8>, Stop> {
        let reason = reason(&self.choices(), node, budget)?;
        Ok(fit(vec![reason], room)?)
    }
}

/// Refusals 5 and 6.
fn live_marking(table: &Table, bytes: &[u8]) -> Result<Marking, Refusal> {
    let marking = Marking::read(table, bytes)?;
    require(MARKING_ENDED, !marking.ended)?;
    Ok(marking)
}

/// The marking that start writes.
fn started(table: &[u8], values: &[u8]) -> Result<Vec<u8>, Refusal> {
    let table = Table::read(table)?;
    let parameters = table.nodes_of_kind(INCOMING_PARAMETER);
    let lists = value_lists(parameters.len(), values)?;
    let mut marking = Marking::empty(&table);
    append(&table, &mut marking, &parameters, &lists)?;
    for initial in table.nodes_of_kind(INITIAL) {
        for edge in table.outgoing(initial) {
            marking.counts[edge] = 1;
        }
    }
    Ok(marking.write(&table))
}

/// The marking that finish writes.
fn finished(
    table: &[u8],
    marking: &[u8],
    action: usize,
    values: &[u8],
) -> Result<Vec<u8>, Refusal> {
    let table = Table::read(table)?;
    let mut marking = live_marking(&table, marking)?;
    require(NOT_RUNNING, is_running_action(&table, &marking, action))?;
    let pins = table.pins_of(action, OUTPUT_PIN);
    let lists = value_lists(pins.len(), values)?;
    append(&table, &mut marking, &pins, &lists)?;
    for edge in table.control_edges(table.outgoing(action)) {
        marking.counts[edge] = marking.counts[edge]
            .checked_add(1)
            .ok_or_else(|| Refusal::new(TOO_FULL, 0))?;
    }
    for pin in table.pins_of(action, INPUT_PIN) {
        marking.stocks[pin].clear();
    }
    marking.running[action] = false;
    Ok(marking.write(&table))
}

/// Whether this is a node, an action, and runs.
fn is_running_action(table: &Table, marking: &Marking, action: usize) -> bool {
    action < table.nodes.len() && table.kind(action) == ACTION && marking.running[action]
}

/// So many times a count and values, and nothing after them. Refusal 15: "value
/// list: cut, a count over 16, or bytes left".
fn value_lists(number: usize, bytes: &[u8]) -> Result<Vec<Vec<Value>>, Refusal> {
    let mut reader = Reader::new(bytes);
    let lists: Option<Vec<Vec<Value>>> = (0..number).map(|_| reader.stock(MOST_UPPER)).collect();
    lists
        .filter(|_| reader.is_at_end())
        .ok_or_else(|| Refusal::new(VALUE_LIST, 0))
}

/// "values append", to each of these nodes its list. Refusal 16: "stock over
/// upper".
fn append(
    table: &Table,
    marking: &mut Marking,
    nodes: &[usize],
    lists: &[Vec<Value>],
) -> Result<(), Refusal> {
    for (node, list) in nodes.iter().zip(lists) {
        let stock = &mut marking.stocks[*node];
        stock.extend_from_slice(list);
        require(
            TOO_FULL,
            stock.len() <= usize::from(table.nodes[*node].upper),
        )?;
    }
    Ok(())
}

/// The sheet, as its sentence under "Operations" writes it.
fn written_sheet(offers: &Offers) -> Vec<u8> {
    let mut body = vec![1, offers.ends.len() as u8];
    for end in 0..offers.ends.len() {
        let offer = offers.end(end);
        body.push(offer.edge as u8);
        body.push(u8::from(offer.value.is_some()));
        body.extend_from_slice(&offer.value.unwrap_or([0; 4]));
        body.push(offer.paths.len() as u8);
        for path in &offer.paths {
            body.push(path.len() as u8);
            body.extend_from_slice(path);
        }
    }
    with_length(&body)
}

/// The first acceptable choice. Refusal 13: "pick: a node is named and no
/// acceptable choice has an end of it".
fn picked(choices: &Choices, node: u8, budget: &mut Budget) -> Result<Vec<usize>, Stop> {
    let named = if node == NO_NODE {
        None
    } else {
        Some(usize::from(node))
    };
    let first = choices.first(named, budget)?;
    Ok(first.ok_or_else(|| Refusal::new(NO_PICK, usize::from(node)))?)
}

/// The reason for a node. "A node that doesn't exist gets 1", as no end belongs to
/// it; "255 names none and gets 0."
fn reason(choices: &Choices, node: u8, budget: &mut Budget) -> Result<u8, Stop> {
    if node == NO_NODE {
        return Ok(0);
    }
    choices.reason(usize::from(node), budget)
}

/// Refusal 17: "lent output shorter than the reply".
fn fit(reply: Vec<u8>, room: usize) -> Result<Vec<u8>, Refusal> {
    require(OUTPUT_SHORT, reply.len() <= room)?;
    Ok(reply)
}

/// The answer of an operation that needs no enumeration.
fn answer(reply: Result<Vec<u8>, Refusal>) -> Answer {
    match reply {
        Ok(bytes) => Answer::Good(bytes),
        Err(Refusal { number, place }) => Answer::Refused { number, place },
    }
}

/// The answer of an operation with a budget.
fn budgeted_answer(reply: Result<Vec<u8>, Stop>) -> Option<Answer> {
    match reply {
        Ok(bytes) => Some(answer(Ok(bytes))),
        Err(Stop::Refused(refusal)) => Some(answer(Err(refusal))),
        Err(Stop::OutOfSteps) => None,
    }
}

/// The answer with a budget that no call uses up.
fn unbudgeted(operation: impl Fn(u64) -> Option<Answer>) -> Answer {
    loop {
        if let Some(answer) = operation(u64::MAX) {
            return answer;
        }
    }
}
