//! The paper's heading "Acceptable choices": the three rules, the order of
//! choices and the step. Beside them the levels of the customers' wish 4, "Why
//! can't we pair?", which ask the same rules of every choice, one after another.

use crate::budget::{Budget, Stop};
use crate::bytes::Value;
use crate::marking::Marking;
use crate::offers::{Offers, Origin};
use crate::refusal::{require, require_each, Refusal, NO_CHOICE, RULE_1, RULE_2, RULE_3};
use crate::table::{
    is_object_node, is_pin, Table, ACTION, ACTIVITY_FINAL, CENTRAL_BUFFER, FORK, INPUT_PIN,
    OUTGOING_PARAMETER,
};

/// The last level of wish 4. A choice that passes it is acceptable.
const LAST_LEVEL: u8 = 5;

/// The choices among the ends of one marking. A choice is a list of rising end
/// numbers.
pub struct Choices<'a> {
    pub table: &'a Table,
    pub marking: &'a Marking,
    pub offers: &'a Offers,
}

impl Choices<'_> {
    /// "A choice is a set of ends, written as rising one-byte numbers; it may be
    /// empty." Refusal 9: "choice not strictly rising, or no such end".
    pub fn read(&self, bytes: &[u8]) -> Result<Vec<usize>, Refusal> {
        let choice: Vec<usize> = bytes.iter().map(|byte| usize::from(*byte)).collect();
        let is_rising = choice.windows(2).all(|pair| pair[0] < pair[1]);
        let is_of_ends = choice.iter().all(|end| *end < self.offers.ends.len());
        require(NO_CHOICE, is_rising && is_of_ends)?;
        Ok(choice)
    }

    /// "It is acceptable if" the three rules hold: refusals 10, 11 and 12.
    pub fn accept(&self, choice: &[usize]) -> Result<(), Refusal> {
        self.rule_1(choice)?;
        self.rule_2(choice)?;
        self.rule_3(choice)
    }

    /// "no two of its ends compete". Place: "lowest taken end that competes with
    /// a taken one".
    fn rule_1(&self, choice: &[usize]) -> Result<(), Refusal> {
        require_each(RULE_1, 0..self.offers.ends.len(), |end| {
            !choice.contains(&end) || !self.competes_with_any(end, choice)
        })
    }

    /// Whether this end competes with one of the choice.
    fn competes_with_any(&self, end: usize, choice: &[usize]) -> bool {
        let ends = &self.offers.ends;
        choice
            .iter()
            .any(|taken| self.offers.compete(ends[end], ends[*taken]))
    }

    /// "forks are passed whole". Place: "lowest fork".
    fn rule_2(&self, choice: &[usize]) -> Result<(), Refusal> {
        let is_maker = self.makers_of_taken_ends(choice);
        require_each(RULE_2, self.table.node_numbers(), |node| {
            self.table.kind(node) != FORK || self.is_passed_whole(node, &is_maker)
        })
    }

    /// For each offer, whether it is a maker of a taken end.
    fn makers_of_taken_ends(&self, choice: &[usize]) -> Vec<bool> {
        let mut is_maker = vec![false; self.offers.list.len()];
        for end in choice {
            for maker in &self.offers.end(*end).makers {
                is_maker[*maker] = true;
            }
        }
        is_maker
    }

    /// "where an offer into a fork and one of its extensions there are makers of
    /// taken ends, every extension of that offer there is a maker of some taken
    /// end"
    fn is_passed_whole(&self, fork: usize, is_maker: &[bool]) -> bool {
        for edge in self.table.incoming(fork) {
            for offer in self.offers.on_edge(edge) {
                let extensions = self.extensions(offer);
                let passes = is_maker[offer] && extensions.iter().any(|e| is_maker[*e]);
                if passes && !extensions.iter().all(|e| is_maker[*e]) {
                    return false;
                }
            }
        }
        true
    }

    /// The extensions of this offer.
    fn extensions(&self, offer: usize) -> Vec<usize> {
        (0..self.offers.list.len())
            .filter(|other| self.offers.list[*other].origin == Origin::Extended(offer))
            .collect()
    }

    /// "each destination agrees". Place: "lowest destination (the action, for its
    /// pins)".
    fn rule_3(&self, choice: &[usize]) -> Result<(), Refusal> {
        require_each(RULE_3, self.table.node_numbers(), |node| {
            self.destination_agrees(node, choice)
        })
    }

    /// Whether this destination agrees. "Finals take any number." Pins have no rule
    /// apart from their action's, and all other nodes are no destinations.
    fn destination_agrees(&self, node: usize, choice: &[usize]) -> bool {
        match self.table.kind(node) {
            ACTION => self.action_agrees(node, choice),
            CENTRAL_BUFFER | OUTGOING_PARAMETER => self.has_room(node, choice),
            _ => true,
        }
    }

    /// "An action with any taken end is idle, has exactly one taken end on each
    /// incoming control edge, and on each input pin the number of ends taken lies
    /// between lower and upper."
    fn action_agrees(&self, action: usize, choice: &[usize]) -> bool {
        if !self.has_end_of(choice, action) {
            return true;
        }
        let table = self.table;
        let controls = table.control_edges(table.incoming(action));
        let pins = table.pins_of(action, INPUT_PIN);
        !self.marking.running[action]
            && controls
                .into_iter()
                .all(|edge| self.taken_on(edge, choice) == 1)
            && pins.into_iter().all(|pin| self.pin_agrees(pin, choice))
    }

    /// How many taken ends have this last edge.
    fn taken_on(&self, edge: usize, choice: &[usize]) -> usize {
        let is_on = |end: &&usize| self.offers.end(**end).edge == edge;
        choice.iter().filter(is_on).count()
    }

    /// How many taken ends have this target.
    fn taken_at(&self, node: usize, choice: &[usize]) -> usize {
        let is_at = |end: &&usize| self.target(**end) == node;
        choice.iter().filter(is_at).count()
    }

    /// "on each input pin the number of ends taken lies between lower and upper"
    fn pin_agrees(&self, pin: usize, choice: &[usize]) -> bool {
        let taken = self.taken_at(pin, choice);
        let node = &self.table.nodes[pin];
        taken >= usize::from(node.lower) && taken <= usize::from(node.upper)
    }

    /// "Buffers and outgoing parameters: stock before the step plus ends taken is
    /// at most upper."
    fn has_room(&self, node: usize, choice: &[usize]) -> bool {
        let stock = self.marking.stocks[node].len();
        stock + self.taken_at(node, choice) <= usize::from(self.table.nodes[node].upper)
    }

    /// The target of this end.
    fn target(&self, end: usize) -> usize {
        self.table.edges[self.offers.end(end).edge].target
    }

    /// "It belongs to that target and, for a pin, to its action too."
    fn belongs_to(&self, end: usize, node: usize) -> bool {
        let target = self.target(end);
        let owner = usize::from(self.table.nodes[target].owner);
        target == node || is_pin(self.table.kind(target)) && owner == node
    }

    /// Whether the choice has an end of this node.
    fn has_end_of(&self, choice: &[usize], node: usize) -> bool {
        choice.iter().any(|end| self.belongs_to(*end, node))
    }

    /// The first acceptable choice, and if a node is named, the first that has an
    /// end of it. "Of two choices, the one that holds the lowest end held by only
    /// one of them comes first."
    pub fn first(
        &self,
        named: Option<usize>,
        budget: &mut Budget,
    ) -> Result<Option<Vec<usize>>, Stop> {
        let mut choice = Vec::new();
        if self.find_first(0, &mut choice, named, budget)? {
            Ok(Some(choice))
        } else {
            Ok(None)
        }
    }

    /// Whether there is such a choice among those that hold `choice` of the ends
    /// before `next` and any of the others; if so, `choice` becomes the first.
    /// Choices that take `next` come before those that leave it.
    fn find_first(
        &self,
        next: usize,
        choice: &mut Vec<usize>,
        named: Option<usize>,
        budget: &mut Budget,
    ) -> Result<bool, Stop> {
        budget.take_step()?;
        if next == self.offers.ends.len() {
            return Ok(self.has_named_end(choice, named) && self.accept(choice).is_ok());
        }
        if !self.competes_with_any(next, choice) {
            choice.push(next);
            if self.find_first(next + 1, choice, named, budget)? {
                return Ok(true);
            }
            choice.pop();
        }
        self.find_first(next + 1, choice, named, budget)
    }

    /// Whether the choice has an end of the node named, if one is.
    fn has_named_end(&self, choice: &[usize], named: Option<usize>) -> bool {
        match named {
            Some(node) => self.has_end_of(choice, node),
            None => true,
        }
    }

    /// Wish 4: "The reason is proved to be the first level at which no choice is left,
    /// over all sets of ends." The levels narrow down: each asks what the one before
    /// it asks, and one thing more. So the choice that passes the most of them tells
    /// how many are left: the reason is the next level, or 0 if there is none.
    pub fn reason(&self, node: usize, budget: &mut Budget) -> Result<u8, Stop> {
        let mut most_passed = 0;
        for choice in self.all() {
            budget.take_step()?;
            most_passed = most_passed.max(self.levels_passed(&choice, node));
            if most_passed == LAST_LEVEL {
                return Ok(0); // "an acceptable one exists"
            }
        }
        Ok(most_passed + 1)
    }

    /// Whether a choice is left at this level, 1 to 5: one that passes it and all
    /// levels before it.
    pub fn is_left(&self, level: u8, node: usize, budget: &mut Budget) -> Result<bool, Stop> {
        for choice in self.all() {
            budget.take_step()?;
            if (1..=level).all(|asked| self.passes(asked, &choice, node)) {
                return Ok(true);
            }
        }
        Ok(false)
    }

    /// "all sets of ends": for each number below 2 to the number of ends, the ends
    /// whose bits are 1 in it.
    fn all(&self) -> impl Iterator<Item = Vec<usize>> {
        let ends = self.offers.ends.len();
        let choice_of = move |set: u32| (0..ends).filter(|end| set >> end & 1 == 1).collect();
        (0..1 << ends).map(choice_of)
    }

    /// How many levels the choice passes before the first that it does not.
    fn levels_passed(&self, choice: &[usize], node: usize) -> u8 {
        let is_passed = |level: &u8| self.passes(*level, choice, node);
        (1..=LAST_LEVEL).take_while(is_passed).count() as u8
    }

    /// Whether the choice has the one thing that this level asks of the choices left
    /// by the levels before it.
    fn passes(&self, level: u8, choice: &[usize], node: usize) -> bool {
        match level {
            // "1 no end belongs to it", so that no choice "takes an end of it"
            1 => self.has_end_of(choice, node),
            // "2 no choice that takes an end of it satisfies its own destination rule"
            2 => self.destination_agrees(self.destination(node), choice),
            // "3 none that does so is free of competing ends"
            3 => self.rule_1(choice).is_ok(),
            // "4 none of those passes all forks whole"
            4 => self.rule_2(choice).is_ok(),
            // "5 none of those satisfies all destinations"
            _ => self.rule_3(choice).is_ok(),
        }
    }

    /// The destination whose rule is the node's own. "For a pin, its own rule is its
    /// action's." Level 1 is asked first, so the node exists.
    fn destination(&self, node: usize) -> usize {
        if is_pin(self.table.kind(node)) {
            usize::from(self.table.nodes[node].owner)
        } else {
            node
        }
    }

    /// The marking after the step of an acceptable choice.
    pub fn step(&self, choice: &[usize]) -> Marking {
        let mut after = self.marking.clone();
        self.spend_first_offers(choice, &mut after);
        for end in choice {
            self.arrive(*end, &mut after);
        }
        let is_final = |end: &usize| self.table.kind(self.target(*end)) == ACTIVITY_FINAL;
        if choice.iter().any(is_final) {
            after.end(self.table);
        }
        after
    }

    /// "each first offer among the makers of taken ends is spent; an object node
    /// loses its oldest value, a control edge goes to 0."
    fn spend_first_offers(&self, choice: &[usize], after: &mut Marking) {
        let is_maker = self.makers_of_taken_ends(choice);
        for (number, offer) in self.offers.list.iter().enumerate() {
            if is_maker[number] && offer.origin == Origin::First {
                let source = self.table.edges[offer.edge].source;
                if is_object_node(self.table.kind(source)) {
                    after.stocks[source] = without_oldest(&after.stocks[source]);
                } else {
                    after.counts[offer.edge] = 0;
                }
            }
        }
    }

    /// "Then destinations gain, in end order: values append to pins, buffers and
    /// parameters, and actions run. Finals drop what arrives." Wish 5: "The order of
    /// values arriving at any one stock stays." It does, as ends of one target are
    /// ordered "as before".
    fn arrive(&self, end: usize, after: &mut Marking) {
        let target = self.target(end);
        let node = &self.table.nodes[target];
        if is_object_node(node.kind) {
            after.stocks[target].extend(self.offers.end(end).value);
        }
        if node.kind == ACTION {
            after.running[target] = true;
        }
        if is_pin(node.kind) {
            after.running[usize::from(node.owner)] = true;
        }
    }
}

/// "an object node loses its oldest value"
fn without_oldest(stock: &[Value]) -> Vec<Value> {
    stock.iter().skip(1).copied().collect()
}
