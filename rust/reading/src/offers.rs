//! The paper's heading "Offers": what could flow, and where it would end. Rule (c)
//! of competing is as the customers' wish 2, "One round token for all tables",
//! amends it. The order of ends is that of their wish 5, "Group the sheet by
//! destination".

use crate::budget::{Budget, Stop};
use crate::bytes::Value;
use crate::marking::Marking;
use crate::refusal::{require, Refusal, SIZE_PASSED};
use crate::table::{is_control_node, is_object_node, Table, CONTROL, DECISION, JOIN, OBJECT};
use crate::terms::Terms;

/// "Sizes: at most 64 offers, 8 paths in an offer, 20 ends."
pub const MOST_OFFERS: usize = 64;
/// See [`MOST_OFFERS`].
pub const MOST_PATHS: usize = 8;
/// See [`MOST_OFFERS`].
pub const MOST_ENDS: usize = 20;

/// A path: the edges gone over, in order.
pub type Path = Vec<u8>;

/// What an offer was made from. Offers are named by their place in the list.
#[derive(Debug, Clone, PartialEq, Eq)]
pub enum Origin {
    /// A first offer.
    First,
    /// Extended, at a decision, merge or fork, from this offer.
    Extended(usize),
    /// Joined from these offers, one from every incoming edge.
    Joined(Vec<usize>),
}

/// "An offer has a value (none on control edges) and a set of paths."
#[derive(Debug, Clone)]
pub struct Offer {
    /// The last edge of all its paths.
    pub edge: usize,
    /// What it was made from.
    pub origin: Origin,
    /// Its value.
    pub value: Option<Value>,
    /// Its paths, sorted.
    pub paths: Vec<Path>,
    /// "Makers of an offer: itself and all it was extended or joined from, back
    /// to the start."
    pub makers: Vec<usize>,
}

/// All offers of a marking on some terms, and the ends among them.
#[derive(Debug)]
pub struct Offers {
    /// All offers, those that were made from others after these.
    pub list: Vec<Offer>,
    /// Per offer, those that are of sort (a), (b) or (c) with it.
    rivals: Vec<Vec<usize>>,
    /// Per offer, whether it competes with each of the offers before it.
    competing: Vec<Vec<bool>>,
    /// The ends, in their order: end 0 is the offer `ends[0]`.
    pub ends: Vec<usize>,
}

impl Offers {
    /// All offers, or refusal 8. An offer is made only on an edge that the terms
    /// allow it to go over.
    pub fn of(
        table: &Table,
        marking: &Marking,
        terms: &Terms,
        budget: &mut Budget,
    ) -> Result<Offers, Stop> {
        let mut offers = Offers {
            list: Vec::new(),
            rivals: Vec::new(),
            competing: Vec::new(),
            ends: Vec::new(),
        };
        offers.add_first_offers(table, marking, terms)?;
        for node in table.control_nodes_in_flow_order() {
            for edge in table.outgoing(node) {
                let offered = offers.allowed_over(table, node, edge, terms);
                if table.kind(node) == JOIN {
                    offers.add_joined_offers(table, edge, &offered, budget)?;
                } else {
                    offers.add_extended_offers(table, edge, &offered)?;
                }
            }
        }
        offers.number_ends(table)?;
        Ok(offers)
    }

    /// "First offers: a control edge with a count above 0 carries one offer,
    /// however many tokens it holds. Each outgoing edge of a non-empty object
    /// node carries one, with the oldest value. Path: that edge alone."
    fn add_first_offers(
        &mut self,
        table: &Table,
        marking: &Marking,
        terms: &Terms,
    ) -> Result<(), Refusal> {
        for edge in table.edge_numbers() {
            let source = table.edges[edge].source;
            let oldest = marking.stocks[source].first().copied();
            let is_carried = marking.counts[edge] > 0 || oldest.is_some();
            if is_carried && terms.allow(edge, oldest) {
                let paths = vec![vec![edge as u8]];
                self.add(table, edge, Origin::First, oldest, paths)?;
            }
        }
        Ok(())
    }

    /// For each incoming edge of this control node, the offers on it that the terms
    /// allow over the outgoing edge `edge`. Each is asked with its own value, which
    /// it goes on with; so it is at a join too: "The value is that of the object
    /// edge's offer", and the other edges' offers have none.
    fn allowed_over(
        &self,
        table: &Table,
        node: usize,
        edge: usize,
        terms: &Terms,
    ) -> Vec<Vec<usize>> {
        let mut offered = Vec::new();
        for incoming in table.incoming(node) {
            let mut offers = self.on_edge(incoming);
            offers.retain(|offer| terms.allow(edge, self.list[*offer].value));
            offered.push(offers);
        }
        offered
    }

    /// "Decision, merge, fork: each incoming offer is extended over each outgoing
    /// edge." Here, those of `offered` over the outgoing edge `edge`.
    fn add_extended_offers(
        &mut self,
        table: &Table,
        edge: usize,
        offered: &[Vec<usize>],
    ) -> Result<(), Refusal> {
        for offer in offered.iter().flatten() {
            let value = self.list[*offer].value;
            let paths = self.extended_paths(&[*offer], edge);
            self.add(table, edge, Origin::Extended(*offer), value, paths)?;
        }
        Ok(())
    }

    /// "Join: for each way of taking one offer from every incoming edge, no two
    /// competing, all their paths are extended over the outgoing edge." Here, one
    /// from each of `offered` over `edge`.
    fn add_joined_offers(
        &mut self,
        table: &Table,
        edge: usize,
        offered: &[Vec<usize>],
        budget: &mut Budget,
    ) -> Result<(), Stop> {
        if offered.iter().any(|offers| offers.is_empty()) {
            return Ok(()); // an edge has nothing to take, so there is no way
        }
        self.add_ways(table, edge, offered, &mut Vec::new(), budget)
    }

    /// Adds the joined offer of every way that begins with `way`, an offer from
    /// each of the first incoming edges. A way is left as soon as two compete.
    fn add_ways(
        &mut self,
        table: &Table,
        edge: usize,
        offered: &[Vec<usize>],
        way: &mut Vec<usize>,
        budget: &mut Budget,
    ) -> Result<(), Stop> {
        budget.take_step()?;
        if way.len() == offered.len() {
            return Ok(self.add_joined(table, edge, way)?);
        }
        for offer in &offered[way.len()] {
            if !way.iter().any(|taken| self.compete(*taken, *offer)) {
                way.push(*offer);
                self.add_ways(table, edge, offered, way, budget)?;
                way.pop();
            }
        }
        Ok(())
    }

    /// The offer joined from `way`. "The value is that of the object edge's
    /// offer."
    fn add_joined(&mut self, table: &Table, edge: usize, way: &[usize]) -> Result<(), Refusal> {
        let value = way
            .iter()
            .map(|offer| &self.list[*offer])
            .find(|offer| table.edges[offer.edge].kind == OBJECT)
            .and_then(|offer| offer.value);
        let paths = self.extended_paths(way, edge);
        self.add(table, edge, Origin::Joined(way.to_vec()), value, paths)
    }

    /// All paths of these offers, each extended over `edge`, sorted.
    fn extended_paths(&self, offers: &[usize], edge: usize) -> Vec<Path> {
        let mut paths = Vec::new();
        for offer in offers {
            for path in &self.list[*offer].paths {
                let mut longer = path.clone();
                longer.push(edge as u8);
                paths.push(longer);
            }
        }
        paths.sort();
        paths
    }

    /// Adds an offer, unless "at most 64 offers, 8 paths in an offer" is passed.
    fn add(
        &mut self,
        table: &Table,
        edge: usize,
        origin: Origin,
        value: Option<Value>,
        paths: Vec<Path>,
    ) -> Result<(), Refusal> {
        require(SIZE_PASSED, self.list.len() < MOST_OFFERS)?;
        require(SIZE_PASSED, paths.len() <= MOST_PATHS)?;
        let number = self.list.len();
        let makers = self.makers(number, &origin);
        self.list.push(Offer {
            edge,
            origin,
            value,
            paths,
            makers,
        });
        self.note_rivals(table, number);
        let competes_with = |earlier| self.have_rival_makers(earlier, number);
        let row = (0..number).map(competes_with).collect();
        self.competing.push(row);
        Ok(())
    }

    /// "Makers of an offer: itself and all it was extended or joined from, back
    /// to the start."
    fn makers(&self, itself: usize, origin: &Origin) -> Vec<usize> {
        let mut makers = vec![itself];
        match origin {
            Origin::First => {}
            Origin::Extended(from) => makers.extend(&self.list[*from].makers),
            Origin::Joined(way) => {
                for from in way {
                    makers.extend(&self.list[*from].makers);
                }
            }
        }
        makers.sort_unstable();
        makers.dedup();
        makers
    }

    /// "Two offers compete if a maker of one and a different maker of the other
    /// are" rivals.
    fn have_rival_makers(&self, one: usize, other: usize) -> bool {
        let others = &self.list[other].makers;
        let has_rival = |maker: &usize| self.rivals[*maker].iter().any(|r| others.contains(r));
        self.list[one].makers.iter().any(has_rival)
    }

    /// Notes which of the offers before it are the rivals of this one.
    fn note_rivals(&mut self, table: &Table, number: usize) {
        let is_rival = |earlier: &usize| self.are_rivals(table, *earlier, number);
        let rivals: Vec<usize> = (0..number).filter(is_rival).collect();
        for rival in &rivals {
            self.rivals[*rival].push(number);
        }
        self.rivals.push(rivals);
    }

    /// Whether two different offers are of sort (a), (b) or (c).
    fn are_rivals(&self, table: &Table, one: usize, other: usize) -> bool {
        let one = &self.list[one];
        let other = &self.list[other];
        let source = table.edges[one.edge].source;
        let same_source = source == table.edges[other.edge].source;
        match (&one.origin, &other.origin) {
            // "(a) first offers of the same object node"
            (Origin::First, Origin::First) => same_source && is_object_node(table.kind(source)),
            // "(b) extensions of the same offer at the same decision"
            (Origin::Extended(from), Origin::Extended(other_from)) => {
                same_source && table.kind(source) == DECISION && from == other_from
            }
            // "(c) offers of the same join that have one of their joined offers
            // in common", amended by wish 2
            (Origin::Joined(way), Origin::Joined(other_way)) => {
                same_source
                    && have_one_in_common(way, other_way)
                    && !self.differ_in_object_offers_only(table, way, other_way)
            }
            _ => false,
        }
    }

    /// Wish 2: "two offers of a join don't compete by (c) if their object offers
    /// differ and their control offers are all the same." The two were joined in
    /// these ways. A way has one offer from every incoming edge, in order, so the
    /// lists compare edge by edge; and it is offers that differ, not their values.
    /// Without an object edge none differ: "All else in (c) stands, joins of control
    /// edges only included."
    fn differ_in_object_offers_only(
        &self,
        table: &Table,
        way: &[usize],
        other_way: &[usize],
    ) -> bool {
        let object_offers = |way: &[usize]| self.on_edges_of_kind(table, OBJECT, way);
        let control_offers = |way: &[usize]| self.on_edges_of_kind(table, CONTROL, way);
        object_offers(way) != object_offers(other_way)
            && control_offers(way) == control_offers(other_way)
    }

    /// Those of these offers that are on edges of this kind.
    fn on_edges_of_kind(&self, table: &Table, kind: u8, offers: &[usize]) -> Vec<usize> {
        let is_on = |offer: &usize| table.edges[self.list[*offer].edge].kind == kind;
        offers.iter().copied().filter(is_on).collect()
    }

    /// Whether two offers would compete by the paper's own (c), and by wish 2 don't.
    pub fn are_freed(&self, table: &Table, one: usize, other: usize) -> bool {
        let others = &self.list[other].makers;
        let has_exempt = |maker: &usize| others.iter().any(|o| self.are_exempt(table, *maker, *o));
        !self.compete(one, other) && self.list[one].makers.iter().any(has_exempt)
    }

    /// Whether two offers "have one of their joined offers in common" and "don't
    /// compete by (c)" all the same.
    fn are_exempt(&self, table: &Table, one: usize, other: usize) -> bool {
        match (&self.list[one].origin, &self.list[other].origin) {
            (Origin::Joined(way), Origin::Joined(other_way)) => {
                have_one_in_common(way, other_way)
                    && self.differ_in_object_offers_only(table, way, other_way)
            }
            _ => false,
        }
    }

    /// Whether two offers compete. No offer competes with itself.
    pub fn compete(&self, one: usize, other: usize) -> bool {
        let (earlier, later) = (one.min(other), one.max(other));
        earlier != later && self.competing[later][earlier]
    }

    /// The offers on this edge.
    pub fn on_edge(&self, edge: usize) -> Vec<usize> {
        (0..self.list.len())
            .filter(|offer| self.list[*offer].edge == edge)
            .collect()
    }

    /// "An end is an offer on an edge whose target is no control node." Wish 5: "Ends
    /// are to be ordered by target node first, then as before", which is "by last edge
    /// number; then by their paths, sorted and compared edge by edge, path by path, a
    /// shorter list first where it begins the longer one." That is how Rust compares
    /// lists of lists. The target node of an end at a pin is the pin, not its action.
    /// "at most [...] 20 ends."
    fn number_ends(&mut self, table: &Table) -> Result<(), Refusal> {
        let list = &self.list;
        let target = |offer: &usize| table.edges[list[*offer].edge].target;
        let is_end = |offer: &usize| !is_control_node(table.kind(target(offer)));
        let mut ends: Vec<usize> = (0..list.len()).filter(is_end).collect();
        ends.sort_by_key(|offer| (target(offer), list[*offer].edge, &list[*offer].paths));
        self.ends = ends;
        require(SIZE_PASSED, self.ends.len() <= MOST_ENDS)
    }

    /// The offer that is this end.
    pub fn end(&self, end: usize) -> &Offer {
        &self.list[self.ends[end]]
    }
}

/// "that have one of their joined offers in common"
fn have_one_in_common(way: &[usize], other_way: &[usize]) -> bool {
    way.iter().any(|from| other_way.contains(from))
}
