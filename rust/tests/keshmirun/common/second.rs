//! A second way to pick and to tell why not, written apart from the plain reading: makers and sets of ends are words, the three rules are counts over sets of
//! ends, and a search leaves a branch where no choice that is asked for goes on. It takes good tables, live markings of them, legal guards and good bounds
//! lists.

use reading::random::Parts;

const ACTION: u8 = 2;
const INPUT_PIN: u8 = 3;
const DECISION: u8 = 8;
const FORK: u8 = 10;
const JOIN: u8 = 11;

fn is_object_node(kind: u8) -> bool {
    (3..=7).contains(&kind)
}

fn is_control_node(kind: u8) -> bool {
    (8..=11).contains(&kind)
}

/// What a marking says: per node its stock's size, its oldest value and whether it runs, per edge its tokens.
struct Held {
    stock: Vec<u8>,
    oldest: Vec<Option<u32>>,
    runs: Vec<bool>,
    tokens: Vec<u8>,
}

impl Held {
    fn read(parts: &Parts, marking: &[u8]) -> Held {
        let (nodes, edges) = (parts.nodes.len(), parts.edges.len());
        let mut held = Held { stock: vec![0; nodes], oldest: vec![None; nodes], runs: vec![false; nodes], tokens: vec![0; edges] };
        let mut place = 4;
        for (node, [kind, ..]) in parts.nodes.iter().enumerate() {
            if is_object_node(*kind) {
                held.stock[node] = marking[place];
                held.oldest[node] = Some(number(&marking[place + 1..])).filter(|_| marking[place] > 0);
                place += 1 + 4 * usize::from(marking[place]);
            } else if *kind == ACTION {
                held.runs[node] = marking[place] == 1;
                place += 1;
            }
        }
        for (edge, [_, source, ..]) in parts.edges.iter().enumerate() {
            if parts.nodes[usize::from(*source)][0] <= ACTION {
                held.tokens[edge] = marking[place];
                place += 1;
            }
        }
        held
    }
}

/// The number that these bytes begin with, 0 where they are too few.
fn number(bytes: &[u8]) -> u32 {
    match bytes {
        [a, b, c, d, ..] => u32::from_be_bytes([*a, *b, *c, *d]),
        _ => 0,
    }
}

/// Per edge the least and the greatest value that may go over it.
fn limits(edges: usize, bounds: &[u8]) -> Vec<(u32, u32)> {
    let mut limits = vec![(0, u32::MAX); edges];
    for entry in bounds[4..].chunks(9) {
        limits[usize::from(entry[0])] = (number(&entry[1..]), number(&entry[5..]));
    }
    limits
}

/// An offer: its last edge, what it was made from, its value, its makers as a word, and its paths in order.
struct Offer {
    edge: usize,
    from: Vec<usize>,
    value: Option<u32>,
    makers: u64,
    paths: Vec<Vec<u8>>,
}

/// If an end of `when` is taken, then from `least` to `most` ends of `counted` are.
struct Rule {
    when: u32,
    counted: u32,
    least: u32,
    most: u32,
}

/// What a choice is asked for: these rules, that none of its ends compete, and an end of a set, if one is wanted.
struct Asked<'a> {
    rules: Vec<&'a Rule>,
    without_rivals: bool,
    wanted: Option<u32>,
}

pub struct Second {
    parts: Parts,
    held: Held,
    guards: Vec<u8>,
    limits: Vec<(u32, u32)>,
    offers: Vec<Offer>,
    /// Per offer, those that are of sort (a), (b) or (c) with it.
    rivals: Vec<u64>,
    /// Per edge its offers, once they are made.
    made: Vec<Option<Vec<usize>>>,
    /// The ends in order: by group, which is the target node, last edge and paths.
    ends: Vec<usize>,
    forks: Vec<Rule>,
    /// By node.
    destinations: Vec<Vec<Rule>>,
}

impl Second {
    /// None if a size is passed.
    pub fn of(table: &[u8], marking: &[u8], guards: &[u8], bounds: &[u8]) -> Option<Second> {
        Second::ordered(table, marking, guards, bounds, Second::target)
    }

    /// The same with the ends as they stood before they were grouped by target: by last edge and paths.
    pub fn ungrouped(table: &[u8], marking: &[u8], guards: &[u8], bounds: &[u8]) -> Option<Second> {
        Second::ordered(table, marking, guards, bounds, |_, _| 0)
    }

    fn ordered(table: &[u8], marking: &[u8], guards: &[u8], bounds: &[u8], group: fn(&Second, usize) -> usize) -> Option<Second> {
        let parts = Parts::of(table)?;
        let mut second = Second {
            held: Held::read(&parts, marking),
            guards: guards.to_vec(),
            limits: limits(parts.edges.len(), bounds),
            offers: Vec::new(),
            rivals: Vec::new(),
            made: vec![None; parts.edges.len()],
            ends: Vec::new(),
            forks: Vec::new(),
            destinations: Vec::new(),
            parts,
        };
        for edge in 0..guards.len() {
            second.offers_on(edge)?;
        }
        let mut ends: Vec<usize> = (0..second.offers.len()).filter(|offer| !is_control_node(second.kind(second.target(*offer)))).collect();
        ends.sort_by_key(|end| (group(&second, *end), second.offers[*end].edge, second.offers[*end].paths.clone()));
        second.ends = ends;
        second.forks = second.fork_rules();
        second.destinations = (0..second.parts.nodes.len()).map(|node| second.destination_rules(node)).collect();
        Some(second).filter(|second| second.ends.len() <= 20)
    }

    fn kind(&self, node: usize) -> u8 {
        self.parts.nodes[node][0]
    }

    fn source(&self, edge: usize) -> usize {
        usize::from(self.parts.edges[edge][1])
    }

    fn target(&self, offer: usize) -> usize {
        usize::from(self.parts.edges[self.offers[offer].edge][2])
    }

    fn incoming(&self, node: usize) -> Vec<usize> {
        (0..self.parts.edges.len()).filter(|edge| usize::from(self.parts.edges[*edge][2]) == node).collect()
    }

    /// The offers on this edge, made with all that lead to them; none if a size is passed.
    fn offers_on(&mut self, edge: usize) -> Option<Vec<usize>> {
        if let Some(made) = &self.made[edge] {
            return Some(made.clone());
        }
        let source = self.source(edge);
        let mut ways: Vec<Vec<usize>> = Vec::new();
        if is_control_node(self.kind(source)) {
            let lists: Option<Vec<Vec<usize>>> = self.incoming(source).into_iter().map(|incoming| self.offers_on(incoming)).collect();
            let mut lists = lists?;
            lists.iter_mut().for_each(|list| list.retain(|offer| self.may_go(edge, self.offers[*offer].value)));
            match self.kind(source) {
                JOIN => self.add_ways(&lists, 0, &mut Vec::new(), &mut ways),
                _ => ways = lists.concat().into_iter().map(|offer| vec![offer]).collect(),
            }
        } else if (self.held.tokens[edge] > 0 || self.held.stock[source] > 0) && self.may_go(edge, self.held.oldest[source]) {
            ways.push(Vec::new());
        }
        let made: Option<Vec<usize>> = ways.into_iter().map(|from| self.add(edge, from)).collect();
        self.made[edge] = made.clone();
        made
    }

    /// Whether an offer with this value goes over this edge.
    fn may_go(&self, edge: usize, value: Option<u32>) -> bool {
        let (low, high) = self.limits[edge];
        self.guards[edge] == 1 && value.map_or(true, |value| low <= value && value <= high)
    }

    /// All ways of a join that go on from `way`, 65 at most: so many offers are too many already.
    fn add_ways(&self, lists: &[Vec<usize>], next: usize, way: &mut Vec<usize>, ways: &mut Vec<Vec<usize>>) {
        if lists.iter().any(Vec::is_empty) || ways.len() > 64 {
            return;
        }
        if next == lists.len() {
            return ways.push(way.clone());
        }
        for offer in &lists[next] {
            if !way.iter().any(|taken| self.compete(*taken, *offer)) {
                way.push(*offer);
                self.add_ways(lists, next + 1, way, ways);
                way.pop();
            }
        }
    }

    fn add(&mut self, edge: usize, from: Vec<usize>) -> Option<usize> {
        let number = self.offers.len();
        let mut paths: Vec<Vec<u8>> = from.iter().flat_map(|offer| self.offers[*offer].paths.clone()).collect();
        if from.is_empty() {
            paths.push(Vec::new());
        }
        paths.iter_mut().for_each(|path| path.push(edge as u8));
        paths.sort();
        if number == 64 || paths.len() > 8 {
            return None;
        }
        let value = match from[..] {
            [] => self.held.oldest[self.source(edge)],
            _ => from.iter().find_map(|offer| self.offers[*offer].value),
        };
        let makers = from.iter().fold(1 << number, |makers, offer| makers | self.offers[*offer].makers);
        self.offers.push(Offer { edge, from, value, makers, paths });
        self.rivals.push(0);
        for earlier in 0..number {
            if self.are_rivals(earlier, number) {
                self.rivals[earlier] |= 1 << number;
                self.rivals[number] |= 1 << earlier;
            }
        }
        Some(number)
    }

    /// (a), (b), (c): by the kind of the node at which both were made.
    fn are_rivals(&self, one: usize, other: usize) -> bool {
        let (one, other) = (&self.offers[one], &self.offers[other]);
        let node = self.source(one.edge);
        node == self.source(other.edge)
            && match self.kind(node) {
                DECISION => one.from == other.from,
                JOIN => one.from.iter().any(|offer| other.from.contains(offer)) && !self.are_of_one_round(one, other),
                kind => is_object_node(kind),
            }
    }

    /// Wish 2, of two offers of a join: they were made from different object offers and, edge by edge, from the same control offers.
    fn are_of_one_round(&self, one: &Offer, other: &Offer) -> bool {
        let mut differing = one.from.iter().zip(&other.from).filter(|(one, other)| one != other).peekable();
        differing.peek().is_some() && differing.all(|(offer, _)| self.offers[*offer].value.is_some())
    }

    fn compete(&self, one: usize, other: usize) -> bool {
        let makers = self.offers[other].makers;
        (0..self.offers.len()).any(|maker| self.offers[one].makers >> maker & 1 == 1 && self.rivals[maker] & makers != 0)
    }

    /// The ends of which this holds.
    fn set(&self, holds: impl Fn(usize) -> bool) -> u32 {
        self.ends.iter().enumerate().filter(|(_, offer)| holds(**offer)).fold(0, |set, (end, _)| set | 1 << end)
    }

    /// Rule 2: each extension at a fork needs every other one of the same offer.
    fn fork_rules(&self) -> Vec<Rule> {
        let mut rules = Vec::new();
        for offer in (0..self.offers.len()).filter(|offer| self.kind(self.target(*offer)) == FORK) {
            let extended = (0..self.offers.len()).filter(|other| self.offers[*other].from == [offer]);
            let made: Vec<u32> = extended.map(|maker| self.set(|end| self.offers[end].makers >> maker & 1 == 1)).collect();
            let when = made.iter().fold(0, |all, one| all | one);
            rules.extend(made.into_iter().map(|counted| Rule { when, counted, least: 1, most: 20 }));
        }
        rules
    }

    /// Rule 3 at this node. A pin is judged when its action has a taken end.
    fn destination_rules(&self, node: usize) -> Vec<Rule> {
        let [kind, owner, lower, upper] = self.parts.nodes[node].map(u32::from);
        let at = self.ends_of(node as u8);
        let rule = |when, counted, least, most| Rule { when, counted, least, most };
        match kind as u8 {
            ACTION if self.held.runs[node] => vec![rule(at, at, 0, 0)],
            ACTION => {
                let edges = self.incoming(node).into_iter();
                edges.map(|edge| rule(at, self.set(|end| self.offers[end].edge == edge), 1, 1)).collect()
            }
            INPUT_PIN => vec![rule(self.ends_of(owner as u8), at, lower, upper)],
            5 | 7 => vec![rule(at, at, 0, upper - u32::from(self.held.stock[node]))],
            _ => Vec::new(),
        }
    }

    /// The ends that belong to this node.
    fn ends_of(&self, node: u8) -> u32 {
        self.set(|end| {
            let target = self.target(end);
            let [kind, owner, ..] = self.parts.nodes[target];
            target == usize::from(node) || kind == INPUT_PIN && owner == node
        })
    }

    /// The targets of the ends, in their order.
    pub fn targets(&self) -> Vec<u8> {
        self.ends.iter().map(|end| self.target(*end) as u8).collect()
    }

    /// For each end, in order, its number among those of the same point that are in another order.
    pub fn numbers_in(&self, other: &Second) -> Vec<u8> {
        let number = |end: &usize| other.ends.iter().position(|offer| offer == end).expect("the same ends") as u8;
        self.ends.iter().map(number).collect()
    }

    /// The first acceptable choice, with a node named the first that has an end of it.
    pub fn pick(&self, node: Option<u8>) -> Option<Vec<u8>> {
        let rules = self.forks.iter().chain(self.destinations.iter().flatten()).collect();
        let first = self.first(&Asked { rules, without_rivals: true, wanted: node.map(|node| self.ends_of(node)) })?;
        Some((0..20).filter(|end| first >> end & 1 == 1).collect())
    }

    /// The reason for this node: the first of the levels at which there is no choice, or 0.
    pub fn why(&self, node: u8) -> u8 {
        let own = self.own_rules(node);
        let with_forks: Vec<&Rule> = own.iter().copied().chain(&self.forks).collect();
        let all = with_forks.iter().copied().chain(self.destinations.iter().flatten()).collect();
        let levels = [(Vec::new(), false), (own.clone(), false), (own, true), (with_forks, true), (all, true)];
        let wanted = Some(self.ends_of(node));
        let is_empty = |(rules, without_rivals)| self.first(&Asked { rules, without_rivals, wanted }).is_none();
        levels.into_iter().position(is_empty).map_or(0, |passed| passed as u8 + 1)
    }

    /// Rule 3 at the node or, for a pin, at its action; an action's pins have a part in it. None at a number that is no node.
    fn own_rules(&self, node: u8) -> Vec<&Rule> {
        let own = match self.parts.nodes.get(usize::from(node)) {
            Some([INPUT_PIN, owner, ..]) => *owner,
            _ => node,
        };
        let is_part = |other: usize| other == usize::from(own) || self.parts.nodes[other][..2] == [INPUT_PIN, own];
        self.destinations.iter().enumerate().filter(|(other, _)| is_part(*other)).flat_map(|(_, rules)| rules).collect()
    }

    /// The first choice that has what is asked for.
    fn first(&self, asked: &Asked) -> Option<u32> {
        self.first_from(asked, 0, 0, self.set(|_| true))
    }

    /// The same among those that hold `taken`, of the ends from `next` on some of `open`, and no others.
    fn first_from(&self, asked: &Asked, next: usize, taken: u32, open: u32) -> Option<u32> {
        let open = narrowed(&asked.rules, taken, open)?;
        if asked.wanted.map_or(false, |wanted| wanted & (taken | open) == 0) {
            return None;
        }
        if next == self.ends.len() {
            return Some(taken);
        }
        let bit = 1 << next;
        let rest = open & !bit;
        if open & bit != 0 {
            let rivals = if asked.without_rivals { self.set(|end| self.compete(self.ends[next], end)) } else { 0 };
            let with = self.first_from(asked, next + 1, taken | bit, rest & !rivals);
            if with.is_some() {
                return with;
            }
        }
        self.first_from(asked, next + 1, taken, rest)
    }
}

/// The open ends that some choice by these rules between `taken` and `taken` with all open ends could hold; none if there is no such choice. Every step is right
/// for each of them: it counts no fewer than `taken` and no more than all. With none open, this judges `taken` itself.
fn narrowed(rules: &[&Rule], taken: u32, mut open: u32) -> Option<u32> {
    loop {
        let before = open;
        for rule in rules {
            let applies = taken & rule.when != 0;
            let now = (taken & rule.counted).count_ones();
            let too_few = ((taken | open) & rule.counted).count_ones() < rule.least;
            if applies && (too_few || now > rule.most) {
                return None;
            }
            if too_few {
                open &= !rule.when;
            }
            if applies && now == rule.most {
                open &= !rule.counted;
            }
        }
        if open == before {
            return Some(open);
        }
    }
}
