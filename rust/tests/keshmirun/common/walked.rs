//! Every accessor and iterator of the crate's views that `rewritten.rs` doesn't ask already, walked to its end, and all that can be shown. It judges nothing but
//! that iterators of honest bytes are as long as they say.

use keshmirun::{Bounds, Choice, Contents, Edge, End, Guards, Holding, Node, Refusal, Sheet, Table};
use std::fmt::{Debug, Write};
use std::iter::FusedIterator;

/// How much was seen, which is told so that nothing is left out of the program.
#[derive(Default)]
pub struct Walked {
    seen: usize,
    shown: String,
    is_shifty: bool,
}

impl Walked {
    /// Through what stands in storage whose bytes may be others from one call to the next.
    pub fn shifty() -> Walked {
        Walked { is_shifty: true, ..Walked::default() }
    }

    pub fn seen(&self) -> usize {
        self.seen
    }

    fn note(&mut self, number: usize) {
        self.seen = self.seen.wrapping_add(number);
    }

    /// So many, and none behind the last.
    fn count<I: ExactSizeIterator + FusedIterator>(&mut self, mut items: I) {
        let said = items.len();
        let count = items.by_ref().count();
        let is_over = items.next().is_none();
        assert!(self.is_shifty || is_over && said == count, "{said} said, {count} seen");
        self.note(count);
    }

    pub fn table<B: AsRef<[u8]>>(&mut self, table: &Table<B>) {
        self.count(table.nodes());
        self.count(table.edges());
        table.nodes().for_each(|node| self.node(&node));
        table.edges().for_each(|edge| self.edge(&edge));
        for number in [0, 1, 119, 120, 200, 255] {
            self.note(table.node(number).map_or(0, |node| node.id().index()) + table.edge(number).map_or(0, |edge| edge.id().index()));
        }
        self.note(table.as_bytes().len() + table.guards().as_bytes().len());
    }

    fn node(&mut self, node: &Node) {
        let kind = node.kind();
        let flags = [kind.is_pin(), kind.is_object_node(), kind.is_control_node()];
        self.note(node.home().index() + kind.name().len() + flags.iter().filter(|flag| **flag).count());
    }

    fn edge(&mut self, edge: &Edge) {
        self.note(edge.id().index() + usize::from(edge.is_counted()) + usize::from(edge.source() == edge.target()));
    }

    /// What is at each of these nodes: that is the table's edges and nodes over and over.
    pub fn neighbours<'t>(&mut self, nodes: impl Iterator<Item = Node<'t>>) {
        for node in nodes {
            let edges = node.incoming().chain(node.outgoing()).map(|edge| edge.id().index());
            let pins = node.input_pins().chain(node.output_pins()).map(|pin| pin.id().index());
            let sum = edges.chain(pins).sum::<usize>();
            self.note(sum);
        }
    }

    pub fn contents(&mut self, contents: &Contents) {
        for (_, holding) in contents.nodes() {
            match holding {
                Holding::Stock(values) => self.count(values),
                Holding::Running(runs) => self.note(usize::from(runs)),
                Holding::Nothing => {}
            }
        }
        for number in [0, 1, 119, 255] {
            self.note(contents.values(number).count() + usize::from(contents.is_running(number)) + usize::from(contents.tokens(number)));
        }
    }

    pub fn sheet<B: AsRef<[u8]>>(&mut self, sheet: &Sheet<B>) {
        self.count(sheet.ends());
        sheet.ends().for_each(|end| self.end(&end));
        for number in [0, 1, 19, 20, 255] {
            self.note(sheet.end(number).map_or(0, |end| end.id().index()));
        }
        self.note(sheet.as_bytes().len());
    }

    fn end(&mut self, end: &End) {
        self.note(end.target().index());
        self.count(end.paths());
        for path in end.paths() {
            self.note(path.as_bytes().len() + path.edges().rev().map(|edge| edge.index()).sum::<usize>());
        }
    }

    pub fn guards(&mut self, guards: &Guards) {
        self.note((0..=255).filter(|edge| guards.is_open(*edge)).count() + guards.as_bytes().len());
    }

    pub fn bounds(&mut self, bounds: &Bounds) {
        for edge in [0, 1, 2, 199, 200, 255] {
            self.note(usize::from(bounds.of(edge).map_or(false, |values| values.contains(&7))));
        }
    }

    pub fn choice(&mut self, choice: &Choice) {
        self.note((0..=255).filter(|end| choice.has(*end)).count() + usize::from(choice.is_empty()));
        self.note(choice.ends().rev().map(|end| end.index()).sum::<usize>() + choice.ends().len() + choice.to_string().len());
    }

    pub fn refusal(&mut self, refusal: &Refusal) {
        self.show(refusal);
        self.note(refusal.meaning().len() + refusal.at().to_string().len());
    }

    /// Whatever can be shown.
    pub fn show(&mut self, thing: &dyn Debug) {
        self.shown.clear();
        write!(self.shown, "{thing:?}").expect("a string takes all");
        self.note(self.shown.len());
    }
}
