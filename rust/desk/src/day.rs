//! A day at the desk: a drawing with its marking and guards, asked and moved on by names.

use crate::advice;
use crate::drawing::Drawing;
use crate::trouble::Trouble;
use keshmirun::{Bounds, Choice, Contents, EdgeId, Guards, Kind, NodeId, OwnedMarking, OwnedSheet, Reason, Refusal, Terms, Values};

/// A drawing, what it holds now, and which guards are closed.
#[derive(Debug)]
pub struct Day {
    pub drawing: Drawing,
    /// None before the day begins.
    pub marking: Option<OwnedMarking>,
    pub guards: Guards,
    bounds: Bounds,
}

/// Values by the names of the nodes that get them.
pub type Lists = Vec<(String, Vec<u32>)>;

impl Day {
    /// Before it begins.
    pub fn new(drawing: Drawing) -> Day {
        Day { guards: drawing.guards(), bounds: drawing.bounds(), marking: None, drawing }
    }

    /// What goes over the edges now.
    pub fn terms(&self) -> Terms<'_> {
        self.guards.with(&self.bounds)
    }

    /// The bounds that the description says.
    pub fn bounds(&self) -> &Bounds {
        &self.bounds
    }

    fn begun(&self) -> Result<&OwnedMarking, Trouble> {
        self.marking.as_ref().ok_or_else(|| Trouble::new(format!("the day hasn't begun: {}", self.how_to_start())))
    }

    fn how_to_start(&self) -> String {
        let parameters: Vec<String> =
            self.drawing.of_kind(Kind::IncomingParameter).map(|node| format!("{} = 1 2 3", self.drawing.name(node.id()))).collect();
        match parameters.is_empty() {
            true => String::from("`start` begins it"),
            false => format!("begin it with `start {}`", parameters.join(", ")),
        }
    }

    fn told<A>(&self, answer: Result<A, Refusal>) -> Result<A, Trouble> {
        answer.map_err(|refusal| advice::on_call(&self.drawing, refusal))
    }

    /// Begins the day with these values in its incoming parameters, and the guards as they are drawn.
    pub fn start(&mut self, lists: &Lists) -> Result<(), Trouble> {
        let parameters: Vec<NodeId> = self.drawing.of_kind(Kind::IncomingParameter).map(|node| node.id()).collect();
        let values = self.values(&parameters, "an incoming parameter", lists, |name| name.to_string())?;
        self.marking = Some(self.told(self.drawing.table.start(&values))?);
        self.guards = self.drawing.guards();
        Ok(())
    }

    /// Ends an action that runs, with these values on its output pins, which go by their short names.
    pub fn finish(&mut self, action: NodeId, lists: &Lists) -> Result<(), Trouble> {
        let name = self.drawing.name(action).to_string();
        if !self.contents()?.is_running(action) && !self.has_ended() {
            return Err(Trouble::new(format!("`{name}` isn't running, so it can't be finished{}", self.what_runs()?)));
        }
        let pins: Vec<NodeId> = self.drawing.table.node(action).into_iter().flat_map(|node| node.output_pins()).map(|pin| pin.id()).collect();
        let values = self.values(&pins, &format!("an output pin of `{name}`"), lists, |pin| format!("{name}.{pin}"))?;
        self.marking = Some(self.told(self.drawing.table.finish(self.begun()?, action, &values))?);
        Ok(())
    }

    fn what_runs(&self) -> Result<String, Trouble> {
        let running: Vec<String> = self.running()?.iter().map(|action| format!("`{}`", self.drawing.name(*action))).collect();
        Ok(if running.is_empty() { String::from("; nothing is") } else { format!("; running: {}", running.join(", ")) })
    }

    /// The lists for these nodes, in their order; those that aren't named are empty.
    fn values(&self, nodes: &[NodeId], what: &str, lists: &Lists, full: impl Fn(&str) -> String) -> Result<Values<Vec<u8>>, Trouble> {
        for (number, (name, values)) in lists.iter().enumerate() {
            let node = nodes.iter().find(|node| self.drawing.name(**node) == full(name)).ok_or_else(|| self.not_one_of(nodes, what, name))?;
            let upper = self.drawing.table.node(*node).map_or(0, |node| usize::from(node.upper()));
            if values.len() > upper {
                return Err(Trouble::new(format!("`{name}` holds {upper} values at most, and these are {}: leave some out", values.len())));
            }
            if lists[..number].iter().any(|(before, _)| before == name) {
                return Err(Trouble::new(format!("`{name}` is named twice: put its values into one list")));
            }
        }
        let list_of =
            |node: &NodeId| lists.iter().find(|(name, _)| full(name) == self.drawing.name(*node)).map_or(Vec::new(), |(_, values)| values.clone());
        Ok(Values::of(nodes.iter().map(list_of)))
    }

    fn not_one_of(&self, nodes: &[NodeId], what: &str, name: &str) -> Trouble {
        let names: Vec<String> =
            nodes.iter().filter_map(|node| self.drawing.table.node(*node)).map(|node| format!("`{}`", self.drawing.short_name(&node))).collect();
        let there_are = if names.is_empty() { String::from("there is none") } else { format!("there is {}", names.join(", ")) };
        Trouble::new(format!("`{name}` is not {what}: {there_are}"))
    }

    /// What each node and edge holds.
    pub fn contents(&self) -> Result<Contents<'_>, Trouble> {
        self.told(self.drawing.table.contents(self.begun()?))
    }

    pub fn has_ended(&self) -> bool {
        self.marking.as_ref().map_or(false, |marking| marking.has_ended())
    }

    /// The actions that run.
    pub fn running(&self) -> Result<Vec<NodeId>, Trouble> {
        let contents = self.contents()?;
        Ok(self.drawing.of_kind(Kind::Action).map(|action| action.id()).filter(|action| contents.is_running(*action)).collect())
    }

    /// What is on offer.
    pub fn sheet(&self) -> Result<OwnedSheet, Trouble> {
        self.told(self.drawing.table.sheet(self.begun()?, self.terms()))
    }

    /// What the engine would take.
    pub fn pick(&self) -> Result<Choice, Trouble> {
        self.told(self.drawing.table.pick(self.begun()?, self.terms()))
    }

    /// What the engine would take for this node.
    pub fn pick_for(&self, node: NodeId) -> Result<Choice, Trouble> {
        self.told(self.drawing.table.pick_for(self.begun()?, self.terms(), node))
    }

    /// What is in the way of this node.
    pub fn why(&self, node: NodeId) -> Result<Reason, Trouble> {
        self.told(self.drawing.table.why(self.begun()?, self.terms(), node))
    }

    /// Takes these ends.
    pub fn take(&mut self, choice: &Choice) -> Result<(), Trouble> {
        self.marking = Some(self.told(self.drawing.table.step(self.begun()?, self.terms(), choice))?);
        Ok(())
    }

    /// Opens or closes a guard.
    pub fn set_guard(&mut self, edge: EdgeId, is_open: bool) -> Result<(), Trouble> {
        self.begun()?;
        let set = if is_open { self.guards.open(edge) } else { self.guards.close(edge) };
        set.map_err(|_| {
            Trouble::new(format!("`{}` has no guard: draw it as `{} [guarded]`", self.drawing.edge_name(edge), self.drawing.edge_name(edge)))
        })
    }
}
