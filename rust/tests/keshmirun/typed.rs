//! The typed layer on random events with fixed seeds. Every field of a table, all that a marking holds and all that a sheet offers is what stands in the bytes;
//! each operation answers what the slice call answers, to the byte; and bytes of which no guards, bounds, marking, choice or table are made are just those that
//! the engine refuses.

use crate::common::drawn::*;
use crate::common::points::Mixed;
use crate::common::rewritten::{self, assert_can_be_of};
use crate::common::Seen;
use keshmirun::{Bounds, Builder, Choice, Contents, Edge, EdgeKind, Guards, Holding, Kind, Marking, Node, NodeId};
use keshmirun::{Refusal, Room, Sheet, Table, Terms, Values, MOST_EDGES, MOST_NODES, NO_BOUNDS, NO_NODE};
use reading::random::{self, choice, damaged, damaged_bytes, larger_table, outputs, values, Event, Parts, Rng};
use reading::Answer;
use std::collections::BTreeSet;

/// A table over bytes that are lent.
type Lent<'a> = Table<&'a [u8]>;

/// What an operation writes.
type Bytes = Result<Vec<u8>, Refusal>;

/// The numbers of those of which this holds.
fn numbers<T>(items: &[T], holds: impl Fn(&T) -> bool) -> Vec<u8> {
    (0..).zip(items).filter(|(_, item)| holds(item)).map(|(number, _)| number).collect()
}

/// The numbers of all nodes and edges, and a few that are none.
fn up_to_past_the_last(parts: &Parts) -> impl Iterator<Item = u8> {
    (0..=parts.nodes.len().max(parts.edges.len()) as u8).chain([NO_NODE])
}

// ---- tables

#[test]
fn nodes_and_edges() {
    let mut rng = Rng::new(201);
    for number in 0..4_000 {
        let bytes = if number % 16 == 0 { larger_table(&mut rng) } else { random::table(&mut rng) };
        let (table, parts) = (Table::new(&bytes[..]).unwrap(), Parts::of(&bytes).unwrap());
        assert_eq!(rewritten::table(&table), bytes);
        assert_eq!((table.nodes().len(), table.edges().len()), (parts.nodes.len(), parts.edges.len()));
        for number in up_to_past_the_last(&parts) {
            assert_node(&table, &parts, number);
            assert_edge(&table, &parts, number);
        }
        assert_eq!(table.into_bytes(), bytes);
    }
}

fn assert_node(table: &Lent, parts: &Parts, number: u8) {
    let node = table.node(number);
    assert_eq!(node, table.nodes().nth(number.into()));
    assert_eq!(node.is_some(), usize::from(number) < parts.nodes.len());
    if let Some(node) = node {
        let [kind, owner, ..] = parts.nodes[usize::from(number)];
        assert_eq!(node.id(), number);
        assert_eq!(node.home(), if [INPUT_PIN, OUTPUT_PIN].contains(&kind) { owner } else { number });
        let edges = |field: usize| numbers(&parts.edges, |edge| edge[field] == number);
        assert!(node.outgoing().map(|edge| edge.id()).eq(edges(1)), "{node:?}, {parts:?}");
        assert!(node.incoming().map(|edge| edge.id()).eq(edges(2)), "{node:?}, {parts:?}");
        let pins = |kind: u8| numbers(&parts.nodes, |node| node[..2] == [kind, number]);
        assert!(node.input_pins().map(|pin| pin.id()).eq(pins(INPUT_PIN)), "{node:?}, {parts:?}");
        assert!(node.output_pins().map(|pin| pin.id()).eq(pins(OUTPUT_PIN)), "{node:?}, {parts:?}");
    }
}

fn assert_edge(table: &Lent, parts: &Parts, number: u8) {
    let edge = table.edge(number);
    assert_eq!(edge, table.edges().nth(number.into()));
    assert_eq!(edge.is_some(), usize::from(number) < parts.edges.len());
    if let Some(edge) = edge {
        let [kind, source, ..] = parts.edges[usize::from(number)];
        assert_eq!(edge.id(), number);
        assert_eq!(edge.is_counted(), kind == CONTROL && [INITIAL, ACTION].contains(&parts.nodes[usize::from(source)][0]));
    }
}

// ---- the builder

/// Draws the node again, by its kind's own name.
fn drawn_by_name(draw: &mut Builder, node: &Node) -> NodeId {
    let (upper, action) = (node.upper(), node.home());
    match node.kind() {
        Kind::Initial => draw.initial(),
        Kind::Action => draw.action(),
        Kind::InputPin => draw.input_pin(action, node.lower()..=upper),
        Kind::OutputPin => draw.output_pin(action, upper),
        Kind::CentralBuffer => draw.central_buffer(upper),
        Kind::IncomingParameter => draw.incoming_parameter(upper),
        Kind::OutgoingParameter => draw.outgoing_parameter(upper),
        Kind::Decision => draw.decision(),
        Kind::Merge => draw.merge(),
        Kind::Fork => draw.fork(),
        Kind::Join => draw.join(),
        Kind::FlowFinal => draw.flow_final(),
        Kind::ActivityFinal => draw.activity_final(),
    }
}

/// Draws the edge again, by its kind's own name.
fn edge_by_name(draw: &mut Builder, edge: &Edge) -> keshmirun::EdgeId {
    let (source, target) = (edge.source().id(), edge.target().id());
    match (edge.kind(), edge.is_guarded()) {
        (EdgeKind::Control, false) => draw.control(source, target),
        (EdgeKind::Control, true) => draw.guarded_control(source, target),
        (EdgeKind::Object, false) => draw.object(source, target),
        (EdgeKind::Object, true) => draw.guarded_object(source, target),
    }
}

/// By their names and by their fields, and the edges of the one beside the nodes of the other.
#[test]
fn tables_drawn_again() {
    let mut rng = Rng::new(202);
    for number in 0..3_000 {
        let bytes = if number % 8 == 0 { larger_table(&mut rng) } else { random::table(&mut rng) };
        let table = Table::new(&bytes[..]).unwrap();
        let (mut by_name, mut by_fields) = (Builder::new(), Builder::new());
        for edge in table.edges() {
            assert_eq!(edge_by_name(&mut by_name, &edge), edge.id());
            assert_eq!(by_fields.edge(edge.kind(), edge.source().id(), edge.target().id(), edge.is_guarded()), edge.id());
        }
        for node in table.nodes() {
            assert_eq!(by_name.next_node(), node.id());
            assert_eq!(drawn_by_name(&mut by_name, &node), node.id());
            assert_eq!(by_fields.node(node.kind(), node.owner(), node.lower()..=node.upper()), node.id());
        }
        assert_eq!(by_name.table().unwrap().as_bytes(), bytes);
        assert_eq!(by_fields.table().unwrap().as_bytes(), bytes);
    }
}

/// A buffer, finals, and object edges from the buffer to a final: more than a table may have, more than a byte can count, and more than a length can say.
#[test]
fn too_many_nodes_or_edges() {
    let counts = [0, 1, 2, 119, 120, 121, 199, 200, 201, 254, 255, 256, 257, 300, 20_000];
    for (nodes, edges) in counts.iter().flat_map(|nodes| counts.map(|edges| (*nodes, edges))) {
        let mut draw = Builder::new();
        let numbers: Vec<NodeId> = (0..nodes).map(|number| if number == 0 { draw.central_buffer(1) } else { draw.flow_final() }).collect();
        assert!((0..).zip(&numbers).all(|(number, node)| node.index() == std::cmp::min(number, 255)));
        (0..edges).for_each(|number| assert_eq!(draw.object(0, 1).index(), std::cmp::min(number, 255)));
        let expected = match (nodes, edges) {
            _ if nodes == 0 || nodes > MOST_NODES || edges > MOST_EDGES => Err(Refusal { number: 1, place: 0 }),
            (1, 1..) => Err(Refusal { number: 3, place: 0 }), // there is no final
            _ => Ok((nodes, edges)),
        };
        assert_eq!(draw.table().map(|table| (table.nodes().len(), table.edges().len())), expected, "{nodes} nodes, {edges} edges");
    }
}

// ---- markings and sheets

#[test]
fn contents_of_markings() {
    let (mut rng, mut points, mut ended) = (Rng::new(203), Mixed::new(), 0);
    for _ in 0..4_000 {
        let Event { table, marking: bytes, .. } = points.next(&mut rng);
        let (table, parts) = (Table::new(&table[..]).unwrap(), Parts::of(&table).unwrap());
        let marking = Marking::new(&table, &bytes).unwrap();
        let contents = table.contents(&marking).unwrap();
        assert_eq!(rewritten::marking(&contents, marking.has_ended()), bytes);
        assert_each_holding(&contents, &parts);
        up_to_past_the_last(&parts).for_each(|number| assert_found(&contents, number));
        ended += usize::from(marking.has_ended());
    }
    assert!(ended >= 20, "{ended}");
}

/// Each node has what its kind holds, and just the edges that have tokens are counted.
fn assert_each_holding(contents: &Contents, parts: &Parts) {
    for ((number, [kind, ..]), (node, holding)) in (0..).zip(&parts.nodes).zip(contents.nodes()) {
        assert_eq!(node.id(), number);
        match *kind {
            ACTION => assert!(matches!(holding, Holding::Running(_))),
            INPUT_PIN..=OUTGOING_PARAMETER => assert!(matches!(holding, Holding::Stock(_))),
            _ => assert!(matches!(holding, Holding::Nothing)),
        }
    }
    assert_eq!(contents.nodes().count(), parts.nodes.len());
    let has_tokens = |[kind, source, ..]: &[u8; 4]| *kind == CONTROL && [INITIAL, ACTION].contains(&parts.nodes[usize::from(*source)][0]);
    assert!(contents.edges().map(|(edge, _)| edge.id()).eq(numbers(&parts.edges, has_tokens)));
}

/// What is asked of a number is what is listed for it, and nothing for one that isn't listed.
fn assert_found(contents: &Contents, number: u8) {
    let listed = contents.nodes().find(|(node, _)| node.id() == number).map_or(Holding::Nothing, |(_, holding)| holding);
    assert_eq!(contents.of(number), listed);
    assert_eq!(contents.is_running(number), listed == Holding::Running(true));
    match listed {
        Holding::Stock(values) => assert!(contents.values(number).eq(values)),
        _ => assert_eq!(contents.values(number).len(), 0),
    }
    let tokens = contents.edges().find(|(edge, _)| edge.id() == number).map_or(0, |(_, tokens)| tokens);
    assert_eq!(contents.tokens(number), tokens);
}

/// What the engine writes is taken for a sheet, and has just the ends that stand there.
#[test]
fn ends_of_sheets() {
    let (mut rng, mut points, mut ends) = (Rng::new(204), Mixed::new(), 0);
    for _ in 0..12_000 {
        let Event { table, marking, guards, bounds, .. } = points.next(&mut rng);
        let mut room = [0; Room::SHEET];
        if let Ok(length) = keshmirun::sheet(&table, &marking, Terms::new(&guards).with_bounds(&bounds), &mut room) {
            let table = Table::new(&table[..]).unwrap();
            let sheet = Sheet::new(&table, &room[..length]).unwrap();
            assert_eq!(rewritten::sheet(&sheet), room[..length]);
            let parts = Parts::of(table.as_bytes()).unwrap();
            sheet.ends().for_each(|end| assert_can_be_of(&parts, &end));
            let found: Vec<u8> = (0..=255).filter_map(|number| sheet.end(number)).map(|end| end.id().into()).collect();
            assert!((0..).take(sheet.ends().len()).eq(found));
            ends += sheet.ends().len();
        }
    }
    assert!(ends >= 20_000, "{ends}");
}

// ---- operations

/// What is answered in so much room, and what then stands there.
fn within(room: usize, call: impl FnOnce(&mut [u8]) -> Bytes) -> (Bytes, Vec<u8>) {
    let mut out = vec![0xa5; room];
    let answer = call(&mut out);
    (answer, out)
}

/// A point of an event by types, and as the bytes that it was made of.
struct Point<'a> {
    table: Lent<'a>,
    marking: Marking<&'a [u8]>,
    terms: Terms<'a>,
    as_slices: (&'a [u8], &'a [u8], Terms<'a>),
}

impl Point<'_> {
    /// The slice call answers what the typed one answers in bytes of its own and, in room to spare, exact, one short and any, in room that is lent.
    fn assert_same(
        rng: &mut Rng,
        sliced: impl Fn(&mut [u8]) -> Result<usize, Refusal>,
        lent: impl Fn(&mut [u8]) -> Bytes,
        owned: Bytes,
    ) -> Result<usize, Refusal> {
        let sliced = |out: &mut [u8]| sliced(out).map(|length| out[..length].to_vec());
        assert_eq!(within(Room::MARKING, sliced), within(Room::MARKING, &lent));
        assert_eq!(within(Room::MARKING, sliced).0, owned);
        let exact = owned.as_ref().map_or(0, Vec::len);
        for room in [exact, exact.saturating_sub(1), rng.below(200)] {
            assert_eq!(within(room, sliced), within(room, &lent));
        }
        owned.map(|bytes| bytes.len())
    }

    fn start(&self, rng: &mut Rng) -> Result<usize, Refusal> {
        let (Point { table, .. }, lists) = (self, values(rng, self.table.as_bytes()));
        let values = Values::new(&lists);
        Point::assert_same(
            rng,
            |out| keshmirun::start(self.as_slices.0, &lists, out),
            |out| table.start_in(&values, out).map(|marking| marking.as_bytes().to_vec()),
            table.start(&values).map(Marking::into_bytes),
        )
    }

    fn finish(&self, rng: &mut Rng, action: u8) -> Result<usize, Refusal> {
        let (Point { table, marking, .. }, (table_bytes, marking_bytes, _)) = (self, self.as_slices);
        let lists = outputs(rng, table_bytes, marking_bytes, action);
        let values = Values::new(&lists[..]);
        Point::assert_same(
            rng,
            |out| keshmirun::finish(table_bytes, marking_bytes, action, &lists, out),
            |out| table.finish_in(marking, action, &values, out).map(|marking| marking.as_bytes().to_vec()),
            table.finish(marking, action, &values).map(Marking::into_bytes),
        )
    }

    fn sheet(&self, rng: &mut Rng) -> Result<usize, Refusal> {
        let (Point { table, marking, terms, .. }, (table_bytes, marking_bytes, as_slices)) = (self, self.as_slices);
        Point::assert_same(
            rng,
            |out| keshmirun::sheet(table_bytes, marking_bytes, as_slices, out),
            |out| table.sheet_in(marking, *terms, out).map(|sheet| sheet.as_bytes().to_vec()),
            table.sheet(marking, *terms).map(Sheet::into_bytes),
        )
    }

    fn pick(&self, node: u8) -> Result<Choice, Refusal> {
        let (Point { table, marking, terms, .. }, (table_bytes, marking_bytes, as_slices)) = (self, self.as_slices);
        let mut room = [0; Room::CHOICE];
        let sliced = keshmirun::pick(table_bytes, marking_bytes, as_slices, node, &mut room).map(|length| room[..length].to_vec());
        let picked = table.pick_for(marking, *terms, node);
        assert_eq!(picked.map(|choice| choice.as_bytes().to_vec()), sliced);
        assert!(node != NO_NODE || table.pick(marking, *terms) == picked);
        assert_eq!(table.why(marking, *terms, node), keshmirun::why(table_bytes, marking_bytes, as_slices, node));
        picked
    }

    fn step(&self, rng: &mut Rng, choice: &Choice) -> Result<usize, Refusal> {
        let (Point { table, marking, terms, .. }, (table_bytes, marking_bytes, as_slices)) = (self, self.as_slices);
        Point::assert_same(
            rng,
            |out| keshmirun::step(table_bytes, marking_bytes, as_slices, choice.as_bytes(), out),
            |out| table.step_in(marking, *terms, choice, out).map(|marking| marking.as_bytes().to_vec()),
            table.step(marking, *terms, choice).map(Marking::into_bytes),
        )
    }

    /// All operations: pick, why and finish for a few numbers, step by what is picked and by any choice.
    fn all_seven(&self, rng: &mut Rng, seen: &mut Seen) {
        seen.note(self.start(rng));
        seen.note(self.sheet(rng));
        let nodes = self.table.nodes().len();
        let mut choices = vec![Choice::none()];
        for node in [NO_NODE, rng.below(nodes + 2) as u8, rng.below(nodes) as u8] {
            let picked = self.pick(node);
            seen.note(picked.map(|choice| choice.ends().len()));
            choices.extend(picked);
            seen.note(self.finish(rng, node));
        }
        choices.extend((0..3).filter_map(|_| Choice::new(&choice(rng, 6)).ok()));
        choices.iter().for_each(|choice| seen.note(self.step(rng, choice)));
    }
}

/// On terms of bytes and, where these are good, of guards alone and of guards with bounds; one in ten with a marking of another table.
#[test]
fn all_operations() {
    let (mut rng, mut points, mut seen) = (Rng::new(205), Mixed::new(), Seen::default());
    let mut other = points.next(&mut rng);
    for number in 0..4_000 {
        let event = points.next(&mut rng);
        let Event { table, guards, bounds, .. } = &event;
        let from = if number % 10 == 0 { &other } else { &event };
        let marking = Marking::new(&Table::new(&from.table[..]).unwrap(), &from.marking[..]).unwrap();
        let table = Table::new(&table[..]).unwrap();
        let mut at = |terms, sliced| {
            let point = Point { table, marking, terms, as_slices: (&event.table, &from.marking, sliced) };
            point.all_seven(&mut rng, &mut seen);
        };
        let of_bytes = Terms::new(guards).with_bounds(bounds);
        match (Guards::new(&table, guards), Bounds::new(&table, bounds)) {
            (Ok(typed), Ok(_)) if number % 3 == 0 => at(Terms::from(&typed), Terms::new(guards)),
            (Ok(typed), Ok(bounds)) => at(typed.with(&bounds), of_bytes),
            _ => at(of_bytes, of_bytes),
        }
        other = event;
    }
    seen.assert_each(20, &[0, 5, 6, 7, 8, 9, 10, 11, 12, 13, 14, 15, 16, 18]);
}

/// Guards, by themselves and with bounds, are taken as terms.
#[test]
fn guards_as_terms() {
    let table = crate::built::small().unwrap();
    let marking = table.start(&Values::of([[7, 9]])).unwrap();
    let (mut guards, mut bounds) = (table.guards(), Bounds::none(&table));
    assert_eq!(table.sheet(&marking, &guards).unwrap().ends().len(), 2);
    bounds.set(3, 8..).unwrap();
    assert_eq!(table.sheet(&marking, guards.with(&bounds)).unwrap().ends().len(), 1);
    guards.close(2).unwrap();
    assert_eq!(table.sheet(&marking, guards.with(&bounds)).unwrap().ends().len(), 0);
    assert_eq!(table.sheet(&marking, &guards).unwrap().ends().len(), 1);
}

// ---- what is refused

/// How many were taken, and how many refused.
#[derive(Debug, Default)]
struct Judged {
    taken: usize,
    refused: usize,
}

impl Judged {
    /// The type is refused just as the engine refuses the bytes with this number; other numbers of the engine are of other things.
    fn note<T>(&mut self, typed: Result<T, Refusal>, number: u8, engine: Option<Refusal>) {
        let of_this = engine.filter(|refusal| refusal.number == number);
        assert_eq!(typed.as_ref().err(), of_this.as_ref());
        self.taken += usize::from(typed.is_ok());
        self.refused += usize::from(typed.is_err());
    }

    fn assert_each(&self, least: usize) {
        assert!(self.taken >= least && self.refused >= least, "{self:?}");
    }
}

/// These bytes, damaged ones, or another's.
fn varied(rng: &mut Rng, good: &[u8], other: &[u8]) -> Vec<u8> {
    match rng.below(8) {
        0..=2 => good.to_vec(),
        3..=5 => damaged_bytes(rng, good),
        6 => {
            let once = damaged_bytes(rng, good);
            damaged_bytes(rng, &once)
        }
        _ => other.to_vec(),
    }
}

fn refusal(answer: Answer) -> Option<Refusal> {
    match answer {
        Answer::Good(_) => None,
        Answer::Refused { number, place } => Some(Refusal { number, place }),
    }
}

/// The reading is the judge.
#[test]
fn tables_refused() {
    let (mut rng, mut judged) = (Rng::new(206), [(); 5].map(|()| Judged::default()));
    for _ in 0..20_000 {
        let good = random::table(&mut rng);
        let bytes = if rng.percent(80) { damaged(&mut rng, &good) } else { good };
        let judge = refusal(reading::check(&bytes));
        let number = judge.map_or(0, |refusal| refusal.number);
        judged[usize::from(number)].note(Table::new(&bytes), number, judge);
    }
    assert!(judged[0].taken >= 4_000 && judged[1..].iter().all(|judged| judged.refused >= 1_000), "{judged:?}");
}

/// The engine's sheet and the reading's finish of no action are the judges.
#[test]
fn markings_refused() {
    let (mut rng, mut points, mut judged) = (Rng::new(207), Mixed::new(), Judged::default());
    let mut other = points.next(&mut rng);
    for _ in 0..6_000 {
        let event = points.next(&mut rng);
        let table = Table::new(&event.table[..]).unwrap();
        for _ in 0..6 {
            let bytes = varied(&mut rng, &event.marking, &other.marking);
            let judge = keshmirun::sheet(&event.table, &bytes, Terms::from(&table.guards()), &mut []).err();
            let read = refusal(reading::finish(&event.table, &bytes, NO_NODE, &[], 0));
            assert_eq!(judge.filter(|refusal| refusal.number == 5), read.filter(|refusal| refusal.number == 5));
            judged.note(Marking::new(&table, &bytes), 5, judge);
        }
        other = event;
    }
    judged.assert_each(10_000);
}

/// Points at which the marking is live, so that terms come to be judged, and other terms.
fn live_points(seed: u64, mut judge: impl FnMut(&mut Rng, &Event, &Event)) {
    let (mut rng, mut points) = (Rng::new(seed), Mixed::new());
    let mut other = points.next(&mut rng);
    for _ in 0..6_000 {
        let event = points.next(&mut rng);
        if event.marking[3] == 0 {
            (0..6).for_each(|_| judge(&mut rng, &event, &other));
        }
        other = event;
    }
}

#[test]
fn guards_refused() {
    let mut judged = Judged::default();
    live_points(208, |rng, event, other| {
        let table = Table::new(&event.table[..]).unwrap();
        let bytes = varied(rng, &event.guards, &other.guards);
        let judge = keshmirun::sheet(&event.table, &event.marking, Terms::new(&bytes), &mut []).err();
        let guards = Guards::new(&table, &bytes);
        assert!(guards.map_or(true, |guards| guards.as_bytes() == bytes));
        judged.note(guards, 7, judge);
    });
    judged.assert_each(8_000);
}

#[test]
fn bounds_refused() {
    let mut judged = Judged::default();
    live_points(209, |rng, event, other| {
        let table = Table::new(&event.table[..]).unwrap();
        let bytes = varied(rng, &event.bounds, &other.bounds);
        let terms_guards = table.guards();
        let judge = keshmirun::sheet(&event.table, &event.marking, Terms::from(&terms_guards).with_bounds(&bytes), &mut []).err();
        let bounds = Bounds::new(&table, &bytes);
        assert!(bounds.map_or(true, |bounds| bounds.as_bytes() == bytes && rewritten::bounds(&bounds) == bytes));
        judged.note(bounds, 18, judge);
    });
    judged.assert_each(8_000);
}

/// A choice can't know how many ends there are; but for that, it knows what the engine knows.
#[test]
fn choices_refused() {
    let (mut judged, mut of_the_sheet) = (Judged::default(), 0);
    live_points(210, |rng, event, _| {
        let Event { table, marking, guards, bounds, .. } = event;
        let terms = Terms::new(guards).with_bounds(bounds);
        let mut sheet = [0; Room::SHEET];
        if keshmirun::sheet(table, marking, terms, &mut sheet).is_ok() {
            let ends = rng.between(0, 21);
            let good = choice(rng, ends);
            let bytes = varied(rng, &good, &[20, 21]);
            let judge = keshmirun::step(table, marking, terms, &bytes, &mut []).err();
            let is_over = judge.map_or(false, |refusal| refusal.number == 9) && bytes.iter().any(|end| *end >= sheet[3]);
            match Choice::new(&bytes) {
                Ok(choice) if is_over => {
                    assert_eq!(choice.as_bytes(), bytes);
                    of_the_sheet += 1;
                }
                choice => judged.note(choice, 9, judge),
            }
        }
    });
    judged.assert_each(2_000);
    assert!(of_the_sheet >= 2_000, "{of_the_sheet}");
}

// ---- another table's

/// Its marking and its sheet are refused, or are this table's too: then what they say can be rewritten, and names nodes and edges of this table.
#[test]
fn of_another_table() {
    let (mut rng, mut points, mut markings, mut sheets) = (Rng::new(211), Mixed::new(), Judged::default(), Judged::default());
    let mut other = points.next(&mut rng);
    for _ in 0..20_000 {
        let event = std::iter::repeat_with(|| points.next(&mut rng)).find(|event| event.table != other.table).expect("a further point");
        let (table, others) = (Table::new(&event.table[..]).unwrap(), Table::new(&other.table[..]).unwrap());
        let marking = Marking::new(&others, &other.marking[..]).unwrap();
        let contents = table.contents(&marking);
        assert!(contents.map_or(true, |contents| rewritten::marking(&contents, marking.has_ended()) == other.marking));
        assert_eq!(contents.err(), Marking::new(&table, &other.marking).err());
        let shown = table.sheet(&marking, &table.guards());
        markings.note(contents, 5, shown.err());
        if let Ok(sheet) = others.sheet(&marking, &others.guards()) {
            let here = Sheet::new(&table, sheet.as_bytes());
            here.iter().for_each(|here| assert_eq!(rewritten::sheet(here), sheet.as_bytes()));
            let parts = Parts::of(&event.table).unwrap();
            here.iter().flat_map(Sheet::ends).for_each(|end| assert_can_be_of(&parts, &end));
            sheets.note(here, Refusal::NOT_A_SHEET.number, here.err());
        }
        other = event;
    }
    assert!(markings.refused >= 18_000 && sheets.refused >= 8_000 && sheets.taken >= 100, "{markings:?}, {sheets:?}");
}

// ---- kinds and values

#[test]
fn kinds_by_number_and_name() {
    assert!(Kind::ALL.iter().map(|kind| kind.number()).eq(1..=13));
    assert_eq!(Kind::ALL.iter().map(|kind| kind.name()).collect::<BTreeSet<_>>().len(), 13);
    for kind in Kind::ALL {
        assert_eq!((Kind::of(kind.number()), Kind::named(kind.name())), (Some(kind), Some(kind)));
        assert_eq!(kind.to_string(), kind.name());
        let number = kind.number();
        let expected = ((3..=4).contains(&number), (3..=7).contains(&number), (8..=11).contains(&number));
        assert_eq!((kind.is_pin(), kind.is_object_node(), kind.is_control_node()), expected, "{kind}");
    }
    assert!((14..=255).chain([0]).all(|number| Kind::of(number).is_none()));
    assert!(["", "Join", "join ", "buffer"].iter().all(|name| Kind::named(name).is_none()));
    assert_eq!([EdgeKind::Control, EdgeKind::Object].map(|kind| (kind.number(), kind.to_string())), [(0, "control".into()), (1, "object".into())]);
}

/// None is cut off, and 16 is the most that the engine takes.
#[test]
fn lists_of_many_values() {
    let mut draw = Builder::new();
    let (first, second) = (draw.incoming_parameter(16), draw.incoming_parameter(16));
    let table = draw.table().unwrap();
    for count in [0, 1, 15, 16, 17, 254, 255, 256, 257, 300] {
        let list: Vec<u32> = (0..count).map(|value| value << 22 | value).collect();
        let values = Values::of([&list[..], &[7]]);
        let bytes: Vec<u8> = list.iter().flat_map(|value| value.to_be_bytes()).collect();
        assert_eq!(values.as_bytes(), [&[count.min(255) as u8][..], &bytes, &[1, 0, 0, 0, 7]].concat());
        match table.start(&values) {
            Ok(marking) => {
                let contents = table.contents(&marking).unwrap();
                assert!(count <= 16 && contents.values(first).eq(list) && contents.values(second).eq([7]));
            }
            Err(refusal) => assert!(count > 16 && refusal == (Refusal { number: 15, place: 0 }), "{count}: {refusal}"),
        }
    }
    assert_eq!(table.start(&Values::NONE).unwrap_err().number, 15);
    assert_eq!(Values::of::<[u32; 0]>([]).as_bytes(), Values::NONE.as_bytes());
}

/// Bounds that are set and cleared again, in any order, are what is then listed.
#[test]
fn bounds_set_and_cleared() {
    let mut rng = Rng::new(212);
    for _ in 0..500 {
        let bytes = random::table(&mut rng);
        let table = Table::new(&bytes[..]).unwrap();
        let mut bounds = Bounds::none(&table);
        assert_eq!(bounds.as_bytes(), NO_BOUNDS);
        let mut listed = std::collections::BTreeMap::new();
        for _ in 0..60 {
            let edge = rng.below(table.edges().len() + 2) as u8;
            let (low, high) = (rng.below(9) as u32, rng.below(9) as u32);
            let is_object = table.edge(edge).map_or(false, |edge| edge.kind() == EdgeKind::Object);
            if rng.percent(30) {
                bounds.clear(edge);
                listed.remove(&edge);
            } else if bounds.set(edge, low..=high).is_ok() {
                assert!(is_object && low <= high);
                listed.insert(edge, low..=high);
            } else {
                assert!(!is_object || low > high);
            }
            let entries: Vec<_> = listed.iter().map(|(edge, values)| (*edge, values.clone())).collect();
            assert_eq!(bounds.as_bytes(), keshmirun::bounds_list(&entries));
            assert_eq!(bounds.of(edge), listed.get(&edge).cloned());
            assert_eq!(Bounds::new(&table, bounds.as_bytes()), Ok(bounds));
        }
    }
}
