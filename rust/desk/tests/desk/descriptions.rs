//! Descriptions: what they make, and what is said of those that make nothing: the line, the name, and what to change.

use crate::common::Folder;
use keshmirun::{EdgeKind, Kind, Table};

const GOOD: &str = "# Two seats
doors open: initial
entrants : incoming parameter, up to 8   # who came
seating: decision
seat 1: central buffer, up to 1
seat 2: buffer, up to 16
game: action
  first: input pin, 1
  second: input pin, 1 to 2
  third: input pin, up to 3
  winner: output pin, up to 1
all: outgoing parameter, up to 4
late: action
late.player: input pin, 1

doors open -> game
entrants => seating
seating => seat 1 [guarded]
seating => seat 2 [closed, 6 or more]
seat 1 => game.first [up to 5]
seat 2 => game.second [3 to 7]
seat 2 => game.third [4]
game.winner => all
seat 1 => late.player
";

#[test]
fn a_good_one() {
    let folder = Folder::with("good", GOOD);
    assert_eq!(folder.told("make", ""), "day.table: 13 nodes, 9 edges\n");
    let bytes = folder.read("day.table");
    let table = Table::new(&bytes).unwrap();
    let nodes: Vec<_> = table.nodes().map(|node| (node.kind(), node.owner().map(u8::from), node.lower(), node.upper())).collect();
    let expected = [
        (Kind::Initial, None, 0, 0),
        (Kind::IncomingParameter, None, 0, 8),
        (Kind::Decision, None, 0, 0),
        (Kind::CentralBuffer, None, 0, 1),
        (Kind::CentralBuffer, None, 0, 16),
        (Kind::Action, None, 0, 0),
        (Kind::InputPin, Some(5), 1, 1),
        (Kind::InputPin, Some(5), 1, 2),
        (Kind::InputPin, Some(5), 0, 3),
        (Kind::OutputPin, Some(5), 0, 1),
        (Kind::OutgoingParameter, None, 0, 4),
        (Kind::Action, None, 0, 0),
        (Kind::InputPin, Some(11), 1, 1),
    ];
    assert_eq!(nodes, expected);
    let edges: Vec<_> = table.edges().map(|edge| (edge.source().id().number(), edge.target().id().number(), edge.is_guarded())).collect();
    let expected =
        [(0, 5, false), (1, 2, false), (2, 3, true), (2, 4, true), (3, 6, false), (4, 7, false), (4, 8, false), (9, 10, false), (3, 12, false)];
    assert_eq!(edges, expected);
    assert!(table.edges().all(|edge| (edge.kind() == EdgeKind::Control) == (edge.id() == 0)));
    let listed = keshmirun::bounds_list(&[(3, 6..=u32::MAX), (4, 0..=5), (5, 3..=7), (6, 4..=4)]);
    assert_eq!(folder.read("day.bounds"), listed);
    let names = "doors open\nentrants\nseating\nseat 1\nseat 2\ngame\ngame.first\ngame.second\ngame.third\ngame.winner\nall\nlate\nlate.player\n";
    assert_eq!(String::from_utf8(folder.read("day.names")).unwrap(), names);
}

/// A description's last line is wrong, and this is said of it.
#[track_caller]
fn assert_said(name: &str, lines: &[&str], line: usize, said: &str) {
    let folder = Folder::with(name, &lines.join("\n"));
    for command in ["make", "show", "dot", "page", "play"] {
        assert_eq!(folder.refused(command, ""), format!("desk: day.txt:{line}: {said}\n"));
    }
    assert!(!folder.has("day.table"));
}

#[test]
fn words_that_are_none() {
    let neither = "this is neither a node nor an edge: write `name: kind`, `a -> b` for tokens or `a => b` for values, not `seat 1`";
    assert_said("neither", &["seat 1"], 1, neither);
    let kinds = "there are initial, action, input pin, output pin, central buffer, incoming parameter, outgoing parameter, decision, merge, fork, join, flow \
                 final, activity final.";
    assert_said("kind", &["", "way: decison"], 2, &format!("`decison` is no kind of node; {kinds} Did you mean `way: decision`?"));
    assert_said("odd_kind", &["way: wonderful"], 1, &format!("`wonderful` is no kind of node; {kinds}"));
    assert_said("no_name", &[": fork"], 1, "a name is missing: write `name: kind`, `a -> b` or `a => b`");
    assert_said("no_target", &["a: initial", "a ->"], 2, "a name is missing: write `name: kind`, `a -> b` or `a => b`");
    assert_said("mark", &["a, b: fork"], 1, "`a, b` has a `,` in it, which no name may have: leave it out");
    assert_said("two_arrows", &["a: initial", "a -> a => a"], 2, "there are two arrows: write one edge a line");
    assert_said("bracket", &["a: initial", "a -> a [guarded"], 2, "the bracket `[` isn't closed: end the line with `]`");
    assert_said(
        "margin",
        &["a: initial", "  p: input pin, 1"],
        2,
        "`p` stands further in, as a pin does, but no action stands above it: begin its line at the margin",
    );
}

#[test]
fn nothing_drawn() {
    for (name, text) in [("nothing", ""), ("comments", "# a day\n\n# to come\n")] {
        let said = Folder::with(name, text).refused("make", "");
        assert_eq!(said, "desk: day.txt: there is no node: draw the first with a line like `doors open: initial`\n");
    }
    assert!(Folder::new("no_file").refused("make", "").starts_with("desk: day.txt can't be read: "));
    let folder = Folder::with("written", GOOD);
    folder.told("make", "");
    assert_eq!(folder.run(&["show", "day.table"]).err, "desk: day.table is a file that the desk writes: name the description\n");
}

#[test]
fn how_many_values() {
    assert_said("none", &["a: buffer"], 1, "how many values may `a` hold? Write `a: central buffer, up to 8`");
    assert_said(
        "none_of_a_pin",
        &["a: action", "  p: input pin"],
        2,
        "how many values may `a.p` hold? Write `a.p: input pin, 1` for just one, `1 to 2` or `up to 2`",
    );
    assert_said("not_at_a_fork", &["a: fork, up to 2"], 1, "`a` holds no values, as a kind that is `fork` never does: leave `, up to 2` out");
    assert_said("a_word", &["a: buffer, up to many"], 1, "`a` can't hold `up to many`: write `up to 8`");
    assert_said("needs", &["a: buffer, 2"], 1, "`a` can't hold `2`, as only an input pin says how many it needs: write `up to 8`");
    assert_said("17", &["a: buffer, up to 17"], 1, "`a` can't hold up to 17 values, but only up to 1 to 16: write `up to 8`");
    assert_said("0", &["a: buffer, up to 0"], 1, "`a` can't hold up to 0 values, but only up to 1 to 16: write `up to 8`");
    let falling = "`a.p` needs 3 values and holds 2 at most, so its action could never begin: write `1` for just one, `1 to 2` or `up to 2`";
    assert_said("falling", &["a: action", "  p: input pin, 3 to 2"], 2, falling);
}

#[test]
fn names() {
    assert_said("twice", &["seat: fork", "seat: join"], 2, "`seat` is drawn already, in line 1: give one of them another name");
    assert_said("meant", &["seating: initial", "seeting -> seating"], 2, "there is no node `seeting`; did you mean `seating`?");
    assert_said(
        "unknown",
        &["seating: initial", "seating -> hall"],
        2,
        "there is no node `hall`: draw it with a line like `hall: action`, or mend the name",
    );
    assert_said("whose", &["p: input pin, 1"], 1, "whose pin is `p`? Write it further in, below its action, or name it `ACTION.p`");
    let no_action = "`a.p` can't be a pin of `a`, which is no action but of kind `fork`: write it below its action";
    assert_said("no_action", &["a: fork", "a.p: input pin, 1"], 2, no_action);
}

#[test]
fn brackets() {
    let forms = "says nothing that an edge can be told: write `guarded`, `closed`, `6 or more`, `up to 5`, `3 to 7` or `4`";
    assert_said("odd", &["a: buffer, up to 1", "a => a [sometimes]"], 2, &format!("`[sometimes]` {forms}"));
    assert_said("low_above", &["a: buffer, up to 1", "a => a [7 to 3]"], 2, "`[7 to 3]` lets nothing over the edge: write the lower number first");
    let tokens = "`[6 or more]` is about values, and over `->` go tokens, which have none: draw `=>`, or write `[guarded]`";
    assert_said("tokens", &["a: initial", "a -> a [6 or more]"], 2, tokens);
}

/// Each way in which an edge can't be drawn, from and to every kind of node.
#[test]
fn edges() {
    let nodes =
        ["i: initial", "a: action", "  in: input pin, 1", "  out: output pin, up to 1", "b: buffer, up to 1", "from: incoming parameter, up to 1"];
    let nodes = [&nodes[..], &["to: outgoing parameter, up to 1", "gone: flow final", "end: activity final"]].concat();
    let said = [
        ("a.in -> a", "`a.in` is an input pin, from which only its action takes: draw from an output pin of the action"),
        ("a.in => b", "`a.in` is an input pin, from which only its action takes: draw from an output pin of the action"),
        ("to => b", "`to` is an outgoing parameter, in which the day ends, so nothing leaves it: draw from a buffer before it"),
        ("gone -> a", "`gone` is a final, so nothing leaves it: draw from a node before it"),
        ("end => b", "`end` is a final, so nothing leaves it: draw from a node before it"),
        ("i => gone", "`i` is an initial node, which gives a token and no value: draw `i -> gone`"),
        (
            "i => b",
            "`i` is an initial node, which gives a token and no value, and `b` takes values, and `->` is for tokens: an action between them takes the one by \
             a pin and gives the other",
        ),
        ("a => b", "`a` is an action, which gives values by its output pins alone: draw from one of them"),
        ("b -> gone", "`b` holds values, and `->` is for tokens: draw `b => gone`"),
        ("from -> b", "`from` holds values, and `->` is for tokens: draw `from => b`"),
        ("a.out -> to", "`a.out` holds values, and `->` is for tokens: draw `a.out => to`"),
        (
            "b -> a",
            "`b` holds values, and `->` is for tokens, and `a` is an action, which takes values by its input pins alone: draw to one of them",
        ),
        ("a -> i", "`i` is an initial node, where the day begins, so nothing enters it: draw to a node behind it"),
        ("b => i", "`i` is an initial node, where the day begins, so nothing enters it: draw to a node behind it"),
        ("b => a.out", "`a.out` is an output pin, into which only its action gives: draw to an input pin of the action"),
        ("b => from", "`from` is an incoming parameter, filled when the day begins, so nothing enters it: draw to a buffer behind it"),
        ("b => a", "`a` is an action, which takes values by its input pins alone: draw to one of them"),
        (
            "a -> b",
            "`b` takes values, and `->` is for tokens, and `a` is an action, which gives values by its output pins alone: draw from one of them",
        ),
    ];
    for (number, (edge, said)) in said.iter().enumerate() {
        assert_said(&format!("edge_{number}"), &[&nodes[..], &[edge]].concat(), nodes.len() + 1, said);
    }
}

/// Each way in which a node's edges are wrong.
#[test]
fn shapes() {
    let nodes = ["i: initial", "b: buffer, up to 1", "c: buffer, up to 1", "end: flow final"];
    let of = |node: &'static str, edges: &[&'static str]| -> Vec<&'static str> { [&nodes[..], &[node], edges].concat() };
    let cases: [(&str, &[&str], &str); 16] = [
        ("x: action", &["x -> end"], "an action, has nothing to begin with: draw a `->` to it, or give it an input pin that needs 1 or more"),
        ("x: decision", &["x -> end"], "a decision, has no edge that enters it: draw one"),
        ("x: decision", &["b => x", "c => x", "x => end"], "a decision, has 2 edges that enter it and may have one: a merge before it brings several together"),
        ("x: decision", &["b => x"], "a decision, has no edge that leaves it: draw one or more"),
        ("x: fork", &["i -> x", "i -> x", "x -> end"], "a fork, has 2 edges that enter it and may have one: a merge or join before it brings several together"),
        ("x: fork", &["i -> x", "x => b"], "a fork, has both `->` and `=>` at it and may have one kind: what goes in as a token or a value goes out as such"),
        ("x: merge", &["x -> end"], "a merge, has no edge that enters it: draw one or more"),
        ("x: merge", &["i -> x"], "a merge, has no edge that leaves it: draw one"),
        ("x: merge", &["i -> x", "x -> end", "x -> end"], "a merge, has 2 edges that leave it and may have one: a decision or fork behind it parts them"),
        ("x: merge", &["i -> x", "b => x", "x => c"], "a merge, has both `->` and `=>` at it and may have one kind: what goes in as a token or a value goes out as such"),
        ("x: join", &["x -> end"], "a join, has no edge that enters it: draw one or more"),
        ("x: join", &["i -> x", "x -> end", "x -> end"], "a join, has 2 edges that leave it and may have one: a fork or decision behind it parts them"),
        ("x: join", &["b => x", "c => x", "x => end"], "a join, has values coming in by several `=>` and may have one: bring them together by a merge first, or join tokens"),
        ("x: join", &["b => x", "i -> x", "x -> end"], "a join, has a value coming in by `=>`, so it goes on by `=>`, too"),
        ("x: join", &["i -> x", "x => c"], "a join, has tokens alone coming in, so it goes on by `->`, too"),
        (
            "x: merge",
            &["i -> x", "x -> x"],
            "a merge, ends a chain of more than 15 decisions, merges, forks and joins, or stands in a circle of them: put a buffer or an action between",
        ),
    ];
    for (number, (node, edges, said)) in cases.iter().enumerate() {
        assert_said(&format!("shape_{number}"), &of(node, edges), nodes.len() + 1, &format!("`x`, {said}"));
    }
}

/// The lines of so many nodes and edges.
fn many(nodes: usize, edges: usize) -> String {
    let lines = (0..nodes).map(|node| format!("b {node}: buffer, up to 1\n"));
    lines.chain((0..edges).map(|_| String::from("b 0 => b 1\n"))).collect()
}

#[test]
fn too_many() {
    assert_eq!(Folder::with("most", &many(120, 200)).told("make", ""), "day.table: 120 nodes, 200 edges\n");
    let nodes = Folder::with("nodes", &many(300, 0)).refused("make", "");
    assert_eq!(nodes, "desk: day.txt:121: this is node 121, and a table has 120 at most: draw fewer\n");
    let edges = Folder::with("edges", &many(2, 300)).refused("make", "");
    assert_eq!(edges, "desk: day.txt:203: this is edge 201, and a table has 200 at most: draw fewer\n");
}

#[test]
fn a_pin_that_never_fills() {
    let said = |name: &str, lines: &[&str]| Folder::with(name, &lines.join("\n")).told("make", "");
    let note = "note: line 3: `game.players` needs 2 values and is fed from 1 stock; a stock offers only its oldest value at a time, so it never fills: feed it \
                from 2 stocks, one for each seat\n";
    let game = ["queue: buffer, up to 8", "game: action", "  players: input pin, 2"];
    let direct = said("direct", &[&game[..], &["queue => game.players"]].concat());
    assert_eq!(direct, format!("day.table: 3 nodes, 1 edge\n{note}"));
    let twice = said("two_ways", &[&game[..], &["queue => game.players", "queue => game.players"]].concat());
    assert_eq!(twice, format!("day.table: 3 nodes, 2 edges\n{note}"));
    let from_two = said("from_two", &[&game[..], &["other: buffer, up to 8", "queue => game.players", "other => game.players"]].concat());
    assert_eq!(from_two, "day.table: 4 nodes, 2 edges\n");
    let forked = ["both: fork", "queue => both", "both => game.players", "both => game.players"];
    assert_eq!(said("forked", &[&game[..], &forked].concat()), "day.table: 4 nodes, 3 edges\n");
}
