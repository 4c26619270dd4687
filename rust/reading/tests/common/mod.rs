//! What the tests share: kinds, hex, bounds lists, refusals, the paper's small event,
//! points of hand-made tables, sheets taken apart, rule 3 as they tell it, and the points
//! of random events.

#![allow(dead_code)]

use reading::random::{Event, Parts, Rng};
use reading::{pick, sheet, start, step, Answer, NO_BOUNDS};

// The kinds of nodes.
pub const INITIAL: u8 = 1;
pub const ACTION: u8 = 2;
pub const INPUT_PIN: u8 = 3;
pub const OUTPUT_PIN: u8 = 4;
pub const BUFFER: u8 = 5;
pub const INCOMING: u8 = 6;
pub const OUTGOING: u8 = 7;
pub const DECISION: u8 = 8;
pub const MERGE: u8 = 9;
pub const FORK: u8 = 10;
pub const JOIN: u8 = 11;
pub const FLOW_FINAL: u8 = 12;
pub const ACTIVITY_FINAL: u8 = 13;

// The kinds of edges.
pub const CONTROL: u8 = 0;
pub const OBJECT: u8 = 1;

/// The bytes written in hex; blanks don't count.
pub fn hex(text: &str) -> Vec<u8> {
    let digits: Vec<char> = text.chars().filter(|c| !c.is_whitespace()).collect();
    assert_eq!(digits.len() % 2, 0, "half a byte in {text}");
    let byte = |pair: &[char]| {
        pair.iter()
            .fold(0, |byte, c| 16 * byte + c.to_digit(16).unwrap())
    };
    digits.chunks(2).map(|pair| byte(pair) as u8).collect()
}

/// The bytes written in hex, with their 2-byte length before them.
pub fn framed(text: &str) -> Vec<u8> {
    let body = hex(text);
    let length = (body.len() as u16).to_be_bytes();
    [&length[..], &body].concat()
}

/// The bounds list of these entries: edge, low, high.
pub fn bounds(entries: &[(u8, u32, u32)]) -> Vec<u8> {
    let record = |(edge, low, high): &(u8, u32, u32)| format!("{edge:02X} {low:08X} {high:08X}");
    let records: Vec<String> = entries.iter().map(record).collect();
    framed(&format!("01 {:02X} {}", entries.len(), records.concat()))
}

/// The greatest value.
pub const MOST: u32 = 4_294_967_295;

/// Room for any reply: "A marking may now take up to 8,192 bytes".
pub const ROOM: usize = 8192;

/// A refusal.
pub fn refused(number: u8, place: u8) -> Answer {
    Answer::Refused { number, place }
}

/// The bytes of a good answer.
pub fn reply(answer: Answer) -> Vec<u8> {
    match answer {
        Answer::Good(bytes) => bytes,
        Answer::Refused { number, place } => panic!("refused {number} at {place}"),
    }
}

/// The refusal's number, 0 if there is none.
pub fn number(answer: &Answer) -> u8 {
    match answer {
        Answer::Good(_) => 0,
        Answer::Refused { number, .. } => *number,
    }
}

/// The small event's table.
pub fn small_table() -> Vec<u8> {
    hex("0033 01 07 05
         01FF0000 06FF0004 08FF0000 0BFF0000 03050101 02FF0000 05FF0002
         00000300 01010200 01020301 01020601 01030400")
}

/// The small event's marking.
pub fn small_marking() -> Vec<u8> {
    hex("000F 01 00 02 00000007 00000009 00 00 00 01")
}

/// The small event's guards.
pub fn small_guards() -> Vec<u8> {
    vec![1; 5]
}

/// A table and a marking of it, under guards that are all 1 and no bounds.
pub struct Point {
    pub table: Vec<u8>,
    pub marking: Vec<u8>,
    pub guards: Vec<u8>,
}

impl Point {
    /// The table of these parts at this marking.
    pub fn at(parts: &Parts, marking: Vec<u8>) -> Point {
        Point {
            table: parts.write(),
            marking,
            guards: vec![1; parts.edges.len()],
        }
    }

    /// The start with these values, one in each incoming parameter.
    pub fn started(parts: &Parts, values: &[u32]) -> Point {
        let list = |value: &u32| format!("01 {value:08X}");
        let lists: Vec<String> = values.iter().map(list).collect();
        let marking = reply(start(&parts.write(), &hex(&lists.concat()), ROOM));
        Point::at(parts, marking)
    }

    /// The ends, each as its value and its paths: "7 0,2,4 3,4".
    pub fn ends(&self) -> Vec<String> {
        let (table, marking) = (&self.table, &self.marking);
        let sheet = reply(sheet(table, marking, &self.guards, &NO_BOUNDS, ROOM));
        let mut rest = sheet[4..].iter().copied();
        let mut take = |number: u8| -> Vec<u8> { rest.by_ref().take(number.into()).collect() };
        let mut ends = Vec::new();
        for _ in 0..sheet[3] {
            let record = take(7);
            let mut end = match record[1] {
                1 => record[5].to_string(), // values here are of one byte
                _ => "-".to_string(),
            };
            for _ in 0..record[6] {
                let length = take(1)[0];
                let edges: Vec<String> = take(length).iter().map(|e| e.to_string()).collect();
                end = format!("{end} {}", edges.join(","));
            }
            ends.push(end);
        }
        ends
    }

    pub fn pick(&self, node: u8) -> Answer {
        let (table, marking) = (&self.table, &self.marking);
        pick(table, marking, &self.guards, &NO_BOUNDS, node, ROOM)
    }

    pub fn step(&self, choice: &[u8]) -> Answer {
        let (table, marking) = (&self.table, &self.marking);
        step(table, marking, &self.guards, &NO_BOUNDS, choice, ROOM)
    }
}

/// An end as a sheet writes it.
#[derive(Debug, PartialEq, Eq)]
pub struct End {
    /// All its bytes: last edge, flag, value, paths.
    pub record: Vec<u8>,
    /// Its value, 0 if it has none.
    pub value: u32,
    /// The edges of all its paths.
    pub edges: Vec<u8>,
}

/// The ends of a sheet.
pub fn ends_of(sheet: &[u8]) -> Vec<End> {
    let mut ends = Vec::new();
    let mut place = 4;
    while place < sheet.len() {
        let first = place;
        let mut edges = Vec::new();
        place += 7;
        for _ in 0..sheet[first + 6] {
            let next = place + 1 + usize::from(sheet[place]);
            edges.extend_from_slice(&sheet[place + 1..next]);
            place = next;
        }
        ends.push(End {
            record: sheet[first..place].to_vec(),
            value: big_endian(&sheet[first + 2..first + 6]),
            edges,
        });
    }
    ends
}

/// What a sheet, a table and a marking tell of the ends, and of rule 3 for them.
pub struct Ends {
    parts: Parts,
    /// Per node, the number of its values; for an action, whether it runs.
    held: Vec<u8>,
    /// Per end, its last edge.
    pub last_edges: Vec<u8>,
}

impl Ends {
    pub fn of(parts: &Parts, marking: &[u8], ends: &[End]) -> Ends {
        Ends {
            parts: parts.clone(),
            held: held(parts, marking),
            last_edges: ends.iter().map(|end| end.record[0]).collect(),
        }
    }

    pub fn target(&self, end: usize) -> u8 {
        self.parts.edges[usize::from(self.last_edges[end])][2]
    }

    /// The node's action if it is a pin, else itself.
    pub fn destination(&self, node: u8) -> u8 {
        match self.parts.nodes[usize::from(node)] {
            [INPUT_PIN, action, ..] => action,
            _ => node,
        }
    }

    pub fn belongs_to(&self, end: usize, node: u8) -> bool {
        let target = self.target(end);
        target == node || self.destination(target) == node
    }

    /// Whether the destination agrees that is the node or its action.
    pub fn own_rule(&self, choice: &[usize], node: u8) -> bool {
        let node = self.destination(node);
        let [kind, _, _, upper] = self.parts.nodes[usize::from(node)];
        let held = self.held[usize::from(node)];
        match kind {
            ACTION => {
                held == 0 && self.controls_agree(choice, node) && self.pins_agree(choice, node)
            }
            BUFFER | OUTGOING => held + self.taken_at(choice, node) <= upper,
            _ => true,
        }
    }

    fn controls_agree(&self, choice: &[usize], action: u8) -> bool {
        let is_taken_once = |edge: usize| {
            let is_on = |end: &&usize| usize::from(self.last_edges[**end]) == edge;
            choice.iter().filter(is_on).count() == 1
        };
        let mut edges = self.parts.edges.iter().enumerate();
        edges.all(|(edge, [kind, _, target, _])| {
            (*kind, *target) != (CONTROL, action) || is_taken_once(edge)
        })
    }

    fn pins_agree(&self, choice: &[usize], action: u8) -> bool {
        let mut pins = self.parts.nodes.iter().enumerate();
        pins.all(|(pin, [kind, owner, lower, upper])| {
            let taken = self.taken_at(choice, pin as u8);
            (*kind, *owner) != (INPUT_PIN, action) || (*lower..=*upper).contains(&taken)
        })
    }

    fn taken_at(&self, choice: &[usize], node: u8) -> u8 {
        let is_at = |end: &&usize| self.target(**end) == node;
        choice.iter().filter(is_at).count() as u8
    }
}

/// Per node, the number of its values in this marking; for an action, its running byte.
fn held(parts: &Parts, marking: &[u8]) -> Vec<u8> {
    let mut place = 4;
    let mut held = Vec::new();
    for [kind, ..] in &parts.nodes {
        let (count, bytes) = match *kind {
            ACTION => (marking[place], 1),
            INPUT_PIN..=OUTGOING => (marking[place], 1 + 4 * usize::from(marking[place])),
            _ => (0, 0),
        };
        held.push(count);
        place += bytes;
    }
    held
}

/// The number in these bytes.
pub fn big_endian(bytes: &[u8]) -> u32 {
    bytes
        .iter()
        .fold(0, |number, byte| number << 8 | u32::from(*byte))
}

/// The points of so many random events.
pub fn for_each_point(seed: u64, events: usize, mut visit: impl FnMut(&mut Rng, &Event)) {
    let mut rng = Rng::new(seed);
    for number in 0..events {
        let mut event = match number % 3 {
            0 => Event::anywhere(&mut rng),
            _ => Event::begin(&mut rng),
        };
        visit(&mut rng, &event);
        while event.go_on(&mut rng) {
            visit(&mut rng, &event);
        }
    }
}
