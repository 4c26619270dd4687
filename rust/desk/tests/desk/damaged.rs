//! Text and files that were damaged: the desk says what is wrong, in a line that begins with its name, and never falls over.

use crate::common::Folder;

const TEXT: &str =
    "# A day\nentrants: incoming parameter, up to 8\nseating: decision\nseat 1: buffer, up to 1\ngame: action\n  first: input pin, 1\n\
                    \nentrants => seating\nseating => seat 1 [closed, 6 or more]\nseat 1 => game.first\n";

/// Numbers that are always the same ones.
struct Numbers(u64);

impl Numbers {
    fn below(&mut self, end: usize) -> usize {
        self.0 = self.0.wrapping_mul(6_364_136_223_846_793_005).wrapping_add(1_442_695_040_888_963_407);
        (self.0 >> 33) as usize % end
    }
}

/// The bytes with a few of them changed, left out or put in.
fn damaged(numbers: &mut Numbers, bytes: &[u8]) -> Vec<u8> {
    let marks = b" :,.[]=->#\n\t019xyz\xc3\xa9\xff\0";
    let mut bytes = bytes.to_vec();
    for _ in 0..1 + numbers.below(3) {
        let (at, mark) = (numbers.below(bytes.len().max(1)), marks[numbers.below(marks.len())]);
        match numbers.below(4) {
            0 => bytes.insert(at.min(bytes.len()), mark),
            1 if at < bytes.len() => {
                bytes.remove(at);
            }
            2 => bytes.truncate(at),
            _ => bytes.iter_mut().skip(at).take(1).for_each(|byte| *byte = mark),
        }
    }
    bytes
}

#[track_caller]
fn assert_told(folder: &Folder, command: &str, rest: &str, bytes: &[u8]) -> bool {
    let said = folder.desk(command, rest);
    let is_told = said.is_good && said.err.is_empty() || !said.is_good && said.err.starts_with("desk: ") && !said.err.contains("panicked");
    assert!(is_told, "{said:?}, {:?}", String::from_utf8_lossy(bytes));
    said.is_good
}

#[test]
fn text() {
    let (folder, mut numbers, mut good) = (Folder::with("damaged_text", TEXT), Numbers(7), 0);
    for _ in 0..400 {
        let bytes = damaged(&mut numbers, TEXT.as_bytes());
        folder.write("day.txt", &bytes);
        good += usize::from(assert_told(&folder, "make", "", &bytes));
    }
    assert!((5..380).contains(&good), "{good}");
}

#[test]
fn files() {
    let (folder, mut numbers, mut good) = (Folder::with("damaged_files", TEXT), Numbers(9), 0);
    folder.told("start", "entrants = 7 8");
    let (marking, guards) = (folder.read("day.marking"), folder.read("day.guards"));
    for _ in 0..150 {
        let (bytes, others) = (damaged(&mut numbers, &marking), damaged(&mut numbers, &guards));
        let is_guards = numbers.below(2) == 0;
        folder.write("day.marking", if is_guards { &marking } else { &bytes });
        folder.write("day.guards", if is_guards { &others } else { &guards });
        good += usize::from(assert_told(&folder, "show", "", &bytes));
    }
    assert!((5..145).contains(&good), "{good}");
}

/// Whatever is said at the desk.
#[test]
fn commands() {
    let (folder, mut numbers) = (Folder::with("damaged_commands", TEXT), Numbers(11));
    let good = [
        "start entrants = 7 8",
        "take",
        "take 0",
        "take for seat 1",
        "finish game: x = 1",
        "open seating => seat 1",
        "close 1",
        "why game",
        "pick",
        "back",
    ];
    let mut script = Vec::new();
    for _ in 0..2_000 {
        let said = good[numbers.below(good.len())].as_bytes();
        let said = if numbers.below(3) == 0 { said.to_vec() } else { damaged(&mut numbers, said) };
        script.extend(String::from_utf8_lossy(&said).bytes().filter(|byte| *byte != b'\n'));
        script.push(b'\n');
    }
    folder.write("script", &script);
    assert!(assert_told(&folder, "play", "script", &script));
}
