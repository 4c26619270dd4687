//! What a judge says at the desk, a line at a time: `start`, `show`, `take` and so on, with names as they are drawn.

use crate::day::{Day, Lists};
use crate::show;
use crate::trouble::Trouble;
use keshmirun::Choice;

/// What can be said, and what it does.
pub const COMMANDS: [(&str, &str); 10] = [
    ("start [PARAMETER = VALUES, ..]", "begins the day, with values in its incoming parameters"),
    ("show", "what is held, what runs, what is offered, and what the engine would take"),
    ("pick [NODE]", "what the engine would take, or would take to serve this node"),
    ("take [END ..]", "takes these ends; with none named, what the engine picks"),
    ("take for NODE", "takes what the engine picks to serve this node"),
    ("finish ACTION [: PIN = VALUES, ..]", "ends an action that runs, with values on its output pins"),
    ("open EDGE, close EDGE", "lets tokens and values go over a guarded edge, `a => b` or its number, or bars them"),
    ("why [NODE]", "what is in the way of each node that can't be served, or of this one"),
    ("standings", "what the day ends in"),
    ("help", "this list"),
];

/// The commands as a list.
pub fn help() -> String {
    COMMANDS.iter().map(|(said, does)| format!("  {said:36} {does}\n")).collect()
}

/// Does what is said, and answers what to print.
pub fn run(day: &mut Day, said: &str) -> Result<String, Trouble> {
    let said = said.trim();
    let (command, rest) = said.split_once(char::is_whitespace).unwrap_or((said, ""));
    let rest = rest.trim();
    match command {
        "start" => day.start(&lists(rest)?)?,
        "take" => take(day, rest)?,
        "finish" => finish(day, rest)?,
        "open" | "close" => {
            let edge = day.drawing.edge(rest)?;
            day.set_guard(edge, command == "open")?;
        }
        _ => return ask(day, command, rest),
    }
    // what was done stands, even where too much is then on offer to be shown
    Ok(show::sheet(day).unwrap_or_else(|trouble| format!("{trouble}\n")))
}

/// Answers what is asked, which changes nothing.
fn ask(day: &Day, command: &str, rest: &str) -> Result<String, Trouble> {
    match command {
        "show" => show::sheet(day),
        "pick" => pick(day, rest),
        "why" if rest.is_empty() => show::why_all(day),
        "why" => show::why(day, day.drawing.node(rest)?),
        "standings" => show::standings(day),
        "help" => Ok(help()),
        _ => Err(Trouble::new(format!("there is no command `{command}`; there are\n{}", help()))),
    }
}

fn pick(day: &Day, node: &str) -> Result<String, Trouble> {
    let choice = if node.is_empty() { day.pick()? } else { day.pick_for(day.drawing.node(node)?)? };
    Ok(format!("pick {choice}\n"))
}

fn take(day: &mut Day, said: &str) -> Result<(), Trouble> {
    let choice = match said.strip_prefix("for ") {
        Some(node) => day.pick_for(day.drawing.node(node.trim())?)?,
        None if said.is_empty() => day.pick()?,
        None => ends(said)?,
    };
    if choice.is_empty() {
        return Err(Trouble::new("nothing can be taken now: finish something that runs, open a guard, or ask `why`"));
    }
    day.take(&choice)
}

/// Numbers of ends, with spaces or commas between them.
fn ends(said: &str) -> Result<Choice, Trouble> {
    let wrong = |word: &str| Trouble::new(format!("`{word}` is no end: name ends by their numbers, as `take 0 2`, or a node, as `take for NODE`"));
    let numbers = words(said).map(|word| word.parse::<u8>().map_err(|_| wrong(word))).collect::<Result<Vec<u8>, Trouble>>()?;
    Choice::of(numbers).map_err(|_| Trouble::new("there is no such end: `show` lists those there are"))
}

fn words(said: &str) -> impl Iterator<Item = &str> {
    said.split([' ', ',', '\t']).filter(|word| !word.is_empty())
}

fn finish(day: &mut Day, said: &str) -> Result<(), Trouble> {
    let (action, values) = said.split_once(':').unwrap_or((said, ""));
    if action.trim().is_empty() {
        return Err(Trouble::new("which action? Write `finish ACTION`, and what it brings behind a colon: `finish match A: winner = 8`"));
    }
    let action = day.drawing.node(action.trim())?;
    day.finish(action, &lists(values)?)
}

/// `NAME = 1 2 3, NAME = 4`: a list of values for each name. Commas may stand between values, too.
fn lists(said: &str) -> Result<Lists, Trouble> {
    let mut lists = Lists::new();
    for part in said.split(',').filter(|part| !part.trim().is_empty()) {
        match (part.split_once('='), lists.last_mut()) {
            (Some((name, values)), _) => lists.push((name.split_whitespace().collect::<Vec<_>>().join(" "), numbers(values)?)),
            (None, Some((_, before))) => before.extend(numbers(part)?),
            (None, None) => return Err(Trouble::new(format!("`{}` names no values: write `NAME = 1 2 3, NAME = 4`", part.trim()))),
        }
    }
    Ok(lists)
}

fn numbers(said: &str) -> Result<Vec<u32>, Trouble> {
    let wrong = |word: &str| Trouble::new(format!("`{word}` is no value: values are whole numbers up to {}, with spaces between them", u32::MAX));
    words(said).map(|word| word.parse().map_err(|_| wrong(word))).collect()
}
