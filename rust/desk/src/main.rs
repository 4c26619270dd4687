//! The desk: an organiser's drawing, written as text, made into a table, drawn, asked and played. It stands over the crate `keshmirun` and needs nothing else,
//! but Graphviz where a page is drawn.

mod advice;
mod commands;
mod day;
mod dot;
mod drawing;
mod files;
mod notes;
mod page;
mod play;
mod read;
mod show;
mod trouble;
mod words;

use files::Files;
use play::Play;
use std::env::args;
use std::fs::File;
use std::io::{stdin, stdout, BufReader, Write};
use std::process::exit;
use trouble::Trouble;

const USAGE: &str = "desk: draws a tournament's day, and plays it

  desk make FILE             makes the table of a description: writes NAME.table, NAME.names and NAME.bounds beside it
  desk play FILE [SCRIPT]    plays the day, a command a line, from the keyboard or from a file; keeps it in NAME.marking and NAME.guards
  desk dot FILE              prints the diagram for Graphviz, with what it holds now
  desk page FILE             writes NAME.html, the diagram and the sheet for a browser (Graphviz draws it)
  desk COMMAND FILE ..       one command of the day, which is kept in NAME.marking and NAME.guards:
";

fn main() {
    let said: Vec<String> = args().skip(1).collect();
    let words: Vec<&str> = said.iter().map(String::as_str).collect();
    let ended = match words[..] {
        [] | ["help" | "--help" | "-h", ..] => print(&format!("{USAGE}\n{}", commands::help())),
        [command, file, ref rest @ ..] => run(command, &Files::new(file), rest),
        [command] => Err(Trouble::new(format!("`desk {command}` needs the file of a description: `desk {command} FILE`; `desk help` says more"))),
    };
    if let Err(trouble) = ended {
        eprintln!("desk: {}", trouble.to_string().trim_end());
        exit(1);
    }
}

fn run(command: &str, files: &Files, rest: &[&str]) -> Result<(), Trouble> {
    match command {
        "make" => make(files),
        "dot" => print(&dot::dot(&files.day()?)?),
        "page" => page(files),
        "play" => play(files, rest.first().copied()),
        _ => one_command(command, files, rest),
    }
}

/// A reader that stops listening, as `head` does, is none of our trouble.
fn print(text: &str) -> Result<(), Trouble> {
    let _ = stdout().write_all(text.as_bytes());
    Ok(())
}

fn make(files: &Files) -> Result<(), Trouble> {
    let day = files.new_day()?;
    files.write_drawing(&day)?;
    let (nodes, edges) = (day.drawing.table.nodes().len(), day.drawing.table.edges().len());
    print(&format!("{}: {}, {}\n", files.beside("table").display(), counted(nodes, "node"), counted(edges, "edge")))?;
    notes::notes(&day.drawing).iter().try_for_each(|note| print(&format!("note: {note}\n")))
}

fn counted(count: usize, what: &str) -> String {
    format!("{count} {what}{}", if count == 1 { "" } else { "s" })
}

fn page(files: &Files) -> Result<(), Trouble> {
    let page = page::page(&files.day()?, &files.name())?;
    files.write("html", page.as_bytes())?;
    print(&format!("{}\n", files.beside("html").display()))
}

fn play(files: &Files, script: Option<&str>) -> Result<(), Trouble> {
    let unread = |error: std::io::Error| Trouble::new(format!("what is said can't be read: {error}"));
    let day = match script {
        Some(script) => {
            let lines = File::open(script).map_err(|error| Trouble::new(format!("{script} can't be read: {error}")))?;
            Play::new(files.day()?, true).run(BufReader::new(lines), &mut stdout())
        }
        None => Play::new(files.day()?, false).run(stdin().lock(), &mut stdout()),
    };
    files.write_day(&day.map_err(unread)?)
}

/// One command, as `play` has them, on the day in the files. A new day begins whatever stands there.
fn one_command(command: &str, files: &Files, rest: &[&str]) -> Result<(), Trouble> {
    let mut day = if command == "start" { files.new_day()? } else { files.day()? };
    let text = commands::run(&mut day, &format!("{command} {}", rest.join(" ")))?;
    files.write_day(&day)?;
    print(&text)
}
