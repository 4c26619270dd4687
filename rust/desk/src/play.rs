//! A day played at the desk: a command a line, until the lines end.

use crate::commands;
use crate::day::Day;
use crate::show;
use keshmirun::{Guards, OwnedMarking};
use std::io::{BufRead, Write};

/// What stands on the desk, and how it stood before each command that changed it.
pub struct Play {
    day: Day,
    before: Vec<(Option<OwnedMarking>, Guards)>,
    /// Whether what is said is printed, too, so that the output is the whole conversation.
    is_echoed: bool,
}

const PROMPT: &str = "> ";

impl Play {
    pub fn new(day: Day, is_echoed: bool) -> Play {
        Play { day, before: Vec::new(), is_echoed }
    }

    /// The day as it stands at the end.
    pub fn run(mut self, lines: impl BufRead, out: &mut impl Write) -> std::io::Result<Day> {
        if !self.is_echoed {
            write!(out, "{}", self.greeting())?;
        }
        self.prompt(out)?;
        for line in lines.lines() {
            let line = line?;
            let said = line.trim();
            if self.is_echoed {
                writeln!(out, "{PROMPT}{said}")?;
            }
            if said == "quit" {
                break;
            }
            write!(out, "{}", self.answer(said))?;
            self.prompt(out)?;
        }
        Ok(self.day)
    }

    fn greeting(&self) -> String {
        let how = String::from("`help` lists what can be said, `back` takes the last back, `quit` ends.\n");
        how + &show::sheet(&self.day).unwrap_or_else(|trouble| format!("{trouble}\n"))
    }

    fn prompt(&self, out: &mut impl Write) -> std::io::Result<()> {
        if !self.is_echoed {
            write!(out, "{PROMPT}")?;
        }
        out.flush()
    }

    fn answer(&mut self, said: &str) -> String {
        if said.is_empty() {
            return String::new();
        }
        if said == "back" {
            return self.back();
        }
        let before = (self.day.marking.clone(), self.day.guards);
        match commands::run(&mut self.day, said) {
            Ok(text) => {
                if before != (self.day.marking.clone(), self.day.guards) {
                    self.before.push(before);
                }
                text
            }
            Err(trouble) => format!("{}\n", trouble.to_string().trim_end()),
        }
    }

    fn back(&mut self) -> String {
        match self.before.pop() {
            Some((marking, guards)) => {
                (self.day.marking, self.day.guards) = (marking, guards);
                show::sheet(&self.day).unwrap_or_else(|trouble| format!("{trouble}\n"))
            }
            None => String::from("there is nothing to take back\n"),
        }
    }
}
