//! A tournament's day, from the first entrant to the standings: what is offered, what the engine picks, and what comes of it, as a head judge would see it.
//!
//!     cargo run --example day

#[path = "events/built.rs"]
pub mod built;

use built::Day;
use keshmirun::{Choice, Guards, Holding, OwnedMarking, OwnedSheet, Refusal, Values};

fn main() -> Result<(), Box<dyn std::error::Error>> {
    print!("{}", play(&[40, 17, 23, 8, 31])?);
    Ok(())
}

/// Plays the day with these players until it has ended or nothing more can happen, and tells what was seen.
pub fn play(entrants: &[u32]) -> Result<String, Refusal> {
    let day = built::day()?;
    let marking = day.table.start(&Values::of([entrants]))?;
    let mut guards = day.table.guards();
    guards.close(day.to_reserve)?; // the reserve is for those who come late
    let mut judge = Judge { day, marking, guards, told: Vec::new() };
    while !judge.marking.has_ended() && (judge.take()? || judge.finish_one()?) {}
    judge.tell_standings()?;
    Ok(judge.told.concat())
}

struct Judge {
    day: Day,
    marking: OwnedMarking,
    guards: Guards,
    /// Line by line.
    told: Vec<String>,
}

impl Judge {
    /// Takes what the engine picks; false if that is nothing.
    fn take(&mut self) -> Result<bool, Refusal> {
        let sheet = self.day.table.sheet(&self.marking, &self.guards)?;
        let choice = self.day.table.pick(&self.marking, &self.guards)?;
        self.marking = self.day.table.step(&self.marking, &self.guards, &choice)?;
        self.tell_sheet(&sheet, &choice);
        Ok(!choice.is_empty())
    }

    /// Finishes the first action that runs; false if none does. Whoever has the lower number wins.
    fn finish_one(&mut self) -> Result<bool, Refusal> {
        let contents = self.day.table.contents(&self.marking)?;
        let action = match contents.nodes().find(|(_, holding)| *holding == Holding::Running(true)) {
            Some((action, _)) => action,
            None => return Ok(false),
        };
        let mut players: Vec<u32> = action.input_pins().flat_map(|pin| contents.values(pin.id())).collect();
        players.sort_unstable();
        let won = players.first().map_or(String::new(), |winner| format!(", player {winner} won"));
        self.told.push(format!("-- {} is over{won}\n", self.day.name(action.id())));
        let winner_and_loser = Values::of(players.iter().map(|player| [*player]));
        self.marking = self.day.table.finish(&self.marking, action.id(), &winner_and_loser)?;
        self.guards.open(self.day.to_reserve)?; // the first thing to finish is the call of the round
        Ok(true)
    }

    fn tell_sheet(&mut self, sheet: &OwnedSheet, choice: &Choice) {
        for end in sheet.ends() {
            let mark = if choice.has(end.id()) { '*' } else { ' ' };
            let player = end.value().map_or(String::new(), |player| format!("player {player}"));
            let paths: Vec<String> = end.paths().map(|path| path.to_string()).collect();
            let name = self.day.name(end.target());
            self.told.push(format!("{mark} {:2}  {name:20} {player:10} {}\n", end.id(), paths.join(" ")));
        }
        self.told.push(format!("pick {choice}\n\n"));
    }

    fn tell_standings(&mut self) -> Result<(), Refusal> {
        let contents = self.day.table.contents(&self.marking)?;
        for (place, player) in (1..).zip(contents.values(self.day.standings)) {
            self.told.push(format!("{place}. player {player}\n"));
        }
        Ok(())
    }
}
