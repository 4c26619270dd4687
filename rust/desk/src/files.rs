//! A day in files: the description, and beside it, under its name, the bytes that any program over Keshmirun reads.
//!
//!     day.txt      the description
//!     day.table    its table               day.names    its nodes' names, a line each, by number
//!     day.bounds   its bounds list         day.guards   the guards as they are now
//!     day.marking  the marking as it is now             day.html     the page

use crate::day::Day;
use crate::drawing::Drawing;
use crate::read::read;
use crate::trouble::Trouble;
use keshmirun::{Guards, Marking};
use std::fs;
use std::io::ErrorKind;
use std::path::{Path, PathBuf};

/// A description's file, and the day that stands beside it.
pub struct Files {
    description: PathBuf,
}

impl Files {
    pub fn new(description: &str) -> Files {
        Files { description: PathBuf::from(description) }
    }

    /// The file of this ending beside the description.
    pub fn beside(&self, ending: &str) -> PathBuf {
        self.description.with_extension(ending)
    }

    /// The day's name: the file's, without its ending.
    pub fn name(&self) -> String {
        self.description.file_stem().map_or(String::from("day"), |stem| stem.to_string_lossy().into_owned())
    }

    /// The drawing of the description. What is wrong there is said with the file and the line.
    fn drawing(&self) -> Result<Drawing, Trouble> {
        let file = self.description.display().to_string();
        if self.description.extension().map_or(false, |ending| WRITTEN.iter().any(|written| ending == *written)) {
            return Err(Trouble::new(format!("{file} is a file that the desk writes: name the description")));
        }
        let text = fs::read_to_string(&self.description).map_err(|error| Trouble::new(format!("{file} can't be read: {error}")))?;
        read(&text).and_then(Drawing::of).map_err(|trouble| Trouble::new(trouble.in_file(&file)))
    }

    /// The day as the files have it; before it begins where there is no marking.
    pub fn day(&self) -> Result<Day, Trouble> {
        let mut day = Day::new(self.drawing()?);
        let of_another = |ending: &str| {
            let file = self.beside(ending).display().to_string();
            Trouble::new(format!("{file} is not of this drawing: it was cut, or the description was changed since; `desk start` begins the day anew"))
        };
        if let Some(bytes) = found(&self.beside("marking"))? {
            day.marking = Some(Marking::new(&day.drawing.table, bytes).map_err(|_| of_another("marking"))?);
            if let Some(bytes) = found(&self.beside("guards"))? {
                day.guards = Guards::new(&day.drawing.table, &bytes).map_err(|_| of_another("guards"))?;
            }
        }
        Ok(day)
    }

    /// The day before it begins, whatever the files have.
    pub fn new_day(&self) -> Result<Day, Trouble> {
        self.drawing().map(Day::new)
    }

    /// Writes what the description makes: table, names, bounds.
    pub fn write_drawing(&self, day: &Day) -> Result<(), Trouble> {
        let names: String = day.drawing.names().iter().map(|name| format!("{name}\n")).collect();
        self.write("table", day.drawing.table.as_bytes())?;
        self.write("names", names.as_bytes())?;
        self.write("bounds", day.bounds().as_bytes())
    }

    /// Writes how the day stands: guards, and last the marking.
    pub fn write_day(&self, day: &Day) -> Result<(), Trouble> {
        self.write("guards", day.guards.as_bytes())?;
        match &day.marking {
            Some(marking) => self.write("marking", marking.as_bytes()),
            None => Ok(()),
        }
    }

    /// Writes a file whole or not at all: a battery that dies on the way leaves the old one.
    pub fn write(&self, ending: &str, bytes: &[u8]) -> Result<(), Trouble> {
        let (file, new) = (self.beside(ending), self.beside(&format!("{ending}.new")));
        let written = fs::write(&new, bytes).and_then(|()| fs::rename(&new, &file));
        written.map_err(|error| Trouble::new(format!("{} can't be written: {error}", file.display())))
    }
}

const WRITTEN: [&str; 6] = ["table", "names", "bounds", "guards", "marking", "html"];

/// A file's bytes, if it is there.
fn found(file: &Path) -> Result<Option<Vec<u8>>, Trouble> {
    match fs::read(file) {
        Ok(bytes) => Ok(Some(bytes)),
        Err(error) if error.kind() == ErrorKind::NotFound => Ok(None),
        Err(error) => Err(Trouble::new(format!("{} can't be read: {error}", file.display()))),
    }
}
