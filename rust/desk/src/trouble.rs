//! What is wrong with what was asked for, in words for whoever asked: the line if there is one, what is wrong, and what to change.

use std::fmt;

/// Something that can't be done, and what to change so that it can.
#[derive(Clone, Debug, PartialEq, Eq)]
pub struct Trouble {
    line: Option<usize>,
    text: String,
}

impl Trouble {
    /// Of no line of a file.
    pub fn new(text: impl Into<String>) -> Trouble {
        Trouble { line: None, text: text.into() }
    }

    /// Of this line, from 1.
    pub fn at(line: usize, text: impl Into<String>) -> Trouble {
        Trouble { line: Some(line), text: text.into() }
    }

    /// As it is said of this file.
    pub fn in_file(&self, file: &str) -> String {
        match self.line {
            Some(line) => format!("{file}:{line}: {}", self.text),
            None => format!("{file}: {}", self.text),
        }
    }
}

impl fmt::Display for Trouble {
    fn fmt(&self, f: &mut fmt::Formatter<'_>) -> fmt::Result {
        match self.line {
            Some(line) => write!(f, "line {line}: {}", self.text),
            None => f.write_str(&self.text),
        }
    }
}

impl std::error::Error for Trouble {}
