//! A folder for a test, and the program run in it.

use std::fs;
use std::path::{Path, PathBuf};
use std::process::Command;

/// A folder of one test's own, empty at first.
pub struct Folder {
    path: PathBuf,
}

/// What the program printed, and whether it ended well.
#[derive(Debug, PartialEq, Eq)]
pub struct Said {
    pub is_good: bool,
    pub out: String,
    pub err: String,
}

impl Folder {
    pub fn new(name: &str) -> Folder {
        let path = Path::new(env!("CARGO_TARGET_TMPDIR")).join(name);
        let _ = fs::remove_dir_all(&path);
        fs::create_dir_all(&path).expect("a folder");
        Folder { path }
    }

    /// With a description in it.
    pub fn with(name: &str, description: &str) -> Folder {
        let folder = Folder::new(name);
        folder.write("day.txt", description.as_bytes());
        folder
    }

    pub fn write(&self, file: &str, bytes: &[u8]) {
        fs::write(self.path.join(file), bytes).expect("a file written");
    }

    pub fn read(&self, file: &str) -> Vec<u8> {
        fs::read(self.path.join(file)).expect("a file read")
    }

    pub fn has(&self, file: &str) -> bool {
        self.path.join(file).exists()
    }

    /// `desk COMMAND day.txt REST`.
    pub fn desk(&self, command: &str, rest: &str) -> Said {
        self.run(&[&[command, "day.txt"][..], &rest.split_whitespace().collect::<Vec<_>>()].concat())
    }

    pub fn run(&self, words: &[&str]) -> Said {
        let ran = Command::new(env!("CARGO_BIN_EXE_desk")).args(words).current_dir(&self.path).output().expect("the desk");
        let text = |bytes: Vec<u8>| String::from_utf8(bytes).expect("text");
        Said { is_good: ran.status.success(), out: text(ran.stdout), err: text(ran.stderr) }
    }

    /// What a command that ends well prints.
    #[track_caller]
    pub fn told(&self, command: &str, rest: &str) -> String {
        let said = self.desk(command, rest);
        assert!(said.is_good && said.err.is_empty(), "{said:?}");
        said.out
    }

    /// What is said of one that doesn't: on standard error, and nothing else.
    #[track_caller]
    pub fn refused(&self, command: &str, rest: &str) -> String {
        let said = self.desk(command, rest);
        assert!(!said.is_good && said.out.is_empty(), "{said:?}");
        said.err
    }
}
