//! `make` where nothing is installed but a shell: its help, and what it says where the Rattle kit isn't there. It runs in a folder of its own with
//! nothing else on its PATH, so that nothing could be proved, removed or built.

use std::collections::BTreeSet;
use std::env;
use std::fs;
use std::path::{Path, PathBuf};
use std::process::{Command, Output};

/// A folder of this name with the repository's Makefile and tools, and a folder for the PATH that has make and bash. All are copies: `rt ci` refuses a
/// checkout with links in it.
fn laid_out(name: &str) -> PathBuf {
    let (repository, folder) = (Path::new(env!("CARGO_MANIFEST_DIR")).join(".."), Path::new(env!("CARGO_TARGET_TMPDIR")).join("make").join(name));
    if folder.exists() {
        fs::remove_dir_all(&folder).expect("an earlier run's");
    }
    for part in ["path", "tools"] {
        fs::create_dir_all(folder.join(part)).expect("a folder");
    }
    fs::copy(repository.join("Makefile"), folder.join("Makefile")).expect("a copy");
    for tool in fs::read_dir(repository.join("tools")).expect("tools") {
        let tool = tool.expect("a tool");
        fs::copy(tool.path(), folder.join("tools").join(tool.file_name())).expect("a copy");
    }
    for program in ["make", "bash"] {
        fs::copy(found(program), folder.join("path").join(program)).expect("a copy");
    }
    folder
}

/// Where a program stands on the PATH.
fn found(program: &str) -> PathBuf {
    let path = env::var_os("PATH").expect("a PATH");
    env::split_paths(&path).map(|folder| folder.join(program)).find(|file| file.is_file()).unwrap_or_else(|| panic!("no {program} on the PATH"))
}

/// Runs make there. What a make around this test hands down is not for it.
fn make(folder: &Path, arguments: &[&str]) -> Output {
    let mut make = Command::new(folder.join("path/make"));
    for variable in ["MAKEFLAGS", "MFLAGS", "MAKELEVEL"] {
        make.env_remove(variable);
    }
    make.args(arguments).current_dir(folder).env("PATH", folder.join("path")).env("TMPDIR", folder).output().expect("make")
}

/// The targets that the Makefile has for its users.
fn targets() -> Vec<String> {
    let makefile = fs::read_to_string(Path::new(env!("CARGO_MANIFEST_DIR")).join("../Makefile")).expect("Makefile");
    let phony = makefile.lines().find_map(|line| line.strip_prefix(".PHONY: ")).expect("the targets");
    phony.split(' ').filter(|target| *target != "kit").map(String::from).collect()
}

/// The help describes each target, and says where outputs are and how long the long ones take.
#[test]
fn help() {
    let ended = make(&laid_out("help"), &["help"]);
    assert!(ended.status.success() && ended.stderr.is_empty(), "{ended:?}");
    let said = String::from_utf8_lossy(&ended.stdout);
    let described = said.lines().filter_map(|line| line.strip_prefix("make ")).map(|line| match line.split(' ').next() {
        Some("") | None => "all",
        Some(target) => target,
    });
    assert_eq!(described.collect::<BTreeSet<_>>(), targets().iter().map(String::as_str).collect());
    assert_eq!(said.matches(" minutes on two cores").count(), 2);
    for place in ["target/archive", "target/log", "target/definitions", "rust/target/doc/keshmirun/index.html", "rust/target/release/desk"] {
        assert!(said.contains(place), "{place}");
    }
}

/// What proves says in two sentences what to do; what only builds needs no kit.
#[test]
fn without_the_kit() {
    let folder = laid_out("without_the_kit");
    let said = "The proofs need the Rattle kit: put its command rt on the PATH. An app needs only the archives, which `make` writes to \
                target/archive where the kit is: with these in target/archive here, or in the folder that KESHMIRUN_ARCHIVE names, \
                `tools/cargo build` and `tools/cargo test -- --skip program::` run without it.\n";
    for target in ["", "all", "sheet", "test", "bench", "definitions"] {
        let arguments: Vec<&str> = target.split_whitespace().collect();
        let ended = make(&folder, &arguments);
        let stderr = String::from_utf8_lossy(&ended.stderr);
        assert!(!ended.status.success() && ended.stdout.is_empty(), "{ended:?}");
        assert!(stderr.starts_with(said), "{stderr}");
        assert_eq!(stderr.lines().count(), 2, "make's own line follows: {stderr}");
    }
    for target in ["doc", "desk"] {
        let ended = make(&folder, &["--dry-run", target]);
        assert!(ended.status.success() && String::from_utf8_lossy(&ended.stdout).starts_with("tools/cargo "), "{ended:?}");
    }
}
