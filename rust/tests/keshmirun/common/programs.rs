//! C programs built over the archive by a C compiler, and run.

use std::env;
use std::path::{Path, PathBuf};
use std::process::Command;

/// The archive that the tests are linked with.
pub fn archive() -> PathBuf {
    PathBuf::from(env!("KESHMIRUN_LINKED"))
}

/// Compiles a C file that stands beside the tests to an object file.
pub fn compiled(source: &str) -> PathBuf {
    let here = Path::new(env!("CARGO_MANIFEST_DIR"));
    let object = in_folder(&format!("{source}.o"));
    let mut compiler = compiler();
    compiler.args(["-std=c99", "-Wall", "-Wextra", "-Werror", "-pedantic", "-c", "-I"]);
    compiler.arg(here.join("include")).arg(here.join("tests/keshmirun").join(source)).arg("-o").arg(&object);
    assert!(compiler.status().expect("a C compiler, named by CC or cc").success(), "{source}");
    object
}

/// Links these files in this order to a program of this name, and runs it: its exit status.
pub fn ran(name: &str, files: &[PathBuf]) -> Option<i32> {
    runner(&linked(name, files)).status().expect("the program").code()
}

/// The same: what it prints.
pub fn printed(name: &str, files: &[PathBuf]) -> String {
    let ran = runner(&linked(name, files)).output().expect("the program");
    assert!(ran.status.success(), "{ran:?}");
    String::from_utf8(ran.stdout).expect("text")
}

fn linked(name: &str, files: &[PathBuf]) -> PathBuf {
    let program = in_folder(name);
    let linked = compiler().args(files).arg("-o").arg(&program).status().expect("a C compiler, named by CC or cc");
    assert!(linked.success(), "{name}");
    program
}

/// cargo's folder for what tests write; built and run are the work of one test each, so names don't meet.
fn in_folder(name: &str) -> PathBuf {
    Path::new(env!("CARGO_TARGET_TMPDIR")).join(name)
}

/// The C compiler that CC names, or cc, with the flags that CFLAGS has.
fn compiler() -> Command {
    let mut compiler = Command::new(env::var("CC").unwrap_or_else(|_| String::from("cc")));
    compiler.args(env::var("CFLAGS").unwrap_or_default().split_whitespace());
    compiler
}

/// What runs a program of the archive's processor: the program itself, or cargo's runner where that is an emulator.
fn runner(program: &Path) -> Command {
    let target = env!("KESHMIRUN_TARGET").replace('-', "_").to_uppercase();
    match env::var(format!("CARGO_TARGET_{target}_RUNNER")) {
        Ok(runner) => {
            let mut command = Command::new(runner);
            command.arg(program);
            command
        }
        Err(_) => Command::new(program),
    }
}
