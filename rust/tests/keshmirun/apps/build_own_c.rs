//! Compiles own.c with the header that the crate hands on, for the target that is built for.

use std::env;
use std::path::Path;
use std::process::Command;

fn main() {
    let set = |name: &str| env::var(name).expect(name);
    assert!(Path::new(&set("DEP_KESHMIRUN_ARCHIVE")).ends_with("libkeshmirun.a"));
    let object = set("OUT_DIR") + "/own.o";
    let mut compiler = Command::new(env::var("CC").unwrap_or_else(|_| String::from("cc")));
    compiler.args(["-Wall", "-Wextra", "-Werror", "-c", "own.c", "-I", &set("DEP_KESHMIRUN_INCLUDE"), "-o", &object]);
    assert!(compiler.status().expect("a C compiler, named by CC or cc").success());
    println!("cargo:rustc-link-arg={object}");
}
