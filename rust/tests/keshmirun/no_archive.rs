//! What an app's build says where there is no archive for it: one sentence with the target, the command that makes archives, and the targets there are.

use std::path::Path;
use std::process::Command;

const FOLDER: &str = "/no/such/folder";

/// What cargo says on building the crate for this target with the archives of that folder.
fn said(target: &str) -> String {
    let build = Command::new(env!("CARGO"))
        .args(["check", "--offline", "--manifest-path"])
        .arg(Path::new(env!("CARGO_MANIFEST_DIR")).join("Cargo.toml"))
        .args(["--target", target])
        .env("CARGO_TARGET_DIR", Path::new(env!("CARGO_TARGET_TMPDIR")).join("no_archive"))
        .env("KESHMIRUN_ARCHIVE", FOLDER)
        .output()
        .expect("cargo");
    assert!(!build.status.success());
    String::from_utf8_lossy(&build.stderr).into_owned()
}

/// The sentence on this target.
fn sentence(target: &str) -> String {
    format!(
        "keshmirun: no archive for {target} in {FOLDER}: `make` in keshmirun's repository makes those that there are, for x86_64-unknown-linux-gnu and \
         aarch64-unknown-linux-gnu."
    )
}

#[test]
fn one_sentence() {
    for target in ["x86_64-unknown-linux-gnu", "aarch64-unknown-linux-gnu", "riscv64gc-unknown-linux-gnu"] {
        let said = said(target);
        assert!(said.contains(&sentence(target)), "{said}");
        assert_eq!(said.matches("keshmirun:").count(), 1, "{said}");
    }
}
