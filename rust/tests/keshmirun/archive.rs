//! What an app's build says where it can't link the engine: one sentence that says what to do where there is no archive for its target, where the
//! file is no archive, is for another processor, or lacks what the crate calls. Whatever the file holds, the build script ends in such a sentence.

#[allow(dead_code)]
#[path = "../../build.rs"]
mod build;

use crate::common::programs;
use build::{judge, Fault};
use std::fs;
use std::path::{Path, PathBuf};
use std::process::Command;

const TARGETS: [&str; 2] = ["x86_64-unknown-linux-gnu", "aarch64-unknown-linux-gnu"];
const X86: u8 = 62;
const ARM: u8 = 183;
const CALLS: [&str; 7] =
    ["keshmirun_check", "keshmirun_start", "keshmirun_sheet", "keshmirun_pick", "keshmirun_why", "keshmirun_step", "keshmirun_finish"];

/// The archive that the tests are linked with.
fn linked() -> Vec<u8> {
    fs::read(programs::archive()).expect("the archive")
}

/// The number of the processor that the tests are built for.
fn own_machine() -> u8 {
    if cfg!(target_arch = "x86_64") {
        X86
    } else {
        ARM
    }
}

/// An archive with an index that has these names, and the beginning of an object for this processor.
fn small(names: &[&str], machine: u8) -> Vec<u8> {
    let mut index = vec![0, 0, 0, names.len() as u8];
    names.iter().for_each(|_| index.extend([0; 4]));
    names.iter().for_each(|name| index.extend([name.as_bytes(), &[0]].concat()));
    let object = [&b"\x7fELF\x02\x01"[..], &[0; 12], &[machine, 0]].concat();
    [b"!<arch>\n".to_vec(), member("/", &index), member("keshmirun.o/", &object)].concat()
}

fn member(name: &str, bytes: &[u8]) -> Vec<u8> {
    let header = format!("{name:16}{:32}{:<10}`\n", "", bytes.len());
    let padding = &b"\n"[..bytes.len() % 2];
    [header.as_bytes(), bytes, padding].concat()
}

/// A folder of archives in which this one is for this target.
fn folder(name: &str, target: &str, archive: &[u8]) -> PathBuf {
    let folder = Path::new(env!("CARGO_TARGET_TMPDIR")).join("archives").join(name);
    fs::create_dir_all(folder.join(target)).expect("a folder");
    fs::write(folder.join(target).join("libkeshmirun.a"), archive).expect("an archive");
    folder
}

/// What cargo says on building the crate for this target with the archives of that folder: it fails, and says this sentence, once.
fn assert_said(target: &str, archives: &Path, sentence: &str) {
    let build = Command::new(env!("CARGO"))
        .args(["check", "--offline", "--lib", "--manifest-path"])
        .arg(Path::new(env!("CARGO_MANIFEST_DIR")).join("Cargo.toml"))
        .args(["--target", target])
        .env("CARGO_TARGET_DIR", Path::new(env!("CARGO_TARGET_TMPDIR")).join("archive"))
        .env("KESHMIRUN_ARCHIVE", archives)
        .output()
        .expect("cargo");
    let said = String::from_utf8_lossy(&build.stderr);
    assert!(!build.status.success(), "{said}");
    assert_eq!(said.matches("keshmirun:").count(), 1, "{said}");
    assert!(said.contains(&format!("keshmirun: {sentence}\n")), "{said}\ninstead of: {sentence}");
}

/// The same with such a file in place of this target's archive.
fn assert_foreign(name: &str, target: &str, archive: &[u8], fault: &str) {
    let archives = folder(name, target, archive);
    let path = archives.join(target).join("libkeshmirun.a");
    let remedy = format!("remove it, and take the one that `make` in keshmirun's repository writes, target/archive/{target}/libkeshmirun.a.");
    assert_said(target, &archives, &format!("{} {fault}: {remedy}", path.display()));
}

/// One test for all, since they build in one folder.
#[test]
fn one_sentence() {
    for target in ["x86_64-unknown-linux-gnu", "aarch64-unknown-linux-gnu", "riscv64gc-unknown-linux-gnu"] {
        let sentence = format!(
            "no archive for {target} in /no/such/folder: `make` in keshmirun's repository makes those that there are, for \
             x86_64-unknown-linux-gnu and aarch64-unknown-linux-gnu."
        );
        assert_said(target, Path::new("/no/such/folder"), &sentence);
    }
    let (linked, own) = (linked(), env!("KESHMIRUN_TARGET"));
    assert_foreign("text", own, b"an archive\n", "is no archive, or not the whole of one");
    assert_foreign("cut", own, &linked[..linked.len() - 2], "is no archive, or not the whole of one");
    for (target, machine) in TARGETS.iter().zip([ARM, X86]) {
        assert_foreign("other", target, &small(&CALLS, machine), "is for another processor");
    }
    let lacks = |name: &str| format!("has no {name}, so it is another library, or older than this crate");
    let papers_names = CALLS.map(|call| &call["keshmirun_".len()..]);
    assert_foreign("papers_names", own, &small(&papers_names, own_machine()), &lacks("keshmirun_check"));
    let without_why: Vec<&str> = CALLS.iter().filter(|call| **call != "keshmirun_why").copied().collect();
    assert_foreign("older", own, &small(&without_why, own_machine()), &lacks("keshmirun_why"));
}

#[test]
fn judged() {
    let own = u16::from(own_machine());
    assert_eq!(judge(&linked(), own), Ok(()));
    assert_eq!(judge(&linked(), u16::from(X86 ^ ARM) ^ own), Err(Fault::OtherProcessor));
    assert_eq!(judge(&small(&CALLS, ARM), u16::from(ARM)), Ok(()));
    assert_eq!(judge(&small(&CALLS, X86), u16::from(X86)), Ok(()));
    for call in CALLS {
        let others: Vec<&str> = CALLS.iter().filter(|name| **name != call).copied().collect();
        assert_eq!(judge(&small(&others, X86), u16::from(X86)), Err(Fault::Lacks(call)));
    }
}

/// Without an index or with one more object, by a long name; with no object; objects in another format; links to files elsewhere; nothing at all.
#[test]
fn judged_by_members() {
    let (whole, x86) = (small(&CALLS, X86), u16::from(X86));
    let (index, object) = whole.split_at(whole.len() - 60 - 20);
    let with = |bytes: &[u8]| judge(&[&whole, &member("//", b"a_very_long_name.o/\n")[..], &member("/0", bytes)].concat(), x86);
    assert_eq!(judge(&[b"!<arch>\n", object].concat(), x86), Err(Fault::Lacks("keshmirun_check")));
    assert_eq!(with(&object[60..]), Ok(()));
    assert_eq!(with(b"BC\xc0\xde"), Err(Fault::OtherProcessor));
    assert_eq!(judge(index, x86), Err(Fault::NoArchive));
    assert_eq!(judge(b"!<thin>\n", x86), Err(Fault::NoArchive));
    assert_eq!(judge(b"", x86), Err(Fault::NoArchive));
}

/// Cut at any place, and with any byte changed that isn't code, an archive is judged to an end.
#[test]
fn whatever_the_bytes() {
    let whole = small(&CALLS, X86);
    for length in 0..whole.len() {
        assert!(judge(&whole[..length], u16::from(X86)).is_err(), "cut behind {length} bytes");
    }
    for place in 0..whole.len() {
        for byte in 0..=255 {
            let mut changed = whole.clone();
            changed[place] = byte;
            let _ = judge(&changed, u16::from(X86));
        }
    }
    let linked = linked();
    for length in 0..linked.len() {
        assert!(judge(&linked[..length], u16::from(own_machine())).is_err(), "cut behind {length} bytes");
    }
}
