//! Links the proved archive of the target that is built for. The archives stand in target/archive of the repository, or in the folder that
//! KESHMIRUN_ARCHIVE names (a relative one from here), in a folder for each target. Where the archive is missing, or isn't one that this crate can
//! call, the build ends with one sentence that says what to do; a linker would need a page for it.
//!
//! The build script of a package that depends on this one finds the folder of keshmirun.h in DEP_KESHMIRUN_INCLUDE and the archive in
//! DEP_KESHMIRUN_ARCHIVE, for C code of its own.

use std::env;
use std::fmt;
use std::fs;
use std::path::{Path, PathBuf};
use std::process::exit;

/// What this crate calls.
const CALLS: [&str; 7] =
    ["keshmirun_check", "keshmirun_start", "keshmirun_sheet", "keshmirun_pick", "keshmirun_why", "keshmirun_step", "keshmirun_finish"];

fn main() {
    let (target, archives) = (set_by_cargo("TARGET"), archives());
    let archive = archives.join(&target).join("libkeshmirun.a");
    println!("cargo:rerun-if-env-changed=KESHMIRUN_ARCHIVE");
    println!("cargo:rerun-if-changed={}", archive.display());
    let bytes = match fs::read(&archive) {
        Ok(bytes) => bytes,
        Err(_) => end(&missing(&target, &archives)),
    };
    if let Err(fault) = judge(&bytes, machine_of(&set_by_cargo("CARGO_CFG_TARGET_ARCH"))) {
        end(&foreign(&target, &archive, fault));
    }
    link(&target, &archive);
    write_pages();
}

fn set_by_cargo(variable: &str) -> String {
    env::var(variable).unwrap_or_else(|_| panic!("cargo sets {variable}"))
}

/// The crate's own folder.
fn here() -> PathBuf {
    PathBuf::from(set_by_cargo("CARGO_MANIFEST_DIR"))
}

/// The folder with a folder for each target.
fn archives() -> PathBuf {
    match env::var_os("KESHMIRUN_ARCHIVE") {
        Some(folder) if !folder.is_empty() => here().join(folder),
        _ => here().join("../target/archive"),
    }
}

fn link(target: &str, archive: &Path) {
    println!("cargo:rustc-link-search=native={}", archive.parent().unwrap_or(archive).display());
    println!("cargo:rustc-link-lib=static=keshmirun");
    // for those who depend on this package
    println!("cargo:include={}", here().join("include").display());
    println!("cargo:archive={}", archive.display());
    // for the tests that link programs of their own
    println!("cargo:rustc-env=KESHMIRUN_TARGET={target}");
    println!("cargo:rustc-env=KESHMIRUN_LINKED={}", archive.display());
}

/// Pages of the repository that the crate's documentation shows or tries. An app may have the crate alone: they then say where they are.
fn write_pages() {
    let (repository, folder) = (here().join(".."), PathBuf::from(set_by_cargo("OUT_DIR")));
    for (page, name) in [("docs/FORMATS.md", "FORMATS.md"), ("README.md", "README.md")] {
        let mut text = format!("This is {page} of Keshmirun's repository.\n");
        if repository.join("crates/keshmirun").is_dir() {
            println!("cargo:rerun-if-changed={}", repository.join(page).display());
            text = fs::read_to_string(repository.join(page)).expect(page);
        }
        fs::write(folder.join(name), text).expect("cargo's own folder");
    }
}

// ---- what a build says that can't go on

fn end(sentence: &str) -> ! {
    eprintln!("keshmirun: {sentence}");
    exit(1)
}

fn missing(target: &str, archives: &Path) -> String {
    format!(
        "no archive for {target} in {}: `make` in keshmirun's repository makes those that there are, for x86_64-unknown-linux-gnu and \
         aarch64-unknown-linux-gnu.",
        archives.display()
    )
}

fn foreign(target: &str, archive: &Path, fault: Fault) -> String {
    format!(
        "{} {fault}: remove it, and take the one that `make` in keshmirun's repository writes, target/archive/{target}/libkeshmirun.a.",
        archive.display()
    )
}

/// What is wrong with an archive.
#[derive(Debug, PartialEq, Eq)]
pub enum Fault {
    NoArchive,
    OtherProcessor,
    Lacks(&'static str),
}

impl fmt::Display for Fault {
    fn fmt(&self, f: &mut fmt::Formatter<'_>) -> fmt::Result {
        match self {
            Fault::NoArchive => write!(f, "is no archive, or not the whole of one"),
            Fault::OtherProcessor => write!(f, "is for another processor"),
            Fault::Lacks(name) => write!(f, "has no {name}, so it is another library, or older than this crate"),
        }
    }
}

// ---- the archive's bytes, which may be any

/// Whether these bytes are an archive of objects for this processor alone, with all that this crate calls.
pub fn judge(archive: &[u8], machine: u16) -> Result<(), Fault> {
    let members = members(archive).ok_or(Fault::NoArchive)?;
    let objects: Vec<&Member> = members.iter().filter(|member| member.is_object()).collect();
    if objects.is_empty() {
        return Err(Fault::NoArchive);
    }
    if objects.iter().any(|object| machine_for(object.bytes) != Some(machine)) {
        return Err(Fault::OtherProcessor);
    }
    let names = members.first().and_then(names).unwrap_or_default();
    match CALLS.iter().find(|call| !names.contains(&call.as_bytes())) {
        Some(call) => Err(Fault::Lacks(call)),
        None => Ok(()),
    }
}

struct Member<'a> {
    name: &'a [u8],
    bytes: &'a [u8],
}

impl Member<'_> {
    /// Neither an index nor the list of long names: these begin with a stroke, and a long name's own is a stroke and its place in that list.
    fn is_object(&self) -> bool {
        !matches!(self.name, [b'/', second, ..] if !second.is_ascii_digit())
    }
}

/// All members of an archive in ar's format; none if it isn't in it.
fn members(archive: &[u8]) -> Option<Vec<Member<'_>>> {
    let mut rest = archive.strip_prefix(b"!<arch>\n")?;
    let mut members = Vec::new();
    while !rest.is_empty() {
        let (member, behind) = first_member(rest)?;
        members.push(member);
        rest = behind;
    }
    Some(members)
}

/// The member in front, and what is behind it. A header of 60 bytes has the name in 16 and, from the 48th on, the length in decimal in 10. Members
/// begin at even places.
fn first_member(rest: &[u8]) -> Option<(Member<'_>, &[u8])> {
    let (header, rest) = (rest.get(..60)?, rest.get(60..)?);
    if !header.ends_with(b"`\n") {
        return None;
    }
    let length: usize = std::str::from_utf8(&header[48..58]).ok()?.trim_end().parse().ok()?;
    let bytes = rest.get(..length)?;
    Some((Member { name: &header[..16], bytes }, rest.get(length + length % 2..).unwrap_or_default()))
}

/// The names that an archive gives out, by its index, which is the first member: how many, a place of 4 bytes for each, and the names with a 0 behind
/// each.
fn names<'a>(index: &Member<'a>) -> Option<Vec<&'a [u8]>> {
    let bytes = index.bytes;
    if !index.name.starts_with(b"/ ") {
        return None;
    }
    let count = u32::from_be_bytes(bytes.get(..4)?.try_into().ok()?);
    let places = usize::try_from(count).ok()?.checked_mul(4)?;
    Some(bytes.get(4..)?.get(places..)?.split(|byte| *byte == 0).collect())
}

/// ELF's number of a processor that there are archives for; else 0, which no object has.
fn machine_of(architecture: &str) -> u16 {
    match architecture {
        "x86_64" => 62,
        "aarch64" => 183,
        _ => 0,
    }
}

/// The number of the processor that an object is for; none if it is no object in ELF of 64 bits, least byte first.
fn machine_for(object: &[u8]) -> Option<u16> {
    if !object.starts_with(b"\x7fELF\x02\x01") {
        return None;
    }
    Some(u16::from_le_bytes(object.get(18..20)?.try_into().ok()?))
}
