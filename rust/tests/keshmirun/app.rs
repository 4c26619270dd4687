//! Apps that depend on the crate by its path, as cargo builds them with no network: without a warning, and run. An app's workspace stands beside this
//! repository or has the crate inside, as a member or not; two of its packages may depend on the crate; it may be without the standard library, or
//! have C code of its own that calls the engine. Their sources stand in apps/.

use crate::common::programs;
use std::fs;
use std::path::{Path, PathBuf};
use std::process::Command;

/// What an app needs of the crate.
const NEEDED: [&str; 4] = ["Cargo.toml", "build.rs", "src", "include"];

/// How a package of an app that stands beside the repository names the crate.
const BESIDE: &str = "path = \"../../keshmirun/rust\"";

/// An app that is laid out in a folder of its own.
struct App {
    folder: PathBuf,
}

impl App {
    fn new(name: &str) -> App {
        let folder = Path::new(env!("CARGO_TARGET_TMPDIR")).join("app").join(name);
        if folder.exists() {
            fs::remove_dir_all(&folder).expect("an earlier run's");
        }
        App { folder }
    }

    /// In the folder app, beside the crate and the archives as they stand in this repository.
    fn beside_the_repository(name: &str, packages: &str) -> App {
        App::new(name).with_crate("keshmirun/rust").with_archives("keshmirun/target/archive").with_workspace("app", packages, "")
    }

    /// With the crate in a folder of its own, and settings that say where the archives are.
    fn around_the_crate(name: &str, excluded: &str) -> App {
        App::new(name)
            .with_crate("vendor/keshmirun")
            .with_archives("vendor/archive")
            .with_file(".cargo/config.toml", "[env]\nKESHMIRUN_ARCHIVE = { value = \"vendor/archive\", relative = true }\n")
            .with_workspace(".", "\"tablet\"", excluded)
            .with_package("tablet", "path = \"../vendor/keshmirun\"", "", "main.rs", include_str!("apps/program.rs"))
    }

    fn with_file(self, path: &str, text: &str) -> App {
        let path = self.folder.join(path);
        fs::create_dir_all(path.parent().expect("a folder")).expect("a folder");
        fs::write(path, text).expect("a file");
        self
    }

    fn with_workspace(self, folder: &str, packages: &str, excluded: &str) -> App {
        let workspace = format!("[workspace]\nresolver = \"2\"\nmembers = [{packages}]\nexclude = [{excluded}]\n");
        self.with_file(&format!("{folder}/Cargo.toml"), &workspace)
    }

    /// A package that depends on the crate, with more in its manifest behind that.
    fn with_package(self, folder: &str, keshmirun: &str, more: &str, source: &str, text: &str) -> App {
        let name = folder.rsplit('/').next().expect("a name");
        let package = format!("[package]\nname = \"{name}\"\nversion = \"0.1.0\"\nedition = \"2021\"\n");
        let manifest = format!("{package}\n[dependencies]\nkeshmirun = {{ {keshmirun} }}\n{more}");
        self.with_file(&format!("{folder}/Cargo.toml"), &manifest).with_file(&format!("{folder}/src/{source}"), text)
    }

    fn with_crate(self, folder: &str) -> App {
        NEEDED.iter().fold(self, |app, name| app.with_copy(name, &format!("{folder}/{name}")))
    }

    /// What stands beside this crate's manifest under that name.
    fn with_copy(self, name: &str, path: &str) -> App {
        copy(&Path::new(env!("CARGO_MANIFEST_DIR")).join(name), &self.folder.join(path));
        self
    }

    /// The archive that the tests are linked with, in a folder of its target.
    fn with_archives(self, folder: &str) -> App {
        copy(&programs::archive(), &self.folder.join(folder).join(env!("KESHMIRUN_TARGET")).join("libkeshmirun.a"));
        self
    }

    /// Builds all packages of the workspace in this folder, without a warning.
    fn build(&self, folder: &str) {
        let built = self.said(folder, &["build"]);
        assert!(!built.contains("warning"), "{built}");
    }

    /// What a package of that workspace prints, once all are built.
    fn printed(&self, folder: &str, package: &str) -> String {
        self.build(folder);
        self.said(folder, &["run", "--quiet", "--package", package])
    }

    /// What cargo says in this folder, and what it runs. The archives are found by what the app's files say alone.
    fn said(&self, folder: &str, command: &[&str]) -> String {
        let ended = Command::new(env!("CARGO"))
            .args(command)
            .args(["--offline", "--target", env!("KESHMIRUN_TARGET")])
            .current_dir(self.folder.join(folder))
            .env("CARGO_TARGET_DIR", self.folder.join("target"))
            .env_remove("KESHMIRUN_ARCHIVE")
            // what would only take time
            .env("CARGO_INCREMENTAL", "0")
            .env("CARGO_PROFILE_DEV_DEBUG", "0")
            .output()
            .expect("cargo");
        let said = String::from_utf8_lossy(&ended.stdout).into_owned() + &String::from_utf8_lossy(&ended.stderr);
        assert!(ended.status.success(), "{said}");
        said
    }
}

/// Copies a file, or a folder with all that is in it but what was built there.
fn copy(from: &Path, to: &Path) {
    if from.is_file() {
        fs::create_dir_all(to.parent().expect("a folder")).expect("a folder");
        fs::copy(from, to).unwrap_or_else(|error| panic!("{}: {error}", from.display()));
        return;
    }
    for entry in fs::read_dir(from).unwrap_or_else(|error| panic!("{}: {error}", from.display())) {
        let name = entry.expect("a name").file_name();
        if name != "target" {
            copy(&from.join(&name), &to.join(&name));
        }
    }
}

#[test]
fn beside() {
    let app = App::beside_the_repository("beside", "\"tablet\"").with_package("app/tablet", BESIDE, "", "main.rs", include_str!("apps/program.rs"));
    assert_eq!(app.printed("app", "tablet"), "true false\n");
}

/// The crate is a member of the app's workspace, as cargo has it of what lies in its folder, and what its tests depend on is one too. Its
/// documentation is part of the app's.
#[test]
fn inside() {
    let app = App::around_the_crate("inside", "").with_copy("reading", "vendor/keshmirun/reading");
    assert_eq!(app.printed(".", "tablet"), "true false\n");
    app.said(".", &["doc"]);
}

/// The crate is no member, so that what its tests depend on isn't needed, and `cargo test` tests the app alone.
#[test]
fn inside_and_excluded() {
    let app = App::around_the_crate("inside_and_excluded", "\"vendor\"");
    assert_eq!(app.printed(".", "tablet"), "true false\n");
}

#[test]
fn two_packages() {
    let app = App::beside_the_repository("two_packages", "\"rules\", \"tablet\"")
        .with_package("app/rules", BESIDE, "", "lib.rs", include_str!("apps/rules.rs"))
        .with_package("app/tablet", BESIDE, "rules = { path = \"../rules\" }\n", "main.rs", include_str!("apps/over_rules.rs"));
    assert_eq!(app.printed("app", "tablet"), "true false\n");
}

/// A library of the app for its C code, with none of the crate's features.
#[test]
fn no_standard_library() {
    let (keshmirun, library) = (format!("{BESIDE}, default-features = false"), "\n[lib]\ncrate-type = [\"staticlib\"]\n");
    let app = App::beside_the_repository("no_standard_library", "\"tablet\"")
        .with_file("app/.cargo/config.toml", "[profile.dev]\npanic = \"abort\"\n")
        .with_package("app/tablet", &keshmirun, library, "lib.rs", include_str!("apps/no_standard_library.rs"));
    app.build("app");
    let library = app.folder.join("target").join(env!("KESHMIRUN_TARGET")).join("debug/libtablet.a");
    assert_eq!(programs::ran("no_standard_library", &[programs::compiled("no_standard_library.c"), library]), Some(0));
}

#[test]
fn c_code_of_its_own() {
    let app = App::beside_the_repository("c_code_of_its_own", "\"tablet\"")
        .with_package("app/tablet", BESIDE, "", "main.rs", include_str!("apps/over_own_c.rs"))
        .with_file("app/tablet/build.rs", include_str!("apps/build_own_c.rs"))
        .with_file("app/tablet/own.c", include_str!("apps/own.c"));
    assert_eq!(app.printed("app", "tablet"), "false 1\n");
}
