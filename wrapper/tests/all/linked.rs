//! The archive that the crate links: a missing one is named with the command
//! that builds it, and a variable names another folder.

use std::fs;
use std::path::{Path, PathBuf};
use std::process::{Command, Output};

const ROOT: &str = concat!(env!("CARGO_MANIFEST_DIR"), "/..");

/// A folder of this test's own.
fn folder(name: &str) -> PathBuf {
    let folder = Path::new(env!("CARGO_TARGET_TMPDIR")).join(name);
    fs::create_dir_all(&folder).expect("a folder");
    folder
}

/// Builds the crate's example, with the archive looked for in a folder.
fn build(name: &str, archive: &Path) -> Output {
    Command::new(env!("CARGO"))
        .args(["build", "--quiet", "--offline", "--example", "holders"])
        .arg("--manifest-path")
        .arg(format!("{ROOT}/wrapper/Cargo.toml"))
        .arg("--target-dir")
        .arg(folder(name))
        .env("LEXONDAR_LIB_DIR", archive)
        .output()
        .expect("cargo is there")
}

#[test]
fn a_missing_archive_is_an_error_that_names_the_command() {
    let empty = folder("no-archive");
    let given = build("unlinked", &empty);
    assert!(!given.status.success());
    let said = String::from_utf8_lossy(&given.stderr);
    let missing = format!("{} is not there", empty.join("liblexondar.a").display());
    let line = said.lines().find(|line| line.contains(&missing));
    let line = line.unwrap_or_else(|| panic!("{said}"));
    assert!(line.contains("`make` builds it"), "{line}");
    assert!(line.contains("LEXONDAR_LIB_DIR names the folder"), "{line}");
}

#[test]
fn a_relative_folder_is_an_error() {
    let given = build("relative", Path::new("lib"));
    assert!(!given.status.success());
    let said = String::from_utf8_lossy(&given.stderr);
    let wanted = "LEXONDAR_LIB_DIR must be an absolute path";
    assert!(said.contains(wanted), "{said}");
}

#[test]
fn a_variable_names_another_folder() {
    let other = folder("other");
    let built = format!("{ROOT}/target/staticlib/liblexondar.a");
    fs::copy(built, other.join("liblexondar.a")).expect("the archive");
    let given = build("linked", &other);
    let said = String::from_utf8_lossy(&given.stderr);
    assert!(given.status.success(), "{said}");
}
