//! What the programs in C over the library share: how they are compiled, and
//! the file of sheets that they take.

use crate::compiler::ROOT;
use std::path::{Path, PathBuf};
use std::process::Command;

/// A program of these files of c/, linked with the library and named like the
/// first.
pub fn compiled(files: &[&str], flags: &[&str]) -> PathBuf {
    let paths = files
        .iter()
        .map(|name| format!("{}/c/{name}.c", env!("CARGO_MANIFEST_DIR")));
    linked(files[0], paths, flags)
}

/// A program of these sources, linked with the library.
pub fn linked(name: &str, paths: impl IntoIterator<Item = String>, flags: &[&str]) -> PathBuf {
    let program = in_scratch(name);
    let status = Command::new("cc")
        .args(["-std=c99", "-Wall", "-Wextra", "-Werror"])
        .args(flags)
        .arg(format!("-I{ROOT}/include"))
        .args(paths)
        .arg(format!("{ROOT}/target/staticlib/liblexondar.a"))
        .arg("-o")
        .arg(&program)
        .status()
        .expect("cc is there");
    assert!(status.success(), "{name} does not compile");
    program
}

/// Sheets in one file of this name, each after its length in four bytes.
pub fn stored(name: &str, sheets: &[Vec<u8>]) -> PathBuf {
    let mut bytes = Vec::new();
    for text in sheets {
        bytes.extend((text.len() as u32).to_le_bytes());
        bytes.extend(text);
    }
    let path = in_scratch(name);
    std::fs::write(&path, bytes).expect("the sheets are written");
    path
}

fn in_scratch(name: &str) -> PathBuf {
    Path::new(env!("CARGO_TARGET_TMPDIR")).join(name)
}
