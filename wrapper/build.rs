//! Links liblexondar.a from the folder that LEXONDAR_LIB_DIR names, or else
//! from where `make` writes it.

use std::env;
use std::path::{Path, PathBuf};

const VARIABLE: &str = "LEXONDAR_LIB_DIR";

fn main() {
    println!("cargo::rerun-if-env-changed={VARIABLE}");
    let folder = env::var_os(VARIABLE).map_or_else(built, PathBuf::from);
    let archive = folder.join("liblexondar.a");
    println!("cargo::rerun-if-changed={}", archive.display());
    match fault(&archive) {
        Some(fault) => println!("cargo::error={fault}"),
        None => {
            println!("cargo::rustc-link-search=native={}", folder.display());
            println!("cargo::rustc-link-lib=static=lexondar");
        }
    }
}

/// Where the archive is built, beside this crate.
fn built() -> PathBuf {
    Path::new(env!("CARGO_MANIFEST_DIR")).join("../target/staticlib")
}

/// What to do where there is no archive to link.
fn fault(archive: &Path) -> Option<String> {
    if archive.is_relative() {
        Some(format!("{VARIABLE} must be an absolute path"))
    } else if !archive.is_file() {
        Some(format!(
            "{} is not there: `make` builds it, \
             and {VARIABLE} names the folder of one that is installed",
            archive.display()
        ))
    } else {
        None
    }
}
