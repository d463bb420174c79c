//! Programs of the machine that are started, and files for them.

use std::path::{Path, PathBuf};
use std::process::{Command, Output, Stdio};

/// Whether a command can be started; says which package has it if not.
pub fn is_there(command: &str, version: &str, package: &str) -> bool {
    let mut asked = Command::new(command);
    asked
        .arg(version)
        .stdout(Stdio::null())
        .stderr(Stdio::null());
    let found = asked.status().is_ok();
    if !found {
        println!(
            "`{command}` is missing (Debian's package `{package}`): its columns are left out."
        );
        println!();
    }
    found
}

/// What a command prints. It must end well.
pub fn output(command: &mut Command) -> Output {
    let output = command.output();
    let output = output.unwrap_or_else(|error| panic!("{command:?}: {error}"));
    let errors = String::from_utf8_lossy(&output.stderr);
    assert!(output.status.success(), "{command:?}: {errors}");
    output
}

/// A file of this run's own, removed when it is dropped.
pub struct Scratch(PathBuf);

impl Scratch {
    pub fn new(name: &str, content: &[u8]) -> Scratch {
        let name = format!("lexondar-{}-{name}", std::process::id());
        let path = std::env::temp_dir().join(name);
        std::fs::write(&path, content).expect("the file is written");
        Scratch(path)
    }

    pub fn path(&self) -> &Path {
        &self.0
    }
}

impl Drop for Scratch {
    fn drop(&mut self) {
        // A file that stays behind harms nobody.
        let _ = std::fs::remove_file(&self.0);
    }
}
