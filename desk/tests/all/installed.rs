//! The command as it is installed.

use crate::common::{folder, ROOT};
use std::process::Command;

#[test]
fn an_installed_command_checks_sheets_from_any_folder() {
    let prefix = folder("prefix");
    let made = Command::new("make")
        .env_remove("MAKEFLAGS")
        .args(["-s", "-C", ROOT, "install-desk"])
        .arg(format!("PREFIX={}", prefix.display()))
        .output();
    let made = made.expect("make is there");
    let words = String::from_utf8_lossy(&made.stderr);
    assert!(made.status.success(), "{words}");
    let output = Command::new(prefix.join("bin/desk"))
        .args(["explain", "2"])
        .current_dir(&prefix)
        .output();
    let output = output.expect("the command is there");
    assert!(output.stdout.starts_with(b"2: long sheet\n"));
}
