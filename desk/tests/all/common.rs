//! What the tests share.

use std::fs;
use std::path::{Path, PathBuf};
use std::process::{Command, Output, Stdio};

/// The repository.
pub const ROOT: &str = concat!(env!("CARGO_MANIFEST_DIR"), "/..");

/// The command, to be run among the examples. It sees no terminal.
pub fn desk(words: &[&str]) -> Command {
    let mut command = Command::new(env!("CARGO_BIN_EXE_desk"));
    command
        .args(words)
        .current_dir(Path::new(ROOT).join("examples"))
        .stdin(Stdio::null());
    command
}

/// What a command printed on each output, and its exit status.
pub struct Said {
    pub out: String,
    pub err: String,
    pub status: i32,
}

impl From<Output> for Said {
    fn from(output: Output) -> Said {
        let plain = |bytes| String::from_utf8(bytes).expect("plain text");
        Said {
            out: plain(output.stdout),
            err: plain(output.stderr),
            status: output.status.code().expect("an exit status"),
        }
    }
}

/// Runs the command among the examples.
pub fn said(words: &[&str]) -> Said {
    desk(words).output().expect("the command starts").into()
}

/// A new folder of a test's own.
pub fn folder(name: &str) -> PathBuf {
    let folder = Path::new(env!("CARGO_TARGET_TMPDIR")).join(name);
    let _ = fs::remove_dir_all(&folder);
    fs::create_dir_all(&folder).expect("a folder");
    folder
}

/// A path as a word.
pub fn word(path: &Path) -> &str {
    path.to_str().expect("plain text")
}

/// The names of the example sheets, without their ending.
pub fn examples() -> Vec<String> {
    let files = fs::read_dir(Path::new(ROOT).join("examples")).expect("the examples");
    let names = files.map(|file| file.expect("a file").file_name());
    let names = names.filter_map(|name| {
        let name = name.into_string().expect("plain text");
        name.strip_suffix(".sheet").map(String::from)
    });
    let mut names: Vec<String> = names.collect();
    names.sort();
    names
}

/// Compares with what is stored beside the tests. With `DESK_STORE` in the
/// environment it is stored anew instead, to be looked at before it is
/// committed.
pub fn is_stored(name: &str, printed: &str) {
    let path = Path::new(env!("CARGO_MANIFEST_DIR")).join("tests/stored");
    let path = path.join(name);
    if std::env::var_os("DESK_STORE").is_some() {
        fs::write(&path, printed).expect("it is stored");
    }
    let stored = fs::read_to_string(&path).unwrap_or_default();
    assert_eq!(printed, stored, "{name} is not what is stored");
}
