//! The C and the C++ compiler, called on a source that a test makes.

use std::io::Write;
use std::path::{Path, PathBuf};
use std::process::{Command, Stdio};

pub const ROOT: &str = concat!(env!("CARGO_MANIFEST_DIR"), "/../..");
pub const CPP: &str = "c++";

/// A compiler that reads a source in its language from standard input.
fn compiler(name: &str) -> Command {
    let mut command = Command::new(name);
    let language = if name == CPP { "c++" } else { "c" };
    command
        .args(["-x", language, "-Wall", "-Wextra", "-Werror"])
        .arg(format!("-I{ROOT}/include"))
        .stdin(Stdio::piped())
        .stdout(Stdio::piped())
        .stderr(Stdio::piped());
    command
}

/// Hands the source to the compiler; an error is what it said.
fn compile(mut command: Command, source: &str) -> Result<(), String> {
    let mut child = command.spawn().expect("the compiler is there");
    let mut input = child.stdin.take().expect("standard input");
    input.write_all(source.as_bytes()).expect("it is taken");
    drop(input);
    let output = child.wait_with_output().expect("it ends");
    match output.status.success() {
        true => Ok(()),
        false => Err(String::from_utf8_lossy(&output.stderr).into_owned()),
    }
}

/// Whether a source compiles without a warning.
pub fn check(name: &str, words: &[&str], source: &str) -> Result<(), String> {
    let mut command = compiler(name);
    command.args(["-c", "-o", "/dev/null"]).args(words).arg("-");
    compile(command, source)
}

/// What a program prints that is linked with the library.
pub fn printed(name: &str, program: &str, source: &str) -> String {
    let path: PathBuf = Path::new(env!("CARGO_TARGET_TMPDIR")).join(program);
    let mut command = compiler(name);
    command.args(["-", "-o"]).arg(&path);
    command.args(["-x", "none"]);
    command.arg(format!("{ROOT}/target/staticlib/liblexondar.a"));
    if let Err(said) = compile(command, source) {
        panic!("{program} does not compile: {said}");
    }
    let output = Command::new(path).output().expect("it runs");
    assert!(output.status.success(), "{program}: {:?}", output.status);
    String::from_utf8(output.stdout).expect("plain text")
}
