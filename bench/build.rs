//! Compiles the C interpreters to a static library.

use std::path::Path;
use std::process::Command;

fn main() {
    let out = std::env::var("OUT_DIR").expect("cargo names a folder");
    let archive = Path::new(&out).join("libinterpreters.a");
    // Handlers at the start of a line of the cache: where they stand would
    // otherwise move the times by chance.
    let flags = [
        "-O3",
        "-falign-functions=64",
        "-std=gnu11",
        "-Wall",
        "-fPIC",
    ];
    let mut join = Command::new("ar");
    join.arg("crs").arg(&archive);
    for name in ["plain", "threaded"] {
        let source = format!("c/{name}.c");
        let object = Path::new(&out).join(format!("{name}.o"));
        let compile = ["-c", &source, "-o"];
        run(Command::new("cc").args(flags).args(compile).arg(&object));
        join.arg(&object);
        println!("cargo:rerun-if-changed={source}");
    }
    run(&mut join);
    println!("cargo:rustc-link-search=native={out}");
    println!("cargo:rustc-link-lib=static=interpreters");
}

fn run(command: &mut Command) {
    let status = command.status().expect("the command is there");
    assert!(status.success(), "{command:?}");
}
