//! The crate without `std` and without an allocator, as firmware has it, and
//! its buffers on the heap where there is one.

use std::path::Path;
use std::process::Command;

const ROOT: &str = concat!(env!("CARGO_MANIFEST_DIR"), "/..");
const FOLDER: &str = env!("CARGO_TARGET_TMPDIR");

/// Compiles with the flags of a program that has no `std`: a panic ends it, and
/// what `core` has for unwinding is left out by the whole program's pass.
fn compile(words: &[&str], source: &str) {
    let status = Command::new("rustc")
        .args(["--edition", "2021", "-O", "-C", "panic=abort"])
        .args(["-D", "warnings", "--out-dir", FOLDER])
        .args(words)
        .arg(format!("{ROOT}/{source}"))
        .env("CARGO_PKG_VERSION", lexondar::VERSION)
        .status()
        .expect("rustc is there");
    assert!(status.success(), "{source} does not compile");
}

#[test]
fn a_program_without_std_and_allocator_links_and_gets_its_answer() {
    let crate_words = ["--crate-name", "lexondar", "--crate-type", "rlib"];
    compile(&crate_words, "wrapper/src/lib.rs");
    let built = format!("lexondar={FOLDER}/liblexondar.rlib");
    let archive = format!("native={ROOT}/target/staticlib");
    let mut words = vec!["-C", "lto", "--extern", &built, "-L", &archive];
    words.extend(["-l", "static=lexondar", "-C", "link-arg=-lc"]);
    compile(&words, "examples/rust/bare.rs");
    let program = Path::new(FOLDER).join("bare");
    let status = Command::new(&program).status().expect("it starts");
    assert!(status.success(), "{status:?}");
    let symbols = Command::new("nm").arg(&program).output().expect("nm");
    let symbols = String::from_utf8_lossy(&symbols.stdout);
    assert!(symbols.contains("lexondar_verdict"), "{symbols}");
    assert!(!symbols.contains("alloc"), "{symbols}");
}

/// A buffer that is made on the stack first would not fit into this thread's.
#[cfg(feature = "alloc")]
#[test]
fn a_boxed_buffer_never_stands_on_the_stack() {
    let small = std::thread::Builder::new().stack_size(48 * 1024);
    let thread = small.spawn(|| {
        let sheet = include_bytes!("../../../examples/clerk.sheet");
        let mut work = lexondar::Work::boxed();
        let mut room = lexondar::Holders::boxed();
        let given = lexondar::report(sheet, 10_000, &mut work, &mut room);
        given.map(|(run, holders)| (run.steps, holders.count()))
    });
    let given = thread.expect("it starts").join().expect("it ends");
    assert_eq!(given, Ok((8, 3)));
}
