//! The example in C, linked as a terminal's firmware links the library.

use crate::c_driver::linked;
use crate::compiler::ROOT;
use lexondar::Reason;
use std::path::Path;
use std::process::{Command, Stdio};

/// What the example says on standard error, of the lines that it prints.
fn words(printed: &[u8]) -> String {
    let printed = String::from_utf8_lossy(printed);
    let number = printed
        .lines()
        .find_map(|line| line.strip_prefix("verdict="));
    let number: u32 = number
        .and_then(|number| number.parse().ok())
        .expect("a verdict");
    match Reason::try_from(number) {
        Ok(reason) => format!("{}: {reason}\n", reason.word()),
        Err(_) => String::new(),
    }
}

#[test]
fn the_example_in_c_prints_the_stored_lines_of_every_example() {
    let source = format!("{ROOT}/examples/c/holders.c");
    let program = linked("holders", [source], &["-pedantic", "-O2"]);
    let mut count = 0;
    for file in Path::new(ROOT)
        .join("examples")
        .read_dir()
        .expect("the examples")
    {
        let path = file.expect("an example").path();
        if path.extension().is_some_and(|kind| kind == "sheet") {
            let sheet = std::fs::File::open(&path).expect("a sheet");
            let output = Command::new(&program)
                .stdin(Stdio::from(sheet))
                .output()
                .expect("the example runs");
            let stored = std::fs::read(path.with_extension("printed")).expect("stored lines");
            assert!(output.stdout == stored, "{}", path.display());
            let words = words(&stored);
            assert_eq!(String::from_utf8_lossy(&output.stderr), words);
            count += 1;
        }
    }
    assert_eq!(count, 18);
}
