//! The example program, as cargo built it beside the tests.

use std::io::Write;
use std::path::PathBuf;
use std::process::{Command, Stdio};

fn program() -> PathBuf {
    let mut path = std::env::current_exe().expect("this test");
    path.pop();
    path.pop();
    path.join("examples/holders")
}

fn printed(sheet: &[u8]) -> String {
    let mut child = Command::new(program())
        .stdin(Stdio::piped())
        .stdout(Stdio::piped())
        .spawn()
        .expect("the example starts");
    let mut input = child.stdin.take().expect("standard input");
    input.write_all(sheet).expect("the sheet is taken");
    drop(input);
    let output = child.wait_with_output().expect("the example ends");
    String::from_utf8(output.stdout).expect("plain text")
}

#[test]
fn the_example_tells_what_every_holder_holds() {
    let lines = "done after 8 steps: 0\nmain holds []\nobject 1 holds [1]\n\
                 object 2 holds [1, 2]\n";
    let clerk = include_bytes!("../../../examples/clerk.sheet");
    assert_eq!(printed(clerk), lines);
}

#[test]
fn the_example_tells_why_a_sheet_is_refused() {
    let lines = "refusal 8 (mixed pure) at line 13: \
                 a pure row's form has a field or keeps a resource\n";
    let pure = include_bytes!("../../../examples/refused-8-pure.sheet");
    assert_eq!(printed(pure), lines);
}
