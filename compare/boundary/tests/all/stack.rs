//! The stack that each question takes, measured on a painted one, against what
//! the header says.

use crate::c_driver::{compiled, stored};
use crate::guarded::sheets;
use lexondar::raw::STACK;
use std::collections::BTreeMap;
use std::process::Command;

/// What the ABI lets a function use below its stack pointer.
const RED_ZONE: usize = 128;

#[test]
fn no_question_takes_more_stack_than_the_header_says() {
    // Functions are bound before the first call: binding takes stack of its own.
    let program = compiled(&["stack", "texts"], &["-O2", "-Wl,-z,now"]);
    let output = Command::new(program)
        .arg(stored("stack.sheets", &sheets()))
        .output()
        .expect("the program runs");
    assert!(output.status.success(), "{:?}", output.status);
    let lines = String::from_utf8(output.stdout).expect("plain text");
    let pairs = lines
        .lines()
        .map(|line| line.split_once(' ').expect("two words"));
    let taken = pairs.map(|(name, bytes)| (name, bytes.parse().expect("a number")));
    let mut taken: BTreeMap<&str, usize> = taken.collect();
    let deep = taken
        .remove("deep")
        .expect("the function that writes far down");
    assert!(deep > 3_000, "{deep} bytes");
    assert_eq!(taken.len(), 8, "{lines}");
    for (question, bytes) in taken {
        assert!(bytes > RED_ZONE, "{question}: {bytes} bytes");
        assert!(bytes + RED_ZONE <= STACK, "{question}: {bytes} bytes");
    }
}
