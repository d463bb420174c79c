//! At a terminal: progress and colours, and neither where they are not wanted.

use crate::common::{folder, said, word, ROOT};
use std::fs;
use std::process::{Command, Stdio};

/// What a user sees who types this at a terminal. `script` gives the command a
/// terminal of its own.
fn seen(words: &str, variables: &[(&str, &str)]) -> String {
    let output = Command::new("script")
        .args(["-qec", words, "/dev/null"])
        .env_remove("NO_COLOR")
        .env("TERM", "xterm")
        .envs(variables.iter().copied())
        .stdin(Stdio::null())
        .output();
    let output = output.expect("script is there");
    String::from_utf8(output.stdout).expect("plain text")
}

/// A folder with 300 sheets, and the words that check it.
fn many(name: &str) -> String {
    let folder = folder(name);
    for index in 0..300 {
        let sheet = generator::sheet(3, index);
        fs::write(folder.join(format!("{index}.sheet")), sheet).expect("a sheet");
    }
    format!("{} check {}", env!("CARGO_BIN_EXE_desk"), word(&folder))
}

#[test]
fn many_sheets_show_progress_and_then_the_counts() {
    let seen = seen(&many("progress"), &[]);
    assert!(
        seen.contains("\rchecking 0 of 300, 0 refused\x1b[K"),
        "{seen}"
    );
    // The line is taken away before anything else is printed.
    let last = seen.lines().last().expect("the counts");
    assert!(last.contains("300 sheets: "), "{last}");
    for line in seen.lines().filter(|line| line.contains("checking ")) {
        let (_, after) = line.rsplit_once("checking ").expect("progress");
        assert!(after.contains("\r\x1b[K"), "{line:?}");
    }
}

#[test]
fn one_sheet_or_quiet_shows_none() {
    let desk = env!("CARGO_BIN_EXE_desk");
    let clerk = format!("{desk} check {ROOT}/examples/clerk.sheet");
    assert!(!seen(&clerk, &[]).contains("checking"));
    let quiet = many("quiet") + " --quiet";
    assert!(!seen(&quiet, &[]).contains("checking"));
    assert!(!seen(&quiet, &[]).contains("300 sheets"));
}

#[test]
fn colours_at_a_terminal_alone_and_never_with_no_color() {
    let desk = env!("CARGO_BIN_EXE_desk");
    let sheet = format!("{ROOT}/examples/refused-10-misfit.sheet");
    let words = format!("{desk} check {sheet}");
    assert!(seen(&words, &[]).contains("\x1b[1;31mrefusal 10 (misfit)"));
    for variable in [("NO_COLOR", "1"), ("TERM", "dumb")] {
        assert!(!seen(&words, &[variable]).contains('\x1b'), "{variable:?}");
    }
    // An empty value asks for nothing.
    assert!(seen(&words, &[("NO_COLOR", "")]).contains('\x1b'));
    assert!(!said(&["check", &sheet]).out.contains('\x1b'));
}

/// What is redirected has no colours and no progress in it, whatever the other
/// output is.
#[test]
fn redirected_output_is_plain() {
    let folder = folder("redirected");
    let kept = folder.join("kept.txt");
    let words = format!("{} >{}", many("redirected-sheets"), word(&kept));
    let seen = seen(&words, &[]);
    assert!(seen.contains("checking 0 of 300"), "{seen}");
    let kept = fs::read_to_string(kept).expect("what was kept");
    assert!(
        !kept.contains('\x1b') && !kept.contains("checking"),
        "{kept}"
    );
    assert!(kept.lines().count() >= 300);
}
