//! What is printed for every example sheet, and the pages of help.

use crate::common::{desk, examples, is_stored, said, Said, ROOT};
use std::fs;

/// What a user types and sees: both outputs, one after the other, and the exit
/// status.
fn transcript(words: &[&str]) -> String {
    let said = said(words);
    let (out, err, status) = (said.out, said.err, said.status);
    format!("$ desk {}\n{out}{err}[{status}]\n\n", words.join(" "))
}

#[test]
fn every_example_sheet_in_every_way() {
    for name in examples() {
        let sheet = format!("{name}.sheet");
        let sheet = sheet.as_str();
        let mut printed = String::new();
        for format in ["text", "gcc", "json", "tsv"] {
            printed += &transcript(&["check", "--format", format, sheet]);
        }
        printed += &transcript(&["check", "--unattended", sheet]);
        for word in ["list", "fit", "run", "sure", "report"] {
            printed += &transcript(&[word, sheet]);
        }
        printed += &transcript(&["form", sheet, "1"]);
        printed += &transcript(&["fit", sheet, "1", "0"]);
        printed += &transcript(&["timeline", sheet, "--budget", "40"]);
        for view in [&[][..], &["--matrix"], &["--json"], &["--dot"]] {
            let words = [&["holders", sheet, "--budget", "40"], view].concat();
            printed += &transcript(&words);
        }
        is_stored(&format!("{name}.txt"), &printed);
    }
}

#[test]
fn holders_groups_and_differences() {
    let all: [&[&str]; 9] = [
        &["holders", "makers.sheet", "--holder", "2"],
        &["holders", "makers.sheet", "--holder", "256"],
        &["holders", "makers.sheet", "--holder", "0"],
        &["holders", "makers.sheet", "--group", "3,2,3"],
        &["holders", "makers.sheet", "--group", ""],
        &["holders", "makers.sheet", "--group", "2,3", "--dot"],
        &["diff", "clerk.sheet", "clerk.sheet"],
        &["diff", "clerk.sheet", "sure.sheet"],
        &["diff", "sure.sheet", "idle.sheet"],
    ];
    let printed: String = all.iter().map(|words| transcript(words)).collect();
    is_stored("holders-and-diff.txt", &printed);
}

#[test]
fn pages() {
    let mut printed = transcript(&["--help"]);
    for command in &desk::commands::COMMANDS {
        printed += &transcript(&[command.word, "--help"]);
        assert_eq!(
            said(&["help", command.word]).out,
            said(&[command.word, "-h"]).out
        );
    }
    printed += &transcript(&["explain"]);
    printed += &transcript(&["explain", "10"]);
    is_stored("help.txt", &printed);
}

/// README shows what is printed, and names every word.
#[test]
fn readme_shows_what_is_printed() {
    let readme = fs::read_to_string(format!("{ROOT}/README.md")).expect("README");
    let misfit = "examples/refused-10-misfit.sheet";
    let output = desk(&["check", misfit]).current_dir(ROOT).output();
    let printed: Said = output.expect("the command starts").into();
    let shown = printed.out.lines().map(|line| format!("    {line}\n"));
    assert!(
        readme.contains(&shown.collect::<String>()),
        "{}",
        printed.out
    );
    for command in &desk::commands::COMMANDS {
        assert!(
            readme.contains(&format!("`{} ", command.word)),
            "{}",
            command.word
        );
    }
}

#[test]
fn wrong_words_are_one_line_and_status_2() {
    let all: [&[&str]; 20] = [
        &[],
        &["chek"],
        &["check"],
        &["check", "-", "-"],
        &["check", "--format", "xml", "clerk.sheet"],
        &["check", "--format"],
        &["check", "--quiet=1", "clerk.sheet"],
        &["check", "--quiet", "--quiet", "clerk.sheet"],
        &["check", "--loud", "clerk.sheet"],
        &["explain", "15"],
        &["explain", "ten"],
        &["fit", "clerk.sheet", "1"],
        &["fit", "clerk.sheet", "1", "65536"],
        &["run", "clerk.sheet", "--budget", "4294967296"],
        &["run", "clerk.sheet", "--budget", "+8"],
        &["holders", "clerk.sheet", "--dot", "--svg"],
        &["holders", "clerk.sheet", "--holder", "1", "--group", "2"],
        &["holders", "clerk.sheet", "--group", "1,,2"],
        &["timeline", "clerk.sheet", "--budget", "100001"],
        &["report"],
    ];
    let mut printed = String::new();
    for words in all {
        let said = said(words);
        assert_eq!((said.out.as_str(), said.status), ("", 2), "{words:?}");
        assert_eq!(said.err.lines().count(), 1, "{words:?}: {}", said.err);
        printed += &transcript(words);
    }
    is_stored("usage.txt", &printed);
}
