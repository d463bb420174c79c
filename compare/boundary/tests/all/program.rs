//! The small program over the library, on sheets of the paper.

use crate::common::{CLERK, LOOP, MAKERS};
use std::fs;
use std::io::Write;
use std::path::Path;
use std::process::{Command, Stdio};

fn run(words: &[&str], sheet: &[u8]) -> String {
    let mut child = Command::new(env!("CARGO_BIN_EXE_boundary"))
        .args(words)
        .stdin(Stdio::piped())
        .stdout(Stdio::piped())
        .spawn()
        .expect("the program starts");
    let mut input = child.stdin.take().expect("standard input");
    input.write_all(sheet).expect("the sheet is taken");
    drop(input);
    let output = child.wait_with_output().expect("the program ends");
    String::from_utf8(output.stdout).expect("plain text")
}

/// The paper's six rows: 2 fits 3, 3 not 2; 0 fits 1, 1 not 0; 4 and 5 fit
/// neither way.
const ROWS: &[u8] = b"types=6\ntype=0,0\ntype=1,0\ntype=0,1\ndef=1,1,0\ntype=1,1\ndef=1,0,1\n\
                      type=1,1\nvar=1,0\ntype=1,1\nvar=1,1\n\
                      forms=1\nform=0,0\nmain=1\nnew=0\n";

#[test]
fn the_clerk_is_accepted() {
    assert_eq!(run(&["verdict"], CLERK), "verdict=0\nline=0\n");
}

#[test]
fn a_sheet_without_its_last_byte_is_refused_at_its_last_line() {
    let short = &CLERK[..CLERK.len() - 1];
    assert_eq!(run(&["verdict"], short), "verdict=3\nline=20\n");
    assert_eq!(run(&["fit", "0", "0"], short), "verdict=3\nline=20\n");
    assert_eq!(run(&["run", "8"], short), "verdict=3\nline=20\n");
    assert_eq!(run(&["bound"], short), "verdict=3\nline=20\n");
    assert_eq!(run(&["verdict"], b""), "verdict=3\nline=1\n");
}

#[test]
fn the_paper_s_rows_fit_as_it_says() {
    let cases = [
        ("2", "3", "fit=1\npassed=1\n"),
        ("3", "2", "fit=0,2\npassed=0\n"),
        ("0", "1", "fit=1\npassed=0\n"),
        ("1", "0", "fit=0,2\npassed=0\n"),
        ("4", "5", "fit=0,3,1\npassed=1\n"),
        ("5", "4", "fit=0,3,1\npassed=1\n"),
    ];
    for (a, b, lines) in cases {
        assert_eq!(run(&["fit", a, b], ROWS), lines, "{a} and {b}");
    }
    assert_eq!(run(&["fit", "6", "0"], ROWS), "verdict=7\nline=0\n");
}

#[test]
fn the_clerk_runs_for_its_budget() {
    let done = "outcome=0\nsteps=8\nvalue=0\nobjects=3\n";
    assert_eq!(run(&["run", "8"], CLERK), done);
    assert_eq!(run(&["run", "4294967295"], CLERK), done);
    let spent = "outcome=1\nsteps=7\nvalue=65535\nobjects=3\n";
    assert_eq!(run(&["run", "7"], CLERK), spent);
}

#[test]
fn a_budget_of_more_than_32_bits_is_not_taken() {
    for budget in ["4294967296", "-1", "many"] {
        assert_eq!(run(&["run", budget], CLERK), "", "{budget}");
    }
}

#[test]
fn the_clerk_s_holders() {
    let cases = [
        ("8", "256", "holder=256\n"),
        ("8", "1", "holder=1,1\n"),
        ("8", "2", "holder=2,1,2\n"),
        ("0", "256", "holder=256\n"),
        ("2", "2", "verdict=11\nline=0\n"),
        ("8", "0", "verdict=11\nline=0\n"),
        ("8", "257", "verdict=11\nline=0\n"),
    ];
    for (budget, holder, lines) in cases {
        let answer = run(&["authority", budget, holder], CLERK);
        assert_eq!(answer, lines, "budget {budget}, holder {holder}");
    }
    let short = &CLERK[..CLERK.len() - 1];
    assert_eq!(
        run(&["authority", "8", "256"], short),
        "verdict=3\nline=20\n"
    );
    assert_eq!(run(&["authority", "8", "-1"], CLERK), "");
}

#[test]
fn forms_of_the_clerk() {
    let cases = [
        ("0", "form=0,0\n"),
        ("1", "form=1,0\nbody=1\ncopy=1\n"),
        ("2", "form=2,1\nkeep=1\nbody=1\ncall=2,1,1\n"),
        ("3", "verdict=7\nline=0\n"),
        ("18446744073709551615", "verdict=7\nline=0\n"),
        ("18446744073709551616", ""),
        ("-1", ""),
    ];
    for (number, lines) in cases {
        assert_eq!(run(&["form", number], CLERK), lines, "form {number}");
    }
    let short = &CLERK[..CLERK.len() - 1];
    assert_eq!(run(&["form", "0"], short), "verdict=3\nline=20\n");
}

#[test]
fn the_most_steps_of_the_clerk_and_of_a_loop() {
    assert_eq!(run(&["bound"], CLERK), "bound=8\n");
    assert_eq!(run(&["bound"], LOOP), "verdict=12\nline=9\n");
    assert_eq!(run(&["bound", "8"], CLERK), "");
}

/// Two examples have the answer to this question stored beside them.
#[test]
fn the_most_steps_of_examples_are_stored() {
    let folder = Path::new(env!("CARGO_MANIFEST_DIR")).join("../../examples");
    let mut answers = Vec::new();
    for file in folder.read_dir().expect("the examples") {
        let path = file.expect("an example").path();
        if path.extension().is_some_and(|kind| kind == "bound") {
            let name = path.display().to_string();
            let stored = fs::read_to_string(&path).expect("stored lines");
            let text = fs::read(path.with_extension("sheet")).expect("a sheet");
            assert_eq!(run(&["bound"], &text), stored, "{name}");
            let second = second::bound(&text).map(|steps| format!("bound={steps}\n"));
            let second = second.unwrap_or_else(second::question_lines);
            assert_eq!(second, stored, "{name}");
            answers.push(stored);
        }
    }
    answers.sort();
    assert_eq!(answers, ["bound=36\n", "verdict=12\nline=21\n"]);
}

#[test]
fn groups_of_the_two_makers() {
    let cases: [(&[&str], &str); 6] = [
        (&["2", "3"], "group=2,3,4,5\n"),
        (&["3", "2", "3"], "group=2,3,4,5\n"),
        (&["256"], "group\n"),
        (&[], "group\n"),
        (&["2", "0"], "verdict=11\nline=0\n"),
        (&["257"], "verdict=11\nline=0\n"),
    ];
    for (holders, line) in cases {
        let words = [&["group", "100"][..], holders].concat();
        assert_eq!(run(&words, MAKERS), line, "{holders:?}");
    }
    let words = [&["group", "100"][..], &["2"; 17]].concat();
    assert_eq!(run(&words[..18], MAKERS), "group=2,4\n");
    assert_eq!(run(&words, MAKERS), "verdict=11\nline=0\n");
    for holder in ["-1", "65536", "all"] {
        assert_eq!(run(&["group", "100", holder], MAKERS), "", "{holder}");
    }
}
