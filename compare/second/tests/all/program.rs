//! The program: its command line, its standard input and output.

use crate::common::*;
use std::io::Write;
use std::process::{Command, Stdio};

/// Standard output and exit status for a command line and a sheet.
fn program(words: &[&str], text: &[u8]) -> (String, i32) {
    let mut child = Command::new(env!("CARGO_BIN_EXE_second"))
        .args(words)
        .stdin(Stdio::piped())
        .stdout(Stdio::piped())
        .stderr(Stdio::piped())
        .spawn()
        .expect("the program starts");
    let mut input = child.stdin.take().expect("a pipe");
    // A wrong command line ends the program before it reads the sheet.
    let _ = input.write_all(text);
    drop(input);
    let output = child.wait_with_output().expect("the program ends");
    let status = output.status.code().expect("an exit status");
    assert_eq!(status == 2, !output.stderr.is_empty());
    (
        String::from_utf8(output.stdout).expect("plain text"),
        status,
    )
}

#[test]
fn questions_and_answers() {
    let cases: [(&[&str], &str); 11] = [
        (&["verdict"], "verdict=0\nline=0\n"),
        (&["fit", "0", "1"], "fit=0,3,1\npassed=0\n"),
        (&["fit", "1", "2"], "fit=0,3,2\npassed=1\n"),
        (&["fit", "2", "1"], "fit=0,3,1\npassed=0\n"),
        (&["fit", "1", "0"], "fit=0,2\npassed=0\n"),
        (&["fit", "2", "2"], "fit=1\npassed=1\n"),
        (&["fit", "3", "0"], "verdict=7\nline=0\n"),
        (&["run", "8"], "run=0,8,0,3\n"),
        (&["run", "7"], "run=1,7,65535,3\n"),
        (&["authority", "8", "256"], "holder=256\n"),
        (&["authority", "2", "2"], "verdict=11\nline=0\n"),
    ];
    for (words, expected) in cases {
        assert_eq!(program(words, CLERK), (expected.into(), 0), "{words:?}");
    }
    assert_eq!(program(&[], CLERK), (second::print(CLERK), 0));
}

#[test]
fn groups_of_any_length() {
    let cases: [(&[&str], &str); 8] = [
        (&["group", "8"], "group\n"),
        (&["group", "0", "256"], "group\n"),
        (&["group", "8", "1"], "group=1\n"),
        (&["group", "8", "2", "256", "1", "2"], "group=1,2\n"),
        (&["group", "2", "256", "2"], "verdict=11\nline=0\n"),
        (&["group", "8", "1", "0"], "verdict=11\nline=0\n"),
        (&["group", "8", "4294967295"], "verdict=11\nline=0\n"),
        (&["group", "4294967295", "1"], "group=1\n"),
    ];
    for (words, expected) in cases {
        assert_eq!(program(words, CLERK), (expected.into(), 0), "{words:?}");
    }
    let words: Vec<&str> = ["group", "8"].into_iter().chain(["2"; 17]).collect();
    assert_eq!(program(&words[..18], CLERK), ("group=1,2\n".into(), 0));
    assert_eq!(program(&words, CLERK), ("verdict=11\nline=0\n".into(), 0));
}

#[test]
fn the_lines_of_a_form() {
    let cases: [(&[&str], &str); 6] = [
        (&["form", "0"], "form=0,0\n"),
        (&["form", "1"], "form=1,0\nbody=1\ncopy=1\n"),
        (&["form", "2"], "form=2,1\nkeep=1\nbody=1\ncall=2,1,1\n"),
        (&["form", "3"], "verdict=7\nline=0\n"),
        (&["form", "65536"], "verdict=7\nline=0\n"),
        (&["form", "4294967295"], "verdict=7\nline=0\n"),
    ];
    for (words, expected) in cases {
        assert_eq!(program(words, CLERK), (expected.into(), 0), "{words:?}");
    }
    // A misfit is not asked for, a loose end is.
    let misfit = with_line(CLERK, 19, "new=2,0");
    assert_eq!(program(&["form", "0"], &misfit), ("form=0,0\n".into(), 0));
    let loose = with_line(CLERK, 19, "new=3,1");
    let refusal = "verdict=7\nline=19\n";
    assert_eq!(program(&["form", "0"], &loose), (refusal.into(), 0));
}

#[test]
fn the_most_steps() {
    assert_eq!(program(&["bound"], CLERK), ("bound=8\n".into(), 0));
    let circular = "verdict=12\nline=9\n";
    assert_eq!(program(&["bound"], LOOP), (circular.into(), 0));
    let beyond = "verdict=13\nline=0\n";
    let text = crate::bound::steps(15);
    assert_eq!(program(&["bound"], &text), (beyond.into(), 0));
    let most = "bound=4294967295\n";
    let text = crate::bound::steps(14);
    assert_eq!(program(&["bound"], &text), (most.into(), 0));
}

#[test]
fn refusals_are_answers() {
    let long = vec![b'7'; 70_000];
    let questions: [&[&str]; 9] = [
        &[],
        &["verdict"],
        &["run", "1"],
        &["fit", "0", "0"],
        &["form", "0"],
        &["form", "4294967295"],
        &["group", "1"],
        &["group", "1", "257"],
        &["bound"],
    ];
    for words in questions {
        assert_eq!(program(words, b""), ("verdict=3\nline=1\n".into(), 0));
        assert_eq!(program(words, &long), ("verdict=2\nline=0\n".into(), 0));
    }
}

/// A misfit has a third line wherever a word asks, and only there.
#[test]
fn misfits_tell_what_is_lacking() {
    let cases = [
        (19, "new=2", "lack=1\n"),
        (19, "new=2,1,1", "lack=1\n"),
        (20, "call=2,2,1", "lack=2\n"),
        (19, "new=2,0", "lack=3,1\n"),
    ];
    for (place, line, lack) in cases {
        let text = with_line(CLERK, place, line);
        let two = format!("verdict=10\nline={place}\n");
        let three = format!("{two}{lack}");
        let questions: [&[&str]; 5] = [
            &["verdict"],
            &["run", "8"],
            &["authority", "8", "257"],
            &["group", "8", "257"],
            &["bound"],
        ];
        for words in questions {
            assert_eq!(program(words, &text), (three.clone(), 0), "{words:?}");
        }
        assert_eq!(program(&[], &text), (two, 0));
    }
    // Other refusals of typing have two.
    let text = with_line(CLERK, 20, "call=2,3,0");
    let refusal = "verdict=9\nline=20\n";
    assert_eq!(program(&["verdict"], &text), (refusal.into(), 0));
}

#[test]
fn wrong_command_lines() {
    let cases: [&[&str]; 20] = [
        &["fits", "0", "1"],
        &["fit", "0"],
        &["verdict", "0"],
        &["run"],
        &["run", "-1"],
        &["run", "+1"],
        &["run", "4294967296"],
        &["authority", "1"],
        &["run", ""],
        &["group"],
        &["group", "x"],
        &["group", "8", "1", "-1"],
        &["group", "8", "1,2"],
        &["form"],
        &["form", "0", "1"],
        &["form", "-1"],
        &["form", "4294967296"],
        &["forms", "0"],
        &["bound", "8"],
        &["bounds"],
    ];
    for words in cases {
        assert_eq!(program(words, CLERK), (String::new(), 2), "{words:?}");
    }
    let (help, status) = program(&["--help"], b"");
    assert!(help.contains("run=OUTCOME,STEPS,VALUE,OBJECTS") && status == 0);
    assert!(help.contains("group BUDGET HOLDER.."));
    assert!(help.contains("second form F "));
    assert!(help.contains("bound=STEPS"));
    assert!(help.contains("fit=0,3,N") && help.contains("lack=3,N"));
    assert!(help.contains("passed=P"));
}
