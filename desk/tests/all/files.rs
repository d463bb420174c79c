//! Files that are missing, folders, standard input, closed pipes and full
//! disks; exit statuses.

use crate::common::{desk, folder, said, word, Said, ROOT};
use std::fs::{self, File};
use std::io::Write;
use std::os::unix::fs::symlink;
use std::path::Path;
use std::process::Stdio;

#[test]
fn exit_statuses() {
    let all: [(&[&str], i32); 14] = [
        (&["check", "clerk.sheet", "sure.sheet"], 0),
        (&["check", "clerk.sheet", "refused-7-slot.sheet"], 1),
        (&["check", "refused-7-slot.sheet", "nowhere.sheet"], 2),
        (&["check", "--unattended", "sure.sheet"], 0),
        (&["check", "--unattended", "circular.sheet"], 1),
        (&["sure", "circular.sheet"], 1),
        (&["run", "refused-7-slot.sheet"], 1),
        (&["run", "nowhere.sheet"], 2),
        (&["fit", "clerk.sheet", "0", "1"], 0),
        (&["fit", "clerk.sheet", "0", "9"], 1),
        (&["diff", "clerk.sheet", "refused-7-slot.sheet"], 1),
        (&["report", "clerk.sheet", "refused-7-slot.sheet"], 1),
        (&["holders", "clerk.sheet", "--holder", "0"], 1),
        (&["--version"], 0),
    ];
    for (words, status) in all {
        assert_eq!(said(words).status, status, "{words:?}");
    }
}

#[test]
fn what_can_t_be_read_is_one_line_and_the_others_are_checked() {
    let folder = folder("unread");
    symlink("loop.sheet", folder.join("loop.sheet")).expect("a link");
    fs::create_dir(folder.join("empty")).expect("a folder");
    let looped = folder.join("loop.sheet");
    let empty = folder.join("empty");
    let words = [
        "check",
        "nowhere.sheet",
        word(&looped),
        word(&empty),
        "clerk.sheet",
    ];
    let said = said(&words);
    // The gate refuses a checkout with a link in it.
    fs::remove_file(&looped).expect("the link");
    assert_eq!(said.out, "clerk.sheet: accepted\n");
    assert_eq!(said.status, 2);
    let lines: Vec<&str> = said.err.lines().collect();
    assert_eq!(lines.len(), 4, "{}", said.err);
    assert!(
        lines[0].ends_with("empty: no file below ends in .sheet"),
        "{}",
        lines[0]
    );
    assert!(
        lines[1].starts_with("desk: nowhere.sheet: No such file"),
        "{}",
        lines[1]
    );
    assert!(
        lines[2].starts_with("desk: ") && lines[2].contains("loop.sheet: "),
        "{}",
        lines[2]
    );
    assert_eq!(lines[3], "1 sheet: 1 accepted, 0 refused; 3 files not read");
}

#[test]
fn a_folder_where_a_file_is_wanted_is_one_line() {
    for word in [
        "list", "fit", "run", "holders", "timeline", "sure", "report",
    ] {
        let said = said(&[word, "."]);
        assert_eq!((said.out.as_str(), said.status), ("", 2), "{word}");
        assert_eq!(
            said.err, "desk: .: is a folder; name the sheets in it\n",
            "{word}"
        );
    }
}

#[test]
fn a_folder_is_walked_to_its_ends_and_in_order() {
    let folder = folder("walked");
    fs::create_dir_all(folder.join("b/deep")).expect("folders");
    let clerk = fs::read(format!("{ROOT}/examples/clerk.sheet")).expect("P");
    for name in ["c.sheet", "a.sheet", "b/deep/x.sheet", "b/notes.txt"] {
        fs::write(folder.join(name), &clerk).expect("a file");
    }
    symlink("..", folder.join("b/up")).expect("a link");
    let said = said(&["check", word(&folder)]);
    fs::remove_file(folder.join("b/up")).expect("the link");
    let names: Vec<&str> = said.out.lines().collect();
    let wanted = ["a.sheet", "b/deep/x.sheet", "c.sheet"];
    let wanted = wanted.map(|name| format!("{}: accepted", folder.join(name).display()));
    assert_eq!(names, wanted);
    assert_eq!(said.err, "3 sheets: 3 accepted, 0 refused\n");
}

/// Gives the command something on standard input.
fn fed(words: &[&str], input: &[u8]) -> Said {
    let mut child = desk(words)
        .stdin(Stdio::piped())
        .stdout(Stdio::piped())
        .stderr(Stdio::piped())
        .spawn()
        .expect("the command starts");
    let mut pipe = child.stdin.take().expect("standard input");
    pipe.write_all(input).expect("it is read to its end");
    drop(pipe);
    child.wait_with_output().expect("the command ends").into()
}

#[test]
fn standard_input_is_a_sheet_and_is_read_to_its_end() {
    let clerk = fs::read(format!("{ROOT}/examples/clerk.sheet")).expect("P");
    let said = fed(&["check", "-", "sure.sheet"], &clerk);
    assert_eq!(said.out, "<stdin>: accepted\nsure.sheet: accepted\n");
    assert_eq!(
        fed(&["run", "-"], &clerk).out.lines().next(),
        Some("done after 8 steps")
    );
    let long = clerk.repeat(20_000);
    assert_eq!(long.len(), 3_340_000);
    let said = fed(&["check", "-"], &long);
    let wanted = "<stdin>: refusal 2 (long sheet): the text is over 65,535 bytes\n  \
                  = it has 3,340,000 bytes, 3,274,465 too many\n";
    assert_eq!(said.out, wanted);
}

#[test]
fn a_file_that_is_too_long_is_told_its_length() {
    let folder = folder("long");
    let long = folder.join("long.sheet");
    fs::write(&long, vec![b'x'; 70_000]).expect("a file");
    let said = said(&["check", word(&long)]);
    let note = "  = it has 70,000 bytes, 4,465 too many";
    assert_eq!(said.out.lines().last(), Some(note));
}

/// Of a text that the library did not read, nothing is told but its length.
#[test]
fn a_text_that_is_too_long_is_not_read() {
    let clerk = fs::read(format!("{ROOT}/examples/clerk.sheet")).expect("P");
    let long = [&clerk[..], &b"copy=0\n".repeat(9_400)].concat();
    let refusal = "<stdin>: refusal 2 (long sheet): the text is over 65,535 bytes\n  \
                   = it has 65,967 bytes, 432 too many\n";
    let all: [&[&str]; 5] = [
        &["form", "-", "0"],
        &["fit", "-", "0", "1"],
        &["run", "-"],
        &["holders", "-", "--holder", "1"],
        &["timeline", "-"],
    ];
    for words in all {
        let said = fed(words, &long);
        assert_eq!(
            (said.out.as_str(), said.err.as_str()),
            ("", refusal),
            "{words:?}"
        );
    }
    let listed = fed(&["list", "-"], &long).out;
    assert_eq!(listed.lines().next(), Some("   1 | types=3"));
}

/// A device never ends, and no more of it is read than is needed.
#[test]
fn an_endless_file_is_refused_as_too_long() {
    let said = said(&["check", "/dev/zero"]);
    assert_eq!(
        said.out,
        "/dev/zero: refusal 2 (long sheet): the text is over 65,535 bytes\n"
    );
}

#[test]
fn a_closed_pipe_is_one_line_and_the_others_are_still_counted() {
    let (reader, writer) = std::io::pipe().expect("a pipe");
    drop(reader);
    let output = desk(&["check", "clerk.sheet", "refused-7-slot.sheet"])
        .stdout(writer)
        .output();
    let said: Said = output.expect("the command ends").into();
    let lines: Vec<&str> = said.err.lines().collect();
    assert!(
        lines[0].starts_with("desk: standard output: Broken pipe"),
        "{}",
        said.err
    );
    let counts = "2 sheets: 1 accepted, 1 refused: 1 by 7 (loose end)";
    assert_eq!((lines[1..].to_vec(), said.status), (vec![counts], 2));
}

#[test]
fn a_full_disk_is_one_line_and_status_2() {
    let full = File::options()
        .write(true)
        .open("/dev/full")
        .expect("a device");
    let output = desk(&["report", "clerk.sheet"]).stdout(full).output();
    let said: Said = output.expect("the command ends").into();
    assert!(
        said.err.starts_with("desk: standard output: No space left"),
        "{}",
        said.err
    );
    assert_eq!((said.err.lines().count(), said.status), (1, 2));
}

/// Nothing is lost where standard error takes nothing.
#[test]
fn a_full_standard_error_changes_no_answer() {
    let full = File::options().write(true).open("/dev/full");
    let output = desk(&["check", "clerk.sheet", "nowhere.sheet"])
        .stderr(full.expect("a device"))
        .output();
    let said: Said = output.expect("the command ends").into();
    assert_eq!(
        (said.out.as_str(), said.status),
        ("clerk.sheet: accepted\n", 2)
    );
}

/// The blocks are what the program prints, as they are stored.
#[test]
fn blocks_are_the_program_s() {
    let mut names = Vec::new();
    let mut wanted = String::new();
    for name in crate::common::examples() {
        let path = Path::new(ROOT)
            .join("examples")
            .join(format!("{name}.printed"));
        wanted += &fs::read_to_string(path).expect("stored lines");
        names.push(format!("{name}.sheet"));
    }
    let mut words = vec!["report"];
    words.extend(names.iter().map(String::as_str));
    assert_eq!(said(&words).out, wanted);
}

/// A name with bytes that a terminal or a table would take for something else.
#[test]
fn odd_names_do_no_harm() {
    let folder = folder("odd");
    let name = folder.join("a\tb\n\x1b[31m\"c\".sheet");
    fs::copy(format!("{ROOT}/examples/clerk.sheet"), &name).expect("a copy");
    let text = said(&["check", word(&folder)]).out;
    assert!(
        text.ends_with("/a\\tb\\n\\u{1b}[31m\"c\".sheet: accepted\n"),
        "{text}"
    );
    let table = said(&["check", "--format", "tsv", word(&folder)]).out;
    let cells: Vec<&str> = table.lines().nth(1).expect("a row").split('\t').collect();
    assert_eq!(cells.len(), 8);
    let json = said(&["check", "--format", "json", word(&folder)]).out;
    let document = crate::json::Value::read(&json).expect("JSON");
    let file = document.list("sheets")[0].get("file").cloned();
    assert_eq!(file, Some(crate::json::Value::Text(word(&name).into())));
}
