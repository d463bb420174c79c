//! The command that says what is assumed: on the checker's lines as they should
//! be it prints what docs/TRUST.md has, and on others it fails.

use crate::compiler::ROOT;
use std::fs;
use std::path::Path;
use std::process::Command;

fn read(file: &str) -> String {
    fs::read_to_string(format!("{ROOT}/{file}")).expect("a file of the repository")
}

/// The words that end every check's last line.
fn built() -> String {
    let toolchain = read("toolchain.txt");
    let sum = toolchain
        .trim()
        .rsplit(' ')
        .next()
        .expect("the logic's sum");
    format!(
        "sum={sum} native=nat,char,string logic-built=trusted libraries-built=trusted \
         statements=trusted incremental=trusted\n"
    )
}

/// What the gate says of all crates: the first was proved before.
fn proofs() -> String {
    let crates = read("crates.txt");
    let names: Vec<&str> = crates
        .lines()
        .filter(|line| !line.starts_with('#'))
        .filter_map(|line| line.split([' ', ':']).next())
        .filter(|name| !name.is_empty())
        .collect();
    let mut lines = format!("rt: {} is kept: an earlier run\n", names[0]);
    let built = built().replace(" incremental=trusted", "");
    for name in &names[1..] {
        lines += &format!("logic=proved functions=3 {built}rt: {name} proved\n");
    }
    lines + "rt: ok; handles allowed: none; must-fail edits: 170 refused\n"
}

/// What the library's and the program's builds print.
fn parts() -> String {
    let none = "axioms libc: none reached of the 128 declared\n\
                axioms os: none reached of the 22 declared\n";
    let named = "axioms libc: libc::read, libc::write (2 of the 128 declared)\n\
                 axioms os: os::c::__xpg_strerror_r, os::c::rattle_errno (2 of the 22 declared)\n";
    let target = "target=x86_64-unknown-linux-gnu";
    let built = built();
    let library = format!("{none}logic=proved functions=8 {target} {built}");
    let program = format!("{named}logic=proved functions=9 axioms=4 {target} {built}");
    // The program's lines come twice, of its check and of its build.
    library + &program + &program
}

/// Whether the command accepts these lines, and what it prints.
fn assumed(proofs: &str, parts: &str) -> (bool, String) {
    let folder = Path::new(env!("CARGO_TARGET_TMPDIR"));
    let files = [folder.join("proofs"), folder.join("built")];
    fs::write(&files[0], proofs).expect("a log");
    fs::write(&files[1], parts).expect("a log");
    let output = Command::new(format!("{ROOT}/.ci/assumed"))
        .args(files)
        .output();
    let output = output.expect("the command is there");
    let lines = String::from_utf8(output.stdout).expect("plain text");
    (output.status.success(), lines)
}

#[test]
fn what_is_assumed_is_what_the_page_says_and_anything_else_fails() {
    let (done, lines) = assumed(&proofs(), &parts());
    assert!(done, "{lines}");
    let page = read("docs/TRUST.md");
    for line in lines.lines() {
        assert!(page.contains(&format!("\n    {line}\n")), "{line}");
    }
    let fails = |proofs: &str, parts: &str, words: &str| {
        assert_eq!(assumed(proofs, parts), (false, String::new()), "{words}");
    };
    let edits = [
        ("rt: table proved", "rt: FAILED: table"),
        ("rt: ok; ", ""),
        ("allowed: none", "allowed: Threads"),
        ("functions=3 ", "functions=3 foreign=other "),
        ("functions=3 ", "functions=3 axioms=1 "),
        ("logic=proved functions=3", "logic=not-proved functions=3"),
        (
            "statements=trusted",
            "statements=trusted incremental=trusted",
        ),
        ("sum=", "sum=0"),
    ];
    for (words, other) in edits {
        let edited = proofs().replacen(words, other, 1);
        assert_ne!(edited, proofs(), "{words}");
        fails(&edited, &parts(), words);
    }
    let edits = [
        ("axioms=4 ", ""),
        ("libc::write", "libc::close"),
        ("functions=8 ", "functions=8 foreign=other "),
        ("functions=8 ", "functions=8 axioms=1 "),
        ("logic=proved functions=8", "logic=not-proved functions=8"),
        (
            "libraries-built=trusted",
            "libraries-built=trusted cache=trusted",
        ),
        ("sum=", "sum=0"),
    ];
    for (words, other) in edits {
        let edited = parts().replace(words, other);
        assert_ne!(edited, parts(), "{words}");
        fails(&proofs(), &edited, words);
    }
}
