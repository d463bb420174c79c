//! The library as it is installed, what the archive has in it, and what is said
//! where a tool is missing or is another one.

use crate::compiler::ROOT;
use std::fs;
use std::os::unix::fs::PermissionsExt;
use std::path::{Path, PathBuf};
use std::process::{Command, Output};

/// A new folder of a test's own.
fn folder(name: &str) -> PathBuf {
    let folder = Path::new(env!("CARGO_TARGET_TMPDIR")).join(name);
    let _ = fs::remove_dir_all(&folder);
    fs::create_dir_all(&folder).expect("a folder");
    folder
}

/// What a command printed, on both outputs, and whether it succeeded.
fn said(output: Output) -> (bool, String) {
    let words = [output.stdout, output.stderr].concat();
    let words = String::from_utf8(words).expect("plain text");
    (output.status.success(), words)
}

fn make(words: &[&str]) {
    // A `make` above hands no words on.
    let output = Command::new("make")
        .env_remove("MAKEFLAGS")
        .args(["-s", "-C", ROOT])
        .args(words)
        .output();
    let (done, words) = said(output.expect("make is there"));
    assert!(done, "{words}");
    assert_eq!(words, "");
}

/// The files below a folder, by their paths from there.
fn files(folder: &Path) -> Vec<String> {
    let mut found = Vec::new();
    for entry in fs::read_dir(folder).expect("a folder") {
        let path = entry.expect("an entry").path();
        let name = path.file_name().expect("a name").to_string_lossy();
        if path.is_dir() {
            let below = files(&path);
            found.extend(below.into_iter().map(|file| format!("{name}/{file}")));
        } else {
            found.push(name.into_owned());
        }
    }
    found.sort();
    found
}

const INSTALLED: [&str; 4] = [
    "include/lexondar.h",
    "include/lexondar_words.h",
    "lib/liblexondar.a",
    "lib/pkgconfig/lexondar.pc",
];

#[test]
fn an_installed_library_links_from_an_empty_folder() {
    let prefix = folder("prefix");
    make(&["install", &format!("PREFIX={}", prefix.display())]);
    assert_eq!(files(&prefix), INSTALLED);
    let empty = folder("empty");
    fs::copy(format!("{ROOT}/examples/c/holders.c"), empty.join("x.c")).expect("a source");
    let commands =
        "cc x.c $(pkg-config --cflags --libs lexondar) -o x && pkg-config --modversion lexondar \
                    && ./x <\"$SHEET\"";
    let output = Command::new("sh")
        .args(["-c", commands])
        .current_dir(empty)
        .env("PKG_CONFIG_PATH", prefix.join("lib/pkgconfig"))
        .env("SHEET", format!("{ROOT}/examples/clerk.sheet"))
        .output();
    let printed =
        fs::read_to_string(format!("{ROOT}/examples/clerk.printed")).expect("stored lines");
    let wanted = format!("{}\n{printed}", lexondar::VERSION);
    assert_eq!(said(output.expect("sh is there")), (true, wanted));
}

#[test]
fn what_is_staged_names_its_last_place_and_what_is_uninstalled_is_gone() {
    let stage = folder("stage");
    let words = [
        format!("DESTDIR={}", stage.display()),
        "PREFIX=/terminal".into(),
    ];
    make(&["install", &words[0], &words[1]]);
    let placed = stage.join("terminal");
    assert_eq!(files(&placed), INSTALLED);
    let names = fs::read_to_string(placed.join("lib/pkgconfig/lexondar.pc")).expect("the file");
    assert!(names.starts_with("prefix=/terminal\n"), "{names}");
    make(&["uninstall", &words[0], &words[1]]);
    assert_eq!(files(&stage), [""; 0]);
}

/// Eight functions are there to call, `memset` is asked for, and there is no
/// data that could change.
#[test]
fn the_archive_has_the_eight_questions_and_asks_for_memset() {
    let archive = format!("{ROOT}/target/staticlib/liblexondar.a");
    let output = Command::new("nm").args(["-P", &archive]).output();
    let (done, lines) = said(output.expect("nm is there"));
    assert!(done, "{lines}");
    let symbols = lines.lines().filter_map(|line| line.split_once(' '));
    let of = |kinds: &str| -> Vec<&str> {
        let mut names: Vec<&str> = symbols
            .clone()
            .filter(|(_, rest)| kinds.contains(&rest[..1]))
            .map(|(name, _)| name)
            .collect();
        names.sort();
        names
    };
    let questions = [
        "authority",
        "bound",
        "fit",
        "form",
        "group",
        "report",
        "run",
        "verdict",
    ];
    assert_eq!(
        of("T"),
        questions.map(|question| format!("lexondar_{question}"))
    );
    assert_eq!(of("U"), ["memset"]);
    assert_eq!(of("BbCDdGgRSsuVvWw"), [""; 0]);
}

/// A script with nothing on its path but what is given.
fn script(name: &str, path: &Path) -> (bool, String) {
    let output = Command::new("/bin/bash")
        .arg(format!("{ROOT}/.ci/{name}"))
        .env("PATH", path)
        .output();
    said(output.expect("bash is there"))
}

/// A folder with a few tools that every system has.
fn path(name: &str) -> PathBuf {
    let path = folder(name);
    for tool in ["dirname", "cat", "sed"] {
        fs::copy(format!("/usr/bin/{tool}"), path.join(tool)).expect("a copy");
    }
    path
}

#[test]
fn the_gate_names_every_missing_tool_at_once() {
    let (done, lines) = script("run", &path("no-tools"));
    assert!(!done);
    let source = fs::read_to_string(format!("{ROOT}/.ci/run")).expect("the gate");
    let needs = source.lines().filter_map(|line| line.strip_prefix("need "));
    let mut wanted = String::new();
    let mut count = 0;
    for need in needs {
        let (tool, package) = need.split_once(' ').expect("a package");
        let package = package.trim_matches(['\'', '"']);
        wanted += &format!("missing: {tool} ({package})\n");
        count += 1;
    }
    assert_eq!(lines, format!("{wanted}0 passed, {count} failed\n"));
}

#[test]
fn another_toolchain_is_named_with_what_to_do() {
    let path = path("other-toolchain");
    let (done, line) = script("toolchain", &path);
    assert_eq!(
        (done, line.as_str()),
        (false, "missing: rt (the Rattle toolchain)\n")
    );
    let rt = path.join("rt");
    let say = |words: &str| {
        fs::write(&rt, format!("#!/bin/sh\necho '{words}'\n")).expect("a script");
        fs::set_permissions(&rt, fs::Permissions::from_mode(0o755)).expect("it may run");
        script("toolchain", &path)
    };
    let pinned = fs::read_to_string(format!("{ROOT}/toolchain.txt")).expect("the pinned one");
    assert_eq!(say(pinned.trim()), (true, String::new()));
    let (done, line) = say("another kit");
    assert!(!done);
    assert_eq!(line.lines().count(), 1, "{line}");
    let wanted = format!(
        "says 'another kit', and toolchain.txt '{}'; install that one",
        pinned.trim()
    );
    assert!(line.contains(&wanted), "{line}");
}

/// Without the archive, and without the toolchain that builds it.
#[test]
fn installing_says_what_is_missing() {
    let root = folder("not-built");
    for part in ["include", ".ci"] {
        fs::create_dir(root.join(part)).expect("a folder");
    }
    let parts = [
        "Makefile",
        "toolchain.txt",
        "include/lexondar.h",
        ".ci/toolchain",
        ".ci/build",
    ];
    for part in parts {
        fs::copy(format!("{ROOT}/{part}"), root.join(part)).expect("a file of the repository");
    }
    let output = Command::new("/usr/bin/make")
        .env_remove("MAKEFLAGS")
        .args(["-s", "install", "PREFIX=/nowhere"])
        .current_dir(&root)
        .env("PATH", path("no-toolchain"))
        .output();
    let (done, lines) = said(output.expect("make is there"));
    assert!(!done);
    let first = lines.lines().next();
    assert_eq!(first, Some("missing: rt (the Rattle toolchain)"), "{lines}");
    assert!(
        lines.contains("target/staticlib/liblexondar.a] Error"),
        "{lines}"
    );
}
