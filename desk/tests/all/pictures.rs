//! Pictures have a node for each holder and an arrow for each holding.

use crate::common::{desk, examples, said};
use crate::json::Value;
use std::io::Write;
use std::process::{Command, Stdio};

/// How many holders there are, resources and main, and how many holdings.
fn counts(sheet: &str) -> (usize, usize) {
    let printed = said(&["holders", sheet, "--json"]).out;
    let document = Value::read(&printed).expect("JSON");
    let holders = document.list("holders");
    let holdings = holders.iter().map(|holder| holder.list("holds").len());
    (holders.len(), holdings.sum())
}

/// Whether every tag that opens is closed, and nothing else looks like one.
fn is_balanced(xml: &str) -> bool {
    let mut open = Vec::new();
    for piece in xml.split('<').skip(1) {
        let Some((tag, rest)) = piece.split_once('>') else {
            return false;
        };
        let mut names = tag.split([' ', '\n', '/']);
        let name = names.find(|name| !name.is_empty()).unwrap_or_default();
        match tag {
            _ if rest.contains('>') => return false,
            _ if tag.starts_with(['?', '!']) || tag.ends_with('/') => (),
            _ if tag.starts_with('/') => {
                if open.pop() != Some(name) {
                    return false;
                }
            }
            _ => open.push(name),
        }
    }
    open.is_empty() && xml.contains("<svg ")
}

#[test]
fn a_picture_has_every_holder_and_every_holding() {
    for name in examples()
        .iter()
        .filter(|name| !name.starts_with("refused"))
    {
        let sheet = format!("{name}.sheet");
        let (holders, holdings) = counts(&sheet);
        let svg = said(&["holders", &sheet, "--svg"]).out;
        assert!(is_balanced(&svg), "{name}");
        assert_eq!(svg.matches("class=\"node").count(), holders, "{name}");
        assert_eq!(svg.matches("class=\"arrow").count(), holdings, "{name}");
        let dot = said(&["holders", &sheet, "--dot"]).out;
        assert_eq!(dot.matches(" -> ").count(), holdings, "{name}");
    }
}

#[test]
fn devices_and_forms_are_marked() {
    let svg = said(&["holders", "devices.sheet", "--svg"]).out;
    assert!(svg.contains("device") && svg.contains("form 3"), "{svg}");
    let dot = said(&["holders", "devices.sheet", "--dot"]).out;
    assert!(dot.contains("device") && dot.contains("form 3"), "{dot}");
}

/// Graphviz takes the graph of every example, where it is installed.
#[test]
fn graphviz_takes_every_graph() {
    if Command::new("dot").arg("-V").output().is_err() {
        println!("dot is not there: its test is left out");
        return;
    }
    for name in examples()
        .iter()
        .filter(|name| !name.starts_with("refused"))
    {
        let output = desk(&["holders", &format!("{name}.sheet"), "--dot"]).output();
        let graph = output.expect("the command starts").stdout;
        let mut child = Command::new("dot")
            .args(["-Tplain"])
            .stdin(Stdio::piped())
            .stdout(Stdio::piped())
            .stderr(Stdio::piped())
            .spawn()
            .expect("dot starts");
        let mut input = child.stdin.take().expect("standard input");
        input.write_all(&graph).expect("the graph is taken");
        drop(input);
        let output = child.wait_with_output().expect("dot ends");
        let words = String::from_utf8_lossy(&output.stderr);
        assert!(
            output.status.success() && words.is_empty(),
            "{name}: {words}"
        );
        let plain = String::from_utf8(output.stdout).expect("plain text");
        let (holders, holdings) = counts(&format!("{name}.sheet"));
        let begin = |word: &str| plain.lines().filter(|line| line.starts_with(word)).count();
        assert_eq!(
            (begin("node "), begin("edge ")),
            (holders, holdings),
            "{name}"
        );
    }
}
