//! The sheets of docs/SHEET.md get the answers that the page says.

use crate::common::said;
use desk::key::Key;
use desk::library::Library;
use desk::manual::{section, MANUAL};
use lexondar::{raw, Error, Reason};
use std::collections::BTreeSet;

/// A sheet of the page, and what the line above it says.
struct Shown {
    says: String,
    text: Vec<u8>,
}

/// The whole sheets of the page.
fn sheets() -> Vec<Shown> {
    let lines: Vec<&str> = MANUAL.lines().collect();
    let fences = (0..lines.len()).filter(|at| lines[*at] == "```sheet");
    fences
        .map(|fence| {
            let block = lines[fence + 1..].iter().take_while(|line| **line != "```");
            let text: String = block.map(|line| expanded(line)).collect();
            // The sentence before may take two lines.
            let says = format!("{} {}", lines[fence - 2], lines[fence - 1]);
            let text = text.into_bytes();
            Shown { says, text }
        })
        .collect()
}

/// A line as often as it says.
fn expanded(line: &str) -> String {
    let times = line
        .strip_suffix(" times)")
        .and_then(|line| line.split_once(" ("));
    let (line, times) = times.map_or((line, 1), |(line, times)| {
        (line, times.parse().expect("a number"))
    });
    format!("{line}\n").repeat(times)
}

/// What the library answers, in the page's words.
fn answered(library: &mut Library, shown: &Shown) -> String {
    let Shown { says, text } = shown;
    let refused = |by: &str, error: Error| {
        let refusal = error.refusal().expect("a refusal");
        let (number, line) = (refusal.reason.number(), refusal.line);
        format!("refused{by}, {number} at line {line}:")
    };
    if says.contains("a work buffer of 32,767 numbers") {
        let given = raw::verdict(text, &mut [0; 32_767]);
        let (number, line) = (given.refusal, given.line);
        return format!("refused with a work buffer of 32,767 numbers, {number} at line {line}:");
    }
    if says.contains("`desk sure`") {
        return match library.bound(text) {
            Ok(steps) => format!("`desk sure` says {steps}:"),
            Err(error) => refused(" by `desk sure`", error),
        };
    }
    if let Some((_, command)) = says.split_once("`desk holders --holder ") {
        let holder = command.split('`').next().expect("a holder");
        return match library.authority(text, 10_000, holder.parse().expect("a number")) {
            Ok(held) => {
                let held: Vec<String> = held.iter().map(u16::to_string).collect();
                format!("`desk holders --holder {holder}` says {}:", held.join(", "))
            }
            Err(error) => refused(&format!(" by `desk holders --holder {holder}`"), error),
        };
    }
    match library.verdict(text) {
        Ok(()) => "accepted:".into(),
        Err(error) => refused("", error),
    }
}

#[test]
fn every_sheet_of_the_page_gets_the_answer_that_it_says() {
    let mut library = Library::new();
    let sheets = sheets();
    assert!(sheets.len() >= 30, "{}", sheets.len());
    for shown in &sheets {
        let answer = answered(&mut library, shown);
        assert!(shown.says.ends_with(&answer), "{}: {answer}", shown.says);
    }
}

#[test]
fn every_key_and_every_number_occurs() {
    let sheets = sheets();
    let begins = |key: Key| format!("{}=", key.word()).into_bytes();
    for key in Key::all() {
        let mut lines = sheets
            .iter()
            .flat_map(|shown| shown.text.split(|b| *b == b'\n'));
        assert!(lines.any(|line| line.starts_with(&begins(key))), "{key:?}");
        let row = format!("| `{}=", key.word());
        assert!(MANUAL.contains(&row), "{key:?} is not in the table of keys");
    }
    let mut library = Library::new();
    let answers: BTreeSet<String> = sheets.iter().map(|s| answered(&mut library, s)).collect();
    for reason in Reason::ALL {
        let number = format!(", {} at line ", reason.number());
        assert!(
            answers.iter().any(|answer| answer.contains(&number)),
            "{reason:?}"
        );
    }
}

/// Each refusal's section has its word, a wrong sheet and one that is in order.
#[test]
fn every_refusal_has_a_section_that_the_command_prints() {
    for reason in Reason::ALL {
        let section = section(reason.number()).expect("a section");
        let head = format!("{}: {}\n", reason.number(), reason.word());
        assert!(section.starts_with(&head), "{section}");
        let refused = format!(", {} at line ", reason.number());
        assert!(section.contains(&refused), "{section}");
        let mended = ["accepted:\n```sheet", "` says "];
        assert!(
            mended.iter().any(|words| section.contains(words)),
            "{section}"
        );
        let printed = said(&["explain", &reason.number().to_string()]);
        assert_eq!(printed.status, 0);
        assert!(printed.out.starts_with(&head), "{}", printed.out);
        assert!(!printed.out.contains("```"), "{}", printed.out);
        let wide = printed.out.lines().find(|line| line.len() > 104);
        assert_eq!(wide, None);
    }
}
