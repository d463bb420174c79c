//! `desk fit`: which row fits which.

use super::Command;
use crate::args::{short, Given, Usage};
use crate::desk::Desk;
use crate::explain::lacking;
use crate::line::lines;
use crate::reader::read;
use crate::text::Text;
use crate::words::below;
use lexondar::{Error, Fit};
use std::fmt::Write;

pub const COMMAND: Command = Command {
    word: "fit",
    takes: "FILE [A B]",
    about: "say whether row A fits row B and what is missing, or show all pairs of rows",
    more: "A value of row A may stand where row B is asked for if A fits B. The sheet only has to be\n\
           readable. Rows count from 0.",
    choices: &[],
    examples: &[
        ("desk fit clerk.sheet 0 1", "one pair"),
        ("desk fit clerk.sheet", "every pair"),
    ],
    run,
};

fn run(given: &Given, desk: &mut Desk) -> Result<(), Usage> {
    let (file, pair) = match &given.words[..] {
        [file] => (file, None),
        [file, a, b] => (file, Some((short(a, "A")?, short(b, "B")?))),
        _ => return Usage::new("takes a file, and two rows or none"),
    };
    let Some(text) = desk.text(file) else {
        return Ok(());
    };
    let answer = match pair {
        Some((a, b)) => one(desk, &text, a.into(), b.into()),
        None => matrix(desk, &text),
    };
    match answer {
        Ok(words) => desk.put(&words),
        Err(error) => {
            let rows = read(&lines(&text.bytes)).rows.len();
            desk.no_answer(&text, error, Some(below(rows, "row")));
        }
    }
    Ok(())
}

/// One pair, with what is missing.
fn one(desk: &mut Desk, text: &Text, a: usize, b: usize) -> Result<String, Error> {
    let walk = desk.library.fit(&text.bytes, a, b)?;
    let answer = match walk.fit.lack() {
        None => format!("row {a} fits row {b}\n"),
        Some(lack) => {
            let reading = read(&lines(&text.bytes));
            let why = lacking(&mut desk.library, &text.bytes, &reading, (a, b), lack);
            let why = why.unwrap_or_else(|| walk.fit.words(&text.bytes, a, b).to_string());
            format!("row {a} does not fit row {b}: {why}\n")
        }
    };
    let passed = walk.passed;
    Ok(format!("{answer}members of row {a} passed: {passed}\n"))
}

/// Every pair in a table.
fn matrix(desk: &mut Desk, text: &Text) -> Result<String, Error> {
    // The library says whether the text can be read before its rows are counted.
    desk.library.fit(&text.bytes, 0, 0)?;
    let rows = read(&lines(&text.bytes)).rows.len();
    let mut table = String::from("a\\b ");
    for b in 0..rows {
        let _ = write!(table, " {b:>2}");
    }
    table += "\n";
    for a in 0..rows {
        let _ = write!(table, "{a:>3} ");
        for b in 0..rows {
            let cell = match desk.library.fit(&text.bytes, a, b)?.fit {
                Fit::Yes => "+".into(),
                Fit::Kind => "k".into(),
                Fit::Member(name) => name.to_string(),
            };
            let _ = write!(table, " {cell:>2}");
        }
        table += "\n";
    }
    table += "\n+ row a fits row b; k a resource where pure is asked; a number: the lowest member of b that a lacks\n";
    Ok(table)
}
