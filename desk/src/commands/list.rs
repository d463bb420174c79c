//! `desk list`: each line with what it means.

use super::Command;
use crate::args::{Given, Usage};
use crate::desk::Desk;
use crate::finding::Case;
use crate::line::{lines, Line};
use crate::meaning::{depth, meaning};
use crate::reader::read;
use crate::reading::Reading;
use crate::text::Text;
use lexondar::Error;

pub const COMMAND: Command = Command {
    word: "list",
    takes: "FILE",
    about: "show each line with what it means",
    more: "Of a sheet that is refused, the lines that could be read, and then the refusal.",
    choices: &[],
    examples: &[(
        "desk list clerk.sheet",
        "rows, forms, and which slot each line fills",
    )],
    run,
};

fn run(given: &Given, desk: &mut Desk) -> Result<(), Usage> {
    let [file] = given.exactly("a file")?;
    if let Some(text) = desk.text(file) {
        let answer = desk.library.verdict(&text.bytes);
        desk.put(&listing(&text, answer.err()));
        if let Err(error) = answer {
            desk.put("\n");
            desk.refused(&text, error);
        }
    }
    Ok(())
}

/// The lines in columns.
fn listing(text: &Text, error: Option<Error>) -> String {
    let lines = lines(&text.bytes);
    let reading = match error.and_then(Error::refusal) {
        Some(refusal) => Case::of(&text.bytes, refusal).reading,
        None => read(&lines),
    };
    let faulty = error
        .and_then(Error::refusal)
        .map_or(0, |refusal| refusal.line as usize);
    let rows: Vec<(String, String)> = lines
        .iter()
        .map(|line| (shown(&reading, line), told(&reading, line, faulty)))
        .collect();
    let width = rows
        .iter()
        .map(|(line, _)| line.len())
        .max()
        .unwrap_or(0)
        .min(40);
    let digits = lines.len().to_string().len();
    let mut listing = String::new();
    for ((line, meaning), number) in rows.iter().zip(1..) {
        let row = format!("{number:>digits$} | {line:<width$}  {meaning}");
        listing += row.trim_end();
        listing += "\n";
    }
    listing
}

/// A line, set in by its depth in the sheet.
fn shown(reading: &Reading, line: &Line) -> String {
    let place = reading.places.get(line.number - 1);
    let margin = "  ".repeat(place.map_or(0, |place| depth(*place)));
    let mut words = line.bytes.escape_ascii().to_string();
    if words.len() > 60 {
        words.truncate(58);
        words += "..";
    }
    margin + &words
}

fn told(reading: &Reading, line: &Line, faulty: usize) -> String {
    let place = reading.places.get(line.number - 1);
    let meaning = place.and_then(|place| meaning(reading, *place));
    let meaning = meaning.unwrap_or_default();
    match (line.number == faulty, meaning.is_empty()) {
        (false, _) => meaning,
        (true, true) => "<- refused".into(),
        (true, false) => format!("{meaning}  <- refused"),
    }
}
