//! Words for parts of a sheet.

use crate::reading::{Member, Reading, Shape};
use crate::slot::{Filler, Slot};

/// A number with a comma before each three digits.
pub fn thousands(number: u64) -> String {
    let digits = number.to_string();
    let threes = digits.as_bytes().rchunks(3).map(String::from_utf8_lossy);
    let mut threes: Vec<_> = threes.collect();
    threes.reverse();
    threes.join(",")
}

/// `no rows`, `1 row`, `3 rows`.
pub fn counted(count: usize, thing: &str) -> String {
    match count {
        0 => format!("no {thing}s"),
        1 => format!("1 {thing}"),
        _ => format!("{} {thing}s", thousands(count as u64)),
    }
}

/// `here is 1 slot`, `here are 3 slots`.
pub fn here(count: usize, thing: &str) -> String {
    let are = if count == 1 { "is" } else { "are" };
    format!("here {are} {}", counted(count, thing))
}

/// Words with commas between, and one of `and` or `or` before the last.
pub fn joined(words: &[String], last: &str) -> String {
    match words {
        [] => String::new(),
        [one] => one.clone(),
        [first @ .., end] => format!("{} {last} {end}", first.join(", ")),
    }
}

/// Numbers with commas between, or a word where there are none.
pub fn numbers(numbers: &[u16], none: &str) -> String {
    match numbers {
        [] => none.into(),
        _ => {
            let words: Vec<String> = numbers.iter().map(u16::to_string).collect();
            words.join(", ")
        }
    }
}

/// Bytes as they are quoted: printable, and of many only the first.
pub fn quoted(bytes: &[u8]) -> String {
    const MOST: usize = 40;
    let shown = bytes.escape_ascii().to_string();
    match shown.len() > MOST {
        true => format!("{}..", &shown[..MOST]),
        false => shown,
    }
}

/// A kind of row.
pub fn kind(resource: bool) -> &'static str {
    match resource {
        true => "resource",
        false => "pure",
    }
}

/// `method 2`, `field 1`.
pub fn member(member: &Member) -> String {
    match member.shape {
        Shape::Method { .. } => format!("method {}", member.name),
        Shape::Field { .. } => format!("field {}", member.name),
    }
}

/// `row 1 (resource, line 3)`.
pub fn row(reading: &Reading, number: usize) -> String {
    match reading.rows.get(number) {
        Some(row) => format!(
            "row {number} ({}, line {})",
            kind(row.resource),
            row.head.line
        ),
        None => format!("row {number}"),
    }
}

/// What filled a slot, and its row: `own object, row 2`.
pub fn filler(slot: &Slot) -> String {
    let filler = match slot.filler {
        Filler::Own => "own object".into(),
        Filler::Argument => "argument".into(),
        Filler::Kept(place) => format!("kept value {place}"),
        Filler::Device(number) => format!("device {number}"),
        Filler::Instr => String::new(),
    };
    match (filler.is_empty(), slot.row) {
        (true, Some(row)) => format!("row {row}"),
        (false, Some(row)) => format!("{filler}, row {row}"),
        (_, None) => filler,
    }
}

/// The slots that are filled, neighbours that say the same taken together:
/// `0 (own object, row 2), 1 (argument, row 0), 2 to 4 (row 1)`.
pub fn slots(slots: &[Slot]) -> String {
    if slots.is_empty() {
        return "none".into();
    }
    let words: Vec<String> = slots.iter().map(filler).collect();
    let mut runs = Vec::new();
    let mut from = 0;
    for run in words.chunk_by(|a, b| a == b) {
        let span = span(from, from + run.len() - 1);
        runs.push(match run[0].as_str() {
            "" => span,
            word => format!("{span} ({word})"),
        });
        from += run.len();
    }
    runs.join(", ")
}

/// `3`, `3 to 5`.
pub fn span(first: usize, last: usize) -> String {
    match first == last {
        true => first.to_string(),
        false => format!("{first} to {last}"),
    }
}

/// Which numbers there are below a count: `0 to 2`, or none.
pub fn below(count: usize, thing: &str) -> String {
    match count {
        0 => format!("there are no {thing}s"),
        1 => format!("the only {thing} is 0"),
        _ => format!("{thing}s are 0 to {}", count - 1),
    }
}
