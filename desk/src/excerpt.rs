//! A line as it is shown, with a mark below it.

use crate::style::Style;
use std::ops::Range;

/// The columns that are shown of a line.
const WIDTH: usize = 100;
/// The columns that are shown before a mark where a line is longer.
const BEFORE: usize = 30;
/// What stands for columns that are left out.
const CUT: &str = "..";

/// A line's bytes in columns of printable characters, with the columns of a
/// piece of it.
struct Shown {
    words: String,
    columns: Range<usize>,
}

/// Whatever a line has in it, no byte of it reaches a terminal as a command.
fn shown(bytes: &[u8], span: &Range<usize>) -> Shown {
    let width = |bytes: &[u8]| bytes.escape_ascii().count();
    let until = |end: usize| &bytes[..end.min(bytes.len())];
    let columns = width(until(span.start))..width(until(span.end));
    let words = bytes.escape_ascii().to_string();
    let all = words.len();
    if all <= WIDTH {
        return Shown { words, columns };
    }
    let from = columns.start.saturating_sub(BEFORE).min(all - WIDTH);
    let to = from + WIDTH;
    let head = if from > 0 { CUT } else { "" };
    let tail = if to < all { CUT } else { "" };
    let start = columns.start - from + head.len();
    let end = columns.end.min(to) - from + head.len();
    Shown {
        words: format!("{head}{}{tail}", &words[from..to]),
        columns: start..end,
    }
}

/// A numbered line, and below it the mark with its label.
pub fn excerpt(
    style: Style,
    number: u32,
    bytes: &[u8],
    mark: Option<(&Range<usize>, &str)>,
) -> String {
    let margin = " ".repeat(number.to_string().len());
    let frame = style.frame(&format!("{number} |"));
    let (span, label) = mark.unwrap_or((&(0..0), ""));
    let Shown { words, columns } = shown(bytes, span);
    let mut lines = format!("{frame} {words}").trim_end().to_string() + "\n";
    if mark.is_some() {
        let frame = style.frame(&format!("{margin} |"));
        let gap = " ".repeat(columns.start);
        let carets = "^".repeat(columns.len().max(1));
        let carets = style.fault(&carets);
        lines += format!("{frame} {gap}{carets} {label}").trim_end();
        lines += "\n";
    }
    lines
}

/// A note below an excerpt.
pub fn note(style: Style, number: u32, words: &str) -> String {
    let margin = " ".repeat(number.to_string().len());
    let frame = style.frame(&format!("{margin} ="));
    format!("{frame} {words}\n")
}
