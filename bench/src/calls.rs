//! Reading and judging, beside the second program.

use crate::pairs::{self, Asked};
use crate::plain_sheet::plain;
use crate::programs::Question;
use crate::sheets;
use crate::table::{whole, Table};

/// A row of the table: its text, and how many bytes of it are read.
struct Row {
    name: &'static str,
    what: &'static str,
    text: String,
    read: usize,
}

/// Prints the table.
pub fn table() {
    let rows = rows();
    let asked = rows.iter().map(|row| Asked {
        question: Question::Verdict,
        text: row.text.as_bytes(),
    });
    let pairs = pairs::measure(&asked.collect::<Vec<_>>());
    let mut table = Table::new(&[&["sheet", "bytes", "what"], &pairs::HEADS[..]].concat());
    for (row, pair) in rows.iter().zip(pairs) {
        let bytes = whole(row.text.len() as u64);
        let mut cells = vec![row.name.to_string(), bytes, row.what.to_string()];
        cells.extend(pair.cells(Some(row.read)));
        table.add(cells);
    }
    table.print();
    let (_, read) = sheets::over_long();
    println!("Of 64 KB the first {} bytes are read.", whole(read as u64));
    println!();
}

/// Reading is timed by the verdict on a text that is read to its end, or as far
/// as one can be read, and refused there.
fn rows() -> Vec<Row> {
    let mut rows = Vec::from(both("1 KB", plain(1 << 10)));
    rows.extend(both("10 KB", plain(10 << 10)));
    rows.extend(both("the longest", sheets::longest()));
    rows.push(over_long());
    rows.extend(both("the slowest to judge", sheets::slowest()));
    rows
}

/// The rows of an accepted sheet: reading and verdict.
fn both(name: &'static str, sheet: String) -> [Row; 2] {
    assert!(second::verdict(sheet.as_bytes()).is_ok(), "{name}");
    let torn = sheets::torn(&sheet).to_string();
    [("reading", torn), ("verdict", sheet)].map(|(what, text)| Row {
        name,
        what,
        read: text.len(),
        text,
    })
}

/// No accepted sheet has 64 KB, and no text of that size is read to its end:
/// this one is refused at the line after main.
fn over_long() -> Row {
    let (text, read) = sheets::over_long();
    Row {
        name: "64 KB",
        what: "reading",
        text,
        read,
    }
}
