//! The most steps that a sheet can need: a verdict, a look at every `call`
//! line, and the amounts of all names.

use crate::pairs::{self, Asked};
use crate::plain_sheet::plain;
use crate::programs::Question;
use crate::sheets;
use crate::table::{whole, Table};

/// The questions that each sheet is asked: this one, and the verdict.
const QUESTIONS: [(&str, Question); 2] = [
    ("most steps", Question::Bound),
    ("verdict", Question::Verdict),
];

/// Prints the table.
pub fn table() {
    let sheets = sheets();
    let asked = sheets.iter().flat_map(|(_, text)| {
        let text = text.as_bytes();
        QUESTIONS.map(|(_, question)| Asked { question, text })
    });
    let pairs = pairs::measure(&asked.collect::<Vec<_>>());
    let mut table = Table::new(&[&["sheet", "bytes", "what"], &pairs::HEADS[..]].concat());
    for ((name, text), pairs) in sheets.iter().zip(pairs.chunks(2)) {
        let bytes = text.len();
        for ((what, _), pair) in QUESTIONS.iter().zip(pairs) {
            let mut cells = vec![name.to_string(), whole(bytes as u64), what.to_string()];
            cells.extend(pair.cells(Some(bytes)));
            table.add(cells);
        }
    }
    table.print();
}

/// Sheets of the stricter kind; the last one is built for the question.
pub fn sheets() -> [(&'static str, String); 4] {
    [
        ("1 KB", plain(1 << 10)),
        ("10 KB", plain(10 << 10)),
        ("the longest", sheets::longest()),
        ("512 bodies that call", sheets::many_bodies()),
    ]
}
