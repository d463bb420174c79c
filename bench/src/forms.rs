//! One form's lines: a reading, and a scan of the text as far as they go.

use crate::pairs::{self, Asked};
use crate::plain_sheet::plain;
use crate::programs::Question;
use crate::sheets;
use crate::table::{whole, Table};

/// Prints the table: the last form of each sheet, for which nearly all of the
/// text before main is scanned.
pub fn table() {
    let sheets = [
        ("1 KB", plain(1 << 10)),
        ("10 KB", plain(10 << 10)),
        ("the longest", sheets::longest()),
    ];
    let asked: Vec<Asked> = sheets.iter().map(|sheet| last_form(&sheet.1)).collect();
    let pairs = pairs::measure(&asked);
    let mut table = Table::new(&[&["the last form's lines", "bytes"], &pairs::HEADS[..]].concat());
    for ((name, text), pair) in sheets.iter().zip(pairs) {
        let mut cells = vec![name.to_string(), whole(text.len() as u64)];
        cells.extend(pair.cells(Some(text.len())));
        table.add(cells);
    }
    table.print();
}

fn last_form(text: &str) -> Asked<'_> {
    let sheet = second::read(text.as_bytes()).expect("a readable sheet");
    Asked {
        question: Question::Form(sheet.forms.len() as u32 - 1),
        text: text.as_bytes(),
    }
}
