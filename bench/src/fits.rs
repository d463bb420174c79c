//! The fit question: rows that are slow to fit beside plain ones.

use crate::pairs::{self, Asked};
use crate::plain_sheet::plain;
use crate::programs::{Program, Question};
use crate::rows;
use crate::table::{whole, Table};
use crate::timing;

/// Prints the table, and how often the slowest rows take a plain sheet's time.
pub fn table() {
    let slow = rows::SLOW.map(|(name, member)| (name, rows::alone(member)));
    let texts: Vec<&str> = slow.iter().map(|sheet| &sheet.1[..]).collect();
    let slowest = slowest(&texts);
    let plain = [
        ("no row fits another", rows::alone(rows::own_names)),
        (
            "an ordinary sheet of that size",
            plain(texts[slowest].len()),
        ),
    ];
    let sheets = [&slow[..], &plain[..]].concat();
    let asked: Vec<Asked> = sheets.iter().map(|sheet| asked(&sheet.1)).collect();
    let pairs = pairs::measure(&asked);
    let mut table = Table::new(&[&["fit", "bytes"], &pairs::HEADS[..]].concat());
    for ((name, text), pair) in sheets.iter().zip(&pairs) {
        let mut cells = vec![name.to_string(), whole(text.len() as u64)];
        cells.extend(pair.cells(Some(text.len())));
        table.add(cells);
    }
    table.print();
    let head = format!("{}, to", slow[slowest].0);
    let mut table = Table::new(&[&head, "times us", "times instructions"]);
    for ((name, _), pair) in plain.iter().zip(&pairs[slow.len()..]) {
        let [times, counts] = pairs[slowest].to(*pair);
        table.add(vec![name.to_string(), times, counts]);
    }
    table.print();
}

/// Fit of the last row to the one before.
fn asked(text: &str) -> Asked<'_> {
    let sheet = second::read(text.as_bytes()).expect("an accepted sheet");
    let rows = sheet.rows.len() as u32;
    Asked {
        question: Question::Fit(rows - 1, rows - 2),
        text: text.as_bytes(),
    }
}

/// Which of these the library takes longest for.
fn slowest(texts: &[&str]) -> usize {
    let calls = texts.iter().map(|text| {
        let Asked { question, text } = asked(text);
        timing::timed(10, Program::Library.call(question, text))
    });
    let times = timing::best(50, &mut calls.collect::<Vec<_>>());
    let places = 0..times.len();
    let slowest = places.max_by(|a, b| times[*a].total_cmp(&times[*b]));
    slowest.expect("some rows")
}
