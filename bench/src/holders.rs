//! The authority of every holder, and of a group, beside the second program.

use crate::pairs::{self, Asked};
use crate::programs::Question;
use crate::sheets;
use crate::table::Table;
use boundary::{entries, REPORT, WORK};
use second::machine::{Machine, STACK, STORE};

/// Prints a table for each of two sheets.
pub fn table() {
    table_of("256 objects, 64 frames", &sheets::holders());
    table_of("the same, at work", &sheets::holders_at_work());
}

fn table_of(name: &str, sheet: &str) {
    let text = sheet.as_bytes();
    check(text);
    let questions = [
        Question::Report(u32::MAX),
        Question::Group(u32::MAX, 16),
        Question::Group(u32::MAX, 1),
        Question::Run(u32::MAX),
    ];
    let asked = questions.map(|question| Asked { question, text });
    let pairs = pairs::measure(&asked);
    let mut table = Table::new(&[&[name], &pairs::HEADS[..]].concat());
    for (name, pair) in [
        ("verdict, run and every holder", pairs[0]),
        ("verdict, run and a group of 16", pairs[1]),
        ("verdict, run and one holder", pairs[2]),
        ("verdict and run", pairs[3]),
        ("every holder alone", pairs[0].less(pairs[3])),
        ("a group of 16 alone", pairs[1].less(pairs[3])),
    ] {
        table.add([vec![name.to_string()], pair.cells(None)].concat());
    }
    table.print();
}

/// Whether store and stack are full of resources, and both programs answer
/// the same of every holder.
fn check(text: &[u8]) {
    second::verdict(text).expect("an accepted sheet");
    let sheet = second::read(text).expect("an accepted sheet");
    assert!(sheet.rows.iter().all(|row| row.resource));
    let mut machine = Machine::start(&sheet);
    machine.run(u32::MAX);
    let sizes = (machine.objects.len(), machine.frames.len());
    assert_eq!(sizes, (STORE, STACK));
    let (mut work, mut result) = (vec![0; WORK], vec![0; REPORT]);
    let given = boundary::report(text, u32::MAX, &mut work, &mut result);
    assert_eq!(given.refusal, 0);
    assert_eq!(result[..given.count as usize], entries(&machine));
}
