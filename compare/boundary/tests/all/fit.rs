//! The reading pass and the fit question against the second program.

use crate::common::{is_left_clean, noise};
use crate::refused::{fit_of, told_of, SHORT};
use boundary::{fit, four, FitResult, WORK};
use second::{FitTold, Refusal, Sheet};

fn wanted(told: Result<FitTold, Refusal>) -> FitResult {
    match told {
        Ok(told) => told_of(told),
        Err(refusal) => fit_of(four(refusal)),
    }
}

/// Asks, compares, and looks at every number of the buffer afterwards.
fn compare(text: &[u8], a: u32, b: u32, entry: &[u16], name: &str) -> FitResult {
    let mut work = entry.to_vec();
    let answer = fit(text, a as usize, b as usize, &mut work);
    assert_eq!(answer, wanted(second::fit(text, a, b)), "{name}");
    is_left_clean(&work, entry, name);
    answer
}

#[test]
fn reading_agrees_on_20000_sheets() {
    let mut seen = [0_u32; 12];
    for index in 0..20_000 {
        let text = generator::sheet(31, index);
        let entry = noise(index + 1, WORK + (index as usize % 3) * 7);
        let answer = compare(&text, 0, 0, &entry, &format!("sheet {index}"));
        seen[answer.refusal as usize] += 1;
    }
    for number in [0, 2, 3, 4, 5, 6, 7] {
        assert!(seen[number] > 0, "{number} was never the answer");
    }
}

/// Asks for every two rows of a sheet; how often each thing was lacking, and
/// how often each number of members was passed.
fn compare_pairs(text: &[u8], sheet: &Sheet, name: &str, lacks: &mut [u32], counts: &mut [u32]) {
    let rows = sheet.rows.len() as u16;
    let table = second::fit::FitTable::of(&sheet.rows);
    let mut work = noise(text.len() as u64, WORK);
    for (a, b) in (0..rows).flat_map(|a| (0..rows).map(move |b| (a, b))) {
        let answer = fit(text, a.into(), b.into(), &mut work);
        let told = table.told(&sheet.rows, a, b);
        assert_eq!(answer, told_of(told), "{name}, rows {a} and {b}");
        lacks[answer.lack as usize] += 1;
        counts[answer.passed as usize] += 1;
    }
}

#[test]
fn all_pairs_of_rows_agree_on_300_sheets() {
    let (mut sheets, mut lacks, mut counts) = (0, [0; 4], [0; 9]);
    for index in 0.. {
        let text = generator::sheet(32, index);
        let Ok(sheet) = second::read(&text) else {
            continue;
        };
        let name = format!("sheet {index}");
        compare_pairs(&text, &sheet, &name, &mut lacks, &mut counts);
        sheets += 1;
        if sheets == 300 {
            break;
        }
    }
    let [yes, count, kind, member] = lacks;
    assert!(yes.min(kind).min(member) > 1_000, "{lacks:?}");
    assert_eq!(count, 0);
    assert!(counts[..8].iter().all(|met| *met > 100), "{counts:?}");
}

#[test]
fn all_pairs_of_rows_agree_on_30_wide_sheets() {
    let (mut lacks, mut counts) = ([0; 4], [0; 9]);
    for index in 0..30 {
        let text = generator::wide(33, index);
        let sheet = second::read(&text).expect("a readable sheet");
        let name = format!("wide sheet {index}");
        compare_pairs(&text, &sheet, &name, &mut lacks, &mut counts);
    }
    assert!(counts.iter().all(|met| *met > 500), "{counts:?}");
}

#[test]
fn a_row_that_is_not_there_is_refused_at_line_0() {
    let text = b"types=1\ntype=0,0\nforms=1\nform=0,0\nmain=1\nnew=0\n";
    for (a, b) in [(0, 0), (1, 0), (0, 1), (64, 0), (0, 65_536), (u32::MAX, 0)] {
        compare(text, a, b, &noise(7, WORK), &format!("rows {a} and {b}"));
    }
    let mut work = noise(8, WORK);
    let loose = fit_of([7, 0, 0, 0]);
    assert_eq!(fit(text, usize::MAX, 0, &mut work), loose);
}

#[test]
fn a_short_buffer_is_refused_first_and_left_as_it_was() {
    let long = vec![b'x'; 70_000];
    for length in [0, 1, 4_096, WORK - 1] {
        for text in [&b""[..], &long[..]] {
            let entry = noise(9, length);
            let mut work = entry.clone();
            assert_eq!(fit(text, 0, 0, &mut work), fit_of(SHORT));
            assert_eq!(work, entry);
        }
    }
}

#[test]
fn a_text_at_the_limit_is_read_and_one_over_it_is_not() {
    for length in [65_534, 65_535, 65_536, 70_000] {
        let text = vec![b'\n'; length];
        compare(&text, 0, 0, &noise(10, WORK), &format!("{length} bytes"));
    }
}
