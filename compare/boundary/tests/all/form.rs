//! The question for one form's lines against the second program, and at the
//! edges of its buffer, of the text and of the numbers.

use crate::common::{is_left_clean, lines, noise, CLERK};
use crate::refused::{form_of, NONE, SHORT};
use boundary::{form, four, FormResult, WORK};

/// The second program's answer, as a place in the text.
pub fn stretch_of(text: &[u8], number: usize) -> FormResult {
    match second::form(text, number) {
        Ok(part) => FormResult {
            start: part.as_ptr() as usize - text.as_ptr() as usize,
            length: part.len(),
            ..form_of(NONE)
        },
        Err(refusal) => form_of(four(refusal)),
    }
}

/// Asks, compares, and looks at every number of the buffer afterwards.
fn compare(text: &[u8], number: usize, entry: &[u16], name: &str) -> FormResult {
    let mut work = entry.to_vec();
    let answer = form(text, number, &mut work);
    assert_eq!(answer, stretch_of(text, number), "{name}, form {number}");
    is_left_clean(&work, entry, name);
    answer
}

/// Asks for every form of each sheet, and for one too many; how many parts
/// were given, and how often each refusal.
fn compare_all(make: fn(u64, u64) -> Vec<u8>, count: u64) -> [u32; 8] {
    let mut seen = [0; 8];
    for index in 0..count {
        let text = make(95, index);
        let forms = second::read(&text).map_or(0, |sheet| sheet.forms.len());
        let entry = noise(index + 1, WORK + (index as usize % 3) * 7);
        for number in 0..=forms {
            let answer = compare(&text, number, &entry, &format!("sheet {index}"));
            seen[answer.refusal as usize] += 1;
        }
    }
    seen
}

#[test]
fn every_form_and_one_too_many_agree_on_2000_sheets() {
    let seen = compare_all(generator::sheet, 2_000);
    assert!(seen[0] > 10_000, "{} parts", seen[0]);
    for number in [2, 3, 4, 5, 6, 7] {
        assert!(seen[number] > 0, "{number} was never the answer");
    }
}

#[test]
fn every_form_and_one_too_many_agree_on_500_readable_sheets() {
    let seen = compare_all(generator::readable, 500);
    assert!(seen[0] > 8_000, "{} parts", seen[0]);
    assert_eq!(seen[7], 500, "one too many for each");
}

#[test]
fn a_form_that_is_not_there_is_refused_at_line_0() {
    for number in [3, 4, 63, 64, 65_535, 65_536, 65_538, usize::MAX] {
        let answer = compare(CLERK, number, &noise(7, WORK), "the clerk");
        assert_eq!(answer, form_of([7, 0, 0, 0]));
    }
    let formless = lines("types=1 / type=0,0 / forms=0 / main=1 / get=0");
    for number in [0, 1] {
        let answer = compare(&formless, number, &noise(7, WORK), "no form");
        assert_eq!(answer, form_of([7, 0, 0, 0]));
    }
}

#[test]
fn a_refusal_of_reading_comes_before_the_missing_form() {
    let torn = &CLERK[..CLERK.len() - 1];
    for number in [0, 2, 3, usize::MAX] {
        let answer = compare(torn, number, &noise(8, WORK), "a torn sheet");
        assert_eq!(answer, form_of([3, 20, 0, 0]));
    }
}

#[test]
fn a_short_buffer_is_refused_first_and_left_as_it_was() {
    for length in [0, 1, WORK - 1] {
        for text in [&b""[..], CLERK, &[b'x'; 65_536]] {
            let entry = noise(9, length);
            let mut work = entry.clone();
            assert_eq!(form(text, 1, &mut work), form_of(SHORT));
            assert_eq!(work, entry);
        }
    }
}

#[test]
fn a_text_over_the_limit_is_not_read() {
    for length in [65_535, 65_536, 70_000] {
        let text = vec![b'\n'; length];
        compare(&text, 0, &noise(10, WORK), &format!("{length} bytes"));
    }
}
