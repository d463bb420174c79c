//! The typing verdict against the second program.

use crate::common::{is_left_clean, noise};
use crate::refused::{verdict_of, NONE, SHORT};
use boundary::{four, verdict, VerdictResult, WORK};

fn wanted(text: &[u8]) -> VerdictResult {
    let refusal = second::verdict(text).err();
    verdict_of(refusal.map_or(NONE, four))
}

/// Asks, compares, and looks at every number of the buffer afterwards.
fn compare(text: &[u8], entry: &[u16], name: &str) -> VerdictResult {
    let mut work = entry.to_vec();
    let answer = verdict(text, &mut work);
    assert_eq!(answer, wanted(text), "{name}");
    is_left_clean(&work, entry, name);
    answer
}

/// Compares on sheets of one kind; how many answers there were by refusal, and
/// by what is lacking.
fn compare_all(sheet: fn(u64, u64) -> Vec<u8>, count: u64) -> ([u32; 15], [u32; 4]) {
    let (mut seen, mut lacks) = ([0; 15], [0; 4]);
    for index in 0..count {
        let text = sheet(41, index);
        let entry = noise(index + 1, WORK + (index as usize % 3) * 7);
        let answer = compare(&text, &entry, &format!("sheet {index}"));
        seen[answer.refusal as usize] += 1;
        lacks[answer.lack as usize] += 1;
    }
    (seen, lacks)
}

#[test]
fn the_verdict_agrees_on_20000_sheets() {
    let (seen, lacks) = compare_all(generator::sheet, 20_000);
    for number in [0, 2, 3, 4, 5, 6, 7, 8, 9, 10, 14] {
        assert!(seen[number] > 0, "{number} was never the answer");
    }
    assert!(lacks.iter().all(|count| *count > 200), "{lacks:?}");
}

/// These are mostly ill typed, for whatever stands first.
#[test]
fn the_verdict_agrees_on_1000_readable_sheets() {
    let (seen, lacks) = compare_all(generator::readable, 1_000);
    assert!(seen[10] > 100, "{seen:?}");
    assert!(lacks.iter().all(|count| *count > 10), "{lacks:?}");
}

/// Each at its edge: the count, the lines, their forms, and what stands before
/// or after a wrong device.
#[test]
fn the_edges_of_devices_have_their_numbers_and_lines() {
    let edges = generator::device_edges();
    assert!(edges.len() > 50, "{} edges", edges.len());
    for (number, (text, wanted)) in edges.iter().enumerate() {
        let name = format!("edge {number}");
        let answer = compare(text, &noise(5, WORK), &name);
        assert_eq!((answer.refusal, answer.line), *wanted, "{name}");
    }
}

/// Document 01's sheet P, with one line changed.
fn p_with(number: usize, line: &str) -> Vec<u8> {
    let p = "types=3 type=0,0 type=1,1 def=1,0,0 type=1,1 def=2,0,0 forms=3 form=0,0 form=1,0 body=1 copy=1 \
             form=2,1 keep=1 body=1 call=2,1,1 main=4 new=0 new=1 new=2,1 call=2,2,0";
    let mut lines: Vec<&str> = p.split_whitespace().collect();
    lines[number - 1] = line;
    lines
        .iter()
        .flat_map(|l| l.bytes().chain([b'\n']))
        .collect()
}

#[test]
fn the_paper_s_cases_have_their_numbers_and_lines() {
    let cases = [
        (1, "types=3", 0, 0),
        (6, "def=1,0,0", 6, 6),
        (19, "new=2,0", 10, 19),
        (5, "type=0,1", 8, 13),
        (20, "call=2,3,0", 9, 20),
        (20, "call=4,2,0", 7, 20),
        (1, "types=0", 4, 1),
        (1, "types=65", 4, 1),
        (1, "types=03", 3, 1),
    ];
    for (number, line, refusal, at) in cases {
        let text = p_with(number, line);
        let name = format!("line {number} as {line}");
        let answer = compare(&text, &noise(3, WORK), &name);
        assert_eq!((answer.refusal, answer.line), (refusal, at), "{name}");
    }
}

#[test]
fn a_short_buffer_is_refused_first_and_left_as_it_was() {
    for length in [0, WORK - 1] {
        let entry = noise(9, length);
        let mut work = entry.clone();
        let answer = verdict(&p_with(1, "types=3"), &mut work);
        assert_eq!(answer, verdict_of(SHORT));
        assert_eq!(work, entry);
    }
}
