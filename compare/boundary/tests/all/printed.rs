//! The proved program's printed lines against the second program's.

use crate::common::CLERK;
use std::io::Write;
use std::path::Path;
use std::process::{Command, Stdio};
use std::time::Duration;

const PROGRAM: &str = concat!(env!("CARGO_MANIFEST_DIR"), "/../../target/bin/sheet_report");

/// What the program prints for a text on its standard input.
fn printed(text: &[u8]) -> String {
    printed_in(&[text])
}

/// What it prints for a text that comes in pieces, with a pause after each.
fn printed_in(pieces: &[&[u8]]) -> String {
    let child = Command::new(PROGRAM)
        .stdin(Stdio::piped())
        .stdout(Stdio::piped())
        .spawn();
    let mut child = child.unwrap_or_else(|error| {
        panic!("target/bin/sheet_report does not start ({error}): `.ci/build program` builds it")
    });
    let mut input = child.stdin.take().expect("standard input");
    for (i, piece) in pieces.iter().enumerate() {
        if i > 0 {
            std::thread::sleep(Duration::from_millis(1));
        }
        input.write_all(piece).expect("the whole text is taken");
    }
    drop(input);
    let output = child.wait_with_output().expect("the program ends");
    assert!(output.status.success(), "{}", output.status);
    String::from_utf8(output.stdout).expect("plain text")
}

/// What was printed first, and of an accepted sheet the outcome; and how many
/// holders were printed bare or with a set.
#[derive(Default)]
struct Seen {
    verdicts: [u32; 15],
    outcomes: [u32; 4],
    bare: u32,
    sets: u32,
}

impl Seen {
    fn compare(&mut self, text: &[u8], name: &str) {
        let wanted = second::print(text);
        assert_eq!(printed(text), wanted, "{name}");
        for line in wanted.lines() {
            let (key, value) = line.split_once('=').expect("a key");
            match (key, value.parse::<usize>()) {
                ("verdict", Ok(number)) => self.verdicts[number] += 1,
                ("outcome", Ok(number)) => self.outcomes[number] += 1,
                ("holder", Ok(_)) => self.bare += 1,
                ("holder", Err(_)) => self.sets += 1,
                _ => {}
            }
        }
    }

    fn add(&mut self, other: &Seen) {
        let each = |sum: &mut [u32], more: &[u32]| {
            sum.iter_mut()
                .zip(more)
                .for_each(|(sum, more)| *sum += more);
        };
        each(&mut self.verdicts, &other.verdicts);
        each(&mut self.outcomes, &other.outcomes);
        self.bare += other.bare;
        self.sets += other.sets;
    }
}

/// `count` sheets, half of them in a thread of their own.
fn compare_all(count: u64, sheet: impl Fn(u64) -> Vec<u8> + Sync) -> Seen {
    let half = |first: u64| {
        let mut seen = Seen::default();
        for index in (first..count).step_by(2) {
            seen.compare(&sheet(index), &format!("sheet {index}"));
        }
        seen
    };
    std::thread::scope(|scope| {
        let odd = scope.spawn(|| half(1));
        let mut seen = half(0);
        seen.add(&odd.join().expect("the odd ones agree"));
        seen
    })
}

#[test]
fn the_printed_lines_agree_on_20000_sheets() {
    let seen = compare_all(20_000, |index| generator::sheet(81, index));
    for number in [0, 2, 3, 4, 5, 6, 7, 8, 9, 10, 14] {
        assert!(seen.verdicts[number] > 0, "{number} was never printed");
    }
    let outcomes = seen.outcomes;
    assert!(outcomes.iter().all(|count| *count > 100), "{outcomes:?}");
    assert!(seen.bare > 1_000, "{} bare", seen.bare);
    assert!(seen.sets > 100_000, "{} sets", seen.sets);
}

#[test]
fn the_printed_lines_agree_on_1000_mills() {
    let seen = compare_all(1_000, |index| generator::mill(82, index));
    assert_eq!(seen.verdicts[0], 1_000);
    let outcomes = seen.outcomes;
    assert!(outcomes.iter().all(|count| *count > 20), "{outcomes:?}");
}

#[test]
fn the_paper_s_lines_for_the_clerk() {
    let lines = "verdict=0\nline=0\noutcome=0\nsteps=8\nvalue=0\n\
                 holder=256\nholder=1,1\nholder=2,1,2\n";
    assert_eq!(printed(CLERK), lines);
}

/// A pipe gives what was written so far: the program reads on to the end.
#[test]
fn a_sheet_that_comes_in_pieces_is_read_whole() {
    let whole = second::print(CLERK);
    for cut in [1, 9, CLERK.len() / 2, CLERK.len() - 1] {
        let (first, last) = CLERK.split_at(cut);
        assert_eq!(printed_in(&[first, last]), whole, "cut at {cut}");
    }
    let bytes: Vec<&[u8]> = CLERK.chunks(1).collect();
    assert_eq!(printed_in(&bytes), whole, "byte by byte");
    let long = vec![b'x'; 70_000];
    let pieces: Vec<&[u8]> = long.chunks(9_000).collect();
    assert_eq!(printed_in(&pieces), "verdict=2\nline=0\n", "a long text");
}

/// Each example has its lines stored beside it: one sheet for each outcome,
/// one for each refusal from 3 to 10 and for 14, for the question for the most
/// steps one that is answered and one that is not, and others.
#[test]
fn every_example_prints_its_stored_lines() {
    let folder = Path::new(env!("CARGO_MANIFEST_DIR")).join("../../examples");
    let mut seen = Seen::default();
    for file in folder.read_dir().expect("the examples") {
        let path = file.expect("an example").path();
        if path.extension().is_some_and(|kind| kind == "sheet") {
            let name = path.display().to_string();
            let text = std::fs::read(&path).expect("a sheet");
            let stored = std::fs::read_to_string(path.with_extension("printed"));
            assert_eq!(printed(&text), stored.expect("stored lines"), "{name}");
            seen.compare(&text, &name);
        }
    }
    assert_eq!(seen.outcomes, [6, 1, 1, 1]);
    let verdicts = [9, 0, 0, 1, 1, 1, 1, 1, 1, 1, 1, 0, 0, 0, 1];
    assert_eq!(seen.verdicts, verdicts);
}

#[test]
fn an_empty_text_and_long_ones() {
    assert_eq!(printed(b""), "verdict=3\nline=1\n");
    let mut seen = Seen::default();
    for length in [65_535, 65_536, 65_537, 1_000_000] {
        let mut text = CLERK.to_vec();
        text.resize(length, b'x');
        let wanted = match length {
            65_535 => "verdict=3\nline=21\n",
            _ => "verdict=2\nline=0\n",
        };
        assert_eq!(printed(&text), wanted, "{length} bytes");
        seen.compare(&text, "a clerk with more");
        seen.compare(&vec![b'\n'; length], "breaks");
        seen.compare(&vec![0; length], "zeros");
    }
    assert_eq!(seen.verdicts[2], 9);
}
