//! The library called from C with the text, the list and both buffers between
//! pages that nobody may touch: it never steps outside, and the answers about
//! a text agree with each other.

use crate::authority_edges::maker;
use crate::c_driver::{compiled, stored};
use std::collections::{BTreeMap, BTreeSet};
use std::path::{Path, PathBuf};
use std::process::{Command, Output};
use std::sync::OnceLock;

const FILES: [&str; 6] = ["guarded", "rooms", "texts", "asked", "agreed", "slips"];

/// The answers and refusals that the header names for each question: all of
/// them are met, and no other.
const POSSIBLE: [(&str, &[u32]); 8] = [
    ("fit", &[0, 1, 2, 3, 4, 5, 6, 7]),
    ("form", &[0, 1, 2, 3, 4, 5, 6, 7]),
    ("verdict", &[0, 1, 2, 3, 4, 5, 6, 7, 8, 9, 10, 14]),
    ("bound", &[0, 1, 2, 3, 4, 5, 6, 7, 8, 9, 10, 12, 13, 14]),
    ("run", &[0, 1, 2, 3, 4, 5, 6, 7, 8, 9, 10, 14]),
    ("report", &[0, 1, 2, 3, 4, 5, 6, 7, 8, 9, 10, 14]),
    ("authority", &[0, 1, 2, 3, 4, 5, 6, 7, 8, 9, 10, 11, 14]),
    ("group", &[0, 1, 2, 3, 4, 5, 6, 7, 8, 9, 10, 11, 14]),
];

/// What the program, compiled once, does with a word.
fn guarded(word: impl AsRef<Path>) -> Output {
    static PROGRAM: OnceLock<PathBuf> = OnceLock::new();
    let program = PROGRAM.get_or_init(|| compiled(&FILES, &["-O2"]));
    let output = Command::new(program).arg(word.as_ref()).output();
    output.expect("the program runs")
}

/// Sheets of every family, those at the edges of devices and of the bound, and
/// now and then one whose holder has all 256 objects.
pub fn sheets() -> Vec<Vec<u8>> {
    let sheet = |index: u64| match index % 8 {
        0 if index.is_multiple_of(400) => maker(3),
        0 => generator::mill(94, index),
        1 => generator::strict(94, index / 8),
        2 => generator::device(94, index),
        3 => generator::idle(94, index),
        4 => generator::wide(94, index),
        5 => generator::readable(94, index),
        place => generator::sheet(94, index / 8 * 2 + place - 6),
    };
    let devices = generator::device_edges().into_iter().map(|(text, _)| text);
    let bounds = generator::bound_edges().into_iter().map(|(text, _)| text);
    let edges = devices.chain(bounds);
    (0..4_000).map(sheet).chain(edges).collect()
}

/// A line of the table: a question, a refusal, and how many calls had it.
fn row(line: &str) -> ((&str, u32), u64) {
    let words: Vec<&str> = line.split(' ').collect();
    let number = |place: usize| words[place].parse::<u64>().expect("a number");
    ((words[0], number(1) as u32), number(2))
}

#[test]
fn no_question_steps_outside_its_buffers_in_500000_calls_from_c() {
    let output = guarded(stored("guarded.sheets", &sheets()));
    let complaints = String::from_utf8_lossy(&output.stderr);
    assert!(output.status.success(), "{:?}: {complaints}", output.status);
    let printed = String::from_utf8_lossy(&output.stdout);
    let (calls, table) = printed
        .split_once(" calls, 256 held at most\n")
        .expect("the calls and a full result");
    let table: BTreeMap<(&str, u32), u64> = table.lines().map(row).collect();
    let calls: u64 = calls.parse().expect("a number");
    assert!(calls >= 500_000, "{calls} calls");
    assert_eq!(table.values().sum::<u64>(), calls);
    let possible = POSSIBLE.iter().flat_map(|(question, refusals)| {
        let refusals = refusals.iter();
        refusals.map(move |refusal| (*question, *refusal))
    });
    let possible: BTreeSet<(&str, u32)> = possible.collect();
    assert!(table.keys().eq(&possible), "{printed}");
}

/// The same program makes slips: steps outside, by itself and in the library,
/// and answers and buffers that are not as they must be.
#[test]
fn each_slip_is_noticed() {
    let output = guarded("--slips");
    let told = String::from_utf8_lossy(&output.stderr);
    let printed = String::from_utf8_lossy(&output.stdout);
    assert!(output.status.success(), "{printed}{told}");
    assert_eq!(printed.lines().count(), 23, "{printed}");
    for room in ["text", "list", "work", "result"] {
        for side in ["before", "after"] {
            for question in ["fit", "group"] {
                let line = format!("{question}: a fault {side} {room}\n");
                assert!(told.contains(&line), "{line}{told}");
            }
        }
    }
}
