//! Every limit at its edge: what the rules say of each of these sheets.

use generator::{sheet, ROTATION};

/// The edge of this number; three stand in each round of the rotation.
fn edge(number: u64) -> Vec<u8> {
    sheet(1, number / 3 * ROTATION + 17 + number % 3)
}

fn pair(text: &[u8]) -> (u32, u32) {
    match second::verdict(text) {
        Ok(()) => (0, 0),
        Err(refusal) => (refusal.number(), refusal.line),
    }
}

fn check(first: u64, expected: &[(u32, u32)]) {
    for (number, expected) in (first..).zip(expected) {
        let text = edge(number);
        let head = String::from_utf8_lossy(&text[..text.len().min(200)]).into_owned();
        assert_eq!(pair(&text), *expected, "edge {number}:\n{head}");
    }
}

#[test]
fn types_members_forms_and_kept_values() {
    check(0, &[(4, 1), (0, 0), (0, 0), (4, 1)]);
    check(4, &[(0, 0), (4, 3)]);
    check(6, &[(7, 5), (9, 5), (0, 0), (7, 69), (4, 3)]);
    check(11, &[(0, 0), (4, 5), (10, 16), (10, 15), (3, 16)]);
}

#[test]
fn instructions() {
    // Bodies, then mains.
    check(16, &[(4, 8), (0, 0), (0, 0), (4, 8)]);
    check(20, &[(4, 10), (0, 0), (0, 0), (4, 10)]);
    // All of a sheet: 1,024 are allowed.
    let main = 4 + 2 + 31 * 34 + 1;
    check(24, &[(0, 0), (0, 0), (4, main + 3)]);
    check(27, &[(0, 0), (4, main + 34), (4, main + 35)]);
}

#[test]
fn names_and_kinds() {
    check(30, &[(0, 0), (4, 4), (4, 13)]);
    check(33, &[(0, 0), (4, 5), (4, 11), (0, 0), (4, 11)]);
    check(38, &[(0, 0), (4, 3)]);
}

#[test]
fn decimals_slots_and_rows() {
    check(40, &[(4, 1), (3, 1), (7, 8), (3, 8), (0, 0), (7, 8)]);
    check(46, &[(3, 8), (3, 8), (0, 0), (7, 5)]);
}

#[test]
fn store_and_stack() {
    check(50, &[(0, 0); 5]);
    let outcome = |number| second::run(&edge(number), 10_000).map(|run| run.outcome as u8);
    assert_eq!([50, 51, 52, 53].map(outcome), [Ok(0), Ok(2), Ok(0), Ok(3)]);
    // The tall ladders, one way round and the other.
    check(54, &[(0, 0), (10, 550)]);
}

#[test]
fn lengths_of_text() {
    for round in 0..4 {
        let length = |number| edge(number + round * 59).len();
        assert_eq!([56, 57, 58].map(length), [65_535, 65_536, 70_000]);
        assert_eq!(pair(&edge(56 + round * 59)).0, 3);
        assert_eq!(pair(&edge(57 + round * 59)), (2, 0));
        assert_eq!(pair(&edge(58 + round * 59)), (2, 0));
    }
}
