//! The generator's sheets: reproducible, of every kind, well typed where
//! they should be.

use generator::{sheet, ROTATION};
use second::verdict;

/// Refusal number and line; zeros if the sheet is accepted.
fn pair(text: &[u8]) -> (u32, u32) {
    match verdict(text) {
        Ok(()) => (0, 0),
        Err(refusal) => (refusal.number(), refusal.line),
    }
}

#[test]
fn the_seed_and_the_index_decide_every_byte() {
    let all = |seed| (0..200).map(|index| sheet(seed, index)).collect::<Vec<_>>();
    assert_eq!(all(5), all(5));
    let same = all(5).iter().zip(all(6)).filter(|(a, b)| *a == b).count();
    // The edges are the same for every seed, and few others.
    assert!(
        (25..45).contains(&same),
        "{same} of 200 sheets are the same"
    );
    let well_typed: Vec<_> = (0..40)
        .map(|round| sheet(5, round * ROTATION + 2))
        .collect();
    for (place, text) in well_typed.iter().enumerate() {
        assert!(!well_typed[..place].contains(text));
    }
}

#[test]
fn the_first_eight_kinds_are_well_typed() {
    for round in 0..150 {
        for kind in 0..8 {
            let index = round * ROTATION + kind;
            assert_eq!(pair(&sheet(9, index)), (0, 0), "index {index}");
        }
    }
}

#[test]
fn sizes_reach_the_limits() {
    let texts: Vec<Vec<u8>> = (0..200)
        .map(|round| sheet(3, round * ROTATION + 3))
        .collect();
    let has = |line: &str| {
        let found = |text: &Vec<u8>| String::from_utf8_lossy(text).lines().any(|own| own == line);
        texts.iter().any(found)
    };
    for line in ["types=64", "type=1,8", "forms=64", "body=32", "main=32"] {
        assert!(has(line), "no sheet with {line}");
    }
    let smallest = (0..ROTATION * 50).map(|index| sheet(3, index).len()).min();
    assert_eq!(smallest, Some(0));
}

#[test]
fn changes_reach_each_refusal_from_3_to_10() {
    let mut reached = [0; 12];
    for round in 0..80 {
        for kind in 8..15 {
            reached[pair(&sheet(4, round * ROTATION + kind)).0 as usize] += 1;
        }
    }
    for (number, count) in reached.iter().enumerate().take(11).skip(3) {
        assert!(*count >= 5, "refusal {number} is reached {count} times");
    }
}

#[test]
fn damaged_bytes_are_mostly_torn_lines() {
    let texts: Vec<Vec<u8>> = (0..70)
        .flat_map(|round| [15, 16].map(|kind| sheet(4, round * ROTATION + kind)))
        .collect();
    let torn = texts.iter().filter(|text| pair(text).0 == 3).count();
    assert!(torn > 100 && torn < 140, "{torn} of 140");
    let count = |test: fn(&Vec<u8>) -> bool| texts.iter().filter(|text| test(text)).count();
    // A text may also be cut at its first byte.
    assert!((10..15).contains(&count(|text| text.is_empty())));
    assert!(count(|text| text.iter().any(|byte| *byte > 127)) >= 10);
    assert!(count(|text| text.contains(&b'\r')) >= 10);
    assert!(count(|text| text.last().is_some_and(|byte| *byte != b'\n')) >= 10);
    let digits = |text: &Vec<u8>| {
        text.split(|byte| !byte.is_ascii_digit())
            .any(|run| run.len() == 600)
    };
    assert_eq!(count(digits), 10);
}
