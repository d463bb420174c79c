//! Wide sheets: their sizes, and that each is another.

use generator::wide;
use second::sheet::Row;
use std::collections::BTreeSet;

/// The rows of sheets 0 to `count` - 1.
fn all_rows(seed: u64, count: u64) -> impl Iterator<Item = Vec<Row>> {
    let read = |text: Vec<u8>| second::read(&text).expect("a wide sheet can be read");
    (0..count).map(move |index| read(wide(seed, index)).rows)
}

#[test]
fn the_seed_and_the_index_decide_a_wide_sheet() {
    assert_eq!(wide(5, 6), wide(5, 6));
    assert_ne!(wide(5, 6), wide(6, 6));
    let texts = (0..300).map(|index| wide(5, index));
    assert_eq!(BTreeSet::from_iter(texts).len(), 300);
}

#[test]
fn wide_sheets_are_well_typed() {
    for index in 0..300 {
        assert_eq!(second::verdict(&wide(7, index)), Ok(()), "index {index}");
    }
}

#[test]
fn all_rows_but_two_are_wide() {
    let (mut counts, mut members, mut names) = ([0; 65], [0; 9], [0; 64]);
    for rows in all_rows(8, 300) {
        counts[rows.len()] += 1;
        assert!(rows[0].members.is_empty() && rows[1].members.is_empty());
        assert!(!rows[0].resource && rows[1].resource);
        for row in &rows[2..] {
            members[row.members.len()] += 1;
            for member in &row.members {
                names[usize::from(member.name)] += 1;
            }
        }
    }
    assert_eq!(counts[..16], [0; 16]);
    assert!(counts[16] > 0 && counts[64] > 0, "{counts:?}");
    assert_eq!(members[..5], [0; 5]);
    assert!(
        members[5..].iter().all(|count| *count > 1_000),
        "{members:?}"
    );
    assert!(names.iter().all(|count| *count > 300), "{names:?}");
}
