//! Pairs of rows: within bounds, in every order, and every row among them.

use generator::pairs;
use std::cmp::Ordering;
use std::collections::BTreeSet;

#[test]
fn the_seed_and_the_index_decide_the_pairs() {
    let all = |seed, rows| Vec::from_iter((0..200).map(|index| pairs(seed, index, rows)));
    assert_eq!(all(5, 9), all(5, 9));
    assert_ne!(all(5, 9), all(6, 9));
    let two = all(5, 64);
    let different = two.iter().filter(|pairs| !two[..1].contains(pairs)).count();
    assert!(different > 190, "{different} of 200 are not the first");
}

#[test]
fn a_single_row_is_paired_with_itself() {
    for index in 0..200 {
        assert_eq!(pairs(3, index, 1), [(0, 0); 2]);
    }
}

#[test]
fn every_row_and_every_order() {
    for rows in [2, 3, 16, 63, 64] {
        let both = Vec::from_iter((0..4_000).map(|index| pairs(3, index, rows)));
        let all = both.concat();
        let (a, b): (BTreeSet<u16>, BTreeSet<u16>) = all.iter().copied().unzip();
        assert!(a.iter().copied().eq(0..rows), "rows a of {rows}: {a:?}");
        assert!(b.iter().copied().eq(0..rows), "rows b of {rows}: {b:?}");
        for order in [Ordering::Less, Ordering::Equal, Ordering::Greater] {
            let count = all.iter().filter(|(a, b)| a.cmp(b) == order).count();
            assert!(count > 800, "{count} pairs of {rows} rows are {order:?}");
        }
        let turned =
            |two: &&[(u16, u16); 2]| two[0].0 != two[0].1 && two[0] == (two[1].1, two[1].0);
        let count = both.iter().filter(turned).count();
        assert!(count > 800, "{count} of {rows} rows are both ways round");
    }
}
