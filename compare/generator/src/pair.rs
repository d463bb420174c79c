//! Pairs of rows for the fit question.

use crate::rng::Rng;

/// Keeps the pairs of a seed apart from its sheets.
const APART: u64 = 0x70_6169_7273;
/// Rows that are no further apart than this are near.
const NEAR: usize = 3;

/// Two pairs of rows of a sheet that has `rows` of them, at least one; the
/// seed and the index decide them. The second is often the first the other
/// way round.
pub fn pairs(seed: u64, index: u64, rows: u16) -> [(u16, u16); 2] {
    let mut rng = Rng::new(seed ^ APART, index);
    let first = pair(&mut rng, usize::from(rows));
    let second = match rng.chance(40) {
        true => (first.1, first.0),
        false => pair(&mut rng, usize::from(rows)),
    };
    [first, second]
}

/// A row with itself, with one that is near, or with any. A row that was
/// made from another mostly stands near it.
fn pair(rng: &mut Rng, rows: usize) -> (u16, u16) {
    let a = rng.below(rows);
    let b = match rng.below(10) {
        0 => a,
        1..=4 => rng.between(a.saturating_sub(NEAR), (a + NEAR).min(rows - 1)),
        _ => rng.below(rows),
    };
    (a as u16, b as u16)
}
