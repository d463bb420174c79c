//! What the comparisons share.

use boundary::WORK;
use second::machine::Machine;
use second::{Outcome, Sheet};

/// P, the clerk before a scale.
pub const CLERK: &[u8] = include_bytes!("../../../../examples/clerk.sheet");
/// L, a method that calls itself for ever.
pub const LOOP: &[u8] = include_bytes!("../../../../examples/stack-full.sheet");

/// A clerk that doses by a scale and a valve, which is sure to finish, and the
/// same with one call changed, which is not.
pub const SURE: &[u8] = include_bytes!("../../../../examples/sure.sheet");
pub const CIRCULAR: &[u8] = include_bytes!("../../../../examples/circular.sheet");

/// Two makers that keep the same valve, each with a device of its own.
pub const MAKERS: &[u8] = include_bytes!("../../../../examples/makers.sheet");

/// A sheet that does not end in this number of steps is taken for endless.
const LONG: u32 = 20_000;

/// Numbers for a buffer at entry, which must have no influence.
pub fn noise(seed: u64, length: usize) -> Vec<u16> {
    let mut state = seed | 1;
    let mut next = || {
        state ^= state << 13;
        state ^= state >> 7;
        state ^= state << 17;
        state as u16
    };
    (0..length).map(|_| next()).collect()
}

/// The work buffer after a call that was not refused for it: its first
/// numbers are 0, and the others as they were.
pub fn is_left_clean(work: &[u16], entry: &[u16], name: &str) {
    assert!(work[..WORK].iter().all(|n| *n == 0), "{name}: dirty");
    assert_eq!(work[WORK..], entry[WORK..], "{name}: later numbers");
}

/// The result buffer after a call: these numbers stand at its start, and the
/// later places are as they were.
pub fn is_written(result: &[u16], entry: &[u16], written: &[u16], name: &str) {
    let (start, later) = result.split_at(written.len());
    assert_eq!(start, written, "{name}: written");
    assert!(later == &entry[written.len()..], "{name}: later places");
}

/// A sheet written with ` / ` for its line breaks.
pub fn lines(sheet: &str) -> Vec<u8> {
    let mut text = sheet.replace(" / ", "\n").into_bytes();
    text.push(b'\n');
    text
}

/// A random number that the seed decides (splitmix64).
pub fn draw(seed: u64) -> u64 {
    let mut z = seed.wrapping_add(1).wrapping_mul(0x9E37_79B9_7F4A_7C15);
    z = (z ^ (z >> 30)).wrapping_mul(0xBF58_476D_1CE4_E5B9);
    z = (z ^ (z >> 27)).wrapping_mul(0x94D0_49BB_1331_11EB);
    z ^ (z >> 31)
}

/// A random budget: 0, small, around the sheet's own number of steps, below
/// it, or any 32 bits where the sheet is known to end.
pub fn budget_for(sheet: &Sheet, seed: u64) -> u32 {
    let mut machine = Machine::start(sheet);
    let near = machine.run(10_000).steps;
    let ends = machine.run(LONG).outcome != Outcome::Spent;
    let number = (draw(seed) >> 32) as u32;
    match draw(seed) % 8 {
        0 => 0,
        1 => number % 24,
        2..=3 => (near + number % 3).saturating_sub(1),
        4..=6 => number % (near + 1),
        _ if ends => number,
        _ => number % LONG,
    }
}
