//! What is looked at when a holder, or a list of them, is asked for.

use crate::common::{is_left_clean, is_written, noise};
use crate::refused::{held_of, SHORT};
use boundary::{AuthorityResult, AUTHORITY, WORK};

/// The work buffer and the result buffer.
type Buffers = [Vec<u16>; 2];

/// Asks with buffers of these lengths: the answer, and the buffers at entry
/// and at return.
fn ask(
    lengths: (usize, usize),
    call: impl Fn(&mut [u16], &mut [u16]) -> AuthorityResult,
) -> (AuthorityResult, Buffers, Buffers) {
    let entry = [noise(21, lengths.0), noise(22, lengths.1)];
    let [mut work, mut result] = entry.clone();
    let answer = call(&mut work, &mut result);
    (answer, entry, [work, result])
}

/// The answer is this refusal and line, or zeros and these numbers, in
/// buffers of exactly the size and in longer ones.
pub fn check(
    name: &str,
    (refusal, line): (u32, u32),
    held: &[u16],
    call: impl Fn(&mut [u16], &mut [u16]) -> AuthorityResult,
) {
    let count = held.len() as u32;
    let wanted = AuthorityResult {
        count,
        ..held_of([refusal, line, 0, 0])
    };
    for lengths in [(WORK, AUTHORITY), (WORK + 5, AUTHORITY + 9)] {
        let (answer, entry, exit) = ask(lengths, &call);
        assert_eq!(answer, wanted, "{name}");
        is_left_clean(&exit[0], &entry[0], name);
        is_written(&exit[1], &entry[1], held, name);
    }
}

/// In buffers of these lengths, of which one is too short, the answer is 1 at
/// line 0, and both are left as they were.
pub fn is_short(lengths: (usize, usize), call: impl Fn(&mut [u16], &mut [u16]) -> AuthorityResult) {
    let (answer, entry, exit) = ask(lengths, call);
    assert_eq!(answer, held_of(SHORT), "{lengths:?}");
    assert!(entry == exit, "{lengths:?}");
}
