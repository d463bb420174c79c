//! Where the forms stand in a text that has passed reading. There each
//! `form` line begins a form, which goes on to the last line before the next
//! `form` line or the end of the forms.

use crate::line::{split_key, Key};

/// Whether a line with this key is past the forms.
fn ends_forms(key: Key) -> bool {
    matches!(key, Key::Devices | Key::Main)
}

/// The stretch of each form, in their order.
pub(crate) fn stretches(text: &[u8]) -> Vec<&[u8]> {
    let borders = borders(text);
    let pairs = borders.windows(2);
    pairs.map(|pair| &text[pair[0]..pair[1]]).collect()
}

/// Where each form begins, and last where the forms end.
fn borders(text: &[u8]) -> Vec<usize> {
    let mut borders = Vec::new();
    let mut start = 0;
    for line in text.split_inclusive(|byte| *byte == b'\n') {
        match split_key(line) {
            Some((Key::Form, _)) => borders.push(start),
            Some((key, _)) if ends_forms(key) => {
                borders.push(start);
                break;
            }
            _ => {}
        }
        start += line.len();
    }
    borders
}
