//! The lines of a text, and what stands on each.

use crate::key::Key;
use std::ops::Range;

/// A line as it stands in the text.
#[derive(Clone, Copy, Debug)]
pub struct Line<'a> {
    /// Counted from 1.
    pub number: usize,
    /// Without its byte 10.
    pub bytes: &'a [u8],
    /// Whether byte 10 ends it.
    pub ended: bool,
}

/// The lines of a text. The last may lack its byte 10.
pub fn lines(text: &[u8]) -> Vec<Line<'_>> {
    let pieces = text.split_inclusive(|byte| *byte == b'\n');
    let numbered = pieces.zip(1..);
    numbered
        .map(|(piece, number)| {
            let bytes = piece.strip_suffix(b"\n");
            Line {
                number,
                bytes: bytes.unwrap_or(piece),
                ended: bytes.is_some(),
            }
        })
        .collect()
}

/// A piece of a line, and where it stands there.
pub struct Piece<'a> {
    pub bytes: &'a [u8],
    pub span: Range<usize>,
}

impl<'a> Line<'a> {
    /// What stands before the first `=`, if there is one.
    pub fn word(&self) -> Option<&'a [u8]> {
        let equals = self.bytes.iter().position(|byte| *byte == b'=')?;
        Some(&self.bytes[..equals])
    }

    /// What stands behind the first `=`, split at its commas.
    pub fn pieces(&self) -> Vec<Piece<'a>> {
        let Some(word) = self.word() else {
            return Vec::new();
        };
        let mut at = word.len() + 1;
        let mut pieces = Vec::new();
        for bytes in self.bytes[at..].split(|byte| *byte == b',') {
            let span = at..at + bytes.len();
            at = span.end + 1;
            pieces.push(Piece { bytes, span });
        }
        pieces
    }

    /// The line as a key and its numbers, if it is in a sheet's shape.
    pub fn entry(&self) -> Option<Entry> {
        let key = Key::of(self.word()?)?;
        let pieces = self.pieces();
        let numbers = pieces.iter().map(number_of);
        let numbers = numbers.collect::<Option<Vec<Number>>>()?;
        let counted = key.counts().contains(&numbers.len());
        (self.ended && counted).then_some(Entry { key, numbers })
    }
}

/// A number, and where it stands in its line.
#[derive(Clone, Debug)]
pub struct Number {
    pub value: u16,
    pub span: Range<usize>,
}

/// A line in a sheet's shape.
#[derive(Clone, Debug)]
pub struct Entry {
    pub key: Key,
    pub numbers: Vec<Number>,
}

impl Entry {
    /// Its numbers alone.
    pub fn values(&self) -> Vec<u16> {
        self.numbers.iter().map(|number| number.value).collect()
    }
}

/// The number that a piece is, a decimal without leading zeros.
fn number_of(piece: &Piece) -> Option<Number> {
    let plain = !matches!(piece.bytes, [b'0', _, ..] | [b'+', ..]);
    let digits = std::str::from_utf8(piece.bytes).ok()?;
    let value = digits.parse().ok().filter(|_| plain)?;
    let span = piece.span.clone();
    Some(Number { value, span })
}
