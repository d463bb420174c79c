//! Single lines: a key, `=`, decimals with `,` between, byte 10.

use crate::refusal::{Reason, Refusal};
use std::ops::RangeInclusive;

/// The keys that may start a line.
#[derive(Clone, Copy, Debug, PartialEq, Eq)]
pub enum Key {
    Types,
    Type,
    Def,
    Var,
    Forms,
    Form,
    Keep,
    Init,
    Body,
    Devices,
    Device,
    Main,
    New,
    Call,
    Get,
    Put,
    Copy,
}

impl Key {
    fn from_word(word: &[u8]) -> Option<Key> {
        Some(match word {
            b"types" => Key::Types,
            b"type" => Key::Type,
            b"def" => Key::Def,
            b"var" => Key::Var,
            b"forms" => Key::Forms,
            b"form" => Key::Form,
            b"keep" => Key::Keep,
            b"init" => Key::Init,
            b"body" => Key::Body,
            b"devices" => Key::Devices,
            b"device" => Key::Device,
            b"main" => Key::Main,
            b"new" => Key::New,
            b"call" => Key::Call,
            b"get" => Key::Get,
            b"put" => Key::Put,
            b"copy" => Key::Copy,
            _ => return None,
        })
    }

    /// How many numbers may follow the key.
    fn number_count(self) -> RangeInclusive<usize> {
        match self {
            Key::Type | Key::Var | Key::Form | Key::Put => 2..=2,
            Key::Def | Key::Call => 3..=3,
            Key::New => 1..=9,
            _ => 1..=1,
        }
    }
}

/// A line in the sheet's shape, with a right number count for its key.
#[derive(Clone, Debug)]
pub struct Line {
    pub key: Key,
    pub numbers: Vec<u16>,
    /// Its place in the text, counted from 1.
    pub place: u32,
}

impl Line {
    /// A refusal of this line.
    pub fn refuse<T>(&self, reason: Reason) -> Result<T, Refusal> {
        Err(Refusal::at(reason, self.place))
    }
}

/// The text that is still to be read.
#[derive(Clone, Copy)]
pub struct Lines<'a> {
    rest: &'a [u8],
    /// The place of the next line, counted from 1.
    next: u32,
}

impl<'a> Lines<'a> {
    pub fn new(text: &'a [u8]) -> Lines<'a> {
        Lines {
            rest: text,
            next: 1,
        }
    }

    /// Takes the next line, which must bear one of the wanted keys. A line
    /// that is missing or has no byte 10 is torn, as is a wrong shape.
    pub fn take(&mut self, wanted: &[Key]) -> Result<Line, Refusal> {
        let place = self.next;
        let torn = Refusal::at(Reason::TornLine, place);
        let end = self.rest.iter().position(|b| *b == b'\n').ok_or(torn)?;
        let (key, numbers) = parse(&self.rest[..end]).ok_or(torn)?;
        if !wanted.contains(&key) {
            return Err(torn);
        }
        self.rest = &self.rest[end + 1..];
        self.next += 1;
        Ok(Line {
            key,
            numbers,
            place,
        })
    }

    /// Whether the next line could be taken with this key.
    pub fn next_is(mut self, key: Key) -> bool {
        self.take(&[key]).is_ok()
    }

    /// Nothing may stand after main's last line.
    pub fn finish(&self) -> Result<(), Refusal> {
        if self.rest.is_empty() {
            Ok(())
        } else {
            Err(Refusal::at(Reason::TornLine, self.next))
        }
    }
}

/// A line's key and what stands after its `=`.
pub fn split_key(line: &[u8]) -> Option<(Key, &[u8])> {
    let equals = line.iter().position(|b| *b == b'=')?;
    let key = Key::from_word(&line[..equals])?;
    Some((key, &line[equals + 1..]))
}

/// Takes a line without its byte 10 apart.
fn parse(line: &[u8]) -> Option<(Key, Vec<u16>)> {
    let (key, numbers) = split_key(line)?;
    let numbers = numbers
        .split(|b| *b == b',')
        .map(decimal)
        .collect::<Option<Vec<u16>>>()?;
    key.number_count()
        .contains(&numbers.len())
        .then_some((key, numbers))
}

/// A decimal from 0 to 65,535 without leading zeros.
fn decimal(digits: &[u8]) -> Option<u16> {
    // Six digits are already too many, however long the number is.
    if digits.is_empty() || digits.len() > 5 || (digits[0] == b'0' && digits.len() > 1) {
        return None;
    }
    let mut value = 0u32;
    for digit in digits {
        if !digit.is_ascii_digit() {
            return None;
        }
        value = value * 10 + u32::from(digit - b'0');
    }
    u16::try_from(value).ok()
}
