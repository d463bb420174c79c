//! The keys of a sheet, and what the numbers behind each are.

use std::ops::RangeInclusive;
use Role::{Form, KeptValue, Limited, LowerRow, Row, Slot};

/// The keys that may begin a line.
#[derive(Clone, Copy, Debug, PartialEq, Eq)]
pub enum Key {
    Types,
    Type,
    Def,
    Var,
    Forms,
    Form,
    Keep,
    Init,
    Body,
    Devices,
    Device,
    Main,
    New,
    Call,
    Get,
    Put,
    Copy,
}

/// What a number behind a key is: one of its own, with limits, or that of
/// something which has to be there.
#[derive(Clone, Copy, Debug, PartialEq, Eq)]
pub enum Role {
    /// A count, kind or name: what it is, the least and the most.
    Limited(&'static str, u16, u16),
    /// A row below the one that mentions it.
    LowerRow(&'static str),
    Row,
    Form,
    KeptValue,
    Slot(&'static str),
}

const NAME: Role = Limited("name", 0, 63);
const INSTRUCTIONS: Role = Limited("number of instructions", 1, 32);

/// Each key with its word and its numbers, in the order in which a sheet has
/// them. The last number of `new` may stand up to eight times, or not at all.
const KEYS: [(Key, &str, &[Role]); 17] = [
    (Key::Types, "types", &[Limited("number of rows", 1, 64)]),
    (
        Key::Type,
        "type",
        &[Limited("kind", 0, 1), Limited("number of members", 0, 8)],
    ),
    (
        Key::Def,
        "def",
        &[NAME, LowerRow("argument row"), LowerRow("result row")],
    ),
    (Key::Var, "var", &[NAME, LowerRow("row")]),
    (Key::Forms, "forms", &[Limited("number of forms", 0, 64)]),
    (
        Key::Form,
        "form",
        &[Row, Limited("number of kept values", 0, 8)],
    ),
    (Key::Keep, "keep", &[Row]),
    (Key::Init, "init", &[KeptValue]),
    (Key::Body, "body", &[INSTRUCTIONS]),
    (
        Key::Devices,
        "devices",
        &[Limited("number of devices", 1, 8)],
    ),
    (Key::Device, "device", &[Form]),
    (Key::Main, "main", &[INSTRUCTIONS]),
    (Key::New, "new", &[Form, Slot("slot")]),
    (
        Key::Call,
        "call",
        &[Slot("slot"), NAME, Slot("argument slot")],
    ),
    (Key::Get, "get", &[NAME]),
    (Key::Put, "put", &[NAME, Slot("slot")]),
    (Key::Copy, "copy", &[Slot("slot")]),
];

impl Key {
    /// The instructions.
    pub const INSTRUCTIONS: [Key; 5] = [Key::New, Key::Call, Key::Get, Key::Put, Key::Copy];

    /// Every key, in the order in which a sheet has them.
    pub fn all() -> impl Iterator<Item = Key> {
        KEYS.iter().map(|(key, ..)| *key)
    }

    /// The key of a word.
    pub fn of(word: &[u8]) -> Option<Key> {
        Key::all().find(|key| key.word().as_bytes() == word)
    }

    /// How it is written.
    pub fn word(self) -> &'static str {
        KEYS[self as usize].1
    }

    /// What its numbers are.
    pub fn roles(self) -> &'static [Role] {
        KEYS[self as usize].2
    }

    /// What its number at this place is.
    pub fn role(self, place: usize) -> Option<Role> {
        match self {
            Key::New => self.roles().get(place.min(1)).copied(),
            _ => self.roles().get(place).copied(),
        }
    }

    /// How many numbers may follow it.
    pub fn counts(self) -> RangeInclusive<usize> {
        match self {
            Key::New => 1..=9,
            _ => self.roles().len()..=self.roles().len(),
        }
    }

    /// How many numbers may follow it, and what they are: `2 numbers, kind and
    /// number of members`.
    pub fn asks(self) -> String {
        let words: Vec<&str> = self.roles().iter().map(|role| role.word()).collect();
        match (self, &words[..]) {
            (Key::New, _) => "1 to 9 numbers, a form and a slot for each kept value".into(),
            (_, [one]) => format!("1 number, the {one}"),
            (_, [first, last]) => format!("2 numbers, {first} and {last}"),
            (_, words) => format!("{} numbers, {}", words.len(), words.join(", ")),
        }
    }
}

impl Role {
    /// What it is called.
    pub fn word(self) -> &'static str {
        match self {
            Limited(word, ..) | LowerRow(word) | Slot(word) => word,
            Row => "row",
            Form => "form",
            KeptValue => "kept value",
        }
    }
}
