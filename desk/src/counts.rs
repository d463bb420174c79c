//! How many sheets were accepted, refused and not read.

use crate::json;
use crate::words::counted;
use lexondar::{Error, Reason};
use std::collections::BTreeMap;
use std::fmt;

/// Counts by refusal.
#[derive(Clone, Debug, Default, PartialEq, Eq)]
pub struct Counts {
    pub accepted: usize,
    /// By the refusal's number.
    pub refused: BTreeMap<u32, usize>,
    /// With a refusal of a later library.
    pub unknown: usize,
    pub unread: usize,
}

impl Counts {
    /// Adds an answer: accepted, or why not.
    pub fn add(&mut self, error: Option<Error>) {
        match error {
            None => self.accepted += 1,
            Some(error) => match error.refusal() {
                Some(refusal) => *self.refused.entry(refusal.reason.number()).or_default() += 1,
                None => self.unknown += 1,
            },
        }
    }

    /// The sheets that were refused.
    pub fn refusals(&self) -> usize {
        self.refused.values().sum::<usize>() + self.unknown
    }

    /// The sheets that were judged.
    pub fn judged(&self) -> usize {
        self.accepted + self.refusals()
    }

    /// As an object.
    pub fn as_json(&self) -> String {
        let refused = self.refused.iter();
        let refused: Vec<(String, String)> = refused
            .map(|(number, count)| (number.to_string(), count.to_string()))
            .collect();
        let refused: Vec<(&str, String)> = refused
            .iter()
            .map(|(number, count)| (number.as_str(), count.clone()))
            .collect();
        json::object(&[
            ("sheets", self.judged().to_string()),
            ("accepted", self.accepted.to_string()),
            ("refused", json::object(&refused)),
            ("unknown", self.unknown.to_string()),
            ("unread", self.unread.to_string()),
        ])
    }
}

/// `3 sheets: 1 accepted, 2 refused: 1 by 3 (torn line), 1 by 10 (misfit)`.
impl fmt::Display for Counts {
    fn fmt(&self, f: &mut fmt::Formatter<'_>) -> fmt::Result {
        let sheets = counted(self.judged(), "sheet");
        write!(
            f,
            "{sheets}: {} accepted, {} refused",
            self.accepted,
            self.refusals()
        )?;
        let mut mark = ":";
        for (number, count) in &self.refused {
            let word = Reason::try_from(*number).map_or("", Reason::word);
            write!(f, "{mark} {count} by {number} ({word})")?;
            mark = ",";
        }
        if self.unknown > 0 {
            write!(f, "{mark} {} by a later library's numbers", self.unknown)?;
        }
        match self.unread {
            0 => Ok(()),
            unread => write!(f, "; {} not read", counted(unread, "file")),
        }
    }
}
