//! Refusals 2 and 4: too much.

use crate::finding::{at_number, Case, Finding};
use crate::key::{Key, Role};
use crate::text::Text;
use crate::words::thousands;
use lexondar::raw::TEXT_MAX;

/// The instructions that a sheet may have.
const INSTRUCTIONS: usize = 1_024;

/// The text is over 65,535 bytes.
pub fn long(text: &Text) -> Option<Finding> {
    let length = text.length?;
    let over = length.checked_sub(TEXT_MAX as u64)?;
    let (length, over) = (thousands(length), thousands(over));
    Some(Finding::default().note(format!("it has {length} bytes, {over} too many")))
}

/// The first number of the line that is outside its limits; or else the
/// instructions of the whole sheet.
pub fn limit(case: &Case) -> Option<Finding> {
    let entry = case.entry()?;
    let outside = entry
        .numbers
        .iter()
        .enumerate()
        .find_map(|(place, number)| {
            let role = entry.key.role(place)?;
            match role {
                Role::Limited(word, least, most) if !(least..=most).contains(&number.value) => {
                    let value = number.value;
                    let label = match word {
                        "kind" => format!("the kind is 0 (pure) or 1 (resource), not {value}"),
                        _ => format!("the {word} is {least} to {most}, not {value}"),
                    };
                    at_number(&entry, place, label)
                }
                _ => None,
            }
        });
    outside.or_else(|| {
        let all = case.reading.announced();
        let counts = matches!(entry.key, Key::Body | Key::Main) && all > INSTRUCTIONS;
        let label = format!(
            "with these the sheet has {} instructions; the most are {}",
            thousands(all as u64),
            thousands(INSTRUCTIONS as u64)
        );
        at_number(&entry, 0, label).filter(|_| counts)
    })
}
