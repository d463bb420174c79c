//! A refusal explained: what stands there, what was wanted, where that was
//! said, and what would do. Where the lines do not say more, nothing is added.

mod circular;
mod lacking;
mod limit;
mod member;
mod misfit;
mod missing;
mod pure;
mod row;
mod torn;
mod wanted;

use crate::finding::{Case, Finding};
use crate::library::Library;
use crate::text::Text;
use lexondar::{Error, Reason};

pub use lacking::lacking;

/// What there is to add to a refusal of a text.
pub fn explain(library: &mut Library, text: &Text, error: Error) -> Finding {
    let found = error.refusal().and_then(|refusal| {
        let case = Case::of(&text.bytes, refusal);
        match refusal.reason {
            Reason::TextTooLong => limit::long(text),
            Reason::Malformed => torn::torn(&case),
            Reason::OutOfLimit => limit::limit(&case),
            Reason::NotAscending => row::order(&case),
            Reason::DuplicateRow => row::twin(&case),
            Reason::NotDefined => missing::missing(&case),
            Reason::ImpureForm => pure::form(&case),
            Reason::NoSuchMember => member::member(&case),
            Reason::Misfit => misfit::misfit(library, &case),
            Reason::CircularCall => circular::circular(&case),
            Reason::BeyondCount => Some(circular::beyond()),
            Reason::WrongDevice => pure::device(&case),
            _ => None,
        }
    });
    found.unwrap_or_default()
}
