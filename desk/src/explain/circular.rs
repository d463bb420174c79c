//! Refusals 12 and 13: sheets that are not sure to finish.

use crate::finding::{at_number, Case, Finding};
use crate::reading::{Op, Owner};

/// A body that calls its method's own name or a higher one.
pub fn circular(case: &Case) -> Option<Finding> {
    let (owner, place) = case.instr()?;
    let Owner::Body { form, part } = owner else {
        return None;
    };
    let own = case.reading.member(form, part)?;
    let code = case.reading.code(owner)?;
    let Op::Call { name, .. } = code.instrs.get(place)?.op else {
        return None;
    };
    let label = format!(
        "this body is of method {} of form {form} ({}), and calls method {name}",
        own.name,
        case.cited(code.head.line)
    );
    let note = match own.name {
        0 => "a body of method 0 calls nothing".into(),
        own => format!("a body of method {own} calls only methods with names below {own}"),
    };
    Some(at_number(&case.entry()?, 1, label)?.note(note))
}

/// The most steps do not fit 32 bits.
pub fn beyond() -> Finding {
    let note = "a body's steps are its instructions, one for its return, and for each `call` \
                the most that the called name can need";
    Finding::default().note(note)
}
