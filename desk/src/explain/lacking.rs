//! What a row lacks that another asks for, in words.

use crate::library::Library;
use crate::reading::{Member, Reading, Shape};
use crate::words::{member, row};
use lexondar::{Fit, Lack};

/// Why the first row does not fit the second. The library says what is
/// lacking; the lines say where it was asked for.
pub fn lacking(
    library: &mut Library,
    text: &[u8],
    reading: &Reading,
    (a, b): (usize, usize),
    lack: Lack,
) -> Option<String> {
    let name = match lack {
        Lack::Count => return None,
        Lack::Kind => {
            let (given, asked) = (row(reading, a), row(reading, b));
            return Some(format!("{given} is given where {asked} is asked for"));
        }
        Lack::Member(name) => name,
    };
    let asked = reading.rows.get(b)?.member(name)?;
    let Some(given) = reading.rows.get(a)?.member(name) else {
        let (asked, line) = (member(asked), asked.line);
        return Some(format!(
            "row {a} lacks {asked}, which row {b} asks for (line {line})"
        ));
    };
    let lines = format!("(lines {} and {})", given.line, asked.line);
    let why = match (given.shape, asked.shape) {
        (Shape::Field { row: own }, Shape::Field { row: wanted }) => {
            format!("field {name} has row {own} in row {a} and row {wanted} in row {b}")
        }
        (Shape::Method { .. }, Shape::Method { .. }) => {
            let why = mismatch(library, text, given, asked)?;
            format!("method {name} of row {a} is no match for that of row {b}: {why}")
        }
        _ => format!(
            "{} of row {a} is {} in row {b}",
            member(given),
            member(asked)
        ),
    };
    Some(format!("{why} {lines}"))
}

/// Whether the arguments or the results of two methods do not fit.
fn mismatch(library: &mut Library, text: &[u8], given: &Member, asked: &Member) -> Option<String> {
    let (
        Shape::Method { argument, result },
        Shape::Method {
            argument: handed,
            result: wanted,
        },
    ) = (given.shape, asked.shape)
    else {
        return None;
    };
    let mut fits = |a, b| Some(library.fit(text, a, b).ok()?.fit == Fit::Yes);
    if !fits(handed, argument)? {
        return Some(format!(
            "it takes row {argument}, and would be handed row {handed}, which does not fit"
        ));
    }
    let why = format!("it gives row {result}, which does not fit row {wanted}");
    (!fits(result, wanted)?).then_some(why)
}
