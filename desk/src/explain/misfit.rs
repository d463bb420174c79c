//! Refusal 10: a value does not fit where it goes. Which value it is, and what
//! it lacks, the library says: it is asked about each pair of rows in turn.

use super::lacking::lacking;
use crate::finding::{at_number, Case, Finding};
use crate::library::Library;
use crate::line::Entry;
use crate::reading::{Op, Owner, Part, Place, Shape};
use crate::slot::{field, row_of, Slot};
use crate::words::{counted, here, member, numbers, row, slots};
use lexondar::{Fit, Lack};
use std::collections::HashMap;

/// A value that goes somewhere: its row, the row that is asked for, the number
/// of the line that names it, and who asks.
struct Demand {
    given: usize,
    asked: usize,
    /// Its place among the line's numbers; none for a body's result.
    number: Option<usize>,
    /// The slot or kept value.
    value: String,
    asker: String,
}

/// The first value on the line that the library says does not fit.
pub fn misfit(library: &mut Library, case: &Case) -> Option<Finding> {
    let entry = case.entry()?;
    if case.refusal.lack? == Lack::Count {
        return count(case, &entry);
    }
    let demands = match case.place()? {
        Place::Instr(owner, place) => instr_demands(case, owner, place)?,
        Place::Part(form, part) => vec![init_demand(case, form, part)?],
        _ => return None,
    };
    let demand = demands.iter().find_map(|demand| {
        let walk = library.fit(case.text, demand.given, demand.asked).ok()?;
        walk.fit.lack().map(|lack| (demand, lack))
    });
    // The first that lacks something lacks what the verdict says, or the
    // reason stands alone.
    let (demand, lack) = demand.filter(|(_, lack)| Some(*lack) == case.refusal.lack)?;
    let label = format!(
        "{} has {}; {}",
        demand.value,
        row(&case.reading, demand.given),
        demand.asker
    );
    let finding = match demand.number {
        Some(number) => at_number(&entry, number, label)?,
        None => Finding::at(0..case.line()?.bytes.len(), label),
    };
    let pair = (demand.given, demand.asked);
    let why = lacking(library, case.text, &case.reading, pair, lack);
    Some(
        finding
            .noted(why)
            .noted(would_do(library, case, demand.asked)),
    )
}

/// A `new` that has not one slot for each kept value.
fn count(case: &Case, entry: &Entry) -> Option<Finding> {
    let number = usize::from(entry.numbers.first()?.value);
    let form = case.reading.forms.get(number)?;
    let label = format!(
        "form {number} keeps {} ({}); {}",
        counted(form.head.count, "value"),
        case.cited(form.head.line),
        here(entry.numbers.len() - 1, "slot")
    );
    let slots = entry.numbers.get(1).or(entry.numbers.first())?;
    let finding = Finding::at(slots.span.start..case.line()?.bytes.len(), label);
    let rows = form.keeps.iter().map(|keep| format!("row {}", keep.row));
    let rows: Vec<String> = rows.collect();
    Some(match rows.is_empty() {
        true => finding.note(format!("`new={number}` alone makes one")),
        false => finding.note(format!("it keeps, in this order: {}", rows.join(", "))),
    })
}

/// What an instruction passes on: slots in order, then the body's result.
fn instr_demands(case: &Case, owner: Owner, place: usize) -> Option<Vec<Demand>> {
    let code = case.reading.code(owner)?;
    let slots = case.slots();
    let op = &code.instrs.get(place)?.op;
    let mut demands = op_demands(case, owner, op, &slots)?;
    if place + 1 == code.head.count {
        if let Owner::Body { form, part } = owner {
            let given = row_of(&case.reading, owner, op, &slots)?;
            demands.push(result_demand(case, form, part, given)?);
        }
    }
    Some(demands)
}

/// A slot of the line goes where a row is asked for.
fn passed(
    slots: &[Slot],
    slot: usize,
    number: usize,
    asked: usize,
    asker: String,
) -> Option<Demand> {
    Some(Demand {
        given: slots.get(slot)?.row?,
        asked,
        number: Some(number),
        value: format!("slot {slot}"),
        asker,
    })
}

fn op_demands(case: &Case, owner: Owner, op: &Op, slots: &[Slot]) -> Option<Vec<Demand>> {
    let reading = &case.reading;
    match op {
        Op::New { form, slots: given } => {
            let keeps = &reading.forms.get(*form)?.keeps;
            let pairs = given.iter().zip(keeps).enumerate();
            pairs
                .map(|(place, (slot, keep))| {
                    let cited = case.cited(keep.line);
                    let asker = format!("form {form} keeps row {} here ({cited})", keep.row);
                    passed(slots, *slot, place + 1, keep.row, asker)
                })
                .collect()
        }
        Op::Call {
            slot,
            name,
            argument,
        } => {
            let number = slots.get(*slot)?.row?;
            let method = reading.rows.get(number)?.member(*name)?;
            let Shape::Method {
                argument: asked, ..
            } = method.shape
            else {
                return None;
            };
            let cited = case.cited(method.line);
            let asker = format!("method {name} of row {number} takes row {asked} ({cited})");
            Some(vec![passed(slots, *argument, 2, asked, asker)?])
        }
        Op::Put { name, slot } => {
            let asked = field(reading, owner, *name)?;
            let asker = field_asks(case, owner, *name, asked)?;
            Some(vec![passed(slots, *slot, 1, asked, asker)?])
        }
        Op::Get { .. } | Op::Copy { .. } => Some(Vec::new()),
    }
}

/// The own object's field asks for its row.
fn field_asks(case: &Case, owner: Owner, name: u16, asked: usize) -> Option<String> {
    let Owner::Body { form, .. } = owner else {
        return None;
    };
    let row = case.reading.forms.get(form)?.row;
    let line = case.reading.rows.get(row)?.member(name)?.line;
    Some(format!(
        "field {name} of row {row} has row {asked} ({})",
        case.cited(line)
    ))
}

/// A kept value that a field starts as.
fn init_demand(case: &Case, form: usize, part: usize) -> Option<Demand> {
    let own = case.reading.member(form, part)?;
    let Shape::Field { row: asked } = own.shape else {
        return None;
    };
    let form = case.reading.forms.get(form)?;
    let Part::Init { kept } = *form.parts.get(part)? else {
        return None;
    };
    Some(Demand {
        given: form.keeps.get(kept)?.row,
        asked,
        number: Some(0),
        value: format!("kept value {kept}"),
        asker: format!("{} has row {asked} ({})", member(own), case.cited(own.line)),
    })
}

/// A body's result, which its last instruction gives.
fn result_demand(case: &Case, form: usize, part: usize, given: usize) -> Option<Demand> {
    let own = case.reading.member(form, part)?;
    let Shape::Method { result: asked, .. } = own.shape else {
        return None;
    };
    Some(Demand {
        given,
        asked,
        number: None,
        value: "the body's result".into(),
        asker: format!(
            "{} of form {form} gives row {asked} ({})",
            member(own),
            case.cited(own.line)
        ),
    })
}

/// The values that could stand there, and which of them the library says would
/// fit.
fn would_do(library: &mut Library, case: &Case, asked: usize) -> Option<String> {
    let (thing, there, rows) = candidates(case)?;
    let mut answers = HashMap::new();
    let mut fits = |row: usize| {
        *answers.entry(row).or_insert_with(|| {
            let walk = library.fit(case.text, row, asked);
            walk.is_ok_and(|walk| walk.fit == Fit::Yes)
        })
    };
    let numbered = rows.iter().zip(0u16..);
    let fitting = numbered.filter(|(row, _)| row.is_some_and(&mut fits));
    let fitting: Vec<u16> = fitting.map(|(_, number)| number).collect();
    let which = match fitting[..] {
        [] => "none would fit".into(),
        [one] => format!("{thing} {one} would fit"),
        _ => format!("{thing}s {} would fit", numbers(&fitting, "")),
    };
    Some(format!("{there}; {which}"))
}

/// What could stand there: what it is called, a list of all, and the row of
/// each.
fn candidates(case: &Case) -> Option<(&'static str, String, Vec<Option<usize>>)> {
    match case.place()? {
        Place::Instr(..) => {
            let filled = case.slots();
            let rows = filled.iter().map(|slot| slot.row).collect();
            let there = format!("slots filled here: {}", slots(&filled));
            Some(("slot", there, rows))
        }
        Place::Part(form, _) => {
            let keeps = &case.reading.forms.get(form)?.keeps;
            let rows = keeps.iter().map(|keep| Some(keep.row)).collect();
            let words = keeps.iter().enumerate();
            let words = words.map(|(place, keep)| format!("{place} (row {})", keep.row));
            let words: Vec<String> = words.collect();
            Some((
                "kept value",
                format!("kept values: {}", words.join(", ")),
                rows,
            ))
        }
        _ => None,
    }
}
