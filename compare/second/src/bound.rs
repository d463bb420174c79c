//! Sheets that are sure to finish: a body calls lower names only, so the
//! most steps that main can need are known before a run.

use crate::refusal::{Reason, Refusal};
use crate::sheet::{Code, Instruction, Part, Sheet, NAME_LIMIT};

/// An amount of steps. The rules set it no limit; here it is the smaller of
/// the exact number and `u64::MAX`. Amounts are only added and compared, and
/// a sum or a maximum of such numbers is again the smaller of the two, so
/// whatever fits 32 bits is exact and nothing else seems to.
type Amount = u64;

/// Main's amount in a sheet that typing accepts.
pub(crate) fn bound(sheet: &Sheet) -> Result<u32, Refusal> {
    check_calls(sheet)?;
    let amounts = amounts(sheet);
    let main = needed(&sheet.main, &amounts);
    u32::try_from(main).map_err(|_| Refusal::at(Reason::BeyondCount, 0))
}

/// Each body with its method's name, in the order of the text. Forms that
/// nobody makes count too.
fn bodies(sheet: &Sheet) -> impl Iterator<Item = (u16, &Code)> {
    sheet.forms.iter().flat_map(|form| {
        let members = &sheet.rows[usize::from(form.row)].members;
        let parts = members.iter().zip(&form.parts);
        parts.filter_map(|(member, part)| match part {
            Part::Body(code) => Some((member.name, code)),
            Part::Init { .. } => None,
        })
    })
}

/// The names that are called, each with its line.
fn calls(code: &Code) -> impl Iterator<Item = (u16, u32)> + '_ {
    code.iter().filter_map(|placed| match placed.instruction {
        Instruction::Call { name, .. } => Some((name, placed.line)),
        _ => None,
    })
}

/// A body may call only names below its own.
fn check_calls(sheet: &Sheet) -> Result<(), Refusal> {
    for (own, code) in bodies(sheet) {
        let against = calls(code).find(|(called, _)| *called >= own);
        if let Some((_, line)) = against {
            return Err(Refusal::at(Reason::CircularCall, line));
        }
    }
    Ok(())
}

/// The amount of every name: the largest over its bodies, 0 if it has none.
/// A body needs lower names only, so those are settled when its own comes.
fn amounts(sheet: &Sheet) -> Vec<Amount> {
    let mut amounts = Vec::new();
    for name in 0..=NAME_LIMIT {
        let own = bodies(sheet).filter(|(own, _)| *own == name);
        // One more for the return.
        let each = own.map(|(_, code)| needed(code, &amounts).saturating_add(1));
        let largest = each.max().unwrap_or(0);
        amounts.push(largest);
    }
    amounts
}

/// The instructions, and what each name that they call needs.
fn needed(code: &Code, amounts: &[Amount]) -> Amount {
    let called = calls(code).map(|(name, _)| amounts[usize::from(name)]);
    called.fold(code.len() as Amount, Amount::saturating_add)
}
