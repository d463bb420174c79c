//! A tally of the answers to the question for the most steps.

use second::sheet::{Code, Instruction, Part};
use second::{Reason, Sheet};
use std::collections::BTreeMap;

/// The highest answer.
pub const LIMIT: u128 = u32::MAX as u128;
/// An amount this near to the limit, on either side, is at its edge.
pub const NEAR: u128 = LIMIT / 100;

/// How many sheets got which answer.
#[derive(Clone, Debug, Default, PartialEq, Eq)]
pub struct Bounds {
    pub answered: u64,
    /// Refusal 12.
    pub circular: u64,
    /// Refusal 13.
    pub beyond: u64,
    /// Refusals 2 to 10 and 14.
    pub others: u64,
    /// Answers near the limit, and amounts just beyond it.
    pub near: [u64; 2],
}

impl Bounds {
    /// Asks the question for a sheet.
    pub fn add(&mut self, text: &[u8]) {
        let near = || {
            let amount = second::read(text).ok().and_then(|sheet| amount(&sheet));
            u64::from(amount.is_some_and(|amount| amount.abs_diff(LIMIT) <= NEAR))
        };
        match second::bound(text).map_err(|refusal| refusal.reason) {
            Ok(_) => {
                self.answered += 1;
                self.near[0] += near();
            }
            Err(Reason::CircularCall) => self.circular += 1,
            Err(Reason::BeyondCount) => {
                self.beyond += 1;
                self.near[1] += near();
            }
            Err(_) => self.others += 1,
        }
    }

    /// The answers that no sheet got.
    pub fn missing(&self) -> Vec<String> {
        let [within, over] = self.near;
        let counts = [
            (self.answered, "a bound"),
            (self.circular, "refusal 12"),
            (self.beyond, "refusal 13"),
            (within, "a bound near the limit"),
            (over, "refusal 13 near the limit"),
        ];
        let missing = counts.iter().filter(|(count, _)| *count == 0);
        missing.map(|(_, name)| String::from(*name)).collect()
    }

    /// A line for the sheets of this name.
    pub fn line(&self, name: &str) -> String {
        let [within, over] = self.near;
        format!(
            "bound of {name}: {} answered, {within} of them near the limit, 12: {}, 13: {}, \
             {over} of them near the limit, other refusals: {}\n",
            self.answered, self.circular, self.beyond, self.others
        )
    }
}

/// Main's amount in a sheet that can be read; none where a body calls its
/// own name or a higher one. What is too large for 128 bits is the highest
/// number of these.
pub fn amount(sheet: &Sheet) -> Option<u128> {
    let mut bodies: BTreeMap<u16, Vec<&Code>> = BTreeMap::new();
    for form in &sheet.forms {
        let members = &sheet.rows[usize::from(form.row)].members;
        for (member, part) in members.iter().zip(&form.parts) {
            if let Part::Body(code) = part {
                bodies.entry(member.name).or_default().push(code);
            }
        }
    }
    // Lower names come first, so what a body may call is already known.
    let mut known: BTreeMap<u16, u128> = (0..64).map(|name| (name, 0)).collect();
    for (name, bodies) in bodies {
        for code in bodies {
            let lower = known.range(..name).map(|(name, amount)| (*name, *amount));
            let amount = sum(code, &lower.collect())?.saturating_add(1);
            let largest = known.entry(name).or_default();
            *largest = amount.max(*largest);
        }
    }
    sum(&sheet.main, &known)
}

/// Instructions and called amounts; none if a called name is not known.
fn sum(code: &Code, known: &BTreeMap<u16, u128>) -> Option<u128> {
    let mut sum = 0u128;
    for placed in code {
        sum = sum.saturating_add(1);
        if let Instruction::Call { name, .. } = placed.instruction {
            sum = sum.saturating_add(*known.get(&name)?);
        }
    }
    Some(sum)
}
