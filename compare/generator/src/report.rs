//! A tally of what a run of sheets reaches.

use crate::bounds::Bounds;
use crate::cases::{causes, CASES, CAUSES};
use crate::census::{census, Misfits, NAMES};
use crate::device_refusals::DeviceRefusals;
use crate::device_things::Devices;
use crate::rng::Rng;
use crate::usable::Usable;
use second::fit::FitTable;
use second::{FitAnswer, Refusal, Sheet};

/// Budgets at which the sheets of a report are run.
const BUDGETS: [u32; 12] = [0, 1, 2, 7, 8, 20, 65, 66, 500, 10_000, 10_000, 100_000];

/// There is a strict sheet for this many others.
pub const STRICT_SHARE: u64 = 4;
/// And an idle one for this many.
pub const IDLE_SHARE: u64 = 8;
/// And a device sheet for this many.
pub const DEVICE_SHARE: u64 = 8;

/// One more than the highest refusal number.
const NUMBERS: usize = 15;
/// The refusals that a sheet can have without a question about it.
const OF_SHEETS: [usize; 10] = [2, 3, 4, 5, 6, 7, 8, 9, 10, 14];

/// How many sheets reached each answer.
#[derive(Clone, Debug, Default, PartialEq, Eq)]
pub struct Report {
    pub sheets: u64,
    pub accepted: u64,
    /// By refusal number; 11 is asked of accepted sheets as well, for a
    /// single holder.
    pub refusals: [u64; NUMBERS],
    /// The refusals whose line is in the second half of the sheet.
    pub late: [u64; NUMBERS],
    pub outcomes: [u64; 4],
    /// Of refusal 10, by what is lacking.
    pub lacks: [u64; 4],
    pub misfits: Misfits,
    /// A random pair of rows of each sheet: fits, lacks kind, lacks a member,
    /// is not there.
    pub fits: [u64; 4],
    /// Why such a pair does not fit, by the last cases of all.
    pub causes: [u64; CAUSES],
    /// A list of holders for each accepted sheet: answered, refused with 11.
    pub groups: [u64; 2],
    /// By the names of the census.
    pub uses: [u64; NAMES.len()],
    /// The question for the most steps, asked of each sheet.
    pub bounds: Bounds,
    /// The same, asked of a strict sheet for every `STRICT_SHARE` sheets.
    pub strict: Bounds,
    /// What the runs of accepted sheets have for the authority question.
    pub usable: Usable,
    /// The same, of an idle sheet for every `IDLE_SHARE` sheets.
    pub idle: Usable,
    /// What accepted sheets have of devices.
    pub devices: Devices,
    /// The same, of a device sheet for every `DEVICE_SHARE` sheets.
    pub device: Devices,
    /// For which faults of devices sheets are refused.
    pub device_refusals: DeviceRefusals,
}

/// Judges and runs `count` sheets of a seed.
pub fn report(seed: u64, count: u64) -> Report {
    let mut report = Report::default();
    for index in 0..count {
        report.add(seed, index);
    }
    report
}

/// The table of a sheet that is accepted.
fn accepted(text: &[u8]) -> Option<Sheet> {
    second::verdict(text).ok()?;
    second::read(text).ok()
}

impl Report {
    fn add(&mut self, seed: u64, index: u64) {
        let text = &crate::sheet(seed, index);
        let rng = &mut Rng::new(!seed, index);
        let budget = match rng.chance(80) {
            true => rng.pick(&BUDGETS),
            false => rng.below(3_000) as u32,
        };
        self.sheets += 1;
        self.add_fit(text, rng);
        self.bounds.add(text);
        self.add_beside(seed, index);
        let answer = match second::run(text, budget) {
            Ok(answer) => answer,
            Err(refusal) => return self.add_refusal(text, refusal),
        };
        self.accepted += 1;
        self.outcomes[answer.outcome as usize] += 1;
        let object = rng.below(usize::from(answer.objects) + 1) as u32;
        let holder = rng.pick(&[object, object, object, 256, 256, 257, 65_535]);
        if let Err(refusal) = second::authority(text, budget, holder) {
            self.refusals[refusal.number() as usize] += 1;
        }
        let list = crate::group(seed, index, answer.objects);
        let refused = second::group(text, budget, &list).is_err();
        self.groups[usize::from(refused)] += 1;
        if let Ok(sheet) = second::read(text) {
            for (place, used) in census(&sheet).into_iter().enumerate() {
                self.uses[place] += u64::from(used);
            }
            self.usable.add(&sheet);
            self.devices.add(&sheet);
        }
    }

    /// The sheets beside the rotation that have their turn now.
    fn add_beside(&mut self, seed: u64, index: u64) {
        if index.is_multiple_of(STRICT_SHARE) {
            self.strict.add(&crate::strict(seed, index / STRICT_SHARE));
        }
        if index.is_multiple_of(IDLE_SHARE) {
            let sheet = accepted(&crate::idle(seed, index / IDLE_SHARE));
            sheet.iter().for_each(|sheet| self.idle.add(sheet));
        }
        if index.is_multiple_of(DEVICE_SHARE) {
            let sheet = accepted(&crate::device(seed, index / DEVICE_SHARE));
            sheet.iter().for_each(|sheet| self.device.add(sheet));
        }
    }

    fn add_refusal(&mut self, text: &[u8], refusal: Refusal) {
        self.refusals[refusal.number() as usize] += 1;
        self.device_refusals.add(text, refusal);
        let lines = text.iter().filter(|byte| **byte == b'\n').count();
        let late = refusal.line as usize > lines / 2;
        self.late[refusal.number() as usize] += u64::from(late);
        if let (Some(lack), Ok(sheet)) = (refusal.lack(), second::read(text)) {
            self.lacks[lack.number() as usize] += 1;
            self.misfits.add(&sheet, refusal.line);
        }
    }

    fn add_fit(&mut self, text: &[u8], rng: &mut Rng) {
        let Ok(sheet) = second::read(text) else {
            return;
        };
        let mut row = || rng.below(sheet.rows.len() + usize::from(sheet.rows.len() > 9)) as u32;
        let (a, b) = (row(), row());
        let place = match second::fit(text, a, b).map(|told| told.answer) {
            Ok(FitAnswer::Yes) => 0,
            Ok(FitAnswer::Kind) => 1,
            Ok(FitAnswer::Member(_)) => 2,
            Err(_) => return self.fits[3] += 1,
        };
        self.fits[place] += 1;
        let fit = FitTable::of(&sheet.rows);
        for cause in causes(&sheet.rows, &fit, a as u16, b as u16) {
            self.causes[cause as usize + CAUSES - CASES.len()] += 1;
        }
    }

    /// The refusals of sheets, outcomes, cases of misfit, answers to the
    /// question for the most steps, things for the authority question, and
    /// things and faults of devices that no sheet reached.
    pub fn missing(&self) -> Vec<String> {
        let refusals = OF_SHEETS
            .iter()
            .filter(|number| self.refusals[**number] == 0)
            .map(|number| format!("refusal {number}"));
        let outcomes = (0..4)
            .filter(|number| self.outcomes[*number] == 0)
            .map(|number| format!("outcome {number}"));
        let misfits = self.misfits.missing();
        let bounds = self.strict.missing();
        let usable = self.idle.missing();
        let counted = refusals.chain(outcomes);
        let asked = bounds.into_iter().chain(usable);
        let devices = self.device.missing().into_iter();
        let devices = devices.chain(self.device_refusals.missing());
        counted.chain(misfits).chain(asked).chain(devices).collect()
    }

    /// The tally, a line for each count.
    pub fn lines(&self) -> String {
        let mut lines = format!("sheets {}\naccepted {}\n", self.sheets, self.accepted);
        for number in 2..NUMBERS {
            // The question for the most steps is told of below.
            if number == 11 || OF_SHEETS.contains(&number) {
                let (count, late) = (self.refusals[number], self.late[number]);
                lines += &format!("refusal {number}: {count}, late {late}\n");
            }
        }
        for (number, count) in self.outcomes.iter().enumerate() {
            lines += &format!("outcome {number}: {count}\n");
        }
        let [yes, kind, member, none] = self.fits;
        lines += &format!("fit yes: {yes}, kind: {kind}, member: {member}, ");
        lines += &format!("no such row: {none}\n");
        let names = &CASES[CASES.len() - CAUSES..];
        for ((_, name, _), count) in names.iter().zip(&self.causes) {
            lines += &format!("no fit by {name}: {count}\n");
        }
        let [answered, refused] = self.groups;
        lines += &format!("group answered: {answered}, no holder: {refused}\n");
        for (name, count) in NAMES.iter().zip(&self.uses) {
            lines += &format!("accepted with {name}: {count}\n");
        }
        for (number, count) in self.lacks.iter().enumerate().skip(1) {
            lines += &format!("lack {number}: {count}\n");
        }
        lines += &self.misfits.lines();
        lines += &self.bounds.line("sheets");
        lines += &self.strict.line("strict sheets");
        lines += &(self.usable.lines("accepted") + &self.idle.lines("idle"));
        lines += &(self.devices.lines("accepted") + &self.device.lines("device sheets"));
        lines + &self.device_refusals.lines()
    }
}
