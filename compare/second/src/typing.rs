//! The typing verdict: the refusals 8 to 10 and 14 of a sheet that was read.

use crate::fit::FitTable;
use crate::refusal::{Lack, Reason, Refusal};
use crate::sheet::{Code, Device, Form, Instruction, Kind, Part, Placed, Row, Sheet};

/// Judges the lines in their order; the first at fault is the answer.
pub fn judge(sheet: &Sheet) -> Result<(), Refusal> {
    let typing = Typing {
        sheet,
        fit: FitTable::of(&sheet.rows),
    };
    for form in &sheet.forms {
        typing.judge_form(form)?;
    }
    let mut slots = Vec::new();
    for device in &sheet.devices {
        slots.push(typing.judge_device(device)?);
    }
    typing.judge_code(&sheet.main, None, slots)?;
    Ok(())
}

struct Typing<'a> {
    sheet: &'a Sheet,
    fit: FitTable,
}

impl Typing<'_> {
    fn row(&self, number: u16) -> &Row {
        &self.sheet.rows[usize::from(number)]
    }

    fn judge_form(&self, form: &Form) -> Result<(), Refusal> {
        let row = self.row(form.row);
        if !row.resource && row.has_field() {
            return Err(Refusal::at(Reason::MixedPure, form.line));
        }
        for keep in &form.keeps {
            if !row.resource && self.row(keep.row).resource {
                return Err(Refusal::at(Reason::MixedPure, keep.line));
            }
        }
        for (member, part) in row.members.iter().zip(&form.parts) {
            self.judge_part(form, member.kind, part)?;
        }
        Ok(())
    }

    /// The row of a device, whose form must keep nothing and be a resource.
    fn judge_device(&self, device: &Device) -> Result<u16, Refusal> {
        let form = &self.sheet.forms[usize::from(device.form)];
        if !form.keeps.is_empty() || !self.row(form.row).resource {
            return Err(Refusal::at(Reason::WrongDevice, device.line));
        }
        Ok(form.row)
    }

    fn judge_part(&self, form: &Form, kind: Kind, part: &Part) -> Result<(), Refusal> {
        match (kind, part) {
            (Kind::Field { row }, Part::Init { kept, line }) => {
                self.pass(form.keeps[usize::from(*kept)].row, row, *line)
            }
            (Kind::Method { argument, result }, Part::Body(code)) => {
                let mut slots = vec![form.row, argument];
                slots.extend(form.keeps.iter().map(|keep| keep.row));
                let (value, line) = self.judge_code(code, Some(form), slots)?;
                self.pass(value, result, line)
            }
            // Reading gave each member the part of its kind.
            _ => Ok(()),
        }
    }

    /// A value of row `given` goes where row `asked` is declared.
    fn pass(&self, given: u16, asked: u16, line: u32) -> Result<(), Refusal> {
        match self.fit.answer(given, asked).lack() {
            None => Ok(()),
            Some(lack) => Err(Refusal::at(Reason::Misfit(lack), line)),
        }
    }

    /// Judges each instruction; gives the last slot's row and its line.
    /// The slots that are filled at the start come with their rows.
    fn judge_code(
        &self,
        code: &Code,
        own: Option<&Form>,
        mut slots: Vec<u16>,
    ) -> Result<(u16, u32), Refusal> {
        let mut last = (0, 0);
        for placed in code {
            let row = self.judge_instruction(placed, own, &slots)?;
            slots.push(row);
            last = (row, placed.line);
        }
        Ok(last)
    }

    /// A creation, with the rows of the values that are given. Their count
    /// comes before any of them.
    fn judge_new(&self, form: u16, given: &[u16], line: u32) -> Result<u16, Refusal> {
        let form = &self.sheet.forms[usize::from(form)];
        if given.len() != form.keeps.len() {
            return Err(Refusal::at(Reason::Misfit(Lack::Count), line));
        }
        for (row, keep) in given.iter().zip(&form.keeps) {
            self.pass(*row, keep.row, line)?;
        }
        Ok(form.row)
    }

    /// The row of the slot that an instruction fills.
    fn judge_instruction(
        &self,
        placed: &Placed,
        own: Option<&Form>,
        slots: &[u16],
    ) -> Result<u16, Refusal> {
        let line = placed.line;
        let row_of = |slot: u16| slots[usize::from(slot)];
        let missing = Refusal::at(Reason::NoSuchPart, line);
        // Main has no own object, so no field is there.
        let field = |name: u16| own.and_then(|form| self.row(form.row).field(name));
        match &placed.instruction {
            Instruction::New { form, slots: given } => {
                let given: Vec<u16> = given.iter().map(|slot| row_of(*slot)).collect();
                self.judge_new(*form, &given, line)
            }
            Instruction::Call {
                slot,
                name,
                argument,
            } => {
                let method = self.row(row_of(*slot)).method(*name);
                let (asked, result) = method.ok_or(missing)?;
                self.pass(row_of(*argument), asked, line)?;
                Ok(result)
            }
            Instruction::Get { name } => field(*name).ok_or(missing),
            Instruction::Put { name, slot } => {
                let row = field(*name).ok_or(missing)?;
                self.pass(row_of(*slot), row, line)?;
                Ok(row)
            }
            Instruction::Copy { slot } => Ok(row_of(*slot)),
        }
    }
}
