//! Reading: the refusals 2 to 7, line by line. The first line at fault ends
//! it, and each line is asked for the lower numbers first.

use crate::code::read_code;
use crate::line::{Key, Line, Lines};
use crate::refusal::{Reason, Refusal};
use crate::sheet::*;

/// The state of reading: the text left and what earlier lines settled.
pub(crate) struct Reader<'a> {
    pub lines: Lines<'a>,
    pub form_count: u16,
    /// Instructions announced so far in the whole sheet.
    pub instructions: usize,
    rows: Vec<Row>,
}

/// Reads a whole sheet.
pub fn read(text: &[u8]) -> Result<Sheet, Refusal> {
    if text.len() > TEXT_LIMIT {
        return Err(Refusal::at(Reason::LongSheet, 0));
    }
    let mut reader = Reader {
        lines: Lines::new(text),
        form_count: 0,
        instructions: 0,
        rows: Vec::new(),
    };
    reader.read_rows()?;
    let forms = reader.read_forms()?;
    let devices = reader.read_devices()?;
    // The devices are in main's first slots.
    let main = read_code(&mut reader, Key::Main, devices.len() as u16)?;
    reader.lines.finish()?;
    Ok(Sheet {
        rows: reader.rows,
        forms,
        devices,
        main,
    })
}

impl Reader<'_> {
    fn read_rows(&mut self) -> Result<(), Refusal> {
        let line = self.lines.take(&[Key::Types])?;
        let count = line.numbers[0];
        if !(1..=ROW_LIMIT).contains(&count) {
            return line.refuse(Reason::OverMeasure);
        }
        for _ in 0..count {
            let row = self.read_row()?;
            self.rows.push(row);
        }
        Ok(())
    }

    fn read_row(&mut self) -> Result<Row, Refusal> {
        let line = self.lines.take(&[Key::Type])?;
        let (kind, count) = (line.numbers[0], line.numbers[1]);
        if kind > 1 || count > MEMBER_LIMIT {
            return line.refuse(Reason::OverMeasure);
        }
        let mut row = Row {
            resource: kind == 1,
            members: Vec::new(),
        };
        if count == 0 {
            // The `type` line is then the row's last.
            self.check_twin(&row, &line)?;
        }
        for place in 1..=count {
            let line = self.lines.take(&[Key::Def, Key::Var])?;
            let member = member_of(&line);
            check_name(&row, member.name, &line)?;
            row.members.push(member);
            if place == count {
                self.check_twin(&row, &line)?;
            }
            self.check_lower(member.kind, &line)?;
        }
        Ok(row)
    }

    fn check_twin(&self, row: &Row, line: &Line) -> Result<(), Refusal> {
        if self.rows.contains(row) {
            return line.refuse(Reason::Twin);
        }
        Ok(())
    }

    /// A member's rows must be lower than the row that is being read.
    fn check_lower(&self, kind: Kind, line: &Line) -> Result<(), Refusal> {
        let highest = match kind {
            Kind::Method { argument, result } => argument.max(result),
            Kind::Field { row } => row,
        };
        if usize::from(highest) >= self.rows.len() {
            return line.refuse(Reason::LooseEnd);
        }
        Ok(())
    }

    fn read_forms(&mut self) -> Result<Vec<Form>, Refusal> {
        let line = self.lines.take(&[Key::Forms])?;
        self.form_count = line.numbers[0];
        if self.form_count > FORM_LIMIT {
            return line.refuse(Reason::OverMeasure);
        }
        (0..self.form_count).map(|_| self.read_form()).collect()
    }

    fn read_form(&mut self) -> Result<Form, Refusal> {
        let line = self.lines.take(&[Key::Form])?;
        let (row, count) = (line.numbers[0], line.numbers[1]);
        if count > KEEP_LIMIT {
            return line.refuse(Reason::OverMeasure);
        }
        self.check_row(row, &line)?;
        let mut keeps = Vec::new();
        for _ in 0..count {
            keeps.push(self.read_keep()?);
        }
        let mut parts = Vec::new();
        for place in 0..self.rows[usize::from(row)].members.len() {
            let kind = self.rows[usize::from(row)].members[place].kind;
            parts.push(self.read_part(kind, count)?);
        }
        Ok(Form {
            row,
            line: line.place,
            keeps,
            parts,
        })
    }

    fn read_keep(&mut self) -> Result<Keep, Refusal> {
        let line = self.lines.take(&[Key::Keep])?;
        let row = line.numbers[0];
        self.check_row(row, &line)?;
        Ok(Keep {
            row,
            line: line.place,
        })
    }

    /// The part for one member of a form that keeps this many values.
    fn read_part(&mut self, kind: Kind, keeps: u16) -> Result<Part, Refusal> {
        match kind {
            Kind::Field { .. } => {
                let line = self.lines.take(&[Key::Init])?;
                let kept = line.numbers[0];
                if kept >= keeps {
                    return line.refuse(Reason::LooseEnd);
                }
                Ok(Part::Init {
                    kept,
                    line: line.place,
                })
            }
            // Own object, argument and kept values are filled at the start.
            Kind::Method { .. } => Ok(Part::Body(read_code(self, Key::Body, 2 + keeps)?)),
        }
    }

    /// The devices; none if the next line does not announce them.
    fn read_devices(&mut self) -> Result<Vec<Device>, Refusal> {
        if !self.lines.next_is(Key::Devices) {
            return Ok(Vec::new());
        }
        let line = self.lines.take(&[Key::Devices])?;
        let count = line.numbers[0];
        if !(1..=DEVICE_LIMIT).contains(&count) {
            return line.refuse(Reason::OverMeasure);
        }
        (0..count).map(|_| self.read_device()).collect()
    }

    fn read_device(&mut self) -> Result<Device, Refusal> {
        let line = self.lines.take(&[Key::Device])?;
        let form = line.numbers[0];
        if form >= self.form_count {
            return line.refuse(Reason::LooseEnd);
        }
        Ok(Device {
            form,
            line: line.place,
        })
    }

    fn check_row(&self, row: u16, line: &Line) -> Result<(), Refusal> {
        if usize::from(row) >= self.rows.len() {
            return line.refuse(Reason::LooseEnd);
        }
        Ok(())
    }
}

fn member_of(line: &Line) -> Member {
    let kind = if line.key == Key::Def {
        Kind::Method {
            argument: line.numbers[1],
            result: line.numbers[2],
        }
    } else {
        Kind::Field {
            row: line.numbers[1],
        }
    };
    Member {
        name: line.numbers[0],
        kind,
    }
}

/// A member's name must be in its limit and above the name before it.
fn check_name(row: &Row, name: u16, line: &Line) -> Result<(), Refusal> {
    if name > NAME_LIMIT {
        return line.refuse(Reason::OverMeasure);
    }
    match row.members.last() {
        Some(before) if before.name >= name => line.refuse(Reason::WrongOrder),
        _ => Ok(()),
    }
}
