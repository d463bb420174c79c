//! A plain reading of a sheet's lines, as far as they go in a sheet's order. It
//! judges nothing; that is the library's.

use crate::key::Key;
use crate::line::{Entry, Line};
use crate::reading::{
    Code, Device, Form, Head, Instr, Keep, Member, Op, Owner, Part, Place, Reading, Row, Shape,
};

/// Reads lines for as long as each is what its place wants.
pub fn read(lines: &[Line]) -> Reading {
    let mut reader = Reader {
        lines,
        reading: Reading {
            places: Vec::new(),
            next: Place::Types,
            types: None,
            rows: Vec::new(),
            formed: None,
            forms: Vec::new(),
            equipped: None,
            devices: Vec::new(),
            main: None,
        },
    };
    if reader.sheet().is_some() {
        reader.reading.next = Place::End;
    }
    reader.reading
}

struct Reader<'a> {
    lines: &'a [Line<'a>],
    reading: Reading,
}

impl Reader<'_> {
    /// The next line, if it has one of the keys that its place wants.
    fn take(&mut self, place: Place, keys: &[Key]) -> Option<(Entry, Head)> {
        self.reading.next = place;
        let line = self.lines.get(self.reading.places.len())?;
        let entry = line.entry().filter(|entry| keys.contains(&entry.key))?;
        self.reading.places.push(place);
        // What counts stands last on a line.
        let count = entry.numbers.last()?.value.into();
        let line = line.number;
        Some((entry, Head { line, count }))
    }

    fn sheet(&mut self) -> Option<()> {
        let (_, types) = self.take(Place::Types, &[Key::Types])?;
        self.reading.types = Some(types);
        for row in 0..types.count {
            self.row(row)?;
        }
        let (_, formed) = self.take(Place::Forms, &[Key::Forms])?;
        self.reading.formed = Some(formed);
        for form in 0..formed.count {
            self.form(form)?;
        }
        let head = self.devices()?;
        self.reading.main = Some(Code::under(head));
        self.code(Owner::Main, head.count)
    }

    fn row(&mut self, row: usize) -> Option<()> {
        let (entry, head) = self.take(Place::Row(row), &[Key::Type])?;
        self.reading.rows.push(Row {
            head,
            resource: entry.numbers.first()?.value == 1,
            members: Vec::new(),
        });
        for member in 0..head.count {
            let place = Place::Member(row, member);
            let (entry, head) = self.take(place, &[Key::Def, Key::Var])?;
            let member = member_of(&entry, head.line)?;
            self.reading.rows.last_mut()?.members.push(member);
        }
        Some(())
    }

    fn form(&mut self, form: usize) -> Option<()> {
        let (entry, head) = self.take(Place::Form(form), &[Key::Form])?;
        let row = entry.numbers.first()?.value.into();
        self.reading.forms.push(Form {
            head,
            row,
            keeps: Vec::new(),
            parts: Vec::new(),
        });
        for keep in 0..head.count {
            let (_, head) = self.take(Place::Keep(form, keep), &[Key::Keep])?;
            let (line, row) = (head.line, head.count);
            self.reading.forms[form].keeps.push(Keep { line, row });
        }
        for part in 0..self.reading.rows.get(row)?.members.len() {
            self.part(form, part)?;
        }
        Some(())
    }

    fn part(&mut self, form: usize, part: usize) -> Option<()> {
        let place = Place::Part(form, part);
        match self.reading.member(form, part)?.shape {
            Shape::Field { .. } => {
                let (_, head) = self.take(place, &[Key::Init])?;
                let kept = head.count;
                self.reading.forms[form].parts.push(Part::Init { kept });
                Some(())
            }
            Shape::Method { .. } => {
                let (_, head) = self.take(place, &[Key::Body])?;
                let body = Part::Body(Code::under(head));
                self.reading.forms[form].parts.push(body);
                self.code(Owner::Body { form, part }, head.count)
            }
        }
    }

    /// The devices, if there are any; gives main's line.
    fn devices(&mut self) -> Option<Head> {
        let (entry, head) = self.take(Place::Devices, &[Key::Devices, Key::Main])?;
        if entry.key == Key::Main {
            *self.reading.places.last_mut()? = Place::Main;
            return Some(head);
        }
        self.reading.equipped = Some(head);
        for device in 0..head.count {
            let (_, head) = self.take(Place::Device(device), &[Key::Device])?;
            let (line, form) = (head.line, head.count);
            self.reading.devices.push(Device { line, form });
        }
        Some(self.take(Place::Main, &[Key::Main])?.1)
    }

    fn code(&mut self, owner: Owner, count: usize) -> Option<()> {
        for place in 0..count {
            let (entry, head) = self.take(Place::Instr(owner, place), &Key::INSTRUCTIONS)?;
            let (line, op) = (head.line, op_of(&entry)?);
            let code = self.reading.code_mut(owner)?;
            code.instrs.push(Instr { line, op });
        }
        Some(())
    }
}

fn member_of(entry: &Entry, line: usize) -> Option<Member> {
    let (name, shape) = match entry.values()[..] {
        [name, row] => (name, Shape::Field { row: row.into() }),
        [name, argument, result] => {
            let (argument, result) = (argument.into(), result.into());
            (name, Shape::Method { argument, result })
        }
        _ => return None,
    };
    Some(Member { line, name, shape })
}

fn op_of(entry: &Entry) -> Option<Op> {
    Some(match (entry.key, &entry.values()[..]) {
        (Key::New, [form, slots @ ..]) => Op::New {
            form: usize::from(*form),
            slots: slots.iter().map(|slot| usize::from(*slot)).collect(),
        },
        (Key::Call, &[slot, name, argument]) => Op::Call {
            slot: slot.into(),
            name,
            argument: argument.into(),
        },
        (Key::Get, &[name]) => Op::Get { name },
        (Key::Put, &[name, slot]) => Op::Put {
            name,
            slot: slot.into(),
        },
        (Key::Copy, &[slot]) => Op::Copy { slot: slot.into() },
        _ => return None,
    })
}
