//! The table that reading leaves: rows, forms, devices and code, with the
//! line of each thing that typing may still refuse.

/// The limits of a sheet.
pub const TEXT_LIMIT: usize = 65_535;
pub const ROW_LIMIT: u16 = 64;
pub const MEMBER_LIMIT: u16 = 8;
pub const NAME_LIMIT: u16 = 63;
pub const FORM_LIMIT: u16 = 64;
pub const KEEP_LIMIT: u16 = 8;
pub const DEVICE_LIMIT: u16 = 8;
pub const CODE_LIMIT: u16 = 32;
pub const INSTRUCTION_LIMIT: usize = 1_024;

/// A sheet that has passed the refusals 2 to 7.
#[derive(Clone, Debug)]
pub struct Sheet {
    pub rows: Vec<Row>,
    pub forms: Vec<Form>,
    /// Empty where there is no `devices` line.
    pub devices: Vec<Device>,
    pub main: Code,
}

/// A type row. No line is kept, so equality is the twin test of the rules.
#[derive(Clone, Debug, PartialEq, Eq)]
pub struct Row {
    pub resource: bool,
    /// In strictly ascending order of their names.
    pub members: Vec<Member>,
}

#[derive(Clone, Copy, Debug, PartialEq, Eq)]
pub struct Member {
    pub name: u16,
    pub kind: Kind,
}

#[derive(Clone, Copy, Debug, PartialEq, Eq)]
pub enum Kind {
    Method { argument: u16, result: u16 },
    Field { row: u16 },
}

impl Row {
    fn kind(&self, name: u16) -> Option<Kind> {
        let member = self.members.iter().find(|m| m.name == name)?;
        Some(member.kind)
    }

    /// Argument and result row of the method with this name.
    pub fn method(&self, name: u16) -> Option<(u16, u16)> {
        match self.kind(name)? {
            Kind::Method { argument, result } => Some((argument, result)),
            Kind::Field { .. } => None,
        }
    }

    /// The row of the field with this name.
    pub fn field(&self, name: u16) -> Option<u16> {
        match self.kind(name)? {
            Kind::Field { row } => Some(row),
            Kind::Method { .. } => None,
        }
    }

    /// How many members have this name or a lower one.
    pub fn up_to(&self, name: u16) -> u32 {
        let members = self.members.iter();
        members.map(|member| u32::from(member.name <= name)).sum()
    }

    pub fn has_field(&self) -> bool {
        self.members
            .iter()
            .any(|m| matches!(m.kind, Kind::Field { .. }))
    }
}

/// A form: what its objects keep, and one part for each member of its row.
#[derive(Clone, Debug)]
pub struct Form {
    pub row: u16,
    pub line: u32,
    pub keeps: Vec<Keep>,
    pub parts: Vec<Part>,
}

#[derive(Clone, Copy, Debug)]
pub struct Keep {
    pub row: u16,
    pub line: u32,
}

#[derive(Clone, Debug)]
pub enum Part {
    /// A field that starts as this kept value.
    Init { kept: u16, line: u32 },
    /// A method's body.
    Body(Code),
}

/// A device: an object of this form that is there at the start.
#[derive(Clone, Copy, Debug, PartialEq, Eq)]
pub struct Device {
    pub form: u16,
    pub line: u32,
}

/// The instructions of a body or of main; never empty.
pub type Code = Vec<Placed>;

#[derive(Clone, Debug)]
pub struct Placed {
    pub instruction: Instruction,
    pub line: u32,
}

#[derive(Clone, Debug, PartialEq, Eq)]
pub enum Instruction {
    New { form: u16, slots: Vec<u16> },
    Call { slot: u16, name: u16, argument: u16 },
    Get { name: u16 },
    Put { name: u16, slot: u16 },
    Copy { slot: u16 },
}

impl Instruction {
    /// Whether it names this slot.
    pub fn names(&self, slot: u16) -> bool {
        match self {
            Instruction::New { slots, .. } => slots.contains(&slot),
            Instruction::Call {
                slot: called,
                argument,
                ..
            } => slot == *called || slot == *argument,
            Instruction::Get { .. } => false,
            Instruction::Put { slot: named, .. } | Instruction::Copy { slot: named } => {
                slot == *named
            }
        }
    }
}
