//! What stands on which line of a sheet, as a plain reading has it.

/// Whose instructions they are.
#[derive(Clone, Copy, Debug, PartialEq, Eq)]
pub enum Owner {
    Main,
    /// The body of a part of a form.
    Body {
        form: usize,
        part: usize,
    },
}

/// What a line is, or what is wanted of it.
#[derive(Clone, Copy, Debug, PartialEq, Eq)]
pub enum Place {
    Types,
    Row(usize),
    /// A row, and which of its members.
    Member(usize, usize),
    Forms,
    Form(usize),
    /// A form, and which of its kept values.
    Keep(usize, usize),
    /// A form, and which of its parts.
    Part(usize, usize),
    /// Devices, or main if there are none.
    Devices,
    Device(usize),
    Main,
    /// Which instruction of its owner's.
    Instr(Owner, usize),
    /// After main.
    End,
}

/// A line that counts what follows it.
#[derive(Clone, Copy, Debug)]
pub struct Head {
    pub line: usize,
    pub count: usize,
}

#[derive(Clone, Debug)]
pub struct Row {
    pub head: Head,
    pub resource: bool,
    pub members: Vec<Member>,
}

#[derive(Clone, Copy, Debug)]
pub struct Member {
    pub line: usize,
    pub name: u16,
    pub shape: Shape,
}

/// What a member is, with its rows.
#[derive(Clone, Copy, Debug, PartialEq, Eq)]
pub enum Shape {
    Method { argument: usize, result: usize },
    Field { row: usize },
}

#[derive(Clone, Debug)]
pub struct Form {
    pub head: Head,
    pub row: usize,
    pub keeps: Vec<Keep>,
    pub parts: Vec<Part>,
}

#[derive(Clone, Copy, Debug)]
pub struct Keep {
    pub line: usize,
    pub row: usize,
}

#[derive(Clone, Debug)]
pub enum Part {
    /// A field, which starts as a kept value.
    Init {
        kept: usize,
    },
    Body(Code),
}

#[derive(Clone, Debug)]
pub struct Code {
    pub head: Head,
    pub instrs: Vec<Instr>,
}

#[derive(Clone, Debug)]
pub struct Instr {
    pub line: usize,
    pub op: Op,
}

#[derive(Clone, Debug)]
pub enum Op {
    New {
        form: usize,
        slots: Vec<usize>,
    },
    Call {
        slot: usize,
        name: u16,
        argument: usize,
    },
    Get {
        name: u16,
    },
    Put {
        name: u16,
        slot: usize,
    },
    Copy {
        slot: usize,
    },
}

#[derive(Clone, Copy, Debug)]
pub struct Device {
    pub line: usize,
    pub form: usize,
}

/// What was read.
#[derive(Clone, Debug)]
pub struct Reading {
    /// What each line is, from the first on, as far as reading went.
    pub places: Vec<Place>,
    /// What is wanted of the line after these.
    pub next: Place,
    pub types: Option<Head>,
    pub rows: Vec<Row>,
    pub formed: Option<Head>,
    pub forms: Vec<Form>,
    pub equipped: Option<Head>,
    pub devices: Vec<Device>,
    pub main: Option<Code>,
}

impl Code {
    /// No instructions yet, below a line that counts them.
    pub fn under(head: Head) -> Code {
        let instrs = Vec::new();
        Code { head, instrs }
    }
}

impl Row {
    /// The member of a name.
    pub fn member(&self, name: u16) -> Option<&Member> {
        self.members.iter().find(|member| member.name == name)
    }

    /// The line of its last member, or its own if it has none.
    pub fn last_line(&self) -> usize {
        self.members
            .last()
            .map_or(self.head.line, |member| member.line)
    }
}

impl Reading {
    /// The member of a form's row that a part is for.
    pub fn member(&self, form: usize, part: usize) -> Option<&Member> {
        let row = self.forms.get(form)?.row;
        self.rows.get(row)?.members.get(part)
    }

    /// The instructions of an owner.
    pub fn code(&self, owner: Owner) -> Option<&Code> {
        match owner {
            Owner::Main => self.main.as_ref(),
            Owner::Body { form, part } => match self.forms.get(form)?.parts.get(part)? {
                Part::Body(code) => Some(code),
                Part::Init { .. } => None,
            },
        }
    }

    /// The same, to add to.
    pub fn code_mut(&mut self, owner: Owner) -> Option<&mut Code> {
        match owner {
            Owner::Main => self.main.as_mut(),
            Owner::Body { form, part } => match self.forms.get_mut(form)?.parts.get_mut(part)? {
                Part::Body(code) => Some(code),
                Part::Init { .. } => None,
            },
        }
    }

    /// All instructions that were announced.
    pub fn announced(&self) -> usize {
        let parts = self.forms.iter().flat_map(|form| &form.parts);
        let bodies = parts.filter_map(|part| match part {
            Part::Body(code) => Some(code),
            Part::Init { .. } => None,
        });
        bodies.chain(&self.main).map(|code| code.head.count).sum()
    }

    /// Whether an object of this form is a resource.
    pub fn is_resource(&self, form: usize) -> Option<bool> {
        let row = self.forms.get(form)?.row;
        Some(self.rows.get(row)?.resource)
    }
}
