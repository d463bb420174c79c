//! Styles of well-typed sheets: how large, and which instructions prevail.

/// What a well-typed sheet should look like.
#[derive(Clone, Copy, Debug)]
pub struct Style {
    pub rows: usize,
    pub members: usize,
    /// Names are below this.
    pub names: usize,
    /// How many members of a hundred are fields.
    pub fields: usize,
    pub forms: usize,
    pub keeps: usize,
    /// The most instructions of a body.
    pub body: usize,
    pub main: usize,
    /// Weights of new, call, get, put and copy in bodies.
    pub weights: [usize; 5],
    /// Whether bodies may call their own object freely.
    pub own_calls: bool,
    /// Whether they may copy it and give it away; if not, what is called was
    /// there before its caller, and runs end.
    pub own_given: bool,
    /// Whether bodies call names below their own only. The argument of every
    /// method then fits its result.
    pub strict: bool,
    /// How many of a hundred arguments and filled slots no later line names.
    pub silent: usize,
    /// How many of a hundred sheets have devices, if a form can be one.
    pub devices: usize,
}

const SMALL: Style = Style {
    rows: 6,
    members: 2,
    names: 4,
    fields: 20,
    forms: 6,
    keeps: 2,
    body: 4,
    main: 10,
    weights: [3, 3, 2, 2, 2],
    own_calls: false,
    own_given: true,
    strict: false,
    silent: 0,
    devices: 30,
};

pub const TINY: Style = Style {
    rows: 3,
    members: 1,
    names: 2,
    forms: 3,
    keeps: 1,
    body: 2,
    main: 4,
    ..SMALL
};

pub const MIDDLE: Style = Style {
    rows: 16,
    members: 4,
    names: 6,
    forms: 16,
    keeps: 3,
    body: 7,
    main: 24,
    ..SMALL
};

pub const LARGE: Style = Style {
    rows: 64,
    members: 8,
    names: 64,
    forms: 64,
    keeps: 8,
    body: 32,
    main: 32,
    ..SMALL
};

/// Bodies that make much and call much: the store fills.
pub const BUSY: Style = Style {
    rows: 8,
    forms: 8,
    body: 32,
    main: 32,
    weights: [10, 3, 1, 1, 1],
    ..SMALL
};

/// Bodies that call themselves: the stack fills.
pub const LOOPING: Style = Style {
    body: 3,
    main: 16,
    weights: [1, 8, 1, 1, 1],
    own_calls: true,
    ..SMALL
};

/// Many fields, set and read.
pub const FIELDS: Style = Style {
    rows: 7,
    members: 4,
    names: 6,
    fields: 45,
    forms: 10,
    main: 28,
    weights: [2, 2, 5, 5, 1],
    ..SMALL
};

/// Mostly rows, so that their faults stand late in the sheet.
pub const ROWS: Style = Style {
    forms: 3,
    keeps: 1,
    body: 2,
    main: 4,
    ..LARGE
};

/// Few names and many fields, so that a name stands for different things.
pub const CROSSED: Style = Style {
    rows: 12,
    members: 3,
    names: 3,
    fields: 50,
    forms: 14,
    keeps: 3,
    main: 24,
    ..SMALL
};

/// Mills; they make their rows and forms themselves.
pub const MILL: Style = Style { main: 32, ..SMALL };

/// Idle sheets; they make their rows and forms themselves.
pub const IDLE: Style = Style {
    main: 32,
    silent: 35,
    ..SMALL
};

/// Device sheets; they make their rows, forms and devices themselves.
pub const DEVICE: Style = SMALL;

/// Bodies that call lower names: of a few, of any, and with much making.
pub const STRICT: [Style; 3] = [
    Style {
        rows: 10,
        members: 4,
        names: 10,
        forms: 12,
        body: 6,
        main: 16,
        weights: [2, 8, 1, 1, 1],
        own_calls: true,
        strict: true,
        ..SMALL
    },
    Style {
        rows: 20,
        forms: 24,
        body: 16,
        weights: [1, 9, 1, 1, 1],
        own_calls: true,
        strict: true,
        ..LARGE
    },
    Style {
        members: 6,
        names: 16,
        weights: [6, 6, 1, 1, 1],
        own_calls: true,
        strict: true,
        ..BUSY
    },
];

/// The styles of the rotation, in its order.
pub const ALL: [Style; 7] = [TINY, SMALL, MIDDLE, LARGE, BUSY, LOOPING, FIELDS];
