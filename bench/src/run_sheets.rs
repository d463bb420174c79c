//! The sheets whose runs are timed. Row 0 is an empty resource, so that every
//! object fits it.

use std::fmt::Write;

/// Levels of the nest in a run that is timed, in one that is timed for a slow
/// program, and in one whose instructions are counted.
pub const TIMED: usize = 4;
pub const SLOW: usize = 3;
pub const COUNTED: usize = 2;

/// A sheet by the levels of its nest, and how many runs of it make a time that
/// can be measured.
pub struct Work {
    pub name: &'static str,
    pub sheet: fn(usize) -> String,
    pub runs: u32,
}

pub const WORKS: [Work; 4] = [
    work("calls side by side", calls, 1),
    work("calls one inside the other", chain, 1),
    work("mostly `get` and `put`", fields, 1),
    work("256 creations with 8 kept values", creations, 20),
];

const fn work(name: &'static str, sheet: fn(usize) -> String, runs: u32) -> Work {
    Work { name, sheet, runs }
}

/// `count` forms of row 1, each of which keeps the object beneath it and calls
/// that object's method 0 `calls` times.
fn nest(count: usize, calls: usize) -> String {
    let code = "call=2,0,1\n".repeat(calls);
    format!("form=1,1\nkeep=1\nbody={calls}\n{code}").repeat(count)
}

/// Main's last lines: objects of a nest's forms, from this form on, stacked on
/// the last slot, and a call of the topmost.
fn stacked(last: usize, form: usize, count: usize) -> String {
    let mut text = String::new();
    for level in 0..count {
        let _ = writeln!(text, "new={},{}", form + level, last + level);
    }
    text + &format!("call={},0,0\n", last + count)
}

/// Mostly calls and returns, side by side: a nest over one body that calls
/// three objects in turn, which keep 0, 2 and 8 values and only copy.
fn calls(levels: usize) -> String {
    let mut text = String::from("types=2\ntype=1,0\ntype=1,1\ndef=0,0,0\n");
    let _ = write!(text, "forms={}\nform=0,0\n", 5 + levels);
    for kept in [0, 2, 8] {
        let keeps = "keep=0\n".repeat(kept);
        let _ = write!(text, "form=1,{kept}\n{keeps}body=1\ncopy=1\n");
    }
    text += "form=1,3\nkeep=1\nkeep=1\nkeep=1\nbody=24\n";
    text += &"call=2,0,1\ncall=3,0,1\ncall=4,0,1\n".repeat(8);
    text += &nest(levels, 24);
    let _ = write!(text, "main={}\nnew=0\nnew=1\nnew=2,0,0\n", 6 + levels);
    text += "new=3,0,0,0,0,0,0,0,0\nnew=4,1,2,3\n";
    text + &stacked(4, 5, levels)
}

/// Nothing but calls and returns, one inside the other: under a nest a chain
/// of 24 links that keep 2 and 8 values in turn. A link calls on by way of an
/// object that keeps nothing, whose argument is the link beneath; at the
/// chain's end is one copy.
fn chain(levels: usize) -> String {
    let mut text = String::from("types=3\ntype=1,0\ntype=1,1\ndef=0,0,0\ntype=1,1\ndef=1,1,0\n");
    let _ = writeln!(text, "forms={}", 4 + levels);
    text += "form=2,0\nbody=1\ncall=1,0,1\nform=1,0\nbody=1\ncopy=1\n";
    for kept in [2, 8] {
        let others = "keep=0\n".repeat(kept - 2);
        let _ = write!(text, "form=1,{kept}\nkeep=2\nkeep=1\n{others}");
        text += "body=1\ncall=2,1,3\n";
    }
    text += &nest(levels, 24);
    let _ = write!(text, "main={}\nnew=0\nnew=1\n", 27 + levels);
    for below in (1..25).step_by(2) {
        let _ = writeln!(text, "new=2,0,{below}");
        let _ = writeln!(text, "new=3,0,{},0,0,0,0,0,0", below + 1);
    }
    text + &stacked(25, 4, levels)
}

/// Mostly `get` and `put`: under a nest a body of 32 of them, which carries
/// two values round seven fields. Each `put` takes a value read some lines
/// before, so that no step has to wait for the one before it.
fn fields(levels: usize) -> String {
    let mut text = String::from("types=3\ntype=1,0\ntype=1,1\ndef=0,0,0\ntype=1,8\ndef=0,0,0\n");
    for name in 1..8 {
        let _ = writeln!(text, "var={name},0");
    }
    let _ = write!(text, "forms={}\nform=0,0\n", 2 + levels);
    text += "form=2,2\nkeep=0\nkeep=0\nbody=32\n";
    for pair in 0..16_usize {
        let (from, to) = (1 + pair % 7, 1 + (pair + 3) % 7);
        let slot = 2 + 2 * pair.saturating_sub(5);
        let _ = write!(text, "get={from}\nput={to},{slot}\n");
    }
    for field in 0..7 {
        let _ = writeln!(text, "init={}", field % 2);
    }
    text += &nest(levels, 30);
    let _ = write!(text, "main={}\nnew=0\nnew=0\nnew=1,0,1\n", 4 + levels);
    text + &stacked(2, 2, levels)
}

/// Mostly creations: exactly the 256 that a store has room for, so that a
/// longer run is not to be had. All but two keep eight values, and have eight
/// and four fields in turn.
fn creations(_: usize) -> String {
    let mut text = String::from("types=4\ntype=1,0\ntype=1,1\ndef=0,0,0\n");
    for count in [8, 4] {
        let _ = writeln!(text, "type=1,{count}");
        for name in 0..count {
            let _ = writeln!(text, "var={name},0");
        }
    }
    text += "forms=4\nform=0,0\nform=1,0\nbody=31\n";
    for place in 0..31 {
        text += &creation(2 + place);
    }
    for (row, count) in [(2, 8), (3, 4)] {
        let _ = write!(text, "form={row},8\n{}", "keep=0\n".repeat(8));
        for field in 0..count {
            let _ = writeln!(text, "init={}", (field * 3 + 1) % 8);
        }
    }
    text += "main=16\nnew=0\nnew=1\n";
    text += &"call=1,0,0\n".repeat(8);
    for place in 0..6 {
        text += &creation(10 + place);
    }
    text
}

/// A `new` that keeps eight of the slots filled so far.
fn creation(filled: usize) -> String {
    let mut line = format!("new={}", 2 + filled % 2);
    for kept in 0..8 {
        let _ = write!(line, ",{}", (filled + kept * 5) % filled);
    }
    line + "\n"
}
