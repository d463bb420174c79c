//! The sheets that are read and judged.

use crate::rows::{last_method, rows};
use std::fmt::Write;

/// The most bytes that a text may have.
const TEXT: usize = 65_535;

/// The longest sheet that can be accepted. A `new` of eight slots with two
/// digits has the longest line. In a body it comes after one line, because
/// eight kept values fill the slots up to 9; so there are as few bodies as
/// 1,023 instructions need, 32, and all other parts are fields. Main's first
/// line can only be the `new` of a form that keeps nothing; so that is all
/// that main has, and the form has no parts. Row 10 has the fields, since its
/// members lose the least by not being methods, and all rows are resources,
/// so that row 10 fits row 0.
pub fn longest() -> String {
    let mut text = String::from("types=64\ntype=1,0\n");
    for row in 1..64 {
        text += "type=1,8\n";
        for name in 10..18 {
            let _ = match row {
                10 => writeln!(text, "var={name},0"),
                _ => writeln!(text, "def={name},{before},{before}", before = row - 1),
            };
        }
    }
    text += "forms=64\n";
    for form in 0..63 {
        let row = if form < 4 { 11 } else { 10 };
        let _ = writeln!(text, "form={row},8");
        text += &"keep=10\n".repeat(8);
        for place in 0..8 {
            if form < 4 {
                text += &long_body(if form + place == 0 { 31 } else { 32 });
            } else {
                let _ = writeln!(text, "init={place}");
            }
        }
    }
    text + "form=0,0\nmain=1\nnew=63\n"
}

/// A body of `count` `new` of a form of row 10; only the first line has no slot yet
/// whose number has two digits.
fn long_body(count: usize) -> String {
    let first = format!("body={count}\nnew=62{}\n", ",1".repeat(8));
    let other = format!("new=62{}\n", ",10".repeat(8));
    first + &other.repeat(count - 1)
}

/// The longest sheet with more lines after main, as many bytes as a text may
/// have; and how many of them are read: up to the line after main.
pub fn over_long() -> (String, usize) {
    let mut text = longest();
    let short = "copy=0\n";
    let read = text.len() + short.len();
    let (lines, left) = ((TEXT - text.len()) / 7, (TEXT - text.len()) % 7);
    text += &short.repeat(lines - left);
    text += &"copy=10\n".repeat(left);
    (text, read)
}

/// As slow to judge as a sheet can be: rows that are slow to fit, and as many
/// instructions as there may be, all but one a `new` of eight slots. Form n is
/// of row n, so that a body can give back a value of any row.
pub fn slowest() -> String {
    let mut text = rows(last_method) + "forms=64\n";
    let slots = ",2".repeat(8);
    for row in 0..63 {
        let _ = write!(text, "form={row},8\n{}", "keep=0\n".repeat(8));
        for place in 0..if row == 0 { 0 } else { 8 } {
            let result = if place == 7 { row - 1 } else { 0 };
            let _ = write!(text, "body=2\nnew=62{slots}\nnew={result}{slots}\n");
        }
    }
    text += "form=0,0\nmain=32\nnew=63\n";
    text + &format!("new=62{}\n", ",0".repeat(8)).repeat(31)
}

/// Built for the question for the most steps, which looks for each of 64 names
/// among the members of every form: 64 forms of eight methods, and as many
/// instructions as there may be. Names 0 to 63 stand in rows 1 to 8, of which
/// each has eight forms. All but those of row 1 keep an object of the row below.
pub fn many_bodies() -> String {
    let mut text = String::from("types=9\ntype=1,0\n");
    for name in 0..64 {
        text += if name % 8 == 0 { "type=1,8\n" } else { "" };
        let _ = writeln!(text, "def={name},0,0");
    }
    text += "forms=64\n";
    for form in 0..64 {
        let below = form / 8;
        let _ = match below {
            0 => writeln!(text, "form=1,0"),
            _ => writeln!(text, "form={},1\nkeep={below}", below + 1),
        };
        for place in 0..8 {
            text += &calling_body(8 * below + place);
        }
    }
    text += "main=8\nnew=0\n";
    for below in 0..6 {
        let _ = writeln!(text, "new={},{below}", 8 * (below + 1));
    }
    text + "call=6,55,0\n"
}

/// A body of a name: it calls the name below and the lowest of its own row, or,
/// if it is that one, of the row below. So amounts stay small enough for an
/// answer. Name 0 has none to call.
fn calling_body(name: usize) -> String {
    let (slot, lowest) = match name % 8 {
        _ if name == 0 => return String::from("body=1\ncopy=1\n"),
        0 => (2, name - 8),
        place => (0, name - place),
    };
    let below = name - 1;
    format!("body=2\ncall={slot},{below},1\ncall={slot},{lowest},1\n")
}

/// A sheet with its last line torn: it is read to the end, and not judged.
pub fn torn(sheet: &str) -> &str {
    sheet.trim_end()
}

/// 256 objects, all resources, with eight kept values and seven fields, and
/// 64 frames, all but main's with 41 filled slots and a receiver of their own:
/// a body makes four objects, looks at what it has, and calls itself on the
/// last one. Main has made four before; the run ends when the stack is full.
pub fn holders() -> String {
    let mut text = String::from("types=2\ntype=1,0\ntype=1,8\ndef=0,0,0\n");
    for name in 1..8 {
        let _ = writeln!(text, "var={name},0");
    }
    let _ = write!(
        text,
        "forms=2\nform=0,0\nform=1,8\n{}",
        "keep=0\n".repeat(8)
    );
    text += "body=32\n";
    for made in 10..14 {
        let _ = writeln!(text, "new=1,0,1,2,3,4,5,6,{}", made - 1);
    }
    for place in 0..27 {
        let _ = match place % 2 {
            0 => writeln!(text, "get={}", 1 + place % 7),
            _ => writeln!(text, "copy={}", place % 14),
        };
    }
    text += "call=13,0,12\n";
    for field in 0..7 {
        let _ = writeln!(text, "init={}", 7 - field);
    }
    text += "main=5\nnew=0\n";
    for made in 1..4 {
        let _ = writeln!(text, "new=1,0,0,0,0,0,0,0,{}", made - 1);
    }
    text + "call=3,0,2\n"
}

/// The same store and stack, but each body has 27 instructions left, which
/// name what its object keeps, and the form has seven more bodies of 32.
pub fn holders_at_work() -> String {
    let mut text = String::from("types=2\ntype=1,0\ntype=1,8\n");
    for name in 0..8 {
        let _ = writeln!(text, "def={name},0,0");
    }
    let keeps = "keep=0\n".repeat(8);
    let _ = write!(text, "forms=2\nform=0,0\nform=1,8\n{keeps}body=32\n");
    for made in 10..14 {
        let _ = writeln!(text, "new=1,0,1,2,3,4,5,6,{}", made - 1);
    }
    text += "call=13,0,12\n";
    let name_all = "new=1,2,3,4,5,6,7,8,9\n";
    text += &name_all.repeat(27);
    for _ in 1..8 {
        let _ = write!(text, "body=32\n{}", name_all.repeat(32));
    }
    text += "main=5\nnew=0\n";
    for made in 1..4 {
        let _ = writeln!(text, "new=1,0,0,0,0,0,0,0,{}", made - 1);
    }
    text + "call=3,0,2\n"
}
