//! Every limit at its edge, on both sides.

use crate::rng::Rng;
use std::fmt::Write;

/// A sheet at one edge; the number decides at which.
type Edge = fn() -> String;

/// All edges, in a fixed order.
pub const EDGES: [Edge; 56] = [
    || types(0),
    || types(1),
    || types(64),
    || types(65),
    || members(8),
    || members(9),
    || forms(0, "new=0"),
    || forms(0, "get=0"),
    || forms(64, "new=63"),
    || forms(64, "new=64"),
    || forms(65, "new=64"),
    || keeps(8, 8),
    || keeps(9, 9),
    || keeps(8, 7),
    || keeps(7, 8),
    || keeps(8, 9),
    || code(0, 2),
    || code(1, 2),
    || code(32, 2),
    || code(33, 2),
    || code(1, 0),
    || code(1, 1),
    || code(1, 32),
    || code(1, 33),
    || total(31, 0, 32),
    || total(31, 1, 31),
    || total(31, 1, 32),
    || total(31, 31, 1),
    || total(31, 32, 1),
    || total(32, 1, 1),
    || named(63, 63),
    || named(64, 64),
    || named(63, 64),
    || field_named(63, "get=63"),
    || field_named(64, "get=63"),
    || field_named(63, "get=64"),
    || field_named(63, "put=63,1"),
    || field_named(63, "put=64,1"),
    || kind(1),
    || kind(2),
    || first_line("types=65535"),
    || first_line("types=65536"),
    || last_line("copy=65535"),
    || last_line("copy=65536"),
    || last_line("copy=1"),
    || last_line("copy=2"),
    || last_line("new="),
    || last_line("new"),
    || lower(1),
    || lower(2),
    || objects(6),
    || objects(7),
    || frames("copy=1"),
    || frames("call=0,0,1"),
    || tall(60, 61),
    || tall(61, 60),
];

/// Lengths of text at the edge and beyond.
pub const LENGTHS: [usize; 3] = [65_535, 65_536, 70_000];

/// A text of exactly this length, made long in one of several ways.
pub fn long_text(rng: &mut Rng, mut text: Vec<u8>, length: usize) -> Vec<u8> {
    match rng.below(4) {
        0 => text.extend(b"copy=0\n".iter().cycle().take(length)),
        1 => text.extend(vec![b'\n'; length]),
        2 => {
            // One number grows, somewhere in the text.
            let place = rng.below(text.len());
            let digits = vec![b'7'; length - text.len()];
            text.splice(place..place, digits);
        }
        _ => {
            let bytes: Vec<u8> = (0..length).map(|_| rng.below(256) as u8).collect();
            text.extend(bytes);
        }
    }
    text.truncate(length);
    text
}

/// Rows 0 and 1 are empty, the others differ by a name.
fn types(count: usize) -> String {
    let mut text = format!("types={count}\n");
    for row in 0..count {
        text += &match row {
            0 => String::from("type=0,0\n"),
            1 => String::from("type=1,0\n"),
            _ => format!("type=1,1\ndef={},0,{}\n", row - 2, row - 1),
        };
    }
    text + "forms=1\nform=0,0\nmain=1\nnew=0\n"
}

fn members(count: usize) -> String {
    let mut text = format!("types=2\ntype=0,0\ntype=1,{count}\n");
    for name in 0..count {
        let _ = writeln!(text, "def={name},0,0");
    }
    text += "forms=2\nform=0,0\nform=1,0\n";
    text += &"body=1\ncopy=1\n".repeat(count);
    text + "main=3\nnew=0\nnew=1\ncall=1,7,0\n"
}

fn forms(count: usize, last: &str) -> String {
    let forms = "form=0,0\n".repeat(count);
    format!("types=1\ntype=1,0\nforms={count}\n{forms}main=1\n{last}\n")
}

/// A form that keeps `kept` values, made with `given` slots.
fn keeps(kept: usize, given: usize) -> String {
    let keeps = "keep=0\n".repeat(kept);
    let slots = ",0".repeat(given);
    format!(
        "types=1\ntype=1,0\nforms=2\nform=0,0\nform=0,{kept}\n{keeps}main=2\nnew=0\nnew=1{slots}\n"
    )
}

fn code(body: usize, main: usize) -> String {
    let copies = "copy=1\n".repeat(body);
    let more = "new=0\n".repeat(main);
    format!(
        "types=2\ntype=0,0\ntype=1,1\ndef=0,0,0\nforms=2\nform=0,0\nform=1,0\n\
         body={body}\n{copies}main={main}\n{more}"
    )
}

/// `bodies` bodies of 32, one more of `last` if that is not 0, and main.
fn total(bodies: usize, last: usize, main: usize) -> String {
    let counts: Vec<usize> = [vec![32; bodies], vec![last; usize::from(last > 0)]].concat();
    let mut text = String::from("types=2\ntype=0,0\ntype=1,1\ndef=0,0,0\n");
    let _ = write!(text, "forms={}\nform=0,0\n", counts.len() + 1);
    for count in counts {
        let _ = write!(text, "form=1,0\nbody={count}\n{}", "copy=1\n".repeat(count));
    }
    text + &format!("main={main}\n{}", "new=0\n".repeat(main))
}

fn named(name: usize, called: usize) -> String {
    format!(
        "types=2\ntype=0,0\ntype=1,1\ndef={name},0,0\nforms=2\nform=0,0\nform=1,0\n\
         body=1\ncopy=1\nmain=3\nnew=0\nnew=1\ncall=1,{called},0\n"
    )
}

fn field_named(name: usize, instruction: &str) -> String {
    format!(
        "types=2\ntype=0,0\ntype=1,2\ndef=0,0,0\nvar={name},0\nforms=2\nform=0,0\nform=1,1\n\
         keep=0\nbody=1\n{instruction}\ninit=0\nmain=3\nnew=0\nnew=1,0\ncall=1,0,0\n"
    )
}

fn kind(number: usize) -> String {
    format!("types=2\ntype=0,0\ntype={number},0\nforms=1\nform=1,0\nmain=1\nnew=0\n")
}

fn first_line(line: &str) -> String {
    format!("{line}\ntype=0,0\nforms=1\nform=0,0\nmain=1\nnew=0\n")
}

fn last_line(line: &str) -> String {
    format!("types=1\ntype=0,0\nforms=1\nform=0,0\nmain=3\nnew=0\nnew=0\n{line}\n")
}

/// A row whose member names the row below it, or itself.
fn lower(row: usize) -> String {
    format!(
        "types=3\ntype=0,0\ntype=1,0\ntype=1,1\ndef=0,0,{row}\nforms=1\nform=0,0\nmain=1\nnew=0\n"
    )
}

/// Main makes `more` objects after 250 others.
fn objects(more: usize) -> String {
    let main = 10 + more;
    let body = "new=0\n".repeat(31);
    let calls = "call=1,0,0\n".repeat(8);
    let code = "new=1\n".repeat(more);
    format!(
        "types=2\ntype=1,0\ntype=1,1\ndef=0,0,0\nforms=2\nform=0,0\nform=1,0\nbody=31\n{body}\
         main={main}\nnew=0\nnew=1\n{calls}{code}"
    )
}

/// Each of 63 forms makes the next and calls it; the last body is given.
fn frames(last: &str) -> String {
    let mut text = String::from("types=2\ntype=0,0\ntype=1,1\ndef=0,0,0\nforms=64\nform=0,0\n");
    for form in 2..64 {
        let _ = write!(text, "form=1,0\nbody=2\nnew={form}\ncall=2,0,1\n");
    }
    text + &format!("form=1,0\nbody=1\n{last}\nmain=3\nnew=0\nnew=1\ncall=1,0,0\n")
}

/// Two ladders of rows, over a pure and over a resource ground. Each row of
/// the first fits its neighbour in the second, and to tell so takes every
/// pair beneath, sixteen times over at each rung.
fn tall(argument: usize, result: usize) -> String {
    let mut text = String::from("types=63\ntype=0,0\ntype=1,0\n");
    for rung in 0..30 {
        let (first, second) = (2 * rung, 2 * rung + 1);
        for (argument, result) in [(second, first), (first, second)] {
            text += "type=1,8\n";
            for name in 0..8 {
                let _ = writeln!(text, "def={name},{argument},{result}");
            }
        }
    }
    let _ = write!(text, "type=1,1\ndef=0,{argument},{result}\n");
    text + "forms=2\nform=0,0\nform=62,0\nbody=1\ncopy=1\nmain=2\nnew=0\nnew=1\n"
}
