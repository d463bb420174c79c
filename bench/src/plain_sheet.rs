//! An ordinary sheet of a size.

use std::fmt::Write;

/// Limits of a sheet: forms beside the first, and instructions.
const UNITS: usize = 63;
const INSTRUCTIONS: usize = 1_024;

/// An accepted sheet of at most `bytes` bytes, and as near to it as one more
/// row with its form, or one more instruction, allows. Some 13,700 bytes are
/// the most that it comes to.
pub fn plain(bytes: usize) -> String {
    let fits = |units: usize, more: usize| sheet(units, more).len() <= bytes;
    let units = (1..=UNITS).take_while(|units| fits(*units, 0)).last();
    let units = units.expect("room for one row");
    // Six instructions a unit and main's are there anyway.
    let most = INSTRUCTIONS - 6 * units - 32;
    let more = (0..most).take_while(|more| fits(units, *more)).last();
    sheet(units, more.unwrap_or(0))
}

/// `units` units, each a row and its form, and `more` more instructions, spread
/// over the bodies.
fn sheet(units: usize, more: usize) -> String {
    let mut text = format!("types={}\ntype=0,0\n", units + 1);
    for unit in 1..=units {
        let [a, b, c] = names(unit);
        let before = unit - 1;
        let _ = write!(
            text,
            "type=1,3\ndef={a},0,0\ndef={b},{before},0\nvar={c},0\n"
        );
    }
    let _ = write!(text, "forms={}\nform=0,0\n", units + 1);
    for unit in 1..=units {
        let bodies = 2 * units;
        let share = |body: usize| more / bodies + usize::from(body < more % bodies);
        text += &form(unit, share(2 * unit - 2), share(2 * unit - 1));
    }
    text + &main(units)
}

/// Two methods and a field; the first two names together are a row's own.
fn names(unit: usize) -> [usize; 3] {
    [unit / 8, 8 + unit % 8, 16 + unit % 48]
}

/// Keeps a value of row 0 and one of the row before. Both bodies have a value
/// of row 0 in slot 4, and so more instructions may follow.
fn form(unit: usize, more_a: usize, more_b: usize) -> String {
    let [_, _, c] = names(unit);
    let before = unit - 1;
    let [below, _, _] = names(before);
    let mut text = format!("form={unit},2\nkeep=0\nkeep={before}\n");
    let _ = write!(text, "body={}\nget={c}\nput={c},1\nnew=0\n", 3 + more_a);
    text += &longer(c, more_a);
    let _ = writeln!(text, "body={}", 3 + more_b);
    text += &match before {
        0 => String::from("copy=2\ncopy=1\n"),
        _ => format!("call=3,{below},2\ncall=1,{below},2\n"),
    };
    text += "copy=4\n";
    text + &longer(c, more_b) + "init=0\n"
}

fn longer(field: usize, count: usize) -> String {
    let lines = [
        "copy=4\n".to_string(),
        format!("put={field},4\n"),
        format!("get={field}\n"),
    ];
    lines.iter().cycle().take(count).cloned().collect()
}

/// Makes some of the objects, each over the one before, and calls them.
fn main(units: usize) -> String {
    let made = units.min(15);
    let mut text = format!("main={}\nnew=0\n", 1 + 2 * made);
    for unit in 1..=made {
        let _ = writeln!(text, "new={unit},0,{}", unit - 1);
    }
    for unit in 1..=made {
        let [_, b, _] = names(unit);
        let _ = writeln!(text, "call={unit},{b},{}", unit - 1);
    }
    text
}
