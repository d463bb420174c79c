//! Sheets that are sure to finish: circular calls, and main's amount.

use crate::common::*;
use second::{bound, Outcome, Reason, Refusal, NO_VALUE};

/// Refusal number and line of the question.
fn refused(text: &[u8]) -> (u32, u32) {
    pair(bound(text))
}

/// Instructions with the line that counts them.
fn code(key: &str, lines: &[(usize, &str)]) -> String {
    let count: usize = lines.iter().map(|(count, _)| count).sum();
    let lines = lines.iter().map(|(count, line)| line.repeat(*count));
    format!("{key}={count}\n") + &lines.collect::<String>()
}

/// A single form with names 0 to 6, and main that makes it, calls name 6
/// sixteen times and copies. Name 0 has 13 instructions, every other name 16
/// calls of the name below and 13 more. With one for its return and one for
/// the `call` line, a call of name 0 takes 15 steps, 16^1 - 1; one of name k
/// takes 16 * (16^k - 1) + 15, that is 16^(k+1) - 1. So main needs
/// 1 + 16 * (2^28 - 1) + copies, that is 2^32 - 15 + copies.
pub fn steps(copies: usize) -> Vec<u8> {
    let mut text = String::from("types=2\ntype=1,0\ntype=1,7\n");
    for name in 0..7 {
        text += &format!("def={name},0,0\n");
    }
    text += "forms=1\nform=1,0\n";
    text += &code("body", &[(13, "copy=1\n")]);
    for name in 0..6 {
        let call = format!("call=0,{name},1\n");
        text += &code("body", &[(16, &call), (13, "copy=1\n")]);
    }
    let main = [(1, "new=0\n"), (16, "call=0,6,0\n"), (copies, "copy=0\n")];
    (text + &code("main", &main)).into_bytes()
}

/// A pure object and an object of a row with names 1, 2 and 3, whose bodies
/// have one instruction each, on the lines 10, 12 and 14.
fn three(bodies: [&str; 3], main: &str) -> Vec<u8> {
    let [one, two, three] = bodies;
    sheet(&format!(
        "types=2 / type=0,0 / type=1,3 / def=1,0,0 / def=2,0,0 / def=3,0,0 / forms=2 / \
         form=1,0 / body=1 / {one} / body=1 / {two} / body=1 / {three} / form=0,0 / \
         main=3 / new=1 / new=0 / {main}"
    ))
}

#[test]
fn the_worked_cases() {
    assert_eq!(bound(CLERK), Ok(8));
    let circular = Refusal::at(Reason::CircularCall, 9);
    assert_eq!(bound(LOOP), Err(circular));
    assert_eq!(circular.number(), 12);
    let beyond = Refusal::at(Reason::BeyondCount, 0);
    assert_eq!(bound(&steps(15)), Err(beyond));
    assert_eq!(beyond.number(), 13);
    assert_eq!((circular.lack(), beyond.lack()), (None, None));
}

#[test]
fn a_body_calls_lower_names_only() {
    let plain = ["copy=1"; 3];
    assert_eq!(bound(&three(plain, "call=1,3,0")), Ok(5));
    let lower = ["copy=1", "call=0,1,1", "call=0,2,1"];
    assert_eq!(bound(&three(lower, "call=1,3,0")), Ok(9));
    assert_eq!(bound(&three(lower, "call=1,1,0")), Ok(5));
    let cases = [
        (["call=0,1,1", "copy=1", "copy=1"], 10),
        (["call=0,2,1", "copy=1", "copy=1"], 10),
        (["call=0,3,1", "call=0,2,1", "copy=1"], 10),
        (["copy=1", "call=0,2,1", "call=0,3,1"], 12),
        (["copy=1", "call=0,3,1", "call=0,1,1"], 12),
        (["copy=1", "call=0,1,1", "call=0,3,1"], 14),
    ];
    for (bodies, line) in cases {
        // Neither the called name nor a main that calls nothing matters.
        for main in ["call=1,1,0", "call=1,3,0", "copy=0"] {
            let text = three(bodies, main);
            assert_eq!(verdict(&text), (0, 0));
            assert_eq!(refused(&text), (12, line), "{bodies:?}");
        }
    }
}

/// The clerk's method and the scale's that it calls, with these names.
fn renamed(own: u32, called: u32) -> Vec<u8> {
    let mut text = with_line(CLERK, 4, &format!("def={called},0,0"));
    // Another member keeps the two rows apart.
    text = with_line(&text, 5, "type=1,2");
    text = with_line(&text, 6, &format!("def={own},0,0\nvar=63,0"));
    text = with_line(&text, 13, "form=2,2\nkeep=0");
    text = with_line(&text, 17, &format!("call=3,{called},1\ninit=0"));
    text = with_line(&text, 22, "new=2,0,1");
    with_line(&text, 23, &format!("call=2,{own},0"))
}

#[test]
fn names_are_those_of_the_whole_sheet() {
    for (own, called) in [(2, 1), (1, 0), (62, 61), (62, 0)] {
        assert_eq!(bound(&renamed(own, called)), Ok(8), "{own}, {called}");
    }
    for (own, called) in [(0, 0), (62, 62), (61, 62), (0, 62), (62, 63)] {
        let text = renamed(own, called);
        assert_eq!(verdict(&text), (0, 0));
        assert_eq!(refused(&text), (12, 17), "{own}, {called}");
    }
}

/// Fields are named too, and parts without a body stand between others.
#[test]
fn a_field_is_not_called() {
    let text = |called: u32| {
        sheet(&format!(
            "types=2 / type=1,0 / type=1,4 / var=0,0 / def=1,0,0 / var=2,0 / def=3,0,0 / \
             forms=2 / form=0,0 / form=1,1 / keep=0 / init=0 / body=2 / get=2 / put=2,1 / \
             init=0 / body=2 / put=0,1 / call=0,{called},1 / main=3 / new=0 / new=1,0 / \
             call=1,3,0"
        ))
    };
    // The two bodies need 3 and 2 + 1 + 3.
    assert_eq!(bound(&text(1)), Ok(9));
    assert_eq!(refused(&text(3)), (12, 19));
    assert_eq!(refused(&text(2)), (9, 19));
    assert_eq!(refused(&text(0)), (9, 19));
}

#[test]
fn the_sheets_refusals_come_first() {
    for (place, line, expected) in [
        (1, "types=65", (4, 1)),
        (4, "def=1,1,0", (7, 4)),
        (9, "call=0,2,1", (9, 9)),
        (9, "call=0,1,0", (10, 9)),
        (12, "new=1,0", (10, 12)),
        (13, "call=1,2,0", (9, 13)),
        (13, "call=1,1,1", (10, 13)),
    ] {
        let text = with_line(LOOP, place, line);
        assert_eq!(verdict(&text), expected);
        assert_eq!(refused(&text), expected, "{place}: {line}");
    }
    assert_eq!(refused(&with_line(LOOP, 13, "copy=0")), (12, 9));
    assert_eq!(refused(b""), (3, 1));
    assert_eq!(refused(&[b'7'; 65_536]), (2, 0));
    // A misfit before the circular call, and one after it.
    let bodies = ["copy=0", "call=0,2,1", "copy=1"];
    assert_eq!(refused(&three(bodies, "copy=0")), (10, 10));
    let bodies = ["copy=1", "call=0,2,1", "copy=0"];
    assert_eq!(refused(&three(bodies, "copy=0")), (10, 14));
}

/// Forms 0 to 2 of one row have bodies of these sizes; main makes form 0.
fn bodies(sizes: [usize; 3]) -> Vec<u8> {
    let mut text = String::from("types=2\ntype=1,0\ntype=1,1\ndef=5,0,0\nforms=3\n");
    for size in sizes {
        text += "form=1,0\n";
        text += &code("body", &[(size, "copy=1\n")]);
    }
    text += "main=3\nnew=0\ncall=0,5,0\ncall=0,5,0\n";
    text.into_bytes()
}

#[test]
fn the_largest_body_of_a_name_counts() {
    for sizes in [[1, 2, 7], [7, 1, 2], [2, 7, 1], [7, 7, 7], [7, 7, 1]] {
        assert_eq!(bound(&bodies(sizes)), Ok(3 + 2 * 8), "{sizes:?}");
    }
    // The run needs no more, and here it may need less.
    assert_eq!(run(&bodies([1, 2, 7]), 19), (Outcome::Done, 7, 0, 1));
    assert_eq!(run(&bodies([7, 1, 2]), 19), (Outcome::Done, 19, 0, 1));
    let spent = (Outcome::Spent, 18, NO_VALUE, 1);
    assert_eq!(run(&bodies([7, 1, 2]), 18), spent);
}

/// A form that nobody makes has the largest body, or a circular call.
#[test]
fn idle_forms_count() {
    let text = |line: &str| {
        sheet(&format!(
            "types=2 / type=1,0 / type=1,1 / def=5,0,0 / forms=2 / form=1,0 / body=1 / copy=1 / \
             form=1,0 / body=2 / copy=1 / {line} / main=2 / new=0 / call=0,5,0"
        ))
    };
    assert_eq!(bound(&text("copy=0")), Ok(5));
    assert_eq!(refused(&text("call=0,5,1")), (12, 12));
}

/// Row 2 has no form, so nobody can give the argument whose method 1 is
/// called. That name has no body and needs nothing.
#[test]
fn a_name_without_a_body_needs_nothing() {
    let text = |name: u32, called: &str| {
        sheet(&format!(
            "types=4 / type=1,0 / type=1,1 / def=2,0,0 / type=1,1 / def={name},0,0 / type=1,1 / \
             def=2,2,0 / forms=2 / form=1,0 / body=1 / copy=1 / form=3,0 / body=3 / {called} / \
             {called} / {called} / main=2 / new=0 / call=0,2,0"
        ))
    };
    assert_eq!(bound(&text(1, "call=1,1,0")), Ok(6));
    assert_eq!(bound(&text(1, "copy=1")), Ok(6));
    assert_eq!(refused(&text(3, "call=1,3,0")), (12, 15));
}

#[test]
fn amounts_up_to_the_limit() {
    for copies in 0..15 {
        let amount = u32::MAX - 14 + copies as u32;
        assert_eq!(bound(&steps(copies)), Ok(amount));
    }
    assert_eq!(bound(&steps(14)), Ok(4_294_967_295));
    assert_eq!(refused(&steps(15)), (13, 0));
    assert_eq!(verdict(&steps(15)), (0, 0));
}

/// The name that each body of a tower calls is one below its own.
fn tower(width: usize, main: &str) -> Vec<u8> {
    let mut text = String::from("types=9\ntype=1,0\n");
    for group in 0..8 {
        text += "type=1,8\n";
        for name in 8 * group..8 * group + 8 {
            text += &format!("def={name},0,0\n");
        }
    }
    text += "forms=8\nform=1,0\nbody=1\ncopy=1\n";
    for name in 1..64 {
        // The first body of a group calls the group below, which is kept.
        let kept = name % 8 == 0;
        if kept {
            text += &format!("form={},1\nkeep={}\n", name / 8 + 1, name / 8);
        }
        let slot = if kept { 2 } else { 0 };
        let call = format!("call={slot},{},1\n", name - 1);
        text += &code("body", &[(width, &call)]);
    }
    let count = 8 + main.split(' ').count();
    text += &format!("main={count}\nnew=0\n");
    for form in 1..8 {
        text += &format!("new={form},{}\n", form - 1);
    }
    text += &(main.replace(' ', "\n") + "\n");
    text.into_bytes()
}

/// With one call a body, name k needs 2 * (k + 1) steps.
#[test]
fn a_chain_through_all_names_fills_the_stack() {
    let whole = tower(1, "call=7,63,0");
    assert_eq!(bound(&whole), Ok(8 + 1 + 128));
    let full = (Outcome::StackFull, 8 + 63, NO_VALUE, 8);
    assert_eq!(run(&whole, 137), full);
    assert_eq!(run(&whole, u32::MAX), full);
    let shorter = tower(1, "call=7,62,0");
    assert_eq!(bound(&shorter), Ok(8 + 1 + 126));
    assert_eq!(run(&shorter, 135), (Outcome::Done, 135, 0, 8));
    assert_eq!(run(&shorter, 134), (Outcome::Spent, 134, NO_VALUE, 8));
}

/// Amounts between 2^65 and 2^254; only main's own can be beyond count.
#[test]
fn far_beyond_the_limit() {
    for width in 2..=16 {
        assert_eq!(refused(&tower(width, "call=7,63,0")), (13, 0), "{width}");
        assert_eq!(refused(&tower(width, "copy=0 call=7,63,0 copy=0")), (13, 0));
        assert_eq!(bound(&tower(width, "copy=0")), Ok(9));
        let amount = 8 + 1 + width as u32 * 3 + 1;
        assert_eq!(bound(&tower(width, "call=0,1,0")), Ok(amount));
    }
    let twice = tower(16, "call=7,63,0 call=7,63,0");
    assert_eq!(refused(&twice), (13, 0));
}

/// Eight calls of a body that makes 32 objects, after main's own one.
#[test]
fn a_full_store_remains_possible() {
    let calls = "call=0,0,0\n".repeat(8);
    let made = "new=0\n".repeat(32);
    let text = format!(
        "types=2\ntype=1,0\ntype=1,1\ndef=0,0,0\nforms=1\nform=1,0\nbody=32\n{made}\
         main=9\nnew=0\n{calls}"
    );
    let text = text.into_bytes();
    assert_eq!(bound(&text), Ok(9 + 8 * 33));
    let full = (Outcome::StoreFull, 271, NO_VALUE, 256);
    assert_eq!(run(&text, 273), full);
}
