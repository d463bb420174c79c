//! Each refusal, its line, and which of two faults is told.

use crate::common::*;

/// A counter with a field, to be changed line by line.
/// 1 types 2 type 3 type 4 type 5 var 6 def 7 forms 8 form 9 form 10 keep
/// 11 init 12 body 13 get 14 put 15 main 16 new 17 new 18 call
fn counter() -> Vec<u8> {
    sheet(
        "types=3 / type=0,0 / type=1,0 / type=1,2 / var=1,0 / def=4,0,0 / forms=2 / \
         form=0,0 / form=2,1 / keep=0 / init=0 / body=2 / get=1 / put=1,1 / main=3 / \
         new=0 / new=1,0 / call=1,4,0",
    )
}

/// Exchanges lines of the counter and tells the verdict.
fn changed(changes: &[(usize, &str)]) -> (u32, u32) {
    let mut text = counter();
    for (place, line) in changes {
        text = with_line(&text, *place, line);
    }
    verdict(&text)
}

fn check(cases: &[(usize, &str, u32)]) {
    for (place, line, number) in cases {
        let expected = (*number, if *number == 0 { 0 } else { *place as u32 });
        assert_eq!(changed(&[(*place, line)]), expected, "{place}: {line}");
    }
}

#[test]
fn the_counter_is_accepted() {
    assert_eq!(verdict(&counter()), (0, 0));
}

#[test]
fn torn_lines() {
    check(&[
        (1, "type=3", 3),
        (2, "type=0", 3),
        (2, "type=0,0,0", 3),
        (3, "Type=1,0", 3),
        (5, "var=1,0,0", 3),
        (6, "def=4,0", 3),
        (7, "forms=2,1", 3),
        (10, "keep=", 3),
        (11, "body=1", 3),
        (12, "init=0", 3),
        (13, "get=1,1", 3),
        (14, "put=1", 3),
        (14, "keep=0", 3),
        (15, "body=3", 3),
        (16, "new=", 3),
        (17, "new=1,0,0,0,0,0,0,0,0,0", 3),
        (17, "new=1,0,0,0,0,0,0,0,0", 10),
        (18, "call=1,4", 3),
        (18, "", 3),
        (18, " call=1,4,0", 3),
        (18, "call=1,4,0 ", 3),
        (18, "call=1,,0", 3),
        (18, "call=1,4,0,", 3),
        (18, "call==1,4,0", 3),
        (18, "=1,4,0", 3),
    ]);
}

#[test]
fn an_early_end_and_bytes_after_main() {
    let text = counter();
    for end in 0..text.len() {
        let lines = text[..end].iter().filter(|byte| **byte == b'\n').count();
        assert_eq!(verdict(&text[..end]), (3, lines as u32 + 1), "cut at {end}");
    }
    for extra in ["\n", "copy=0\n", "x", "main=1\n"] {
        let longer = [&text[..], extra.as_bytes()].concat();
        assert_eq!(verdict(&longer), (3, 19), "{extra:?}");
    }
}

#[test]
fn over_measure() {
    check(&[
        (2, "type=2,0", 4),
        (4, "type=1,9", 4),
        (5, "var=64,0", 4),
        (6, "def=64,0,0", 4),
        (7, "forms=65", 4),
        (9, "form=2,9", 4),
        (12, "body=0", 4),
        (12, "body=33", 4),
        (13, "get=64", 4),
        (14, "put=64,1", 4),
        (15, "main=0", 4),
        (15, "main=33", 4),
        (18, "call=1,64,0", 4),
    ]);
    assert_eq!(changed(&[(6, "def=63,0,0"), (18, "call=1,63,0")]), (0, 0));
}

/// A sheet with `bodies` bodies of 32, one of `last`, and a main of `main`.
fn long_code(bodies: usize, last: usize, main: usize) -> Vec<u8> {
    let mut text = String::from("types=2\ntype=0,0\ntype=1,1\ndef=0,0,0\n");
    text += &format!("forms={}\nform=0,0\n", bodies + 2);
    for count in (0..bodies).map(|_| 32).chain([last]) {
        text += &format!("form=1,0\nbody={count}\n{}", "copy=1\n".repeat(count));
    }
    text += &format!("main={main}\n{}", "new=0\n".repeat(main));
    text.into_bytes()
}

#[test]
fn the_count_of_all_instructions() {
    assert_eq!(verdict(&long_code(30, 32, 32)), (0, 0));
    let lines = |text: &[u8]| text.iter().filter(|byte| **byte == b'\n').count() as u32;
    let main_over = long_code(31, 1, 32);
    assert_eq!(verdict(&main_over), (4, lines(&main_over) - 32));
    assert_eq!(verdict(&long_code(31, 1, 31)), (0, 0));
    let body_over = long_code(32, 1, 1);
    assert_eq!(verdict(&body_over), (4, lines(&body_over) - 3));
}

#[test]
fn wrong_order_and_twins() {
    check(&[(6, "def=1,0,0", 5), (6, "def=0,0,0", 5), (3, "type=0,0", 6)]);
    let rows = "types=3 / type=0,0 / type=1,2 / def=1,0,0 / def=2,0,0 / type=1,2 / def=1,0,0";
    let twin = sheet(&format!("{rows} / def=2,0,0"));
    assert_eq!(verdict(&twin), (6, 8));
    // Another row number, name or kind is no twin: reading goes on.
    for member in ["def=2,0,1", "def=3,0,0", "var=2,0"] {
        assert_eq!(verdict(&sheet(&format!("{rows} / {member}"))), (3, 9));
    }
}

#[test]
fn loose_ends() {
    check(&[
        (5, "var=1,2", 7),
        (6, "def=4,2,0", 7),
        (6, "def=4,0,2", 7),
        (8, "form=3,0", 7),
        (10, "keep=3", 7),
        (11, "init=1", 7),
        (14, "put=1,4", 7),
        (14, "copy=4", 7),
        (14, "new=2", 7),
        (14, "new=0,4", 7),
        (14, "call=4,4,0", 7),
        (14, "call=0,4,4", 7),
        (16, "copy=0", 7),
        (17, "new=1,1", 7),
    ]);
    // A body may name a later form; row numbers may not.
    let later = sheet(
        "types=2 / type=0,0 / type=1,1 / def=0,0,0 / forms=2 / form=1,0 / body=1 / new=1 / \
         form=0,0 / main=1 / new=1",
    );
    assert_eq!(verdict(&later), (0, 0));
}

#[test]
fn mixed_pure() {
    // The pure row has a field: on the form's line.
    assert_eq!(changed(&[(4, "type=0,2")]), (8, 9));
    let clerk = with_line(CLERK, 5, "type=0,1");
    assert_eq!(verdict(&clerk), (8, 13));
    // A pure row with a field does no harm without a form.
    let unused =
        sheet("types=2 / type=0,0 / type=0,1 / var=0,0 / forms=1 / form=0,0 / main=1 / new=0");
    assert_eq!(verdict(&unused), (0, 0));
}

#[test]
fn no_such_part() {
    check(&[
        (13, "get=2", 9),
        (13, "get=4", 9),
        (14, "put=4,1", 9),
        (16, "get=1", 9),
        (18, "call=1,1,0", 9),
        (18, "call=0,4,0", 9),
        (18, "put=1,0", 9),
    ]);
}

#[test]
fn misfits() {
    check(&[
        (14, "copy=0", 10),
        (14, "put=1,0", 10),
        (17, "new=1", 10),
        (17, "new=1,0,0", 10),
        (17, "new=0,0", 10),
        (18, "call=1,4,1", 10),
        (18, "new=1,1", 10),
        (18, "copy=1", 0),
    ]);
    // A field must start as a value that fits its row.
    assert_eq!(changed(&[(10, "keep=1")]), (10, 11));
    // The kept value has the row asked for, not that of the object.
    assert_eq!(changed(&[(13, "new=1,2"), (14, "put=1,2")]), (0, 0));
}

/// What a slot is typed with, asked by calling a method on it that the
/// argument's row has and the field's row has not.
#[test]
fn a_slot_has_the_declared_row() {
    let text = |filled: &str| {
        sheet(&format!(
            "types=3 / type=0,0 / type=0,1 / def=1,0,0 / type=1,2 / var=3,0 / def=4,1,0 / \
             forms=2 / form=1,0 / body=1 / copy=1 / form=2,1 / keep=0 / init=0 / body=2 / \
             {filled} / call=3,1,1 / main=3 / new=0 / new=1,0 / call=1,4,0"
        ))
    };
    for filled in ["copy=1", "new=0"] {
        assert_eq!(verdict(&text(filled)), (0, 0), "{filled}");
    }
    for filled in ["put=3,1", "get=3", "call=1,1,1", "copy=2", "copy=0"] {
        assert_eq!(verdict(&text(filled)), (9, 17), "{filled}");
    }
}

#[test]
fn on_a_line_the_lower_number_wins() {
    check(&[
        (5, "var=64,9", 4),
        (6, "def=1,9,9", 5),
        (9, "form=9,9", 4),
        (14, "put=64,9", 4),
        (18, "call=9,64,9", 4),
        (18, "call=9,64", 3),
        (18, "call=9,9,0", 7),
        (18, "call=1,1,1", 9),
        (14, "put=2,0", 9),
    ]);
}

#[test]
fn the_first_line_wins_and_reading_comes_before_typing() {
    assert_eq!(changed(&[(16, "copy=0"), (18, "call")]), (7, 16));
    assert_eq!(changed(&[(18, "call=1,9,0"), (17, "new=1")]), (10, 17));
    // Typing would refuse lines 9 and 11, but reading refuses line 18.
    assert_eq!(changed(&[(4, "type=0,2"), (18, "copy=9")]), (7, 18));
    assert_eq!(changed(&[(10, "keep=1"), (18, "call=1,64,0")]), (4, 18));
    assert_eq!(changed(&[(10, "keep=1"), (18, "call=1,9,0")]), (10, 11));
}
