//! The lines of a form: a stretch of the caller's own text.

use crate::common::*;
use second::form;

fn lines(text: &[u8], number: usize) -> &str {
    let part = form(text, number).expect("a form of a sheet that reads");
    std::str::from_utf8(part).expect("a sheet is plain text")
}

fn refused(text: &[u8], number: usize) -> (u32, u32) {
    pair(form(text, number))
}

/// Where line `place` of the text begins, counted from 1.
fn start(text: &[u8], place: usize) -> usize {
    let lines = text.split_inclusive(|byte| *byte == b'\n');
    lines.take(place - 1).map(<[u8]>::len).sum()
}

/// The form must be the stretch of this very text from one line up to
/// another, which is no longer part of it.
fn stands(text: &[u8], number: usize, first: usize, after: usize) {
    let expected = &text[start(text, first)..start(text, after)];
    let part = form(text, number).expect("a form of a sheet that reads");
    assert_eq!(part, expected, "form {number}");
    // The same address, not only the same bytes.
    assert!(std::ptr::eq(part, expected), "form {number}");
}

/// A counter between two forms of one line.
/// 1 types 2 type 3 type 4 var 5 def 6 def 7 forms 8 form 9 form 10 keep
/// 11 keep 12 init 13 body 14 get 15 put 16 body 17 copy 18 form 19 main
/// 20 new 21 new 22 call
fn counter() -> Vec<u8> {
    sheet(
        "types=2 / type=1,0 / type=1,3 / var=1,0 / def=4,0,0 / def=63,0,0 / forms=3 / form=0,0 / \
         form=1,2 / keep=0 / keep=0 / init=1 / body=2 / get=1 / put=1,1 / body=1 / copy=1 / \
         form=0,0 / main=3 / new=0 / new=1,0,0 / call=1,4,0",
    )
}

/// 64 forms of several lengths; the last is one line long.
fn shelf() -> Vec<u8> {
    let mut text = String::from("types=2\ntype=1,0\ntype=1,1\ndef=0,0,0\nforms=64\n");
    for count in 0..63 {
        let (keeps, code) = (count % 9, 1 + count / 9);
        text += &format!("form=1,{keeps}\n{}", "keep=0\n".repeat(keeps));
        text += &format!("body={code}\n{}", "copy=1\n".repeat(code));
    }
    (text + "form=0,0\nmain=1\nnew=63\n").into_bytes()
}

#[test]
fn each_form_of_the_clerk() {
    assert_eq!(lines(CLERK, 0), "form=0,0\n");
    assert_eq!(lines(CLERK, 1), "form=1,0\nbody=1\ncopy=1\n");
    assert_eq!(lines(CLERK, 2), "form=2,1\nkeep=1\nbody=1\ncall=2,1,1\n");
    stands(CLERK, 0, 8, 9);
    stands(CLERK, 1, 9, 12);
    stands(CLERK, 2, 12, 16);
    assert_eq!(refused(CLERK, 3), (7, 0));
}

#[test]
fn kept_values_parts_and_instructions_belong_to_the_form() {
    let text = counter();
    stands(&text, 1, 9, 18);
    assert!(lines(&text, 1).starts_with("form=1,2\nkeep=0\nkeep=0\ninit=1\nbody=2\n"));
    assert!(lines(&text, 1).ends_with("put=1,1\nbody=1\ncopy=1\n"));
}

#[test]
fn forms_of_one_line_first_and_last() {
    let text = counter();
    stands(&text, 0, 8, 9);
    stands(&text, 2, 18, 19);
}

/// Checks that the stretches follow one another, from the line after
/// `forms` to the line of `main`.
fn follow(text: &[u8], count: usize, after_forms: usize, main: usize) {
    let mut place = start(text, after_forms);
    for number in 0..count {
        let part = form(text, number).expect("a form of a sheet that reads");
        assert!(part.starts_with(b"form=") && part.ends_with(b"\n"));
        assert!(std::ptr::eq(part, &text[place..place + part.len()]));
        place += part.len();
    }
    assert_eq!(place, start(text, main));
    assert!(text[place..].starts_with(b"main="));
    assert_eq!(refused(text, count), (7, 0));
}

#[test]
fn forms_follow_one_another_without_gap() {
    follow(CLERK, 3, 8, 16);
    follow(LOOP, 2, 6, 10);
    follow(&counter(), 3, 8, 19);
    let text = shelf();
    let all = text.iter().filter(|byte| **byte == b'\n').count();
    follow(&text, 64, 6, all - 1);
    assert_eq!(lines(&text, 0), "form=1,0\nbody=1\ncopy=1\n");
    assert_eq!(lines(&text, 63), "form=0,0\n");
}

#[test]
fn twin_forms_are_told_apart_by_their_place() {
    let text = sheet(
        "types=2 / type=1,0 / type=1,1 / def=0,0,0 / forms=4 / form=1,1 / keep=0 / body=1 / \
         copy=2 / form=1,1 / keep=0 / body=1 / copy=2 / form=0,0 / form=1,1 / keep=0 / body=1 / \
         copy=2 / main=1 / new=2",
    );
    for (number, first) in [(0, 6), (1, 10), (3, 15)] {
        assert_eq!(lines(&text, number), "form=1,1\nkeep=0\nbody=1\ncopy=2\n");
        stands(&text, number, first, first + 4);
    }
    let bare = "types=1 / type=1,0 / forms=3 / form=0,0 / form=0,0 / form=0,0 / main=1 / new=2";
    for number in 0..3 {
        stands(&sheet(bare), number, 4 + number, 5 + number);
    }
}

#[test]
fn a_form_alone() {
    let text = sheet(
        "types=2 / type=0,0 / type=0,1 / def=0,0,0 / forms=1 / form=1,0 / body=2 / copy=1 / \
         call=0,0,2 / main=1 / new=0",
    );
    stands(&text, 0, 6, 10);
    assert_eq!(refused(&text, 1), (7, 0));
    let bare = sheet("types=1 / type=0,0 / forms=1 / form=0,0 / main=1 / new=0");
    stands(&bare, 0, 4, 5);
    assert_eq!(refused(&bare, 1), (7, 0));
}

#[test]
fn no_form_at_all() {
    let text = sheet("types=1 / type=0,0 / forms=0 / main=1 / get=0");
    for number in [0, 1, usize::MAX] {
        assert_eq!(refused(&text, number), (7, 0));
    }
}

#[test]
fn a_form_that_is_not_there() {
    // Some of these would be there if their high bits were lost.
    for number in [64, 256, 65_535, 65_537, u32::MAX as usize] {
        assert_eq!(refused(CLERK, number), (7, 0), "{number}");
        assert_eq!(refused(&shelf(), number), (7, 0), "{number}");
    }
    for number in [0, 1, 65_535, usize::MAX / 2] {
        assert_eq!(refused(CLERK, usize::MAX - number), (7, 0), "{number}");
        assert_eq!(refused(&shelf(), usize::MAX - number), (7, 0), "{number}");
    }
}

#[test]
fn an_ill_typed_sheet_is_answered() {
    for (place, line, expected) in [
        (5, "type=0,1", (8, 13)),
        (15, "get=1", (9, 15)),
        (20, "call=2,3,0", (9, 20)),
        (15, "copy=0", (10, 15)),
        (19, "new=2,0", (10, 19)),
    ] {
        let text = with_line(CLERK, place, line);
        assert_eq!(verdict(&text), expected, "{line}");
        stands(&text, 0, 8, 9);
        stands(&text, 1, 9, 12);
        stands(&text, 2, 12, 16);
        assert_eq!(refused(&text, 3), (7, 0));
    }
    let get = with_line(CLERK, 15, "get=1");
    assert_eq!(lines(&get, 2), "form=2,1\nkeep=1\nbody=1\nget=1\n");
}

/// Forms that are there and forms that are not get the refusal of reading.
fn fails(text: &[u8], expected: (u32, u32)) {
    for number in [0, 1, 2, 3, usize::MAX] {
        assert_eq!(refused(text, number), expected, "form {number}");
    }
}

#[test]
fn the_refusals_of_reading_come_first() {
    fails(&[b'7'; 65_536], (2, 0));
    fails(b"", (3, 1));
    for (place, line, number) in [
        (1, "types=03", 3),
        (1, "types=65", 4),
        (7, "forms=65", 4),
        (6, "def=1,0,0", 6),
        (6, "def=2,2,0", 7),
        (8, "form=3,0", 7),
        (8, "forms=0,0", 3),
        (9, "main=1", 3),
    ] {
        fails(&with_line(CLERK, place, line), (number, place as u32));
    }
    let mut text = counter();
    fails(&with_line(&text, 5, "def=1,0,0"), (5, 5));
    text = with_line(&text, 7, "forms=2");
    fails(&text, (3, 18));
}

#[test]
fn reading_may_fail_after_the_form() {
    // In the form's own lines, in a later form, in main, and after it.
    for (place, line, number) in [
        (11, "copy=2", 7),
        (12, "form=2,9", 4),
        (13, "keep=3", 7),
        (14, "body=33", 4),
        (15, "call=2,1", 3),
        (16, "main=0", 4),
        (16, "form=0,0", 3),
        (17, "new=3", 7),
        (20, "call=2,64,0", 4),
    ] {
        fails(&with_line(CLERK, place, line), (number, place as u32));
    }
    fails(&with_line(CLERK, 7, "forms=4"), (3, 16));
    fails(&CLERK[..CLERK.len() - 1], (3, 20));
    fails(&[CLERK, b"form=0,0\n"].concat(), (3, 21));
    fails(&[CLERK, b"\n"].concat(), (3, 21));
    for end in 0..CLERK.len() {
        assert_eq!(refused(&CLERK[..end], 0), verdict(&CLERK[..end]));
    }
}
