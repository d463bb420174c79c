//! The worked cases of the rules.

use crate::common::*;
use second::{authority, fit, FitAnswer, Outcome, NO_VALUE};

#[test]
fn p1_clerk_is_done_after_eight_steps() {
    assert_eq!(run(CLERK, 8), (Outcome::Done, 8, 0, 3));
    assert_eq!(run(CLERK, 9), (Outcome::Done, 8, 0, 3));
}

#[test]
fn p2_clerk_is_spent_after_seven_steps() {
    assert_eq!(run(CLERK, 7), (Outcome::Spent, 7, NO_VALUE, 3));
}

#[test]
fn p3_an_object_not_yet_made_is_no_holder() {
    assert_eq!(pair(authority(CLERK, 2, 2)), (11, 0));
    assert_eq!(pair(authority(CLERK, 3, 2)), (0, 0));
}

#[test]
fn p4_a_pure_object_is_no_holder() {
    assert_eq!(pair(authority(CLERK, 8, 0)), (11, 0));
    assert_eq!(pair(authority(CLERK, 2, 0)), (11, 0));
}

#[test]
fn p5_to_p9_single_lines_changed() {
    let cases = [
        (6, "def=1,0,0", (6, 6)),
        (19, "new=2,0", (10, 19)),
        (5, "type=0,1", (8, 13)),
        (20, "call=2,3,0", (9, 20)),
        (20, "call=4,2,0", (7, 20)),
    ];
    for (place, line, expected) in cases {
        assert_eq!(verdict(&with_line(CLERK, place, line)), expected, "{line}");
    }
    assert_eq!(verdict(CLERK), (0, 0));
}

#[test]
fn p10_the_loop_is_spent_before_the_stack_is_full() {
    assert_eq!(run(LOOP, 65), (Outcome::Spent, 65, NO_VALUE, 2));
    assert_eq!(run(LOOP, 66), (Outcome::StackFull, 65, NO_VALUE, 2));
    assert_eq!(run(LOOP, u32::MAX), (Outcome::StackFull, 65, NO_VALUE, 2));
}

#[test]
fn the_first_line_of_the_clerk_changed() {
    assert_eq!(verdict(b""), (3, 1));
    for (line, expected) in [
        ("types=0", (4, 1)),
        ("types=65", (4, 1)),
        ("types=03", (3, 1)),
    ] {
        assert_eq!(verdict(&with_line(CLERK, 1, line)), expected, "{line}");
    }
}

#[test]
fn the_clerk_without_its_final_byte() {
    assert_eq!(verdict(&CLERK[..CLERK.len() - 1]), (3, 20));
}

/// The six rows of the worked case, with a main that typing would refuse:
/// the fit question stops after reading.
fn six_rows() -> Vec<u8> {
    sheet(
        "types=6 / type=0,0 / type=1,0 / type=0,1 / def=1,1,0 / type=1,1 / def=1,0,1 / \
         type=1,1 / var=1,0 / type=1,1 / var=1,1 / forms=0 / main=1 / get=1",
    )
}

#[test]
fn the_six_rows() {
    let text = six_rows();
    let told = |a, b| fit(&text, a, b).expect("a sheet that reads");
    let answer = |a, b| told(a, b).answer;
    let fits = |a, b| answer(a, b) == FitAnswer::Yes;
    assert!(fits(2, 3) && !fits(3, 2));
    assert!(fits(0, 1) && !fits(1, 0));
    assert!(!fits(4, 5) && !fits(5, 4));
    for row in 0..6 {
        assert!(fits(row, row), "row {row} fits itself");
        assert!(fits(row, 1), "row {row} fits the empty resource");
    }
    assert!(fits(2, 0) && !fits(3, 0) && !fits(4, 0));
    for (a, b) in [(3, 2), (1, 0), (3, 0), (4, 0)] {
        assert_eq!(answer(a, b), FitAnswer::Kind, "{a} to {b}");
    }
    for (a, b) in [(4, 5), (5, 4), (0, 2), (1, 3), (3, 4)] {
        assert_eq!(answer(a, b), FitAnswer::Member(1), "{a} to {b}");
    }
    assert_eq!(verdict(&text), (9, 14));
}

#[test]
fn a_row_that_is_not_there() {
    let text = six_rows();
    for (a, b) in [(6, 0), (0, 6), (65_536, 0), (0, u32::MAX)] {
        assert_eq!(pair(fit(&text, a, b)), (7, 0));
    }
    // Reading comes first.
    let torn = with_line(&text, 14, "got=1");
    assert_eq!(pair(fit(&torn, 6, 0)), (3, 14));
}

#[test]
fn the_authority_of_each_holder_of_the_clerk() {
    let held = |budget, holder| authority(CLERK, budget, holder).expect("a holder");
    // Its value is a pure object.
    assert_eq!(held(8, 256), []);
    assert_eq!(held(8, 1), [1]);
    assert_eq!(held(8, 2), [1, 2]);
    assert_eq!(held(0, 256), []);
    assert_eq!(held(1, 256), []);
    // The scale until the clerk is made, the clerk until it is called.
    assert_eq!(held(2, 256), [1]);
    assert_eq!(held(3, 256), [2]);
    assert_eq!(held(4, 256), []);
    assert_eq!(held(5, 1), [1]);
    for holder in [3, 255, 257, 65_536 + 256, u32::MAX] {
        assert_eq!(pair(authority(CLERK, 8, holder)), (11, 0));
    }
}

#[test]
fn the_clerk_printed() {
    assert_eq!(
        second::print(CLERK),
        "verdict=0\nline=0\noutcome=0\nsteps=8\nvalue=0\n\
         holder=256\nholder=1,1\nholder=2,1,2\n"
    );
}
