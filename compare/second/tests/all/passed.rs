//! How many members of row a the fit question tells as passed.

use crate::common::*;
use second::FitAnswer::{Kind, Member, Yes};
use second::{fit, fit_lines, FitAnswer, FitTold};

/// What is told of each pair: rows a and b, the answer, and how many members
/// of row a were passed. Rows 0 pure empty and 1 resource empty come first.
fn check(rows: &str, pairs: &[(u32, u32, FitAnswer, u32)]) {
    let text = rows_sheet(rows);
    for (a, b, answer, passed) in pairs.iter().copied() {
        assert_eq!(fit(&text, a, b), Ok(FitTold { answer, passed }), "{a}, {b}");
    }
}

#[test]
fn none_on_kind() {
    let rows = "type=0,2 / def=0,0,0 / def=7,0,0 / \
                type=1,3 / def=0,0,0 / def=7,0,0 / def=9,0,0 / \
                type=1,1 / def=9,0,0";
    // All names are there; none is; b has no member; a has none.
    check(rows, &[(3, 2, Kind, 0), (4, 2, Kind, 0)]);
    check(rows, &[(3, 0, Kind, 0), (1, 2, Kind, 0), (1, 0, Kind, 0)]);
    // The other way round kind is no matter.
    check(rows, &[(2, 3, Member(9), 2), (2, 4, Member(9), 2)]);
}

#[test]
fn none_where_b_has_no_member() {
    let rows = "type=0,2 / def=0,0,0 / def=5,0,0 / \
                type=1,3 / var=0,1 / def=1,0,0 / def=63,0,0";
    check(rows, &[(2, 0, Yes, 0), (2, 1, Yes, 0), (3, 1, Yes, 0)]);
}

#[test]
fn none_where_a_has_no_member() {
    let rows = "type=0,2 / def=0,0,0 / def=5,0,0 / \
                type=1,3 / var=4,1 / def=5,0,0 / def=63,0,0";
    check(rows, &[(0, 0, Yes, 0), (0, 1, Yes, 0), (1, 1, Yes, 0)]);
    check(rows, &[(0, 2, Member(0), 0), (0, 3, Member(4), 0)]);
    check(rows, &[(1, 3, Member(4), 0)]);
}

#[test]
fn all_where_the_name_is_beyond_the_last() {
    let rows = "type=1,2 / def=2,0,0 / var=9,0 / \
                type=1,3 / def=2,0,0 / def=5,0,0 / def=6,0,0 / \
                type=1,1 / def=1,0,0 / \
                type=1,1 / def=63,0,0";
    check(rows, &[(3, 2, Member(9), 3), (4, 2, Member(2), 1)]);
    check(rows, &[(3, 5, Member(63), 3), (4, 5, Member(63), 1)]);
}

#[test]
fn all_of_equal_rows() {
    let rows = "type=0,1 / def=0,0,0 / \
                type=1,3 / def=4,1,0 / var=6,1 / def=63,0,0 / \
                type=0,3 / def=4,1,0 / var=6,1 / def=63,0,0";
    check(rows, &[(2, 2, Yes, 1), (3, 3, Yes, 3), (4, 4, Yes, 3)]);
    // The same members in a pure row and in a resource.
    check(rows, &[(4, 3, Yes, 3), (3, 4, Kind, 0)]);
}

#[test]
fn on_yes_none_above_the_last_of_b() {
    let rows = "type=1,2 / def=3,0,0 / def=7,0,0 / \
                type=1,4 / def=3,0,0 / def=7,0,0 / var=8,0 / def=20,0,0 / \
                type=1,1 / def=3,0,0";
    check(rows, &[(3, 2, Yes, 2), (3, 4, Yes, 1), (2, 4, Yes, 1)]);
}

#[test]
fn on_yes_those_that_b_does_not_ask_for() {
    let rows = "type=1,2 / def=3,0,0 / def=7,0,0 / \
                type=1,3 / def=1,0,0 / def=3,0,0 / def=7,0,0 / \
                type=1,3 / def=3,0,0 / var=5,0 / def=7,0,0 / \
                type=1,6 / def=0,0,0 / var=1,0 / def=3,0,0 / def=6,0,0 / def=7,0,0 / def=8,0,0";
    // Below b's first, between its names, and both, with one above its last.
    check(rows, &[(3, 2, Yes, 3), (4, 2, Yes, 3), (5, 2, Yes, 5)]);
}

#[test]
fn up_to_a_name_that_is_absent() {
    let rows = "type=1,3 / def=2,0,0 / def=6,0,0 / def=8,0,0 / \
                type=1,5 / def=1,0,0 / def=2,0,0 / def=4,0,0 / def=8,0,0 / def=9,0,0 / \
                type=1,2 / def=6,0,0 / def=8,0,0 / \
                type=1,4 / def=0,0,0 / def=1,0,0 / def=6,0,0 / def=8,0,0";
    // 6 lies between 4 and 8.
    check(rows, &[(3, 2, Member(6), 3), (3, 4, Member(6), 3)]);
    // 2 lies before row 4's first, and 1 and 0 before row 2's.
    check(rows, &[(4, 2, Member(2), 0), (2, 3, Member(1), 0)]);
    check(rows, &[(2, 5, Member(0), 0), (4, 5, Member(0), 0)]);
    // 2 lies between 1 and 6, with a match for 8 after it.
    check(rows, &[(5, 2, Member(2), 2)]);
}

#[test]
fn with_a_method_where_a_field_is_asked() {
    let rows = "type=1,3 / def=2,0,0 / var=5,0 / def=9,0,0 / \
                type=1,5 / def=1,0,0 / def=2,0,0 / def=5,0,0 / def=7,0,0 / def=9,0,0";
    check(rows, &[(3, 2, Member(5), 3)]);
}

#[test]
fn with_a_field_where_a_method_is_asked() {
    let rows = "type=1,3 / def=2,0,0 / def=5,0,0 / def=9,0,0 / \
                type=1,5 / def=1,0,0 / def=2,0,0 / var=5,0 / def=7,0,0 / def=9,0,0";
    check(rows, &[(3, 2, Member(5), 3)]);
}

#[test]
fn with_a_field_of_another_row() {
    let rows = "type=1,3 / def=2,0,0 / var=5,0 / def=9,0,0 / \
                type=1,5 / def=1,0,0 / def=2,0,0 / var=5,1 / def=7,0,0 / def=9,0,0";
    check(rows, &[(3, 2, Member(5), 3)]);
}

#[test]
fn with_an_argument_that_does_not_fit() {
    let rows = "type=1,3 / def=2,0,0 / def=5,1,0 / def=9,0,0 / \
                type=1,5 / def=1,0,0 / def=2,0,0 / def=5,0,0 / def=7,0,0 / def=9,0,0 / \
                type=1,5 / def=1,0,0 / def=2,1,0 / def=5,1,0 / def=9,0,0 / def=10,0,0";
    check(rows, &[(3, 2, Member(5), 3)]);
    // An argument that asks for less is no mismatch.
    check(rows, &[(4, 2, Yes, 4), (4, 3, Member(7), 3)]);
}

#[test]
fn with_a_result_that_does_not_fit() {
    let rows = "type=1,3 / def=2,0,0 / def=5,0,0 / def=9,0,1 / \
                type=1,5 / def=1,0,0 / def=2,0,0 / def=5,0,1 / def=7,0,0 / def=9,0,0 / \
                type=1,5 / def=1,0,0 / def=2,0,0 / def=5,0,0 / def=9,0,0 / def=10,0,0";
    check(rows, &[(3, 2, Member(5), 3)]);
    // A result that gives more is no mismatch.
    check(rows, &[(4, 2, Yes, 4), (4, 3, Member(7), 3)]);
}

#[test]
fn with_a_mismatch_at_the_first_name_or_the_last() {
    let rows = "type=1,2 / var=4,0 / def=6,0,0 / \
                type=1,3 / var=4,1 / def=5,0,0 / def=6,0,0 / \
                type=1,3 / def=0,0,0 / var=4,0 / var=6,0";
    check(rows, &[(3, 2, Member(4), 1), (4, 2, Member(6), 3)]);
    check(rows, &[(2, 3, Member(4), 1), (3, 4, Member(0), 0)]);
}

/// Rows 2 and 3 are asked for as results of rows 4 and 5: the members of
/// those are not row 4's or row 5's.
#[test]
fn members_of_rows_beneath_are_not_counted() {
    let rows = "type=1,3 / def=1,0,0 / def=2,0,0 / def=3,0,0 / \
                type=1,2 / def=1,0,0 / def=2,0,0 / \
                type=1,1 / def=7,0,2 / \
                type=1,2 / def=7,0,3 / def=8,2,0";
    check(rows, &[(5, 4, Member(7), 1), (4, 4, Yes, 1)]);
    check(rows, &[(4, 5, Member(8), 1), (5, 5, Yes, 2)]);
}

/// Eight methods from this name on, each `step` above the one before; the
/// one of this place gives a resource.
fn eight(first: usize, step: usize, place: Option<usize>) -> String {
    let mut row = String::from("type=1,8");
    for at in 0..8 {
        let result = u8::from(place == Some(at));
        row += &format!(" / def={},0,{result}", first + at * step);
    }
    row
}

#[test]
fn eight_members_in_both() {
    // Rows 3 to 10 have their mismatch at names 3, 6, .. 24.
    let changed: Vec<String> = (0..8).map(|place| eight(3, 3, Some(place))).collect();
    let rows = [eight(3, 3, None), changed.join(" / ")].join(" / ");
    check(&rows, &[(2, 2, Yes, 8), (10, 10, Yes, 8), (2, 10, Yes, 8)]);
    check(&rows, &[(3, 2, Member(3), 1), (4, 2, Member(6), 2)]);
    check(&rows, &[(5, 2, Member(9), 3), (6, 2, Member(12), 4)]);
    check(&rows, &[(7, 2, Member(15), 5), (8, 2, Member(18), 6)]);
    check(&rows, &[(9, 2, Member(21), 7), (10, 2, Member(24), 8)]);
    check(&rows, &[(10, 9, Member(24), 8), (9, 10, Member(21), 7)]);
}

#[test]
fn eight_members_with_other_names() {
    // Names 0 to 14 in twos, 1 to 15 in twos, and 56 to 63.
    let rows = [eight(0, 2, None), eight(1, 2, None), eight(56, 1, None)].join(" / ");
    check(&rows, &[(2, 3, Member(1), 1), (3, 2, Member(0), 0)]);
    check(&rows, &[(2, 4, Member(56), 8), (4, 2, Member(0), 0)]);
    check(&rows, &[(3, 4, Member(56), 8), (4, 3, Member(1), 0)]);
    check(&rows, &[(4, 4, Yes, 8)]);
}

#[test]
fn the_six_rows_of_the_worked_case() {
    let rows = "type=0,1 / def=1,1,0 / type=1,1 / def=1,0,1 / type=1,1 / var=1,0 / \
                type=1,1 / var=1,1";
    check(rows, &[(2, 3, Yes, 1), (3, 2, Kind, 0)]);
    check(rows, &[(0, 1, Yes, 0), (1, 0, Kind, 0), (3, 1, Yes, 0)]);
    check(rows, &[(4, 5, Member(1), 1), (5, 4, Member(1), 1)]);
}

#[test]
fn two_lines_are_printed() {
    let lines = |answer, passed| fit_lines(FitTold { answer, passed });
    assert_eq!(lines(Yes, 8), "fit=1\npassed=8\n");
    assert_eq!(lines(Kind, 0), "fit=0,2\npassed=0\n");
    assert_eq!(lines(Member(63), 7), "fit=0,3,63\npassed=7\n");
}
