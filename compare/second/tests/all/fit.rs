//! Which row fits which, one cause at a time, and what is told of a misfit.

use crate::common::*;
use second::FitAnswer::{Kind, Member, Yes};
use second::{fit, FitAnswer, FitTold, Lack};
use std::fmt::Write;

/// Rows 0 pure empty, 1 resource empty and then the given ones.
fn answer(rows: &str, a: u32, b: u32) -> FitAnswer {
    let told = fit(&rows_sheet(rows), a, b).expect("a sheet that reads");
    told.answer
}

/// The answer for each of the pairs.
fn check(rows: &str, pairs: &[(u32, u32, FitAnswer)]) {
    for (a, b, expected) in pairs {
        assert_eq!(answer(rows, *a, *b), *expected, "{a} to {b}");
    }
}

#[test]
fn extra_members_do_no_harm() {
    let rows = "type=1,1 / def=3,0,0 / type=1,3 / var=1,0 / def=3,0,0 / def=5,0,0";
    check(rows, &[(3, 2, Yes), (2, 3, Member(1)), (2, 2, Yes)]);
}

#[test]
fn arguments_are_compared_the_other_way_round() {
    let rows = "type=1,1 / def=3,0,0 / type=1,1 / def=3,1,0";
    check(rows, &[(3, 2, Yes), (2, 3, Member(3))]);
}

#[test]
fn results_are_compared_the_same_way_round() {
    let rows = "type=1,1 / def=3,0,0 / type=1,1 / def=3,0,1";
    check(rows, &[(2, 3, Yes), (3, 2, Member(3))]);
}

#[test]
fn a_resource_does_not_pass_where_pure_is_asked() {
    let rows = "type=0,1 / def=3,0,0 / type=1,1 / def=3,0,0";
    check(
        rows,
        &[(2, 3, Yes), (3, 2, Kind), (1, 0, Kind), (0, 1, Yes)],
    );
}

#[test]
fn a_fields_row_may_not_vary() {
    let rows = "type=1,1 / var=3,0 / type=1,1 / var=3,1 / type=1,2 / var=3,0 / var=4,0";
    check(rows, &[(2, 3, Member(3)), (3, 2, Member(3))]);
    check(rows, &[(4, 2, Yes), (4, 3, Member(3)), (2, 4, Member(4))]);
    check(rows, &[(3, 4, Member(3))]);
}

#[test]
fn a_field_is_no_method() {
    let rows = "type=1,1 / var=3,0 / type=1,1 / def=3,0,0";
    check(rows, &[(2, 3, Member(3)), (3, 2, Member(3))]);
}

#[test]
fn names_must_be_the_same() {
    let rows = "type=1,1 / def=3,0,0 / type=1,1 / def=4,0,0";
    check(rows, &[(2, 3, Member(4)), (3, 2, Member(3))]);
}

#[test]
fn the_argument_of_an_argument() {
    // Rows 2 and 3 differ in an argument, rows 4 and 5 in theirs.
    let rows = "type=1,1 / def=0,0,0 / type=1,1 / def=0,1,0 / \
                type=1,1 / def=0,2,0 / type=1,1 / def=0,3,0";
    check(rows, &[(3, 2, Yes), (2, 3, Member(0))]);
    check(rows, &[(4, 5, Yes), (5, 4, Member(0))]);
}

#[test]
fn kind_comes_before_names() {
    let rows = "type=0,2 / def=0,0,0 / def=9,0,0 / type=1,1 / def=9,0,0 / type=0,1 / def=9,1,1";
    // A resource with one of the two members, and one with none.
    check(rows, &[(3, 2, Kind), (1, 2, Kind), (0, 2, Member(0))]);
    // The name is there, but takes less.
    check(rows, &[(3, 4, Kind), (2, 4, Member(9))]);
}

#[test]
fn the_lowest_name_without_a_match_is_told() {
    let wanted = "type=1,4 / def=1,0,0 / var=5,0 / def=7,0,0 / def=63,0,0";
    let own = |members: &str| {
        let count = members.matches('=').count();
        answer(&format!("{wanted} / type=1,{count} / {members}"), 3, 2)
    };
    assert_eq!(answer(wanted, 0, 2), Member(1));
    assert_eq!(own("def=63,0,0"), Member(1));
    assert_eq!(own("def=1,0,0"), Member(5));
    assert_eq!(own("def=1,0,0 / def=7,0,0"), Member(5));
    assert_eq!(own("def=1,0,0 / var=5,0"), Member(7));
    assert_eq!(own("def=1,0,0 / var=5,0 / def=63,0,0"), Member(7));
    assert_eq!(own("def=1,0,0 / var=5,0 / def=7,0,0"), Member(63));
    // Each cause in turn, with a name above it that is missing as well.
    assert_eq!(own("def=1,0,1 / def=5,0,0"), Member(1));
    assert_eq!(own("var=1,0 / def=7,0,0"), Member(1));
    assert_eq!(own("def=1,0,0 / var=5,1 / var=7,0"), Member(5));
    assert_eq!(own("def=1,1,0 / def=5,0,0 / def=7,0,1"), Member(5));
    assert_eq!(own("def=1,0,0 / var=5,0 / def=7,0,1"), Member(7));
}

#[test]
fn what_an_answer_lacks() {
    assert_eq!(Yes.lack(), None);
    assert_eq!(Kind.lack(), Some(Lack::Kind));
    for name in [0, 1, 63] {
        assert_eq!(Member(name).lack(), Some(Lack::Member(name)));
    }
    let numbers = |lack: Lack| (lack.number(), lack.name());
    assert_eq!(numbers(Lack::Count), (1, 0));
    assert_eq!(numbers(Lack::Kind), (2, 0));
    assert_eq!(numbers(Lack::Member(0)), (3, 0));
    assert_eq!(numbers(Lack::Member(63)), (3, 63));
}

/// Without an answer kept for each pair this takes longer than anyone waits:
/// each rung asks for the one beneath sixteen times.
#[test]
fn each_pair_is_settled_once() {
    let mut text = String::from("types=64\ntype=0,0\ntype=1,0\n");
    for rung in 0..31 {
        let (first, second) = (2 * rung, 2 * rung + 1);
        for (argument, result) in [(second, first), (first, second)] {
            text += "type=1,8\n";
            for name in 0..8 {
                let _ = writeln!(text, "def={name},{argument},{result}");
            }
        }
    }
    text += "forms=0\nmain=1\nget=0\n";
    let told = |answer, passed| Ok(FitTold { answer, passed });
    assert_eq!(fit(text.as_bytes(), 62, 63), told(Yes, 8));
    assert_eq!(fit(text.as_bytes(), 63, 62), told(Member(0), 1));
}
