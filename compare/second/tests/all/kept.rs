//! Which kept values count: those whose slot a body of the form names.

use crate::common::*;

/// Object 4 keeps objects 0 to 3 in slots 2 to 5, and its field starts as
/// the last of them. Names, and the number of a form, are no slots.
#[test]
fn each_instruction_names_its_slots() {
    let cases: [(&str, &[u16]); 10] = [
        ("call=2,2,3", &[0, 1, 3, 4]),
        ("call=2,2,1", &[0, 3, 4]),
        ("call=0,2,4", &[2, 3, 4]),
        ("get=3", &[3, 4]),
        ("put=3,4", &[2, 3, 4]),
        ("copy=3", &[1, 3, 4]),
        ("copy=1", &[3, 4]),
        ("new=0", &[3, 4]),
        ("new=3,4", &[2, 3, 4]),
        ("new=2,2,3,4,3", &[0, 1, 2, 3, 4]),
    ];
    for (line, held) in cases {
        let text = sheet(&format!(
            "types=3 / type=1,0 / type=1,1 / def=2,0,0 / type=1,2 / def=2,0,0 / var=3,0 / forms=4 \
             / form=0,0 / form=1,0 / body=1 / copy=1 / form=2,4 / keep=1 / keep=0 / keep=0 / \
             keep=0 / body=1 / {line} / init=3 / form=0,1 / keep=0 / main=5 / new=1 / new=0 / \
             new=0 / new=0 / new=2,0,1,2,3"
        ));
        check_held(&text, &[(5, 4, held, &[0, 1, 2, 3, 4])]);
    }
}

/// Object 2 keeps objects 0 and 1; its body names the second.
#[test]
fn a_kept_value_counts_if_a_body_names_its_slot() {
    let text = caller(
        "form=1,2 / keep=0 / keep=0 / body=1 / copy=3",
        "main=4 / new=0 / new=0 / new=1,0,1 / call=2,1,0",
    );
    check_held(
        &text,
        &[
            (3, 2, &[1, 2], &[0, 1, 2]),
            (3, 256, &[0, 2], &[0, 1, 2]),
            // Neither the argument nor the first kept value is named.
            (4, 2, &[1, 2], &[0, 1, 2]),
            (4, 256, &[], &[0, 1, 2]),
            (5, 2, &[1, 2], &[0, 1, 2]),
            (6, 2, &[1, 2], &[0, 1, 2]),
            (6, 256, &[1], &[0, 1, 2]),
        ],
    );
}

#[test]
fn a_body_of_another_method_is_enough() {
    let text = sheet(
        "types=2 / type=1,0 / type=1,2 / def=1,0,0 / def=2,0,0 / forms=2 / form=0,0 / form=1,1 / \
         keep=0 / body=1 / copy=1 / body=1 / copy=2 / main=4 / new=0 / new=0 / new=1,0 / \
         call=2,1,1",
    );
    check_held(
        &text,
        &[
            (3, 2, &[0, 2], &[0, 2]),
            (4, 2, &[0, 1, 2], &[0, 1, 2]),
            (5, 2, &[0, 1, 2], &[0, 1, 2]),
            (6, 2, &[0, 2], &[0, 2]),
        ],
    );
}

#[test]
fn a_form_without_a_body_names_nothing() {
    let text = sheet(
        "types=1 / type=1,0 / forms=2 / form=0,0 / form=0,1 / keep=0 / main=2 / new=0 / new=1,0",
    );
    check_held(&text, &[(2, 1, &[1], &[0, 1]), (2, 256, &[1], &[0, 1])]);
}

#[test]
fn a_value_kept_twice_counts_by_either_place() {
    for named in ["copy=2", "copy=3", "call=0,1,2"] {
        let form = format!("form=1,2 / keep=0 / keep=0 / body=1 / {named}");
        let text = caller(&form, "main=2 / new=0 / new=1,0,0");
        check_held(&text, &[(2, 1, &[0, 1], &[0, 1])]);
    }
    let text = caller(
        "form=1,2 / keep=0 / keep=0 / body=1 / copy=1",
        "main=2 / new=0 / new=1,0,0",
    );
    check_held(&text, &[(2, 1, &[1], &[0, 1])]);
}

/// Object 3 keeps objects 0 and 1 and has a field that starts as 1.
#[test]
fn a_kept_value_that_init_alone_names_counts_as_the_field() {
    let text = sheet(
        "types=2 / type=1,0 / type=1,2 / var=1,0 / def=2,0,0 / forms=2 / form=0,0 / form=1,2 / \
         keep=0 / keep=0 / init=1 / body=1 / put=1,1 / main=5 / new=0 / new=0 / new=0 / \
         new=1,0,1 / call=3,2,2",
    );
    check_held(
        &text,
        &[
            (4, 3, &[1, 3], &[0, 1, 3]),
            (5, 3, &[1, 2, 3], &[0, 1, 2, 3]),
            // The field is set to the argument.
            (6, 3, &[2, 3], &[0, 1, 2, 3]),
            (7, 3, &[2, 3], &[0, 1, 2, 3]),
            (7, 256, &[2], &[0, 1, 2, 3]),
        ],
    );
}
