//! Which filled slots count: those that a line not yet taken names, and
//! final slots.

use crate::common::*;
use second::authority::{authority_of, held_before, holders};
use second::machine::Machine;

/// Main with form 0, a resource without members, and these instructions.
fn main_only(code: &str) -> Vec<u8> {
    let count = code.matches('=').count();
    let text = format!("types=1 / type=1,0 / forms=1 / form=0,0 / main={count} / {code}");
    sheet(&text)
}

#[test]
fn a_slot_counts_until_the_last_line_that_names_it_is_taken() {
    let text = main_only("new=0 / new=0 / copy=0 / copy=0 / copy=1");
    check_held(
        &text,
        &[
            (0, 256, &[], &[]),
            (1, 256, &[0], &[0]),
            (2, 256, &[0, 1], &[0, 1]),
            (3, 256, &[0, 1], &[0, 1]),
            // Nothing names slots 0, 2 and 3, which all have object 0.
            (4, 256, &[1], &[0, 1]),
            (5, 256, &[1], &[0, 1]),
        ],
    );
}

#[test]
fn the_last_slot_filled_so_far_does_not_count() {
    check_held(
        &main_only("new=0 / new=0 / new=0"),
        &[
            (1, 256, &[], &[0]),
            (2, 256, &[], &[0, 1]),
            (3, 256, &[2], &[0, 1, 2]),
        ],
    );
}

#[test]
fn mains_last_slot_stays() {
    let text = main_only("new=0 / copy=0 / new=0");
    for budget in [3, 4, u32::MAX] {
        check_held(&text, &[(budget, 256, &[1], &[0, 1])]);
    }
    check_held(&main_only("new=0"), &[(1, 256, &[0], &[0])]);
}

/// Object 2 calls object 1, which it keeps, with one of two items that it
/// makes, and gives back the other.
#[test]
fn a_waiting_frame_counts_by_its_later_lines() {
    let text = caller(
        "form=1,0 / body=1 / copy=1 / form=1,1 / keep=1 / body=4 / new=0 / new=0 / call=2,1,3 / \
         copy=4",
        "main=4 / new=0 / new=1 / new=2,1 / call=2,1,0",
    );
    check_held(
        &text,
        &[
            (3, 256, &[0, 2], &[0, 1, 2]),
            (4, 256, &[], &[0, 1, 2]),
            (4, 2, &[1, 2], &[0, 1, 2]),
            (5, 2, &[1, 2, 3], &[0, 1, 2, 3]),
            (6, 2, &[1, 2, 3, 4], &[0, 1, 2, 3, 4]),
            // The call waits: it is taken, and alone has named object 3.
            (7, 2, &[1, 2, 4], &[0, 1, 2, 3, 4]),
            (7, 1, &[1, 3], &[1, 3]),
            (8, 2, &[1, 2, 4], &[0, 1, 2, 3, 4]),
            (8, 1, &[1, 3], &[1, 3]),
            // What it gave back is named by nothing.
            (9, 2, &[1, 2, 4], &[0, 1, 2, 3, 4]),
            (9, 1, &[1], &[1]),
            (10, 2, &[1, 2, 4], &[0, 1, 2, 3, 4]),
            (11, 2, &[1, 2], &[1, 2]),
            (11, 256, &[4], &[0, 1, 2, 4]),
        ],
    );
}

/// A pure object copies its argument, makes an item and gives it back.
#[test]
fn a_pure_receivers_frame_counts_for_the_holder_beneath() {
    let text = sheet(
        "types=2 / type=1,0 / type=0,1 / def=1,0,0 / forms=2 / form=0,0 / form=1,0 / body=2 / \
         copy=1 / new=0 / main=3 / new=0 / new=1 / call=1,1,0",
    );
    check_held(
        &text,
        &[
            (1, 256, &[0], &[0]),
            (2, 256, &[0], &[0]),
            (3, 256, &[0], &[0]),
            (4, 256, &[], &[0]),
            (5, 256, &[2], &[0, 2]),
            (6, 256, &[2], &[0, 2]),
        ],
    );
}

/// Object 1 makes two items and gives back the last.
#[test]
fn a_bodys_final_slot_counts_until_its_return() {
    let text = caller(
        "form=1,0 / body=2 / new=0 / new=0",
        "main=4 / new=0 / new=1 / call=1,1,0 / copy=0",
    );
    check_held(
        &text,
        &[
            (3, 1, &[1], &[0, 1]),
            // The last slot filled so far.
            (4, 1, &[1], &[0, 1, 2]),
            (5, 1, &[1, 3], &[0, 1, 2, 3]),
            (5, 256, &[0], &[0, 1]),
            // Main has it back and does not name it.
            (6, 1, &[1], &[1]),
            (6, 256, &[0], &[0, 1, 3]),
            (7, 256, &[0], &[0, 1, 3]),
        ],
    );
}

/// A call in the last line: the final slot is not filled while it waits.
#[test]
fn a_final_slot_that_waits_gives_nothing() {
    let text = caller(
        "form=1,0 / body=2 / new=0 / call=0,1,2",
        "main=3 / new=0 / new=1 / call=1,1,0",
    );
    check_held(
        &text,
        &[
            (4, 1, &[1, 2], &[0, 1, 2]),
            (5, 1, &[1], &[0, 1, 2]),
            (6, 1, &[1, 3], &[0, 1, 2, 3]),
            (7, 1, &[1], &[0, 1, 2, 3]),
            (7, 256, &[], &[0, 1]),
        ],
    );
}

#[test]
fn each_set_lies_within_the_one_before() {
    let many = "new=0 / copy=0 / new=0 / copy=2 / copy=1 / new=0";
    for text in [CLERK, LOOP, &main_only(many)] {
        let sheet = second::read(text).expect("an accepted sheet");
        for budget in (0..=12).chain([65, 66]) {
            let mut machine = Machine::start(&sheet);
            machine.run(budget);
            for holder in holders(&machine) {
                let now = authority_of(&machine, holder.into()).expect("a holder");
                let before = held_before(&machine, holder.into()).expect("a holder");
                let within = now.iter().all(|object| before.contains(object));
                assert!(within, "{budget}, {holder}");
            }
        }
    }
}

#[test]
fn numbers_that_are_no_holders_held_nothing_before() {
    let sheet = second::read(CLERK).expect("an accepted sheet");
    let mut machine = Machine::start(&sheet);
    machine.run(2);
    for holder in [0, 2, 255, 257, 65_536 + 256, u32::MAX] {
        assert_eq!(held_before(&machine, holder), None);
        assert_eq!(authority_of(&machine, holder), None);
    }
}

#[test]
fn the_clerk_step_by_step() {
    check_held(
        CLERK,
        &[
            (0, 256, &[], &[]),
            (2, 256, &[1], &[1]),
            (3, 256, &[2], &[1, 2]),
            (4, 256, &[], &[1, 2]),
            (4, 2, &[1, 2], &[1, 2]),
            (5, 1, &[1], &[1]),
            (8, 256, &[], &[1, 2]),
            (8, 1, &[1], &[1]),
            (8, 2, &[1, 2], &[1, 2]),
        ],
    );
}
