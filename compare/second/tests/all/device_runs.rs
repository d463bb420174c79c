//! Devices in the machine: they are there at the start, in main's first slots.

use crate::common::*;
use crate::devices::{plant, shelf};
use second::{authority, bound, fit, form, group, Outcome, NO_VALUE};

#[test]
fn the_plant_step_by_step() {
    for budget in 0..7 {
        let objects = if budget == 0 { 2 } else { 3 };
        let answer = (Outcome::Spent, budget, NO_VALUE, objects);
        assert_eq!(run(&plant(), budget), answer);
    }
    for budget in [7, 8, u32::MAX] {
        assert_eq!(run(&plant(), budget), (Outcome::Done, 7, 0, 3));
    }
}

#[test]
fn what_the_plants_holders_hold() {
    check_held(
        &plant(),
        &[
            (0, 256, &[0, 1], &[0, 1]),
            (0, 0, &[0], &[0]),
            (0, 1, &[1], &[1]),
            (1, 256, &[0, 1, 2], &[0, 1, 2]),
            (1, 2, &[0, 2], &[0, 2]),
            // The clerk is called with the valve and names it nowhere.
            (2, 256, &[0, 1], &[0, 1, 2]),
            (2, 2, &[0, 2], &[0, 1, 2]),
            (3, 2, &[0, 2], &[0, 1, 2]),
            (4, 256, &[0, 1], &[0, 1, 2]),
            // The valve has the scale while it is at work.
            (5, 1, &[0, 1], &[0, 1]),
            (5, 256, &[], &[0, 1, 2]),
            (6, 1, &[0, 1], &[0, 1]),
            (6, 256, &[], &[0, 1, 2]),
            (7, 256, &[0], &[0, 1, 2]),
            (7, 0, &[0], &[0]),
            (7, 1, &[1], &[1]),
            (7, 2, &[0, 2], &[0, 2]),
        ],
    );
}

#[test]
fn the_plant_is_printed() {
    assert_eq!(
        second::print(&plant()),
        "verdict=0\nline=0\noutcome=0\nsteps=7\nvalue=0\n\
         holder=256,0\nholder=0,0\nholder=1,1\nholder=2,0,2\n"
    );
    let wrong = with_line(&plant(), 18, "device=3");
    assert_eq!(second::print(&wrong), "verdict=14\nline=18\n");
}

#[test]
fn devices_are_holders_from_the_start() {
    let text = plant();
    assert_eq!(authority(&text, 0, 0), Ok(vec![0]));
    assert_eq!(authority(&text, 0, 1), Ok(vec![1]));
    assert_eq!(pair(authority(&text, 0, 2)), (11, 0));
    assert_eq!(authority(&text, 1, 2), Ok(vec![0, 2]));
    assert_eq!(group(&text, 0, &[]), Ok(vec![]));
    assert_eq!(group(&text, 0, &[1, 0]), Ok(vec![0, 1]));
    assert_eq!(group(&text, 7, &[256, 1]), Ok(vec![0, 1]));
    assert_eq!(pair(group(&text, 0, &[0, 2])), (11, 0));
}

#[test]
fn two_devices_of_one_form_are_two_objects() {
    assert_eq!(run(&shelf(2, "copy=1"), 9), (Outcome::Done, 1, 1, 2));
    assert_eq!(run(&shelf(2, "copy=0"), 9), (Outcome::Done, 1, 0, 2));
    assert_eq!(
        second::print(&shelf(3, "copy=1")),
        "verdict=0\nline=0\noutcome=0\nsteps=1\nvalue=1\n\
         holder=256,1\nholder=0,0\nholder=1,1\nholder=2,2\n"
    );
}

#[test]
fn the_number_of_objects_is_devices_and_creations() {
    for count in 1..=8 {
        let text = shelf(count, "new=0 / copy=0 / new=0");
        let number = count as u16;
        let expected = [
            (Outcome::Spent, 0, NO_VALUE, number),
            (Outcome::Spent, 1, NO_VALUE, number + 1),
            (Outcome::Spent, 2, NO_VALUE, number + 1),
            (Outcome::Done, 3, number + 1, number + 2),
        ];
        for (budget, expected) in expected.into_iter().enumerate() {
            assert_eq!(run(&text, budget as u32), expected);
        }
    }
}

/// Main holds a device while a line not yet taken names it.
#[test]
fn main_holds_what_it_still_names() {
    check_held(
        &shelf(3, "copy=1 / copy=0 / copy=1"),
        &[
            (0, 256, &[0, 1], &[0, 1, 2]),
            (1, 256, &[0, 1], &[0, 1, 2]),
            (2, 256, &[1], &[0, 1, 2]),
            (3, 256, &[1], &[0, 1, 2]),
        ],
    );
    // Nothing names a device.
    check_held(
        &shelf(2, "new=0 / new=0"),
        &[
            (0, 256, &[], &[0, 1]),
            (1, 256, &[], &[0, 1, 2]),
            (2, 256, &[3], &[0, 1, 2, 3]),
        ],
    );
}

/// Main's last slot is its last instruction's, not that of its last device
/// and not the slot of that number without devices.
#[test]
fn mains_last_slot_comes_after_the_devices() {
    check_held(
        &shelf(2, "copy=0"),
        &[(0, 256, &[0], &[0, 1]), (1, 256, &[0], &[0, 1])],
    );
    check_held(
        &shelf(2, "copy=0 / copy=0"),
        &[
            (0, 256, &[0], &[0, 1]),
            (1, 256, &[0], &[0, 1]),
            (2, 256, &[0], &[0, 1]),
        ],
    );
    let all = "copy=6 / ".repeat(31) + "copy=7";
    check_held(
        &shelf(8, &all),
        &[
            (0, 256, &[6, 7], &[0, 1, 2, 3, 4, 5, 6, 7]),
            (31, 256, &[7], &[0, 1, 2, 3, 4, 5, 6, 7]),
            (32, 256, &[7], &[0, 1, 2, 3, 4, 5, 6, 7]),
        ],
    );
    assert_eq!(run(&shelf(8, &all), 99), (Outcome::Done, 32, 7, 8));
}

/// Device 0 makes 31 objects a call; it is called eight times, and main makes
/// `more` itself.
fn makers(devices: usize, more: usize) -> Vec<u8> {
    let head = "types=2\ntype=1,0\ntype=1,1\ndef=0,0,0\nforms=2\nform=0,0\nform=1,0\n";
    let body = format!("body=31\n{}", "new=0\n".repeat(31));
    let others = "device=0\n".repeat(devices - 1);
    let main = format!("devices={devices}\ndevice=1\n{others}main={}\n", 8 + more);
    let code = "call=0,0,0\n".repeat(8) + &"new=0\n".repeat(more);
    (String::from(head) + &body + &main + &code).into_bytes()
}

#[test]
fn devices_count_towards_the_store() {
    for devices in 1..=8 {
        let more = 8 - devices;
        let steps = 8 * 33 + more as u32;
        let exact = makers(devices, more);
        assert_eq!(run(&exact, u32::MAX), (Outcome::Done, steps, 255, 256));
        let over = makers(devices, more + 1);
        let spent = (Outcome::Spent, steps, NO_VALUE, 256);
        assert_eq!(run(&over, steps), spent);
        let full = (Outcome::StoreFull, steps, NO_VALUE, 256);
        assert_eq!(run(&over, steps + 1), full);
        assert_eq!(run(&over, u32::MAX), full);
        assert_eq!(authority(&over, u32::MAX, 255), Ok(vec![255]));
    }
    // The 255th object is no last one.
    assert_eq!(run(&makers(7, 0), 264), (Outcome::Done, 264, 254, 255));
}

/// A device that calls itself: main's frame and 63 others.
#[test]
fn devices_are_no_frames() {
    let text = sheet(
        "types=2 / type=1,0 / type=1,1 / def=0,0,0 / forms=1 / form=1,0 / body=1 / call=0,0,1 / \
         devices=2 / device=0 / device=0 / main=1 / call=1,0,0",
    );
    assert_eq!(run(&text, 63), (Outcome::Spent, 63, NO_VALUE, 2));
    assert_eq!(run(&text, 64), (Outcome::StackFull, 63, NO_VALUE, 2));
    assert_eq!(authority(&text, 64, 256), Ok(vec![]));
    // The call that is stopped still names its argument.
    assert_eq!(authority(&text, 64, 1), Ok(vec![0, 1]));
    assert_eq!(authority(&text, 0, 256), Ok(vec![0, 1]));
    assert_eq!(pair(bound(&text)), (12, 8));
}

#[test]
fn the_most_steps_are_those_of_main() {
    assert_eq!(bound(&plant()), Ok(7));
    assert_eq!(bound(&shelf(8, "copy=0 / copy=0")), Ok(2));
    // Wrong devices come before circular calls.
    let text = sheet(
        "types=2 / type=0,0 / type=1,1 / def=0,0,0 / forms=2 / form=0,0 / form=1,0 / body=1 / \
         call=0,0,1 / devices=1 / device=0 / main=1 / copy=0",
    );
    assert_eq!(pair(bound(&text)), (14, 11));
    let circular = with_line(&text, 11, "device=1");
    assert_eq!(pair(bound(&circular)), (12, 9));
}

/// The lines of a form as they stand.
fn lines(text: &[u8], number: usize) -> &[u8] {
    form(text, number).expect("a form of a sheet that reads")
}

#[test]
fn the_last_forms_lines_end_before_the_devices() {
    let text = plant();
    assert_eq!(lines(&text, 2), b"form=2,0\nbody=1\ncopy=1\n");
    let clerk: &[u8] = b"form=2,1\nkeep=1\nbody=1\ncopy=2\n";
    assert_eq!(lines(&text, 3), clerk);
    assert_eq!(pair(form(&text, 4)), (7, 0));
    assert_eq!(lines(&shelf(1, "copy=0"), 0), b"form=0,0\n");
    assert_eq!(lines(&shelf(8, "copy=0"), 0), b"form=0,0\n");
    // A wrong device can be read, a missing one cannot.
    assert_eq!(lines(&with_line(&text, 17, "device=3"), 3), clerk);
    let missing = with_line(&text, 17, "device=4");
    assert_eq!(pair(form(&missing, 3)), (7, 17));
}

#[test]
fn the_fit_question_stops_before_wrong_devices() {
    let wrong = with_line(&plant(), 17, "device=0");
    assert_eq!(fit(&wrong, 2, 1), fit(&plant(), 2, 1));
    assert!(fit(&wrong, 2, 1).is_ok());
    let missing = with_line(&plant(), 17, "device=4");
    assert_eq!(pair(fit(&missing, 2, 1)), (7, 17));
}
