//! Devices on the sheet: their lines, their refusals and main's first slots.

use crate::common::*;
use second::sheet::Device;

/// A scale and a valve, and a clerk that keeps the scale. Rows: 0 pure empty,
/// 1 resource empty, 2 resource with method 1. Forms: 0 pure, 1 the scale,
/// 2 the valve, 3 the clerk, which keeps a value.
/// 1 types 2 type 3 type 4 type 5 def 6 forms 7 form 8 form 9 form 10 body
/// 11 copy 12 form 13 keep 14 body 15 copy 16 devices 17 device 18 device
/// 19 main 20 new 21 call 22 call
pub fn plant() -> Vec<u8> {
    sheet(
        "types=3 / type=0,0 / type=1,0 / type=1,1 / def=1,1,1 / forms=4 / form=0,0 / form=1,0 / \
         form=2,0 / body=1 / copy=1 / form=2,1 / keep=1 / body=1 / copy=2 / devices=2 / \
         device=1 / device=2 / main=3 / new=3,0 / call=2,1,1 / call=1,1,0",
    )
}

/// The plant with these lines exchanged.
fn changed(changes: &[(usize, &str)]) -> (u32, u32) {
    let text = changes.iter().fold(plant(), |text, (place, line)| {
        with_line(&text, *place, line)
    });
    verdict(&text)
}

/// Each line alone is at fault, with this number.
fn check(cases: &[(usize, &str, u32)]) {
    for (place, line, number) in cases {
        let answer = changed(&[(*place, line)]);
        assert_eq!(answer, (*number, *place as u32), "{line}");
    }
}

/// `count` devices of the only form, a resource, and this main.
/// 1 types 2 type 3 forms 4 form 5 devices 6 device ..
pub fn shelf(count: usize, code: &str) -> Vec<u8> {
    let devices = "device=0 / ".repeat(count);
    let lines = code.split(" / ").count();
    sheet(&format!(
        "types=1 / type=1,0 / forms=1 / form=0,0 / devices={count} / {devices}main={lines} / {code}"
    ))
}

#[test]
fn the_plant_is_accepted() {
    assert_eq!(verdict(&plant()), (0, 0));
    let devices = second::read(&plant()).expect("a sheet that reads").devices;
    let expected = [(1, 17), (2, 18)].map(|(form, line)| Device { form, line });
    assert_eq!(devices, expected);
}

#[test]
fn a_sheet_without_the_line_has_no_device() {
    for text in [CLERK, LOOP] {
        let sheet = second::read(text).expect("a sheet that reads");
        assert_eq!(sheet.devices, []);
    }
    let printed = "verdict=0\nline=0\noutcome=0\nsteps=8\nvalue=0\nholder=256\nholder=1,1\n\
                   holder=2,1,2\n";
    assert_eq!(second::print(CLERK), printed);
}

#[test]
fn one_to_eight_devices() {
    for count in 1..=8 {
        let last = format!("copy={}", count - 1);
        assert_eq!(verdict(&shelf(count, &last)), (0, 0), "{count}");
        // The slot after the devices is not yet filled.
        let beyond = format!("copy={count}");
        let line = count as u32 + 7;
        assert_eq!(verdict(&shelf(count, &beyond)), (7, line), "{count}");
    }
    assert_eq!(verdict(&shelf(0, "new=0")), (4, 5));
    assert_eq!(verdict(&shelf(9, "new=0")), (4, 5));
}

#[test]
fn the_count_of_devices() {
    check(&[
        (16, "devices=0", 4),
        (16, "devices=9", 4),
        (16, "devices=65535", 4),
        (16, "devices=65536", 3),
        (16, "devices=02", 3),
        (16, "devices=1,1", 3),
        (16, "devices=", 3),
        (16, "devices", 3),
        (16, "devices=2 ", 3),
        (16, "Devices=2", 3),
        (16, "device=2", 3),
    ]);
    // One line too many, and one too few.
    assert_eq!(changed(&[(16, "devices=1")]), (3, 18));
    assert_eq!(changed(&[(16, "devices=3")]), (3, 19));
    assert_eq!(changed(&[(16, "devices=8")]), (3, 19));
}

#[test]
fn device_lines() {
    check(&[
        (17, "device=1,0", 3),
        (17, "device=", 3),
        (17, "device=01", 3),
        (17, "device=65536", 3),
        (17, "devices=1", 3),
        (17, "form=1,0", 3),
        (17, "new=1", 3),
        (18, "main=3", 3),
        (17, "device=4", 7),
        (18, "device=4", 7),
        (18, "device=65535", 7),
        (17, "device=3", 14),
        (17, "device=0", 14),
        (18, "device=3", 14),
        (18, "device=0", 14),
    ]);
    // The lower number wins on a line, the first line of two.
    assert_eq!(changed(&[(17, "device=4,0")]), (3, 17));
    assert_eq!(changed(&[(17, "device=3"), (18, "device=0")]), (14, 17));
    assert_eq!(changed(&[(17, "device=3"), (18, "device=4")]), (7, 18));
}

#[test]
fn a_form_that_is_pure_and_keeps() {
    let text = "types=1 / type=0,0 / forms=2 / form=0,0 / form=0,1 / keep=0 / devices=1 / \
                device=1 / main=1 / new=0";
    assert_eq!(verdict(&sheet(text)), (14, 8));
}

#[test]
fn without_forms_no_device_is_there() {
    let text = "types=1 / type=1,0 / forms=0 / devices=1 / device=0 / main=1 / get=0";
    assert_eq!(verdict(&sheet(text)), (7, 5));
}

#[test]
fn devices_at_another_place() {
    let rows = "types=1 / type=1,0";
    let forms = "forms=1 / form=0,0";
    let devices = "devices=1 / device=0";
    let main = "main=1 / new=0";
    let cases = [
        ([rows, forms, devices, main], (0, 0)),
        ([rows, forms, main, devices], (3, 7)),
        ([rows, devices, forms, main], (3, 3)),
        ([devices, rows, forms, main], (3, 1)),
    ];
    for (parts, expected) in cases {
        assert_eq!(verdict(&sheet(&parts.join(" / "))), expected);
    }
    let twice = [rows, forms, devices, devices, main].join(" / ");
    assert_eq!(verdict(&sheet(&twice)), (3, 7));
    let bare = [rows, forms, "device=0", main].join(" / ");
    assert_eq!(verdict(&sheet(&bare)), (3, 5));
    let inside = [rows, forms, "main=2 / new=0", devices].join(" / ");
    assert_eq!(verdict(&sheet(&inside)), (3, 7));
    let early = [rows, "forms=2 / form=0,0", devices, main].join(" / ");
    assert_eq!(verdict(&sheet(&early)), (3, 5));
    let late = [rows, "forms=1 / form=0,0 / form=0,0", devices, main].join(" / ");
    assert_eq!(verdict(&sheet(&late)), (3, 5));
}

#[test]
fn devices_inside_a_form() {
    for (place, line) in [(10, "devices=1"), (11, "device=1"), (13, "device=1")] {
        assert_eq!(changed(&[(place, line)]), (3, place as u32));
    }
}

#[test]
fn an_early_end() {
    let text = plant();
    for end in 0..text.len() {
        let lines = text[..end].iter().filter(|byte| **byte == b'\n').count();
        assert_eq!(verdict(&text[..end]), (3, lines as u32 + 1), "cut at {end}");
    }
}

#[test]
fn reading_comes_before_wrong_devices() {
    let keeping = (17, "device=3");
    assert_eq!(changed(&[keeping, (22, "call=1,1")]), (3, 22));
    assert_eq!(changed(&[keeping, (19, "main=33")]), (4, 19));
    assert_eq!(changed(&[keeping, (19, "main=4")]), (3, 23));
    assert_eq!(changed(&[keeping, (22, "call=5,1,0")]), (7, 22));
    assert_eq!(changed(&[keeping, (22, "call=1,64,0")]), (4, 22));
    assert_eq!(changed(&[keeping, (16, "devices=9")]), (4, 16));
}

#[test]
fn faults_of_typing_before_and_after() {
    for wrong in [(17, "device=3"), (18, "device=0")] {
        // Before: 8, 9 and 10.
        assert_eq!(changed(&[wrong, (4, "type=0,1")]), (8, 13));
        assert_eq!(changed(&[wrong, (15, "get=1")]), (9, 15));
        assert_eq!(changed(&[wrong, (15, "new=3")]), (10, 15));
        // After: 9 and 10.
        let own = (14, wrong.0 as u32);
        assert_eq!(changed(&[wrong, (21, "call=2,5,1")]), own);
        assert_eq!(changed(&[wrong, (20, "new=3")]), own);
        assert_eq!(changed(&[wrong, (22, "get=1")]), own);
    }
    // Without it the later fault is told.
    assert_eq!(changed(&[(21, "call=2,5,1")]), (9, 21));
    assert_eq!(changed(&[(20, "new=3")]), (10, 20));
}

#[test]
fn main_fills_the_slots_after_the_devices() {
    check(&[
        (20, "new=3,2", 7),
        (20, "copy=2", 7),
        (21, "call=3,1,1", 7),
        (21, "call=2,1,3", 7),
        (22, "call=1,1,4", 7),
        (22, "copy=4", 7),
    ]);
    assert_eq!(changed(&[(22, "copy=3")]), (0, 0));
    assert_eq!(changed(&[(20, "copy=1")]), (0, 0));
}

#[test]
fn a_devices_slot_has_its_forms_row() {
    // The scale has no method, and the valve has no other one.
    check(&[
        (22, "call=0,1,0", 9),
        (22, "call=1,2,0", 9),
        (22, "get=1", 9),
    ]);
    // The valve fits where a scale is asked for.
    assert_eq!(changed(&[(20, "new=3,1")]), (0, 0));
    assert_eq!(changed(&[(17, "device=2"), (22, "call=0,1,0")]), (0, 0));
    assert_eq!(changed(&[(18, "device=1")]), (9, 22));
    // Where a valve is asked for the scale lacks method 1.
    let text = with_line(&plant(), 13, "keep=2");
    let lack = second::Lack::Member(1);
    assert_eq!(misfit(&text), Some((20, lack)));
    assert_eq!(verdict(&with_line(&text, 20, "new=3,1")), (0, 0));
}

#[test]
fn devices_are_no_instructions() {
    let copies = "copy=1\n".repeat(32);
    let mut text = String::from("types=2\ntype=1,0\ntype=1,1\ndef=0,0,0\nforms=32\nform=0,0\n");
    text += &format!("form=1,0\nbody=32\n{copies}").repeat(31);
    text += &format!("devices=8\n{}", "device=0\n".repeat(8));
    text += &format!("main=32\n{}", "copy=7\n".repeat(32));
    assert_eq!(verdict(text.as_bytes()), (0, 0));
    let main = text.lines().position(|line| line == "main=32");
    let main = main.expect("a main line") as u32 + 1;
    let more = text.replace("body=32\n", "body=33\n");
    assert_eq!(verdict(more.as_bytes()), (4, 8));
    let more = text.replacen("main=32", "main=33", 1);
    assert_eq!(verdict(more.as_bytes()), (4, main));
}
