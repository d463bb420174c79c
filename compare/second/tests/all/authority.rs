//! Who holds what, step by step.

use crate::common::*;
use second::authority;

fn held(text: &[u8], budget: u32, holder: u32) -> Vec<u16> {
    authority(text, budget, holder).expect("a holder")
}

/// Main calls a pure maker, then a clerk that calls the same maker.
/// Objects: 0 pure, 1 the maker, 2 the clerk, 3 and 4 made by the maker.
fn maker() -> Vec<u8> {
    sheet(
        "types=4 / type=0,0 / type=1,0 / type=0,1 / def=1,0,0 / type=1,1 / def=1,0,0 / forms=4 / \
         form=0,0 / form=1,0 / form=2,0 / body=3 / new=1 / copy=2 / copy=1 / form=3,1 / keep=2 / \
         body=1 / call=2,1,1 / main=5 / new=0 / new=2 / new=3,1 / call=1,1,0 / call=2,1,0",
    )
}

#[test]
fn a_pure_receivers_frame_belongs_to_the_holder_beneath() {
    let text = maker();
    assert_eq!(verdict(&text), (0, 0));
    assert_eq!(held(&text, 4, 256), [2]);
    // Made by the maker in main's name.
    assert_eq!(held(&text, 5, 256), [2, 3]);
    assert_eq!(held(&text, 5, 2), [2]);
    assert_eq!(held(&text, 5, 3), [3]);
    // The maker's last line names its argument only.
    assert_eq!(held(&text, 6, 256), [2]);
    assert_eq!(held(&text, 8, 256), [2]);
    // Made by the maker in the clerk's name.
    assert_eq!(held(&text, 11, 2), [2, 4]);
    assert_eq!(held(&text, 11, 256), []);
    assert_eq!(held(&text, 12, 2), [2]);
    assert_eq!(held(&text, 15, 4), [4]);
    assert_eq!(pair(authority(&text, 11, 1)), (11, 0));
}

#[test]
fn the_printed_answer_has_each_resource() {
    assert_eq!(
        second::print(&maker()),
        "verdict=0\nline=0\noutcome=0\nsteps=15\nvalue=0\n\
         holder=256\nholder=2,2\nholder=3,3\nholder=4,4\n"
    );
}

#[test]
fn main_alone_is_printed_bare() {
    let text = sheet("types=1 / type=0,0 / forms=1 / form=0,0 / main=1 / new=0");
    assert_eq!(
        second::print(&text),
        "verdict=0\nline=0\noutcome=0\nsteps=1\nvalue=0\nholder=256\n"
    );
}

#[test]
fn an_unfinished_run_is_printed_with_its_frames() {
    assert_eq!(
        second::print(LOOP),
        "verdict=0\nline=0\noutcome=3\nsteps=65\nvalue=65535\nholder=256\nholder=1,1\n"
    );
}

#[test]
fn kept_values_fields_and_slots() {
    let text = sheet(
        "types=2 / type=1,0 / type=1,2 / var=1,0 / def=2,0,0 / forms=2 / form=0,0 / form=1,1 / \
         keep=0 / init=0 / body=1 / put=1,1 / main=6 / new=0 / new=0 / new=1,0 / call=2,2,1 / \
         new=0 / call=2,2,4",
    );
    // The kept value, as which the field starts; no body names its slot.
    assert_eq!(held(&text, 3, 2), [0, 2]);
    // The argument, then the field set to it.
    assert_eq!(held(&text, 4, 2), [0, 1, 2]);
    assert_eq!(held(&text, 5, 2), [1, 2]);
    assert_eq!(held(&text, 6, 2), [1, 2]);
    // The new argument beside the field.
    assert_eq!(held(&text, 8, 2), [1, 2, 3]);
    // The field is set anew: object 1 is lost with it.
    assert_eq!(held(&text, 9, 2), [2, 3]);
    assert_eq!(held(&text, 10, 2), [2, 3]);
    assert_eq!(held(&text, 3, 256), [1, 2]);
    assert_eq!(held(&text, 10, 256), [3]);
}

#[test]
fn a_full_store_has_a_last_holder() {
    let body = "new=0\n".repeat(31);
    let text = format!(
        "types=2\ntype=1,0\ntype=1,1\ndef=0,0,0\nforms=2\nform=0,0\nform=1,0\nbody=31\n{body}\
         main=16\nnew=0\nnew=1\n{}{}",
        "call=1,0,0\n".repeat(8),
        "new=0\n".repeat(6)
    );
    assert_eq!(held(text.as_bytes(), 10_000, 255), [255]);
    assert_eq!(pair(authority(text.as_bytes(), 271, 255)), (11, 0));
    // Main names both until its last call, and ends with what it made last.
    assert_eq!(held(text.as_bytes(), 233, 256), [0, 1]);
    assert_eq!(held(text.as_bytes(), 234, 256), []);
    assert_eq!(held(text.as_bytes(), 271, 256), []);
    assert_eq!(held(text.as_bytes(), 10_000, 256), [255]);
}
