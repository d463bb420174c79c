//! The authority question at the edges of its buffers and of the store, with
//! the sets that the paper gives.

use crate::common::{lines, CLERK, LOOP};
use crate::held;
use boundary::{authority, AUTHORITY, WORK};

const MAIN: usize = 256;

/// The answer is this refusal and line, or zeros and these numbers.
fn check(text: &[u8], budget: u32, holder: usize, refused: (u32, u32), numbers: &[u16]) {
    let name = format!("budget {budget}, holder {holder}");
    held::check(&name, refused, numbers, |work, result| {
        authority(text, budget, holder, work, result)
    });
}

fn holds(text: &[u8], budget: u32, holder: usize, held: &[u16]) {
    check(text, budget, holder, (0, 0), held);
}

fn no_holder(text: &[u8], budget: u32, holder: usize) {
    check(text, budget, holder, (11, 0), &[]);
}

#[test]
fn a_short_buffer_is_refused_first_and_both_are_left_as_they_were() {
    let long = vec![b'x'; 70_000];
    let short = [
        (WORK - 1, AUTHORITY),
        (WORK, AUTHORITY - 1),
        (WORK - 1, AUTHORITY - 1),
        (WORK + 5, AUTHORITY - 1),
        (WORK - 1, AUTHORITY + 9),
        (WORK, 0),
        (WORK, 1),
        (0, AUTHORITY),
        (0, 0),
    ];
    for lengths in short {
        for text in [&b""[..], &long[..], CLERK] {
            for holder in [MAIN, 0, 1, 257] {
                held::is_short(lengths, |work, result| {
                    authority(text, 8, holder, work, result)
                });
            }
        }
    }
}

#[test]
fn the_text_s_refusal_comes_before_the_holder_s() {
    let long = vec![b'x'; 65_536];
    let unfinished = &CLERK[..CLERK.len() - 1];
    for holder in [MAIN, 0, 257, usize::MAX] {
        check(&long, 8, holder, (2, 0), &[]);
        check(&long[1..], 8, holder, (3, 1), &[]);
        check(b"", 8, holder, (3, 1), &[]);
        check(unfinished, 8, holder, (3, 20), &[]);
    }
}

#[test]
fn the_clerk_s_three_sets() {
    for budget in [8, 9, 10_000, u32::MAX] {
        holds(CLERK, budget, MAIN, &[]);
        holds(CLERK, budget, 1, &[1]);
        holds(CLERK, budget, 2, &[1, 2]);
    }
    // The scale for the clerk's `new`, then the clerk for its call.
    let before = [&[][..], &[], &[1], &[2], &[], &[], &[], &[]];
    for (budget, held) in before.into_iter().enumerate() {
        holds(CLERK, budget as u32, MAIN, held);
    }
}

#[test]
fn the_paper_s_cases_without_a_holder() {
    // P3: object 2 is not made yet. P4: object 0 is pure.
    no_holder(CLERK, 2, 2);
    no_holder(CLERK, 8, 0);
    for holder in [3, 255, 257, 65_535, 65_536, 65_792, usize::MAX] {
        no_holder(CLERK, 8, holder);
    }
    no_holder(CLERK, 0, 0);
}

#[test]
fn a_full_stack_of_one_holder() {
    for budget in [65, 66, u32::MAX] {
        holds(LOOP, budget, MAIN, &[]);
        holds(LOOP, budget, 1, &[1]);
        no_holder(LOOP, budget, 0);
    }
}

/// Main calls a pure maker, then a clerk that calls the same maker.
/// Objects: 0 pure, 1 the maker, 2 the clerk, 3 and 4 made by the maker.
#[test]
fn a_pure_receiver_s_frame_belongs_to_the_holder_beneath() {
    let text = lines(
        "types=4 / type=0,0 / type=1,0 / type=0,1 / def=1,0,0 / type=1,1 / def=1,0,0 / forms=4 / \
         form=0,0 / form=1,0 / form=2,0 / body=3 / new=1 / copy=2 / copy=1 / form=3,1 / keep=2 / \
         body=1 / call=2,1,1 / main=5 / new=0 / new=2 / new=3,1 / call=1,1,0 / call=2,1,0",
    );
    holds(&text, 4, MAIN, &[2]);
    // What the maker makes is main's, while a line still names it.
    holds(&text, 5, MAIN, &[2, 3]);
    holds(&text, 6, MAIN, &[2]);
    holds(&text, 8, MAIN, &[2]);
    holds(&text, 9, MAIN, &[]);
    holds(&text, 5, 2, &[2]);
    holds(&text, 5, 3, &[3]);
    no_holder(&text, 5, 1);
    // Called by the clerk, it makes for the clerk.
    holds(&text, 11, 2, &[2, 4]);
    holds(&text, 11, MAIN, &[]);
    holds(&text, 12, 2, &[2]);
    holds(&text, 15, 4, &[4]);
}

/// Object 1 keeps 0, and 2 keeps 1; their body names what they keep.
#[test]
fn what_a_kept_value_keeps_is_not_held() {
    let text = lines(
        "types=2 / type=1,0 / type=1,1 / def=0,0,0 / forms=2 / form=0,0 / form=1,1 / keep=0 / \
         body=1 / copy=2 / main=3 / new=0 / new=1,0 / new=1,1",
    );
    holds(&text, 3, 0, &[0]);
    holds(&text, 3, 1, &[0, 1]);
    holds(&text, 3, 2, &[1, 2]);
    holds(&text, 3, MAIN, &[2]);
}

/// Object 1 makes 2 and its keeper 3, and gives the keeper to main.
#[test]
fn what_a_returned_value_keeps_is_not_held() {
    let text = lines(
        "types=2 / type=1,0 / type=1,1 / def=0,0,0 / forms=3 / form=0,0 / form=1,1 / keep=0 / \
         body=1 / copy=2 / form=1,0 / body=2 / new=0 / new=1,2 / main=3 / new=0 / new=2 / \
         call=1,0,0",
    );
    holds(&text, 4, 1, &[1, 2]);
    // The body's last slot, with the return still to come.
    holds(&text, 5, 1, &[1, 3]);
    holds(&text, 5, MAIN, &[]);
    // After the return.
    holds(&text, 6, 1, &[1]);
    holds(&text, 6, 3, &[2, 3]);
    holds(&text, 6, 2, &[2]);
    holds(&text, 6, MAIN, &[3]);
}

/// Object 2 keeps 0, which no body names; its field starts as 0 and is set
/// to 1, then to 3.
#[test]
fn fields_are_counted() {
    let text = lines(
        "types=2 / type=1,0 / type=1,2 / var=1,0 / def=2,0,0 / forms=2 / form=0,0 / form=1,1 / \
         keep=0 / init=0 / body=1 / put=1,1 / main=6 / new=0 / new=0 / new=1,0 / call=2,2,1 / \
         new=0 / call=2,2,4",
    );
    holds(&text, 3, 2, &[0, 2]);
    // The argument beside the field, then the field set to it.
    holds(&text, 4, 2, &[0, 1, 2]);
    holds(&text, 6, 2, &[1, 2]);
    holds(&text, 8, 2, &[1, 2, 3]);
    holds(&text, 9, 2, &[2, 3]);
    holds(&text, 10, 2, &[2, 3]);
    holds(&text, 10, MAIN, &[3]);
}

/// Eight kept values, of which two methods name the second and the last, the
/// first of them in a `new` with as many slots as there can be.
#[test]
fn kept_values_that_some_body_names() {
    let text = lines(
        "types=2 / type=1,0 / type=1,2 / def=0,0,0 / def=1,0,0 / forms=3 / form=0,0 / form=1,8 / \
         keep=0 / keep=0 / keep=0 / keep=0 / keep=0 / keep=0 / keep=0 / keep=0 / \
         body=2 / new=2,3,3,3,3,3,3,3,1 / copy=1 / body=1 / copy=9 / form=0,8 / \
         keep=0 / keep=0 / keep=0 / keep=0 / keep=0 / keep=0 / keep=0 / keep=0 / \
         main=9 / new=0 / new=0 / new=0 / new=0 / new=0 / new=0 / new=0 / new=0 / \
         new=1,0,1,2,3,4,5,6,7",
    );
    holds(&text, 9, 8, &[1, 7, 8]);
    holds(&text, 8, MAIN, &[0, 1, 2, 3, 4, 5, 6, 7]);
    holds(&text, 9, MAIN, &[8]);
}

/// A maker of this row, object 0, that makes 24 resources, calls itself, and
/// would then give them to three keepers.
pub fn maker(row: u16) -> Vec<u8> {
    let rows = "types=4\ntype=0,0\ntype=1,0\ntype=0,1\ndef=0,0,0\ntype=1,1\ndef=0,1,1\n";
    let made = "new=0\n".repeat(24) + "call=0,0,1\n";
    let given = "new=2,2,3,4,5,6,7,8,9\nnew=2,10,11,12,13,14,15,16,17\n\
                 new=2,18,19,20,21,22,23,24,25\ncopy=1\n";
    let keeper = String::from("form=1,8\n") + &"keep=1\n".repeat(8);
    let forms = format!("forms=3\nform=1,0\nform={row},0\nbody=29\n{made}{given}{keeper}");
    format!("{rows}{forms}main=2\nnew=1\ncall=0,0,0\n").into_bytes()
}

fn ascending(first: u16, last: u16) -> Vec<u16> {
    (first..=last).collect()
}

#[test]
fn a_holder_of_all_256_objects() {
    let text = maker(3);
    // 256 creations and 11 calls; then the store is full.
    for budget in [267, 268, u32::MAX] {
        holds(&text, budget, 0, &ascending(0, 255));
        holds(&text, budget, MAIN, &[]);
        holds(&text, budget, 1, &[1]);
        holds(&text, budget, 255, &[255]);
        no_holder(&text, budget, 257);
    }
    holds(&text, 266, 0, &ascending(0, 254));
    no_holder(&text, 266, 255);
}

#[test]
fn main_holds_what_a_pure_receiver_makes_in_a_full_store() {
    let text = maker(2);
    holds(&text, u32::MAX, MAIN, &ascending(1, 255));
    holds(&text, 266, MAIN, &ascending(1, 254));
    holds(&text, u32::MAX, 255, &[255]);
    no_holder(&text, u32::MAX, 0);
}

/// Main calls a maker of 31 eight times, makes one more, and gives the eight
/// to a keeper.
#[test]
fn main_holds_what_it_was_given_for_later() {
    let text = format!(
        "types=2\ntype=1,0\ntype=1,1\ndef=0,0,0\nforms=3\nform=0,0\nform=1,0\nbody=31\n{}\
         form=0,8\n{}main=12\nnew=0\nnew=1\n{}new=0\nnew=2,2,3,4,5,6,7,8,9\n",
        "new=0\n".repeat(31),
        "keep=0\n".repeat(8),
        "call=1,0,0\n".repeat(8)
    );
    let text = text.as_bytes();
    let given = [32, 63, 94, 125, 156, 187, 218, 249];
    // The last one is the maker's until its return.
    holds(text, 265, MAIN, &given[..7]);
    holds(text, 265, 1, &[1, 249]);
    holds(text, 266, MAIN, &given);
    holds(text, 266, 1, &[1]);
    holds(text, 267, MAIN, &given);
    holds(text, u32::MAX, MAIN, &[251]);
    holds(text, u32::MAX, 251, &[251]);
    no_holder(text, 267, 251);
}
