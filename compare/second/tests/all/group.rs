//! Who holds what in a group: the joined set of listed holders.

use crate::common::*;
use second::{authority, group, GROUP_LIMIT};

fn joined(text: &[u8], budget: u32, holders: &[u32]) -> Vec<u16> {
    group(text, budget, holders).expect("a list of holders")
}

fn refused(text: &[u8], budget: u32, holders: &[u32]) -> (u32, u32) {
    pair(group(text, budget, holders))
}

/// Two makers that keep two items each, one of them in common, and put what
/// they make into a field. Their first item is the field's start, their
/// second is named by the body. Objects: 0 pure, 1 to 3 the items, 4 and 5
/// the makers, 6 and 7 made by them.
fn makers() -> Vec<u8> {
    sheet(
        "types=3 / type=0,0 / type=1,0 / type=1,2 / var=1,1 / def=2,1,1 / forms=3 / form=0,0 / \
         form=1,0 / form=2,2 / keep=1 / keep=1 / init=0 / body=4 / copy=3 / new=1 / put=1,5 / \
         copy=1 / main=8 / new=0 / new=1 / new=1 / new=1 / new=2,2,3 / new=2,1,2 / call=4,2,1 / \
         call=5,2,1",
    )
}

/// Main makes 20 resources and nothing else.
fn shelf() -> Vec<u8> {
    let lines = "types=1\ntype=1,0\nforms=1\nform=0,0\nmain=20\n";
    (String::from(lines) + &"new=0\n".repeat(20)).into_bytes()
}

#[test]
fn an_empty_list_answers_the_empty_set() {
    for (text, budget) in [(CLERK, 0), (CLERK, 8), (LOOP, 66), (&makers(), 18)] {
        assert_eq!(joined(text, budget, &[]), []);
    }
    // The sheet is judged all the same.
    assert_eq!(refused(b"", 8, &[]), (3, 1));
    assert_eq!(refused(&with_line(CLERK, 19, "new=2,0"), 8, &[]), (10, 19));
}

#[test]
fn sets_that_overlap_are_joined_ascending() {
    let text = makers();
    assert_eq!(verdict(&text), (0, 0));
    assert_eq!(joined(&text, 6, &[4, 5]), [1, 2, 3, 4, 5]);
    // The first maker's argument counts while its frame is there.
    assert_eq!(joined(&text, 6, &[4]), [2, 3, 4]);
    assert_eq!(joined(&text, 7, &[4]), [1, 2, 3, 4]);
    // Main names its first item and the makers that it still calls.
    assert_eq!(joined(&text, 6, &[256, 4]), [1, 2, 3, 4, 5]);
    assert_eq!(joined(&text, 12, &[256, 4]), [1, 3, 4, 5, 6]);
    assert_eq!(joined(&text, 18, &[4]), [3, 4, 6]);
    assert_eq!(joined(&text, 18, &[5]), [2, 5, 7]);
    assert_eq!(joined(&text, 18, &[4, 5]), [2, 3, 4, 5, 6, 7]);
    assert_eq!(joined(&text, 18, &[5, 7]), [2, 5, 7]);
    assert_eq!(joined(&text, 18, &[7, 3]), [3, 7]);
    assert_eq!(joined(&text, 18, &[256, 6]), [1, 6]);
}

#[test]
fn a_group_of_one_has_its_members_authority() {
    for text in [CLERK, LOOP, &makers()] {
        for budget in 0..=18 {
            for holder in (0..=258).chain([65_535, 65_536 + 256, u32::MAX]) {
                let alone = group(text, budget, &[holder]);
                assert_eq!(alone, authority(text, budget, holder), "{budget}, {holder}");
            }
        }
    }
}

#[test]
fn the_order_has_no_influence() {
    let text = makers();
    for budget in [6, 10, 15, 18] {
        let mut list = [256, 5, 1, 4];
        let expected = joined(&text, budget, &list);
        for _ in 0..list.len() {
            list.rotate_left(1);
            assert_eq!(joined(&text, budget, &list), expected, "{list:?}");
            list.reverse();
            assert_eq!(joined(&text, budget, &list), expected, "{list:?}");
            list.reverse();
        }
    }
}

#[test]
fn a_holder_named_twice_counts_once() {
    let text = makers();
    assert_eq!(joined(&text, 18, &[4, 4]), [3, 4, 6]);
    assert_eq!(joined(&text, 18, &[4, 7, 4, 7, 7]), [3, 4, 6, 7]);
    assert_eq!(joined(&text, 18, &[5; 16]), [2, 5, 7]);
}

#[test]
fn sixteen_are_listed_at_most_repeats_included() {
    assert_eq!(GROUP_LIMIT, 16);
    let text = makers();
    assert_eq!(joined(&text, 18, &[256; 16]), [1]);
    assert_eq!(refused(&text, 18, &[256; 17]), (11, 0));
    let turns: Vec<u32> = [4, 5, 7].into_iter().cycle().take(17).collect();
    assert_eq!(joined(&text, 18, &turns[..16]), [2, 3, 4, 5, 6, 7]);
    assert_eq!(refused(&text, 18, &turns), (11, 0));
    // Holders that are all different.
    let all: Vec<u32> = (0..20).collect();
    assert_eq!(joined(&shelf(), 20, &all[4..]), Vec::from_iter(4..20));
    assert_eq!(refused(&shelf(), 20, &all[3..]), (11, 0));
    assert_eq!(refused(&shelf(), 20, &all), (11, 0));
}

#[test]
fn one_member_that_is_no_holder_is_enough() {
    let text = makers();
    let good = [4, 256, 5];
    assert_eq!(joined(&text, 18, &good), [1, 2, 3, 4, 5, 6, 7]);
    // A pure one, missing ones, and numbers over 256.
    for stranger in [0, 8, 255, 257, 65_535, 65_536 + 4, 65_536 + 256, u32::MAX] {
        for place in 0..=good.len() {
            let mut list = good.to_vec();
            list.insert(place, stranger);
            assert_eq!(refused(&text, 18, &list), (11, 0), "{list:?}");
        }
    }
}

#[test]
fn the_sheets_refusals_come_first() {
    let long = vec![b'7'; 65_536];
    let lists: [&[u32]; 4] = [&[0], &[257], &[256; 17], &[257; 17]];
    for list in lists {
        assert_eq!(refused(CLERK, 8, list), (11, 0));
        assert_eq!(refused(&long, 8, list), (2, 0));
        assert_eq!(refused(&CLERK[..CLERK.len() - 1], 8, list), (3, 20));
        for (place, line, expected) in [
            (1, "types=65", (4, 1)),
            (6, "def=1,0,0", (6, 6)),
            (20, "call=4,2,0", (7, 20)),
            (5, "type=0,1", (8, 13)),
            (20, "call=2,3,0", (9, 20)),
            (19, "new=2,0", (10, 19)),
        ] {
            assert_eq!(refused(&with_line(CLERK, place, line), 8, list), expected);
        }
    }
}

#[test]
fn the_run_decides_who_is_there() {
    assert_eq!(refused(CLERK, 2, &[256, 1, 2]), (11, 0));
    assert_eq!(joined(CLERK, 3, &[256, 1, 2]), [1, 2]);
    let text = makers();
    for (made, object) in [(2, 1), (5, 4), (6, 5), (9, 6), (15, 7)] {
        assert_eq!(refused(&text, made - 1, &[256, object]), (11, 0));
        assert!(joined(&text, made, &[256, object]).contains(&(object as u16)));
    }
    // A run that is stopped has its holders too.
    assert_eq!(joined(LOOP, u32::MAX, &[1, 256]), [1]);
    assert_eq!(refused(LOOP, u32::MAX, &[1, 256, 2]), (11, 0));
}
