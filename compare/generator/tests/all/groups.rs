//! Lists of holders: of every length, of every kind of number, often enough
//! answered, and answered with what the members hold.

use generator::{group, mill, sheet};
use second::{authority, Reason, Refusal, GROUP_LIMIT};
use std::collections::BTreeSet;

#[test]
fn the_seed_and_the_index_decide_a_list() {
    let all = |seed, objects| Vec::from_iter((0..200).map(|index| group(seed, index, objects)));
    assert_eq!(all(5, 9), all(5, 9));
    assert_ne!(all(5, 9), all(6, 9));
    assert_ne!(all(5, 9), all(5, 10));
}

#[test]
fn lists_have_every_length_and_every_kind_of_number() {
    for objects in [0, 1, 2, 20, 255, 256] {
        let lists = Vec::from_iter((0..2_000).map(|index| group(3, index, objects)));
        for length in 0..=18 {
            let count = lists.iter().filter(|list| list.len() == length).count();
            assert!(count >= 40, "{count} lists have {length} numbers");
        }
        assert!(lists.iter().all(|list| list.len() <= 18));
        let numbers: BTreeSet<u32> = lists.concat().into_iter().collect();
        for number in (0..u32::from(objects)).chain([256, 257, 65_535]) {
            assert!(numbers.contains(&number), "no {number} of {objects}");
        }
        let missing = numbers.range(u32::from(objects)..256).count();
        assert_eq!(missing > 0, objects < 256);
        let is_over = |list: &&Vec<u32>| list.iter().any(|number| *number > 256);
        let over = lists.iter().filter(is_over).count();
        assert!((80..400).contains(&over), "{over} lists go over 256");
    }
}

/// Of the lists asked of accepted sheets: how many are answered, how many
/// are answered and name several holders, and how many are refused.
fn asked(make: fn(u64, u64) -> Vec<u8>, seed: u64, count: u64) -> [u32; 3] {
    let [mut answered, mut several, mut refused] = [0; 3];
    for index in 0..count {
        let text = make(seed, index);
        let Ok(run) = second::run(&text, 300) else {
            continue;
        };
        let list = group(seed, index, run.objects);
        match second::group(&text, 300, &list) {
            Ok(_) => {
                answered += 1;
                several += u32::from(BTreeSet::from_iter(list).len() > 1);
            }
            Err(refusal) => {
                assert_eq!((refusal.number(), refusal.line), (11, 0));
                refused += 1;
            }
        }
    }
    [answered, several, refused]
}

#[test]
fn both_answers_occur_often() {
    for seed in [1, 2, 3] {
        let [answered, several, refused] = asked(sheet, seed, 1_000);
        let all = answered + refused;
        assert!(answered * 3 > all, "{answered} of {all} are answered");
        assert!(refused * 3 > all, "{refused} of {all} are refused");
        assert!(several * 20 > all, "{several} of {all} are of several");
    }
    let [answered, several, refused] = asked(mill, 1, 300);
    assert!(answered > 200 && several > 80 && refused > 30);
}

/// What the members' own answers give when they are joined.
fn joined(text: &[u8], budget: u32, list: &[u32]) -> Result<Vec<u16>, Refusal> {
    second::verdict(text)?;
    if list.len() > GROUP_LIMIT {
        return Err(Refusal::at(Reason::NoHolder, 0));
    }
    let mut all = BTreeSet::new();
    for holder in list {
        all.extend(authority(text, budget, *holder)?);
    }
    Ok(all.into_iter().collect())
}

#[test]
fn a_group_holds_what_its_members_hold() {
    for index in 0..300 {
        for text in [sheet(16, index), mill(16, index)] {
            let objects = second::run(&text, 200).map_or(2, |run| run.objects);
            let list = group(16, index, objects);
            let answer = second::group(&text, 200, &list);
            assert_eq!(answer, joined(&text, 200, &list), "index {index}, {list:?}");
        }
    }
}
