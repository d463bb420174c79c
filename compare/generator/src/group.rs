//! Lists of holders for the group question.

use crate::rng::Rng;
use second::{GROUP_LIMIT, MAIN};

/// The longest lists have more numbers than a group may list.
const LONGEST: usize = GROUP_LIMIT + 2;
/// Keeps the lists of a seed apart from its sheets.
const APART: u64 = 0x6772_6F75_7073;

/// A list of 0 to 18 numbers for a state with `objects` objects; the seed
/// and the index decide it. Which objects are pure is not known here: most
/// lists repeat a few numbers, so that many are answered.
pub fn group(seed: u64, index: u64, objects: u16) -> Vec<u32> {
    let mut rng = Rng::new(seed ^ APART, index);
    let objects = usize::from(objects);
    let length = match rng.chance(30) {
        true => rng.between(1, 4),
        false => rng.between(0, LONGEST),
    };
    let numbers = members(&mut rng, objects);
    let mut list = draw(&mut rng, &numbers, length);
    if length > 0 && rng.chance(15) {
        list[rng.below(length)] = stranger(&mut rng, objects);
    }
    list.into_iter().map(|number| number as u32).collect()
}

/// The numbers that a list is made of: main, an object, both, neighbours,
/// a few with main, or all.
fn members(rng: &mut Rng, objects: usize) -> Vec<usize> {
    let main = usize::from(MAIN);
    if objects == 0 {
        return vec![main];
    }
    let one = rng.below(objects);
    match rng.below(12) {
        0..=2 => vec![main],
        3..=4 => vec![one],
        5..=7 => vec![main, one],
        8..=9 => (one..objects.min(one + rng.between(2, 4))).collect(),
        10 => vec![main, one, rng.below(objects), rng.below(objects)],
        _ => (0..objects).chain([main]).collect(),
    }
}

/// As many of the numbers as asked for, at random or in turn.
fn draw(rng: &mut Rng, numbers: &[usize], length: usize) -> Vec<usize> {
    if rng.chance(50) {
        return (0..length).map(|_| rng.pick(numbers)).collect();
    }
    let first = rng.below(numbers.len());
    let turns = numbers.iter().cycle().skip(first);
    turns.take(length).copied().collect()
}

/// A number that is no holder: an object that is not there, or over 256.
fn stranger(rng: &mut Rng, objects: usize) -> usize {
    let main = usize::from(MAIN);
    let over = rng.between(main + 1, 65_535);
    let mut numbers = vec![main + 1, 65_535, over];
    if objects < main {
        numbers.extend([objects, objects, rng.between(objects, main - 1)]);
    }
    rng.pick(&numbers)
}
