//! The authority question against the second program.

use crate::common::{budget_for, draw, is_left_clean, is_written, noise};
use crate::refused::{held_of, NONE};
use boundary::{authority, four, AuthorityResult, AUTHORITY, WORK};
use second::authority::authority_of;
use second::machine::Machine;
use second::{Reason, Refusal};

/// The buffers at entry; some are longer than they need be.
struct Entry {
    work: Vec<u16>,
    result: Vec<u16>,
}

impl Entry {
    fn of(seed: u64) -> Entry {
        let more = draw(seed) as usize % 3;
        Entry {
            work: noise(seed, WORK + more * 7),
            result: noise(!seed, AUTHORITY + (seed as usize % 4) * 11),
        }
    }
}

/// How many answers there were of each kind: refusals by number (0 where
/// there was none), and by how much is held.
#[derive(Default)]
struct Seen {
    refusals: [u32; 15],
    empty: u32,
    one: u32,
    more: u32,
    /// More than an object's own number, kept values and fields can be.
    many: u32,
}

impl Seen {
    fn count(&mut self, answer: AuthorityResult) {
        self.refusals[answer.refusal as usize] += 1;
        match answer.count {
            _ if answer.refusal != 0 => {}
            0 => self.empty += 1,
            1 => self.one += 1,
            2..=17 => self.more += 1,
            _ => self.many += 1,
        }
    }

    /// Asks, compares, and looks at every number of both buffers afterwards.
    fn compare(
        &mut self,
        (text, budget, holder): (&[u8], u32, usize),
        wanted: Result<Vec<u16>, Refusal>,
        entry: &Entry,
        name: &str,
    ) {
        let name = format!("{name}, budget {budget}, holder {holder}");
        let (mut work, mut result) = (entry.work.clone(), entry.result.clone());
        let answer = authority(text, budget, holder, &mut work, &mut result);
        let held = wanted.clone().unwrap_or_default();
        let wanted = AuthorityResult {
            count: held.len() as u32,
            ..held_of(wanted.err().map_or(NONE, four))
        };
        assert_eq!(answer, wanted, "{name}");
        is_written(&result, &entry.result, &held, &name);
        is_left_clean(&work, &entry.work, &name);
        self.count(answer);
    }

    /// A sheet at two budgets: every holder of an accepted one.
    fn compare_sheet(&mut self, text: &[u8], seed: u64, name: &str) {
        let entry = Entry::of(seed);
        for seed in [2 * seed, 2 * seed + 1] {
            match second::verdict(text) {
                Ok(()) => self.compare_holders(text, seed, &entry, name),
                Err(refusal) => {
                    let holder = [0, 256, 257, usize::MAX][draw(seed) as usize % 4];
                    let asked = (text, draw(!seed) as u32, holder);
                    self.compare(asked, Err(refusal), &entry, name);
                }
            }
        }
    }

    /// Main, every object, and numbers that are no holder's.
    fn compare_holders(&mut self, text: &[u8], seed: u64, entry: &Entry, name: &str) {
        let sheet = second::read(text).expect("an accepted sheet");
        let budget = budget_for(&sheet, seed);
        let mut machine = Machine::start(&sheet);
        machine.run(budget);
        let objects = machine.objects.len();
        // Some of them are a holder's in their lower 16 or 32 bits.
        let wrong = [objects, 255, 257, 65_535, 65_536, 65_792, usize::MAX];
        let wide = [1 << 32, (1 << 32) + 256].map(|holder: u64| holder as usize);
        for holder in (0..objects).chain([256]).chain(wrong).chain(wide) {
            let held = u32::try_from(holder).map(|holder| authority_of(&machine, holder));
            let wanted = held.ok().flatten().ok_or(Refusal::at(Reason::NoHolder, 0));
            self.compare((text, budget, holder), wanted, entry, name);
        }
        // The second program's own question, from the text.
        let holder = draw(seed) as u32 % 257;
        let wanted = second::authority(text, budget, holder);
        self.compare((text, budget, holder as usize), wanted, entry, name);
    }
}

#[test]
fn the_authority_agrees_on_3000_sheets() {
    let mut seen = Seen::default();
    for index in 0..3_000 {
        let text = generator::sheet(61, index);
        seen.compare_sheet(&text, index + 1, &format!("sheet {index}"));
    }
    for number in [0, 2, 3, 4, 5, 6, 7, 8, 9, 10, 11, 14] {
        assert!(seen.refusals[number] > 0, "{number} was never the answer");
    }
    assert!(seen.refusals[11] > 20_000, "{} refused", seen.refusals[11]);
    assert!(seen.empty > 500, "{} empty", seen.empty);
    assert!(seen.one > 10_000, "{} of one", seen.one);
    assert!(seen.more > 5_000, "{} of more", seen.more);
    assert!(seen.many > 15, "{} of many", seen.many);
}

#[test]
fn the_authority_agrees_on_600_mills() {
    let mut seen = Seen::default();
    for index in 0..600 {
        let text = generator::mill(62, index);
        seen.compare_sheet(&text, index + 1, &format!("mill {index}"));
    }
    assert!(seen.refusals[11] > 5_000, "{} refused", seen.refusals[11]);
    assert!(seen.empty > 50, "{} empty", seen.empty);
    assert!(seen.more > 5_000, "{} of more", seen.more);
    assert!(seen.many > 5, "{} of many", seen.many);
}

/// Sheets with devices, which main hands on or keeps.
#[test]
fn the_authority_agrees_on_400_sheets_with_devices() {
    let mut seen = Seen::default();
    for index in 0..400 {
        let text = generator::device(64, index);
        seen.compare_sheet(&text, index + 1, &format!("sheet {index} with devices"));
    }
    assert!(seen.refusals[0] > 2_000, "{} answered", seen.refusals[0]);
    assert!(seen.empty > 50, "{} empty", seen.empty);
    assert!(seen.one > 1_000, "{} of one", seen.one);
    assert!(seen.more > 1_000, "{} of more", seen.more);
}

/// Sheets whose slots and kept values are often named by nothing.
#[test]
fn the_authority_agrees_on_400_idle_sheets() {
    let mut seen = Seen::default();
    for index in 0..400 {
        let text = generator::idle(63, index);
        seen.compare_sheet(&text, index + 1, &format!("idle sheet {index}"));
    }
    assert!(seen.refusals[11] > 2_000, "{} refused", seen.refusals[11]);
    assert!(seen.empty > 50, "{} empty", seen.empty);
    assert!(seen.one > 2_000, "{} of one", seen.one);
    assert!(seen.more > 2_000, "{} of more", seen.more);
}
