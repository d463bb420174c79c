//! Misfits: each case is reached, and what is told of a misfit is what the
//! rules say, word for word.

use generator::cases::{Case, CASES};
use generator::report::report;
use generator::walk::{passings, Passing};
use generator::{readable, sheet, ROTATION};
use second::fit::FitTable;
use second::sheet::{Kind, Member, Row};
use second::{Lack, Sheet};
use std::cmp::Ordering;
use std::collections::BTreeMap;

#[test]
fn each_case_is_reached_alone_and_beside_others() {
    for seed in [1, 2, 3] {
        let misfits = report(seed, 3_000).misfits;
        for ((_, name, company), counts) in CASES.iter().zip(misfits.counts) {
            for (can_be, count) in company.iter().zip(counts) {
                let right = if *can_be { count >= 3 } else { count == 0 };
                assert!(right, "seed {seed}, {name}: {counts:?}");
            }
        }
    }
}

#[test]
fn the_cases_stand_in_the_order_of_their_numbers() {
    for (number, (case, ..)) in CASES.iter().enumerate() {
        assert_eq!(*case as usize, number);
    }
    assert_eq!(Case::LastName as usize + 1, CASES.len());
}

#[test]
fn the_last_two_kinds_are_misfits() {
    let mut others = 0;
    for round in 0..200 {
        for kind in [20, 21] {
            let text = sheet(4, round * ROTATION + kind);
            match second::verdict(&text) {
                Ok(()) => others += 1,
                Err(refusal) => assert_eq!(refusal.number(), 10),
            }
        }
    }
    assert!(others < 10, "{others} of 400 are well typed");
}

/// The fit rule as it is written, with each pair asked once.
struct Plain<'a> {
    rows: &'a [Row],
    known: BTreeMap<(u16, u16), Option<Lack>>,
}

impl Plain<'_> {
    fn of(rows: &[Row]) -> Plain<'_> {
        Plain {
            rows,
            known: BTreeMap::new(),
        }
    }

    /// What row a lacks to fit row b.
    fn lack(&mut self, a: u16, b: u16) -> Option<Lack> {
        if let Some(lack) = self.known.get(&(a, b)) {
            return *lack;
        }
        let (own, wanted) = (&self.rows[usize::from(a)], &self.rows[usize::from(b)]);
        let mut unmatched = Vec::new();
        for member in &wanted.members {
            if !own.members.iter().any(|own| self.is_match(own, member)) {
                unmatched.push(member.name);
            }
        }
        let lack = match unmatched.into_iter().min() {
            _ if own.resource && !wanted.resource => Some(Lack::Kind),
            name => name.map(Lack::Member),
        };
        self.known.insert((a, b), lack);
        lack
    }

    fn is_match(&mut self, own: &Member, wanted: &Member) -> bool {
        let right = match (own.kind, wanted.kind) {
            (Kind::Field { row: own }, Kind::Field { row: wanted }) => own == wanted,
            (
                Kind::Method { argument, result },
                Kind::Method {
                    argument: given,
                    result: asked,
                },
            ) => self.lack(given, argument).is_none() && self.lack(result, asked).is_none(),
            _ => false,
        };
        right && own.name == wanted.name
    }

    /// What is told of a line.
    fn told(&mut self, passing: &Passing) -> Option<Lack> {
        if passing.count != Ordering::Equal {
            return Some(Lack::Count);
        }
        let mut values = passing.values.iter();
        values.find_map(|value| self.lack(value.given, value.asked))
    }
}

#[test]
fn every_pair_of_rows_has_the_answer_of_the_rule() {
    let mut answers = [0; 3];
    for index in 0..1_000 {
        let Ok(Sheet { rows, .. }) = second::read(&sheet(18, index)) else {
            continue;
        };
        let (table, mut plain) = (FitTable::of(&rows), Plain::of(&rows));
        let count = rows.len() as u16;
        for (a, b) in (0..count).flat_map(|a| (0..count).map(move |b| (a, b))) {
            let lack = plain.lack(a, b);
            assert_eq!(table.answer(a, b).lack(), lack, "index {index}: {a}, {b}");
            assert_eq!(table.fits(a, b), lack.is_none());
            answers[lack.map_or(0, |lack| lack.number() as usize - 1)] += 1;
        }
    }
    assert!(answers.iter().all(|count| *count > 10_000), "{answers:?}");
}

/// The first line with a misfit and what is told of it.
fn first_misfit(sheet: &Sheet) -> Option<(u32, Lack)> {
    let mut plain = Plain::of(&sheet.rows);
    let passings = passings(sheet).into_iter();
    let misfits = passings.filter_map(|(line, passing)| Some((line, plain.told(&passing)?)));
    misfits.min_by_key(|(line, _)| *line)
}

#[test]
fn the_first_misfit_of_the_first_line_is_told() {
    let mut told = [0; 4];
    for index in 0..3_000 {
        for text in [sheet(19, index), readable(19, index)] {
            let Ok(sheet) = second::read(&text) else {
                continue;
            };
            let expected = first_misfit(&sheet);
            let refusal = match second::verdict(&text) {
                Ok(()) => {
                    assert_eq!(expected, None, "index {index}");
                    continue;
                }
                Err(refusal) => refusal,
            };
            match refusal.lack() {
                Some(lack) => assert_eq!(expected, Some((refusal.line, lack)), "index {index}"),
                // Another fault stands on an earlier line.
                None => assert!(expected.is_none_or(|(line, _)| line > refusal.line)),
            }
            told[refusal.lack().map_or(0, |lack| lack.number() as usize)] += 1;
        }
    }
    assert!(told.iter().all(|count| *count > 50), "{told:?}");
}
