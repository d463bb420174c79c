//! The members of row a that are passed: each case is reached, and what is
//! told is what a walk along both rows passes.

use generator::passing::{cases, counts, Case, CASES};
use generator::{sheet, wide};
use second::fit::FitTable;
use second::sheet::{Kind, Member, Row};
use second::{FitAnswer, FitTold};

/// The rows of the first sheets of a seed that can be read.
fn readable(make: fn(u64, u64) -> Vec<u8>, seed: u64, count: usize) -> Vec<Vec<Row>> {
    let sheets = (0..).filter_map(|index| second::read(&make(seed, index)).ok());
    sheets.take(count).map(|sheet| sheet.rows).collect()
}

/// Every pair of numbers below the limit.
fn all_pairs(count: usize) -> impl Iterator<Item = (u16, u16)> {
    let count = count as u16;
    (0..count).flat_map(move |a| (0..count).map(move |b| (a, b)))
}

/// How many of all pairs are of each case.
fn reached(all: &[Vec<Row>]) -> [u64; CASES.len()] {
    let mut sums = [0; CASES.len()];
    for rows in all {
        for (sum, count) in sums.iter_mut().zip(counts(rows)) {
            *sum += count;
        }
    }
    sums
}

/// Rows 0 pure empty, 1 resource empty, then as they stand; the last three
/// have eight members.
const SMALL: &str = "\
    types=11 / type=0,0 / type=1,0 / type=1,2 / def=2,0,0 / def=6,0,0 / \
    type=1,5 / def=1,0,0 / def=2,0,0 / def=4,0,0 / def=6,0,0 / def=8,0,0 / \
    type=1,2 / def=2,0,0 / def=9,0,0 / type=1,2 / var=2,0 / def=6,0,0 / \
    type=1,2 / var=2,1 / def=6,0,0 / type=1,2 / def=2,0,0 / def=6,1,1 / \
    type=0,8 / def=0,0,0 / def=1,0,0 / def=2,0,0 / def=3,0,0 / \
    def=4,0,0 / def=5,0,0 / def=6,0,0 / def=7,0,0 / \
    type=1,8 / def=0,0,0 / def=1,0,0 / def=2,0,0 / def=3,0,0 / \
    def=4,0,0 / def=5,0,0 / def=6,0,0 / def=7,0,0 / \
    type=1,8 / def=1,0,0 / def=2,0,0 / def=3,0,0 / def=4,0,0 / \
    def=5,0,0 / def=6,0,0 / def=7,0,0 / def=8,0,0 / forms=0 / main=1 / get=0 / ";

/// Pairs of these rows, with the names of their cases.
const SMALL_PAIRS: [(u16, u16, &[&str]); 18] = [
    (0, 0, &["a and b empty"]),
    (1, 0, &["a and b empty"]),
    (0, 2, &["a empty, b has members"]),
    (2, 1, &["b empty, a has members"]),
    (2, 0, &["b empty, a has members", "kind, a has members"]),
    (2, 3, &["name before a's first"]),
    (4, 2, &["name between a's names"]),
    (2, 4, &["name beyond a's last"]),
    (5, 2, &["mismatch before a's last", "field for a method"]),
    (2, 5, &["mismatch before a's last", "method for a field"]),
    (6, 5, &["mismatch before a's last", "field of another row"]),
    (2, 7, &["mismatch at a's last", "method's argument"]),
    (7, 2, &["mismatch at a's last", "method's result"]),
    (2, 2, &["yes, all of a passed"]),
    (
        3,
        2,
        &[
            "yes, members of a above b's last",
            "yes, members of a below b's first",
            "yes, others of a between b's names",
        ],
    ),
    (9, 8, &["kind, a has members", "8 members in both, kind"]),
    (8, 10, &["name beyond a's last", "8 members in both, name"]),
    (8, 9, &["yes, all of a passed", "8 members in both, yes"]),
];

#[test]
fn small_pairs_have_their_cases() {
    let text = SMALL.replace(" / ", "\n").into_bytes();
    let rows = second::read(&text).expect("a sheet that reads").rows;
    let fit = FitTable::of(&rows);
    let mut found = [false; CASES.len()];
    for (a, b, expected) in SMALL_PAIRS {
        let cases = cases(&rows, &fit, a, b);
        let names = cases.iter().map(|case| CASES[*case as usize]);
        assert_eq!(Vec::from_iter(names), expected, "{a}, {b}");
        for case in cases {
            found[case as usize] = true;
        }
    }
    assert_eq!(found, [true; CASES.len()]);
}

/// The wide sheets alone reach every case, on every seed.
#[test]
fn wide_sheets_reach_each_case() {
    for seed in [1, 2, 3] {
        let sums = reached(&readable(wide, seed, 100));
        for (name, count) in CASES.iter().zip(sums) {
            assert!(count >= 100, "seed {seed}: {count} times {name}");
        }
    }
}

/// The rotation reaches all but eight members on kind.
#[test]
fn the_rotation_reaches_most_cases() {
    let sums = reached(&readable(sheet, 1, 300));
    for (number, (name, count)) in CASES.iter().zip(sums).enumerate() {
        let rare = number == Case::EightKind as usize;
        assert!(rare || count >= 100, "{count} times {name}");
    }
}

/// Every number of members is passed on yes and on a name, and on kind none.
#[test]
fn every_number_is_passed() {
    let mut passed = [[0; 9]; 3];
    let all = [readable(sheet, 4, 300), readable(wide, 4, 60)].concat();
    for rows in all {
        let fit = FitTable::of(&rows);
        for (a, b) in all_pairs(rows.len()) {
            let told = fit.told(&rows, a, b);
            let answer = told
                .answer
                .lack()
                .map_or(0, |lack| lack.number() as usize - 1);
            passed[answer][told.passed as usize] += 1;
        }
    }
    let [yes, kind, name] = passed;
    assert!(
        yes.iter().chain(&name).all(|count| *count >= 100),
        "{passed:?}"
    );
    assert!(kind[0] >= 100 && kind[1..] == [0; 8], "{passed:?}");
}

/// What a walk along both rows tells, and its turns. Each turn looks at the
/// first member of either that is not yet passed.
fn walk(fit: &FitTable, a: &Row, b: &Row) -> (FitTold, usize) {
    let told = |answer, passed| FitTold { answer, passed };
    if a.resource && !b.resource {
        return (told(FitAnswer::Kind, 0), 0);
    }
    let (mut own, mut asked) = (a.members.iter().peekable(), b.members.iter().peekable());
    let (mut passed, mut turns) = (0, 0);
    while let Some(wanted) = asked.peek() {
        turns += 1;
        let Some(next) = own.next_if(|next| next.name <= wanted.name) else {
            return (told(FitAnswer::Member(wanted.name), passed), turns);
        };
        passed += 1;
        if next.name < wanted.name {
            continue;
        }
        if !is_match(fit, next, wanted) {
            return (told(FitAnswer::Member(wanted.name), passed), turns);
        }
        asked.next();
    }
    (told(FitAnswer::Yes, passed), turns)
}

fn is_match(fit: &FitTable, own: &Member, wanted: &Member) -> bool {
    match (own.kind, wanted.kind) {
        (Kind::Field { row: own }, Kind::Field { row: wanted }) => own == wanted,
        (
            Kind::Method { argument, result },
            Kind::Method {
                argument: given,
                result: asked,
            },
        ) => fit.fits(given, argument) && fit.fits(result, asked),
        _ => false,
    }
}

#[test]
fn what_is_told_is_what_a_walk_passes() {
    for rows in [readable(sheet, 5, 300), readable(wide, 5, 60)].concat() {
        let fit = FitTable::of(&rows);
        for (a, b) in all_pairs(rows.len()) {
            let (own, asked) = (&rows[usize::from(a)], &rows[usize::from(b)]);
            let (told, turns) = walk(&fit, own, asked);
            assert_eq!(fit.told(&rows, a, b), told, "{own:?}, {asked:?}");
            assert!(turns <= own.members.len() + asked.members.len());
        }
    }
}

/// Whether a case allows this number, with the members that both rows have.
fn allows(case: Case, passed: usize, own: usize, asked: usize) -> bool {
    match case {
        Case::KindWithMembers | Case::EightKind => passed == 0,
        Case::BothEmpty | Case::OnlyAEmpty | Case::OnlyBEmpty => passed == 0,
        Case::BeforeFirst => passed == 0,
        Case::Between | Case::MismatchBeforeLast => passed > 0 && passed < own,
        Case::BeyondLast | Case::MismatchAtLast | Case::YesAll => passed == own,
        Case::YesAbove => passed >= asked && passed < own,
        Case::YesBelow | Case::YesBetween => passed > asked,
        Case::EightYes => passed == 8,
        Case::FieldForMethod | Case::MethodForField | Case::OtherField => passed > 0,
        Case::WrongArgument | Case::WrongResult => passed > 0,
        Case::EightName => passed <= 8,
    }
}

#[test]
fn each_case_has_its_numbers() {
    for rows in [readable(sheet, 6, 200), readable(wide, 6, 40)].concat() {
        let fit = FitTable::of(&rows);
        for (a, b) in all_pairs(rows.len()) {
            let count = |row: u16| rows[usize::from(row)].members.len();
            let passed = fit.told(&rows, a, b).passed as usize;
            let cases = cases(&rows, &fit, a, b);
            assert!(!cases.is_empty(), "{a}, {b} are of no case");
            for case in cases {
                let right = allows(case, passed, count(a), count(b));
                assert!(right, "{case:?}: {passed} of {}, {}", count(a), count(b));
            }
        }
    }
}
