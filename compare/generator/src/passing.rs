//! Cases of the fit question by the members of row a that are passed: what
//! ends the walk, and where the members of row a stand then.

use crate::cases::{causes, Case as Cause};
use second::fit::FitTable;
use second::sheet::{Row, MEMBER_LIMIT};
use second::FitAnswer;

/// A case of a pair of rows. Most pairs are of several.
#[derive(Clone, Copy, Debug, PartialEq, Eq)]
pub enum Case {
    BothEmpty,
    OnlyAEmpty,
    OnlyBEmpty,
    KindWithMembers,
    BeforeFirst,
    Between,
    BeyondLast,
    MismatchBeforeLast,
    MismatchAtLast,
    FieldForMethod,
    MethodForField,
    OtherField,
    WrongArgument,
    WrongResult,
    YesAll,
    YesAbove,
    YesBelow,
    YesBetween,
    EightKind,
    EightName,
    EightYes,
}

/// The names of the cases, in the order of their numbers.
pub const CASES: [&str; 21] = [
    "a and b empty",
    "a empty, b has members",
    "b empty, a has members",
    "kind, a has members",
    // Of the answered name, which a lacks.
    "name before a's first",
    "name between a's names",
    "name beyond a's last",
    // Of the answered name, which a has.
    "mismatch before a's last",
    "mismatch at a's last",
    "field for a method",
    "method for a field",
    "field of another row",
    "method's argument",
    "method's result",
    // On yes, with members in b.
    "yes, all of a passed",
    "yes, members of a above b's last",
    "yes, members of a below b's first",
    "yes, others of a between b's names",
    "8 members in both, kind",
    "8 members in both, name",
    "8 members in both, yes",
];

/// The cases of rows a and b, in the order of their numbers.
pub fn cases(rows: &[Row], fit: &FitTable, a: u16, b: u16) -> Vec<Case> {
    let own = names(&rows[usize::from(a)]);
    let asked = names(&rows[usize::from(b)]);
    let mut cases = of_empty(&own, &asked);
    let most = usize::from(MEMBER_LIMIT);
    let eight = own.len() == most && asked.len() == most;
    match fit.answer(a, b) {
        FitAnswer::Kind => {
            cases.extend((!own.is_empty()).then_some(Case::KindWithMembers));
            cases.extend(eight.then_some(Case::EightKind));
        }
        FitAnswer::Member(name) => {
            let causes = causes(rows, fit, a, b);
            cases.extend(of_name(&own, name));
            cases.extend(causes.into_iter().filter_map(of_cause));
            cases.extend(eight.then_some(Case::EightName));
        }
        FitAnswer::Yes => {
            cases.extend(of_yes(&own, &asked));
            cases.extend(eight.then_some(Case::EightYes));
        }
    }
    cases
}

/// How many of all pairs of these rows are of each case.
pub fn counts(rows: &[Row]) -> [u64; CASES.len()] {
    let fit = FitTable::of(rows);
    let count = rows.len() as u16;
    let mut counts = [0; CASES.len()];
    for (a, b) in (0..count).flat_map(|a| (0..count).map(move |b| (a, b))) {
        for case in cases(rows, &fit, a, b) {
            counts[case as usize] += 1;
        }
    }
    counts
}

/// The names of a row's members, ascending.
fn names(row: &Row) -> Vec<u16> {
    row.members.iter().map(|member| member.name).collect()
}

fn of_empty(own: &[u16], asked: &[u16]) -> Vec<Case> {
    match (own.is_empty(), asked.is_empty()) {
        (true, true) => vec![Case::BothEmpty],
        (true, false) => vec![Case::OnlyAEmpty],
        (false, true) => vec![Case::OnlyBEmpty],
        (false, false) => Vec::new(),
    }
}

/// Where the answered name stands among the names of row a.
fn of_name(own: &[u16], name: u16) -> Option<Case> {
    let (first, last) = (own.first()?, own.last()?);
    Some(match own.contains(&name) {
        true if name < *last => Case::MismatchBeforeLast,
        true => Case::MismatchAtLast,
        false if name < *first => Case::BeforeFirst,
        false if name > *last => Case::BeyondLast,
        false => Case::Between,
    })
}

/// Why the member of the answered name is no match.
fn of_cause(cause: Cause) -> Option<Case> {
    match cause {
        Cause::FieldForMethod => Some(Case::FieldForMethod),
        Cause::MethodForField => Some(Case::MethodForField),
        Cause::OtherField => Some(Case::OtherField),
        Cause::WrongArgument => Some(Case::WrongArgument),
        Cause::WrongResult => Some(Case::WrongResult),
        _ => None,
    }
}

/// Where a row that fits has the members that are not asked for.
fn of_yes(own: &[u16], asked: &[u16]) -> Vec<Case> {
    let (Some(first), Some(last)) = (asked.first(), asked.last()) else {
        return Vec::new();
    };
    let is_between = |name: &u16| name > first && name < last && !asked.contains(name);
    let above = own.iter().any(|name| name > last);
    let below = own.iter().any(|name| name < first);
    let between = own.iter().any(is_between);
    let mut cases = vec![match above {
        true => Case::YesAbove,
        false => Case::YesAll,
    }];
    cases.extend(below.then_some(Case::YesBelow));
    cases.extend(between.then_some(Case::YesBetween));
    cases
}
