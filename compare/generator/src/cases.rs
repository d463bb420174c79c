//! Cases of misfit: which values of a line do not fit, and for what cause.

use crate::walk::{Passing, Place, Value};
use second::fit::FitTable;
use second::sheet::{Kind, Member, Row, NAME_LIMIT};
use second::Lack;
use std::cmp::Ordering;

/// A case of misfit. A line mostly has several of them.
#[derive(Clone, Copy, Debug, PartialEq, Eq)]
pub enum Case {
    TooFew,
    TooMany,
    TooFewAndSlot,
    TooManyAndSlot,
    CountAndResult,
    FirstSlotKind,
    FirstSlotMember,
    LaterSlotKind,
    LaterSlotMember,
    ArgumentKind,
    ArgumentMember,
    PutKind,
    PutMember,
    ResultKind,
    ResultMember,
    InitKind,
    InitMember,
    TwoSlots,
    SlotAndResult,
    ArgumentAndResult,
    PutAndResult,
    KindThenMember,
    MemberThenKind,
    LowerThenHigher,
    HigherThenLower,
    KindAndMember,
    SeveralMembers,
    NoName,
    WrongArgument,
    WrongResult,
    OtherField,
    MethodForField,
    FieldForMethod,
    FirstName,
    LastName,
}

/// Whether a case can be the only misfit of its line, and one of several.
type Company = [bool; 2];
const ALONE: Company = [true, false];
const EITHER: Company = [true, true];
const SEVERAL: Company = [false, true];

/// Every case in the order of their numbers, with its name.
pub const CASES: [(Case, &str, Company); 35] = [
    (Case::TooFew, "too few slots", EITHER),
    (Case::TooMany, "too many slots", EITHER),
    (Case::TooFewAndSlot, "too few slots and a slot", SEVERAL),
    (Case::TooManyAndSlot, "too many slots and a slot", SEVERAL),
    (Case::CountAndResult, "count and result", SEVERAL),
    (Case::FirstSlotKind, "first slot, kind", EITHER),
    (Case::FirstSlotMember, "first slot, member", EITHER),
    (Case::LaterSlotKind, "later slot, kind", EITHER),
    (Case::LaterSlotMember, "later slot, member", EITHER),
    (Case::ArgumentKind, "argument, kind", EITHER),
    (Case::ArgumentMember, "argument, member", EITHER),
    (Case::PutKind, "put, kind", EITHER),
    (Case::PutMember, "put, member", EITHER),
    (Case::ResultKind, "result alone, kind", ALONE),
    (Case::ResultMember, "result alone, member", ALONE),
    (Case::InitKind, "init, kind", ALONE),
    (Case::InitMember, "init, member", ALONE),
    // These lack different things.
    (Case::TwoSlots, "first and second slot", SEVERAL),
    (Case::SlotAndResult, "slot and result", SEVERAL),
    (Case::ArgumentAndResult, "argument and result", SEVERAL),
    (Case::PutAndResult, "put and result", SEVERAL),
    // What the first lacks, then what a later one does.
    (Case::KindThenMember, "kind before a member", SEVERAL),
    (Case::MemberThenKind, "member before kind", SEVERAL),
    (Case::LowerThenHigher, "lower name before higher", SEVERAL),
    (Case::HigherThenLower, "higher name before lower", SEVERAL),
    // Causes, of the first misfit alone.
    (Case::KindAndMember, "kind with a member missing", EITHER),
    (Case::SeveralMembers, "several members missing", EITHER),
    (Case::NoName, "no such name", EITHER),
    (Case::WrongArgument, "method's argument", EITHER),
    (Case::WrongResult, "method's result", EITHER),
    (Case::OtherField, "field of another row", EITHER),
    (Case::MethodForField, "method for a field", EITHER),
    (Case::FieldForMethod, "field for a method", EITHER),
    (Case::FirstName, "name 0", EITHER),
    (Case::LastName, "name 63", EITHER),
];

/// The cases that tell of a pair of rows alone: the last of all.
pub const CAUSES: usize = 10;

/// A value that does not fit, and what it lacks.
type Wrong = (Value, Lack);

/// The cases of a line, none if everything fits, and whether it has several
/// misfits.
pub fn cases(rows: &[Row], fit: &FitTable, passing: &Passing) -> (Vec<Case>, bool) {
    let lack = |value: &Value| fit.answer(value.given, value.asked).lack();
    let wrong: Vec<Wrong> = passing
        .values
        .iter()
        .filter_map(|value| Some((*value, lack(value)?)))
        .collect();
    let counted = usize::from(passing.count != Ordering::Equal);
    let cases = match wrong.first() {
        _ if counted > 0 => of_count(passing.count, &wrong),
        Some((first, _)) => {
            let causes = causes(rows, fit, first.given, first.asked);
            [of_places(&wrong), of_order(&wrong), causes].concat()
        }
        None => Vec::new(),
    };
    (cases, wrong.len() + counted > 1)
}

fn of_count(count: Ordering, wrong: &[Wrong]) -> Vec<Case> {
    let (alone, and_slot) = match count {
        Ordering::Less => (Case::TooFew, Case::TooFewAndSlot),
        _ => (Case::TooMany, Case::TooManyAndSlot),
    };
    let mut cases = vec![alone];
    // Of a `new` line, what is no slot is the result.
    let is_result = |wrong: &&Wrong| wrong.0.place == Place::Result;
    let results = wrong.iter().filter(is_result).count();
    if results < wrong.len() {
        cases.push(and_slot);
    }
    if results > 0 {
        cases.push(Case::CountAndResult);
    }
    cases
}

/// Where the first misfit is, and where others are that lack other things.
fn of_places(wrong: &[Wrong]) -> Vec<Case> {
    let (first, lack) = wrong[0];
    let (kind, member) = match first.place {
        Place::Kept(0) => (Case::FirstSlotKind, Case::FirstSlotMember),
        Place::Kept(_) => (Case::LaterSlotKind, Case::LaterSlotMember),
        Place::Argument => (Case::ArgumentKind, Case::ArgumentMember),
        Place::Field => (Case::PutKind, Case::PutMember),
        Place::Result => (Case::ResultKind, Case::ResultMember),
        Place::Start => (Case::InitKind, Case::InitMember),
    };
    let mut cases = vec![if lack == Lack::Kind { kind } else { member }];
    for (other, _) in wrong.iter().filter(|wrong| wrong.1 != lack) {
        cases.extend(match (first.place, other.place) {
            (Place::Kept(0), Place::Kept(1)) => Some(Case::TwoSlots),
            (Place::Kept(_), Place::Result) => Some(Case::SlotAndResult),
            (Place::Argument, Place::Result) => Some(Case::ArgumentAndResult),
            (Place::Field, Place::Result) => Some(Case::PutAndResult),
            _ => None,
        });
    }
    cases
}

/// What the first misfit lacks against the next that lacks another thing.
fn of_order(wrong: &[Wrong]) -> Vec<Case> {
    let lack = wrong[0].1;
    let other = wrong.iter().find(|wrong| wrong.1 != lack);
    let case = other.map(|other| match (lack, other.1) {
        (Lack::Member(_), Lack::Kind) => Case::MemberThenKind,
        (Lack::Member(first), Lack::Member(other)) if first < other => Case::LowerThenHigher,
        (Lack::Member(_), _) => Case::HigherThenLower,
        _ => Case::KindThenMember,
    });
    case.into_iter().collect()
}

/// Why row a does not fit row b; empty if it does.
pub fn causes(rows: &[Row], fit: &FitTable, a: u16, b: u16) -> Vec<Case> {
    let (given, asked) = (&rows[usize::from(a)], &rows[usize::from(b)]);
    let faults = asked.members.iter().map(|member| {
        let faults = faults(fit, given, member);
        (member.name, faults)
    });
    let mut unmatched = faults.filter(|(_, faults)| !faults.is_empty());
    let first = unmatched.next();
    let several = unmatched.next().is_some();
    let Some((name, mut cases)) = first else {
        return Vec::new();
    };
    if fit.answer(a, b).lack() == Some(Lack::Kind) {
        return vec![Case::KindAndMember];
    }
    cases.extend(several.then_some(Case::SeveralMembers));
    cases.extend((name == 0).then_some(Case::FirstName));
    cases.extend((name == NAME_LIMIT).then_some(Case::LastName));
    cases
}

/// Why a row has no match for a member; empty if it has one.
fn faults(fit: &FitTable, given: &Row, asked: &Member) -> Vec<Case> {
    let own = given.members.iter().find(|own| own.name == asked.name);
    let Some(own) = own else {
        return vec![Case::NoName];
    };
    match (own.kind, asked.kind) {
        (Kind::Method { .. }, Kind::Field { .. }) => vec![Case::MethodForField],
        (Kind::Field { .. }, Kind::Method { .. }) => vec![Case::FieldForMethod],
        (Kind::Field { row: own }, Kind::Field { row: asked }) => {
            let other = (own != asked).then_some(Case::OtherField);
            other.into_iter().collect()
        }
        (
            Kind::Method { argument, result },
            Kind::Method {
                argument: given,
                result: wanted,
            },
        ) => {
            let takes = (!fit.fits(given, argument)).then_some(Case::WrongArgument);
            let gives = (!fit.fits(result, wanted)).then_some(Case::WrongResult);
            takes.into_iter().chain(gives).collect()
        }
    }
}
