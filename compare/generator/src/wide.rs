//! Wide sheets: rows of 5 to 8 members over two empty ones, most of them
//! made from an earlier row by a small change.

use crate::draft::{line, Draft};
use crate::plan::write_rows;
use crate::rng::Rng;
use second::sheet::{Kind, Member, Row, MEMBER_LIMIT, NAME_LIMIT, ROW_LIMIT};

/// The fewest rows of a sheet, and the fewest members of a row that has any.
const ROWS: usize = 16;
const MEMBERS: usize = 5;
/// The rows without a member, one of each kind; they come first.
const EMPTY: usize = 2;
/// How far back the row stands from which a changed one is made, at most.
const BACK: usize = 3;
/// How many of a hundred members are fields.
const FIELDS: usize = 35;

/// A sheet of such rows, with the smallest forms and main that typing takes.
pub fn wide(rng: &mut Rng) -> Draft {
    let count = rng.between(ROWS, usize::from(ROW_LIMIT));
    let mut rows = [false, true].map(empty_row).to_vec();
    while rows.len() < count {
        let row = match rows.len() == EMPTY || rng.chance(15) {
            true => fresh_row(rng, rows.len()),
            false => changed_row(rng, &rows),
        };
        if !rows.contains(&row) {
            rows.push(row);
        }
    }
    let mut draft = write_rows(&rows);
    draft.extend([line("forms", &[1]), line("form", &[0, 0])]);
    draft.extend([line("main", &[1]), line("new", &[0])]);
    draft
}

fn empty_row(resource: bool) -> Row {
    Row {
        resource,
        members: Vec::new(),
    }
}

/// A row with names from a narrow stretch or from a wide one.
fn fresh_row(rng: &mut Rng, lower: usize) -> Row {
    let most = usize::from(MEMBER_LIMIT);
    let all = usize::from(NAME_LIMIT) + 1;
    let stretch = rng.pick(&[most, 12, 24, all]);
    let first = rng.between(0, all - stretch) as u16;
    let mut names = Vec::from_iter(first..first + stretch as u16);
    let any = rng.between(MEMBERS, most);
    let count = rng.pick(&[any, most]);
    while names.len() > count {
        names.remove(rng.below(names.len()));
    }
    let member = |name| Member {
        name,
        kind: any_kind(rng, lower),
    };
    let members = names.into_iter().map(member).collect();
    Row {
        resource: rng.chance(60),
        members,
    }
}

fn any_kind(rng: &mut Rng, lower: usize) -> Kind {
    match rng.chance(FIELDS) {
        true => any_field(rng, lower),
        false => any_method(rng, lower),
    }
}

fn any_field(rng: &mut Rng, lower: usize) -> Kind {
    Kind::Field {
        row: any_row(rng, lower),
    }
}

fn any_method(rng: &mut Rng, lower: usize) -> Kind {
    Kind::Method {
        argument: any_row(rng, lower),
        result: any_row(rng, lower),
    }
}

/// A lower row, often an empty one: few others fit each other.
fn any_row(rng: &mut Rng, lower: usize) -> u16 {
    let empty = rng.below(EMPTY);
    let any = rng.below(lower);
    rng.pick(&[empty, any]) as u16
}

/// An earlier row with a change, at times with two.
fn changed_row(rng: &mut Rng, rows: &[Row]) -> Row {
    let lowest = rows.len().saturating_sub(BACK).max(EMPTY);
    let mut row = rows[rng.between(lowest, rows.len() - 1)].clone();
    for _ in 0..rng.pick(&[1, 1, 1, 2]) {
        match rng.below(8) {
            0 => row.resource = !row.resource,
            1 | 2 => drop_members(rng, &mut row.members),
            3 | 4 => add_member(rng, &mut row.members, rows.len()),
            5 => rename_member(rng, &mut row.members),
            _ => change_member(rng, &mut row.members, rows.len()),
        }
    }
    row
}

/// Leaves a prefix, a suffix, or all but one.
fn drop_members(rng: &mut Rng, members: &mut Vec<Member>) {
    let all = members.len();
    if all == MEMBERS {
        return;
    }
    let count = rng.between(1, all - MEMBERS);
    let place = rng.below(all);
    let dropped = rng.pick(&[(all - count, all), (0, count), (place, place + 1)]);
    members.drain(dropped.0..dropped.1);
}

/// One member more: above the others, below them, or anywhere.
fn add_member(rng: &mut Rng, members: &mut Vec<Member>, lower: usize) {
    if members.len() == usize::from(MEMBER_LIMIT) {
        return;
    }
    let (first, last) = (members[0].name, members[members.len() - 1].name);
    let names = match rng.below(3) {
        0 => last + 1..NAME_LIMIT + 1,
        1 => 0..first,
        _ => 0..NAME_LIMIT + 1,
    };
    let is_free = |name: &u16| members.iter().all(|member| member.name != *name);
    let names: Vec<u16> = names.filter(is_free).collect();
    if let Some(name) = rng.try_pick(&names) {
        let kind = any_kind(rng, lower);
        members.push(Member { name, kind });
        members.sort_by_key(|member| member.name);
    }
}

/// Another name for one member, between those of its neighbours.
fn rename_member(rng: &mut Rng, members: &mut [Member]) {
    let place = rng.below(members.len());
    let low = match place {
        0 => 0,
        _ => members[place - 1].name + 1,
    };
    let high = match members.get(place + 1) {
        Some(next) => next.name - 1,
        None => NAME_LIMIT,
    };
    members[place].name = rng.between(usize::from(low), usize::from(high)) as u16;
}

/// Another row on one member, or a field for a method, or a method for a
/// field.
fn change_member(rng: &mut Rng, members: &mut [Member], lower: usize) {
    let place = rng.below(members.len());
    let kind = &mut members[place].kind;
    let other = rng.chance(25);
    match kind {
        Kind::Field { .. } if other => *kind = any_method(rng, lower),
        Kind::Method { .. } if other => *kind = any_field(rng, lower),
        Kind::Field { row } => *row = any_row(rng, lower),
        Kind::Method { argument, .. } if rng.chance(50) => *argument = any_row(rng, lower),
        Kind::Method { result, .. } => *result = any_row(rng, lower),
    }
}
