//! Random type rows, many of them made from earlier ones so that they fit.

use crate::rng::Rng;
use crate::style::Style;
use second::fit::FitTable;
use second::sheet::{Kind, Member, Row, MEMBER_LIMIT};

/// Makes rows without twins, and settles which of them fit.
pub fn make_rows(rng: &mut Rng, style: &Style) -> (Vec<Row>, FitTable) {
    let mut rows: Vec<Row> = Vec::new();
    let mut fit = FitTable::default();
    // Few members and names allow few rows, so tries are counted.
    for _ in 0..style.rows * 4 {
        if rows.len() == style.rows {
            break;
        }
        let row = match rows.len() {
            0 => empty_row(rng.chance(15)),
            _ if rng.chance(60) => varied_row(rng, &rows, &fit, style),
            _ => fresh_row(rng, rows.len(), style),
        };
        let mut row = without_pure_fields(rng, row);
        if style.strict {
            take_what_is_given(&mut row, &fit);
        }
        if !rows.contains(&row) {
            rows.push(row);
            fit.extend(&rows);
        }
    }
    (rows, fit)
}

pub fn row(resource: bool, members: Vec<Member>) -> Row {
    Row { resource, members }
}

pub fn method(name: u16, argument: u16, result: u16) -> Member {
    let kind = Kind::Method { argument, result };
    Member { name, kind }
}

fn empty_row(resource: bool) -> Row {
    Row {
        resource,
        members: Vec::new(),
    }
}

/// A pure row with a field can have no form; few of them are enough.
fn without_pure_fields(rng: &mut Rng, mut row: Row) -> Row {
    if !row.resource && !rng.chance(4) {
        row.members
            .retain(|member| matches!(member.kind, Kind::Method { .. }));
    }
    row
}

/// Changes methods so that their argument fits their result.
fn take_what_is_given(row: &mut Row, fit: &FitTable) {
    for member in &mut row.members {
        if let Kind::Method { argument, result } = &mut member.kind {
            if !fit.fits(*argument, *result) {
                *argument = *result;
            }
        }
    }
}

fn fresh_row(rng: &mut Rng, lower: usize, style: &Style) -> Row {
    let mut row = empty_row(rng.chance(60));
    for _ in 0..rng.between(style.members / 2, style.members) {
        let name = rng.below(style.names) as u16;
        add_member(rng, &mut row, name, lower, style);
    }
    row
}

/// Adds a member in the order of names, unless its name is there.
fn add_member(rng: &mut Rng, row: &mut Row, name: u16, lower: usize, style: &Style) {
    let full = row.members.len() >= usize::from(MEMBER_LIMIT);
    if full || row.members.iter().any(|member| member.name == name) {
        return;
    }
    let kind = if rng.chance(style.fields) {
        Kind::Field {
            row: rng.below(lower) as u16,
        }
    } else {
        Kind::Method {
            argument: rng.below(lower) as u16,
            result: rng.below(lower) as u16,
        }
    };
    row.members.push(Member { name, kind });
    row.members.sort_by_key(|member| member.name);
}

/// An earlier row with one or two changes, most of which keep a fit.
fn varied_row(rng: &mut Rng, rows: &[Row], fit: &FitTable, style: &Style) -> Row {
    let mut row = rows[rng.below(rows.len())].clone();
    for _ in 0..rng.between(1, 2) {
        match rng.below(6) {
            0 => row.resource = !row.resource,
            1 if !row.members.is_empty() => {
                row.members.remove(rng.below(row.members.len()));
            }
            2 | 3 if !row.members.is_empty() => {
                let place = rng.below(row.members.len());
                let kind = row.members[place].kind;
                row.members[place].kind = varied_kind(rng, kind, rows, fit);
            }
            _ => {
                let name = rng.below(style.names) as u16;
                add_member(rng, &mut row, name, rows.len(), style);
            }
        }
    }
    row
}

/// Another argument or result row that fits the old one, or that it fits.
fn varied_kind(rng: &mut Rng, kind: Kind, rows: &[Row], fit: &FitTable) -> Kind {
    let Kind::Method { argument, result } = kind else {
        return kind;
    };
    let mut related = |old: u16| {
        let near: Vec<u16> = (0..rows.len() as u16)
            .filter(|new| *new != old && (fit.fits(*new, old) || fit.fits(old, *new)))
            .collect();
        rng.try_pick(&near).unwrap_or(old)
    };
    let changed = (related(argument), related(result));
    match rng.below(3) {
        0 => Kind::Method {
            argument: changed.0,
            result,
        },
        1 => Kind::Method {
            argument,
            result: changed.1,
        },
        _ => Kind::Method {
            argument: changed.0,
            result: changed.1,
        },
    }
}
