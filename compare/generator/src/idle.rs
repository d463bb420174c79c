//! Idle sheets: objects that keep more than their bodies name, and code that
//! fills more slots than it names. Resources and pure objects call each other,
//! and their methods take and give anything, so that many slots fit.

use crate::draft::Draft;
use crate::plan::{write_sheet, FormPlan, Plan};
use crate::rng::Rng;
use crate::rows::{method, row};
use crate::style::{Style, IDLE};
use second::fit::FitTable;
use second::sheet::{Kind, Member, Row, KEEP_LIMIT, MEMBER_LIMIT, NAME_LIMIT};

/// The row that everything fits, and two rows of the same methods.
const ANY: u16 = 0;
const PURE: u16 = 1;
const CALLED: u16 = 2;

/// Weights of new, call, get, put and copy in bodies: of all, of calls, of
/// creations, and of fields.
const WEIGHTS: [[usize; 5]; 4] = [
    [2, 3, 2, 5, 3],
    [1, 8, 1, 5, 2],
    [9, 4, 1, 4, 1],
    [1, 3, 3, 9, 1],
];

/// A sheet whose main makes objects of most forms and calls them.
pub fn idle(rng: &mut Rng) -> Draft {
    let style = Style {
        body: rng.pick(&[3, 6, 12, 32]),
        weights: rng.pick(&WEIGHTS),
        own_calls: rng.chance(10),
        own_given: rng.chance(15),
        ..IDLE
    };
    let rows = make_rows(rng);
    let fit = FitTable::of(&rows);
    // The first ones keep nothing, so that later ones have what they keep.
    let mut forms = Vec::from([ANY, PURE, CALLED].map(FormPlan::bare));
    for _ in 0..rng.between(3, 14) {
        let row = rng.below(rows.len()) as u16;
        forms.push(make_form(rng, &rows, &fit, row));
    }
    let mut plan = Plan {
        style,
        rows,
        fit,
        forms,
        devices: Vec::new(),
        main: rng.between(style.main / 4, style.main),
    };
    plan.add_devices(rng);
    write_sheet(rng, &plan)
}

/// The first three rows, and some with fields, most of which have the
/// methods too.
fn make_rows(rng: &mut Rng) -> Vec<Row> {
    let names = (0..rng.between(1, 4)).map(|place| place as u16 * 11);
    let methods: Vec<Member> = names.map(|name| method(name, ANY, ANY)).collect();
    let mut rows = vec![
        row(true, Vec::new()),
        row(false, methods.clone()),
        row(true, methods.clone()),
    ];
    for _ in 0..rng.between(1, 4) {
        let mut members = match rng.chance(85) {
            true => methods.clone(),
            false => Vec::new(),
        };
        for _ in 0..rng.between(1, usize::from(MEMBER_LIMIT) - members.len()) {
            let name = rng.below(usize::from(NAME_LIMIT) + 1) as u16;
            if members.iter().all(|member| member.name != name) {
                members.push(any_member(rng, name));
            }
        }
        members.sort_by_key(|member| member.name);
        let row = row(true, members);
        if !rows.contains(&row) {
            rows.push(row);
        }
    }
    rows
}

/// A field, or a method that gives something to call.
fn any_member(rng: &mut Rng, name: u16) -> Member {
    if rng.chance(25) {
        let argument = rng.pick(&[ANY, CALLED]);
        return method(name, argument, rng.pick(&[PURE, CALLED, CALLED]));
    }
    let row = rng.pick(&[ANY, ANY, ANY, PURE, CALLED]);
    let kind = Kind::Field { row };
    Member { name, kind }
}

/// A form that keeps a value for most of its fields, and others. Bodies name
/// about half of what it keeps, at most.
fn make_form(rng: &mut Rng, rows: &[Row], fit: &FitTable, row: u16) -> FormPlan {
    let own = &rows[usize::from(row)];
    let mut form = FormPlan::bare(row);
    let others: &[u16] = match own.resource {
        true => &[ANY, ANY, PURE, CALLED, CALLED],
        false => &[PURE],
    };
    let fields = own.members.iter().filter_map(|member| match member.kind {
        Kind::Field { row } => Some(row),
        Kind::Method { .. } => None,
    });
    let fields: Vec<u16> = fields.collect();
    let most = rng.between(fields.len(), usize::from(KEEP_LIMIT));
    for _ in 0..rng.between(0, most - fields.len()) {
        form.keeps.push(rng.pick(others));
    }
    for field in fields {
        let kept = kept_for(rng, fit, &mut form.keeps, field);
        form.inits.push(kept);
    }
    while form.keeps.len() < most {
        form.keeps.push(rng.pick(others));
    }
    let kept = 0..form.keeps.len();
    form.silent = kept.filter(|_| rng.chance(50)).collect();
    form
}

/// A kept value that fits the field: one that is there, or a new one.
fn kept_for(rng: &mut Rng, fit: &FitTable, keeps: &mut Vec<u16>, field: u16) -> usize {
    let kept = 0..keeps.len();
    let there: Vec<usize> = kept.filter(|kept| fit.fits(keeps[*kept], field)).collect();
    match rng.try_pick(&there) {
        Some(kept) if rng.chance(30) => kept,
        _ => {
            keeps.push(field);
            keeps.len() - 1
        }
    }
}
