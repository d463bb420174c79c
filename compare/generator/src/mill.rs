//! Mills: objects with fields that call the ones they keep, for long runs
//! that read and set fields. All methods take and give anything, so that
//! many slots fit everywhere.

use crate::draft::Draft;
use crate::plan::{write_sheet, FormPlan, Plan};
use crate::rng::Rng;
use crate::style::{Style, MILL};
use second::fit::FitTable;
use second::sheet::{Kind, Member, Row, KEEP_LIMIT, MEMBER_LIMIT};

/// The row that everything fits, and the row of methods alone.
const ANY: u16 = 0;
const CALLED: u16 = 1;

/// A sheet whose main makes objects that keep earlier ones, and calls them.
/// In half of the mills no body makes an object, so that the run can be long.
pub fn mill(rng: &mut Rng) -> Draft {
    let making = usize::from(rng.chance(50));
    let style = Style {
        body: rng.between(4, 28),
        weights: [making, 20, 12, 12, 1],
        own_given: rng.chance(20),
        ..MILL
    };
    let rows = make_rows(rng);
    let mut fit = FitTable::default();
    for count in 1..=rows.len() {
        fit.extend(&rows[..count]);
    }
    // The first two keep nothing, so that later ones have what they keep.
    let mut forms = vec![
        make_form(rng, &rows, ANY, 0),
        make_form(rng, &rows, CALLED, 0),
    ];
    for _ in 0..rng.between(4, 24) {
        let row = rng.between(usize::from(CALLED), rows.len() - 1) as u16;
        let keeps = rng.between(0, usize::from(KEEP_LIMIT));
        forms.push(make_form(rng, &rows, row, keeps));
    }
    let mut plan = Plan {
        style,
        rows,
        fit,
        forms,
        devices: Vec::new(),
        main: rng.between(style.main / 4, style.main),
    };
    plan.add_devices(rng);
    write_sheet(rng, &plan)
}

/// The empty row, a row of methods, and rows with the same methods and some
/// fields. Names are given at random, so that fields stand anywhere.
fn make_rows(rng: &mut Rng) -> Vec<Row> {
    let methods: Vec<u16> = (0..rng.between(1, 3))
        .map(|place| place as u16 * 7)
        .collect();
    let mut rows = vec![row(Vec::new()), row(Vec::new())];
    rows[usize::from(CALLED)].members = methods.iter().map(|name| method(*name)).collect();
    for _ in 0..rng.between(1, 4) {
        let mut members = rows[usize::from(CALLED)].members.clone();
        for _ in 0..rng.between(1, usize::from(MEMBER_LIMIT) - members.len()) {
            let name = rng.below(64) as u16;
            if members.iter().all(|member| member.name != name) {
                let row = rng.pick(&[ANY, CALLED]);
                let kind = Kind::Field { row };
                members.push(Member { name, kind });
            }
        }
        members.sort_by_key(|member| member.name);
        if rows.iter().all(|row| row.members != members) {
            rows.push(row(members));
        }
    }
    rows
}

fn row(members: Vec<Member>) -> Row {
    Row {
        resource: true,
        members,
    }
}

fn method(name: u16) -> Member {
    let kind = Kind::Method {
        argument: ANY,
        result: ANY,
    };
    Member { name, kind }
}

/// A form that keeps at least one value of each row that its fields ask for.
fn make_form(rng: &mut Rng, rows: &[Row], row: u16, keeps: usize) -> FormPlan {
    let mut form = FormPlan {
        row,
        keeps: (0..keeps)
            .map(|_| rng.pick(&[ANY, CALLED, CALLED, CALLED]))
            .collect(),
        inits: Vec::new(),
        silent: Vec::new(),
    };
    for member in &rows[usize::from(row)].members {
        let Kind::Field { row } = member.kind else {
            continue;
        };
        // A called value fits either field.
        let fits = |kept: &usize| form.keeps[*kept] >= row;
        let there: Vec<usize> = (0..form.keeps.len()).filter(fits).collect();
        let kept = rng.try_pick(&there).unwrap_or_else(|| {
            let last = form.keeps.len().min(usize::from(KEEP_LIMIT) - 1);
            form.keeps.truncate(last);
            form.keeps.push(CALLED);
            last
        });
        form.inits.push(kept);
    }
    form
}
