//! Device sheets: well typed, with devices of several rows, clerks that keep
//! them, and pure objects. Methods take and give anything or something to
//! call, so that devices go everywhere.

use crate::devices::pick_devices;
use crate::draft::Draft;
use crate::ladder::shuffle;
use crate::plan::{write_sheet, FormPlan, Plan};
use crate::rng::Rng;
use crate::rows::{method, row};
use crate::style::{Style, DEVICE};
use second::fit::FitTable;
use second::sheet::{Kind, Member, Row, CODE_LIMIT, MEMBER_LIMIT, NAME_LIMIT};

/// The row that everything fits, a row of methods, and a pure row that has
/// one more, which takes something to call.
const ANY: u16 = 0;
const CALLED: u16 = 1;
const PURE: u16 = 2;

/// Weights of new, call, get, put and copy in bodies: of all, of calls, of
/// creations, and of fields.
const WEIGHTS: [[usize; 5]; 4] = [
    [2, 4, 2, 3, 3],
    [0, 9, 1, 1, 1],
    [9, 4, 1, 2, 1],
    [0, 6, 3, 8, 1],
];

/// A sheet with one to eight devices.
pub fn device(rng: &mut Rng) -> Draft {
    let style = Style {
        body: rng.pick(&[2, 4, 8, 32]),
        weights: rng.pick(&WEIGHTS),
        own_calls: rng.chance(8),
        own_given: rng.chance(25),
        silent: rng.pick(&[0, 0, 20, 50]),
        ..DEVICE
    };
    let rows = make_rows(rng);
    let forms = make_forms(rng, &rows);
    let fit = FitTable::of(&rows);
    let most = usize::from(CODE_LIMIT);
    let any = rng.between(1, most);
    let plan = Plan {
        style,
        rows,
        fit,
        forms,
        devices: Vec::new(),
        main: rng.pick(&[any, any, most]),
    };
    let devices = pick_devices(rng, &plan.device_forms());
    write_sheet(rng, &Plan { devices, ..plan })
}

/// The first three rows, then rows with more methods and some with fields.
fn make_rows(rng: &mut Rng) -> Vec<Row> {
    let names = (0..rng.between(1, 3)).map(|place| place as u16 * 13);
    let methods: Vec<Member> = names.map(|name| method(name, ANY, ANY)).collect();
    let more = method(NAME_LIMIT, CALLED, ANY);
    let mut rows = vec![
        row(true, Vec::new()),
        row(true, methods.clone()),
        row(false, [&methods[..], &[more]].concat()),
    ];
    for _ in 0..rng.between(2, 5) {
        let fields = rng.chance(40);
        let mut members = methods.clone();
        for _ in 0..rng.between(1, usize::from(MEMBER_LIMIT) - members.len()) {
            let name = rng.below(usize::from(NAME_LIMIT) + 1) as u16;
            if members.iter().all(|member| member.name != name) {
                members.push(any_member(rng, name, rows.len(), fields));
            }
        }
        members.sort_by_key(|member| member.name);
        let row = row(true, members);
        if !rows.contains(&row) {
            rows.push(row);
        }
    }
    rows
}

/// A method that takes something to call, or a field where there may be one.
fn any_member(rng: &mut Rng, name: u16, lower: usize, fields: bool) -> Member {
    let any = rng.below(lower) as u16;
    if fields && rng.chance(60) {
        let row = rng.pick(&[ANY, ANY, CALLED]);
        let kind = Kind::Field { row };
        return Member { name, kind };
    }
    let argument = rng.pick(&[CALLED, CALLED, ANY, any]);
    method(name, argument, rng.pick(&[ANY, ANY, CALLED]))
}

/// Forms that keep nothing for every row without fields, then clerks of all
/// rows; pure ones and keeping ones are always among them.
fn make_forms(rng: &mut Rng, rows: &[Row]) -> Vec<FormPlan> {
    let bare = (0..rows.len()).filter(|row| !rows[*row].has_field());
    let mut forms: Vec<FormPlan> = bare.map(|row| FormPlan::bare(row as u16)).collect();
    let twin = rng.below(forms.len());
    forms.push(FormPlan::bare(forms[twin].row));
    forms.push(make_clerk(rng, rows, CALLED));
    forms.push(make_clerk(rng, rows, PURE));
    for _ in 0..rng.between(0, 6) {
        let row = rng.below(rows.len()) as u16;
        forms.push(make_clerk(rng, rows, row));
    }
    // Form 0 keeps nothing; the others stand in any order, or so.
    if rng.chance(30) {
        shuffle(rng, &mut forms[1..]);
    }
    forms
}

/// A form that keeps at least one value.
fn make_clerk(rng: &mut Rng, rows: &[Row], number: u16) -> FormPlan {
    let own = &rows[usize::from(number)];
    let mut form = FormPlan::bare(number);
    let others: &[u16] = match own.resource {
        true => &[ANY, CALLED, CALLED, PURE],
        false => &[PURE],
    };
    // Each field may need one more.
    let count = match own.has_field() {
        true => 1,
        false => rng.pick(&[1, 1, 2, 3]),
    };
    for _ in 0..count {
        form.keeps.push(rng.pick(others));
    }
    for member in &own.members {
        if let Kind::Field { row } = member.kind {
            // What is called fits either field.
            let kept = form.keeps.iter().position(|kept| *kept == CALLED);
            form.inits.push(match kept {
                Some(kept) if rng.chance(50) => kept,
                _ => {
                    form.keeps.push(row);
                    form.keeps.len() - 1
                }
            });
        }
    }
    let kept = 0..form.keeps.len();
    form.silent = kept.filter(|_| rng.chance(20)).collect();
    form
}
