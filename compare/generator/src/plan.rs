//! Well-typed sheets of any style.

use crate::code::Writer;
use crate::devices::{device_lines, pick_devices};
use crate::draft::{line, Draft, Line};
use crate::rng::Rng;
use crate::rows::make_rows;
use crate::style::Style;
use second::fit::FitTable;
use second::machine::FIRST_KEPT;
use second::sheet::{Kind, Row, INSTRUCTION_LIMIT, KEEP_LIMIT};

/// Rows and forms, settled before any body is written: a body may name any
/// form of the sheet.
pub struct Plan {
    pub style: Style,
    pub rows: Vec<Row>,
    pub fit: FitTable,
    pub forms: Vec<FormPlan>,
    /// The forms of the devices.
    pub devices: Vec<u16>,
    /// How many instructions main has.
    pub main: usize,
}

pub struct FormPlan {
    pub row: u16,
    pub keeps: Vec<u16>,
    /// The kept value that each field starts as, in the row's order.
    pub inits: Vec<usize>,
    /// The kept values that no body names.
    pub silent: Vec<usize>,
}

impl FormPlan {
    /// A form that keeps nothing.
    pub fn bare(row: u16) -> FormPlan {
        FormPlan {
            row,
            keeps: Vec::new(),
            inits: Vec::new(),
            silent: Vec::new(),
        }
    }
}

impl Plan {
    /// The forms that a device may have: resources that keep nothing.
    pub fn device_forms(&self) -> Vec<u16> {
        let right = |form: &FormPlan| {
            let resource = self.rows[usize::from(form.row)].resource;
            resource && form.keeps.is_empty()
        };
        let forms = (0..).zip(&self.forms);
        let forms = forms.filter(|(_, form)| right(form));
        forms.map(|(number, _)| number).collect()
    }

    /// Gives some plans devices, as often as the style says.
    pub fn add_devices(&mut self, rng: &mut Rng) {
        let forms = self.device_forms();
        if rng.chance(self.style.devices) && !forms.is_empty() {
            self.devices = pick_devices(rng, &forms);
        }
    }
}

/// A well-typed sheet with sizes up to those of the style.
pub fn well_typed(rng: &mut Rng, style: &Style) -> Draft {
    let (rows, fit) = make_rows(rng, style);
    let mut plan = Plan {
        style: *style,
        rows,
        fit,
        forms: Vec::new(),
        devices: Vec::new(),
        main: rng.between(style.main / 4, style.main),
    };
    // Form 0 keeps nothing, so that main has a first line.
    plan.forms.push(FormPlan::bare(0));
    for row in form_rows(rng, &plan) {
        let form = plan_form(rng, &plan, row);
        plan.forms.extend(form);
    }
    plan.add_devices(rng);
    write_sheet(rng, &plan)
}

/// The rows of the other forms, mostly ascending: a form's fields and kept
/// values then have forms before it.
fn form_rows(rng: &mut Rng, plan: &Plan) -> Vec<usize> {
    let count = rng.between(plan.style.forms / 2, plan.style.forms) - 1;
    let mut rows: Vec<usize> = (0..plan.rows.len()).cycle().take(count).collect();
    // Some rows have several forms, some have none.
    for row in rows.iter_mut() {
        if rng.chance(40) {
            *row = rng.below(plan.rows.len());
        }
    }
    if rng.chance(80) {
        rows.sort();
    }
    rows
}

/// A form of this row, or none if the row can have no form.
fn plan_form(rng: &mut Rng, plan: &Plan, number: usize) -> Option<FormPlan> {
    let row = &plan.rows[number];
    if !row.resource && row.has_field() {
        return None;
    }
    let mut form = FormPlan::bare(number as u16);
    for member in &row.members {
        if let Kind::Field { row } = member.kind {
            let kept = kept_for_field(rng, plan, &mut form, row);
            form.inits.push(kept);
        }
    }
    let most = plan.style.keeps.min(usize::from(KEEP_LIMIT));
    for _ in 0..rng.between(0, most) {
        let all: Vec<u16> = (0..plan.rows.len() as u16).collect();
        let keep = pick_kept(rng, plan, &all);
        let pure_enough = row.resource || !plan.rows[usize::from(keep)].resource;
        if pure_enough && form.keeps.len() < usize::from(KEEP_LIMIT) {
            form.keeps.push(keep);
        }
    }
    Some(form)
}

/// One of these rows, mostly one that an earlier form fits: then main can
/// make the forms in their order.
fn pick_kept(rng: &mut Rng, plan: &Plan, rows: &[u16]) -> u16 {
    let made = |row: u16| plan.forms.iter().any(|form| plan.fit.fits(form.row, row));
    let ready: Vec<u16> = rows.iter().copied().filter(|row| made(*row)).collect();
    if ready.is_empty() || rng.chance(6) {
        return rng.pick(rows);
    }
    rng.pick(&ready)
}

/// A kept value that fits the field: one that is there, or a new one.
fn kept_for_field(rng: &mut Rng, plan: &Plan, form: &mut FormPlan, field: u16) -> usize {
    let there: Vec<usize> = (0..form.keeps.len())
        .filter(|kept| plan.fit.fits(form.keeps[*kept], field))
        .collect();
    match rng.try_pick(&there) {
        Some(kept) if rng.chance(50) => kept,
        _ => {
            let fitting: Vec<u16> = (0..plan.rows.len() as u16)
                .filter(|row| plan.fit.fits(*row, field))
                .collect();
            // Field rows fit themselves, so there is always one.
            form.keeps.push(pick_kept(rng, plan, &fitting));
            form.keeps.len() - 1
        }
    }
}

/// Bodies and main for rows and forms that are settled.
pub fn write_sheet(rng: &mut Rng, plan: &Plan) -> Draft {
    let mut draft = write_rows(&plan.rows);
    draft.push(line("forms", &[plan.forms.len() as u32]));
    let methods = |form: &FormPlan| {
        let members = plan.rows[usize::from(form.row)].members.len();
        members - form.inits.len()
    };
    let mut bodies: usize = plan.forms.iter().map(methods).sum();
    let mut left = INSTRUCTION_LIMIT - plan.main;
    for form in 0..plan.forms.len() {
        write_form(rng, plan, form, (&mut left, &mut bodies), &mut draft);
    }
    draft.extend(device_lines(&plan.devices));
    draft.push(line("main", &[plan.main as u32]));
    draft.extend(write_main(rng, plan));
    draft
}

/// Main, with the devices in its first slots. It makes objects first, or
/// does anything with its devices.
fn write_main(rng: &mut Rng, plan: &Plan) -> Vec<Line> {
    let making = plan.devices.is_empty() || rng.chance(70);
    let mut writer = Writer {
        plan,
        rng,
        own: None,
        below: None,
        slots: Vec::new(),
        silent: Vec::new(),
    };
    for device in &plan.devices {
        writer.fill(plan.forms[usize::from(*device)].row);
    }
    match making {
        true => writer.write_main(plan.main),
        false => writer.write(plan.main, None, None),
    }
}

pub fn write_rows(rows: &[Row]) -> Draft {
    let mut draft = vec![line("types", &[rows.len() as u32])];
    for row in rows {
        let kind = u32::from(row.resource);
        draft.push(line("type", &[kind, row.members.len() as u32]));
        for member in &row.members {
            let name = u32::from(member.name);
            draft.push(match member.kind {
                Kind::Method { argument, result } => {
                    line("def", &[name, argument.into(), result.into()])
                }
                Kind::Field { row } => line("var", &[name, row.into()]),
            });
        }
    }
    draft
}

/// Writes a form; each body leaves one instruction for every later body.
fn write_form(
    rng: &mut Rng,
    plan: &Plan,
    number: usize,
    (left, bodies): (&mut usize, &mut usize),
    draft: &mut Draft,
) {
    let form = &plan.forms[number];
    draft.push(line("form", &[form.row.into(), form.keeps.len() as u32]));
    for keep in &form.keeps {
        draft.push(line("keep", &[u32::from(*keep)]));
    }
    let mut inits = form.inits.iter();
    for member in &plan.rows[usize::from(form.row)].members {
        if let Kind::Method { argument, result } = member.kind {
            *bodies -= 1;
            let most = plan.style.body.min(*left - *bodies);
            let count = rng.between(1, most);
            *left -= count;
            let signature = (member.name, argument, result);
            let code = write_body(rng, plan, number, signature, count);
            draft.push(line("body", &[count as u32]));
            draft.extend(code);
        } else if let Some(kept) = inits.next() {
            draft.push(line("init", &[*kept as u32]));
        }
    }
}

fn write_body(
    rng: &mut Rng,
    plan: &Plan,
    own: usize,
    (name, argument, result): (u16, u16, u16),
    count: usize,
) -> Vec<Line> {
    let mut writer = Writer {
        plan,
        rng,
        own: Some(own),
        below: plan.style.strict.then_some(name),
        slots: vec![plan.forms[own].row],
        silent: Vec::new(),
    };
    writer.fill(argument);
    writer.slots.extend(&plan.forms[own].keeps);
    let silent = plan.forms[own].silent.iter();
    writer.silent.extend(silent.map(|kept| FIRST_KEPT + kept));
    // The body can always call itself with its own argument, or give it back
    // if it may not.
    let last = match plan.style.strict {
        false => (line("call", &[0, name.into(), 1]), result),
        true => (line("copy", &[1]), argument),
    };
    writer.write(count, Some(result), Some(last))
}
