//! `desk holders`: who holds what.

use super::run::{ended, outcome};
use super::{budget, Command, BUDGET_CHOICE};
use crate::args::{short, Choice, Given, Usage};
use crate::desk::Desk;
use crate::holding::{Holding, Holdings, Who};
use crate::json;
use crate::library::Library;
use crate::picture::{dot, svg, Kind, Node, Picture};
use crate::text::Text;
use crate::words::{kind, numbers};
use lexondar::{Error, Outcome};
use std::collections::BTreeSet;

pub const COMMAND: Command = Command {
    word: "holders",
    takes: "FILE",
    about: "run a sheet and say who holds what after it",
    more: "A holder is main (256) or a resource object; it holds what it can still use.",
    choices: &[
        BUDGET_CHOICE,
        Choice {
            name: "--holder",
            value: Some("H"),
            about: "only what H holds",
        },
        Choice {
            name: "--group",
            value: Some("H,H.."),
            about: "what these hold together, up to 16",
        },
        Choice {
            name: "--matrix",
            value: None,
            about: "a table, holders down and resources across",
        },
        Choice {
            name: "--dot",
            value: None,
            about: "a graph for Graphviz",
        },
        Choice {
            name: "--svg",
            value: None,
            about: "a picture",
        },
        Choice {
            name: "--json",
            value: None,
            about: "for other programs",
        },
    ],
    examples: &[
        ("desk holders clerk.sheet", "everybody"),
        (
            "desk holders makers.sheet --group 2,3",
            "two makers together",
        ),
        ("desk holders makers.sheet --svg > makers.svg", "a picture"),
    ],
    run,
};

fn run(given: &Given, desk: &mut Desk) -> Result<(), Usage> {
    let [file] = given.exactly("a file")?;
    let budget = budget(given, u32::MAX)?;
    let asked = asked(given)?;
    let view = given.one_of(&["--matrix", "--dot", "--svg", "--json"])?;
    let Some(text) = desk.text(file) else {
        return Ok(());
    };
    match holdings(&mut desk.library, &text, budget, asked) {
        Ok(holdings) => {
            let shown = match view {
                Some("--matrix") => matrix(&holdings),
                Some("--dot") => dot(&picture(&text, &holdings)),
                Some("--svg") => svg(&picture(&text, &holdings)),
                Some(_) => as_json(&text, &holdings),
                None => listed(&holdings),
            };
            desk.put(&shown);
        }
        Err(error) => {
            let note = holders_there(&mut desk.library, &text, budget);
            desk.no_answer(&text, error, note);
        }
    }
    Ok(())
}

/// Whose holding is asked for; none for everybody's.
fn asked(given: &Given) -> Result<Option<Who>, Usage> {
    match given.one_of(&["--holder", "--group"])? {
        None => Ok(None),
        Some(name @ "--holder") => {
            let holder = short(given.value(name).unwrap_or_default().as_ref(), name)?;
            Ok(Some(Who::of(holder)))
        }
        Some(name) => {
            let list = given.value(name).unwrap_or_default();
            let list = list.split(',').filter(|_| !list.is_empty());
            let list = list.map(|holder| short(holder.as_ref(), name));
            Ok(Some(Who::Group(list.collect::<Result<_, Usage>>()?)))
        }
    }
}

/// What the library says of everybody, of one, or of several together.
fn holdings(
    library: &mut Library,
    text: &Text,
    budget: u32,
    asked: Option<Who>,
) -> Result<Holdings, Error> {
    let mut holdings = Holdings::of(library, &text.bytes, budget)?;
    if let Some(who) = asked {
        let held = match &who {
            Who::Main => library.authority(&text.bytes, budget, 256)?,
            Who::Object(holder) => library.authority(&text.bytes, budget, *holder)?,
            Who::Group(list) => library.group(&text.bytes, budget, list)?,
        };
        let held = held.to_vec();
        holdings.all = vec![Holding { who, held }];
    }
    Ok(holdings)
}

/// Who the holders are, for whoever asked about another.
fn holders_there(library: &mut Library, text: &Text, budget: u32) -> Option<String> {
    let (_, entries) = library.report(&text.bytes, budget).ok()?;
    let holders: Vec<u16> = entries.map(|(holder, _)| holder).collect();
    let holders = numbers(&holders, "none");
    Some(format!("holders after this run: {holders}"))
}

/// A line for each holder.
fn listed(holdings: &Holdings) -> String {
    let mut lines = format!("{}\n", outcome(&holdings.run));
    for Holding { who, held } in &holdings.all {
        let held = numbers(held, "nothing");
        lines += &format!("{} holds {held}\n", holdings.holder(who));
    }
    lines
}

/// The resources that occur, ascending.
fn resources(holdings: &Holdings) -> BTreeSet<u16> {
    let mut resources = BTreeSet::new();
    for Holding { who, held } in &holdings.all {
        resources.extend(held);
        if let Who::Object(object) = who {
            resources.insert(*object);
        }
    }
    resources
}

/// Holders down, resources across; a column's number stands upright.
fn matrix(holdings: &Holdings) -> String {
    let resources = resources(holdings);
    let names: Vec<String> = holdings
        .all
        .iter()
        .map(|h| holdings.holder(&h.who))
        .collect();
    let width = names.iter().map(String::len).max().unwrap_or(0);
    let digits = resources.last().map_or(0, |most| most.to_string().len());
    let mut table = String::new();
    for digit in 0..digits {
        let column = |object: &u16| format!("{object:>digits$}")[digit..=digit].to_string();
        let columns: Vec<String> = resources.iter().map(column).collect();
        table += format!("{:width$}  {}", "", columns.join(" ")).trim_end();
        table += "\n";
    }
    for (name, holding) in names.iter().zip(&holdings.all) {
        let cells = resources
            .iter()
            .map(|object| match holding.held.contains(object) {
                true => "x",
                false => ".",
            });
        let cells: Vec<&str> = cells.collect();
        table += format!("{name:width$}  {}", cells.join(" ")).trim_end();
        table += "\n";
    }
    table
}

/// A graph of the holders and what they hold.
fn picture(text: &Text, holdings: &Holdings) -> Picture {
    let objects = resources(holdings);
    let apart = holdings
        .all
        .iter()
        .filter(|h| !matches!(h.who, Who::Object(_)));
    let mut nodes: Vec<Node> = apart.map(|h| node(holdings, &h.who)).collect();
    let first = nodes.len();
    nodes.extend(
        objects
            .iter()
            .map(|object| node(holdings, &Who::Object(*object))),
    );
    let place = |object: u16| first + objects.iter().take_while(|o| **o < object).count();
    let mut arrows = Vec::new();
    let mut before = 0;
    for Holding { who, held } in &holdings.all {
        let from = match who {
            Who::Object(object) => place(*object),
            _ => {
                before += 1;
                before - 1
            }
        };
        arrows.extend(held.iter().map(|object| (from, place(*object))));
    }
    Picture {
        title: format!("{}: {}", text.name, ended(&holdings.run)),
        nodes,
        arrows,
    }
}

fn node(holdings: &Holdings, who: &Who) -> Node {
    let (name, kind) = match who {
        Who::Main => ("main".into(), Kind::Main),
        Who::Group(list) => (numbers(list, "nobody"), Kind::Group),
        Who::Object(object) if holdings.is_device(*object) => (object.to_string(), Kind::Device),
        Who::Object(object) => (object.to_string(), Kind::Resource),
    };
    let form = match who {
        Who::Object(object) => holdings.form(*object),
        _ => None,
    };
    let under = form.map_or(String::new(), |form| format!("form {form}"));
    Node { name, under, kind }
}

/// One document: the run, the objects, and the holders.
fn as_json(text: &Text, holdings: &Holdings) -> String {
    let run = &holdings.run;
    let value = match run.outcome {
        Outcome::Done { value } => value.to_string(),
        _ => "null".into(),
    };
    let objects = (0..run.objects).map(|object| object_json(holdings, object));
    let holders = holdings.all.iter().map(|Holding { who, held }| {
        let name = match who {
            Who::Main => ("holder", "256".into()),
            Who::Object(object) => ("holder", object.to_string()),
            Who::Group(list) => ("group", json::array(list)),
        };
        json::object(&[name, ("holds", json::array(held))])
    });
    let document = json::object(&[
        ("file", json::string(&text.name)),
        ("outcome", run.outcome.number().to_string()),
        ("steps", run.steps.to_string()),
        ("value", value),
        ("objects", json::array(objects)),
        ("holders", json::array(holders)),
    ]);
    document + "\n"
}

fn object_json(holdings: &Holdings, object: u16) -> String {
    let mut fields = vec![("object", object.to_string())];
    if let Some(form) = holdings.form(object) {
        let resource = holdings.reading.is_resource(form);
        fields.push(("form", form.to_string()));
        fields.push(("kind", json::string(kind(resource == Some(true)))));
    }
    fields.push(("device", holdings.is_device(object).to_string()));
    json::object(&fields)
}
