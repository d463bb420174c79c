//! A picture in the language of Graphviz.

use super::part::{parts, Part};
use super::text::escape;
use super::{Kind, Node, Picture};

/// Writes a picture as a `digraph`.
pub fn dot(picture: &Picture) -> String {
    let mut dot = String::from("digraph holdings {\n");
    dot += "  graph [rankdir=LR, nodesep=0.3, ranksep=0.7, labelloc=t, ";
    dot += "fontname=\"Helvetica\", fontsize=16];\n";
    dot += "  node [fontname=\"Helvetica\", fontsize=14, margin=\"0.15,0.07\"];\n";
    dot += "  edge [color=\"#37474f\", arrowsize=0.7];\n";
    dot += &format!("  label={};\n", quote(escape(&picture.title)));
    dot += &nodes(picture);
    for &(from, to) in &picture.arrows {
        let style = if from == to {
            " [color=\"#98a2ab\", arrowsize=0.4, penwidth=0.6]"
        } else {
            ""
        };
        dot += &format!("  n{from} -> n{to}{style};\n");
    }
    dot + "}\n"
}

/// The nodes, part by part; several parts are drawn as an array.
fn nodes(picture: &Picture) -> String {
    let mut parts = parts(picture);
    parts.sort_by_key(Part::rank);
    let rows = (parts.len() as f64).sqrt().ceil() as usize;
    let mut nodes = String::new();
    if parts.len() > 1 {
        nodes += &format!("  graph [pack=24, packmode=\"array_i{rows}\"];\n");
    }
    // Graphviz fills the array column by column, each from below.
    for column in parts.chunks(rows.max(1)) {
        for &place in column.iter().rev().flat_map(|part| &part.nodes) {
            let node = &picture.nodes[place];
            let (label, style) = (quote(label(node)), style(node.kind));
            nodes += &format!("  n{place} [label={label}, {style}];\n");
        }
    }
    nodes
}

/// A node's name, and what stands below it.
fn label(node: &Node) -> String {
    let (name, under) = (escape(&node.name), escape(&node.under));
    let mut label = String::new();
    if !name.is_empty() {
        label += &format!("<b>{name}</b>");
    }
    if !under.is_empty() {
        label += &format!("<br/><font point-size=\"11\">{under}</font>");
    }
    label
}

/// A label with marks, in its brackets; they must not be empty.
fn quote(label: String) -> String {
    if label.is_empty() {
        return String::from("\"\"");
    }
    format!("<{label}>")
}

/// How a kind of node is drawn.
fn style(kind: Kind) -> &'static str {
    match kind {
        Kind::Main => {
            "shape=box, style=filled, fillcolor=\"#2b3440\", color=\"#2b3440\", fontcolor=white"
        }
        Kind::Group => {
            "shape=box, style=\"rounded,dashed,filled\", fillcolor=\"#fff4d6\", color=\"#8a6d1a\""
        }
        Kind::Device => {
            "shape=box, peripheries=2, style=filled, fillcolor=\"#e3eef9\", color=\"#345f8a\""
        }
        Kind::Resource => {
            "shape=box, style=\"rounded,filled\", fillcolor=\"#f4f6f7\", color=\"#5d6871\""
        }
    }
}
