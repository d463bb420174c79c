//! What the shapes of a picture mean.

use super::layout::Area;
use super::shape::{line, number, outline, ring, COLOURS, GREY};
use super::{text, Kind, Picture};

/// Font size of the legend.
const SIZE: f64 = 11.0;
/// Height of a row.
const ROW: f64 = 28.0;
/// Width of a sample.
const SAMPLE: f64 = 30.0;

/// A sample of the legend.
#[derive(Clone, Copy)]
enum Sample {
    /// A node of that kind.
    Node(Kind),
    /// An arrow.
    Arrow,
    /// An arrow of a node to itself.
    Ring,
}

/// The legend of what occurs in a picture, as wide as given, and its height.
pub fn legend(picture: &Picture, left: f64, top: f64, width: f64) -> (String, f64) {
    let mut drawn = String::from("<g class=\"legend\">\n");
    let (mut x, mut y) = (left, top);
    for (sample, meaning) in samples(picture) {
        let own = SAMPLE + 8.0 + text::width(meaning, SIZE);
        if x > left && x + own > left + width {
            (x, y) = (left, y + ROW);
        }
        drawn += &draw(sample, x, y);
        let attributes = format!(r##"font-size="{SIZE}" fill="#4a555e""##);
        drawn += &line(x + SAMPLE + 8.0, y + 13.0, &attributes, meaning);
        drawn.push('\n');
        x += own + 14.0;
    }
    (drawn + "</g>\n", y - top + ROW)
}

/// The samples of a picture and what they mean.
fn samples(picture: &Picture) -> Vec<(Sample, &'static str)> {
    let kinds = [
        (Kind::Main, "main"),
        (Kind::Group, "several holders"),
        (Kind::Device, "device"),
        (Kind::Resource, "resource"),
    ];
    let mut samples: Vec<(Sample, &str)> = kinds
        .into_iter()
        .filter(|(kind, _)| picture.nodes.iter().any(|node| node.kind == *kind))
        .map(|(kind, meaning)| (Sample::Node(kind), meaning))
        .collect();
    if picture.arrows.iter().any(|(from, to)| from != to) {
        samples.push((Sample::Arrow, "holds"));
    }
    if picture.arrows.iter().any(|(from, to)| from == to) {
        samples.push((Sample::Ring, "holds itself"));
    }
    samples
}

/// Draws a sample.
fn draw(sample: Sample, x: f64, y: f64) -> String {
    let area = Area {
        x,
        y,
        width: SAMPLE,
        height: 18.0,
    };
    match sample {
        Sample::Node(kind) => outline(kind, area),
        Sample::Arrow => format!(
            concat!(
                r#"<path d="M{} {}h{}" fill="none" stroke="{}" stroke-width="1.4" "#,
                r##"marker-end="url(#head0)"/>"##
            ),
            number(x),
            number(y + 9.0),
            number(SAMPLE - 7.0),
            COLOURS[0],
        ),
        Sample::Ring => {
            let corner = Area {
                y: y + 4.0,
                width: SAMPLE - 10.0,
                height: 14.0,
                ..area
            };
            outline(Kind::Resource, corner)
                + &format!(
                    r##"<path d="{}" fill="none" stroke="{GREY}" marker-end="url(#head{})"/>"##,
                    ring(x + SAMPLE - 10.0, y + 4.0),
                    COLOURS.len(),
                )
        }
    }
}
