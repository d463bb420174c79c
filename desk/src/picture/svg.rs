//! A picture as SVG.

use super::layout::{label, layout, Area, Layout, NAME, UNDER};
use super::legend::legend;
use super::route::{Path, Point, Step};
use super::shape::{heads, inks, line, number, outline, ring, COLOURS, GREY};
use super::text::{escape, lines};
use super::{Node, Picture};

/// Room around the picture.
const MARGIN: f64 = 24.0;
/// The least width of a picture.
const LEAST_WIDTH: f64 = 500.0;
/// Font size of the title.
const TITLE: f64 = 16.0;

/// Draws a picture as SVG.
pub fn svg(picture: &Picture) -> String {
    let layout = layout(picture);
    let inner = layout.width.max(LEAST_WIDTH);
    let (title, above) = title(&picture.title, inner);
    let origin = Point {
        x: MARGIN,
        y: MARGIN + above,
    };
    let below = origin.y + layout.height + 26.0;
    let (legend, legend_height) = legend(picture, MARGIN, below, inner);
    let width = number((inner + 2.0 * MARGIN).ceil());
    let height = number((below + legend_height + MARGIN / 2.0).ceil());
    let mut svg = format!(
        concat!(
            "<svg xmlns=\"http://www.w3.org/2000/svg\" width=\"{0}\" height=\"{1}\" ",
            "viewBox=\"0 0 {0} {1}\" font-family=\"Helvetica, Arial, sans-serif\">\n",
            "<title>{2}</title>\n",
            "<rect width=\"{0}\" height=\"{1}\" fill=\"#ffffff\"/>\n"
        ),
        width,
        height,
        escape(&picture.title),
    );
    svg += &heads();
    svg += &title;
    let (x, y) = (number(origin.x), number(origin.y));
    svg += &format!("<g transform=\"translate({x} {y})\">\n");
    arrows(picture, &layout, &mut svg);
    for (node, area) in picture.nodes.iter().zip(&layout.areas) {
        svg += &draw(node, *area);
    }
    svg += "</g>\n";
    svg + &legend + "</svg>\n"
}

/// The title in lines of that width, and the height they take.
fn title(title: &str, width: f64) -> (String, f64) {
    let signs = (width / (TITLE * 0.6)) as usize;
    let attributes = format!(r##"font-size="{TITLE}" font-weight="bold" fill="#1c2329""##);
    let mut drawn = String::new();
    let mut height = 0.0;
    for text in lines(title, signs, 4) {
        height += TITLE + 5.0;
        drawn += &line(MARGIN, MARGIN + height - 7.0, &attributes, &text);
        drawn.push('\n');
    }
    (drawn, height + 16.0)
}

/// Draws the arrows.
fn arrows(picture: &Picture, layout: &Layout, svg: &mut String) {
    let colours = colours(picture, layout);
    svg.push_str("<g fill=\"none\" stroke-width=\"1.4\">\n");
    for (&(from, to), path) in picture.arrows.iter().zip(&layout.paths) {
        let title = title_of(picture, from, to);
        let (way, colour, head) = match path {
            Some(path) => {
                let colour = colours[from] % COLOURS.len();
                (way(path), COLOURS[colour], colour)
            }
            None => {
                let area = layout.areas[from];
                let way = ring(area.x + area.width, area.y);
                (way, GREY, COLOURS.len())
            }
        };
        svg.push_str(&format!(
            concat!(
                r#"<path class="arrow" d="{}" stroke="{}" marker-end="url(#head{})">"#,
                "<title>{}</title></path>\n"
            ),
            way, colour, head, title
        ));
    }
    svg.push_str("</g>\n");
}

/// What an arrow says.
fn title_of(picture: &Picture, from: usize, to: usize) -> String {
    let holder = escape(&picture.nodes[from].name);
    if from == to {
        format!("{holder} holds itself")
    } else {
        format!("{holder} holds {}", escape(&picture.nodes[to].name))
    }
}

/// The colour of each holder's arrows: neighbours have different ones.
fn colours(picture: &Picture, layout: &Layout) -> Vec<usize> {
    let mut holders = vec![false; picture.nodes.len()];
    for &(from, to) in &picture.arrows {
        holders[from] |= from != to;
    }
    let mut order: Vec<usize> = (0..holders.len()).filter(|&node| holders[node]).collect();
    order.sort_by(|&one, &other| {
        let (one, other) = (layout.areas[one], layout.areas[other]);
        one.x.total_cmp(&other.x).then(one.y.total_cmp(&other.y))
    });
    let mut colours = vec![0; holders.len()];
    for (colour, node) in order.into_iter().enumerate() {
        colours[node] = colour;
    }
    colours
}

/// The way of an arrow.
fn way(path: &Path) -> String {
    let mut way = String::from("M");
    let mut put = |sign: &str, point: &Point| {
        way.push_str(sign);
        way.push_str(&number(point.x));
        way.push(' ');
        way.push_str(&number(point.y));
    };
    put("", &path.start);
    for step in &path.steps {
        match step {
            Step::Line(to) => put("L", to),
            Step::Curve(one, other, to) => {
                put("C", one);
                put(" ", other);
                put(" ", to);
            }
        }
    }
    way
}

/// Draws a node.
fn draw(node: &Node, area: Area) -> String {
    let (names, unders) = label(node);
    let (ink, pale) = inks(node.kind);
    let bold = format!(r#"font-size="{NAME}" font-weight="bold" fill="{ink}""#);
    let plain = format!(r#"font-size="{UNDER}" fill="{pale}""#);
    let lines = names
        .iter()
        .map(|text| (text, NAME, &bold))
        .chain(unders.iter().map(|text| (text, UNDER, &plain)));
    let height: f64 = lines.clone().map(|(_, size, _)| size + 3.0).sum();
    let mut y = area.y + (area.height - height) / 2.0;
    let mut drawn = format!(
        "<g class=\"node\" text-anchor=\"middle\"><title>{}</title>",
        escape(format!("{} {}", node.name, node.under).trim())
    );
    drawn += &outline(node.kind, area);
    for (text, size, attributes) in lines {
        y += size + 3.0;
        drawn += &line(area.x + area.width / 2.0, y - 4.0, attributes, text);
    }
    drawn + "</g>\n"
}
