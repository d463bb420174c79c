//! The shapes of nodes and heads, as SVG.

use super::layout::Area;
use super::text::escape;
use super::Kind;

/// Colours of arrows; the arrows of a holder have the same.
pub const COLOURS: [&str; 10] = [
    "#1f5fa8", "#c2410c", "#2e7d32", "#7b3fa0", "#b3261e", "#00838f", "#8d6e00", "#c2185b",
    "#455a64", "#6d4c41",
];
/// The colour of arrows from a node to itself.
pub const GREY: &str = "#98a2ab";

/// A number of the picture, with one decimal at most.
pub fn number(value: f64) -> String {
    let tenths = (value * 10.0).round() as i64;
    let sign = if tenths < 0 { "-" } else { "" };
    match (tenths.abs() / 10, tenths.abs() % 10) {
        (whole, 0) => format!("{sign}{whole}"),
        (whole, tenth) => format!("{sign}{whole}.{tenth}"),
    }
}

/// The outline of a node of that kind.
pub fn outline(kind: Kind, area: Area) -> String {
    let round = (area.height / 4.0).min(10.0);
    match kind {
        Kind::Main => rectangle(area, 2.0, r##"fill="#2b3440" stroke="#2b3440""##),
        Kind::Group => rectangle(
            area,
            round,
            r##"fill="#fff4d6" stroke="#8a6d1a" stroke-width="1.5" stroke-dasharray="6 3""##,
        ),
        Kind::Device => {
            let inner = Area {
                x: area.x + 3.0,
                y: area.y + 3.0,
                width: area.width - 6.0,
                height: area.height - 6.0,
            };
            let attributes = r##"fill="#e3eef9" stroke="#345f8a""##;
            rectangle(area, 2.0, attributes) + &rectangle(inner, 1.0, attributes)
        }
        Kind::Resource => rectangle(area, round, r##"fill="#f4f6f7" stroke="#5d6871""##),
    }
}

/// The colours of a node's name and of what stands below it.
pub fn inks(kind: Kind) -> (&'static str, &'static str) {
    match kind {
        Kind::Main => ("#ffffff", "#d5dbe1"),
        _ => ("#1c2329", "#4a555e"),
    }
}

/// A rectangle with round corners.
fn rectangle(area: Area, corner: f64, attributes: &str) -> String {
    format!(
        r#"<rect x="{}" y="{}" width="{}" height="{}" rx="{corner}" {attributes}/>"#,
        number(area.x),
        number(area.y),
        number(area.width),
        number(area.height),
    )
}

/// Three quarters of a circle around a corner, up to its head.
pub fn ring(x: f64, y: f64) -> String {
    format!(
        "M{} {}A7 7 0 1 1 {} {}",
        number(x - 7.0),
        number(y),
        number(x + 3.0),
        number(y + 6.5),
    )
}

/// The heads of arrows, one for each colour, and that of rings.
pub fn heads() -> String {
    let mut heads = String::from("<defs>\n");
    let colours = COLOURS.iter().map(|colour| (*colour, 8, 7));
    for (place, (colour, length, width)) in colours.chain([(GREY, 5, 5)]).enumerate() {
        heads += &format!(
            concat!(
                r#"<marker id="head{0}" markerUnits="userSpaceOnUse" orient="auto" "#,
                r#"markerWidth="{1}" markerHeight="{2}" refX="1" refY="{3}">"#,
                r#"<path d="M0 0L{1} {3}L0 {2}Z" fill="{4}"/></marker>"#,
                "\n"
            ),
            place,
            length,
            width,
            f64::from(width) / 2.0,
            colour,
        );
    }
    heads + "</defs>\n"
}

/// A line of text.
pub fn line(x: f64, y: f64, attributes: &str, text: &str) -> String {
    format!(
        r#"<text x="{}" y="{}" {attributes}>{}</text>"#,
        number(x),
        number(y),
        escape(text)
    )
}
