//! The ways of arrows between placed nodes.

use super::chart::Chart;
use super::place::{Places, CORNER};
use std::cmp::Ordering;

/// Room for an arrow's head before the border it points at.
pub const HEAD: f64 = 7.0;
/// The greatest distance between two arrows on a node's side.
const APART: f64 = 14.0;

/// A point of the picture.
#[derive(Clone, Copy, Debug)]
pub struct Point {
    /// From the left.
    pub x: f64,
    /// From above.
    pub y: f64,
}

/// A piece of an arrow, from where the last one ended.
#[derive(Clone, Copy, Debug)]
pub enum Step {
    /// A straight line to a point.
    Line(Point),
    /// A curve by two points that pull it, to a third.
    Curve(Point, Point, Point),
}

/// The way of an arrow, up to its head.
pub struct Path {
    /// Where it begins.
    pub start: Point,
    /// How it goes on.
    pub steps: Vec<Step>,
}

impl Path {
    /// A bound of how far to the right it goes.
    pub fn right(&self) -> f64 {
        let steps = self.steps.iter().map(|step| match step {
            Step::Line(to) => to.x,
            Step::Curve(one, other, to) => one.x.max(other.x).max(to.x),
        });
        steps.fold(self.start.x, f64::max)
    }
}

/// The sides of a node.
#[derive(Clone, Copy, PartialEq, Eq)]
enum Side {
    /// Towards the holders.
    Left,
    /// Towards what is held.
    Right,
}

/// An end of an arrow at a node's side.
struct Port {
    /// The arrow.
    route: usize,
    /// Whether it is where the arrow's head is.
    head: bool,
    /// Upwards in the same column, to another column, or downwards.
    turn: u8,
    /// The height of the spot at the other end.
    other: f64,
}

/// The ways of all arrows of a chart.
pub fn paths(chart: &Chart, places: &Places) -> Vec<Path> {
    let ends = ends(chart, places);
    chart
        .routes
        .iter()
        .zip(ends)
        .map(|(route, ends)| path(chart, places, route, ends))
        .collect()
}

/// The heights at which each arrow begins and ends.
fn ends(chart: &Chart, places: &Places) -> Vec<[f64; 2]> {
    let mut left: Vec<Vec<Port>> = Vec::new();
    left.resize_with(chart.nodes, Vec::new);
    let mut right: Vec<Vec<Port>> = Vec::new();
    right.resize_with(chart.nodes, Vec::new);
    for (route, spots) in chart.routes.iter().enumerate() {
        let pairs = [spots.first().zip(spots.get(1)), ends_of(spots)];
        for (pair, head) in pairs.into_iter().zip([false, true]) {
            let Some((&spot, &next)) = pair else { continue };
            let (side, turn) = leave(chart, places, spot, next);
            let ports = match side {
                Side::Left => &mut left,
                Side::Right => &mut right,
            };
            ports[spot].push(Port {
                route,
                head,
                turn,
                other: places.middles[next],
            });
        }
    }
    let mut ends = vec![[0.0; 2]; chart.routes.len()];
    for ports in [left, right] {
        for (node, ports) in ports.into_iter().enumerate() {
            spread(ports, places.middles[node], places.heights[node], &mut ends);
        }
    }
    ends
}

/// The last spot of a route and the one before it.
fn ends_of(spots: &[usize]) -> Option<(&usize, &usize)> {
    match spots {
        [.., before, last] => Some((last, before)),
        _ => None,
    }
}

/// The side by which a way leaves a spot for the next, and how it turns.
fn leave(chart: &Chart, places: &Places, spot: usize, next: usize) -> (Side, u8) {
    let (own, other) = (chart.spots[spot].column, chart.spots[next].column);
    match own.cmp(&other) {
        Ordering::Less => (Side::Right, 1),
        Ordering::Greater => (Side::Left, 1),
        Ordering::Equal if places.middles[next] < places.middles[spot] => (Side::Right, 0),
        Ordering::Equal => (Side::Right, 2),
    }
}

/// Spreads the ports of a node's side so that their arrows do not cross there.
fn spread(mut ports: Vec<Port>, middle: f64, height: f64, ends: &mut [[f64; 2]]) {
    ports.sort_by(|one, other| {
        let heights = if one.turn == 1 {
            one.other.total_cmp(&other.other)
        } else {
            other.other.total_cmp(&one.other)
        };
        one.turn.cmp(&other.turn).then(heights)
    });
    let between = ports.len().saturating_sub(1) as f64;
    let apart = APART.min((height - 2.0 * CORNER) / between.max(1.0));
    for (place, port) in ports.iter().enumerate() {
        let y = middle + (place as f64 - between / 2.0) * apart;
        ends[port.route][usize::from(port.head)] = y;
    }
}

/// The way of an arrow that begins and ends at these heights.
fn path(chart: &Chart, places: &Places, route: &[usize], ends: [f64; 2]) -> Path {
    let mut path: Option<Path> = None;
    for pair in route.windows(2) {
        let (here, next) = (pair[0], pair[1]);
        let (side, turn) = leave(chart, places, here, next);
        let (back, _) = leave(chart, places, next, here);
        let from = Point {
            x: edge(chart, places, here, side),
            y: height(chart, places, here, ends[0]),
        };
        let to = Point {
            x: edge(chart, places, next, back) + head(chart, next, back),
            y: height(chart, places, next, ends[1]),
        };
        let path = path.get_or_insert_with(|| Path {
            start: from,
            steps: Vec::new(),
        });
        if chart.is_lane(here) {
            path.steps.push(Step::Line(from));
        }
        path.steps.push(curve(from, to, turn != 1));
    }
    path.unwrap_or(Path {
        start: Point { x: 0.0, y: 0.0 },
        steps: Vec::new(),
    })
}

/// The height of a spot: a lane's own, or that of the port.
fn height(chart: &Chart, places: &Places, spot: usize, port: f64) -> f64 {
    if chart.is_lane(spot) {
        places.middles[spot]
    } else {
        port
    }
}

/// The room that a head takes at a side; lanes have none.
fn head(chart: &Chart, spot: usize, side: Side) -> f64 {
    match side {
        _ if chart.is_lane(spot) => 0.0,
        Side::Left => -HEAD,
        Side::Right => HEAD,
    }
}

/// Where a side of a spot is.
fn edge(chart: &Chart, places: &Places, spot: usize, side: Side) -> f64 {
    let column = chart.spots[spot].column;
    match side {
        Side::Left => places.columns[column].0,
        Side::Right => places.right(column),
    }
}

/// A curve that leaves and arrives level, or one that goes around to a node of
/// the same column.
fn curve(from: Point, to: Point, around: bool) -> Step {
    let (one, other) = if around {
        let pull = 24.0 + ((from.y - to.y).abs() * 0.15).min(50.0);
        (from.x + pull, from.x + pull)
    } else {
        let middle = (from.x + to.x) / 2.0;
        (middle, middle)
    };
    Step::Curve(Point { x: one, y: from.y }, Point { x: other, y: to.y }, to)
}
