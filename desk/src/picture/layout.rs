//! Where the nodes and arrows of a picture stand.

use super::chart::Chart;
use super::layers::columns;
use super::part::{parts, Part};
use super::place::{Places, Size};
use super::route::{paths, Path, Point, Step};
use super::{text, Node, Picture};

/// Font size of a node's name.
pub const NAME: f64 = 14.0;
/// Font size of what stands below it.
pub const UNDER: f64 = 11.0;
/// How many signs a line of a node has.
const SIGNS: usize = 24;
/// How many lines a name may take.
const ROWS: usize = 6;
/// Room between parts of the picture.
const ROOM: Point = Point { x: 44.0, y: 40.0 };
/// Room between resources that stand alone.
const LONELY: Point = Point { x: 24.0, y: 22.0 };
/// Parts are set side by side up to this width at least.
const LEAST_WIDTH: f64 = 480.0;

/// A rectangle.
#[derive(Clone, Copy, Debug, Default)]
pub struct Area {
    /// From the left.
    pub x: f64,
    /// From above.
    pub y: f64,
    /// From left to right.
    pub width: f64,
    /// From above to below.
    pub height: f64,
}

/// Where all stands.
pub struct Layout {
    /// The width of all.
    pub width: f64,
    /// The height of all.
    pub height: f64,
    /// The place of each node.
    pub areas: Vec<Area>,
    /// The way of each arrow; none if it goes to where it comes from.
    pub paths: Vec<Option<Path>>,
}

/// A part whose nodes and arrows have their places.
struct Block {
    /// The part.
    part: Part,
    /// The width of all.
    width: f64,
    /// The height of all.
    height: f64,
    /// The places of its nodes.
    areas: Vec<Area>,
    /// The ways of its arrows.
    paths: Vec<Path>,
}

/// The lines of a node: its name, and what stands below.
pub fn label(node: &Node) -> (Vec<String>, Vec<String>) {
    (
        text::lines(&node.name, SIGNS, ROWS),
        text::lines(&node.under, SIGNS, ROWS),
    )
}

/// Lays out a picture.
pub fn layout(picture: &Picture) -> Layout {
    let mut layout = Layout {
        width: 0.0,
        height: 0.0,
        areas: vec![Area::default(); picture.nodes.len()],
        paths: picture.arrows.iter().map(|_| None).collect(),
    };
    let (lonely, joined): (Vec<Part>, Vec<Part>) =
        parts(picture).into_iter().partition(Part::is_lonely);
    let mut joined: Vec<Block> = joined
        .into_iter()
        .map(|part| block(picture, part))
        .collect();
    joined.sort_by_key(|block| block.part.rank());
    let mut lonely: Vec<Block> = lonely
        .into_iter()
        .map(|part| block(picture, part))
        .collect();
    align(&mut lonely);
    let width = sheet(&joined, &lonely);
    layout.shelve(joined, width, ROOM);
    layout.shelve(lonely, width, LONELY);
    layout
}

/// Lays out a part.
fn block(picture: &Picture, part: Part) -> Block {
    let sizes: Vec<Size> = part
        .nodes
        .iter()
        .map(|&node| size(&picture.nodes[node]))
        .collect();
    let chart = Chart::new(&part, columns(&part));
    let places = Places::new(&chart, &sizes);
    let areas = (0..part.nodes.len())
        .map(|node| {
            let (x, width) = places.columns[chart.spots[node].column];
            let height = places.heights[node];
            let y = places.middles[node] - height / 2.0;
            Area {
                x,
                y,
                width,
                height,
            }
        })
        .collect();
    let paths = paths(&chart, &places);
    let last = places.columns.len().saturating_sub(1);
    let right = paths.iter().map(Path::right);
    Block {
        width: right.fold(places.right(last), f64::max),
        height: places.bottom(),
        areas,
        paths,
        part,
    }
}

/// The size of a node by its lines.
fn size(node: &Node) -> Size {
    let (name, under) = label(node);
    let names = name.iter().map(|line| text::width(line, NAME * 1.05));
    let unders = under.iter().map(|line| text::width(line, UNDER));
    let width = names.chain(unders).fold(0.0, f64::max) + 28.0;
    let height = name.len() as f64 * (NAME + 3.0) + under.len() as f64 * (UNDER + 3.0) + 13.0;
    Size {
        width: width.max(76.0),
        height: height.max(44.0),
    }
}

/// Makes single nodes equal in size.
fn align(blocks: &mut [Block]) {
    let width = blocks.iter().map(|block| block.width).fold(0.0, f64::max);
    let height = blocks.iter().map(|block| block.height).fold(0.0, f64::max);
    for block in blocks {
        (block.width, block.height) = (width, height);
        for area in &mut block.areas {
            (area.width, area.height) = (width, height);
        }
    }
}

/// The width of the sheet: that of the widest block, more if there are many.
fn sheet(joined: &[Block], lonely: &[Block]) -> f64 {
    let mut widest = LEAST_WIDTH;
    let mut area = 0.0;
    for (blocks, room) in [(joined, ROOM), (lonely, LONELY)] {
        for block in blocks {
            widest = block.width.max(widest);
            area += (block.width + room.x) * (block.height + room.y);
        }
    }
    (area * 1.7).sqrt().max(widest)
}

impl Layout {
    /// Sets blocks side by side below what is there, in rows of that width.
    fn shelve(&mut self, blocks: Vec<Block>, width: f64, room: Point) {
        let start = if self.height > 0.0 { ROOM.y } else { 0.0 };
        let mut at = Point {
            x: 0.0,
            y: self.height + start,
        };
        for block in blocks {
            if at.x > 0.0 && at.x + block.width > width {
                at = Point {
                    x: 0.0,
                    y: self.height + room.y,
                };
            }
            self.width = self.width.max(at.x + block.width);
            self.height = self.height.max(at.y + block.height);
            let next = at.x + block.width + room.x;
            self.put(block, at);
            at.x = next;
        }
    }

    /// Puts a block at a point.
    fn put(&mut self, block: Block, at: Point) {
        for (&node, area) in block.part.nodes.iter().zip(&block.areas) {
            self.areas[node] = Area {
                x: area.x + at.x,
                y: area.y + at.y,
                ..*area
            };
        }
        let moved = |point: Point| Point {
            x: point.x + at.x,
            y: point.y + at.y,
        };
        for (&id, path) in block.part.ids.iter().zip(&block.paths) {
            let steps = path.steps.iter().map(|step| match *step {
                Step::Line(to) => Step::Line(moved(to)),
                Step::Curve(one, other, to) => Step::Curve(moved(one), moved(other), moved(to)),
            });
            self.paths[id] = Some(Path {
                start: moved(path.start),
                steps: steps.collect(),
            });
        }
    }
}
