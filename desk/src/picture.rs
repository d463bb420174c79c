//! Who holds what, as a graph to draw.

mod chart;
mod dot;
mod layers;
mod layout;
mod legend;
mod order;
mod part;
mod place;
mod route;
mod shape;
mod svg;
mod text;

pub use dot::dot;
pub use svg::svg;

/// A graph of holders and what they hold.
pub struct Picture {
    /// What stands above it.
    pub title: String,
    /// Holders, and what is held.
    pub nodes: Vec<Node>,
    /// From a holder to what it holds, by their places in `nodes`; a node may
    /// hold itself.
    pub arrows: Vec<(usize, usize)>,
}

/// A holder or a resource.
pub struct Node {
    /// `main`, an object's number, or a group's numbers.
    pub name: String,
    /// What stands below the name, `form 2`; may be empty.
    pub under: String,
    /// How it is drawn.
    pub kind: Kind,
}

/// The kinds of node.
#[derive(Clone, Copy, Debug, PartialEq, Eq)]
pub enum Kind {
    /// Main.
    Main,
    /// Several holders together.
    Group,
    /// A resource that is there from the start.
    Device,
    /// A resource that was made.
    Resource,
}
