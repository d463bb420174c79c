//! Parts of a picture that no arrow joins.

use super::{Kind, Picture};
use std::cmp::Reverse;

/// Nodes that arrows join, in whichever direction.
pub struct Part {
    /// Places of its nodes in the picture.
    pub nodes: Vec<usize>,
    /// Whether a node comes first: main and groups.
    pub first: Vec<bool>,
    /// Arrows between two different nodes, by their places in `nodes`.
    pub arrows: Vec<(usize, usize)>,
    /// Places of these arrows in the picture.
    pub ids: Vec<usize>,
}

impl Part {
    /// Whether it is one resource by itself.
    pub fn is_lonely(&self) -> bool {
        self.nodes.len() == 1 && !self.has_first()
    }

    /// By which parts are sorted: those with main or a group first, then the
    /// larger before the smaller.
    pub fn rank(&self) -> (bool, Reverse<usize>) {
        let first = self.has_first();
        (!first, Reverse(if first { 0 } else { self.nodes.len() }))
    }

    /// Whether main or a group is in it.
    pub fn has_first(&self) -> bool {
        self.first.contains(&true)
    }
}

/// The parts of a picture, in the order of their first nodes.
pub fn parts(picture: &Picture) -> Vec<Part> {
    let roots = roots(picture);
    let mut parts: Vec<Part> = Vec::new();
    let mut part_of = vec![0; roots.len()];
    let mut local = vec![0; roots.len()];
    for (node, &root) in roots.iter().enumerate() {
        if root == node {
            part_of[node] = parts.len();
            parts.push(Part {
                nodes: Vec::new(),
                first: Vec::new(),
                arrows: Vec::new(),
                ids: Vec::new(),
            });
        }
        part_of[node] = part_of[root];
        let part = &mut parts[part_of[node]];
        local[node] = part.nodes.len();
        part.nodes.push(node);
        let kind = picture.nodes[node].kind;
        part.first.push(matches!(kind, Kind::Main | Kind::Group));
    }
    for (id, &(from, to)) in picture.arrows.iter().enumerate() {
        if from != to {
            let part = &mut parts[part_of[from]];
            part.arrows.push((local[from], local[to]));
            part.ids.push(id);
        }
    }
    parts
}

/// For each node, the least node that arrows join it with.
fn roots(picture: &Picture) -> Vec<usize> {
    let mut parents: Vec<usize> = (0..picture.nodes.len()).collect();
    for &(from, to) in &picture.arrows {
        let one = root(&mut parents, from);
        let other = root(&mut parents, to);
        parents[one.max(other)] = one.min(other);
    }
    (0..parents.len())
        .map(|node| root(&mut parents, node))
        .collect()
}

/// Follows the parents of a node to the last, and shortens the way.
fn root(parents: &mut [usize], mut node: usize) -> usize {
    while parents[node] != node {
        parents[node] = parents[parents[node]];
        node = parents[node];
    }
    node
}
